package rendezvous;

import static org.junit.jupiter.api.Assertions.assertEquals;
import static org.junit.jupiter.api.Assertions.assertThrows;
import static org.junit.jupiter.api.Assertions.assertTrue;

import com.google.gson.JsonObject;
import java.net.URLEncoder;
import java.nio.charset.StandardCharsets;
import java.nio.file.Files;
import java.nio.file.Path;
import java.time.Duration;
import java.util.List;
import java.util.Map;
import java.util.Optional;
import java.util.concurrent.TimeUnit;
import org.junit.jupiter.api.Test;
import org.junit.jupiter.api.Timeout;
import org.junit.jupiter.api.io.TempDir;

/** What an address chooses, and what the environment does where none is given. Its grammar is on the table of addresses. */
@Timeout(value = 2, unit = TimeUnit.MINUTES)
final class AddressTest {
    private final long first = OwnNumbers.first();

    private static void puts(RvClients clients) {
        new RvTransferQueue(clients, 3).put("a");
    }

    /** Clients of a server by an address with these options. */
    private static RvClients.Builder at(Answering server, String options) {
        return RvClients.builder("rv://127.0.0.1:" + server.port() + "?" + options);
    }

    @Test
    void theEnvironmentNamesTheServerWhereNoneIsGiven() {
        assertEquals(Address.of("127.0.0.1", 7411), Address.of(Map.of()));
        assertEquals(Address.of("127.0.0.1", 7411), Address.of(Map.of("RV_SERVER", "")));
        assertEquals(Address.of("a:1,b:2"), Address.of(Map.of("RV_SERVER", "a:1,b:2")));
        String words = assertThrows(IllegalArgumentException.class, () -> Address.of(Map.of("RV_SERVER", "a:0"))).getMessage();
        assertTrue(words.startsWith("port of server 1") && words.contains("RV_SERVER"), words);
    }

    @Test
    void clientsAreShownByAllTheirServers() {
        try (RvClients clients = RvClients.builder("rv://a:1,[::1]:2?patience=3").clients(first, first).build()) {
            assertEquals("RvClients[a:1,[::1]:2, 0 sessions, 0 running, 0 unsettled]", clients.toString());
        }
    }

    @Test
    void theAddressChoosesTheClientAndTheVersion() throws Exception {
        try (Answering server = new Answering(Answering::well);
                RvClients clients = at(server, "client=" + first + "&version=1").build()) {
            puts(clients);
            JsonObject hello = server.hellos().get(0);
            assertEquals(first, Bodies.number(hello, "client"));
            assertTrue(!hello.has("version"), hello::toString);
        }
    }

    @Test
    void twoThatAreGivenOneNumberNeverHaveItAtATime() throws Exception {
        String options = "client=" + first;
        try (Answering server = new Answering(Answering::well); RvClients other = at(server, options).build()) {
            try (RvClients one = at(server, options).build()) {
                puts(one);
                assertThrows(NoClientNumber.class, () -> puts(other));
            }
            LeasesTest.assertFree(first);
            puts(other);
            assertEquals(2, server.hellos().size());
        }
    }

    @Test
    void whatTheBuilderSaysHoldsWhateverTheAddressSays(@TempDir Path folder) throws Exception {
        Path kept = folder.resolve("kept");
        try (Answering server = new Answering(Answering::well);
                RvClients clients = at(server, "client=" + first + "&version=1&record=" + coded(folder.resolve("other")))
                    .clients(first + 1, first + 1).unleased().incarnation(5).version(2).record(kept).build()) {
            puts(clients);
            JsonObject hello = server.hellos().get(0);
            assertEquals(List.of(first + 1, 5L, 2L),
                List.of(Bodies.number(hello, "client"), Bodies.number(hello, "incarnation"), Bodies.number(hello, "version")));
            assertEquals(List.of(kept), files(folder));
        }
    }

    @Test
    void theAddressNamesARecordAndTheBuilderMayHaveNone(@TempDir Path folder) throws Exception {
        String options = "client=" + first + "&record=" + coded(folder.resolve("told & kept"));
        try (Answering server = new Answering(Answering::well)) {
            try (RvClients clients = at(server, options).unrecorded().build()) {
                puts(clients);
            }
            assertEquals(List.of(), files(folder));
            LeasesTest.assertFree(first);
            try (RvClients clients = at(server, options).build()) {
                puts(clients);
            }
            assertEquals(List.of(folder.resolve("told & kept")), files(folder));
        }
    }

    @Test
    void thePatienceIsThatOfTheAddressUntilTheBuilderNamesOne() {
        String address = "rv://a:1?patience=2.5";
        assertEquals(Duration.ofMillis(2_500), RvClients.builder(address).patience());
        assertEquals(Duration.ofMinutes(1), RvClients.builder("a:1").patience());
        assertEquals(Duration.ofSeconds(7), RvClients.builder(address).patience(Duration.ofSeconds(7)).patience());
        assertEquals(Optional.empty(), Optional.ofNullable(RvClients.builder(address).patientForEver().patience()));
        assertEquals(Duration.ofHours(1),
            RvClients.builder(address).retry(Retry.USUAL.withPatience(Duration.ofHours(1))).patience());
    }

    /** A path as an option's value. */
    private static String coded(Path path) {
        return URLEncoder.encode(path.toString(), StandardCharsets.UTF_8).replace("+", "%20");
    }

    private static List<Path> files(Path folder) throws Exception {
        try (var files = Files.list(folder)) {
            return files.toList();
        }
    }
}
