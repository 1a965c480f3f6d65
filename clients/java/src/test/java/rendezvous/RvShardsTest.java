package rendezvous;

import static org.junit.jupiter.api.Assertions.assertEquals;
import static org.junit.jupiter.api.Assertions.assertInstanceOf;
import static org.junit.jupiter.api.Assertions.assertSame;
import static org.junit.jupiter.api.Assertions.assertThrows;
import static org.junit.jupiter.api.Assertions.assertTrue;

import com.google.gson.JsonObject;
import java.util.ArrayList;
import java.util.List;
import java.util.concurrent.CompletableFuture;
import java.util.concurrent.CompletionException;
import java.util.concurrent.CountDownLatch;
import java.util.concurrent.TimeUnit;
import java.util.function.Function;
import java.util.function.UnaryOperator;
import java.util.stream.IntStream;
import java.util.stream.Stream;
import org.junit.jupiter.api.AfterEach;
import org.junit.jupiter.api.Test;
import org.junit.jupiter.api.Timeout;

/** Queues and exchangers over several servers. Three live ones, of which one is killed, are tests/clients/java_shards.py's. */
@Timeout(value = 2, unit = TimeUnit.MINUTES)
final class RvShardsTest {
    private static final int SERVERS = 3;
    private final long first = OwnNumbers.first();
    private final List<Answering> servers = new ArrayList<>();

    /** Shards at servers that answer so, whose numbers are leased from this test's. */
    private RvShards shards(Function<JsonObject, JsonObject> answer) throws Exception {
        return shards(answer, builder -> builder.clients(first, first + SERVERS - 1));
    }

    private RvShards shards(Function<JsonObject, JsonObject> answer, UnaryOperator<RvClients.Builder> chooses) throws Exception {
        for (int each = 0; each < SERVERS; each++) {
            servers.add(new Answering(answer));
        }
        return RvShards.of(servers.stream().map(each -> "127.0.0.1:" + each.port()).toList(), chooses);
    }

    @AfterEach
    void close() throws Exception {
        for (Answering each : servers) {
            each.close();
        }
    }

    private static JsonObject well(JsonObject message) {
        return Bodies.word(message, "kind").equals("request") && Bodies.word(message, "call").equals("swap")
            ? Answering.reply(message, key -> new Outcome.Swapped(key, "theirs")) : Answering.well(message);
    }

    /** The numbers of the queues, or of the exchangers, that a server was asked at. */
    private static List<Long> places(Answering server, String kind) {
        return server.asked().stream().filter(message -> message.has(kind)).map(message -> Bodies.number(message, kind)).toList();
    }

    @Test
    void eachQueueAndExchangerIsAtItsServer() throws Exception {
        try (RvShards shards = shards(RvShardsTest::well)) {
            for (int place : new int[] {0, 1, 2, 3, 62, 63}) {
                shards.queue(place).put("a");
                assertEquals("theirs", shards.exchanger(place).exchange("mine"));
            }
        }
        for (String kind : List.of("queue", "exchanger")) {
            assertEquals(List.of(List.of(0L, 3L, 63L), List.of(1L), List.of(2L, 62L)),
                servers.stream().map(each -> places(each, kind)).toList());
        }
    }

    @Test
    void nothingIsAskedOrLeasedAtAServerThatNobodyUses() throws Exception {
        try (RvShards shards = shards(RvShardsTest::well)) {
            shards.queue(1).put("a");
            shards.queue(4).put("b");
            assertEquals(List.of(0, 1, 0), servers.stream().map(Answering::connections).toList());
            assertTrue(LeasesTest.isFree(first + 1) && LeasesTest.isFree(first + 2), "more than one number is leased");
        }
        LeasesTest.assertFree(first);
    }

    @Test
    void noNumberIsLeasedTwice() throws Exception {
        try (RvShards shards = shards(RvShardsTest::well)) {
            IntStream.range(0, SERVERS).forEach(queue -> shards.queue(queue).put("a"));
            assertEquals(List.of(first, first + 1, first + 2), servers.stream()
                .flatMap(each -> each.hellos().stream()).map(hello -> Bodies.number(hello, "client")).sorted().toList());
        }
    }

    @Test
    void eachOfThemIsAlwaysTheSameObject() throws Exception {
        try (RvShards shards = shards(RvShardsTest::well)) {
            assertSame(shards.queue(5), shards.queue(5));
            assertSame(shards.exchanger(5), shards.exchanger(5));
            assertSame(shards.clients(2), shards.clients(5));
        }
    }

    @Test
    void theOutcomeOfAThreadsLastCallIsItsServers() throws Exception {
        try (RvShards shards = shards(RvShardsTest::well)) {
            shards.queue(1).put("a");
            assertInstanceOf(Outcome.Done.class, shards.clients(1).last().orElseThrow());
            assertTrue(shards.clients(0).last().isEmpty());
        }
    }

    @Test
    void aCloseEndsTheCallsAtAllServersAndTellsWhatIsNotSettled() throws Exception {
        RvShards shards = shards(message -> null);
        List<CompletableFuture<String>> takes = Stream.of(0, 1, 2).map(queue -> shards.queue(queue).takeAsync()).toList();
        for (Answering each : servers) {
            each.awaitAsked(1);
        }
        shards.close();
        for (CompletableFuture<String> take : takes) {
            assertInstanceOf(RvException.Unsettled.class, assertThrows(CompletionException.class, take::join).getCause());
        }
        assertEquals(List.of(1L, 1L, 1L), shards.unsettled().stream().map(session -> session.key().number()).toList());
        assertThrows(IllegalStateException.class, () -> shards.queue(0).put("a"));
        assertTrue(shards.toString().contains("closed"), shards::toString);
    }

    private static boolean awaited(CountDownLatch latch) {
        try {
            latch.await();
            return true;
        } catch (InterruptedException never) {
            throw new IllegalStateException(never);
        }
    }

    /** The first server answers a cancel only once the second one's call has ended, as a close ends it at once. */
    @Test
    void aCloseWaitsForTheCallsOfAllServersTogether() throws Exception {
        CountDownLatch ended = new CountDownLatch(1);
        RvShards shards = shards(message -> Bodies.word(message, "kind").equals("cancel") && awaited(ended)
            ? Answering.reply(message, key -> new Outcome.Item(key, "late")) : null,
            builder -> builder.clients(first, first + SERVERS - 1).grace(Answering.LONG));
        CompletableFuture<String> cancelled = shards.queue(0).takeAsync();
        shards.queue(1).takeAsync().whenComplete((item, fault) -> ended.countDown());
        servers.get(0).awaitAsked(1);
        servers.get(1).awaitAsked(1);
        cancelled.cancel(true);
        servers.get(0).awaitAsked(2);
        shards.close();
        assertEquals(List.of("late"), shards.queue(0).unclaimed());
    }

    @Test
    void whatIsChosenIsChosenForEach() throws Exception {
        UnaryOperator<RvClients.Builder> chooses = builder -> builder.clients(7, 7).unleased().incarnation(5).version(1);
        try (RvShards shards = shards(RvShardsTest::well, chooses)) {
            IntStream.range(0, SERVERS).forEach(queue -> shards.queue(queue).put("a"));
        }
        for (Answering each : servers) {
            JsonObject hello = each.hellos().get(0);
            assertEquals(List.of(7L, 5L), List.of(Bodies.number(hello, "client"), Bodies.number(hello, "incarnation")));
            assertTrue(!hello.has("version"), hello::toString);
        }
    }

    @Test
    void whatIsNoShardIsRefused() throws Exception {
        assertThrows(IllegalArgumentException.class, () -> RvShards.of(List.of()));
        assertThrows(NullPointerException.class, () -> RvShards.of(null));
        IllegalArgumentException fault =
            assertThrows(IllegalArgumentException.class, () -> RvShards.of(List.of("127.0.0.1:1", "127.0.0.1:0")));
        assertEquals("port of server 1, in the address 127.0.0.1:0", fault.getMessage());
        try (RvShards shards = shards(RvShardsTest::well)) {
            for (int place : new int[] {-1, 64}) {
                assertThrows(IllegalArgumentException.class, () -> shards.queue(place));
                assertThrows(IllegalArgumentException.class, () -> shards.exchanger(place));
                assertThrows(IllegalArgumentException.class, () -> shards.clients(place));
            }
        }
    }
}
