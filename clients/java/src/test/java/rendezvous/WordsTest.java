package rendezvous;

import static org.junit.jupiter.api.Assertions.assertEquals;
import static org.junit.jupiter.api.Assertions.assertSame;
import static org.junit.jupiter.api.Assertions.assertThrows;
import static org.junit.jupiter.api.Assertions.assertTrue;

import java.io.ByteArrayInputStream;
import java.io.ByteArrayOutputStream;
import java.io.IOException;
import java.io.ObjectInputStream;
import java.io.ObjectOutputStream;
import java.io.Serializable;
import java.lang.reflect.Field;
import java.lang.reflect.Modifier;
import java.nio.charset.StandardCharsets;
import java.nio.file.Files;
import java.nio.file.Path;
import java.time.Duration;
import java.time.temporal.ChronoUnit;
import java.util.ArrayList;
import java.util.Arrays;
import java.util.List;
import java.util.Optional;
import java.util.Set;
import java.util.concurrent.TimeUnit;
import java.util.regex.Matcher;
import java.util.regex.Pattern;
import java.util.stream.Collectors;
import java.util.stream.Stream;
import org.junit.jupiter.api.Test;
import org.junit.jupiter.api.Timeout;
import org.junit.jupiter.api.function.Executable;

/** What the clients say of what they are given, and what of it goes to another program. */
@Timeout(value = 5, unit = TimeUnit.MINUTES)
final class WordsTest {
    private static final Class<IllegalArgumentException> ILLEGAL = IllegalArgumentException.class;
    private static final Class<NullPointerException> NULL = NullPointerException.class;
    private static final Key KEY = new Key(9, 1, 2, 3);
    private static final long FIRST = OwnNumbers.first();

    /** A call with something that it does not take, what it throws, and a word of that. */
    private record Row(Executable call, Class<? extends RuntimeException> kind, String word) {
        void judge() {
            RuntimeException thrown = assertThrows(kind, call, word);
            assertSame(kind, thrown.getClass(), thrown::toString);
            assertTrue(String.valueOf(thrown.getMessage()).contains(word), thrown::toString);
        }
    }

    private static List<Row> ofBuilders() {
        List<Row> rows = new ArrayList<>();
        rows.add(new Row(() -> RvClients.builder(null, 7411), NULL, "host"));
        rows.add(new Row(() -> RvClients.builder(null), NULL, "address"));
        rows.add(new Row(() -> RvClients.builder("a:1,b"), ILLEGAL, "port of server 2"));
        for (String host : List.of("", "rv://a", "a b", "a/b", "a:7411", "user@a", "a\0", "[::1", "::1]")) {
            rows.add(new Row(() -> RvClients.builder(host, 7411).clients(FIRST, FIRST).build(), ILLEGAL, "host"));
        }
        for (int port : new int[] {0, -1, 65_536}) {
            rows.add(new Row(() -> RvClients.builder("a", port).clients(FIRST, FIRST).build(), ILLEGAL, "port"));
        }
        for (int version : new int[] {0, 3}) {
            rows.add(new Row(() -> RvClients.builder("a", 1).clients(FIRST, FIRST).version(version).build(), ILLEGAL, "version"));
        }
        RvClients.Builder builder = RvClients.builder("a", 1).clients(FIRST, FIRST);
        rows.add(new Row(() -> builder.clients(0, 1), ILLEGAL, "clients"));
        rows.add(new Row(() -> builder.clients(1, 1L << 53), ILLEGAL, "clients"));
        rows.add(new Row(() -> builder.incarnation(0), ILLEGAL, "incarnation"));
        rows.add(new Row(() -> builder.patience(null), NULL, "patience"));
        RvClients.Builder impatient = RvClients.builder("a", 1).clients(FIRST, FIRST).patience(Duration.ofNanos(-1));
        rows.add(new Row(impatient::build, ILLEGAL, "patience"));
        rows.add(new Row(() -> builder.connectTimeout(null), NULL, "connectTimeout"));
        rows.add(new Row(() -> builder.connectTimeout(Duration.ofNanos(-1)), ILLEGAL, "connectTimeout"));
        rows.add(new Row(() -> builder.presence(null), NULL, "presence"));
        for (Duration time : List.of(Duration.ZERO, Duration.ofNanos(-1), Duration.ofDays(1).plusNanos(1),
                ChronoUnit.FOREVER.getDuration())) {
            rows.add(new Row(() -> builder.presence(time), ILLEGAL, "presence"));
        }
        rows.add(new Row(() -> builder.retry(null), NULL, "retry"));
        rows.add(new Row(() -> builder.executor(null), NULL, "executor"));
        rows.add(new Row(() -> builder.record(null), NULL, "record"));
        return rows;
    }

    private static List<Row> ofRetries() {
        Duration second = Duration.ofSeconds(1);
        Duration less = Duration.ofNanos(-1);
        return List.of(new Row(() -> new Retry(null, second, second), NULL, "firstPause"),
            new Row(() -> new Retry(second, null, second), NULL, "largestPause"),
            new Row(() -> new Retry(second, second, null), NULL, "patience"),
            new Row(() -> new Retry(Duration.ZERO, second, second), ILLEGAL, "firstPause"),
            new Row(() -> new Retry(less, second, second), ILLEGAL, "firstPause"),
            new Row(() -> new Retry(second, second.minusNanos(1), second), ILLEGAL, "largestPause"),
            new Row(() -> Retry.USUAL.withPatience(less), ILLEGAL, "patience"));
    }

    private static List<Row> ofPlaces(RvClients clients) {
        List<Row> rows = new ArrayList<>();
        for (int place : new int[] {-1, 64}) {
            rows.add(new Row(() -> new RvTransferQueue(clients, place), ILLEGAL, "queue"));
            rows.add(new Row(() -> new RvExchanger(clients, place), ILLEGAL, "exchanger"));
        }
        rows.add(new Row(() -> new RvTransferQueue(null, 3), NULL, "clients"));
        rows.add(new Row(() -> new RvExchanger(null, 3), NULL, "clients"));
        return rows;
    }

    /** Each call that gives an item. */
    private static List<Row> ofItems(RvTransferQueue queue, RvExchanger exchanger, String item,
            Class<? extends RuntimeException> kind) {
        List<Executable> calls = List.of(() -> queue.put(item), () -> queue.transfer(item), () -> queue.transferReceipt(item),
            () -> queue.tryTransfer(item), () -> queue.tryTransferReceipt(item), () -> queue.tryTransfer(item, 1, TimeUnit.DAYS),
            () -> queue.tryTransferReceipt(item, 1, TimeUnit.DAYS), () -> queue.transferAsync(item),
            () -> queue.transferAsync(item, 1, TimeUnit.DAYS), () -> exchanger.exchange(item),
            () -> exchanger.exchange(item, 1, TimeUnit.DAYS));
        return calls.stream().map(call -> new Row(call, kind, "item")).toList();
    }

    /** Each call that has a time, and those that are given something else. */
    private static List<Row> ofOthers(RvTransferQueue queue, RvExchanger exchanger) {
        List<Executable> timed = List.of(() -> queue.tryTransfer("a", 1, null), () -> queue.tryTransferReceipt("a", 1, null),
            () -> queue.poll(1, null), () -> queue.takeAsync(1, null), () -> queue.transferAsync("a", 1, null),
            () -> exchanger.exchange("a", 1, null));
        return Stream.concat(timed.stream().map(call -> new Row(call, NULL, "unit")), Stream.of(
            new Row(() -> queue.drainTo(null), NULL, "collection"), new Row(() -> queue.drainTo(null, 1), NULL, "collection"),
            new Row(() -> queue.drainTo(queue), ILLEGAL, "queue"), new Row(() -> queue.consumer().forEach(null), NULL, "action")))
            .toList();
    }

    @Test
    void whatIsNotTakenIsNamedBeforeAnythingIsLeasedOrSent() throws Exception {
        try (Answering server = new Answering(Answering::well); RvClients clients = server.clients(1, 1).build()) {
            RvTransferQueue queue = new RvTransferQueue(clients, 3);
            RvExchanger exchanger = new RvExchanger(clients, 3);
            ofBuilders().forEach(Row::judge);
            ofRetries().forEach(Row::judge);
            ofPlaces(clients).forEach(Row::judge);
            ofItems(queue, exchanger, null, NULL).forEach(Row::judge);
            ofItems(queue, exchanger, "a".repeat(513), ILLEGAL).forEach(Row::judge);
            ofItems(queue, exchanger, "\ud800", ILLEGAL).forEach(Row::judge);
            ofOthers(queue, exchanger).forEach(Row::judge);
            assertEquals(0, server.connections());
        }
        Leases leases = new Leases(new ClientRange(FIRST, FIRST));
        leases.next().orElseThrow(leases::none).giveBack();
    }

    @Test
    void timesWithoutAnEndAreTaken() {
        Duration forEver = ChronoUnit.FOREVER.getDuration();
        RvClients.builder("a", 1).clients(FIRST, FIRST).patience(forEver).connectTimeout(forEver).build().close();
        RvClients.builder("::1", 1).clients(FIRST, FIRST).patience(Duration.ZERO).connectTimeout(Duration.ZERO).build().close();
        RvClients.builder("[fe80::1%eth0]", 1).clients(FIRST, FIRST).patientForEver().build().close();
    }

    /** One of each kind, and more of some. */
    private static List<RvException> exceptions() {
        Outcome outcome = new Receipt(KEY, Optional.of(new Key(9, 4, 5, 6)));
        RvException parent = new RvException.Unsettled(KEY, true, "no answer came in time");
        parent.addSuppressed(new RvException.NotAsked("a:1: connection refused"));
        return List.of(parent, new RvException.Unsettled(KEY, false, "it was closed"), new RvException.NotAsked("it was closed"),
            new RvException.Full(null), new RvException.Full(KEY), new RvException.EpochEnded(KEY, 10),
            new RvException.Replaced(KEY, 3), new RvException.Refused(null, 12, 1L, 2), new RvException.Refused(KEY, 6, null, 2),
            new RvException.NotRecorded(outcome, "{}\n".getBytes(StandardCharsets.UTF_8), new RecordFile(Path.of("told.jsonl")),
                new IOException("no space left on device")));
    }

    private static List<Outcome> outcomes() {
        return List.of(new Receipt(KEY, Optional.empty()), new Receipt(KEY, Optional.of(new Key(9, 4, 5, 6))),
            new Outcome.Done(KEY), new Outcome.Nobody(KEY), new Outcome.Item(KEY, "a"), new Outcome.Empty(KEY), new Outcome.Swapped(KEY, "a"),
            new Outcome.TimedOut(KEY), new Outcome.Cancelled(KEY), new Outcome.Counted(KEY, 1, 2), new Outcome.Peeked(KEY, "a"),
            new Outcome.Drained(KEY, List.of()), new Outcome.Drained(KEY, List.of("a", "b")));
    }

    /** What is read of what was written. */
    private static Object copied(Serializable one) throws IOException, ClassNotFoundException {
        ByteArrayOutputStream bytes = new ByteArrayOutputStream();
        try (ObjectOutputStream out = new ObjectOutputStream(bytes)) {
            out.writeObject(one);
        }
        try (ObjectInputStream in = new ObjectInputStream(new ByteArrayInputStream(bytes.toByteArray()))) {
            return in.readObject();
        }
    }

    private static Set<Class<?>> kinds(List<?> all) {
        return all.stream().map(Object::getClass).collect(Collectors.toSet());
    }

    /** What an exception has, by its name. */
    private static List<String> parts(Throwable fault) throws IllegalAccessException {
        List<String> parts = new ArrayList<>(List.of(fault.toString(), String.valueOf(fault.getCause())));
        parts.add(Arrays.toString(fault.getSuppressed()));
        for (Class<?> kind : List.of(fault.getClass(), fault.getClass().getSuperclass())) {
            for (Field field : kind.getDeclaredFields()) {
                if (!Modifier.isStatic(field.getModifiers())) {
                    field.setAccessible(true);
                    parts.add(field.getName() + " " + field.get(fault));
                }
            }
        }
        return parts;
    }

    @Test
    void outcomesAndKeysAreSerialized() throws Exception {
        assertEquals(Set.of(Outcome.class.getPermittedSubclasses()), kinds(outcomes()));
        for (Outcome each : outcomes()) {
            assertEquals(each, copied(each));
        }
        assertEquals(KEY, copied(KEY));
    }

    @Test
    void exceptionsAreSerializedWithAllThatTheyHave() throws Exception {
        assertEquals(Set.of(RvException.class.getPermittedSubclasses()), kinds(exceptions()));
        for (RvException each : exceptions()) {
            RvException copy = (RvException) copied(each);
            assertEquals(parts(each), parts(copy));
            assertEquals(each.key(), copy.key());
        }
        RvException.NotRecorded unrecorded = (RvException.NotRecorded) copied(exceptions().get(9));
        assertEquals(outcomes().get(1), unrecorded.outcome());
        assertEquals("none", ((NoClientNumber) copied(new NoClientNumber("none"))).getMessage());
    }

    @Test
    void theVersionIsThatOfTheBuild() throws IOException {
        Path pom = Stream.iterate(Path.of("").toAbsolutePath(), path -> path != null, Path::getParent)
            .flatMap(path -> Stream.of(path.resolve("pom.xml"), path.resolve("clients/java/pom.xml")))
            .filter(Files::isRegularFile).findFirst().orElseThrow();
        Matcher found = Pattern.compile("(?m)^  <version>(.+)</version>$").matcher(Files.readString(pom));
        assertTrue(found.find());
        assertEquals(found.group(1), RvClients.VERSION);
    }
}
