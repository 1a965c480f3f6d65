package rendezvous;

import static org.junit.jupiter.api.Assertions.assertEquals;
import static org.junit.jupiter.api.Assertions.assertThrows;
import static org.junit.jupiter.api.Assertions.assertTrue;

import com.google.gson.JsonObject;
import java.io.IOException;
import java.nio.file.Path;
import java.time.Duration;
import java.util.ArrayList;
import java.util.List;
import java.util.Optional;
import java.util.concurrent.Callable;
import java.util.concurrent.CompletableFuture;
import java.util.concurrent.TimeUnit;
import java.util.stream.Stream;
import org.junit.jupiter.api.DynamicTest;
import org.junit.jupiter.api.Test;
import org.junit.jupiter.api.TestFactory;
import org.junit.jupiter.api.Timeout;
import org.junit.jupiter.api.io.TempDir;

/** The outcome of a thread's last call: it is that call's or none, however the call ended, and never an earlier one's. */
@Timeout(value = 2, unit = TimeUnit.MINUTES)
final class LastTest {
    /** The request that was there before, and the one that a call asks then. */
    private static final Key EARLIER = new Key(1, 1, 1, 1);
    private static final Key KEY = new Key(1, 1, 1, 2);

    @TempDir
    private static Path folder;

    /** Clients of one number over a scripted link, after a put that was done; then the script is another one. */
    private static final class Place implements ScriptedLink.Script {
        private final RvClients clients;
        private final RvTransferQueue queue;
        private final RvExchanger exchanger;
        private RvSession session;
        private volatile ScriptedLink.Script script = LastTest::reply;
        private volatile boolean isAway;

        Place(Optional<RecordFile> record) {
            clients = new RvClients(1, 1, client -> {
                session = new RvSession(ScriptedLink.of(this), client, 1, Duration.ofMinutes(1), RvSession.ANSWER, 2);
                session.grace(Answering.LONG);
                session.record(record);
                return session;
            });
            queue = new RvTransferQueue(clients, 3);
            exchanger = new RvExchanger(clients, 5);
            ended(() -> put("a"));
            assertEquals(Optional.of(new Outcome.Done(EARLIER)), clients.last());
        }

        Object put(String item) {
            queue.put(item);
            return null;
        }

        /** Messages are answered so from now on. */
        void then(ScriptedLink.Script next) {
            script = next;
        }

        @Override
        public JsonObject answer(JsonObject message) throws IOException {
            return script.answer(message);
        }

        /** Where the server is away, the session is closed meanwhile, so that its call ends. */
        @Override
        public void connects() throws IOException {
            if (isAway) {
                session.close();
                throw new IOException("away");
            }
        }
    }

    /** What a call is. */
    private interface Call {
        Object ask(Place place) throws Exception;
    }

    /** A way to end a call. */
    private interface Way {
        void prepare(Place place) throws Exception;
    }

    private record Named<T>(String name, T what) {}

    /** A way to end a call by an exception. */
    private record Thrown(Class<? extends Throwable> fault, Way way) {}

    private static JsonObject reply(JsonObject message) {
        return Answering.reply(message, key -> Bodies.word(message, "kind").equals("cancel") ? new Outcome.Cancelled(key)
            : switch (Bodies.word(message, "call")) {
                case "put" -> new Outcome.Done(key);
                case "transfer" -> new Receipt(key, Optional.of(new Key(1, 9, 9, 9)));
                case "take" -> new Outcome.Item(key, "b");
                case "swap" -> new Outcome.Swapped(key, "b");
                case "count" -> new Outcome.Counted(key, 1, 1);
                case "peek" -> new Outcome.Peeked(key, "b");
                default -> new Outcome.Drained(key, List.of("b"));
            });
    }

    private static JsonObject refused(int code, String member, long value) {
        JsonObject refused = new JsonObject();
        refused.addProperty("kind", "refused");
        refused.addProperty("code", code);
        if (member != null) {
            refused.addProperty(member, value);
        }
        return refused;
    }

    /** Each call that an interrupt cancels. */
    private static List<Named<Call>> interruptible() {
        return List.of(new Named<>("take", place -> place.queue.take()),
            new Named<>("timed poll", place -> place.queue.poll(1, TimeUnit.DAYS)),
            new Named<>("transfer", place -> place.queue.transferReceipt("a")),
            new Named<>("timed tryTransfer", place -> place.queue.tryTransferReceipt("a", 1, TimeUnit.DAYS)),
            new Named<>("exchange", place -> place.exchanger.exchange("a")),
            new Named<>("timed exchange", place -> place.exchanger.exchange("a", 1, TimeUnit.DAYS)),
            new Named<>("consumer", LastTest::consumed));
    }

    private static Object consumed(Place place) {
        place.queue.consumer().forEach(item -> Thread.currentThread().interrupt());
        return null;
    }

    /** Each other call that asks. */
    private static List<Named<Call>> others() {
        return List.of(new Named<>("put", place -> place.put("a")),
            new Named<>("tryTransfer", place -> place.queue.tryTransfer("a")),
            new Named<>("poll", place -> place.queue.poll()), new Named<>("peek", place -> place.queue.peek()),
            new Named<>("drainTo", place -> place.queue.drainTo(new ArrayList<>())),
            new Named<>("drainTo of one", place -> place.queue.drainTo(new ArrayList<>(), 1)),
            new Named<>("drainTo of a full collection", place -> place.queue.drainTo(List.of())),
            new Named<>("size", place -> place.queue.size()), new Named<>("isEmpty", place -> place.queue.isEmpty()),
            new Named<>("remove", place -> place.queue.remove()), new Named<>("element", place -> place.queue.element()),
            new Named<>("hasWaitingConsumer", place -> place.queue.hasWaitingConsumer()));
    }

    private static List<Named<Call>> all() {
        return Stream.concat(interruptible().stream(), others().stream()).toList();
    }

    /** Each way to end that leaves an outcome, for each call. */
    private static List<Named<Way>> settled() {
        return List.of(new Named<>("a result", place -> { }),
            new Named<>("a cancel that nobody ordered",
                place -> place.then(message -> Answering.reply(message, Outcome.Cancelled::new))));
    }

    /** Each way that leaves none. */
    private static List<Thrown> open() {
        return List.of(
            new Thrown(IllegalStateException.class, place -> place.clients.close()),
            new Thrown(IllegalStateException.class, place -> place.session.close()),
            new Thrown(IllegalStateException.class, LastTest::useUp),
            new Thrown(RvException.NotAsked.class, place -> place.isAway = true),
            new Thrown(RvException.Unsettled.class, place -> place.then(message -> {
                place.session.close();
                throw new IOException("lost");
            })),
            new Thrown(IllegalArgumentException.class, place -> place.then(message -> {
                throw new IllegalArgumentException("broken");
            })),
            new Thrown(RvException.Full.class, place -> place.then(message -> {
                place.isAway = true;
                return refused(10, null, 0);
            })),
            new Thrown(RvException.NotAsked.class, place -> place.then(message -> refused(2, "current", 5))),
            new Thrown(RvException.EpochEnded.class, place -> place.then(message -> {
                place.then(again -> refused(2, "current", 5));
                throw new IOException("lost");
            })),
            new Thrown(RvException.Replaced.class, place -> place.then(message -> refused(4, "current", 9))),
            new Thrown(RvException.Refused.class, place -> place.then(message -> refused(1, null, 0))));
    }

    /** Another thread leaves the only session with a request that is unsettled. */
    private static void useUp(Place place) throws Exception {
        place.then(message -> {
            throw new IllegalArgumentException("broken");
        });
        Calling.of(() -> place.put("b")).thrown();
        assertEquals(List.of(KEY), place.clients.unsettled().stream().map(RvSession::key).toList());
    }

    /** A call's exception, which may be any. */
    private static Optional<Throwable> ended(Callable<?> call) {
        try {
            call.call();
            return Optional.empty();
        } catch (Throwable fault) {
            return Optional.of(fault);
        } finally {
            Thread.interrupted();
        }
    }

    private static DynamicTest test(Named<Call> call, Named<Way> way, Optional<Key> wanted) {
        return DynamicTest.dynamicTest(call.name() + ", " + way.name(), () -> {
            Place place = new Place(Optional.empty());
            way.what().prepare(place);
            Optional<Throwable> fault = ended(() -> call.what().ask(place));
            assertEquals(wanted, place.clients.last().map(Outcome::key), fault::toString);
        });
    }

    private static Stream<DynamicTest> tests(List<Named<Call>> calls, List<Named<Way>> ways, Optional<Key> wanted) {
        return calls.stream().flatMap(call -> ways.stream().map(way -> test(call, way, wanted)));
    }

    @TestFactory
    Stream<DynamicTest> theOutcomeOfACallThatHasOneIsTheLast() {
        return tests(all(), settled(), Optional.of(KEY));
    }

    @TestFactory
    Stream<DynamicTest> aCallWithoutAnOutcomeLeavesNone() {
        return all().stream().flatMap(call -> open().stream().map(each ->
            DynamicTest.dynamicTest(call.name() + ", " + each.fault().getSimpleName(), () -> {
                Place place = new Place(Optional.empty());
                each.way().prepare(place);
                assertEquals(Optional.of(each.fault()), ended(() -> call.what().ask(place)).map(Throwable::getClass));
                assertEquals(Optional.empty(), place.clients.last());
            })));
    }

    @TestFactory
    Stream<DynamicTest> anInterruptBeforeACallLeavesNone() {
        Way way = place -> Thread.currentThread().interrupt();
        return tests(interruptible(), List.of(new Named<>("interrupted before", way)), Optional.empty());
    }

    @TestFactory
    Stream<DynamicTest> anInterruptThroughWhichACallGoesOnLeavesItsOutcome() {
        Way way = place -> Thread.currentThread().interrupt();
        return tests(others(), List.of(new Named<>("interrupted before", way)), Optional.of(KEY));
    }

    @TestFactory
    Stream<DynamicTest> anInterruptOfAWaitLeavesWhatBecameOfTheRequest() {
        Way way = place -> place.then(message -> {
            if (Bodies.word(message, "kind").equals("request")) {
                Thread.currentThread().interrupt();
            }
            return reply(message);
        });
        return tests(interruptible(), List.of(new Named<>("interrupted meanwhile", way)), Optional.of(KEY));
    }

    @TestFactory
    Stream<DynamicTest> anInterruptWhereNothingIsHeardLeavesNone() {
        Way way = place -> {
            place.session.grace(0);
            place.then(message -> {
                Thread.currentThread().interrupt();
                throw new IOException("lost");
            });
        };
        return tests(interruptible(), List.of(new Named<>("interrupted, and nothing is heard", way)), Optional.empty());
    }

    @TestFactory
    Stream<DynamicTest> whatIsNotRecordedIsTheLast() {
        return all().stream().map(call -> DynamicTest.dynamicTest(call.name(), () -> {
            Place place = new Place(Optional.of(new RecordFile(folder)));
            assertTrue(ended(() -> call.what().ask(place)).orElseThrow() instanceof RvException.NotRecorded);
            assertEquals(KEY, place.clients.last().orElseThrow().key());
        }));
    }

    @TestFactory
    Stream<DynamicTest> aWrongArgumentLeavesNone() {
        String item = "x".repeat(513);
        List<Named<Call>> wrong = List.of(new Named<>("put", place -> place.put(item)),
            new Named<>("put of null", place -> place.put(null)),
            new Named<>("transfer", place -> place.queue.transferReceipt(item)),
            new Named<>("tryTransfer", place -> place.queue.tryTransfer(item)),
            new Named<>("timed tryTransfer", place -> place.queue.tryTransfer("a", 1, null)),
            new Named<>("poll", place -> place.queue.poll(1, null)),
            new Named<>("drainTo", place -> place.queue.drainTo(place.queue)),
            new Named<>("drainTo of null", place -> place.queue.drainTo(null, 1)),
            new Named<>("exchange", place -> place.exchanger.exchange(item)),
            new Named<>("timed exchange", place -> place.exchanger.exchange("a", 1, null)),
            new Named<>("takeAsync", place -> place.queue.takeAsync(1, null)),
            new Named<>("transferAsync", place -> place.queue.transferAsync(item)),
            new Named<>("consumer", place -> {
                place.queue.consumer().forEach(null);
                return null;
            }));
        return wrong.stream().map(call -> DynamicTest.dynamicTest(call.name(), () -> {
            Place place = new Place(Optional.empty());
            assertTrue(ended(() -> call.what().ask(place)).isPresent());
            assertEquals(Optional.empty(), place.clients.last());
        }));
    }

    @TestFactory
    Stream<DynamicTest> aCallThatAsksNothingLeavesNone() {
        List<Named<Call>> calls = List.of(new Named<>("take", place -> place.queue.take()),
            new Named<>("poll", place -> place.queue.poll()), new Named<>("peek", place -> place.queue.peek()),
            new Named<>("timed poll", place -> place.queue.poll(1, TimeUnit.DAYS)),
            new Named<>("drainTo", place -> place.queue.drainTo(new ArrayList<>(), 1)),
            new Named<>("drainTo of nothing", place -> place.queue.drainTo(new ArrayList<>(), 0)),
            new Named<>("consumer", LastTest::consumed), new Named<>("takeAsync", place -> place.queue.takeAsync().join()),
            new Named<>("a consumer that is closed", place -> {
                RvConsumer jobs = place.queue.consumer();
                jobs.close();
                jobs.forEach(item -> { });
                return null;
            }));
        return calls.stream().map(call -> DynamicTest.dynamicTest(call.name(), () -> {
            Place place = withUnclaimed();
            assertEquals(Optional.empty(), ended(() -> call.what().ask(place)));
            assertEquals(Optional.empty(), place.clients.last());
        }));
    }

    /** A place where an item is unclaimed, after a put that was done. */
    private static Place withUnclaimed() throws Exception {
        Place place = new Place(Optional.empty());
        CompletableFuture<CompletableFuture<String>> taken = new CompletableFuture<>();
        place.then(message -> {
            taken.join().cancel(true);
            place.then(cancel -> Answering.reply(cancel, key -> new Outcome.Item(key, "late")));
            throw new IOException("lost");
        });
        taken.complete(place.queue.takeAsync());
        while (!place.queue.toString().endsWith("1 unclaimed")) {
            Thread.sleep(1);
        }
        place.then(LastTest::reply);
        place.put("c");
        assertTrue(place.clients.last().isPresent());
        return place;
    }

    @Test
    void aFutureIsNoOutcomeOfWhoBeganIt() throws Exception {
        Place place = new Place(Optional.empty());
        assertEquals("b", place.queue.takeAsync().join());
        assertEquals(Optional.empty(), place.clients.last());
        place.put("a");
        place.queue.transferAsync("a").join();
        assertEquals(Optional.empty(), place.clients.last());
    }

    @Test
    void whatASessionAsksAgainIsTheLast() throws Exception {
        for (boolean gives : List.of(true, false)) {
            Place place = new Place(Optional.empty());
            place.then(message -> {
                throw new IllegalArgumentException("broken");
            });
            ended(() -> place.put("b"));
            RvSession left = place.clients.unsettled().get(0);
            place.then(LastTest::reply);
            assertEquals(KEY, (gives ? left.giveUp() : left.again()).key());
            assertEquals(KEY, place.clients.last().orElseThrow().key());
            assertThrows(IllegalStateException.class, left::again);
            assertEquals(Optional.empty(), place.clients.last());
            place.put("c");
            Thread.currentThread().interrupt();
            assertThrows(InterruptedException.class, left::giveUp);
            assertEquals(Optional.empty(), place.clients.last());
        }
    }
}
