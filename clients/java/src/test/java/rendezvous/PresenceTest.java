package rendezvous;

import static org.junit.jupiter.api.Assertions.assertEquals;
import static org.junit.jupiter.api.Assertions.assertInstanceOf;
import static org.junit.jupiter.api.Assertions.assertSame;
import static org.junit.jupiter.api.Assertions.assertThrows;
import static org.junit.jupiter.api.Assertions.assertTrue;

import com.google.gson.JsonElement;
import com.google.gson.JsonObject;
import com.google.gson.JsonParser;
import java.io.IOException;
import java.nio.file.Files;
import java.nio.file.Path;
import java.time.Duration;
import java.util.ArrayList;
import java.util.List;
import java.util.Map;
import java.util.Optional;
import java.util.concurrent.CompletableFuture;
import java.util.concurrent.TimeUnit;
import java.util.function.Function;
import org.junit.jupiter.api.Test;
import org.junit.jupiter.api.Timeout;
import org.junit.jupiter.api.io.TempDir;

/** Waits that are asked in pieces, each a request of its own. */
@Timeout(value = 5, unit = TimeUnit.MINUTES)
final class PresenceTest {
    /** Longer than any test. */
    private static final Duration PRESENCE = Duration.ofMinutes(50);
    private static final long PIECE = PRESENCE.toMillis();

    @TempDir
    private Path folder;

    /** What a call is. */
    private interface Call {
        Object ask(RvTransferQueue queue, RvExchanger exchanger) throws Exception;
    }

    /** What ends a call between two of its pieces. */
    private interface End {
        void order(RvSession session, Abort abort);
    }

    private static Key key(long number) {
        return new Key(1, 1, 1, number);
    }

    /** Each call that waits longer than a presence. */
    private static final List<Call> LONG = List.of((queue, exchanger) -> queue.transferReceipt("a"),
        (queue, exchanger) -> queue.tryTransferReceipt("a", 1, TimeUnit.DAYS).orElseThrow(),
        (queue, exchanger) -> queue.transferAsync("a").join(),
        (queue, exchanger) -> queue.transferAsync("a", 2, TimeUnit.DAYS).join().orElseThrow(),
        (queue, exchanger) -> queue.take(), (queue, exchanger) -> queue.poll(1, TimeUnit.DAYS),
        (queue, exchanger) -> queue.poll(Long.MAX_VALUE, TimeUnit.SECONDS), (queue, exchanger) -> queue.takeAsync().join(),
        (queue, exchanger) -> queue.takeAsync(2, TimeUnit.DAYS).join().orElseThrow(), (queue, exchanger) -> consumed(queue),
        (queue, exchanger) -> exchanger.exchange("a"), (queue, exchanger) -> exchanger.exchange("a", 2, TimeUnit.DAYS));

    /** What a consumer does, until it has an item. */
    private static Object consumed(RvTransferQueue queue) {
        List<String> done = new ArrayList<>();
        RvConsumer jobs = queue.consumer();
        jobs.forEach(item -> {
            done.add(item);
            jobs.close();
        });
        return done.get(0);
    }

    /** The outcome of a request that was met. */
    private static Outcome met(JsonObject message) {
        Key key = Bodies.keyOf(message);
        return switch (Bodies.word(message, "call")) {
            case "transfer" -> new Receipt(key, Optional.of(new Key(1, 9, 9, 9)));
            case "swap" -> new Outcome.Swapped(key, "b");
            default -> new Outcome.Item(key, "b");
        };
    }

    /** A server at which each request times out but the third. */
    private static JsonObject third(JsonObject message) {
        Outcome outcome = met(message);
        return Answers.of(outcome.key().number() % 3 == 0 ? outcome : new Outcome.TimedOut(outcome.key()));
    }

    private static JsonObject timedOut(JsonObject message) {
        return Answering.reply(message, Outcome.TimedOut::new);
    }

    /** The waits of the requests that came. */
    private static List<String> waits(Answering server) {
        return server.asked().stream().map(message -> message.get("wait")).map(JsonElement::getAsString).toList();
    }

    @Test
    void eachPieceIsANewRequest() throws Exception {
        for (Call call : LONG) {
            try (Answering server = new Answering(PresenceTest::third);
                    RvClients clients = server.clients(1, 1).presence(PRESENCE).build()) {
                Object gave = call.ask(new RvTransferQueue(clients, 3), new RvExchanger(clients, 3));
                assertEquals(gave instanceof Receipt ? new Receipt(key(3), Optional.of(new Key(1, 9, 9, 9))) : "b", gave);
                List<JsonObject> asked = server.asked();
                assertEquals(List.of(key(1), key(2), key(3)), asked.stream().map(Bodies::keyOf).toList());
                asked.forEach(message -> message.addProperty("number", 1));
                assertEquals(List.of(asked.get(0), asked.get(0), asked.get(0)), asked);
                assertEquals(PIECE, Bodies.number(asked.get(0), "wait"));
                assertEquals(1, server.connections());
            }
        }
    }

    @Test
    void aWaitThatIsNoLongerIsOneRequest() throws Exception {
        try (Answering server = new Answering(PresenceTest::timedOut);
                RvClients clients = server.clients(1, 1).presence(PRESENCE).build()) {
            RvTransferQueue queue = new RvTransferQueue(clients, 3);
            assertEquals(null, queue.poll(0, TimeUnit.SECONDS));
            assertEquals(null, queue.poll(PIECE, TimeUnit.MILLISECONDS));
            assertEquals(Optional.empty(), queue.tryTransferReceipt("a", 7, TimeUnit.SECONDS));
            assertEquals(List.of("0", String.valueOf(PIECE), "7000"), waits(server));
        }
    }

    @Test
    void withoutAPresenceNothingIsInPieces() throws Exception {
        try (Answering server = new Answering(message -> Answers.of(met(message)));
                RvClients clients = server.clients(1, 1).build()) {
            assertEquals("b", new RvTransferQueue(clients, 3).take());
            assertEquals(List.of("forever"), waits(server));
        }
    }

    @Test
    void theLastPieceHasWhatIsLeft() {
        Map<Duration, Long> waits = Map.of(Duration.ofSeconds(60), 25_000L, Duration.ofSeconds(25), 25_000L,
            Duration.ofNanos(24_999_000_001L), 25_000L, Duration.ofSeconds(10), 10_000L, Duration.ofNanos(1_000_001), 2L,
            Duration.ZERO, 0L);
        Calls.Job job = Calls.waiting(Calls.at("take", "queue", 3), 60, TimeUnit.SECONDS);
        waits.forEach((left, wait) -> assertEquals(wait, Bodies.number(job.piece(25_000, left.toNanos()), "wait")));
        assertEquals(60_000, Bodies.number(job.call(), "wait"));
        assertSame(job.call(), job.piece(60_000, 1));
        assertSame(job.call(), job.piece(Calls.FOR_EVER, 1));
        Calls.Job ever = Calls.waiting(Calls.at("take", "queue", 3), "forever");
        assertEquals(25_000, Bodies.number(ever.piece(25_000, ever.own()), "wait"));
    }

    /** All pieces together last as long as the call, and then nobody came. */
    @Test
    void aCallHasItsOwnTime() throws Exception {
        Function<JsonObject, JsonObject> late = message -> {
            try {
                Thread.sleep(Bodies.number(message, "wait"));
            } catch (InterruptedException never) {
                throw new IllegalStateException(never);
            }
            return timedOut(message);
        };
        try (Answering server = new Answering(late);
                RvClients clients = server.clients(1, 1).presence(Duration.ofMillis(200)).build()) {
            long began = System.nanoTime();
            assertEquals(Optional.empty(), new RvTransferQueue(clients, 3).tryTransferReceipt("a", 500, TimeUnit.MILLISECONDS));
            assertTrue(System.nanoTime() - began >= TimeUnit.MILLISECONDS.toNanos(499));
            List<Long> waits = waits(server).stream().map(Long::valueOf).toList();
            waits.subList(0, waits.size() - 1).forEach(wait -> assertEquals(200, wait));
            assertTrue(waits.stream().mapToLong(wait -> wait).sum() <= 500, waits::toString);
        }
    }

    @Test
    void aPresenceIsRoundedUp() {
        assertEquals(250, Calls.presence(Duration.ofMillis(250)));
        assertEquals(1, Calls.presence(Duration.ofNanos(1)));
        assertEquals(86_400_000, Calls.presence(Duration.ofDays(1)));
    }

    @Test
    void anInterruptWithinAPieceCancelsThat() throws Exception {
        for (Function<Key, Outcome> told : List.<Function<Key, Outcome>>of(Outcome.Cancelled::new, Outcome.TimedOut::new,
                key -> new Outcome.Item(key, "late"))) {
            try (Answering server = new Answering(message -> Bodies.word(message, "kind").equals("cancel")
                    ? Answering.reply(message, told) : Bodies.keyOf(message).number() == 1 ? timedOut(message) : null);
                    RvClients clients = server.clients(1, 1).presence(PRESENCE).build()) {
                Calling<String> taking = Calling.of(() -> new RvTransferQueue(clients, 3).take());
                server.awaitAsked(2);
                taking.thread().interrupt();
                if (told.apply(key(2)) instanceof Outcome.Item) {
                    assertEquals("late", taking.end());
                } else {
                    assertInstanceOf(InterruptedException.class, taking.thrown());
                }
                assertEquals(3, server.asked().size());
                assertEquals(List.of(), clients.unsettled());
            }
        }
    }

    /** What ends a take between its first piece and the next one, which is not asked. */
    private static Throwable thrownBetween(End end) {
        List<JsonObject> asked = new ArrayList<>();
        RvSession session = new RvSession(ScriptedLink.of(message -> {
            asked.add(message);
            return timedOut(message);
        }), 1, 1, null, RvSession.ANSWER, 2);
        session.presence(PIECE);
        Abort abort = new Abort();
        session.whenSettled(outcome -> {
            if (outcome != null) {
                end.order(session, abort);
            }
        });
        Calls.Job job = Calls.waiting(Calls.at("take", "queue", 3), "forever").with(abort);
        Throwable thrown = assertThrows(Throwable.class, () -> session.ask(job, true));
        assertEquals(List.of(key(1)), asked.stream().map(Bodies::keyOf).toList());
        assertEquals(Optional.empty(), session.last());
        assertTrue(!session.isOutstanding());
        return thrown;
    }

    @Test
    void whatEndsACallBetweenTwoPiecesAsksNothing() {
        assertInstanceOf(InterruptedException.class, thrownBetween((session, abort) -> Thread.currentThread().interrupt()));
        RvException aborted = assertInstanceOf(RvException.NotAsked.class, thrownBetween((session, abort) -> abort.ask()));
        assertEquals(null, aborted.key());
        Throwable closed = assertInstanceOf(RvException.NotAsked.class, thrownBetween((session, abort) -> session.close()));
        assertTrue(closed.getMessage().endsWith("the session was closed"), closed::toString);
    }

    /** Its cancel is told that the piece timed out. */
    @Test
    void aCancelledFutureAndAClosedConsumerAskNoMore() throws Exception {
        try (Answering server = new Answering(message -> Bodies.word(message, "kind").equals("cancel")
                ? timedOut(message) : null); RvClients clients = server.clients(1, 3).presence(PRESENCE).build()) {
            RvTransferQueue queue = new RvTransferQueue(clients, 3);
            CompletableFuture<Receipt> transfer = queue.transferAsync("a");
            server.awaitAsked(1);
            assertTrue(transfer.cancel(true));
            CompletableFuture<String> take = queue.takeAsync();
            server.awaitAsked(3);
            assertTrue(take.cancel(true));
            server.awaitAsked(4);
            RvConsumer jobs = queue.consumer();
            Calling<Boolean> working = Calling.of(() -> {
                jobs.forEach(item -> assertEquals("none", item));
                return true;
            });
            server.awaitAsked(5);
            jobs.close();
            assertTrue(working.end());
            assertEquals(List.of("request", "cancel", "request", "cancel", "request", "cancel"),
                server.asked().stream().map(message -> Bodies.word(message, "kind")).toList());
            assertEquals(List.of(), queue.unclaimed());
        }
    }

    @Test
    void thePiecesOfACallHaveOneLastOutcome() throws Exception {
        try (Answering server = new Answering(PresenceTest::third);
                RvClients clients = server.clients(1, 1).presence(PRESENCE).build()) {
            new RvTransferQueue(clients, 3).take();
            assertEquals(Optional.of(new Outcome.Item(key(3), "b")), clients.last());
        }
    }

    /** It alone is asked again, and may have timed out. */
    @Test
    void aPieceMayBeUnsettled() throws Exception {
        for (Function<Key, Outcome> told : List.<Function<Key, Outcome>>of(Outcome.TimedOut::new,
                key -> new Outcome.Item(key, "late"))) {
            List<Key> asked = new ArrayList<>();
            RvSession session = new RvSession(ScriptedLink.of(message -> {
                asked.add(Bodies.keyOf(message));
                if (asked.size() == 2) {
                    throw new IllegalArgumentException("broken");
                }
                return asked.size() == 1 ? timedOut(message) : Answering.reply(message, told);
            }), 1, 1, null, RvSession.ANSWER, 2);
            session.presence(PIECE);
            Calls.Job job = Calls.waiting(Calls.at("take", "queue", 3), "forever");
            assertThrows(IllegalArgumentException.class, () -> session.ask(job, true));
            assertTrue(session.isUnsettled());
            assertEquals(Optional.empty(), session.last());
            assertEquals(told.apply(key(2)), session.again());
            assertEquals(List.of(key(1), key(2), key(2)), asked);
        }
    }

    @Test
    void aNewStartOfTheServerBetweenTwoPiecesIsNoEnd() throws Exception {
        Answering[] server = new Answering[1];
        server[0] = new Answering(message -> {
            if (Bodies.number(message, "epoch") == 1) {
                server[0].startsAnew();
                return timedOut(message);
            }
            return third(message);
        });
        try (Answering there = server[0]; RvClients clients = there.clients(1, 2).presence(PRESENCE).build()) {
            assertEquals("b", new RvTransferQueue(clients, 3).poll(1, TimeUnit.DAYS));
            List<Key> asked = there.asked().stream().map(Bodies::keyOf).toList();
            assertEquals(List.of(key(1), key(2), new Key(2, 2, 1, 1), new Key(2, 2, 1, 2), new Key(2, 2, 1, 3)), asked);
            assertEquals(List.of(String.valueOf(PIECE)), waits(there).stream().distinct().toList());
        }
    }

    @Test
    void eachPieceHasItsLine() throws Exception {
        Path file = folder.resolve("record");
        try (Answering server = new Answering(PresenceTest::third);
                RvClients clients = server.clients(1, 1).presence(PRESENCE).record(file).build()) {
            new RvTransferQueue(clients, 3).take();
            List<String> told = Files.readAllLines(file).stream().map(line -> JsonParser.parseString(line).getAsJsonObject())
                .map(line -> Bodies.word(line.getAsJsonObject("told"), "reply")).toList();
            assertEquals(List.of("timedout", "timedout", "item"), told);
        }
    }

    @Test
    void aPieceThatIsNotRecordedEndsTheCall() throws Exception {
        Path file = folder.resolve("record");
        Function<JsonObject, JsonObject> spoils = message -> {
            try {
                Files.createDirectory(file);
            } catch (IOException fault) {
                throw new IllegalStateException(fault);
            }
            return timedOut(message);
        };
        try (Answering server = new Answering(spoils);
                RvClients clients = server.clients(1, 1).presence(PRESENCE).record(file).build()) {
            RvException.NotRecorded fault =
                assertThrows(RvException.NotRecorded.class, () -> new RvTransferQueue(clients, 3).take());
            assertEquals(new Outcome.TimedOut(key(1)), fault.outcome());
            assertEquals(1, server.asked().size());
        }
    }
}
