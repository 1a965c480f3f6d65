package rendezvous;

import static org.junit.jupiter.api.Assertions.assertEquals;
import static org.junit.jupiter.api.Assertions.assertFalse;
import static org.junit.jupiter.api.Assertions.assertInstanceOf;
import static org.junit.jupiter.api.Assertions.assertThrows;
import static org.junit.jupiter.api.Assertions.assertTrue;

import com.google.gson.JsonObject;
import java.io.IOException;
import java.time.Duration;
import java.util.ArrayList;
import java.util.List;
import java.util.concurrent.CancellationException;
import java.util.concurrent.CompletableFuture;
import java.util.concurrent.CountDownLatch;
import java.util.concurrent.TimeUnit;
import java.util.function.Function;
import org.junit.jupiter.api.Test;
import org.junit.jupiter.api.Timeout;

/** What becomes of requests that were given up where the clients are closed: their items are told, or that they are unsettled. */
@Timeout(value = 2, unit = TimeUnit.MINUTES)
final class ClosesTest {
    private static final long SOON = TimeUnit.MILLISECONDS.toNanos(100);
    /** Where a close waits. */
    private static final String WAITS = "awaitCalls";

    /** Says nothing to requests, and to cancels this, once it is told to. */
    private static final class Held implements Function<JsonObject, JsonObject> {
        private final CountDownLatch told = new CountDownLatch(1);
        private final Function<Key, Outcome> cancel;

        Held(Function<Key, Outcome> cancel) {
            this.cancel = cancel;
        }

        @Override
        public JsonObject apply(JsonObject message) {
            if (!isCancel(message)) {
                return null;
            }
            awaited(told);
            return Answering.reply(message, cancel);
        }

        void tell() {
            told.countDown();
        }
    }

    /** A take that came to a server, as the only call of its clients. */
    private record Taking(Answering server, RvClients clients, RvTransferQueue queue, CompletableFuture<String> future)
            implements AutoCloseable {
        /** One at a server that answers so, of clients with this grace. */
        static Taking at(Function<JsonObject, JsonObject> answer, long grace) throws Exception {
            Answering server = new Answering(answer);
            RvClients clients = server.clients(1, 8).grace(grace).build();
            RvTransferQueue queue = ClosesTest.queue(clients);
            CompletableFuture<String> future = queue.takeAsync();
            server.awaitAsked(1);
            return new Taking(server, clients, queue, future);
        }

        static Taking at(Function<JsonObject, JsonObject> answer) throws Exception {
            return at(answer, Answering.LONG);
        }

        void stands(List<Key> unsettled, String... unclaimed) {
            ClosesTest.stands(clients, queue, unsettled, unclaimed);
        }

        @Override
        public void close() throws IOException {
            server.close();
        }
    }

    private static boolean isCancel(JsonObject message) {
        return Bodies.word(message, "kind").equals("cancel");
    }

    private static void awaited(CountDownLatch latch) {
        try {
            latch.await();
        } catch (InterruptedException later) {
            throw new IllegalStateException(later);
        }
    }

    private static Outcome late(Key key) {
        return new Outcome.Item(key, "late");
    }

    private static RvTransferQueue queue(RvClients clients) {
        return new RvTransferQueue(clients, 3);
    }

    /** Closes the clients in a thread of its own, and says whether that was interrupted in the end. */
    private static Calling<Boolean> closing(RvClients clients) {
        return Calling.of(() -> {
            clients.close();
            return Thread.interrupted();
        });
    }

    /** Closes the clients, which waits until this is done. */
    private static void closesOnce(RvClients clients, Runnable done) throws Exception {
        Calling<Boolean> closing = closing(clients);
        closing.isWithin(WAITS);
        done.run();
        closing.end();
    }

    private static List<Key> unsettled(RvClients clients) {
        return clients.unsettled().stream().map(RvSession::key).toList();
    }

    /** Waits until an item is unclaimed. */
    private static void isKept(RvTransferQueue queue) throws InterruptedException {
        while (!queue.toString().endsWith("1 unclaimed")) {
            Thread.sleep(1);
        }
    }

    /** What stands after a close, each time that it is looked at. */
    private static void stands(RvClients clients, RvTransferQueue queue, List<Key> unsettled, String... unclaimed) {
        assertEquals(unsettled, unsettled(clients));
        assertEquals(unsettled, unsettled(clients), "once more");
        assertEquals(List.of(unclaimed), queue.unclaimed());
        assertEquals(List.of(), queue.unclaimed(), "each is given once");
    }

    @Test
    void anItemThatComesAfterTheCloseIsUnclaimed() throws Exception {
        Held held = new Held(ClosesTest::late);
        try (Taking take = Taking.at(held)) {
            assertTrue(take.future().cancel(true));
            take.server().awaitAsked(2);
            closesOnce(take.clients(), held::tell);
            take.stands(List.of(), "late");
            assertTrue(take.future().isCancelled());
            assertEquals(2, take.server().asked().size(), "the cancel was sent again");
            assertThrows(IllegalStateException.class, take.queue()::take);
        }
    }

    @Test
    void aCancelThatIsNotSentYetIsSentAfterTheClose() throws Exception {
        CountDownLatch asked = new CountDownLatch(1);
        CountDownLatch goesOn = new CountDownLatch(1);
        List<String> kinds = new ArrayList<>();
        RvClients clients = new RvClients(1, 1, Answering.LONG, client -> session(client, message -> {
            kinds.add(Bodies.word(message, "kind"));
            if (isCancel(message)) {
                return Answering.reply(message, ClosesTest::late);
            }
            asked.countDown();
            awaited(goesOn);
            return waiting(message);
        }));
        RvTransferQueue queue = queue(clients);
        CompletableFuture<String> taken = queue.takeAsync();
        asked.await();
        taken.cancel(true);
        closesOnce(clients, goesOn::countDown);
        assertEquals(List.of("request", "cancel"), kinds);
        stands(clients, queue, List.of(), "late");
    }

    private static RvSession session(long client, ScriptedLink.Script script) {
        RvSession session = new RvSession(ScriptedLink.of(script), client, 1, Duration.ofMinutes(1), RvSession.ANSWER, 2);
        session.grace(Answering.LONG);
        return session;
    }

    private static JsonObject waiting(JsonObject message) {
        JsonObject waiting = Answers.keyed(Bodies.keyOf(message));
        waiting.addProperty("kind", "waiting");
        return waiting;
    }

    @Test
    void anItemThatCameBeforeTheCloseStaysUnclaimed() throws Exception {
        Held held = new Held(ClosesTest::late);
        held.tell();
        try (Taking take = Taking.at(held)) {
            take.future().cancel(true);
            isKept(take.queue());
            take.clients().close();
            assertEquals("late", take.queue().peek());
            take.stands(List.of(), "late");
        }
    }

    @Test
    void aTakeThatIsClosedByWhatCompletesItIsGivenUp() throws Exception {
        Held held = new Held(ClosesTest::late);
        held.tell();
        try (Taking take = Taking.at(held)) {
            take.future().whenComplete((item, fault) -> take.clients().close());
            assertTrue(take.future().cancel(true));
            take.stands(List.of(), "late");
        }
    }

    @Test
    void whatWasCancelledLeavesNothing() throws Exception {
        Held held = new Held(Outcome.Cancelled::new);
        try (Taking take = Taking.at(held)) {
            take.future().cancel(true);
            closesOnce(take.clients(), held::tell);
            take.stands(List.of());
        }
    }

    @Test
    void whatIsNotSettledInTimeIsUnsettled() throws Exception {
        try (Taking take = Taking.at(message -> null, SOON)) {
            take.future().cancel(true);
            take.clients().close();
            take.stands(List.of(new Key(1, 1, 1, 1)));
            assertTrue(take.future().isCancelled());
            while (!take.clients().unsettled().get(0).isUnsettled()) {
                Thread.sleep(1);
            }
            assertThrows(IllegalStateException.class, take.clients().unsettled().get(0)::again);
        }
    }

    @Test
    void aTakeThatNobodyGaveUpEndsAtOnceAndIsUnsettled() throws Exception {
        try (Taking take = Taking.at(message -> null)) {
            Calling<String> taking = Calling.of(take.queue()::take);
            take.server().awaitAsked(2);
            take.clients().close();
            assertInstanceOf(RvException.Unsettled.class, taking.thrown());
            assertEquals(List.of(1L, 2L), unsettled(take.clients()).stream().map(Key::client).sorted().toList());
            assertInstanceOf(RvException.Unsettled.class, take.future().handle((item, fault) -> fault).join());
            assertEquals(2, take.server().asked().size(), "a cancel came");
        }
    }

    @Test
    void itWaitsThroughInterruptsWhichAreSetAgain() throws Exception {
        for (boolean before : List.of(true, false)) {
            Held held = new Held(ClosesTest::late);
            try (Taking take = Taking.at(held)) {
                take.future().cancel(true);
                Calling<Boolean> closing = Calling.of(() -> {
                    if (before) {
                        Thread.currentThread().interrupt();
                    }
                    take.clients().close();
                    return Thread.interrupted();
                });
                closing.isWithin(WAITS);
                closing.thread().interrupt();
                while (closing.thread().isInterrupted()) {
                    Thread.sleep(1);
                }
                held.tell();
                assertTrue(closing.end(), "it is not interrupted");
                take.stands(List.of(), "late");
            }
        }
    }

    @Test
    void severalThreadsMayCloseAndEachWaits() throws Exception {
        Held held = new Held(ClosesTest::late);
        try (Taking take = Taking.at(held)) {
            take.future().cancel(true);
            List<Calling<Boolean>> several = List.of(closing(take.clients()), closing(take.clients()));
            for (Calling<Boolean> each : several) {
                each.isWithin(WAITS);
            }
            held.tell();
            for (Calling<Boolean> each : several) {
                assertFalse(each.end());
            }
            take.clients().close();
            take.stands(List.of(), "late");
        }
    }

    @Test
    void whatIsDoneWithAnItemMayClose() throws Exception {
        CountDownLatch first = new CountDownLatch(1);
        try (Answering server = new Answering(message -> {
            if (Bodies.number(message, "client") == 1) {
                awaited(first);
                return Answering.reply(message, key -> new Outcome.Item(key, "first"));
            }
            return isCancel(message) ? Answering.reply(message, ClosesTest::late) : null;
        })) {
            RvClients clients = server.clients(1, 8).build();
            RvTransferQueue queue = queue(clients);
            CompletableFuture<String> taken = queue.takeAsync();
            server.awaitAsked(1);
            CompletableFuture<Void> closed = taken.thenAccept(item -> clients.close());
            CompletableFuture<String> other = queue.takeAsync();
            server.awaitAsked(2);
            other.whenComplete((item, fault) -> first.countDown());
            other.cancel(true);
            closed.join();
            assertEquals("first", taken.join());
            stands(clients, queue, List.of(), "late");
        }
    }

    @Test
    void aCallThatAnInterruptGaveUpHasItsWord() throws Exception {
        Held taken = new Held(ClosesTest::late);
        Held cancelled = new Held(Outcome.Cancelled::new);
        for (Held held : List.of(taken, cancelled)) {
            try (Answering server = new Answering(held)) {
                RvClients clients = server.clients(1, 8).build();
                Calling<String> taking = Calling.of(queue(clients)::take);
                server.awaitAsked(1);
                taking.thread().interrupt();
                server.awaitAsked(2);
                closesOnce(clients, held::tell);
                if (held == taken) {
                    assertEquals("late", taking.end());
                } else {
                    assertInstanceOf(InterruptedException.class, taking.thrown());
                }
                assertEquals(List.of(), clients.unsettled());
            }
        }
    }

    @Test
    void aConsumerThatIsClosedHasItsItemAndATransferItsWord() throws Exception {
        Held held = new Held(key -> key.client() == 1 ? late(key) : new Receipt(key, java.util.Optional.of(new Key(1, 9, 9, 9))));
        try (Answering server = new Answering(held)) {
            RvClients clients = server.clients(1, 8).build();
            List<String> done = new ArrayList<>();
            RvConsumer jobs = queue(clients).consumer();
            Calling<String> working = Calling.of(() -> {
                jobs.forEach(done::add);
                return "an end";
            });
            server.awaitAsked(1);
            CompletableFuture<Receipt> received = queue(clients).transferAsync("a");
            server.awaitAsked(2);
            jobs.close();
            Calling<Boolean> cancelling = Calling.of(() -> received.cancel(true));
            server.awaitAsked(4);
            closesOnce(clients, held::tell);
            assertEquals("an end", working.end());
            assertEquals(List.of("late"), done);
            assertFalse(cancelling.end());
            assertEquals(9, received.join().by().orElseThrow().client());
            assertEquals(List.of(), clients.unsettled());
        }
    }

    @Test
    void aCloseWaitsNotForEverAndTellsWhatStillRuns() throws Exception {
        CountDownLatch asked = new CountDownLatch(1);
        CountDownLatch goesOn = new CountDownLatch(1);
        RvClients clients = new RvClients(1, 1, 0, client -> session(client, message -> {
            asked.countDown();
            awaited(goesOn);
            return Answering.reply(message, ClosesTest::late);
        }));
        RvTransferQueue queue = queue(clients);
        CompletableFuture<String> taken = queue.takeAsync();
        asked.await();
        taken.cancel(true);
        clients.close();
        stands(clients, queue, List.of(new Key(1, 1, 1, 1)));
        goesOn.countDown();
        isKept(queue);
        stands(clients, queue, List.of(), "late");
        assertThrows(CancellationException.class, taken::join);
    }

    @Test
    void aFutureThatBeginsAfterACloseTakesNothing() throws Exception {
        Held held = new Held(ClosesTest::late);
        held.tell();
        List<Runnable> later = new ArrayList<>();
        try (Answering server = new Answering(held)) {
            RvClients clients = server.clients(1, 8).executor(later::add).build();
            RvTransferQueue queue = queue(clients);
            CompletableFuture<String> first = queue.takeAsync();
            CompletableFuture<String> second = queue.takeAsync();
            Thread running = new Thread(later.get(0));
            running.start();
            server.awaitAsked(1);
            first.cancel(true);
            second.cancel(true);
            clients.close();
            later.get(1).run();
            stands(clients, queue, List.of(), "late");
            running.join();
        }
    }
}
