package rendezvous;

import static org.junit.jupiter.api.Assertions.assertEquals;
import static org.junit.jupiter.api.Assertions.assertFalse;
import static org.junit.jupiter.api.Assertions.assertInstanceOf;
import static org.junit.jupiter.api.Assertions.assertNull;
import static org.junit.jupiter.api.Assertions.assertThrows;
import static org.junit.jupiter.api.Assertions.assertTrue;

import com.google.gson.JsonObject;
import java.util.ArrayDeque;
import java.util.ArrayList;
import java.util.List;
import java.util.Optional;
import java.util.Random;
import java.util.concurrent.ArrayBlockingQueue;
import java.util.concurrent.CancellationException;
import java.util.concurrent.CompletableFuture;
import java.util.concurrent.CompletionException;
import java.util.concurrent.CountDownLatch;
import java.util.concurrent.Executor;
import java.util.concurrent.ExecutorService;
import java.util.concurrent.Executors;
import java.util.concurrent.TimeUnit;
import java.util.concurrent.TimeoutException;
import java.util.function.Function;
import java.util.function.UnaryOperator;
import org.junit.jupiter.api.Test;
import org.junit.jupiter.api.Timeout;

/** Futures of transfers and takes, whose cancel is the request's, and which lose no item. */
@Timeout(value = 5, unit = TimeUnit.MINUTES)
final class FuturesTest {
    private static boolean isCancel(JsonObject message) {
        return Bodies.word(message, "kind").equals("cancel");
    }

    /** A server that says nothing to requests, and this to cancels. */
    private static Answering silentUntilCancel(Function<JsonObject, JsonObject> cancel) throws Exception {
        return new Answering(message -> isCancel(message) ? cancel.apply(message) : null);
    }

    private static JsonObject item(JsonObject message, String item) {
        return Answering.reply(message, key -> new Outcome.Item(key, item));
    }

    private static JsonObject received(JsonObject message) {
        return Answering.reply(message, key -> new Receipt(key, Optional.of(new Key(1, 9, 9, 9))));
    }

    private static Throwable fault(CompletableFuture<?> future) {
        return assertThrows(CompletionException.class, future::join).getCause();
    }

    @Test
    void aTransferAndATakeMeet() throws Exception {
        try (Served server = new Served(); RvClients clients = server.clients()) {
            RvTransferQueue queue = new RvTransferQueue(clients, 3);
            CompletableFuture<String> taken = queue.takeAsync();
            CompletableFuture<Receipt> received = queue.transferAsync("a");
            assertEquals("a", taken.join());
            assertTrue(received.join().by().isPresent());
            assertEquals(Optional.empty(), queue.takeAsync(1, TimeUnit.MILLISECONDS).join());
            assertEquals(Optional.empty(), queue.transferAsync("b", 1, TimeUnit.MILLISECONDS).join());
            queue.put("c");
            assertEquals(Optional.of("c"), queue.takeAsync(1, TimeUnit.DAYS).join());
            CompletableFuture<Optional<Receipt>> later = queue.transferAsync("d", 1, TimeUnit.DAYS);
            assertEquals("d", queue.take());
            assertTrue(later.join().isPresent());
        }
    }

    @Test
    void aCancelledTakeTakesNothingAnyMore() throws Exception {
        try (Served server = new Served(); RvClients clients = server.clients()) {
            RvTransferQueue queue = new RvTransferQueue(clients, 3);
            CompletableFuture<String> taken = queue.takeAsync();
            while (!queue.hasWaitingConsumer()) {
                Thread.sleep(1);
            }
            assertTrue(taken.cancel(true));
            assertThrows(CancellationException.class, taken::join);
            while (queue.hasWaitingConsumer()) {
                Thread.sleep(1);
            }
            queue.put("a");
            assertEquals("a", queue.take());
            assertEquals(List.of(), queue.unclaimed());
        }
    }

    @Test
    void anItemThatReachedACancelledTakeIsTheNextOne() throws Exception {
        String[] calls = {"take", "poll", "timed poll", "take async", "drain", "consumer"};
        for (String call : calls) {
            try (Answering server = silentUntilCancel(message -> item(message, "late"));
                    RvClients clients = server.clients(1, 8).build()) {
                RvTransferQueue queue = new RvTransferQueue(clients, 3);
                cancelledTake(server, queue);
                assertEquals("late", queue.peek());
                assertEquals("late", claimed(queue, call), call);
                assertEquals(List.of(), queue.unclaimed());
                assertEquals(2, server.asked().size(), call + " asked the server");
            }
        }
    }

    /** A take that is cancelled when the server has it, and that its item reaches nonetheless. */
    private static void cancelledTake(Answering server, RvTransferQueue queue) throws Exception {
        CompletableFuture<String> taken = queue.takeAsync();
        server.awaitAsked(1);
        assertTrue(taken.cancel(true));
        assertTrue(taken.isCancelled());
        server.awaitAsked(2);
        while (!isKept(queue)) {
            Thread.sleep(1);
        }
    }

    private static boolean isKept(RvTransferQueue queue) {
        return queue.toString().endsWith("1 unclaimed");
    }

    private static String claimed(RvTransferQueue queue, String call) throws Exception {
        List<String> into = new ArrayList<>();
        switch (call) {
            case "take":
                return queue.take();
            case "poll":
                return queue.poll();
            case "timed poll":
                return queue.poll(1, TimeUnit.DAYS);
            case "take async":
                return queue.takeAsync().join();
            case "drain":
                queue.drainTo(into, 1);
                return into.get(0);
            default:
                try (RvConsumer jobs = queue.consumer()) {
                    jobs.forEach(job -> {
                        into.add(job);
                        Thread.currentThread().interrupt();
                    });
                }
                assertTrue(Thread.interrupted());
                return into.get(0);
        }
    }

    @Test
    void aTakeBehindACancelWaitsForWhatBecameOfThatTake() throws Exception {
        CountDownLatch answers = new CountDownLatch(1);
        try (Answering server = silentUntilCancel(message -> {
            awaited(answers);
            return item(message, "late");
        }); RvClients clients = server.clients(1, 8).build()) {
            RvTransferQueue queue = new RvTransferQueue(clients, 3);
            CompletableFuture<String> first = queue.takeAsync();
            server.awaitAsked(1);
            first.cancel(true);
            Calling<String> next = Calling.of(queue::take);
            next.isWithin("awaitEnds");
            answers.countDown();
            assertEquals("late", next.end());
            assertEquals(2, server.asked().size());
        }
    }

    private static void awaited(CountDownLatch latch) {
        try {
            latch.await();
        } catch (InterruptedException later) {
            throw new IllegalStateException(later);
        }
    }

    @Test
    void whatIsDoneBehindAnItemMayTakeTheNextOne() throws Exception {
        try (Answering server = new Answering(message -> item(message, Bodies.number(message, "number") + ""));
                RvClients clients = server.clients(1, 1).build()) {
            RvTransferQueue queue = new RvTransferQueue(clients, 3);
            CompletableFuture<String> both = queue.takeAsync().thenApply(first -> first + " and " + queue.poll());
            assertEquals("1 and 2", both.join());
            assertEquals(List.of(), queue.unclaimed());
        }
    }

    @Test
    void anItemThatReachedACancelledTakeStandsInUnclaimed() throws Exception {
        try (Answering server = silentUntilCancel(message -> item(message, "late"));
                RvClients clients = server.clients(1, 8).build()) {
            RvTransferQueue queue = new RvTransferQueue(clients, 3);
            cancelledTake(server, queue);
            assertThrows(IllegalStateException.class, () -> queue.drainTo(full()));
            assertEquals(List.of("late"), queue.unclaimed());
            assertEquals(List.of(), queue.unclaimed());
        }
    }

    private static ArrayBlockingQueue<String> full() {
        ArrayBlockingQueue<String> full = new ArrayBlockingQueue<>(1);
        full.add("full");
        return full;
    }

    @Test
    void anItemThatIsFreedWhileOthersAreGivenOutStays() {
        Unclaimed unclaimed = new Unclaimed();
        CompletableFuture<String> cancelledWhenLookedAt = new CompletableFuture<>() {
            @Override
            public boolean isDone() {
                boolean was = super.isDone();
                cancel(false);
                return was;
            }
        };
        unclaimed.settled(cancelledWhenLookedAt, new Outcome.Item(new Key(1, 1, 1, 1), "late"));
        List<String> given = new ArrayList<>(unclaimed.all());
        given.addAll(unclaimed.all());
        assertEquals(List.of("late"), given);
    }

    @Test
    void whatsoeverCompletesATakeCancelsIt() throws Exception {
        try (Answering server = silentUntilCancel(message -> item(message, "late"));
                RvClients clients = server.clients(1, 8).build()) {
            // a queue for each: one whose take was cancelled gives that one's item to the next
            CompletableFuture<String> late = new RvTransferQueue(clients, 3).takeAsync().orTimeout(1, TimeUnit.MILLISECONDS);
            assertInstanceOf(TimeoutException.class, fault(late));
            CompletableFuture<String> given = new RvTransferQueue(clients, 3).takeAsync();
            assertTrue(given.complete("mine"));
            assertEquals("mine", given.join());
            CompletableFuture<String> failed = new RvTransferQueue(clients, 3).takeAsync();
            assertTrue(failed.completeExceptionally(new IllegalArgumentException()));
            assertInstanceOf(IllegalArgumentException.class, fault(failed));
        }
    }

    @Test
    void aCancelOfATransferSaysWhatBecameOfIt() throws Exception {
        try (Answering server = silentUntilCancel(Answering::well); RvClients clients = server.clients(1, 8).build()) {
            CompletableFuture<Receipt> gone = new RvTransferQueue(clients, 3).transferAsync("a");
            server.awaitAsked(1);
            assertTrue(gone.cancel(true));
            assertTrue(gone.isCancelled());
            assertTrue(gone.cancel(false), "once more");
        }
        try (Answering server = silentUntilCancel(FuturesTest::received); RvClients clients = server.clients(1, 8).build()) {
            CompletableFuture<Receipt> received = new RvTransferQueue(clients, 3).transferAsync("a");
            server.awaitAsked(1);
            assertFalse(received.cancel(true));
            assertEquals(Optional.of(new Key(1, 9, 9, 9)), received.join().by());
            assertFalse(received.cancel(true), "once more");
        }
        try (Answering server = silentUntilCancel(message -> null); RvClients clients = server.clients(1, 8).grace(1).build()) {
            CompletableFuture<Receipt> open = new RvTransferQueue(clients, 3).transferAsync("a");
            server.awaitAsked(1);
            Thread.currentThread().interrupt();
            assertFalse(open.cancel(true));
            assertTrue(Thread.interrupted());
            Key key = assertInstanceOf(RvException.Unsettled.class, fault(open)).key();
            assertEquals(List.of(key), clients.unsettled().stream().map(RvSession::key).toList());
        }
    }

    @Test
    void aCancelOfATransferWaitsNotForWhatIsDoneBehindIt() throws Exception {
        CountDownLatch cancelled = new CountDownLatch(1);
        try (Answering server = silentUntilCancel(Answering::well); RvClients clients = server.clients(1, 8).build()) {
            CompletableFuture<Receipt> gone = new RvTransferQueue(clients, 3).transferAsync("a");
            CompletableFuture<Boolean> behind = gone.handle((receipt, fault) -> isOpenedInTime(cancelled));
            server.awaitAsked(1);
            assertTrue(gone.cancel(true));
            cancelled.countDown();
            assertTrue(behind.join(), "the cancel waited for it");
        }
    }

    private static boolean isOpenedInTime(CountDownLatch latch) {
        try {
            return latch.await(1, TimeUnit.MINUTES);
        } catch (InterruptedException later) {
            throw new IllegalStateException(later);
        }
    }

    @Test
    void whatNoThreadHasBegunIsNeverAsked() throws Exception {
        ArrayDeque<Runnable> later = new ArrayDeque<>();
        try (Answering server = new Answering(Answering::well);
                RvClients clients = server.clients(1, 8).executor(later::add).build()) {
            RvTransferQueue queue = new RvTransferQueue(clients, 3);
            assertTrue(queue.transferAsync("a").cancel(true));
            assertTrue(queue.takeAsync().cancel(true));
            assertEquals(2, later.size());
            later.forEach(Runnable::run);
            assertEquals(List.of(), server.asked());
            assertEquals(List.of(), server.hellos());
        }
    }

    @Test
    void whatWaitsForASessionIsCancelledToo() throws Exception {
        try (Answering server = silentUntilCancel(Answering::well); RvClients clients = server.clients(1, 1).build()) {
            RvTransferQueue queue = new RvTransferQueue(clients, 3);
            CompletableFuture<String> first = queue.takeAsync();
            server.awaitAsked(1);
            assertTrue(queue.transferAsync("a").cancel(true));
            assertTrue(queue.takeAsync().cancel(true));
            assertEquals(1, server.asked().size());
            first.cancel(true);
        }
    }

    /** The name of the thread that completes a take's future, which has its item once someone looks at it. */
    private static String completes(UnaryOperator<RvClients.Builder> chooses) throws Exception {
        CountDownLatch looked = new CountDownLatch(1);
        try (Answering server = new Answering(message -> awaited(looked, item(message, "a")));
                RvClients clients = chooses.apply(server.clients(1, 8)).build()) {
            CompletableFuture<String> name =
                new RvTransferQueue(clients, 3).takeAsync().thenApply(item -> Thread.currentThread().getName());
            looked.countDown();
            return name.join();
        }
    }

    private static JsonObject awaited(CountDownLatch latch, JsonObject answer) {
        try {
            latch.await();
            return answer;
        } catch (InterruptedException never) {
            throw new IllegalStateException(never);
        }
    }

    @Test
    void aFutureIsCompletedByTheExecutorThatIsNamed() throws Exception {
        ExecutorService executor = Executors.newSingleThreadExecutor(call -> new Thread(call, "the caller's own"));
        try {
            assertEquals("the caller's own", completes(builder -> builder.executor(executor)));
        } finally {
            executor.shutdown();
        }
        assertEquals("rendezvous runs a future's call", completes(builder -> builder));
    }

    @Test
    void anInterruptOfTheExecutorsThreadCancelsTheRequest() throws Exception {
        ExecutorService executor = Executors.newSingleThreadExecutor();
        try (Answering server = silentUntilCancel(Answering::well);
                RvClients clients = server.clients(1, 8).executor(executor).build()) {
            CompletableFuture<String> taken = new RvTransferQueue(clients, 3).takeAsync();
            server.awaitAsked(1);
            executor.shutdownNow();
            assertThrows(CancellationException.class, taken::join);
        }
    }

    @Test
    void aFutureEndsByWhatTheCallThrows() throws Exception {
        try (Answering server = new Answering(message -> null)) {
            RvClients clients = server.clients(1, 8).build();
            RvTransferQueue queue = new RvTransferQueue(clients, 3);
            assertThrows(IllegalArgumentException.class, () -> queue.transferAsync("x".repeat(513)));
            assertThrows(NullPointerException.class, () -> queue.transferAsync(null));
            CompletableFuture<String> taken = queue.takeAsync();
            server.awaitAsked(1);
            clients.close();
            assertInstanceOf(RvException.Unsettled.class, fault(taken));
            assertThrows(IllegalStateException.class, queue::takeAsync);
        }
    }

    /** Where the close comes between the two steps by which a future begins. */
    @Test
    void aFutureThatBeginsBesideACloseIsToldThatTheClientsAreClosed() throws Exception {
        try (Answering server = new Answering(Answering::well)) {
            RvClients clients = server.clients(1, 8).build();
            Executor executor = clients.executor();
            clients.close();
            IllegalStateException closed = assertThrows(IllegalStateException.class, () -> executor.execute(() -> { }));
            assertEquals("the clients are closed", closed.getMessage());
            IllegalStateException later =
                assertThrows(IllegalStateException.class, new RvTransferQueue(clients, 3)::takeAsync);
            assertEquals(closed.getMessage(), later.getMessage());
        }
    }

    @Test
    void nothingIsLostOrDoubledWhereTakesAreCancelledAsTheyAreMet() throws Exception {
        int count = Integer.getInteger("rendezvous.takes", 60);
        Random chance = new Random();
        List<String> taken = new ArrayList<>();
        try (Served server = new Served(); RvClients clients = server.clients()) {
            RvTransferQueue queue = new RvTransferQueue(clients, 3);
            CountDownLatch produced = new CountDownLatch(1);
            Thread producer = new Thread(() -> {
                for (int item = 0; item < count; item++) {
                    queue.put("item " + item);
                }
                produced.countDown();
            });
            producer.start();
            for (int each = 0; each < count; each++) {
                CompletableFuture<String> take = queue.takeAsync();
                Thread.sleep(0, chance.nextInt(1_000_000));
                if (!take.cancel(true)) {
                    taken.add(take.join());
                }
            }
            produced.await();
            while (queue.hasWaitingConsumer()) {
                Thread.sleep(1);
            }
            // what a cancelled take got is kept here as soon as its call has ended
            while (taken.size() < count) {
                taken.addAll(queue.unclaimed());
                queue.drainTo(taken);
            }
            assertNull(queue.poll());
            assertEquals(List.of(), queue.unclaimed());
        }
        List<String> wanted = new ArrayList<>();
        for (int item = 0; item < count; item++) {
            wanted.add("item " + item);
        }
        assertEquals(wanted.stream().sorted().toList(), taken.stream().sorted().toList());
    }
}
