package rendezvous;

import static org.junit.jupiter.api.Assertions.assertEquals;
import static org.junit.jupiter.api.Assertions.assertFalse;
import static org.junit.jupiter.api.Assertions.assertInstanceOf;
import static org.junit.jupiter.api.Assertions.assertThrows;
import static org.junit.jupiter.api.Assertions.assertTrue;

import com.google.gson.JsonObject;
import java.time.Duration;
import java.time.temporal.ChronoUnit;
import java.util.ArrayList;
import java.util.List;
import java.util.Optional;
import java.util.concurrent.BrokenBarrierException;
import java.util.concurrent.CompletableFuture;
import java.util.concurrent.CountDownLatch;
import java.util.concurrent.CyclicBarrier;
import java.util.concurrent.Semaphore;
import java.util.concurrent.TimeUnit;
import java.util.concurrent.atomic.AtomicBoolean;
import java.util.stream.Stream;
import org.junit.jupiter.api.DynamicTest;
import org.junit.jupiter.api.Test;
import org.junit.jupiter.api.TestFactory;
import org.junit.jupiter.api.Timeout;

/** Sessions that the threads of a program share, and the numbers that they lease. */
@Timeout(value = 2, unit = TimeUnit.MINUTES)
final class PoolTest {
    private static final long NEVER = Long.MAX_VALUE;
    /** A patience that ends in a test: long enough for a slow machine to ask. */
    private static final Duration SHORT = Duration.ofSeconds(3);
    private static final long SOON = TimeUnit.MILLISECONDS.toNanos(100);
    private static final String USED_UP = "more threads than the 1 clients";

    private final long first = OwnNumbers.first();

    private static RvTransferQueue queue(RvClients clients) {
        return new RvTransferQueue(clients, 3);
    }

    private static String item(JsonObject message) {
        return Bodies.word(message, "item");
    }

    /** A server that holds each put of "held" until the latch is down. */
    private static Answering holding(CountDownLatch latch) throws Exception {
        return new Answering(message -> {
            if (item(message).equals("held")) {
                awaited(latch);
            }
            return Answering.well(message);
        });
    }

    private static void awaited(CountDownLatch latch) {
        try {
            latch.await();
        } catch (InterruptedException later) {
            throw new IllegalStateException(later);
        }
    }

    private static Calling<String> putting(RvClients clients, String item) {
        return Calling.of(() -> {
            queue(clients).put(item);
            return Thread.interrupted() ? "done, interrupted" : "done";
        });
    }

    @Test
    void manyShortThreadsUseAsManySessionsAsRunAtATime() throws Exception {
        int atATime = 8;
        int threads = 500;
        Semaphore turns = new Semaphore(atATime);
        try (Answering server = new Answering(Answering::well);
                RvClients clients = server.clients(1, atATime).idle(NEVER).build()) {
            List<Calling<String>> all = new ArrayList<>();
            for (int each = 0; each < threads; each++) {
                turns.acquire();
                all.add(Calling.of(() -> {
                    queue(clients).put("a");
                    turns.release();
                    return "done";
                }));
            }
            for (Calling<String> each : all) {
                assertEquals("done", each.end());
            }
            assertEquals(threads, server.asked().size());
            assertTrue(server.hellos().size() <= atATime, server.hellos().size() + " sessions");
            assertTrue(server.connections() <= atATime, server.connections() + " connections");
        }
    }

    @TestFactory
    Stream<DynamicTest> tenThousandVirtualThreadsShareSixteenSessions() {
        String wanted = "11000 requests, 1000 items, no more sessions than 16";
        return Stream.of("where the JDK has virtual threads").filter(name -> VirtualThreads.areThere())
            .map(name -> DynamicTest.dynamicTest(name, () -> assertEquals(wanted, VirtualThreads.run())));
    }

    @TestFactory
    Stream<DynamicTest> tenThousandSessionsRunAtATimeInVirtualThreads() {
        String wanted = "10000 sessions, 10000 items";
        return Stream.of("where the JDK has virtual threads").filter(name -> VirtualThreads.areThere())
            .map(name -> DynamicTest.dynamicTest(name, () -> assertEquals(wanted, VirtualThreads.sessions())));
    }

    @Test
    void livingThreadsShareSessionsToo() throws Exception {
        CountDownLatch over = new CountDownLatch(1);
        try (Answering server = new Answering(Answering::well); RvClients clients = server.clients(1, 1).build()) {
            List<Calling<String>> all = new ArrayList<>();
            for (int each = 0; each < 20; each++) {
                CountDownLatch put = new CountDownLatch(1);
                all.add(Calling.of(() -> {
                    queue(clients).put("a");
                    put.countDown();
                    over.await();
                    return "done";
                }));
                put.await();
            }
            over.countDown();
            for (Calling<String> each : all) {
                assertEquals("done", each.end());
            }
            assertEquals(1, server.hellos().size());
        }
    }

    @Test
    void aThreadGetsItsSessionAgain() throws Exception {
        CountDownLatch latch = new CountDownLatch(1);
        try (Answering server = holding(latch); RvClients clients = server.clients(1, 2).build()) {
            Calling<String> held = putting(clients, "held");
            server.awaitAsked(1);
            queue(clients).put("own");
            latch.countDown();
            held.end();
            queue(clients).put("own");
            List<JsonObject> own = server.asked().stream().filter(message -> item(message).equals("own")).toList();
            assertEquals(List.of(2L, 2L), own.stream().map(message -> Bodies.number(message, "client")).toList());
        }
    }

    @Test
    void aCallWaitsForASessionWhereAllNumbersAreInUse() throws Exception {
        CountDownLatch latch = new CountDownLatch(1);
        try (Answering server = holding(latch); RvClients clients = server.clients(1, 1).build()) {
            Calling<String> held = putting(clients, "held");
            server.awaitAsked(1);
            Calling<String> later = putting(clients, "b");
            later.isWithin("awaitNanos");
            later.thread().interrupt();
            later.isWithin("awaitNanos");
            assertEquals(1, server.asked().size());
            latch.countDown();
            assertEquals("done", held.end());
            assertEquals("done, interrupted", later.end());
            assertEquals(List.of(1L, 2L), server.asked().stream().map(message -> Bodies.number(message, "number")).toList());
        }
    }

    @Test
    void aWaitForASessionEndsByTheCallsTimeByPatienceByAnInterruptAndByClose() throws Exception {
        CountDownLatch latch = new CountDownLatch(1);
        try (Answering server = holding(latch);
                RvClients clients = server.clients(1, 1).patience(SHORT).build()) {
            Calling<String> held = putting(clients, "held");
            server.awaitAsked(1);
            IllegalStateException late = assertThrows(IllegalStateException.class,
                () -> queue(clients).poll(20, TimeUnit.MILLISECONDS));
            assertEquals(USED_UP, late.getMessage());
            assertEquals(USED_UP, assertThrows(IllegalStateException.class, clients::session).getMessage());
            Throwable patient = putting(clients, "b").thrown();
            assertEquals(USED_UP, assertInstanceOf(IllegalStateException.class, patient).getMessage());
            latch.countDown();
            held.thread().join();
        }
        CountDownLatch other = new CountDownLatch(1);
        try (Answering server = holding(other)) {
            RvClients clients = server.clients(1, 1).patientForEver().build();
            Calling<String> held = putting(clients, "held");
            server.awaitAsked(1);
            Calling<String> taking = Calling.of(queue(clients)::take);
            taking.isWithin("awaitNanos");
            taking.thread().interrupt();
            assertInstanceOf(InterruptedException.class, taking.thrown());
            Calling<String> putting = putting(clients, "b");
            putting.isWithin("awaitNanos");
            clients.close();
            IllegalStateException closed = assertInstanceOf(IllegalStateException.class, putting.thrown());
            assertEquals("the clients are closed", closed.getMessage());
            assertInstanceOf(RvException.Unsettled.class, held.thrown());
            assertEquals(1, server.asked().size());
            other.countDown();
        }
    }

    /** Leaves a take unsettled, at a server that says nothing: its thread is interrupted and ends. */
    private static Key unsettled(Answering server, RvClients clients) throws Exception {
        Calling<String> taking = Calling.of(queue(clients)::take);
        server.awaitAsked(1);
        taking.thread().interrupt();
        return assertInstanceOf(RvException.Unsettled.class, taking.thrown()).key();
    }

    @Test
    void whatIsAskedAgainGivesItsSessionToWhoWaits() throws Exception {
        CountDownLatch latch = new CountDownLatch(1);
        AtomicBoolean silent = new AtomicBoolean(true);
        try (Answering server = new Answering(message -> {
            if (silent.get()) {
                return null;
            }
            awaited(latch);
            return Answering.well(message);
        }); RvClients clients = server.clients(1, 1).grace(SOON).build()) {
            Key key = unsettled(server, clients);
            silent.set(false);
            RvSession left = clients.unsettled().get(0);
            Calling<String> givingUp = Calling.of(() -> left.giveUp().toString());
            while (!left.isRunning()) {
                Thread.sleep(1);
            }
            Calling<String> later = putting(clients, "b");
            later.isWithin("awaitNanos");
            latch.countDown();
            assertEquals("Cancelled[key=" + key + "]", givingUp.end());
            assertEquals("done", later.end());
            assertEquals(List.of(), clients.unsettled());
        }
    }

    @Test
    void theLastOutcomeIsThatOfTheThreadThatAsked() throws Exception {
        try (Answering server = new Answering(message -> Bodies.word(message, "call").equals("drain")
                ? Answering.reply(message, key -> new Outcome.Drained(key, List.of("a", "b"))) : Answering.well(message));
                RvClients clients = server.clients(1, 1).build()) {
            assertEquals(Optional.empty(), clients.last());
            assertThrows(IllegalStateException.class,
                () -> queue(clients).drainTo(new java.util.concurrent.ArrayBlockingQueue<>(1)));
            Calling<String> other = Calling.of(() -> {
                queue(clients).put("c");
                return clients.last().orElseThrow().toString();
            });
            assertEquals("Done[key=1/1/1/2]", other.end());
            assertEquals("Drained[key=1/1/1/1, items=[a, b]]", clients.last().orElseThrow().toString());
            queue(clients).put("d");
            assertEquals("Done[key=1/1/1/3]", clients.last().orElseThrow().toString());
        }
    }

    /** Whether nobody leases this one of the numbers, which are counted from 1. */
    private boolean isFree(long which) {
        return LeasesTest.isFree(first + which - 1);
    }

    /** Nobody does, and the pool has given it back, if it had it. */
    private void assertFree(long which) {
        LeasesTest.assertFree(first + which - 1);
    }

    private RvClients.Builder leasing(Answering server) {
        return RvClients.builder("127.0.0.1", server.port()).clients(first, first + 8)
            .connectTimeout(ChronoUnit.FOREVER.getDuration());
    }

    @Test
    void numbersAreLeasedAsTheyAreNeededAndGivenBackAtTheEnd() throws Exception {
        CountDownLatch latch = new CountDownLatch(1);
        try (Answering server = holding(latch)) {
            RvClients clients = leasing(server).build();
            assertFree(1);
            Calling<String> held = putting(clients, "held");
            server.awaitAsked(1);
            assertFalse(isFree(1));
            assertFree(2);
            queue(clients).put("a");
            assertFalse(isFree(2));
            assertFree(3);
            clients.close();
            assertInstanceOf(RvException.Unsettled.class, held.thrown());
            assertFree(1);
            assertFree(2);
            latch.countDown();
        }
    }

    @Test
    void theNumberOfAnEndedThreadIsGivenBackWhereItsSessionIdles() throws Exception {
        CountDownLatch latch = new CountDownLatch(1);
        try (Answering server = holding(latch); RvClients clients = leasing(server).idle(0).build()) {
            Calling<String> held = putting(clients, "held");
            server.awaitAsked(1);
            queue(clients).put("a");
            latch.countDown();
            assertEquals("done", held.end());
            assertFalse(isFree(1));
            queue(clients).put("b");
            assertFree(1);
            assertFalse(isFree(2));
        }
    }

    @Test
    void aNumberIsLeasedAnewInAGreaterIncarnationWhereItsSessionHasEnded() throws Exception {
        JsonObject ended = new JsonObject();
        ended.addProperty("kind", "refused");
        ended.addProperty("code", 3);
        try (Answering server = new Answering(message -> item(message).equals("ends") ? ended : Answering.well(message));
                RvClients clients = leasing(server).build()) {
            queue(clients).put("a");
            assertThrows(RvException.EpochEnded.class, () -> queue(clients).put("ends"));
            assertFree(1);
            queue(clients).put("b");
            List<JsonObject> hellos = server.hellos();
            assertEquals(2, hellos.size());
            assertEquals(List.of(first, first), hellos.stream().map(hello -> Bodies.number(hello, "client")).toList());
            assertTrue(Bodies.number(hellos.get(0), "incarnation") < Bodies.number(hellos.get(1), "incarnation"));
        }
    }

    /** So many puts at a time, at a server that meets them, each in a thread of its own. */
    private static void putAtATime(RvClients clients, int count) throws Exception {
        List<Calling<String>> all = new ArrayList<>();
        for (int each = 0; each < count; each++) {
            all.add(putting(clients, "held"));
        }
        for (Calling<String> each : all) {
            assertEquals("done", each.end());
        }
    }

    /** A server that answers puts of "held" once so many are there. */
    private static Answering meeting(int count) throws Exception {
        CyclicBarrier barrier = new CyclicBarrier(count);
        return new Answering(message -> {
            if (Bodies.word(message, "call").equals("count")) {
                return Answering.reply(message, key -> new Outcome.Counted(key, 0, 0));
            }
            if (item(message).equals("held")) {
                met(barrier);
            }
            return Answering.well(message);
        });
    }

    private static void met(CyclicBarrier barrier) {
        try {
            barrier.await();
        } catch (InterruptedException | BrokenBarrierException never) {
            throw new IllegalStateException(never);
        }
    }

    @Test
    void behindARestartOneCallMeetsItForAllIdleSessions() throws Exception {
        try (Answering server = meeting(4); RvClients clients = leasing(server).idle(NEVER).build()) {
            putAtATime(clients, 4);
            server.startsAnew();
            assertEquals(0, queue(clients).size());
            List<Long> epochs = server.asked().stream().map(message -> Bodies.number(message, "epoch")).toList();
            assertEquals(List.of(1L, 1L, 1L, 1L, 1L, 2L), epochs);
            assertEquals(5, server.hellos().size());
            assertFalse(isFree(1));
            assertFree(2);
            putAtATime(clients, 4);
            server.startsAnew();
            queue(clients).put("a");
            assertEquals(List.of(2L, 3L), epochsOf(server, "a"));
        }
    }

    private static List<Long> epochsOf(Answering server, String item) {
        return server.asked().stream().filter(message -> item(message).equals(item))
            .map(message -> Bodies.number(message, "epoch")).toList();
    }

    @Test
    void whereNoNumberIsLeftForAnotherSessionItIsToldThatNobodyMetIt() throws Exception {
        try (Answering server = new Answering(Answering::well); RvClients clients = server.clients(1, 1).build()) {
            queue(clients).put("a");
            server.startsAnew();
            RvException.NotAsked unmet = assertThrows(RvException.NotAsked.class, () -> queue(clients).put("b"));
            assertEquals(2, unmet.current());
            assertEquals(new Key(1, 1, 1, 2), unmet.key());
            assertInstanceOf(IllegalStateException.class, unmet.getSuppressed()[0]);
        }
    }

    @Test
    void theNumberOfAnUnsettledRequestStaysLeased() throws Exception {
        AtomicBoolean silent = new AtomicBoolean(true);
        try (Answering server = new Answering(message -> silent.get() ? null : Answering.well(message));
                RvClients clients = leasing(server).idle(0).grace(SOON).build()) {
            Key key = unsettled(server, clients);
            silent.set(false);
            while (server.open() > 0) {
                Thread.sleep(1);
            }
            queue(clients).put("a");
            assertFalse(isFree(1));
            assertEquals(List.of(key), clients.unsettled().stream().map(RvSession::key).toList());
            assertEquals(new Outcome.Cancelled(key), clients.unsettled().get(0).giveUp());
            assertEquals(List.of(), clients.unsettled());
            queue(clients).put("b");
            assertFree(1);
        }
    }

    @Test
    void twoProgramsOfAHostHaveDifferentNumbers() throws Exception {
        try (Answering server = new Answering(Answering::well); RvClients one = leasing(server).build();
                RvClients other = leasing(server).build()) {
            CompletableFuture<Void> both = CompletableFuture.allOf(CompletableFuture.runAsync(() -> queue(one).put("a")),
                CompletableFuture.runAsync(() -> queue(other).put("b")));
            both.join();
            assertEquals(List.of(first, first + 1),
                server.hellos().stream().map(hello -> Bodies.number(hello, "client")).sorted().toList());
        }
    }

    @Test
    void whatABuilderCannotMakeIsRefused() {
        RvClients.Builder builder = RvClients.builder("127.0.0.1", 7411);
        assertThrows(IllegalArgumentException.class, () -> builder.clients(0, 1));
        assertThrows(IllegalArgumentException.class, () -> builder.clients(2, 1));
        assertThrows(IllegalArgumentException.class, () -> builder.clients(1, 1L << 53));
        assertThrows(IllegalArgumentException.class, () -> builder.incarnation(0));
        assertThrows(IllegalArgumentException.class, () -> builder.incarnation(1L << 53));
        assertThrows(NullPointerException.class, () -> builder.patience(null));
        assertThrows(NullPointerException.class, () -> builder.executor(null));
        assertThrows(NullPointerException.class, () -> RvClients.builder(null, 7411));
        assertThrows(IllegalArgumentException.class, () -> RvClients.builder("a", 65_536).build());
        assertThrows(IllegalArgumentException.class, () -> RvClients.builder("a", 1).version(3).build());
        assertThrows(IllegalArgumentException.class,
            () -> RvClients.builder("a", 1).patience(Duration.ofMillis(-1)).build());
        assertThrows(IllegalStateException.class, () -> RvClients.builder("a", 1).unleased().build());
    }

    @Test
    void aChosenIncarnationIsThatOfEachSession() throws Exception {
        CountDownLatch latch = new CountDownLatch(1);
        try (Answering server = holding(latch); RvClients clients = server.clients(1, 2).incarnation(17).build()) {
            Calling<String> held = putting(clients, "held");
            server.awaitAsked(1);
            queue(clients).put("a");
            latch.countDown();
            held.end();
            assertEquals(List.of(17L, 17L),
                server.hellos().stream().map(hello -> Bodies.number(hello, "incarnation")).toList());
        }
    }
}
