package rendezvous;

import static org.junit.jupiter.api.Assertions.assertEquals;
import static org.junit.jupiter.api.Assertions.assertInstanceOf;
import static org.junit.jupiter.api.Assertions.assertThrows;
import static org.junit.jupiter.api.Assertions.assertTrue;

import com.google.gson.JsonObject;
import java.util.ArrayList;
import java.util.Collections;
import java.util.List;
import java.util.concurrent.CountDownLatch;
import java.util.concurrent.TimeUnit;
import java.util.concurrent.atomic.AtomicReference;
import org.junit.jupiter.api.Test;
import org.junit.jupiter.api.Timeout;

/** A consumer of items, which ends by a close or an interrupt and loses none. */
@Timeout(value = 2, unit = TimeUnit.MINUTES)
final class ConsumerTest {
    private static boolean isCancel(JsonObject message) {
        return Bodies.word(message, "kind").equals("cancel");
    }

    /** What a consumer does in a thread of its own, and how it ended. */
    private static final class Working extends Thread {
        private final RvConsumer jobs;
        private final List<String> done = Collections.synchronizedList(new ArrayList<>());
        private final AtomicReference<Throwable> fault = new AtomicReference<>();
        private volatile boolean interrupted;

        Working(RvConsumer jobs) {
            this.jobs = jobs;
            setUncaughtExceptionHandler((thread, thrown) -> fault.set(thrown));
            start();
        }

        @Override
        public void run() {
            try {
                jobs.forEach(done::add);
            } finally {
                interrupted = isInterrupted();
            }
        }

        /** It ended of itself, with these jobs done. */
        void ended(boolean isInterrupted, String... wanted) throws InterruptedException {
            join();
            assertEquals(null, fault.get());
            assertEquals(List.of(wanted), done);
            assertEquals(isInterrupted, interrupted);
        }
    }

    @Test
    void itTakesOneItemAfterAnotherUntilItIsClosed() throws Exception {
        try (Served server = new Served(); RvClients clients = server.clients()) {
            RvTransferQueue queue = new RvTransferQueue(clients, 3);
            RvConsumer jobs = queue.consumer();
            Working working = new Working(jobs);
            for (String item : List.of("a", "b", "c")) {
                queue.transfer(item);
            }
            while (!queue.hasWaitingConsumer()) {
                Thread.sleep(1);
            }
            jobs.close();
            working.ended(false, "a", "b", "c");
            queue.put("d");
            jobs.forEach(item -> assertEquals("none", item));
            assertEquals("d", queue.take());
        }
    }

    @Test
    void anInterruptEndsItAndStays() throws Exception {
        try (Served server = new Served(); RvClients clients = server.clients()) {
            RvTransferQueue queue = new RvTransferQueue(clients, 3);
            try (RvConsumer jobs = queue.consumer()) {
                Working working = new Working(jobs);
                queue.transfer("a");
                working.interrupt();
                working.ended(true, "a");
                Thread.currentThread().interrupt();
                jobs.forEach(item -> assertEquals("none", item));
                assertTrue(Thread.interrupted());
            }
        }
    }

    @Test
    void anItemThatWasAssignedBeforeTheEndIsDone() throws Exception {
        for (boolean closes : List.of(true, false)) {
            try (Answering server = new Answering(message -> isCancel(message)
                    ? Answering.reply(message, key -> new Outcome.Item(key, "late")) : null);
                    RvClients clients = server.clients(1, 8).build()) {
                RvConsumer jobs = new RvTransferQueue(clients, 3).consumer();
                Working working = new Working(jobs);
                server.awaitAsked(1);
                if (closes) {
                    jobs.close();
                } else {
                    working.interrupt();
                }
                working.ended(!closes, "late");
                assertEquals(2, server.asked().size());
            }
        }
    }

    @Test
    void whatIsNotKnownIsThrown() throws Exception {
        try (Answering server = new Answering(message -> null); RvClients clients = server.clients(1, 8).grace(1).build()) {
            RvConsumer jobs = new RvTransferQueue(clients, 3).consumer();
            Working working = new Working(jobs);
            server.awaitAsked(1);
            jobs.close();
            working.join();
            Key key = assertInstanceOf(RvException.Unsettled.class, working.fault.get()).key();
            assertEquals(List.of(key), clients.unsettled().stream().map(RvSession::key).toList());
        }
    }

    @Test
    void aCloseThatComesBetweenTwoTakesLetsNoOtherBegin() throws Exception {
        CountDownLatch takes = new CountDownLatch(1);
        CountDownLatch goes = new CountDownLatch(1);
        try (Answering server = new Answering(message -> Answering.reply(message, key -> new Outcome.Item(key, "a")));
                RvClients clients = server.clients(1, 8).build()) {
            RvConsumer jobs = new RvTransferQueue(clients, 3).consumer();
            List<String> done = new ArrayList<>();
            Thread working = new Thread(() -> jobs.forEach(job -> {
                takes.countDown();
                try {
                    goes.await();
                } catch (InterruptedException later) {
                    throw new IllegalStateException(later);
                }
                done.add(job);
            }));
            working.start();
            takes.await();
            jobs.close();
            goes.countDown();
            working.join();
            assertEquals(List.of("a"), done);
            assertEquals(1, server.asked().size());
        }
    }

    @Test
    void whatTheActionThrowsIsThrownAndItGoesOn() throws Exception {
        try (Served server = new Served(); RvClients clients = server.clients()) {
            RvTransferQueue queue = new RvTransferQueue(clients, 3);
            queue.put("a");
            queue.put("b");
            List<String> done = new ArrayList<>();
            try (RvConsumer jobs = queue.consumer()) {
                for (int each = 0; each < 2; each++) {
                    assertThrows(ArithmeticException.class, () -> jobs.forEach(job -> {
                        done.add(job);
                        throw new ArithmeticException();
                    }));
                }
            }
            assertEquals(List.of("a", "b"), done);
            assertThrows(NullPointerException.class, () -> queue.consumer().forEach(null));
        }
    }

    @Test
    void severalThreadsShareOne() throws Exception {
        int count = 20;
        try (Served server = new Served(); RvClients clients = server.clients()) {
            RvTransferQueue queue = new RvTransferQueue(clients, 3);
            RvConsumer jobs = queue.consumer();
            List<Working> crew = List.of(new Working(jobs), new Working(jobs), new Working(jobs));
            List<String> wanted = new ArrayList<>();
            for (int item = 0; item < count; item++) {
                wanted.add("item " + item);
                queue.transfer("item " + item);
            }
            jobs.close();
            List<String> done = new ArrayList<>();
            for (Working each : crew) {
                each.join();
                assertEquals(null, each.fault.get());
                done.addAll(each.done);
            }
            assertEquals(wanted.stream().sorted().toList(), done.stream().sorted().toList());
        }
    }
}
