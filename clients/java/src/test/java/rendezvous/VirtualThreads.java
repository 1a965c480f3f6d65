package rendezvous;

import com.google.gson.JsonObject;
import java.io.InterruptedIOException;
import java.util.ArrayList;
import java.util.List;
import java.util.Set;
import java.util.concurrent.CompletableFuture;
import java.util.concurrent.ConcurrentHashMap;
import java.util.concurrent.CountDownLatch;
import java.util.concurrent.ExecutorService;
import java.util.concurrent.Executors;
import java.util.concurrent.Future;

/**
 * Ten thousand virtual threads that put an item each, all at once, and futures of takes on virtual threads: prints how many
 * were asked, and whether they used no more sessions and connections than there are numbers; and how many items are unclaimed
 * where takes are cancelled and a virtual thread closes their clients; and as many sessions as threads, each with a request of
 * its own at one time. It needs JDK 21 or later.
 */
final class VirtualThreads {
    private static final int THREADS = 10_000;
    private static final int TAKES = 1_000;
    private static final int NUMBERS = 16;

    private VirtualThreads() {}

    public static void main(String[] words) throws Exception {
        System.out.println(run());
        System.out.println(closed());
        System.out.println(sessions());
    }

    /** Whether this JDK has virtual threads. */
    static boolean areThere() {
        return Runtime.version().feature() >= 21;
    }

    /** What came of it. */
    static String run() throws Exception {
        ExecutorService executor = executor();
        try (Answering server = new Answering(VirtualThreads::answer);
                RvClients clients = server.clients(1, NUMBERS).executor(executor).idle(Long.MAX_VALUE).patientForEver().build()) {
            RvTransferQueue queue = new RvTransferQueue(clients, 3);
            List<Future<?>> puts = new ArrayList<>();
            for (int each = 0; each < THREADS; each++) {
                puts.add(executor.submit(() -> queue.put("a")));
            }
            for (Future<?> each : puts) {
                each.get();
            }
            List<CompletableFuture<String>> takes = new ArrayList<>();
            for (int each = 0; each < TAKES; each++) {
                takes.add(queue.takeAsync());
            }
            long got = takes.stream().map(CompletableFuture::join).filter("taken"::equals).count();
            return server.asked().size() + " requests, " + got + " items, "
                + (server.hellos().size() <= NUMBERS && server.connections() <= NUMBERS ? "no more" : "more") + " sessions than "
                + NUMBERS;
        } finally {
            executor.shutdown();
        }
    }

    private static ExecutorService executor() throws ReflectiveOperationException {
        return (ExecutorService) Executors.class.getMethod("newVirtualThreadPerTaskExecutor").invoke(null);
    }

    /** What stands after a close of cancelled takes, whose items come nonetheless. */
    static String closed() throws Exception {
        ExecutorService executor = executor();
        try (Answering server = new Answering(message -> Bodies.word(message, "kind").equals("cancel")
                ? Answering.reply(message, key -> new Outcome.Item(key, "late")) : null)) {
            RvClients clients = server.clients(1, NUMBERS).executor(executor).build();
            RvTransferQueue queue = new RvTransferQueue(clients, 3);
            List<CompletableFuture<String>> takes = new ArrayList<>();
            for (int each = 0; each < NUMBERS; each++) {
                takes.add(queue.takeAsync());
            }
            server.awaitAsked(NUMBERS);
            takes.forEach(take -> executor.submit(() -> take.cancel(true)));
            while (!takes.stream().allMatch(CompletableFuture::isDone)) {
                Thread.sleep(1);
            }
            executor.submit(clients::close).get();
            return NUMBERS + " cancelled, " + queue.unclaimed().size() + " unclaimed, " + clients.unsettled().size()
                + " unsettled";
        } finally {
            executor.shutdown();
        }
    }

    /**
     * What came of takes in ten thousand sessions, each in a virtual thread: none is answered before each is asked. They have no
     * network, for a process may have fewer descriptors.
     */
    static String sessions() throws Exception {
        CountDownLatch asked = new CountDownLatch(THREADS);
        Set<Long> numbers = ConcurrentHashMap.newKeySet();
        Link.Maker links = ScriptedLink.of(message -> {
            numbers.add(Bodies.number(message, "client"));
            asked.countDown();
            awaits(asked);
            return answer(message);
        });
        ExecutorService executor = executor();
        try (RvClients clients = new RvClients(1, THREADS,
                client -> new RvSession(links, client, 1, null, RvSession.ANSWER, RvSession.VERSION))) {
            RvTransferQueue queue = new RvTransferQueue(clients, 3);
            List<Future<String>> takes = new ArrayList<>();
            for (int each = 0; each < THREADS; each++) {
                takes.add(executor.submit(() -> queue.take()));
            }
            long got = 0;
            for (Future<String> each : takes) {
                got += each.get().equals("taken") ? 1 : 0;
            }
            return numbers.size() + " sessions, " + got + " items";
        } finally {
            executor.shutdown();
        }
    }

    private static void awaits(CountDownLatch latch) throws InterruptedIOException {
        try {
            latch.await();
        } catch (InterruptedException now) {
            throw new InterruptedIOException(now.getMessage());
        }
    }

    private static JsonObject answer(JsonObject message) {
        return Bodies.word(message, "call").equals("take")
            ? Answering.reply(message, key -> new Outcome.Item(key, "taken")) : Answering.well(message);
    }
}
