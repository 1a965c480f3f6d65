package rendezvous;

import com.google.gson.JsonObject;
import java.io.BufferedReader;
import java.io.ByteArrayInputStream;
import java.io.ByteArrayOutputStream;
import java.io.File;
import java.io.FileInputStream;
import java.io.IOException;
import java.io.InputStreamReader;
import java.io.ObjectInputStream;
import java.io.ObjectOutputStream;
import java.nio.charset.StandardCharsets;
import java.nio.file.Files;
import java.nio.file.LinkOption;
import java.security.Security;
import java.time.Duration;
import java.time.temporal.ChronoUnit;
import java.util.ArrayList;
import java.util.LinkedHashMap;
import java.util.List;
import java.util.Map;
import java.util.concurrent.Callable;
import java.util.concurrent.CompletableFuture;
import java.util.concurrent.CompletionException;
import java.util.concurrent.CountDownLatch;
import java.util.concurrent.ExecutionException;
import java.util.concurrent.ExecutorService;
import java.util.concurrent.Executors;
import java.util.concurrent.FutureTask;
import java.util.concurrent.TimeUnit;
import java.util.concurrent.atomic.AtomicReference;
import java.util.logging.Logger;
import java.util.stream.Stream;

/**
 * Plays one scene at a scripted server, and prints a line for each thing that the client says in it. A scene that has
 * to wait for the server's script waits for a line of standard input.
 */
final class Scenes {
    private static final String HOST = "127.0.0.1";
    /** What the client logs, which is no word of a scene's; it is kept, so that it is not thrown away. */
    private static final Logger LOG = Logger.getLogger("rendezvous");
    private static final BufferedReader LINES =
        new BufferedReader(new InputStreamReader(System.in, StandardCharsets.UTF_8));

    /** What is played at a port. */
    private interface Scene {
        void play(int port) throws Exception;
    }

    private static final Map<String, Scene> SCENES = Map.ofEntries(
        Map.entry("dead-unsettled", Scenes::deadUnsettled), Map.entry("dead-ended", Scenes::deadEnded),
        Map.entry("stale", port -> stale(clients(port, 1, 1, 60_000))),
        Map.entry("stale-and-full", port -> stale(brief(port, 1))), Map.entry("last", Scenes::lastOfAThread),
        Map.entry("close-in-a-call", Scenes::closeInACall), Map.entry("close-and-cancel", Scenes::closeAfterACancel),
        Map.entry("close-in-a-pause", Scenes::closeInAPause), Map.entry("full-memory", Scenes::fullMemory),
        Map.entry("two-threads", Scenes::twoThreads), Map.entry("not-ordered", Scenes::notOrdered),
        Map.entry("not-possible", Scenes::notPossible), Map.entry("for-ever", Scenes::forEver),
        Map.entry("long-time", Scenes::longTime), Map.entry("dead-threads", Scenes::deadThreads),
        Map.entry("pooled", Scenes::pooled), Map.entry("ended", Scenes::endedInOneThread),
        Map.entry("restarts", Scenes::restarts), Map.entry("restart-looks", Scenes::restartLooks),
        Map.entry("restart-interrupted", Scenes::restartInterrupted), Map.entry("lines", Scenes::lines),
        Map.entry("interrupted-hello", Scenes::interruptedTake),
        Map.entry("interrupted-again", Scenes::interruptedAgain), Map.entry("nested", Scenes::nested),
        Map.entry("serialized", Scenes::serialized), Map.entry("unresolved", Scenes::unresolved),
        Map.entry("used-up", Scenes::usedUp), Map.entry("no-descriptors", Scenes::noDescriptors),
        Map.entry("times", Scenes::times), Map.entry("cancelled-take", Scenes::cancelledTake),
        Map.entry("cancelled-transfer", Scenes::cancelledTransfer), Map.entry("consumer", Scenes::consumer),
        Map.entry("waits", Scenes::waits), Map.entry("pieces", Scenes::pieces), Map.entry("shards", Scenes::shards));

    /** A patience that ends in a scene, in milliseconds: long enough for a slow machine to ask. */
    private static final long SHORT = 3_000;

    private Scenes() {}

    public static void main(String[] words) throws Exception {
        LOG.setUseParentHandlers(false);
        SCENES.get(words[0]).play(Integer.parseInt(words[1]));
        // what still runs ends with the program
        System.exit(0);
    }

    private static RvClients clients(int port, int first, int most, long millis) {
        return given(HOST, port, first, first + most - 1L).patience(Duration.ofMillis(millis)).build();
    }

    /**
     * So many clients, whose patience ends in a scene. A call at another server goes before: so the time in which a
     * program loads what calls need is not theirs.
     */
    private static RvClients brief(int port, int most) throws Exception {
        try (Answering other = new Answering(Answering::well); RvClients first = other.clients(1, 1).build()) {
            put(first, "a").call();
        }
        return clients(port, 1, most, SHORT);
    }

    /** Clients of these numbers, which nobody leases, in incarnation 1. */
    private static RvClients.Builder given(String host, int port, long first, long last) {
        return RvClients.builder(host, port).clients(first, last).unleased().incarnation(1)
            .connectTimeout(ChronoUnit.FOREVER.getDuration());
    }

    /** What a call gives or throws, and whether its thread is interrupted then. */
    private static String told(Callable<?> call) {
        String told;
        try {
            told = "gave " + call.call();
        } catch (RvException fault) {
            told = "threw " + fault.getClass().getSimpleName() + " of " + fault.key();
        } catch (Throwable fault) {
            boolean words = fault.getClass() == IllegalStateException.class;
            told = "threw " + fault.getClass().getSimpleName() + (words ? ": " + fault.getMessage() : "");
        }
        return told + (Thread.interrupted() ? ", interrupted" : "");
    }

    /** The words of the exception of a call, where one of the server's comes. */
    private static String words(Callable<?> call) throws Exception {
        try {
            return "gave " + call.call();
        } catch (RvException fault) {
            return fault.getClass().getSimpleName() + ": " + fault.getMessage();
        }
    }

    private static Callable<String> put(RvClients clients, String item) {
        return () -> {
            new RvTransferQueue(clients, 3).put(item);
            return "done";
        };
    }

    /** A call in a new thread, and what it tells. */
    private record Started(Thread thread, FutureTask<String> told) {
        static Started of(Callable<?> call) {
            FutureTask<String> told = new FutureTask<>(() -> Scenes.told(call));
            Thread thread = new Thread(told);
            thread.setDaemon(true);
            thread.start();
            return new Started(thread, told);
        }

        /** What it told, where its thread is dead. */
        String end() throws InterruptedException, ExecutionException {
            thread.join();
            return told.get();
        }

        /** Waits until the thread is within a method, or has ended. */
        void isWithin(String type, String method) throws InterruptedException {
            while (thread.isAlive() && Stream.of(thread.getStackTrace()).noneMatch(
                    frame -> frame.getClassName().endsWith(type) && frame.getMethodName().equals(method))) {
                Thread.sleep(5);
            }
        }
    }

    private static String inThread(Callable<?> call) throws Exception {
        return Started.of(call).end();
    }

    /** Three threads, one after another, put an item each. */
    private static void threePuts(RvClients clients) throws Exception {
        for (String item : List.of("a", "b", "c")) {
            System.out.println(inThread(put(clients, item)));
        }
    }

    private static List<Key> keys(RvClients clients) {
        return clients.unsettled().stream().map(RvSession::key).toList();
    }

    /** Two threads die with unsettled requests; a third one wants a session; then all is settled, and two put at a time. */
    private static void deadUnsettled(int port) throws Exception {
        RvClients clients = brief(port, 2);
        threePuts(clients);
        System.out.println(keys(clients));
        LINES.readLine();
        List<RvSession> left = clients.unsettled();
        System.out.println(told(left.get(0)::again));
        System.out.println(told(left.get(1)::giveUp));
        System.out.println(keys(clients));
        List<Started> two = List.of(Started.of(put(clients, "d")), Started.of(put(clients, "d")));
        for (Started each : two) {
            System.out.println(each.end());
        }
        System.out.println(inThread(put(clients, "e")));
    }

    /** A thread dies behind the end of its epoch; two more threads come. */
    private static void deadEnded(int port) throws Exception {
        threePuts(clients(port, 1, 3, 60_000));
    }

    /** A living thread's epoch ends, with another number and with none. */
    private static void endedInOneThread(int port) throws Exception {
        RvClients clients = clients(port, 1, 2, 60_000);
        for (String item : List.of("a", "b", "c", "d")) {
            System.out.println(told(put(clients, item)));
        }
        System.out.println(inThread(put(clients, "e")));
    }

    /** Each call of a queue and an exchanger that a session asks, by its name; the last ones only look. */
    private static Map<String, Callable<?>> calls(RvClients clients) {
        RvTransferQueue queue = new RvTransferQueue(clients, 3);
        Map<String, Callable<?>> calls = new LinkedHashMap<>();
        calls.put("put", put(clients, "a"));
        calls.put("transfer", () -> queue.transferReceipt("a").by());
        calls.put("tryTransfer", () -> queue.tryTransfer("a"));
        calls.put("timed tryTransfer", () -> queue.tryTransfer("a", 1, TimeUnit.HOURS));
        calls.put("take", queue::take);
        calls.put("poll", () -> queue.poll(1, TimeUnit.HOURS));
        calls.put("drainTo", () -> queue.drainTo(new ArrayList<>(), 2));
        calls.put("exchange", () -> new RvExchanger(clients, 5).exchange("a"));
        calls.put("takeAsync", () -> queue.takeAsync().get());
        calls.put("size", queue::size);
        calls.put("isEmpty", queue::isEmpty);
        calls.put("getWaitingConsumerCount", queue::getWaitingConsumerCount);
        calls.put("hasWaitingConsumer", queue::hasWaitingConsumer);
        calls.put("peek", queue::peek);
        return calls;
    }

    /** Each call behind a put, which the server's next start comes after. */
    private static void restarts(int port) throws Exception {
        RvClients clients = clients(port, 1, 100, 60_000);
        for (Map.Entry<String, Callable<?>> call : calls(clients).entrySet()) {
            put(clients, "b").call();
            System.out.println(call.getKey() + " " + told(call.getValue()));
        }
    }

    /** Each call that only looks. */
    private static void restartLooks(int port) throws Exception {
        RvClients clients = clients(port, 1, 100, 60_000);
        for (Map.Entry<String, Callable<?>> call : List.copyOf(calls(clients).entrySet()).subList(9, 14)) {
            System.out.println(call.getKey() + " " + told(call.getValue()));
        }
    }

    /** Each line is an item that is put, and its request's key is told; or it asks for the size. */
    private static void lines(int port) throws Exception {
        RvClients clients = clients(port, 1, 100, 120_000);
        RvTransferQueue queue = new RvTransferQueue(clients, 3);
        for (String line = LINES.readLine(); line != null; line = LINES.readLine()) {
            if (line.equals("size")) {
                System.out.println("size " + queue.size());
            } else {
                queue.put(line);
                System.out.println("done " + clients.last().orElseThrow().key());
            }
        }
    }

    /**
     * The first line has the addresses of several servers. Each line after it asks at a queue, in a thread of its own: a take, or a
     * put of an item; and what comes of that is told.
     */
    private static void shards(int none) throws Exception {
        List<String> addresses = List.of(LINES.readLine().split(" "));
        RvShards shards = RvShards.of(addresses, builder -> builder.clients(1, 8).unleased().incarnation(1)
            .patientForEver().connectTimeout(ChronoUnit.FOREVER.getDuration()));
        for (String line = LINES.readLine(); line != null; line = LINES.readLine()) {
            String[] words = line.split(" ");
            RvTransferQueue queue = shards.queue(Integer.parseInt(words[1]));
            Started.of(() -> {
                if (words[0].equals("take")) {
                    System.out.println("took " + words[1] + " " + queue.take());
                } else {
                    queue.put(words[2]);
                    System.out.println("put " + words[1] + " " + words[2]);
                }
                return null;
            });
        }
    }

    /** A take is interrupted that goes on in the new epoch. */
    private static void restartInterrupted(int port) throws Exception {
        RvClients clients = clients(port, 1, 2, 60_000);
        Started taking = Started.of(new RvTransferQueue(clients, 3)::take);
        LINES.readLine();
        taking.thread().interrupt();
        System.out.println(taking.end());
        System.out.println(told(put(clients, "a")));
    }

    /** What a session tells of its last request, behind requests that were not settled. */
    private static void stale(RvClients clients) {
        System.out.println("last " + told(clients.session()::last));
        System.out.println("take " + told(new RvTransferQueue(clients, 3)::take));
        System.out.println("last " + told(clients.session()::last));
        System.out.println("put " + told(put(clients, "b")));
        System.out.println("last " + told(clients.session()::last));
    }

    /** The clients are closed while a thread waits for an answer. */
    private static void closeInACall(int port) throws Exception {
        RvClients clients = clients(port, 1, 1, 60_000);
        Started taking = Started.of(() -> words(new RvTransferQueue(clients, 3)::take));
        LINES.readLine();
        taking.isWithin("SelectorImpl", "lockAndDoSelect");
        clients.close();
        System.out.println("take " + taking.end());
        System.out.println("put " + told(put(clients, "a")));
        System.out.println(keys(clients));
    }

    /** A future of a take is cancelled, and the clients are closed before anything is heard of that. */
    private static void closeAfterACancel(int port) throws Exception {
        RvClients clients = patient(port, 1);
        RvTransferQueue queue = new RvTransferQueue(clients, 3);
        CompletableFuture<String> taken = queue.takeAsync();
        LINES.readLine();
        System.out.println("cancel " + taken.cancel(true));
        LINES.readLine();
        Started closing = Started.of(() -> {
            clients.close();
            return "an end";
        });
        closing.isWithin("Pool", "awaitCalls");
        System.out.println("closes");
        System.out.println(closing.end() + ", unclaimed " + queue.unclaimed() + ", unsettled " + keys(clients));
    }

    /** What clients tell of a thread's last call, where that asked nothing. */
    private static void lastOfAThread(int port) {
        RvClients clients = clients(port, 1, 1, 60_000);
        RvTransferQueue queue = new RvTransferQueue(clients, 3);
        List<Callable<?>> calls = List.of(() -> {
            Thread.currentThread().interrupt();
            return queue.take();
        }, put(clients, "x".repeat(513)), () -> queue.drainTo(queue), () -> {
            clients.close();
            return queue.poll();
        });
        for (Callable<?> call : calls) {
            System.out.println("put " + told(put(clients, "a")) + ", last " + clients.last());
            System.out.println(told(call) + ", last " + clients.last());
        }
    }

    /** The clients are closed while a thread waits for its next try. */
    private static void closeInAPause(int port) throws Exception {
        RvClients clients = clients(port, 1, 1, 120_000);
        Started putting = Started.of(() -> words(put(clients, "a")));
        putting.isWithin("RvSession", "pause");
        clients.close();
        System.out.println("put " + putting.end());
        LINES.readLine();
    }

    private static RvSession session(int port) {
        return new RvSession(HOST, port, 1, 1, Duration.ofMinutes(1), Duration.ofMinutes(1), 2);
    }

    private static JsonObject putOf(String item) {
        return Calls.giving(Calls.at("put", "queue", 3), item);
    }

    /** There is no memory for an answer whose length has come already. */
    private static void fullMemory(int port) throws Exception {
        RvSession session = session(port);
        AtomicReference<Throwable> threw = new AtomicReference<>();
        Thread putting = new Thread(() -> session.ask(putOf("a")));
        putting.setUncaughtExceptionHandler((thread, fault) -> threw.set(fault));
        putting.start();
        LINES.readLine();
        System.out.println("fills");
        List<byte[]> filler = filler();
        System.out.println("full");
        putting.join();
        filler.clear();
        System.out.println("put threw " + threw.get());
        System.out.println("again " + told(session::again));
    }

    /** Blocks that leave no room for a long answer, and some for all else. */
    private static List<byte[]> filler() {
        List<byte[]> blocks = new ArrayList<>(1 << 16);
        try {
            while (true) {
                blocks.add(new byte[1 << 12]);
            }
        } catch (OutOfMemoryError full) {
            blocks.subList(blocks.size() - 8, blocks.size()).clear();
        }
        return blocks;
    }

    /** A second thread asks a session in which a first one's call runs. */
    private static void twoThreads(int port) throws Exception {
        RvClients clients = clients(port, 1, 2, 60_000);
        AtomicReference<RvSession> shared = new AtomicReference<>();
        Started taking = Started.of(() -> {
            shared.set(clients.session());
            return new RvTransferQueue(clients, 3).take();
        });
        LINES.readLine();
        taking.isWithin("SelectorImpl", "lockAndDoSelect");
        System.out.println("unsettled " + told(shared.get()::isUnsettled) + ", " + keys(clients));
        System.out.println("again " + told(shared.get()::again));
        System.out.println("give up " + told(shared.get()::giveUp));
        System.out.println("put " + told(() -> shared.get().ask(putOf("a"))));
        System.out.println("take " + taking.end());
    }

    /** Each call is told that it was cancelled, which nobody ordered. */
    private static void notOrdered(int port) {
        RvClients clients = clients(port, 1, 1, 60_000);
        RvTransferQueue queue = new RvTransferQueue(clients, 3);
        RvExchanger exchanger = new RvExchanger(clients, 5);
        List<Callable<?>> calls = List.of(() -> exchanger.exchange("x"), () -> exchanger.exchange("x", 1, TimeUnit.DAYS),
            put(clients, "a"), queue::take, queue::poll, () -> queue.poll(1, TimeUnit.DAYS), queue::peek, queue::size,
            () -> queue.transferReceipt("a"), () -> queue.tryTransfer("a"), () -> queue.tryTransfer("a", 1, TimeUnit.DAYS),
            () -> queue.drainTo(new ArrayList<>()));
        calls.forEach(call -> System.out.println(told(call)));
    }

    /** Each call is told what it cannot have, and then what it can. */
    private static void notPossible(int port) {
        RvClients clients = clients(port, 1, 1, 60_000);
        RvTransferQueue queue = new RvTransferQueue(clients, 3);
        System.out.println("put " + told(put(clients, "a")));
        System.out.println("take " + told(queue::take));
        System.out.println("poll " + told(queue::poll));
        System.out.println("tryTransfer " + told(() -> queue.tryTransfer("a")));
        System.out.println("drainTo " + told(() -> queue.drainTo(new ArrayList<>())));
        System.out.println("exchange " + told(() -> new RvExchanger(clients, 5).exchange("x")));
        System.out.println("transfer " + told(() -> queue.transferReceipt("a").by()));
        System.out.println("size " + told(queue::size));
    }

    /** The longest time of each unit, and the least above a day. */
    private static void forEver(int port) {
        RvTransferQueue queue = new RvTransferQueue(clients(port, 1, 1, 60_000), 3);
        for (TimeUnit unit : TimeUnit.values()) {
            System.out.println(unit + " " + told(() -> queue.poll(Long.MAX_VALUE, unit)));
        }
        System.out.println("a day " + told(() -> queue.poll(1, TimeUnit.DAYS)));
        System.out.println("more " + told(() -> queue.poll(86_400_001, TimeUnit.MILLISECONDS)));
        System.out.println("no time " + told(() -> queue.poll(Long.MIN_VALUE, TimeUnit.DAYS)));
    }

    /** The longest time that is asked as for ever, but that it ends soon, behind a put that says hello. */
    private static void longTime(int port) {
        RvSession session = new RvSession(HOST, port, 1, 1);
        session.grace(TimeUnit.MILLISECONDS.toNanos(SHORT));
        System.out.println("put " + told(() -> session.ask(putOf("a"))));
        Calls.Job brief = new Calls.Job(Calls.waiting(Calls.at("take", "queue", 3), "forever").call(), 300_000_000L);
        System.out.println("brief " + told(() -> session.ask(brief, true)));
        System.out.println("last " + told(session::last));
    }

    /** Five threads have sessions at once, and die; then another one puts, as long as lines are empty. */
    private static void deadThreads(int port) throws Exception {
        RvClients clients = clients(port, 1, 5, 60_000);
        CountDownLatch all = new CountDownLatch(5);
        List<Started> threads = new ArrayList<>();
        for (int each = 0; each < 5; each++) {
            threads.add(Started.of(() -> {
                new RvTransferQueue(clients, 3).put("a");
                all.countDown();
                all.await();
                return "done";
            }));
        }
        for (Started each : threads) {
            System.out.println(each.end());
        }
        while (LINES.readLine().isEmpty()) {
            System.out.println(told(put(clients, "b")));
        }
        clients.close();
        LINES.readLine();
    }

    /** Tasks of one pooled thread, the first of which ends unsettled. */
    private static void pooled(int port) throws Exception {
        RvClients clients = brief(port, 2);
        ExecutorService pool = Executors.newSingleThreadExecutor();
        for (String item : List.of("a", "b", "c")) {
            System.out.println(pool.submit(() -> told(put(clients, item))).get());
            LINES.readLine();
        }
        System.out.println(keys(clients));
        System.out.println(told(clients.unsettled().get(0)::again));
        System.out.println(keys(clients));
        System.out.println(inThread(put(clients, "d")));
    }

    /** A thread is interrupted while it takes. */
    private static void interruptedTake(int port) throws Exception {
        RvClients clients = clients(port, 1, 1, 100_000);
        interrupt(Started.of(new RvTransferQueue(clients, 3)::take));
        LINES.readLine();
        System.out.println(told(put(clients, "a")));
    }

    /** Interrupts a thread where a line says so. */
    private static void interrupt(Started started) throws Exception {
        LINES.readLine();
        long began = System.nanoTime();
        started.thread.interrupt();
        String told = started.end();
        long millis = TimeUnit.NANOSECONDS.toMillis(System.nanoTime() - began);
        System.out.println(told);
        System.out.println("within " + (1 + millis / 30_000) * 30 + " seconds");
    }

    /** A thread is interrupted while it asks an unsettled request again. */
    private static void interruptedAgain(int port) throws Exception {
        RvClients clients = brief(port, 1);
        System.out.println("take " + told(new RvTransferQueue(clients, 3)::take));
        RvSession session = clients.session();
        Thread.currentThread().interrupt();
        System.out.println("again " + told(session::again));
        Thread.currentThread().interrupt();
        System.out.println("give up " + told(session::giveUp));
        interrupt(Started.of(session::again));
        System.out.println(session.last());
    }

    /** An answer has a member of lists in lists. */
    private static void nested(int port) throws Exception {
        RvSession session = session(port);
        System.out.println("put " + inThread(() -> session.ask(putOf("a"))));
    }

    /** Exceptions are written and read back. */
    private static void serialized(int port) throws Exception {
        Key key = new Key(1, 2, 3, 4);
        for (RvException fault : List.of(new RvException.Unsettled(key, true, "a"), new RvException.NotAsked("a"), new RvException.NotAsked(key, 9),
                new RvException.Full(key), new RvException.EpochEnded(key, 1), new RvException.Replaced(key, 9),
                new RvException.Refused(key, 12, 2L, 1))) {
            ByteArrayOutputStream bytes = new ByteArrayOutputStream();
            try (ObjectOutputStream out = new ObjectOutputStream(bytes)) {
                out.writeObject(fault);
            }
            try (ObjectInputStream in = new ObjectInputStream(new ByteArrayInputStream(bytes.toByteArray()))) {
                RvException read = (RvException) in.readObject();
                System.out.println(read.getClass().getSimpleName() + " of " + read.key() + ": " + read.getMessage());
            }
        }
    }

    /** A host is not known at first, and is known later. */
    private static void unresolved(int port) throws Exception {
        Security.setProperty("networkaddress.cache.negative.ttl", "0");
        RvClients clients = given("rendezvous.test", port, 1, 1).patience(Duration.ofMillis(SHORT)).build();
        System.out.println("put " + words(put(clients, "a")).replace(":" + port, ""));
        LINES.readLine();
        System.out.println("put " + words(put(clients, "a")));
    }

    /** Sessions that cannot be made, and a patience of all time. */
    private static void usedUp(int port) {
        int[] made = {0};
        RvClients clients = new RvClients(1, 2, client -> {
            made[0]++;
            if (made[0] == 2 || made[0] == 3) {
                throw new ArithmeticException("not now");
            }
            return new RvSession(HOST, port, client, 1, Duration.ofSeconds(Long.MAX_VALUE), RvSession.ANSWER, 2);
        });
        for (int each = 0; each < 3; each++) {
            System.out.println(told(put(clients, "a")));
        }
        System.out.println(told(() -> given("a", 0, 1, 1).build()));
        System.out.println(told(() -> given("a", 1, Key.GREATEST, Key.GREATEST + 1).build()));
        System.out.println(told(() -> given("a", 1, 1, Integer.MAX_VALUE).patientForEver().build().session().key()));
    }

    /** What links have open in this program: sockets, and what waits for them. The runtime itself opens files now and then. */
    private static List<String> descriptors() throws IOException {
        List<String> open = new ArrayList<>();
        for (File each : new File("/proc/self/fd").listFiles()) {
            if (Files.exists(each.toPath(), LinkOption.NOFOLLOW_LINKS)) {
                open.add(Files.readSymbolicLink(each.toPath()).toString());
            }
        }
        open.removeIf(name -> name.startsWith("/"));
        return open;
    }

    /** A future of a take is cancelled where its request is asked, and its item comes nonetheless. */
    private static void cancelledTake(int port) throws Exception {
        RvTransferQueue queue = new RvTransferQueue(patient(port, 1), 3);
        CompletableFuture<String> taken = queue.takeAsync();
        LINES.readLine();
        System.out.println("cancel " + taken.cancel(true) + ", take " + told(queue::take));
        CompletableFuture<String> late = queue.takeAsync();
        LINES.readLine();
        late.cancel(true);
        System.out.println("poll " + told(queue::poll) + ", unclaimed " + queue.unclaimed());
    }

    /** Futures of transfers are cancelled: one that nobody met, one that was received, and one of which nothing is heard. */
    private static void cancelledTransfer(int port) throws Exception {
        RvClients patient = patient(port, 1);
        RvClients other = clients(port, 2, 1, 60_000);
        for (RvClients each : List.of(patient, patient, other)) {
            CompletableFuture<Receipt> future = new RvTransferQueue(each, 3).transferAsync("a");
            LINES.readLine();
            System.out.println("cancel " + future.cancel(true) + ", " + ended(future));
        }
        System.out.println(keys(other));
    }

    /** Clients of one number, whose cancels a slow machine has time for. */
    private static RvClients patient(int port, long client) {
        return given(HOST, port, client, client).grace(Answering.LONG).build();
    }

    /** What a future that is complete tells. */
    private static String ended(CompletableFuture<?> future) {
        return told(() -> {
            try {
                return future.join();
            } catch (CompletionException fault) {
                throw (Exception) fault.getCause();
            }
        });
    }

    /** A consumer gives items to an action, until it is closed while an item is under way, and another until an interrupt. */
    private static void consumer(int port) throws Exception {
        RvTransferQueue queue = new RvTransferQueue(patient(port, 1), 3);
        RvConsumer jobs = queue.consumer();
        Started working = Started.of(() -> {
            jobs.forEach(job -> System.out.println("does " + job));
            return "an end";
        });
        LINES.readLine();
        jobs.close();
        System.out.println(working.end());
        Started other = Started.of(() -> {
            queue.consumer().forEach(job -> System.out.println("does " + job));
            return "an end";
        });
        LINES.readLine();
        other.thread.interrupt();
        System.out.println(other.end());
    }

    /** A take in pieces of a second, until it has an item. */
    private static void waits(int port) {
        RvClients clients = given(HOST, port, 1, 1).presence(Duration.ofSeconds(1)).build();
        System.out.println(told(new RvTransferQueue(clients, 3)::take));
    }

    /** A take in pieces of an hour, and one that is interrupted. */
    private static void pieces(int port) throws Exception {
        RvTransferQueue queue =
            new RvTransferQueue(given(HOST, port, 1, 1).grace(Answering.LONG).presence(Duration.ofHours(1)).build(), 3);
        System.out.println(told(queue::take));
        Started taking = Started.of(queue::take);
        LINES.readLine();
        taking.thread.interrupt();
        System.out.println(taking.end());
    }

    /** There are descriptors for all of a link but its socket; then there are some again. */
    private static void noDescriptors(int port) throws Exception {
        // what loads classes that need descriptors
        System.out.println("put " + told(put(clients(1, 1, 1, 100), "a")));
        RvClients patient = clients(port, 1, 1, 60_000);
        RvClients brief = clients(port, 2, 1, SHORT);
        System.out.println("put " + told(put(patient, "a")));
        patient.session().rest();
        List<String> before = descriptors();
        for (int free = 0; free < 5; free++) {
            List<FileInputStream> fillers = filled();
            for (int each = 0; each < free; each++) {
                fillers.remove(0).close();
            }
            // all four are enough
            RvClients clients = free < 4 ? brief : patient;
            System.out.println("put with " + free + " " + told(put(clients, "b")));
            clients.session().rest();
            for (FileInputStream each : fillers) {
                each.close();
            }
            List<String> after = descriptors();
            before.forEach(after::remove);
            System.out.println("left " + after);
        }
    }

    /** Files, until no more can be opened. */
    private static List<FileInputStream> filled() {
        List<FileInputStream> files = new ArrayList<>();
        try {
            while (true) {
                files.add(new FileInputStream("/dev/null"));
            }
        } catch (IOException full) {
            return files;
        }
    }

    /** How many tenths of a second calls with a time take, where the server is silent and where there is none. */
    private static void times(int port) throws Exception {
        for (int at : List.of(port, 1)) {
            RvTransferQueue queue = new RvTransferQueue(clients(at, 1, 9, 100_000), 3);
            if (at == port) {
                // so that the hello is said before
                queue.put("a");
            }
            long began = System.nanoTime();
            System.out.println(told(() -> queue.poll(300, TimeUnit.MILLISECONDS)));
            System.out.println(TimeUnit.NANOSECONDS.toMillis(System.nanoTime() - began));
        }
        System.out.println(words(() -> new RvTransferQueue(clients(1, 1, 1, 100), 3).poll(0, TimeUnit.SECONDS)));
    }
}
