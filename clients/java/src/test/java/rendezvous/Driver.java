package rendezvous;

import java.io.BufferedReader;
import java.io.IOException;
import java.io.InputStreamReader;
import java.nio.charset.StandardCharsets;
import java.nio.file.Files;
import java.nio.file.Path;
import java.time.Duration;
import java.time.temporal.ChronoUnit;
import java.util.ArrayList;
import java.util.Collections;
import java.util.List;
import java.util.Optional;
import java.util.Set;
import java.util.concurrent.ArrayBlockingQueue;
import java.util.concurrent.BlockingQueue;
import java.util.concurrent.CompletableFuture;
import java.util.concurrent.CompletionException;
import java.util.concurrent.LinkedBlockingQueue;
import java.util.concurrent.TimeUnit;
import java.util.function.UnaryOperator;
import java.util.logging.Handler;
import java.util.logging.Level;
import java.util.logging.LogRecord;
import java.util.logging.Logger;

/**
 * Does what each line of standard input says, and prints one line for it: "result" or "threw", what came, and whether
 * the thread is interrupted. For tests over a scripted server.
 */
final class Driver {
    private RvClients clients;
    private RvTransferQueue queue;
    private RvSession kept;
    private final List<String> drained = new ArrayList<>();
    /** What is chosen of a record, where a line says something of it. */
    private UnaryOperator<RvClients.Builder> record = UnaryOperator.identity();
    private CompletableFuture<String> taken;
    /** What no caller was told. */
    private final BlockingQueue<Throwable> uncaught = new LinkedBlockingQueue<>();
    /** The grace of calls in nanoseconds: as good as no end, where a line does not say otherwise. */
    private long grace = Answering.LONG;
    /** The time before the first welcome: no end of its own, where a line does not say otherwise. */
    private Duration connects = ChronoUnit.FOREVER.getDuration();
    /** What is kept, so that it is not thrown away; and what was logged by it. */
    private static final Logger LOG = Logger.getLogger("rendezvous");
    private static final List<String> LOGGED = Collections.synchronizedList(new ArrayList<>());
    /** What the last exception said. */
    private String words;

    private Driver() {}

    public static void main(String[] words) throws IOException {
        LOG.setUseParentHandlers(false);
        LOG.setLevel(Level.ALL);
        LOG.addHandler(new Handler() {
            @Override
            public void publish(LogRecord record) {
                LOGGED.add(record.getLevel() + " " + record.getMessage());
            }

            @Override
            public void flush() {
                // nothing is held back
            }

            @Override
            public void close() {
                // nothing is held
            }
        });
        Driver driver = new Driver();
        Thread.setDefaultUncaughtExceptionHandler((thread, fault) -> driver.uncaught.add(fault));
        BufferedReader lines = new BufferedReader(new InputStreamReader(System.in, StandardCharsets.UTF_8));
        for (String line = lines.readLine(); line != null; line = lines.readLine()) {
            System.out.println(driver.told(line.split(" ")));
        }
    }

    private String told(String[] line) {
        String told;
        try {
            told = "result " + does(line[0], List.of(line).subList(1, line.length));
        } catch (RvException fault) {
            words = fault.getMessage();
            told = "threw " + fault.getClass().getSimpleName() + " " + fault.key() + detail(fault);
        } catch (Exception fault) {
            words = fault.getMessage();
            told = "threw " + fault.getClass().getSimpleName();
        }
        return told + (Thread.interrupted() ? " interrupted" : "");
    }

    private static String detail(RvException fault) {
        if (fault instanceof RvException.Refused refused) {
            String current = refused.current() > 0 ? " " + refused.current() : "";
            return " " + refused.number() + " " + refused.refusal() + current;
        }
        if (fault instanceof RvException.EpochEnded ended) {
            return " " + ended.current();
        }
        if (fault instanceof RvException.NotAsked unmet) {
            return unmet.current() > 0 ? " " + unmet.current() : "";
        }
        if (fault instanceof RvException.Unsettled left) {
            return left.accepted() ? " accepted" : "";
        }
        if (fault instanceof RvException.NotRecorded unrecorded) {
            return " " + unrecorded.outcome();
        }
        return fault instanceof RvException.Replaced replaced ? " " + replaced.current() : "";
    }

    private Object does(String word, List<String> given) throws Exception {
        switch (word) {
            case "open":
                clients = record.apply(RvClients.builder("127.0.0.1", number(given, 0)))
                    .clients(number(given, 1), number(given, 1))
                    .unleased().incarnation(1).grace(grace).patience(Duration.ofMillis(number(given, 2))).connectTimeout(connects)
                    .version(given.size() > 3 ? number(given, 3) : RvSession.VERSION).build();
                queue = new RvTransferQueue(clients, 3);
                drained.clear();
                return "open";
            case "grace":
                grace = TimeUnit.MILLISECONDS.toNanos(number(given, 0));
                return "a grace";
            case "connects":
                connects = Duration.ofMillis(number(given, 0));
                return "a time";
            case "logged":
                return logged(String.join(" ", given));
            case "kept":
                kept = clients.session();
                return "a session";
            case "connects-no-more":
                kept.connectTime(0);
                return "a time";
            case "shown":
                return given.isEmpty() ? kept : queue + ", " + new RvExchanger(clients, 5) + ", " + queue.consumer();
            case "close":
                clients.close();
                return "closed";
            case "interrupt":
                interruptAt(Path.of(given.get(0)));
                return "soon";
            case "again":
                return (given.isEmpty() ? clients.session() : kept).again();
            case "giveup":
                return clients.session().giveUp();
            case "exchange":
                return given.size() == 1 ? new RvExchanger(clients, 5).exchange(given.get(0))
                    : new RvExchanger(clients, 5).exchange(given.get(0), number(given, 1), TimeUnit.MICROSECONDS);
            case "drained":
                List<String> all = List.copyOf(drained);
                drained.clear();
                return all;
            case "last":
                return clients.session().last();
            case "words":
                return words;
            case "record":
                record = given.isEmpty() ? RvClients.Builder::unrecorded : builder -> builder.record(Path.of(given.get(0)));
                return "chosen";
            case "uncaught":
                throw (Exception) uncaught.take();
            case "left-out":
                return leftOut();
            case "bad":
                return bad();
            default:
                return asks(word, given);
        }
    }

    private Object asks(String word, List<String> given) throws Exception {
        switch (word) {
            case "put":
                queue.put(given.get(0));
                return "done";
            case "transfer":
                queue.transfer(given.get(0));
                return "received";
            case "transfer-receipt":
                return keysOf(queue.transferReceipt(given.get(0)));
            case "try-receipt":
                return tryReceipt(given).map(Driver::keysOf);
            case "try":
                return given.size() == 1 ? queue.tryTransfer(given.get(0))
                    : queue.tryTransfer(given.get(0), number(given, 1), TimeUnit.MICROSECONDS);
            case "take":
                return queue.take();
            case "poll":
                return given.isEmpty() ? queue.poll() : queue.poll(number(given, 0), TimeUnit.MICROSECONDS);
            case "peek":
                return queue.peek();
            case "size":
                return queue.size();
            case "consumers":
                return queue.getWaitingConsumerCount();
            case "drain":
                return given.isEmpty() ? queue.drainTo(drained) : queue.drainTo(drained, number(given, 0));
            case "take-async":
                taken = queue.takeAsync();
                return "begun";
            case "cancel-async":
                return taken.cancel(true);
            case "join-async":
                return joined(taken);
            case "unclaimed":
                return queue.unclaimed();
            case "drain-into":
                return queue.drainTo(new ArrayBlockingQueue<>(number(given, 0)));
            default:
                throw new IllegalArgumentException(word);
        }
    }

    private Optional<Receipt> tryReceipt(List<String> given) throws InterruptedException {
        return given.size() == 1 ? queue.tryTransferReceipt(given.get(0))
            : queue.tryTransferReceipt(given.get(0), number(given, 1), TimeUnit.MICROSECONDS);
    }

    private static Object joined(CompletableFuture<?> future) throws Exception {
        try {
            return future.join();
        } catch (CompletionException fault) {
            throw (Exception) fault.getCause();
        }
    }

    /** What was logged since this was asked last, and has these words. */
    private static List<String> logged(String wanted) {
        List<String> lines = List.copyOf(LOGGED);
        LOGGED.clear();
        return lines.stream().filter(line -> line.contains(wanted)).toList();
    }

    /** A receipt's two keys. */
    private static String keysOf(Receipt receipt) {
        return receipt.key() + " by " + receipt.by().map(Key::toString).orElse("nobody named");
    }

    private static int number(List<String> given, int at) {
        return Integer.parseInt(given.get(at));
    }

    /** Interrupts the thread that asks as soon as a file is there, and takes the file away. */
    private static void interruptAt(Path file) {
        Thread main = Thread.currentThread();
        Thread later = new Thread(() -> {
            try {
                while (!Files.exists(file)) {
                    Thread.sleep(5);
                }
                main.interrupt();
                Files.delete(file);
            } catch (InterruptedException | IOException nobody) {
                throw new IllegalStateException(nobody);
            }
        });
        later.setDaemon(true);
        later.start();
    }

    /** How many of the calls that the profile leaves out throw that they are not supported. */
    private int leftOut() {
        List<Runnable> calls = List.of(() -> queue.offer("a"), () -> offer(queue), () -> queue.add("a"),
            () -> queue.addAll(List.of("a")), queue::remainingCapacity, () -> queue.contains("a"),
            () -> queue.containsAll(Set.of("a")), () -> queue.remove("a"), () -> queue.removeAll(Set.of("a")),
            () -> queue.retainAll(Set.of("a")), queue::clear, queue::iterator, queue::toArray,
            () -> queue.stream().toList());
        return (int) calls.stream().filter(call -> throwsIt(call, UnsupportedOperationException.class)).count();
    }

    private static void offer(RvTransferQueue queue) {
        queue.offer("a", 1, TimeUnit.SECONDS);
    }

    /** How many calls with what no request may have are refused before anything is sent. */
    private int bad() {
        List<Runnable> calls = List.of(() -> queue.put("x".repeat(513)), () -> queue.put("é".repeat(257)),
            () -> queue.put("\ud800"), () -> new RvTransferQueue(clients, 64), () -> new RvExchanger(clients, -1),
            () -> queue.drainTo(queue), () -> queue.drainTo(queue, 0));
        List<Runnable> nulls = List.of(() -> queue.put(null), () -> queue.drainTo(null), () -> queue.drainTo(null, 0));
        return (int) (calls.stream().filter(call -> throwsIt(call, IllegalArgumentException.class)).count()
            + nulls.stream().filter(call -> throwsIt(call, NullPointerException.class)).count());
    }

    private static boolean throwsIt(Runnable call, Class<? extends RuntimeException> kind) {
        try {
            call.run();
            return false;
        } catch (RuntimeException thrown) {
            return kind.isInstance(thrown);
        }
    }
}
