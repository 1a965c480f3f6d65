package rendezvous;

import com.google.gson.Gson;
import java.time.temporal.ChronoUnit;
import java.util.ArrayList;
import java.util.List;
import java.util.Map;
import java.util.Random;
import java.util.concurrent.CancellationException;
import java.util.concurrent.CompletableFuture;
import java.util.concurrent.CompletionException;
import java.util.concurrent.TimeUnit;
import java.util.concurrent.atomic.AtomicInteger;
import java.util.concurrent.locks.LockSupport;
import java.util.stream.IntStream;
import java.util.stream.Stream;

/**
 * Threads that begin takes, cancel most of them, and close their clients, each at a random moment, while others hand items over.
 * It goes on until so many takes were cancelled, and until each end of a take came often. A line of JSON for each round tells
 * what its futures gave, and what is unclaimed and unsettled after the close; one for each item that was received tells by whom.
 * Words: port, how many, seed.
 */
final class Closes {
    private static final int TAKERS = 4;
    private static final int GIVERS = 3;
    private static final int TAKES = 3;
    /** At least so many takes end in each way, unless so many rounds of a thread pass for each one that is to be cancelled. */
    private static final int LEAST = 3;
    private static final int MOST_ROUNDS = 20;
    /** How long a giver waits for a taker and pauses at most, in milliseconds. */
    private static final int WAIT = 20;
    private static final int PAUSE = 2;
    /** How long a taker's pauses are at most, at first, and by how much that changes after a round: about half have an item. */
    private static final double SPAN = 5_000_000;
    private static final double LONGEST = 1e9;
    private static final double CHANGE = 1.3;
    private static final Gson GSON = new Gson();

    /** What the takes of all threads ended by. */
    private enum End { CANCELLED, GIVEN, UNCLAIMED, UNSETTLED }

    private final int port;
    private final int count;
    private final long seed;
    private final Map<End, AtomicInteger> ends = Map.of(End.CANCELLED, new AtomicInteger(), End.GIVEN, new AtomicInteger(),
        End.UNCLAIMED, new AtomicInteger(), End.UNSETTLED, new AtomicInteger());

    private Closes(int port, int count, long seed) {
        this.port = port;
        this.count = count;
        this.seed = seed;
    }

    public static void main(String[] words) throws InterruptedException {
        new Closes(Integer.parseInt(words[0]), Integer.parseInt(words[1]), Long.parseLong(words[2])).run();
        // what still runs ends with the program
        System.exit(0);
    }

    private void run() throws InterruptedException {
        List<Thread> takers = IntStream.range(0, TAKERS).mapToObj(each -> new Thread(() -> takes(each))).toList();
        List<Thread> givers = IntStream.range(0, GIVERS).mapToObj(each -> new Thread(() -> gives(each))).toList();
        Stream.concat(takers.stream(), givers.stream()).forEach(Thread::start);
        for (Thread each : takers) {
            each.join();
        }
        givers.forEach(Thread::interrupt);
        for (Thread each : givers) {
            each.join();
        }
    }

    private boolean goesOn() {
        return ends.get(End.CANCELLED).get() < count || ends.values().stream().anyMatch(each -> each.get() < LEAST);
    }

    private static void tell(Object line) {
        String text = GSON.toJson(line);
        synchronized (System.out) {
            System.out.println(text);
        }
    }

    private RvClients.Builder clients(long first, int most, long incarnation) {
        return RvClients.builder("127.0.0.1", port).clients(first, first + most - 1).unleased().incarnation(incarnation)
            .connectTimeout(ChronoUnit.FOREVER.getDuration());
    }

    // ---- who gives

    /** What a transfer told: who received its item. */
    private record Received(String item, long[] by) {}

    private void gives(int place) {
        Random chance = new Random(seed * 100 + place);
        try (RvClients clients = clients(1 + place, 1, 1).grace(Answering.LONG).build()) {
            RvTransferQueue queue = new RvTransferQueue(clients, 3);
            for (int number = 0; true; number++) {
                String item = "item " + place + " " + number;
                queue.tryTransferReceipt(item, chance.nextInt(WAIT), TimeUnit.MILLISECONDS)
                    .ifPresent(receipt -> tell(new Received(item, numbers(receipt.by().orElseThrow()))));
                TimeUnit.MILLISECONDS.sleep(chance.nextInt(PAUSE));
            }
        } catch (InterruptedException end) {
            // nobody takes any more
        }
    }

    private static long[] numbers(Key key) {
        return new long[] {key.client(), key.incarnation(), key.number()};
    }

    // ---- who takes

    /** What a round told, of sessions that have these clients' numbers. */
    private record Round(long first, int most, long incarnation, List<String> given, List<String> unclaimed,
            List<long[]> unsettled, List<String> threw, int cancelled) {}

    private void takes(int place) {
        Random chance = new Random(seed * 100 + GIVERS + place);
        long first = 1 + GIVERS + place * TAKES;
        double span = SPAN;
        for (int incarnation = 1; goesOn() && incarnation <= MOST_ROUNDS * count; incarnation++) {
            Round round = round(first, incarnation, chance, (int) span);
            tell(round);
            boolean hasItem = !round.given.isEmpty() || !round.unclaimed.isEmpty();
            span = Math.min(LONGEST, hasItem ? span / CHANGE : span * CHANGE);
        }
    }

    private Round round(long first, long incarnation, Random chance, int span) {
        // that of some is so short that requests stay unsettled
        long grace = chance.nextInt(4) == 0 ? chance.nextInt(1 + span) : Answering.LONG;
        RvClients clients = clients(first, TAKES, incarnation).grace(grace).build();
        RvTransferQueue queue = new RvTransferQueue(clients, 3);
        List<CompletableFuture<String>> takes = Stream.generate(queue::takeAsync).limit(1 + chance.nextInt(TAKES)).toList();
        pause(chance, span);
        if (chance.nextInt(4) == 0) {
            takes.get(0).whenComplete((item, fault) -> clients.close());
        }
        List<CompletableFuture<String>> later = new ArrayList<>();
        takes.forEach(each -> {
            if (chance.nextInt(4) == 0 || !each.cancel(true)) {
                later.add(each);
            }
        });
        pause(chance, span / 4);
        close(clients, chance);
        List<long[]> unsettled = unsettled(clients);
        List<String> unclaimed = new ArrayList<>(queue.unclaimed());
        later.stream().filter(each -> chance.nextBoolean()).forEach(each -> each.cancel(true));
        List<String> given = new ArrayList<>();
        List<String> threw = new ArrayList<>();
        takes.forEach(each -> add(each, given, threw));
        int cancelled = takes.size() - given.size() - threw.size();
        // that of a take which was cancelled only after the close
        unclaimed.addAll(queue.unclaimed());
        count(End.CANCELLED, cancelled);
        count(End.GIVEN, given.size());
        count(End.UNCLAIMED, unclaimed.size());
        count(End.UNSETTLED, unsettled.size());
        return new Round(first, TAKES, incarnation, given, unclaimed, unsettled, threw, cancelled);
    }

    private void count(End end, int more) {
        ends.get(end).addAndGet(more);
    }

    /** What a future gave or threw, unless it was cancelled. */
    private static void add(CompletableFuture<String> take, List<String> given, List<String> threw) {
        try {
            given.add(take.join());
        } catch (CancellationException cancelled) {
            return;
        } catch (CompletionException fault) {
            threw.add(fault.getCause().getClass().getSimpleName());
        }
    }

    /** A random pause, which often is none. */
    private static void pause(Random chance, int span) {
        if (chance.nextInt(4) > 0) {
            LockSupport.parkNanos(chance.nextInt(1 + span));
        }
    }

    /** Closes the clients: once or twice, by one thread or two, one of which may be interrupted. */
    private static void close(RvClients clients, Random chance) {
        Thread other = chance.nextInt(3) == 0 ? new Thread(clients::close) : null;
        if (other != null) {
            other.start();
        }
        boolean interrupted = chance.nextInt(4) == 0;
        if (interrupted) {
            Thread.currentThread().interrupt();
        }
        clients.close();
        if (Thread.interrupted() != interrupted) {
            throw new IllegalStateException("an interrupt was lost, or came from nowhere");
        }
    }

    /** The keys of what is unsettled, where no call of these runs any more. */
    private static List<long[]> unsettled(RvClients clients) {
        while (!clients.unsettled().stream().allMatch(RvSession::isUnsettled)) {
            Thread.onSpinWait();
        }
        return clients.unsettled().stream().map(each -> numbers(each.key())).toList();
    }
}
