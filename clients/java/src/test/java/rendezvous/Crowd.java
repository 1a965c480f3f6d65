package rendezvous;

import com.google.gson.Gson;
import com.google.gson.GsonBuilder;
import com.google.gson.JsonElement;
import com.google.gson.JsonObject;
import java.nio.file.Path;
import java.time.Duration;
import java.time.temporal.ChronoUnit;
import java.util.ArrayList;
import java.util.List;
import java.util.Random;
import java.util.concurrent.TimeUnit;
import java.util.concurrent.TimeoutException;
import java.util.concurrent.locks.LockSupport;
import java.util.logging.Logger;

/**
 * Threads that ask random calls for so many seconds, and print a line of JSON for each: its call, its reply, and by what it
 * ended. Their sessions are of version 1 and 2 in turn. Words: port, first client, how many, seconds, seed, record.
 */
final class Crowd {
    /** So many outcomes each client tells at least, on however slow a machine. */
    private static final int LEAST = 50;
    private static final long[] MILLIS = {0, 1, 3, 10, 30, 100};
    /** What the clients log, which is none of the lines; it is kept, so that it is not thrown away. */
    private static final Logger LOG = Logger.getLogger("rendezvous");
    private static final Gson GSON = new GsonBuilder().serializeNulls().create();
    private final RvClients clients;
    private final Random chance;
    private final RvTransferQueue queue;
    private final RvExchanger exchanger;
    private int number;
    private int told;
    private JsonObject call;
    private JsonObject ended;

    private Crowd(RvClients clients, long seed) {
        this.clients = clients;
        this.chance = new Random(seed);
        this.queue = new RvTransferQueue(clients, 3);
        this.exchanger = new RvExchanger(clients, 5);
    }

    public static void main(String[] words) throws InterruptedException {
        LOG.setUseParentHandlers(false);
        int count = Integer.parseInt(words[2]);
        long ends = System.nanoTime() + TimeUnit.MILLISECONDS.toNanos((long) (1000 * Double.parseDouble(words[3])));
        List<Thread> threads = new ArrayList<>();
        for (int each = 0; each < count; each++) {
            long client = Long.parseLong(words[1]) + each;
            RvClients clients = RvClients.builder("127.0.0.1", Integer.parseInt(words[0])).clients(client, client).unleased()
                .incarnation(1).patience(Duration.ofSeconds(120)).connectTimeout(ChronoUnit.FOREVER.getDuration())
                .version(1 + each % 2).record(Path.of(words[5])).build();
            Crowd one = new Crowd(clients, Long.parseLong(words[4]) * 1000 + each);
            threads.add(new Thread(() -> one.run(ends)));
        }
        threads.forEach(Thread::start);
        for (Thread thread : threads) {
            thread.join();
        }
    }

    private void run(long ends) {
        while (System.nanoTime() - ends < 0 || told < LEAST) {
            Outcome before = last();
            ended = new JsonObject();
            try {
                ended.add("gave", members(ask()));
            } catch (InterruptedException | TimeoutException | RvException.NotAsked told) {
                // its outcome is there, or it asked nothing
                ended.addProperty("threw", told.getClass().getSimpleName());
            } catch (RvException.Unsettled unsettled) {
                ended.add("again", Answers.of(settled()));
            }
            Thread.interrupted();
            LockSupport.parkNanos(chance.nextInt(10_000_000));
            // one that was interrupted before it began asked nothing
            if (last() != before && last() != null) {
                tell();
            }
        }
    }

    private Outcome last() {
        return clients.session().last().orElse(null);
    }

    /** Settles the request that an interrupt left unsettled, as it does where nothing is heard for a second. */
    private Outcome settled() {
        Thread.interrupted();
        try {
            return clients.session().again();
        } catch (InterruptedException cancelled) {
            throw new IllegalStateException(cancelled);
        }
    }

    private void tell() {
        told++;
        JsonObject line = new JsonObject();
        line.add("call", call);
        line.add("told", Answers.of(last()));
        line.add("ended", ended);
        synchronized (System.out) {
            System.out.println(line);
        }
    }

    /** What a call gave, in members; a receipt's are those of its reply. */
    private static JsonElement members(Object given) {
        return given instanceof Receipt receipt ? Answers.of(receipt) : GSON.toJsonTree(given);
    }

    private String item() {
        return "java " + Thread.currentThread().getName() + " " + ++number;
    }

    /** One call, some of which are interrupted, and all that wait for ever. */
    private Object ask() throws InterruptedException, TimeoutException {
        long millis = MILLIS[chance.nextInt(MILLIS.length)];
        return switch (chance.nextInt(11)) {
            case 0 -> put();
            case 1 -> forever(() -> queue.transferReceipt(given("transfer", "forever")));
            case 2 -> queue.tryTransferReceipt(given("transfer", "now")).orElse(null);
            case 3 -> queue.tryTransferReceipt(given("transfer", millis), millis, TimeUnit.MILLISECONDS).orElse(null);
            case 4 -> forever(() -> {
                taken("forever");
                return queue.take();
            });
            case 5 -> {
                taken("now");
                yield queue.poll();
            }
            case 6 -> {
                taken(millis);
                yield queue.poll(millis, TimeUnit.MILLISECONDS);
            }
            case 7 -> exchanger.exchange(swapped(millis), millis, TimeUnit.MILLISECONDS);
            case 8 -> forever(() -> exchanger.exchange(swapped("forever")));
            case 9 -> drained(1 + chance.nextInt(16));
            default -> {
                call = Calls.at("count", "queue", 3);
                yield queue.size();
            }
        };
    }

    private Object put() {
        queue.put(given("put", null));
        return null;
    }

    private List<String> drained(int most) {
        call = Calls.at("drain", "queue", 3);
        call.addProperty("max", most);
        List<String> into = new ArrayList<>();
        queue.drainTo(into, most);
        return into;
    }

    private interface Waits {
        Object run() throws InterruptedException;
    }

    /** A call that waits for ever: it is interrupted a little later. */
    private Object forever(Waits waits) throws InterruptedException {
        Thread asking = Thread.currentThread();
        long pause = chance.nextInt(80);
        Thread later = new Thread(() -> {
            try {
                Thread.sleep(pause);
                asking.interrupt();
            } catch (InterruptedException over) {
                // the call is over
            }
        });
        later.start();
        try {
            return waits.run();
        } finally {
            later.interrupt();
            joined(later);
        }
    }

    private static void joined(Thread later) {
        while (later.isAlive()) {
            try {
                later.join();
            } catch (InterruptedException again) {
                // it ends soon
            }
        }
    }

    private String given(String word, Object wait) {
        String item = item();
        call = withWait(Calls.giving(Calls.at(word, "queue", 3), item), wait);
        return item;
    }

    private String swapped(Object wait) {
        String item = item();
        call = withWait(Calls.giving(Calls.at("swap", "exchanger", 5), item), wait);
        return item;
    }

    private void taken(Object wait) {
        call = withWait(Calls.at("take", "queue", 3), wait);
    }

    private static JsonObject withWait(JsonObject call, Object wait) {
        if (wait instanceof Number millis) {
            call.addProperty("wait", millis);
        } else if (wait != null) {
            call.addProperty("wait", wait.toString());
        }
        return call;
    }
}
