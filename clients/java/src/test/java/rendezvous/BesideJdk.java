package rendezvous;

import java.time.temporal.ChronoUnit;
import java.util.ArrayList;
import java.util.List;
import java.util.Random;
import java.util.concurrent.Exchanger;
import java.util.concurrent.LinkedTransferQueue;
import java.util.concurrent.TimeUnit;
import java.util.concurrent.TimeoutException;
import java.util.concurrent.TransferQueue;

/**
 * Random scripts of one and two threads, run on the JDK's own classes and on those of the server: their outcomes must be
 * the same. Words: port, how many scripts, seed. Prints the first difference, and how many scripts were the same.
 */
final class BesideJdk {
    /** The time in seconds of a call that the other thread meets or interrupts: no script is so slow that it ends. */
    private static final long LATE = 1_000;

    private BesideJdk() {}

    /** What exchanges: the JDK's, or the server's. */
    private interface Trade {
        String exchange(String item, long millis) throws InterruptedException, TimeoutException;
    }

    /** A thread's part of a script. */
    private interface Part {
        String run() throws Exception;
    }

    public static void main(String[] words) throws Exception {
        int count = Integer.parseInt(words[1]);
        Exchanger<String> own = new Exchanger<>();
        try (RvClients clients = RvClients.builder("127.0.0.1", Integer.parseInt(words[0])).clients(1, 4).unleased()
                    .incarnation(1).patientForEver().connectTimeout(ChronoUnit.FOREVER.getDuration()).grace(Answering.LONG).build();
                Side jdk = new Side(new LinkedTransferQueue<>(), (item, ms) -> own.exchange(item, ms, TimeUnit.MILLISECONDS));
                Side ours = new Side(new RvTransferQueue(clients, 3),
                    (item, ms) -> new RvExchanger(clients, 5).exchange(item, ms, TimeUnit.MILLISECONDS))) {
            for (int script = 0; script < count; script++) {
                long seed = Long.parseLong(words[2]) * 1_000_000 + script;
                List<String> wanted = jdk.script(new Random(seed));
                List<String> got = ours.script(new Random(seed));
                if (!wanted.equals(got)) {
                    System.out.println("script " + script + ": the JDK says " + wanted + ", the server " + got);
                    return;
                }
            }
        }
        System.out.println(count + " scripts, the same outcomes");
    }

    /** One of the two queues and exchangers, with a second thread that waits where the first goes on. */
    private static final class Side implements AutoCloseable {
        private final TransferQueue<String> queue;
        private final Trade trade;
        private final Other other = new Other();
        private int item;

        Side(TransferQueue<String> queue, Trade trade) {
            this.queue = queue;
            this.trade = trade;
            other.start();
        }

        /** What comes of a random script, which leaves the queue empty. */
        List<String> script(Random chance) throws Exception {
            List<String> told = new ArrayList<>();
            item = 0;
            int steps = 1 + chance.nextInt(6);
            for (int step = 0; step < steps; step++) {
                told.add(chance.nextInt(3) > 0 ? alone(chance) : together(chance));
            }
            for (String left = queue.poll(); left != null; left = queue.poll()) {
                told.add("left " + left);
            }
            return told;
        }

        private String next() {
            return "item " + ++item;
        }

        /** A step of the first thread. */
        private String alone(Random chance) throws InterruptedException {
            switch (chance.nextInt(10)) {
                case 0:
                case 1:
                case 2:
                    queue.put(next());
                    return "put";
                case 3:
                    return "try " + queue.tryTransfer(next());
                case 4:
                    return "poll " + queue.poll();
                case 5:
                    return "timed poll " + queue.poll(chance.nextInt(2), TimeUnit.MILLISECONDS);
                case 6:
                    return "peek " + queue.peek();
                case 7:
                    return "size " + queue.size() + " " + queue.isEmpty() + " " + queue.getWaitingConsumerCount();
                case 8:
                    return drained(chance);
                default:
                    return traded(next(), 1);
            }
        }

        /** A drain of all, or of so many, sometimes of more items than one step takes. */
        private String drained(Random chance) throws InterruptedException {
            for (int left = chance.nextInt(4) > 0 ? 0 : chance.nextInt(40); left > 0; left--) {
                queue.put(next());
            }
            List<String> into = new ArrayList<>(List.of("before"));
            int most = chance.nextInt(40) - 2;
            int count = chance.nextBoolean() ? queue.drainTo(into) : queue.drainTo(into, most);
            return "drained " + count + " " + into;
        }

        private String traded(String mine, long millis) throws InterruptedException {
            try {
                return "exchanged " + trade.exchange(mine, millis);
            } catch (TimeoutException nobody) {
                return "timed out";
            }
        }

        /** A step in which the second thread waits, until the first meets or interrupts it. */
        private String together(Random chance) throws Exception {
            switch (chance.nextInt(4)) {
                case 0:
                    return queue.isEmpty() ? consumerWaits(chance) : "there are items";
                case 1:
                    return producerWaits(chance);
                case 2:
                    String theirs = next();
                    other.begin(() -> traded(theirs, 1_000 * LATE));
                    return traded(next(), 1_000 * LATE) + ", " + other.outcome();
                default:
                    return queue.isEmpty() ? "nothing" : "take " + queue.take();
            }
        }

        private String consumerWaits(Random chance) throws Exception {
            boolean timed = chance.nextBoolean();
            other.begin(() -> timed ? queue.poll(LATE, TimeUnit.SECONDS) : queue.take());
            while (!queue.hasWaitingConsumer()) {
                Thread.sleep(0, 100_000);
            }
            String met;
            switch (chance.nextInt(4)) {
                case 0:
                    other.interrupt();
                    met = "interrupted";
                    break;
                case 1:
                    queue.put(next());
                    met = "put";
                    break;
                case 2:
                    met = "try " + queue.tryTransfer(next());
                    break;
                default:
                    queue.transfer(next());
                    met = "transferred";
            }
            return met + ", " + other.outcome() + ", " + queue.getWaitingConsumerCount();
        }

        private String producerWaits(Random chance) throws Exception {
            int before = queue.size();
            String theirs = next();
            boolean timed = chance.nextBoolean();
            other.begin(() -> {
                if (timed) {
                    return "" + queue.tryTransfer(theirs, LATE, TimeUnit.SECONDS);
                }
                queue.transfer(theirs);
                return "received";
            });
            while (queue.size() == before) {
                Thread.sleep(0, 100_000);
            }
            StringBuilder met = new StringBuilder();
            int how = chance.nextInt(4);
            if (how == 0) {
                other.interrupt();
            } else if (how == 1) {
                List<String> into = new ArrayList<>();
                met.append(queue.drainTo(into)).append(into).append(", ");
            } else {
                for (int taken = 0; taken <= before; taken++) {
                    met.append(queue.poll()).append(", ");
                }
            }
            return met + other.outcome() + ", " + queue.size();
        }

        @Override
        public void close() {
            other.interrupt();
        }
    }

    /** A second thread that runs one part after another. */
    private static final class Other extends Thread {
        private final java.util.concurrent.SynchronousQueue<Part> parts = new java.util.concurrent.SynchronousQueue<>();
        private final java.util.concurrent.SynchronousQueue<String> told = new java.util.concurrent.SynchronousQueue<>();

        Other() {
            setDaemon(true);
        }

        void begin(Part part) throws InterruptedException {
            parts.put(part);
        }

        String outcome() throws InterruptedException {
            return told.take();
        }

        @Override
        public void run() {
            try {
                while (true) {
                    Part part = parts.take();
                    told.put(outcomeOf(part));
                }
            } catch (InterruptedException over) {
                // the scripts are over
            }
        }

        private static String outcomeOf(Part part) {
            try {
                return "other " + part.run() + (Thread.interrupted() ? " interrupted" : "");
            } catch (Exception thrown) {
                return "other " + thrown.getClass().getSimpleName();
            }
        }
    }
}
