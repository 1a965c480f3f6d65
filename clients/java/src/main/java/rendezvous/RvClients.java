package rendezvous;

import com.google.gson.JsonObject;
import java.nio.file.Path;
import java.time.Duration;
import java.util.List;
import java.util.Objects;
import java.util.Optional;
import java.util.OptionalLong;
import java.util.concurrent.CancellationException;
import java.util.concurrent.Executor;
import java.util.concurrent.ExecutorService;
import java.util.concurrent.SynchronousQueue;
import java.util.concurrent.ThreadFactory;
import java.util.concurrent.ThreadPoolExecutor;
import java.util.concurrent.TimeUnit;
import java.util.function.Consumer;
import java.util.function.LongFunction;

/**
 * The sessions of a program at one server, for all its threads.
 *
 * <pre>{@code
 * try (RvClients clients = RvClients.builder("127.0.0.1", 7411).build()) {
 *     TransferQueue<String> queue = new RvTransferQueue(clients, 3);
 *     String item = queue.take();
 * }
 * }</pre>
 *
 * <p>A call borrows a session and gives it back when its request is settled, so that there are as many sessions as calls
 * run at a time, however many threads there are. A thread gets the session of its last call again, unless another thread
 * took it meanwhile. One whose request is unsettled is nobody's, and stands in {@link #unsettled} until it is settled.
 *
 * <p>A server that is started anew without a store ends the sessions that it had. A call is then asked again, in a new session
 * of the new epoch, where it is certain that nobody met its request, and where it only looks: sizes, waiting consumers, a peek.
 * So these don't fail for a restart. Any other call is {@link RvException.EpochEnded}, and the thread's next one has a new
 * session.
 *
 * <p>They keep a {@linkplain Builder#record record} of what they were told, where a file is chosen for that. The
 * {@linkplain System#getLogger logger} {@code rendezvous} has at {@code DEBUG}, which the JDK shows nobody by default, that
 * they are connected, that a connection was lost, refusals, the end of an epoch, and that an outcome is not known; and at
 * {@code TRACE} in how many milliseconds a call is tried again. It never has an item.
 *
 * <p>Each session has a client number of its own, which is leased by a socket that the system lets one program of the user
 * bind, so that no two of them on a host have the same. Numbers are leased as sessions are needed. They are given back when
 * the session has ended, when its thread ended and nobody used it for two seconds, and by {@link #close}; at the latest they
 * are free when the program has ended, however it ends. {@link Builder} tells from which range. Hosts don't see each other's
 * leases, nor do containers with a network of their own: those that share a server need ranges that have no number in common.
 */
public final class RvClients implements AutoCloseable {
    /** The version of this package, which is that of the client in Python too. */
    public static final String VERSION = "3.3.0";

    private final Servers servers;
    private final Pool pool;
    private final long grace;
    private final ThreadLocal<Outcome> last = new ThreadLocal<>();
    private final Executor chosen;
    private ExecutorService own;
    private boolean closed;

    private RvClients(Servers servers, Numbers numbers, Pool.Maker maker, long patience, long idle, long grace,
        Executor chosen) {
        this.servers = servers;
        this.pool = new Pool(numbers, maker, patience, idle, last::set);
        this.grace = grace;
        this.chosen = chosen;
    }

    /** So many clients from the first one on, whose sessions are made so, for tests. */
    RvClients(long first, int most, LongFunction<RvSession> maker) {
        this(first, most, Running.GRACE, maker);
    }

    /** The same, whose sessions have this grace. */
    RvClients(long first, int most, long grace, LongFunction<RvSession> maker) {
        this(null, new Numbers.Given(new ClientRange(first, first + most - 1), 1), (client, incarnation) -> maker.apply(client),
            Retry.USUAL.patience().toNanos(), Pool.IDLE, grace, null);
        maker.apply(first);
    }

    /**
     * What makes the clients of a server.
     *
     * @param host the server's host; a name is looked up anew for each connection
     * @param port the server's port, 1 to 65,535
     * @throws IllegalArgumentException if the host or the port is none
     */
    public static Builder builder(String host, int port) {
        return new Builder(Address.of(host, port));
    }

    /**
     * What makes the clients of a server at this address: {@code HOST:PORT}, with commas between several; or the same after
     * {@code rv://}, and then perhaps options, as in {@code rv://a:7411,b:7411?patience=30&record=told.jsonl}. An address of
     * version 6 stands in brackets.
     *
     * <p>Several are alternatives of one server, which are tried in turn: where a connection can't be made or is lost, the next
     * one at once, and after a round in which each failed there is a {@linkplain Retry pause}.
     *
     * <p>The options are {@code patience}, in seconds or {@code forever}, {@code record}, {@code version}, and {@code client},
     * which chooses one {@linkplain Builder#clients client number}. In a value {@code %20} is a space, and any byte of UTF-8 may
     * be written so. What a method of the builder chooses holds, whatever the address says.
     *
     * @throws IllegalArgumentException if the address is none; the message begins with the place of what is wrong
     */
    public static Builder builder(String address) {
        return new Builder(Address.of(address));
    }

    /**
     * What makes the clients of the server whose {@linkplain #builder(String) address} is the environment variable
     * {@code RV_SERVER}, and where that is empty or missing {@code 127.0.0.1:7411}.
     *
     * @throws IllegalArgumentException if that address is none
     */
    public static Builder builder() {
        return new Builder(Address.of(System.getenv()));
    }

    /** What makes clients; what is chosen neither here nor by the address is as each method tells. */
    public static final class Builder {
        private final Address address;
        private ClientRange range;
        private boolean leased = true;
        private OptionalLong incarnation = OptionalLong.empty();
        private Retry retry = Retry.USUAL;
        private Duration patience;
        private long connectTime = RvSession.nanos("connectTimeout", RvSession.CONNECT);
        private long presence = Calls.FOR_EVER;
        private int version;
        private Executor executor;
        private boolean recordIsChosen;
        private Path record;
        private long idle = Pool.IDLE;
        private long grace = Running.GRACE;

        private Builder(Address address) {
            this.address = address;
            patience = address.patience().orElse(retry.patience());
            version = address.version().orElse(RvSession.VERSION);
            address.record().ifPresent(file -> record(Path.of(file)));
            address.client().ifPresent(client -> clients(client, client));
        }

        /**
         * The least and the greatest client number, each 1 to 2<sup>53</sup> - 1. Unless they are chosen here,
         * or one by the address, the environment variable {@code RV_CLIENTS} names them as FIRST-LAST, and where there is none
         * they are 1 to 1,024: a server admits 1,024 clients in an epoch.
         */
        public Builder clients(long first, long last) {
            range = new ClientRange(first, last);
            return this;
        }

        /**
         * No number is leased: the caller gives the range to these clients alone. Each number is used by one session, the
         * least first, and used up when that has ended.
         */
        public Builder unleased() {
            leased = false;
            return this;
        }

        /**
         * The incarnation of all sessions, 1 to 2<sup>53</sup> - 1, above each that the numbers were used in. It goes with
         * numbers of your own, which {@link #unleased} tells: whoever leased a number before may have used this incarnation too,
         * and these clients would hear its replies. Unless it is chosen here, it is the microseconds since 1970, or
         * above all that this process used: of each session with a leased number, which takes one above the server's where
         * its first hello is refused for that; else at {@link #build}.
         */
        public Builder incarnation(long number) {
            if (number < 1 || number > Key.GREATEST) {
                throw new IllegalArgumentException("incarnations are 1 to " + Key.GREATEST + ": " + number);
            }
            incarnation = OptionalLong.of(number);
            return this;
        }

        /** For how long a call goes on while nothing at all is heard; a minute unless it is chosen here. */
        public Builder patience(Duration time) {
            patience = Objects.requireNonNull(time, "a patience without end is patientForEver()");
            return this;
        }

        /** A call goes on for ever while nothing at all is heard. */
        public Builder patientForEver() {
            patience = null;
            return this;
        }

        /** How a call goes on where it is not answered: its pauses, and its patience. */
        public Builder retry(Retry chosen) {
            retry = Objects.requireNonNull(chosen, "a retry is a value");
            return patience(retry.patience());
        }

        /**
         * For how long a call goes on before the first welcome of its session, so that a wrong address is told soon; five seconds
         * unless it is chosen here, and never longer than the patience. {@code ChronoUnit.FOREVER.getDuration()} is as long as
         * that. While no connection can be made, calls are tried again: the logger {@code rendezvous} has that at first, and when
         * the reason changes, and the exception that ends the call names each server that was tried, and the reason.
         */
        public Builder connectTimeout(Duration time) {
            connectTime = RvSession.nanos("connectTimeout", Objects.requireNonNull(time, "a connectTimeout is a time"));
            return this;
        }

        /**
         * For how long one request waits at most, a day at most, in whole milliseconds, rounded up. A longer wait is asked in
         * pieces, each of them a new request, one after another until one settles otherwise than by its time. So what a process
         * asked that is killed ends by itself within this time. Each piece comes last in the line of those that wait. What is
         * unsettled, and the last outcome, is of one piece. Unless it is chosen here a wait is one request.
         */
        public Builder presence(Duration time) {
            presence = Calls.presence(Objects.requireNonNull(time, "a presence is a time"));
            return this;
        }

        /** What the sessions speak: 2, as long as nothing is chosen; 1 for a server that knows no other. */
        public Builder version(int number) {
            version = number;
            return this;
        }

        /**
         * What runs the calls of futures, each of which keeps a thread until it ends. Unless it is chosen here, each runs in
         * a daemon thread of these clients. Where the JDK has virtual threads,
         * {@code Executors.newVirtualThreadPerTaskExecutor()} is one that fits.
         */
        public Builder executor(Executor runs) {
            executor = Objects.requireNonNull(runs, "an executor runs calls");
            return this;
        }

        /**
         * A file that gets a line for each reply, with the request, before any call gives or throws what it tells. It is opened
         * for each line, and made where there is none. A line is appended by one write, so any number of sessions, threads and
         * processes may share a local file. It is handed to the system, which keeps it whatever becomes of the process, and is
         * not forced to the disk. {@link #build} throws where it cannot be written, as far as that shows without a line; a reply
         * that cannot be written later is {@link RvException.NotRecorded}. Unless it is chosen here
         * or by the address, the environment variable {@code RV_RECORD} names the file, and where that is empty or missing there
         * is no record.
         */
        public Builder record(Path file) {
            record = Objects.requireNonNull(file, "no record is unrecorded()");
            recordIsChosen = true;
            return this;
        }

        /** No record is kept, whatever the environment names. */
        public Builder unrecorded() {
            record = null;
            recordIsChosen = true;
            return this;
        }

        /** The patience that is chosen by now; null for ever. */
        Duration patience() {
            return patience;
        }

        /** For how many nanoseconds the session of a thread that ended keeps its connection, for tests. */
        Builder idle(long nanos) {
            idle = nanos;
            return this;
        }

        /** Within how many nanoseconds a call ends that is to end, for tests. */
        Builder grace(long nanos) {
            grace = nanos;
            return this;
        }

        /**
         * The clients. Nothing is leased and nothing is sent before the first call.
         *
         * @throws IllegalArgumentException if the version, the patience, {@code RV_CLIENTS} or the record is none
         * @throws IllegalStateException if numbers are not leased, and none are chosen; or they are leased, and an incarnation is
         *     chosen
         * @throws java.io.UncheckedIOException if the record cannot be written
         */
        public RvClients build() {
            Servers servers = new Servers(address.servers());
            Pool.Maker maker = maker(servers);
            Numbers numbers = numbers();
            // one is made for what it does not allow
            maker.make(numbers.first(), 1);
            return new RvClients(servers, numbers, maker, RvSession.nanos("patience", patience), idle, grace, executor);
        }

        /** What makes sessions as they are chosen by now, whatever is chosen later. */
        private Pool.Maker maker(Servers servers) {
            Duration time = patience;
            Retry tries = retry;
            int spoken = version;
            long nanos = grace;
            long connects = connectTime;
            long waits = presence;
            Optional<RecordFile> kept = recordIsChosen ? Optional.ofNullable(record).map(RecordFile::new)
                : RecordFile.of(System.getenv());
            kept.ifPresent(RecordFile::check);
            return (client, each) -> {
                RvSession session = new RvSession(servers, client, each, time, RvSession.ANSWER, spoken);
                session.retry(tries);
                session.grace(nanos);
                session.connectTime(connects);
                session.presence(waits);
                session.record(kept);
                return session;
            };
        }

        private Numbers numbers() {
            if (leased && incarnation.isPresent()) {
                throw new IllegalStateException("an incarnation is chosen along with numbers of your own, by unleased() and "
                    + "clients(first, last), or left out");
            }
            if (leased) {
                return new Leases(range == null ? ClientRange.of(System.getenv()) : range);
            }
            if (range == null) {
                throw new IllegalStateException("numbers that are not leased are to be chosen: clients(first, last)");
            }
            return new Numbers.Given(range, incarnation.orElseGet(Incarnations::next));
        }
    }

    /**
     * The session that the next call of the thread that asks uses, if no other thread does before. Where the request of
     * its last one is unsettled or that one has ended, it is another one, as long as there are client numbers left;
     * {@link #unsettled} has what was unsettled.
     *
     * @throws NoClientNumber if all numbers of the range are leased
     * @throws IllegalStateException if there are more threads than clients, where these are not leased; or the clients are
     *     closed
     */
    public RvSession session() {
        return pool.session();
    }

    /**
     * The outcome of the last call of the thread that asks: of its request, also if the call threw something else than
     * its result. It is never that of an earlier call. None where the last one's request was not settled, or it asked
     * nothing: it was refused, interrupted or out of time before, or gave what was unclaimed. A call that begins a future
     * counts, and has none: the future's outcome is of the thread that runs it.
     */
    public Optional<Outcome> last() {
        return Optional.ofNullable(last.get());
    }

    /** Another call of the thread that asks begins: the outcome of its last one is told no more. */
    void forget() {
        last.remove();
    }

    /**
     * The sessions whose request is unsettled, of living threads and of dead ones. Any thread may ask each of them
     * {@link RvSession#again}, or {@link RvSession#giveUp}; after that the session is used again. They stay here, also after
     * {@link #close}, and then tell what was not settled, by their {@link RvSession#key}, and can be asked no more.
     */
    public List<RvSession> unsettled() {
        return pool.unsettled();
    }

    /** The outcome of a call through interrupts, which are set again at its end. */
    Outcome ask(Calls.Job job) {
        try {
            return ask(job, false, outcome -> { });
        } catch (InterruptedException never) {
            throw new IllegalStateException(never);
        }
    }

    /** The outcome of a call that an interrupt cancels; where it was met before, the thread stays interrupted. */
    Outcome askInterruptibly(Calls.Job job) throws InterruptedException {
        return askInterruptibly(job, outcome -> { });
    }

    /** The same; this is told the outcome that is given too, before {@link #close} takes the call as ended. */
    Outcome askInterruptibly(Calls.Job job, Consumer<Outcome> settled) throws InterruptedException {
        return ask(job, true, settled);
    }

    /** The outcome of a call. Where the server was started anew, it is asked again in another session, if that is right. */
    private Outcome ask(Calls.Job job, boolean interruptible, Consumer<Outcome> settled) throws InterruptedException {
        forget();
        long began = System.nanoTime();
        RvException restarted = null;
        long epoch = 0;
        while (true) {
            try {
                return askOnce(job.later(System.nanoTime() - began), interruptible, settled);
            } catch (RvException fault) {
                long current = startedAnew(fault, job.call());
                if (current <= epoch) {
                    throw fault;
                }
                restarted = fault;
                epoch = current;
                pool.endBefore(current == fault.key().epoch() ? current + 1 : current);
            } catch (IllegalStateException none) {
                if (restarted == null || none instanceof CancellationException) {
                    throw none;
                }
                // there is no other session: what is known of the first one's request is told
                restarted.addSuppressed(none);
                throw restarted;
            }
        }
    }

    /** The epoch of a new start of the server behind which a call is asked again: nobody met it, or it only looks. 0 else. */
    private static long startedAnew(RvException fault, JsonObject call) {
        if (fault instanceof RvException.NotAsked unmet) {
            return unmet.current();
        }
        return fault instanceof RvException.EpochEnded ended && Calls.looks(call) ? ended.current() : 0;
    }

    private Outcome askOnce(Calls.Job job, boolean interruptible, Consumer<Outcome> settled) throws InterruptedException {
        long began = System.nanoTime();
        Pool.Seat seat = pool.borrow(job, interruptible);
        try {
            Outcome outcome = seat.session().ask(job.later(System.nanoTime() - began), interruptible);
            settled.accept(outcome);
            return outcome;
        } finally {
            pool.giveBack(seat);
        }
    }

    /** The server, and how many sessions there are, run and are unsettled. */
    @Override
    public String toString() {
        return "RvClients[" + (servers == null ? "" : servers + ", ") + pool + "]";
    }

    /** What runs the calls of futures. */
    synchronized Executor executor() {
        if (chosen != null) {
            return chosen;
        }
        if (closed) {
            throw new IllegalStateException("the clients are closed");
        }
        if (own == null) {
            ThreadFactory threads = call -> {
                Thread thread = new Thread(call, "rendezvous runs a future's call");
                thread.setDaemon(true);
                return thread;
            };
            // as Executors.newCachedThreadPool has it, but for what a call that comes beside the close is told
            own = new ThreadPoolExecutor(0, Integer.MAX_VALUE, 1, TimeUnit.MINUTES, new SynchronousQueue<>(), threads,
                (call, pool) -> {
                    throw new IllegalStateException("the clients are closed");
                });
        }
        return own;
    }

    /**
     * Closes all sessions for good, and gives their numbers back. Each call that runs ends by what is known:
     * {@link RvException.NotAsked}, {@link RvException.Full} or {@link RvException.Unsettled}. One that is being given up,
     * as that of a future which was cancelled, has a second at most to hear what became of it. This waits for that, also
     * through interrupts, which are set again: an item that still came is in its queue's
     * {@link RvTransferQueue#unclaimed unclaimed}, and what was not settled is in {@link #unsettled}. Where a call does not
     * end in that time, as in a write of the record that hangs, this waits a second more at most.
     *
     * <p>Any thread may say this, more than once, and also from what runs when a future is completed.
     */
    @Override
    public void close() {
        close(grace + Running.GRACE);
    }

    /** Has the calls end as {@link #close} does, which is still to be said, and waits for none of them. */
    void endCalls() {
        close(0);
    }

    private void close(long nanos) {
        synchronized (this) {
            closed = true;
            if (own != null) {
                own.shutdown();
            }
        }
        pool.close(nanos);
    }
}
