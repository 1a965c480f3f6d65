package rendezvous;

import java.util.LinkedHashMap;
import java.util.Map;
import java.util.Optional;
import java.util.concurrent.ThreadLocalRandom;
import java.util.concurrent.TimeUnit;

/** One call while it runs, for the thread that runs it: its times, its interrupts, and who orders that it is given up. */
final class Running {
    /** Who orders that a request is given up. */
    enum Order { NOBODY, TIME, INTERRUPT, ABORT, USER }

    /** Within how many nanoseconds a call that is to end ends by what is known, where nothing else is chosen. */
    static final long GRACE = TimeUnit.SECONDS.toNanos(1);
    private static final long LEAST_WAIT = TimeUnit.MILLISECONDS.toNanos(1);

    private final long began = System.nanoTime();
    private final boolean interruptible;
    private final long own;
    private final long grace;
    private final Abort abort;
    private final Retry retry;
    private final long givesUp;
    private long patience;
    private long expires;
    private long heard;
    private long pause;
    private boolean interrupted;
    private boolean aborted;
    private boolean due;
    private Order order = Order.NOBODY;
    /** By the servers' names, what went wrong last there. */
    private final Map<String, String> faults = new LinkedHashMap<>();

    /**
     * A call that begins now, with its own time and a patience, each {@link Calls#FOR_EVER} where it has none. After its
     * time, an interrupt or an abort it ends within its grace. Its pauses are those of a retry.
     */
    Running(boolean interruptible, long own, long patience, long grace, Abort abort, Retry retry) {
        this.interruptible = interruptible;
        this.own = own;
        this.patience = patience;
        this.grace = grace;
        this.abort = abort;
        this.retry = retry;
        pause = retry.first();
        givesUp = sum(own, grace / 2);
        expires = sum(givesUp, grace / 2);
    }

    private static long sum(long one, long other) {
        return one > Calls.FOR_EVER - other ? Calls.FOR_EVER : one + other;
    }

    private long now() {
        return System.nanoTime() - began;
    }

    /** The user orders that the request is given up. */
    void giveUp() {
        order = Order.USER;
        due = true;
    }

    /** Takes the thread's interrupt in; the call that obeys it ends within a second. */
    void noteInterrupt() {
        if (!Thread.interrupted() || interrupted) {
            return;
        }
        interrupted = true;
        if (interruptible) {
            endsSoon(Order.INTERRUPT);
        }
    }

    /** Takes in that another thread cancels the call, which ends within a second. */
    private void noteAbort() {
        if (abort.isAsked() && !aborted) {
            aborted = true;
            endsSoon(Order.ABORT);
        }
    }

    /** Takes in that the session was closed: the call ends at once, or within its grace where it is being given up. */
    private void noteClose() {
        long ends = order == Order.NOBODY ? now() : sum(now(), grace);
        if (ends < expires) {
            expires = ends;
            due = true;
        }
    }

    private void endsSoon(Order who) {
        ordered(who);
        expires = Math.min(expires, sum(now(), grace));
        due = true;
    }

    private void ordered(Order who) {
        if (order == Order.NOBODY) {
            order = who;
        }
    }

    /**
     * Whether the call has something else to do than to wait: an interrupt, an abort or its session's close is to be obeyed.
     * What gave it up before that close counts first.
     */
    boolean isDue(boolean closed) {
        noteInterrupt();
        noteAbort();
        if (closed) {
            noteClose();
        }
        return due;
    }

    /** Whether the request is to be given up now: this tells it once for each reason. */
    boolean takesGiveUp(boolean closed) {
        boolean late = order == Order.NOBODY && now() >= givesUp;
        if (late) {
            ordered(Order.TIME);
        }
        boolean isDue = isDue(closed);
        due = false;
        return late || isDue && order != Order.NOBODY;
    }

    /** Whether the call ends by what is known. */
    boolean isExpired() {
        return now() >= Math.min(expires, sum(heard, patience));
    }

    /** The nanoseconds that one wait may last: so many at most, and never past the call's next time. */
    long left(long most) {
        long next = Math.min(expires, sum(heard, patience));
        if (order == Order.NOBODY) {
            next = Math.min(next, givesUp);
        }
        return Math.min(most, next == Calls.FOR_EVER ? next : Math.max(0, next - now()));
    }

    /** Something was heard that leads on; from now on this is the call's patience. */
    void heard(long nanos) {
        patience = nanos;
        heard = now();
        pause = retry.first();
    }

    /** How many nanoseconds of its own time are left. */
    long ownLeft() {
        return own == Calls.FOR_EVER ? own : Math.max(0, own - now());
    }

    /**
     * Whether a call of which a piece timed out has time for the next one, with this patience. That is given up before it is
     * sent, where the call is by now. A server counts whole milliseconds: where less is left, the time is over.
     */
    boolean hasMore(long nanos) {
        heard(nanos);
        due |= order != Order.NOBODY;
        return ownLeft() > LEAST_WAIT;
    }

    /** Something failed at a server, and this says what. */
    void failed(String server, String words) {
        faults.put(server, words);
    }

    /** The nanoseconds to pause, whose bound grows from pause to pause. */
    long nextPause() {
        long most = pause;
        pause = retry.after(most);
        return left(ThreadLocalRandom.current().nextLong(most + 1));
    }

    /** What went wrong last at each server; nothing where nothing did. */
    Optional<String> fault() {
        return faults.isEmpty() ? Optional.empty() : Optional.of(String.join("; ", faults.values()));
    }

    /** Who ordered first that the request is given up. */
    Order order() {
        return order;
    }

    /** The interrupt is told by an exception. */
    void tellsInterrupt() {
        interrupted = false;
    }

    /** Sets the interrupt again that nothing told. */
    void restoreInterrupt() {
        if (interrupted) {
            Thread.currentThread().interrupt();
        }
    }
}
