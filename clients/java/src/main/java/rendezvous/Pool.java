package rendezvous;

import java.util.ArrayList;
import java.util.HashMap;
import java.util.List;
import java.util.Map;
import java.util.Optional;
import java.util.SortedMap;
import java.util.TreeMap;
import java.util.concurrent.TimeUnit;
import java.util.concurrent.locks.Condition;
import java.util.concurrent.locks.ReentrantLock;
import java.util.function.Consumer;
import java.util.stream.Stream;

/**
 * The sessions of a program's threads. A call borrows one that is settled and gives it back: so there are as many as calls
 * run at a time, and as have a request that is unsettled.
 */
final class Pool {
    /** What makes the session of a client number in an incarnation. */
    interface Maker {
        RvSession make(long client, long incarnation);
    }

    /** For so long the session of a thread that ended keeps its connection, in nanoseconds, where nothing else is chosen. */
    static final long IDLE = TimeUnit.SECONDS.toNanos(2);

    /** A session, the lease of its number, and the thread that used it last. */
    static final class Seat {
        private final RvSession session;
        private final Lease lease;
        private Thread owner;
        private boolean borrowed;
        private long since = System.nanoTime();

        private Seat(RvSession session, Lease lease) {
            this.session = session;
            this.lease = lease;
        }

        RvSession session() {
            return session;
        }

        private boolean isFree() {
            return !borrowed && session.isIdle();
        }

        private boolean isRunning() {
            return borrowed || session.isRunning();
        }

        private boolean isNobodys() {
            return owner == null || !owner.isAlive();
        }
    }

    private final Numbers numbers;
    private final Maker maker;
    private final long patience;
    private final long idle;
    private final Consumer<Outcome> whenSettled;
    /** Fair, so that who waits for a session has it before a thread that comes again and again. */
    private final ReentrantLock lock = new ReentrantLock(true);
    private final Condition changed = lock.newCondition();
    /** By their client numbers. */
    private final SortedMap<Long, Seat> seats = new TreeMap<>();
    /** Those of them that no call has borrowed, and each by the thread that used it last: so a call looks at few of many. */
    private final SortedMap<Long, Seat> rested = new TreeMap<>();
    private final Map<Thread, Seat> owned = new HashMap<>();
    /** The sessions that were closed with a request that is unsettled. */
    private final List<RvSession> abandoned = new ArrayList<>();
    private boolean closed;

    /**
     * A pool that is empty.
     *
     * @param patience for how many nanoseconds a call waits where all numbers are in use, {@link Calls#FOR_EVER} for ever
     * @param idle for how many the session of a thread that ended keeps its connection
     * @param whenSettled what each session tells its calls' outcomes
     */
    Pool(Numbers numbers, Maker maker, long patience, long idle, Consumer<Outcome> whenSettled) {
        this.numbers = numbers;
        this.maker = maker;
        this.patience = patience;
        this.idle = idle;
        this.whenSettled = whenSettled;
    }

    /** How many sessions there are, run and are unsettled. */
    @Override
    public String toString() {
        lock.lock();
        try {
            long running = all().filter(Seat::isRunning).count();
            long unsettled = all().filter(seat -> seat.session.isUnsettled()).count();
            return seats.size() + " sessions, " + running + " running, " + unsettled + " unsettled" + (closed ? ", closed" : "");
        } finally {
            lock.unlock();
        }
    }

    /** The session that the next call of the thread that asks borrows, if no other thread does before. */
    RvSession session() {
        lock.lock();
        try {
            return chosen().or(this::own).orElseThrow(numbers::none).session;
        } finally {
            lock.unlock();
        }
    }

    /**
     * Borrows a session for a call of the thread that asks. Where no number is left while calls run, it waits for one of
     * them to end, as long as the call's own time and the patience last.
     *
     * @throws IllegalStateException if there is none
     */
    Seat borrow(Calls.Job job, boolean interruptible) throws InterruptedException {
        boolean interrupted = false;
        long began = System.nanoTime();
        long most = Math.min(job.own(), patience);
        job.abort().wakes(this::signal);
        lock.lock();
        try {
            Optional<Seat> seat = chosen();
            while (seat.isEmpty() && anyRuns() && !job.abort().isAsked() && System.nanoTime() - began < most) {
                interrupted |= awaitChange(most - (System.nanoTime() - began), interruptible);
                seat = chosen();
            }
            Seat found = seat.or(this::own).orElseThrow(numbers::none);
            found.borrowed = true;
            rested.remove(found.lease.client());
            return found;
        } finally {
            lock.unlock();
            if (interrupted) {
                Thread.currentThread().interrupt();
            }
        }
    }

    /** Waits until something changed, at most so long; whether an interrupt came through which the call goes on. */
    private boolean awaitChange(long nanos, boolean interruptible) throws InterruptedException {
        try {
            changed.awaitNanos(nanos);
            return false;
        } catch (InterruptedException now) {
            if (interruptible) {
                throw now;
            }
            return true;
        }
    }

    /** Gives a session back behind its call. One whose request is unsettled has no connection meanwhile. */
    void giveBack(Seat seat) {
        lock.lock();
        try {
            seat.borrowed = false;
            rested.put(seat.lease.client(), seat);
            seat.since = System.nanoTime();
            if (closed || seat.session.isOver() && numbers.areUsedAgain()) {
                end(seat);
            } else if (seat.session.isUnsettled()) {
                seat.session.rest();
            }
            if (seat.isFree()) {
                changed.signal();
            } else {
                changed.signalAll();
            }
        } finally {
            lock.unlock();
        }
    }

    /** Ends the free sessions of epochs before this one, in which the server was started anew. */
    void endBefore(long epoch) {
        lock.lock();
        try {
            free().filter(seat -> seat.session.isBefore(epoch)).toList().forEach(this::end);
            changed.signalAll();
        } finally {
            lock.unlock();
        }
    }

    /** The sessions whose request is unsettled. After a close that is also one whose call has not ended yet. */
    List<RvSession> unsettled() {
        lock.lock();
        try {
            Stream<RvSession> there = all().map(Seat::session)
                .filter(session -> closed ? session.isOutstanding() : session.isUnsettled() && !session.isOver());
            return Stream.concat(abandoned.stream(), there).toList();
        } finally {
            lock.unlock();
        }
    }

    /**
     * Closes all sessions for good, and waits until no call runs, for so many nanoseconds at most and through interrupts,
     * which are set again. The number of a session whose call runs is given back at the end of that call.
     */
    void close(long nanos) {
        lock.lock();
        try {
            closed = true;
            all().forEach(seat -> seat.session.close());
            all().filter(seat -> !seat.isRunning()).toList().forEach(this::end);
            changed.signalAll();
            awaitCalls(nanos);
        } finally {
            lock.unlock();
        }
    }

    private void awaitCalls(long nanos) {
        boolean interrupted = false;
        long ends = System.nanoTime() + nanos;
        while (anyRuns() && ends - System.nanoTime() > 0) {
            try {
                changed.awaitNanos(ends - System.nanoTime());
            } catch (InterruptedException later) {
                interrupted = true;
            }
        }
        if (interrupted) {
            Thread.currentThread().interrupt();
        }
    }

    /** The free session for the thread that asks: its own one, a thread's that ended, another thread's, or a new one. */
    private Optional<Seat> chosen() {
        if (closed) {
            throw new IllegalStateException("the clients are closed");
        }
        Optional<Seat> own = own();
        if (own.isPresent() && own.get().isFree()) {
            tidy();
            return own;
        }
        Optional<Seat> other = Stream.concat(free().filter(Seat::isNobodys), free()).findFirst().or(this::made);
        other.ifPresent(seat -> {
            own.ifPresent(before -> before.owner = null);
            owned.remove(seat.owner);
            seat.owner = Thread.currentThread();
            owned.put(seat.owner, seat);
            seat.session.forget();
        });
        tidy();
        return other;
    }

    private Optional<Seat> own() {
        return Optional.ofNullable(owned.get(Thread.currentThread()));
    }

    private Stream<Seat> all() {
        return seats.values().stream();
    }

    private Stream<Seat> free() {
        return rested.values().stream().filter(Seat::isFree);
    }

    private boolean anyRuns() {
        return all().anyMatch(Seat::isRunning);
    }

    /** A new session, where there is a number for it. */
    private Optional<Seat> made() {
        Optional<Seat> seat = numbers.next().map(this::seated);
        seat.ifPresent(each -> {
            seats.put(each.lease.client(), each);
            rested.put(each.lease.client(), each);
        });
        return seat;
    }

    private Seat seated(Lease lease) {
        boolean made = false;
        try {
            Seat seat = new Seat(maker.make(lease.client(), lease.incarnation()), lease);
            seat.session.whenLeft(() -> left(seat));
            if (numbers.areUsedAgain()) {
                seat.session.renews();
            }
            seat.session.whenSettled(whenSettled);
            made = true;
            return seat;
        } finally {
            if (!made) {
                lease.giveBack();
            }
        }
    }

    /** Behind a call that nobody borrowed the session for, since it asked again: who waits looks whether it is free. */
    private void left(Seat seat) {
        lock.lock();
        try {
            if (seat.borrowed) {
                return;
            }
            if (closed) {
                end(seat);
            }
            changed.signalAll();
        } finally {
            lock.unlock();
        }
    }

    private void signal() {
        lock.lock();
        try {
            changed.signalAll();
        } finally {
            lock.unlock();
        }
    }

    /** Of the sessions whose threads ended, drops what is over, and closes the connections of what idles for long. */
    private void tidy() {
        long now = System.nanoTime();
        for (Seat seat : rested.values().stream().filter(each -> each.isNobodys() && !each.isRunning()).toList()) {
            boolean idles = seat.session.isIdle() && now - seat.since > idle;
            if (seat.session.isOver() || idles && numbers.areUsedAgain()) {
                end(seat);
            } else if (idles) {
                seat.session.rest();
            }
        }
    }

    /** Ends a session. Its number is given back, unless it has to stay used up. */
    private void end(Seat seat) {
        seat.session.close();
        seats.remove(seat.lease.client(), seat);
        rested.remove(seat.lease.client(), seat);
        owned.remove(seat.owner, seat);
        if (closed && seat.session.isOutstanding()) {
            abandoned.add(seat.session);
        }
        if (closed || numbers.areUsedAgain()) {
            seat.lease.giveBack();
        }
    }
}
