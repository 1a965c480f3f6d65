package rendezvous;

import java.util.function.BooleanSupplier;

/** What one thread cancels another one's call by: it ends within a second, by what is known of its request. */
final class Abort {
    /** That of a call which no other thread cancels. */
    static final Abort NEVER = new Abort();

    private final BooleanSupplier alsoAsked;
    private volatile boolean asked;
    private volatile Runnable waker = () -> { };

    /** One by which nobody but {@link #ask} cancels. */
    Abort() {
        this(() -> false);
    }

    /** One by which a call is cancelled also as soon as this says so; {@link #ask} has who waits look at it. */
    Abort(BooleanSupplier alsoAsked) {
        this.alsoAsked = alsoAsked;
    }

    /** Cancels the call, also one that has not begun. */
    void ask() {
        if (this == NEVER) {
            throw new IllegalStateException("this call is nobody's to cancel");
        }
        asked = true;
        waker.run();
    }

    /** Whether the call is cancelled. */
    boolean isAsked() {
        return asked || alsoAsked.getAsBoolean();
    }

    /** Has this run where the call is cancelled from now on; what waits looks at {@link #isAsked} behind that. */
    void wakes(Runnable whoWaits) {
        if (this != NEVER) {
            waker = whoWaits;
        }
    }
}
