package rendezvous;

import java.util.concurrent.CompletableFuture;
import java.util.concurrent.CountDownLatch;
import java.util.concurrent.Executor;
import java.util.concurrent.TimeUnit;
import java.util.concurrent.atomic.AtomicBoolean;
import java.util.function.Function;

/**
 * The future of a request that an executor's thread asks. Whatever completes it from outside, by a cancel or otherwise,
 * cancels the request.
 */
class RequestFuture<T> extends CompletableFuture<T> {
    /** After so many milliseconds whoever cancels looks again whether the future is completed. */
    private static final long GLANCE = 10;
    /** Asked as soon as the future is completed, for what its user has run then may come before {@link Abort#ask}. */
    private final Abort abort = new Abort(this::isDone);
    private final AtomicBoolean begun = new AtomicBoolean();
    private final CountDownLatch ended = new CountDownLatch(1);
    private final Unclaimed unclaimed;

    /**
     * A future that is completed by a request's outcome, which nobody has asked yet.
     *
     * @param unclaimed what has the item of a take that was completed before it came
     */
    RequestFuture(Unclaimed unclaimed) {
        this.unclaimed = unclaimed;
        whenComplete((result, fault) -> abort.ask());
    }

    /** What asks a request that the future may cancel. */
    interface Asking {
        Outcome ask(CompletableFuture<?> future, Abort abort) throws InterruptedException;
    }

    /** Has an executor ask the request, and complete the future by what its outcome is to the user. */
    RequestFuture<T> begin(Executor executor, Asking asking, Function<Outcome, T> result) {
        executor.execute(() -> {
            if (!begun.compareAndSet(false, true)) {
                return;
            }
            try {
                run(asking, result);
            } finally {
                ended.countDown();
            }
        });
        return this;
    }

    private void run(Asking asking, Function<Outcome, T> result) {
        try {
            Outcome outcome = outcome(asking);
            if (outcome instanceof Outcome.Cancelled) {
                super.cancel(false);
            } else {
                unclaimed.completed(this, complete(result.apply(outcome)));
            }
        } catch (InterruptedException cancelled) {
            super.cancel(false);
            Thread.currentThread().interrupt();
        } catch (RvException.NotRecorded unrecorded) {
            if (!completeExceptionally(unrecorded)) {
                // something else completed the future: the thread's handler is told, and nobody else
                throw unrecorded;
            }
        } catch (RvException.NotAsked | RvException.Full | IllegalStateException nothing) {
            // nobody has or will have the item, and none was taken
            if (!abort.isAsked() || !super.cancel(false)) {
                completeExceptionally(nothing);
            }
        } catch (Throwable fault) {
            completeExceptionally(fault);
        }
    }

    /** Asks; whoever waits for the call's item waits no more at its end. */
    private Outcome outcome(Asking asking) throws InterruptedException {
        try {
            return asking.ask(this, abort);
        } finally {
            unclaimed.ends(this);
        }
    }

    /**
     * Cancels the request, and waits until its end is known, a second at most: whether it was cancelled. What runs when the
     * future is completed is not waited for: it may need what the thread that cancels has.
     */
    boolean cancelAndWait() {
        if (isDone() || begun.compareAndSet(false, true)) {
            return super.cancel(false);
        }
        abort.ask();
        boolean interrupted = false;
        while (!isDone() && !isEnded()) {
            interrupted |= Thread.interrupted();
        }
        if (interrupted) {
            Thread.currentThread().interrupt();
        }
        return isCancelled();
    }

    /** Waits a little, or until the request has ended: true. Where the thread is interrupted, that is set. */
    private boolean isEnded() {
        try {
            return ended.await(GLANCE, TimeUnit.MILLISECONDS);
        } catch (InterruptedException later) {
            Thread.currentThread().interrupt();
            return false;
        }
    }

    /**
     * The future of a transfer. A cancel of it waits for the server's word, so that it never says of an item which a
     * consumer has that it was cancelled.
     */
    static final class OfTransfer<T> extends RequestFuture<T> {
        OfTransfer() {
            super(new Unclaimed());
        }

        @Override
        public boolean cancel(boolean mayInterrupt) {
            return cancelAndWait();
        }
    }
}
