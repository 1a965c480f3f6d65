package rendezvous;

import java.util.ArrayList;
import java.util.HashSet;
import java.util.List;
import java.util.Optional;
import java.util.Set;
import java.util.concurrent.CompletableFuture;

/** The items that reached takes of one queue object whose futures had been completed otherwise: for whoever takes next. */
final class Unclaimed {
    /** An item, and the future that is to have it, unless something else completed that before. */
    private static final class Kept {
        private final String item;
        private CompletableFuture<?> future;

        Kept(String item, CompletableFuture<?> future) {
            this.item = item;
            this.future = future;
        }

        /** Whether it is there for whoever takes next. */
        boolean isFree() {
            return future == null || future.isDone() && !isGiven();
        }

        private boolean isGiven() {
            return future.handle((result, fault) -> result == item
                || result instanceof Optional<?> found && found.orElse(null) == item).join();
        }
    }

    private final List<Kept> items = new ArrayList<>();
    /** The futures whose calls ask the server. */
    private final Set<CompletableFuture<?>> running = new HashSet<>();

    /** The call of a future asks the server from now on. */
    synchronized void begins(CompletableFuture<?> future) {
        running.add(future);
    }

    /** The call of a future gives this outcome, which is recorded. An item is the future's, if nothing else completes that before. */
    synchronized void settled(CompletableFuture<?> future, Outcome outcome) {
        if (outcome instanceof Outcome.Item taken) {
            items.add(new Kept(taken.item(), future));
        }
        notifyAll();
    }

    /** The call of a future has ended, and the future is completed next. */
    synchronized void ends(CompletableFuture<?> future) {
        running.remove(future);
        notifyAll();
    }

    /** The future was completed, with its item or otherwise. */
    synchronized void completed(CompletableFuture<?> future, boolean isGiven) {
        if (isGiven) {
            items.removeIf(kept -> kept.future == future);
        } else {
            items.stream().filter(kept -> kept.future == future).forEach(kept -> kept.future = null);
        }
    }

    /**
     * The oldest item, which is the caller's now; null where there is none. It waits for the calls of futures that were
     * completed otherwise, whose items may be there soon: they end within a second.
     */
    synchronized String next() throws InterruptedException {
        awaitEnds();
        Kept kept = oldest().orElse(null);
        items.remove(kept);
        return kept == null ? null : kept.item;
    }

    /** As {@link #next}; the item stays until the future has it, and is free where something else completes that before. */
    synchronized String nextFor(CompletableFuture<?> future) throws InterruptedException {
        awaitEnds();
        Kept kept = oldest().orElse(null);
        if (kept == null) {
            return null;
        }
        kept.future = future;
        return kept.item;
    }

    private Optional<Kept> oldest() {
        return items.stream().filter(Kept::isFree).findFirst();
    }

    private void awaitEnds() throws InterruptedException {
        while (count() == 0 && running.stream().anyMatch(CompletableFuture::isDone)) {
            wait();
        }
    }

    /** As {@link #next}, through interrupts, which are set again. */
    String nextThroughInterrupts() {
        boolean interrupted = false;
        try {
            while (true) {
                try {
                    return next();
                } catch (InterruptedException later) {
                    interrupted = true;
                }
            }
        } finally {
            if (interrupted) {
                Thread.currentThread().interrupt();
            }
        }
    }

    /** The oldest item, which stays; null where there is none. */
    synchronized String first() {
        return oldest().map(kept -> kept.item).orElse(null);
    }

    /** Puts an item back, as the oldest. */
    synchronized void putBack(String item) {
        items.add(0, new Kept(item, null));
    }

    synchronized int count() {
        return (int) items.stream().filter(Kept::isFree).count();
    }

    /** All items, which are the caller's now. */
    synchronized List<String> all() {
        // looked at once, for one more may be freed meanwhile
        List<Kept> free = items.stream().filter(Kept::isFree).toList();
        items.removeAll(free);
        return free.stream().map(kept -> kept.item).toList();
    }
}
