package rendezvous;

import java.util.Objects;
import java.util.Optional;
import java.util.Set;
import java.util.concurrent.ConcurrentHashMap;
import java.util.function.Consumer;

/**
 * Takes the items of a queue one after another, and gives each to what is to be done with it, until it is closed or its
 * thread is interrupted.
 *
 * <pre>{@code
 * try (RvConsumer jobs = queue.consumer()) {
 *     jobs.forEach(job -> System.out.println("does " + job));
 * }
 * }</pre>
 *
 * <p>Either end cancels the take that waits, and loses no item: one that was assigned before the cancel came is given to the
 * action, and then no other one is taken. Any number of threads may be in {@link #forEach} at once.
 */
public final class RvConsumer implements AutoCloseable {
    private final RvTransferQueue queue;
    private final Set<Abort> takes = ConcurrentHashMap.newKeySet();
    private volatile boolean closed;

    RvConsumer(RvTransferQueue queue) {
        this.queue = queue;
    }

    /**
     * Gives the action an item after another, in the thread that asks, and waits for each. It returns when another thread
     * closed the consumer, or when this thread is interrupted, and then that stays interrupted. Where nothing is heard of
     * the cancel of a take, the exception is {@link RvException.Unsettled}, and {@link RvClients#unsettled} has the
     * session that tells what became of it. An item whose reply could not be recorded is in the
     * {@link RvException.NotRecorded}, and is not given to the action. What the action throws is thrown: its item was
     * given to it. The consumer goes on where it is asked again.
     */
    public void forEach(Consumer<? super String> action) {
        queue.begins();
        Objects.requireNonNull(action, "an action does something with an item");
        Abort abort = new Abort();
        takes.add(abort);
        try {
            boolean more = !closed;
            while (more) {
                Optional<String> item = next(abort);
                item.ifPresent(action);
                more = item.isPresent() && !closed && !Thread.currentThread().isInterrupted();
            }
        } finally {
            takes.remove(abort);
        }
    }

    /** Its queue, and whether it is closed, which asks the server nothing. */
    @Override
    public String toString() {
        return "RvConsumer of " + queue + (closed ? ", closed" : "");
    }

    private Optional<String> next(Abort abort) {
        try {
            return queue.take(abort);
        } catch (InterruptedException end) {
            Thread.currentThread().interrupt();
            return Optional.empty();
        }
    }

    /** Has each {@link #forEach} that runs return, behind the item that it has. Any thread may say this; it does not wait. */
    @Override
    public void close() {
        closed = true;
        takes.forEach(Abort::ask);
    }
}
