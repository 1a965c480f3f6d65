package rendezvous;

import com.google.gson.JsonObject;
import java.util.AbstractQueue;
import java.util.Collection;
import java.util.Iterator;
import java.util.List;
import java.util.Objects;
import java.util.Optional;
import java.util.Spliterator;
import java.util.concurrent.CancellationException;
import java.util.concurrent.CompletableFuture;
import java.util.concurrent.TimeUnit;
import java.util.concurrent.TransferQueue;
import java.util.function.Function;

/**
 * A queue of the rendezvous server, between processes.
 *
 * <p>It differs from {@link java.util.concurrent.LinkedTransferQueue} in this:
 * <ul>
 * <li>Items are texts of at most 512 bytes of UTF-8; another one is an {@link IllegalArgumentException}.
 * <li>The order is that of arrival at the server, over the producers of all processes.
 * <li>{@link #size}, {@link #getWaitingConsumerCount}, {@link #hasWaitingConsumer} and {@link #peek} are exact in the
 *     server's step that answers them, and the items of waiting transfers are counted too. They go on where the server was
 *     started anew.
 * <li>Waits are whole milliseconds, rounded up. One above a day is asked as a wait for ever, which the call ends at its
 *     time; a call with a time ends within a second behind it, also where the server is silent or away.
 * <li>Each call has a definite outcome also after a lost connection: it repeats its request until it has its one reply.
 *     What is not known is an {@link RvException}, which names the request's key; {@link RvClients#unsettled} has the
 *     session whose request is unsettled, which asks it {@link RvSession#again} or {@link RvSession#giveUp gives it up}.
 *     The server's epoch that ended, a newer incarnation and refusals are such exceptions, and so are that nothing was
 *     sent, that the server has no room, and {@link RvException.NotRecorded}, which has the outcome.
 * <li>{@link #transferReceipt} and {@link #tryTransferReceipt(String)} are {@link #transfer} and {@link #tryTransfer}
 *     with a {@link Receipt}, which names the request that was assigned the item.
 * <li>An interrupt cancels {@link #transfer}, {@link #take} and the timed calls. Where the request was met before the
 *     cancel came, the call gives its result, and the thread stays interrupted. Where nothing is heard of the cancel,
 *     the call ends within a second, {@link RvException.Unsettled}, and the thread stays interrupted. The other calls go
 *     on through an interrupt, and set it again.
 * <li>A cancel that the call did not order is a {@link CancellationException}.
 * <li>{@link #transferAsync(String)} and {@link #takeAsync()}, and their forms with a time, are futures, whose cancel
 *     cancels the request. {@link #consumer} gives items to an action, one after another.
 * <li>An item that was assigned to the take of a future which was completed otherwise is kept by this object: it is the
 *     next one that this object takes, polls, peeks at or drains, and {@link #size} counts it too; or
 *     {@link #unclaimed} gives it out.
 * <li>These throw {@link UnsupportedOperationException}: {@link #offer(String)} and its timed form, {@link #add},
 *     {@link #addAll}, {@link #remainingCapacity}, {@link #contains}, {@link #containsAll}, {@link #remove(Object)},
 *     {@link #removeAll}, {@link #removeIf}, {@link #retainAll}, {@link #clear}, {@link #iterator}, {@link #spliterator},
 *     {@link #forEach}, and with these streams and arrays.
 * <li>{@link #drainTo(Collection)} and {@link #drainTo(Collection, int)} take up to 16 items in one step of the
 *     server, and more in several steps, between which others may take and put: up to 16 are one atomic whole, more
 *     are not.
 * </ul>
 */
public final class RvTransferQueue extends AbstractQueue<String> implements TransferQueue<String> {
    private final RvClients clients;
    private final int queue;
    /** Items of takes whose futures were completed otherwise. */
    private final Unclaimed unclaimed = new Unclaimed();

    /** Queue 0 to 63 of a server, for the threads of these clients. */
    public RvTransferQueue(RvClients clients, int queue) {
        this.clients = Objects.requireNonNull(clients, "a queue is asked by clients");
        this.queue = Calls.place(queue);
    }

    /** A call of the thread that asks begins: the outcome of its last one is told no more. */
    void begins() {
        clients.forget();
    }

    /** A call that begins. */
    private JsonObject call(String word) {
        begins();
        return Calls.at(word, "queue", queue);
    }

    private JsonObject transferOf(String item) {
        return Calls.giving(call("transfer"), item);
    }

    /** The outcome of a call whose wait is "now" or "forever", or that has none: a time ends no such call. */
    private Outcome ask(Calls.Job job) {
        return clients.ask(job);
    }

    /** The outcome of a call that an interrupt cancels. */
    private Outcome askInterruptibly(Calls.Job job) throws InterruptedException {
        return clients.askInterruptibly(job);
    }

    /** The item that was taken; null where none was. */
    private static String itemOf(Outcome outcome) {
        return outcome instanceof Outcome.Item taken ? taken.item() : null;
    }

    /** The receipt of a transfer that was received; none where it was not. */
    private static Optional<Receipt> receiptOf(Outcome outcome) {
        return outcome instanceof Receipt receipt ? Optional.of(receipt) : Optional.empty();
    }

    /** The item goes to the tail; nobody is waited for. */
    @Override
    public void put(String item) {
        ask(new Calls.Job(Calls.giving(call("put"), item)));
    }

    /** Waits until a consumer was assigned the item. */
    @Override
    public void transfer(String item) throws InterruptedException {
        transferReceipt(item);
    }

    /** As {@link #transfer}, and gives the receipt, which names the consumer where the session is of version 2. */
    public Receipt transferReceipt(String item) throws InterruptedException {
        return receiptOf(askInterruptibly(Calls.waiting(transferOf(item), "forever"))).orElseThrow();
    }

    /** Hands the item over if a consumer waits; else nobody gets it. */
    @Override
    public boolean tryTransfer(String item) {
        return tryTransferReceipt(item).isPresent();
    }

    /** As {@link #tryTransfer(String)}, and gives the receipt; none where nobody gets the item. */
    public Optional<Receipt> tryTransferReceipt(String item) {
        return receiptOf(ask(Calls.waiting(transferOf(item), "now")));
    }

    /** Hands the item over if a consumer comes in time; else nobody gets it. */
    @Override
    public boolean tryTransfer(String item, long timeout, TimeUnit unit) throws InterruptedException {
        return tryTransferReceipt(item, timeout, unit).isPresent();
    }

    /** As {@link #tryTransfer(String, long, TimeUnit)}, and gives the receipt; none where nobody gets the item. */
    public Optional<Receipt> tryTransferReceipt(String item, long timeout, TimeUnit unit) throws InterruptedException {
        return receiptOf(askInterruptibly(Calls.waiting(transferOf(item), timeout, unit)));
    }

    /**
     * Gives out the items that were assigned to takes whose futures were cancelled, or completed otherwise, before the
     * item was there. Each of them is given once: here, or by the next call of this object that takes one. They stay here,
     * also after {@link RvClients#close}, which waits for those that are still under way.
     */
    public List<String> unclaimed() {
        return unclaimed.all();
    }

    /** The oldest item, waiting for one if need be. */
    @Override
    public String take() throws InterruptedException {
        begins();
        if (Thread.interrupted()) {
            throw new InterruptedException();
        }
        String kept = unclaimed.next();
        return kept != null ? kept : itemOf(askInterruptibly(Calls.waiting(call("take"), "forever")));
    }

    /** The oldest item, waiting for one if need be; none where this is aborted before there is one. */
    Optional<String> take(Abort abort) throws InterruptedException {
        begins();
        String kept = abort.isAsked() ? null : unclaimed.next();
        if (kept != null || abort.isAsked()) {
            return Optional.ofNullable(kept);
        }
        try {
            return Optional.ofNullable(itemOf(askInterruptibly(Calls.waiting(call("take"), "forever").with(abort))));
        } catch (RvException.NotAsked | RvException.Full | IllegalStateException nothing) {
            if (abort.isAsked()) {
                return Optional.empty();
            }
            throw nothing;
        }
    }

    /** The oldest item, or null. */
    @Override
    public String poll() {
        begins();
        String kept = unclaimed.nextThroughInterrupts();
        return kept != null ? kept : itemOf(ask(Calls.waiting(call("take"), "now")));
    }

    /** The oldest item, or null where none came in time. */
    @Override
    public String poll(long timeout, TimeUnit unit) throws InterruptedException {
        begins();
        if (Thread.interrupted()) {
            throw new InterruptedException();
        }
        long began = System.nanoTime();
        Calls.Job job = Calls.waiting(call("take"), timeout, unit);
        String kept = unclaimed.next();
        return kept != null ? kept : itemOf(askInterruptibly(job.later(System.nanoTime() - began)));
    }

    /**
     * {@link #take} by a thread of the clients' {@linkplain RvClients.Builder#executor executor}, which it keeps until it
     * ends. A cancel of the future cancels the request, and so does whatever else completes it, such as
     * {@link CompletableFuture#orTimeout}: then an item that was assigned before is the next one of this object, or
     * {@link #unclaimed} gives it out. The future ends by the exceptions of {@link #take}. Where one that was cancelled
     * has not heard of its request within a second, {@link RvClients#unsettled} has that; and where what came of it could not
     * be recorded, the thread's handler of uncaught exceptions is told.
     */
    public CompletableFuture<String> takeAsync() {
        return taken(Calls.waiting(call("take"), "forever"), Optional::orElseThrow);
    }

    /** As {@link #takeAsync()}; the future's result is empty where no item came in time. */
    public CompletableFuture<Optional<String>> takeAsync(long timeout, TimeUnit unit) {
        return taken(Calls.waiting(call("take"), timeout, unit), item -> item);
    }

    private <T> CompletableFuture<T> taken(Calls.Job job, Function<Optional<String>, T> result) {
        RequestFuture.Asking asking = (future, abort) -> {
            begins();
            String kept = unclaimed.nextFor(future);
            if (kept != null) {
                return new Outcome.Item(null, kept);
            }
            unclaimed.begins(future);
            return clients.askInterruptibly(job.with(abort), outcome -> unclaimed.settled(future, outcome));
        };
        return new RequestFuture<T>(unclaimed).begin(clients.executor(), asking,
            outcome -> result.apply(Optional.ofNullable(itemOf(outcome))));
    }

    /**
     * {@link #transferReceipt} by a thread of the clients' {@linkplain RvClients.Builder#executor executor}, which it
     * keeps until it ends. {@link CompletableFuture#cancel} cancels the request and waits for the server's word, a second
     * at most: it is true where nobody has the item, now or later. Else the future has the receipt, or ends by
     * {@link RvException.Unsettled} where nothing was heard, or by {@link RvException.NotRecorded}, which has the outcome.
     * Whatever else completes the future cancels the request too; then what became of the item is told to nobody.
     *
     * @throws IllegalArgumentException if the item is none that may be asked, before anything is
     */
    public CompletableFuture<Receipt> transferAsync(String item) {
        return transferred(Calls.waiting(transferOf(item), "forever"), Optional::orElseThrow);
    }

    /** As {@link #transferAsync(String)}; the future's result is empty where nobody took the item in time. */
    public CompletableFuture<Optional<Receipt>> transferAsync(String item, long timeout, TimeUnit unit) {
        return transferred(Calls.waiting(transferOf(item), timeout, unit), receipt -> receipt);
    }

    private <T> CompletableFuture<T> transferred(Calls.Job job, Function<Optional<Receipt>, T> result) {
        return new RequestFuture.OfTransfer<T>().begin(clients.executor(), (future, abort) -> askInterruptibly(job.with(abort)),
            outcome -> result.apply(receiptOf(outcome)));
    }

    /** What takes item after item, and gives each to an action. */
    public RvConsumer consumer() {
        return new RvConsumer(this);
    }

    /** The oldest item, which stays; or null. */
    @Override
    public String peek() {
        begins();
        String kept = unclaimed.first();
        if (kept != null) {
            return kept;
        }
        return ask(new Calls.Job(call("peek"))) instanceof Outcome.Peeked peeked ? peeked.item() : null;
    }

    /**
     * Takes all items that are there, oldest first, and waits for none: in steps of at most 16 items, until one finds
     * fewer. The transfers among them are received.
     *
     * <p>Each step is one step of the server's book: nothing comes between two of its items. All steps together are
     * not: where there are 16 items or more, others may take and put between two steps, and where they put without end
     * this goes on.
     *
     * <p>Where a step ends by an exception, what finished steps took is in the collection, and the exception says what
     * is known of its own step. Where that is unsettled, it may be {@link RvSession#again asked again}, which gives its
     * items. Where the collection itself refuses the items of a finished step, {@link RvClients#last} has them, for
     * the thread that asked. An interrupt ends no step; the thread stays interrupted.
     *
     * @return how many items were added to the collection
     * @throws IllegalArgumentException if the collection is this queue, before anything is asked
     */
    @Override
    public int drainTo(Collection<? super String> into) {
        return drainTo(into, Integer.MAX_VALUE);
    }

    /**
     * Takes so many items at most, oldest first, and waits for none. Up to 16 items are one step of the server's book.
     * More go by steps of at most 16, which together are no atomic whole: all that {@link #drainTo(Collection)} says of
     * them holds. Where {@code most} is below 1 nothing is asked.
     *
     * @return how many items were added to the collection
     * @throws IllegalArgumentException if the collection is this queue, before anything is asked
     */
    @Override
    public int drainTo(Collection<? super String> into, int most) {
        begins();
        if (Objects.requireNonNull(into, "items are drained into a collection") == this) {
            throw new IllegalArgumentException("a queue is not drained into itself");
        }
        int drained = drainedUnclaimed(into, most);
        boolean more = true;
        while (more && drained < most) {
            int step = Math.min(Bodies.GREATEST_DRAIN, most - drained);
            List<String> items = drainedStep(step);
            into.addAll(items);
            drained += items.size();
            more = items.size() == step;
        }
        return drained;
    }

    /** Adds what is kept here, so many items at most. One that the collection refuses stays. */
    private int drainedUnclaimed(Collection<? super String> into, int most) {
        int drained = 0;
        while (drained < most) {
            String kept = unclaimed.nextThroughInterrupts();
            if (kept == null) {
                return drained;
            }
            boolean added = false;
            try {
                into.add(kept);
                added = true;
            } finally {
                if (!added) {
                    unclaimed.putBack(kept);
                }
            }
            drained++;
        }
        return drained;
    }

    /** The items of one step, at most so many. */
    private List<String> drainedStep(int most) {
        JsonObject call = call("drain");
        call.addProperty("max", most);
        return ((Outcome.Drained) ask(new Calls.Job(call))).items();
    }

    private Outcome.Counted counted() {
        return (Outcome.Counted) ask(new Calls.Job(call("count")));
    }

    /** How many items there are: of puts, and of transfers that wait. */
    @Override
    public int size() {
        return counted().items() + unclaimed.count();
    }

    /** How many consumers wait. */
    @Override
    public int getWaitingConsumerCount() {
        return counted().consumers();
    }

    /** Whether a consumer waits. */
    @Override
    public boolean hasWaitingConsumer() {
        return getWaitingConsumerCount() > 0;
    }

    private static UnsupportedOperationException leftOut(String name) {
        return new UnsupportedOperationException(name + " is left out by the server's profile");
    }

    /** Left out. */
    @Override
    public boolean offer(String item) {
        throw leftOut("offer");
    }

    /** Left out. */
    @Override
    public boolean offer(String item, long timeout, TimeUnit unit) {
        throw leftOut("offer");
    }

    /** Left out. */
    @Override
    public boolean add(String item) {
        throw leftOut("add");
    }

    /** Left out. */
    @Override
    public boolean addAll(Collection<? extends String> items) {
        throw leftOut("addAll");
    }

    /** Left out. */
    @Override
    public int remainingCapacity() {
        throw leftOut("remainingCapacity");
    }

    /** Left out. */
    @Override
    public boolean contains(Object item) {
        throw leftOut("contains");
    }

    /** Left out. */
    @Override
    public boolean containsAll(Collection<?> items) {
        throw leftOut("containsAll");
    }

    /** Left out. */
    @Override
    public boolean remove(Object item) {
        throw leftOut("remove of an item");
    }

    /** Left out. */
    @Override
    public boolean removeAll(Collection<?> items) {
        throw leftOut("removeAll");
    }

    /** Left out. */
    @Override
    public boolean retainAll(Collection<?> items) {
        throw leftOut("retainAll");
    }

    /** Left out. */
    @Override
    public void clear() {
        throw leftOut("clear");
    }

    /** Left out. */
    @Override
    public Iterator<String> iterator() {
        throw leftOut("iterator");
    }

    /** Left out, and with it streams. */
    @Override
    public Spliterator<String> spliterator() {
        throw leftOut("spliterator");
    }

    /** Left out. */
    @Override
    public Object[] toArray() {
        throw leftOut("toArray");
    }

    /** Left out. */
    @Override
    public <T> T[] toArray(T[] array) {
        throw leftOut("toArray");
    }

    /** Its name and its clients, and how many items are unclaimed, which asks the server nothing. */
    @Override
    public String toString() {
        int kept = unclaimed.count();
        return "RvTransferQueue " + queue + " of " + clients + (kept > 0 ? ", " + kept + " unclaimed" : "");
    }
}
