package rendezvous;

import java.util.List;
import java.util.Map;
import java.util.concurrent.ConcurrentHashMap;
import java.util.function.UnaryOperator;
import java.util.stream.Collectors;

/**
 * The queues and exchangers of several servers: of N servers, number {@code q mod N} has queue and exchanger {@code q}. All
 * programs that share them name the servers in one order.
 *
 * <pre>{@code
 * try (RvShards shards = RvShards.of(List.of("a:7411", "b:7411", "c:7411"))) {
 *     shards.queue(3).put("job 1"); // at a
 *     String other = shards.queue(4).take(); // at b
 * }
 * }</pre>
 *
 * <p>There are {@link RvClients} for each server, which lease and ask nothing before a call comes to one of its queues. A server
 * that is away is noticed by nobody who uses the others.
 *
 * <p>What is promised of a queue or an exchanger holds, for it is wholly at one server. Over all of them there is no order, not
 * even of what one thread asks at different servers, and no account has all. If the servers become more, fewer or others, what
 * was put before has to be taken where it is.
 */
public final class RvShards implements AutoCloseable {
    private final List<RvClients> all;
    private final Map<Integer, RvTransferQueue> queues = new ConcurrentHashMap<>();
    private final Map<Integer, RvExchanger> exchangers = new ConcurrentHashMap<>();

    private RvShards(List<RvClients> all) {
        this.all = all;
    }

    /**
     * The servers at these {@linkplain RvClients#builder(String) addresses}, from number 0 on.
     *
     * @throws IllegalArgumentException if there is none, or one of them is no address
     */
    public static RvShards of(List<String> addresses) {
        return of(addresses, UnaryOperator.identity());
    }

    /**
     * The same, and each server's clients are as this chooses. They all lease their numbers from one range, and none is leased
     * twice; numbers of your own are used at each server, so these must be different ones. The record of each server's replies is
     * best a file of its own, which its address may name.
     *
     * @param addresses the servers' addresses
     * @param chooses what chooses for the clients of one server, and gives the builder back
     * @throws IllegalArgumentException if there is none, or one of them is no address, and whatever else
     *     {@link RvClients.Builder#build} throws
     */
    public static RvShards of(List<String> addresses, UnaryOperator<RvClients.Builder> chooses) {
        if (addresses.isEmpty()) {
            throw new IllegalArgumentException("shards are of one server at least");
        }
        return new RvShards(addresses.stream().map(RvClients::builder).map(chooses).map(RvClients.Builder::build).toList());
    }

    /** Queue 0 to 63, at its server; always the same object. */
    public RvTransferQueue queue(int queue) {
        return queues.computeIfAbsent(Calls.place(queue), place -> new RvTransferQueue(clients(place), place));
    }

    /** Exchanger 0 to 63, at its server; always the same object. */
    public RvExchanger exchanger(int exchanger) {
        return exchangers.computeIfAbsent(Calls.place(exchanger), place -> new RvExchanger(clients(place), place));
    }

    /** The clients of the server that has the queue and the exchanger of this number, 0 to 63. */
    public RvClients clients(int place) {
        return all.get(Calls.place(place) % all.size());
    }

    /** The sessions at all servers whose request is unsettled, as {@link RvClients#unsettled} has them. */
    public List<RvSession> unsettled() {
        return all.stream().flatMap(each -> each.unsettled().stream()).toList();
    }

    /** The clients of all servers. */
    @Override
    public String toString() {
        return all.stream().map(RvClients::toString).collect(Collectors.joining(", ", "RvShards[", "]"));
    }

    /** Closes the clients of all servers, as {@link RvClients#close} does, and waits no longer than for those of one. */
    @Override
    public void close() {
        all.forEach(RvClients::endCalls);
        all.forEach(RvClients::close);
    }
}
