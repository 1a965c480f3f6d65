package rendezvous;

import com.google.gson.JsonObject;
import java.util.Objects;
import java.util.concurrent.CancellationException;
import java.util.concurrent.TimeUnit;
import java.util.concurrent.TimeoutException;

/**
 * An exchanger of the rendezvous server, between processes, with the calls of {@link java.util.concurrent.Exchanger}.
 *
 * <p>Who comes where one waits is always matched with that one, so that no two wait. Objects are texts of at most 512
 * bytes of UTF-8 and never null. An interrupt cancels the call; where it was met before, its result is given, and the
 * thread stays interrupted. A cancel that the call did not order is a {@link CancellationException}. What is not known is an
 * {@link RvException}, as for {@link RvTransferQueue}.
 */
public final class RvExchanger {
    private final RvClients clients;
    private final int exchanger;

    /** Exchanger 0 to 63 of a server, for the threads of these clients. */
    public RvExchanger(RvClients clients, int exchanger) {
        this.clients = Objects.requireNonNull(clients, "an exchanger is asked by clients");
        this.exchanger = Calls.place(exchanger);
    }

    /** Its name and its clients, which asks the server nothing. */
    @Override
    public String toString() {
        return "RvExchanger " + exchanger + " of " + clients;
    }

    /** A call that begins: the outcome of the thread's last one is told no more. */
    private JsonObject swap(String item) {
        clients.forget();
        return Calls.giving(Calls.at("swap", "exchanger", exchanger), item);
    }

    /** The partner's object for this one, waiting for a partner if need be. */
    public String exchange(String item) throws InterruptedException {
        Outcome outcome = clients.askInterruptibly(Calls.waiting(swap(item), "forever"));
        return ((Outcome.Swapped) outcome).item();
    }

    /** The partner's object for this one, or a {@link TimeoutException} where nobody came in time. */
    public String exchange(String item, long timeout, TimeUnit unit) throws InterruptedException, TimeoutException {
        Outcome outcome = clients.askInterruptibly(Calls.waiting(swap(item), timeout, unit));
        if (outcome instanceof Outcome.Swapped swapped) {
            return swapped.item();
        }
        throw new TimeoutException("nobody came in time (request " + outcome.key() + ")");
    }
}
