package rendezvous;

import static org.junit.jupiter.api.Assertions.assertThrows;

import java.io.IOException;
import java.util.concurrent.TimeUnit;
import java.util.concurrent.TimeoutException;
import java.util.concurrent.atomic.AtomicInteger;
import org.junit.jupiter.api.AfterAll;
import org.junit.jupiter.api.BeforeAll;
import org.junit.jupiter.api.DisplayName;
import org.junit.jupiter.api.Test;

/** The exchanger of a server: what the JDK's documents ask for, and what of that it cannot do. */
@DisplayName("RvExchanger")
final class RvExchangerTest extends ExchangerContract {
    private static final AtomicInteger EXCHANGERS = new AtomicInteger();
    private static Served server;
    private static RvClients clients;

    @BeforeAll
    static void serves() throws Exception {
        server = new Served();
        clients = server.clients();
    }

    @AfterAll
    static void ends() throws IOException {
        clients.close();
        server.close();
    }

    @Override
    Trade trade() {
        RvExchanger exchanger = new RvExchanger(clients, EXCHANGERS.getAndIncrement());
        return new Trade() {
            @Override
            public String exchange(String item) throws InterruptedException {
                return exchanger.exchange(item);
            }

            @Override
            public String exchange(String item, long time, TimeUnit unit) throws InterruptedException, TimeoutException {
                return exchanger.exchange(item, time, unit);
            }
        };
    }

    @Test
    @DisplayName("it exchanges no null, and no text that no item can be")
    void whatItCannotExchangeIsRefused() {
        Trade trade = trade();
        assertThrows(NullPointerException.class, () -> trade.exchange(null));
        assertThrows(NullPointerException.class, () -> trade.exchange(null, 1, TimeUnit.DAYS));
        assertThrows(IllegalArgumentException.class, () -> trade.exchange("x".repeat(513)));
        assertThrows(TimeoutException.class, () -> trade.exchange("a", 1, TimeUnit.MILLISECONDS));
    }
}
