package rendezvous;

import java.util.concurrent.Exchanger;
import java.util.concurrent.TimeUnit;
import java.util.concurrent.TimeoutException;
import org.junit.jupiter.api.DisplayName;

/** The JDK's own exchanger, which shows that the tests ask for what its documents do. */
@DisplayName("the JDK's Exchanger")
final class JdkExchangerTest extends ExchangerContract {
    @Override
    Trade trade() {
        Exchanger<String> exchanger = new Exchanger<>();
        return new Trade() {
            @Override
            public String exchange(String item) throws InterruptedException {
                return exchanger.exchange(item);
            }

            @Override
            public String exchange(String item, long time, TimeUnit unit) throws InterruptedException, TimeoutException {
                return exchanger.exchange(item, time, unit);
            }
        };
    }
}
