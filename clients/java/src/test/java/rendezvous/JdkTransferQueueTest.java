package rendezvous;

import java.util.concurrent.LinkedTransferQueue;
import java.util.concurrent.TransferQueue;
import org.junit.jupiter.api.DisplayName;

/** The JDK's own queue, which shows that the tests ask for what its interface does. */
@DisplayName("the JDK's LinkedTransferQueue")
final class JdkTransferQueueTest extends TransferQueueContract {
    @Override
    TransferQueue<String> queue() {
        return new LinkedTransferQueue<>();
    }
}
