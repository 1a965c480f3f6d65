import java.util.concurrent.TransferQueue;
import rendezvous.RvClients;
import rendezvous.RvTransferQueue;

/** Takes three items from queue 3. Words: host, port. */
public final class Consumer {
    private Consumer() {}

    /** Prints each item that it took. */
    public static void main(String[] words) throws InterruptedException {
        try (RvClients clients = RvClients.builder(words[0], Integer.parseInt(words[1])).build()) {
            TransferQueue<String> queue = new RvTransferQueue(clients, 3);
            for (int item = 0; item < 3; item++) {
                System.out.println("took " + queue.take());
            }
        }
    }
}
