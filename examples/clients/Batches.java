import java.util.ArrayList;
import java.util.List;
import rendezvous.RvClients;
import rendezvous.RvTransferQueue;

/** Puts twenty jobs in queue 3, and takes them eight at a time. Words: host, port. */
public final class Batches {
    private Batches() {}

    /** Prints the first and the last job of each batch. */
    public static void main(String[] words) throws InterruptedException {
        try (RvClients clients = RvClients.builder(words[0], Integer.parseInt(words[1])).build()) {
            RvTransferQueue queue = new RvTransferQueue(clients, 3);
            for (int job = 1; job <= 20; job++) {
                queue.put("job " + job);
            }
            for (int left = 20; left > 0;) {
                List<String> batch = new ArrayList<>(List.of(queue.take()));
                queue.drainTo(batch, 7);
                System.out.println(batch.get(0) + " to " + batch.get(batch.size() - 1));
                left -= batch.size();
            }
            System.out.println("and then " + queue.drainTo(new ArrayList<>()));
        }
    }
}
