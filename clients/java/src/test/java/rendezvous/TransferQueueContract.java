package rendezvous;

import static org.junit.jupiter.api.Assertions.assertEquals;
import static org.junit.jupiter.api.Assertions.assertFalse;
import static org.junit.jupiter.api.Assertions.assertInstanceOf;
import static org.junit.jupiter.api.Assertions.assertNotEquals;
import static org.junit.jupiter.api.Assertions.assertNull;
import static org.junit.jupiter.api.Assertions.assertThrows;
import static org.junit.jupiter.api.Assertions.assertTrue;

import java.util.ArrayList;
import java.util.List;
import java.util.NoSuchElementException;
import java.util.concurrent.Callable;
import java.util.concurrent.TimeUnit;
import java.util.concurrent.TransferQueue;
import org.junit.jupiter.api.DisplayName;
import org.junit.jupiter.api.Test;
import org.junit.jupiter.api.Timeout;

/**
 * What the documents of {@link TransferQueue}, and of the interfaces that it extends, ask of a queue, sentence by sentence.
 * The JDK's own queue passes each of these tests too, which shows that they ask for no more than those documents.
 */
@Timeout(value = 2, unit = TimeUnit.MINUTES)
abstract class TransferQueueContract {
    /** A time that is over soon, and one that is not over in a test, in milliseconds. */
    private static final long SOON = 20;
    private static final long LATE = 1_000_000;

    /** A queue that is empty, and that nobody else has. */
    abstract TransferQueue<String> queue() throws Exception;

    private static void awaitConsumers(TransferQueue<String> queue, int count) throws InterruptedException {
        while (queue.getWaitingConsumerCount() != count) {
            Thread.sleep(1);
        }
    }

    private static void awaitItems(TransferQueue<String> queue, int count) throws InterruptedException {
        while (queue.size() != count) {
            Thread.sleep(1);
        }
    }

    private static Calling<String> transferring(TransferQueue<String> queue, String item) {
        return Calling.of(() -> {
            queue.transfer(item);
            return "received";
        });
    }

    private static Calling<Boolean> trying(TransferQueue<String> queue, String item, long millis) {
        return Calling.of(() -> queue.tryTransfer(item, millis, TimeUnit.MILLISECONDS));
    }

    /** Interrupts a call while it waits: it ends by that exception, and its thread is not interrupted any more. */
    private static void isInterrupted(Callable<?> call, Callable<Void> waits) throws Exception {
        Calling<String> calling = Calling.of(() -> {
            assertThrows(InterruptedException.class, call::call);
            return "interrupted " + Thread.currentThread().isInterrupted();
        });
        waits.call();
        calling.thread().interrupt();
        assertEquals("interrupted false", calling.end());
    }

    /** A call in a thread that is interrupted before ends by that exception. */
    private static void isInterruptedBefore(Callable<?> call) throws Exception {
        Thread.currentThread().interrupt();
        assertThrows(InterruptedException.class, call::call);
        assertFalse(Thread.interrupted(), "the exception tells the interrupt");
    }

    @Test
    @DisplayName("a producer may wait until a consumer has received its item")
    void transferWaitsUntilItsItemIsReceived() throws Exception {
        TransferQueue<String> queue = queue();
        Calling<String> producer = transferring(queue, "a");
        awaitItems(queue, 1);
        assertTrue(producer.thread().isAlive());
        assertEquals("a", queue.take());
        assertEquals("received", producer.end());
    }

    @Test
    @DisplayName("a transfer gives its item at once to a consumer that waits in take")
    void transferMeetsAWaitingTake() throws Exception {
        TransferQueue<String> queue = queue();
        Calling<String> consumer = Calling.of(queue::take);
        awaitConsumers(queue, 1);
        queue.transfer("a");
        assertEquals("a", consumer.end());
        assertEquals(0, queue.size());
    }

    @Test
    @DisplayName("a transfer gives its item at once to a consumer that waits in a timed poll")
    void transferMeetsAWaitingPoll() throws Exception {
        TransferQueue<String> queue = queue();
        Calling<String> consumer = Calling.of(() -> queue.poll(LATE, TimeUnit.MILLISECONDS));
        awaitConsumers(queue, 1);
        queue.transfer("a");
        assertEquals("a", consumer.end());
    }

    @Test
    @DisplayName("a transfer that is interrupted while it waits leaves no item behind")
    void anInterruptedTransferLeavesNothing() throws Exception {
        TransferQueue<String> queue = queue();
        isInterrupted(() -> {
            queue.transfer("a");
            return null;
        }, () -> {
            awaitItems(queue, 1);
            return null;
        });
        assertEquals(0, queue.size());
        assertNull(queue.poll());
    }

    @Test
    @DisplayName("a transfer of a thread that is interrupted before it waits leaves no item behind")
    void aTransferThatIsInterruptedBeforeLeavesNothing() throws Exception {
        TransferQueue<String> queue = queue();
        isInterruptedBefore(() -> {
            queue.transfer("a");
            return null;
        });
        assertNull(queue.poll());
    }

    @Test
    @DisplayName("no form of transfer takes null")
    void transfersRefuseNull() throws Exception {
        TransferQueue<String> queue = queue();
        assertThrows(NullPointerException.class, () -> queue.transfer(null));
        assertThrows(NullPointerException.class, () -> queue.tryTransfer(null));
        assertThrows(NullPointerException.class, () -> queue.tryTransfer(null, 1, TimeUnit.DAYS));
        assertEquals(0, queue.size());
    }

    @Test
    @DisplayName("a try without a time gives its item to a consumer that waits in take")
    void tryTransferMeetsAWaitingTake() throws Exception {
        TransferQueue<String> queue = queue();
        Calling<String> consumer = Calling.of(queue::take);
        awaitConsumers(queue, 1);
        assertTrue(queue.tryTransfer("a"));
        assertEquals("a", consumer.end());
    }

    @Test
    @DisplayName("a try without a time gives its item to a consumer that waits in a timed poll")
    void tryTransferMeetsAWaitingPoll() throws Exception {
        TransferQueue<String> queue = queue();
        Calling<String> consumer = Calling.of(() -> queue.poll(LATE, TimeUnit.MILLISECONDS));
        awaitConsumers(queue, 1);
        assertTrue(queue.tryTransfer("a"));
        assertEquals("a", consumer.end());
    }

    @Test
    @DisplayName("a try without a time is false where nobody waits, and leaves no item behind")
    void tryTransferLeavesNothingWhereNobodyWaits() throws Exception {
        TransferQueue<String> queue = queue();
        assertFalse(queue.tryTransfer("a"));
        assertEquals(0, queue.size());
        assertNull(queue.poll());
    }

    @Test
    @DisplayName("a try with a time gives its item at once to a consumer that waits")
    void timedTryTransferMeetsAWaitingConsumer() throws Exception {
        TransferQueue<String> queue = queue();
        Calling<String> consumer = Calling.of(queue::take);
        awaitConsumers(queue, 1);
        assertTrue(queue.tryTransfer("a", 0, TimeUnit.MILLISECONDS));
        assertEquals("a", consumer.end());
        Calling<String> poller = Calling.of(() -> queue.poll(LATE, TimeUnit.MILLISECONDS));
        awaitConsumers(queue, 1);
        assertTrue(queue.tryTransfer("b", LATE, TimeUnit.MILLISECONDS));
        assertEquals("b", poller.end());
    }

    @Test
    @DisplayName("a try with a time waits until its item is received")
    void timedTryTransferWaits() throws Exception {
        TransferQueue<String> queue = queue();
        Calling<Boolean> producer = trying(queue, "a", LATE);
        awaitItems(queue, 1);
        assertTrue(producer.thread().isAlive());
        assertEquals("a", queue.take());
        assertTrue(producer.end());
    }

    @Test
    @DisplayName("a try whose time is over is false, and leaves no item behind")
    void aTimedTryTransferThatIsOverLeavesNothing() throws Exception {
        TransferQueue<String> queue = queue();
        assertFalse(queue.tryTransfer("a", SOON, TimeUnit.MILLISECONDS));
        assertFalse(queue.tryTransfer("b", 0, TimeUnit.MILLISECONDS));
        assertFalse(queue.tryTransfer("c", -1, TimeUnit.MILLISECONDS));
        assertEquals(0, queue.size());
        assertNull(queue.poll());
    }

    @Test
    @DisplayName("a try with a time that is interrupted leaves no item behind")
    void anInterruptedTimedTryTransferLeavesNothing() throws Exception {
        TransferQueue<String> queue = queue();
        isInterrupted(() -> queue.tryTransfer("a", LATE, TimeUnit.MILLISECONDS), () -> {
            awaitItems(queue, 1);
            return null;
        });
        isInterruptedBefore(() -> queue.tryTransfer("b", LATE, TimeUnit.MILLISECONDS));
        assertEquals(0, queue.size());
        assertNull(queue.poll());
    }

    @Test
    @DisplayName("a queue tells whether a consumer waits, in take or in a timed poll, and how many do")
    void waitingConsumersAreTold() throws Exception {
        TransferQueue<String> queue = queue();
        assertFalse(queue.hasWaitingConsumer());
        assertEquals(0, queue.getWaitingConsumerCount());
        List<Calling<String>> consumers =
            List.of(Calling.of(queue::take), Calling.of(() -> queue.poll(LATE, TimeUnit.MILLISECONDS)));
        awaitConsumers(queue, 2);
        assertTrue(queue.hasWaitingConsumer());
        queue.put("a");
        awaitConsumers(queue, 1);
        assertTrue(queue.hasWaitingConsumer());
        queue.put("b");
        awaitConsumers(queue, 0);
        assertFalse(queue.hasWaitingConsumer());
        List<String> taken = new ArrayList<>();
        for (Calling<String> each : consumers) {
            taken.add(each.end());
        }
        assertEquals(List.of("a", "b"), taken.stream().sorted().toList());
    }

    @Test
    @DisplayName("a consumer that gave up, by its time or an interrupt, does not count as one that waits")
    void whoGaveUpDoesNotWait() throws Exception {
        TransferQueue<String> queue = queue();
        assertNull(queue.poll(SOON, TimeUnit.MILLISECONDS));
        assertEquals(0, queue.getWaitingConsumerCount());
        isInterrupted(queue::take, () -> {
            awaitConsumers(queue, 1);
            return null;
        });
        assertEquals(0, queue.getWaitingConsumerCount());
    }

    @Test
    @DisplayName("a producer may also leave its item, and waits for nobody")
    void putDoesNotWait() throws Exception {
        TransferQueue<String> queue = queue();
        queue.put("a");
        queue.put("b");
        assertEquals(2, queue.size());
    }

    @Test
    @DisplayName("put takes no null")
    void putRefusesNull() throws Exception {
        TransferQueue<String> queue = queue();
        assertThrows(NullPointerException.class, () -> queue.put(null));
        assertEquals(0, queue.size());
    }

    @Test
    @DisplayName("an interrupt ends no put, which waits for nothing, and stays")
    void putGoesOnThroughAnInterrupt() throws Exception {
        TransferQueue<String> queue = queue();
        Thread.currentThread().interrupt();
        queue.put("a");
        assertTrue(Thread.interrupted());
        assertEquals("a", queue.poll());
    }

    @Test
    @DisplayName("take gives the head and removes it")
    void takeRemovesTheHead() throws Exception {
        TransferQueue<String> queue = queue();
        queue.put("a");
        queue.put("b");
        assertEquals("a", queue.take());
        assertEquals("b", queue.take());
        assertEquals(0, queue.size());
    }

    @Test
    @DisplayName("take waits until there is an item")
    void takeWaits() throws Exception {
        TransferQueue<String> queue = queue();
        Calling<String> consumer = Calling.of(queue::take);
        awaitConsumers(queue, 1);
        assertTrue(consumer.thread().isAlive());
        queue.put("a");
        assertEquals("a", consumer.end());
    }

    @Test
    @DisplayName("take ends by an interrupt before it waits and while it does, and takes nothing then")
    void anInterruptedTakeTakesNothing() throws Exception {
        TransferQueue<String> queue = queue();
        isInterrupted(queue::take, () -> {
            awaitConsumers(queue, 1);
            return null;
        });
        isInterruptedBefore(queue::take);
        queue.put("a");
        assertEquals(1, queue.size());
        assertEquals("a", queue.poll());
    }

    @Test
    @DisplayName("poll with a time gives the head, waits for one, and is null where the time is over")
    void timedPollWaits() throws Exception {
        TransferQueue<String> queue = queue();
        queue.put("a");
        assertEquals("a", queue.poll(0, TimeUnit.MILLISECONDS));
        assertNull(queue.poll(0, TimeUnit.MILLISECONDS));
        assertNull(queue.poll(-1, TimeUnit.DAYS));
        assertNull(queue.poll(SOON, TimeUnit.MILLISECONDS));
        Calling<String> consumer = Calling.of(() -> queue.poll(LATE, TimeUnit.MILLISECONDS));
        awaitConsumers(queue, 1);
        queue.put("b");
        assertEquals("b", consumer.end());
        assertEquals(0, queue.size());
    }

    @Test
    @DisplayName("poll with a time ends by an interrupt and takes nothing then")
    void anInterruptedTimedPollTakesNothing() throws Exception {
        TransferQueue<String> queue = queue();
        isInterrupted(() -> queue.poll(LATE, TimeUnit.MILLISECONDS), () -> {
            awaitConsumers(queue, 1);
            return null;
        });
        isInterruptedBefore(() -> queue.poll(LATE, TimeUnit.MILLISECONDS));
        queue.put("a");
        assertEquals("a", queue.poll());
    }

    @Test
    @DisplayName("poll gives the head and removes it, and is null where there is none")
    void pollIsNullWhereThereIsNothing() throws Exception {
        TransferQueue<String> queue = queue();
        assertNull(queue.poll());
        queue.put("a");
        assertEquals("a", queue.poll());
        assertNull(queue.poll());
    }

    @Test
    @DisplayName("remove gives the head and removes it, and throws where there is none")
    void removeThrowsWhereThereIsNothing() throws Exception {
        TransferQueue<String> queue = queue();
        assertThrows(NoSuchElementException.class, queue::remove);
        queue.put("a");
        assertEquals("a", queue.remove());
        assertThrows(NoSuchElementException.class, queue::remove);
    }

    @Test
    @DisplayName("peek gives the head, which stays, and is null where there is none")
    void peekLeavesTheHead() throws Exception {
        TransferQueue<String> queue = queue();
        assertNull(queue.peek());
        queue.put("a");
        queue.put("b");
        assertEquals("a", queue.peek());
        assertEquals("a", queue.peek());
        assertEquals(2, queue.size());
    }

    @Test
    @DisplayName("element gives the head, which stays, and throws where there is none")
    void elementThrowsWhereThereIsNothing() throws Exception {
        TransferQueue<String> queue = queue();
        assertThrows(NoSuchElementException.class, queue::element);
        queue.put("a");
        assertEquals("a", queue.element());
        assertEquals(1, queue.size());
    }

    @Test
    @DisplayName("the head is the item that came first, of puts and of transfers that wait")
    void theOrderIsThatOfArrival() throws Exception {
        TransferQueue<String> queue = queue();
        queue.put("a");
        Calling<String> producer = transferring(queue, "b");
        awaitItems(queue, 2);
        queue.put("c");
        assertEquals(List.of("a", "b", "c"), List.of(queue.take(), queue.take(), queue.take()));
        assertEquals("received", producer.end());
    }

    @Test
    @DisplayName("size and isEmpty tell how many items there are")
    void sizeIsTheNumberOfItems() throws Exception {
        TransferQueue<String> queue = queue();
        assertTrue(queue.isEmpty());
        queue.put("a");
        assertFalse(queue.isEmpty());
        assertEquals(1, queue.size());
        queue.take();
        assertTrue(queue.isEmpty());
    }

    @Test
    @DisplayName("a drain moves all items to the collection, behind what is there, oldest first, and tells how many")
    void drainToMovesAll() throws Exception {
        TransferQueue<String> queue = queue();
        List<String> into = new ArrayList<>(List.of("before"));
        assertEquals(0, queue.drainTo(into));
        List<String> wanted = new ArrayList<>(into);
        for (int item = 0; item < 40; item++) {
            queue.put("item " + item);
            wanted.add("item " + item);
        }
        assertEquals(40, queue.drainTo(into));
        assertEquals(wanted, into);
        assertEquals(0, queue.size());
    }

    @Test
    @DisplayName("a drain of so many at most moves no more, and leaves the rest")
    void drainToMovesSoManyAtMost() throws Exception {
        TransferQueue<String> queue = queue();
        for (String item : List.of("a", "b", "c")) {
            queue.put(item);
        }
        List<String> into = new ArrayList<>();
        assertEquals(0, queue.drainTo(into, 0));
        assertEquals(0, queue.drainTo(into, -1));
        assertEquals(2, queue.drainTo(into, 2));
        assertEquals(List.of("a", "b"), into);
        assertEquals("c", queue.peek());
        assertEquals(1, queue.drainTo(into, 9));
        assertEquals(List.of("a", "b", "c"), into);
    }

    @Test
    @DisplayName("a drain receives transfers that wait")
    void drainToReceivesTransfers() throws Exception {
        TransferQueue<String> queue = queue();
        Calling<String> producer = transferring(queue, "a");
        awaitItems(queue, 1);
        List<String> into = new ArrayList<>();
        assertEquals(1, queue.drainTo(into));
        assertEquals(List.of("a"), into);
        assertEquals("received", producer.end());
    }

    @Test
    @DisplayName("a queue is not drained into itself, nor into nothing")
    void drainToRefusesItselfAndNull() throws Exception {
        TransferQueue<String> queue = queue();
        queue.put("a");
        assertThrows(IllegalArgumentException.class, () -> queue.drainTo(queue));
        assertThrows(IllegalArgumentException.class, () -> queue.drainTo(queue, 1));
        assertThrows(NullPointerException.class, () -> queue.drainTo(null));
        assertThrows(NullPointerException.class, () -> queue.drainTo(null, 1));
        assertEquals(1, queue.size());
    }

    @Test
    @DisplayName("a drain into a collection that takes nothing ends by what that throws")
    void drainToTellsWhatTheCollectionThrows() throws Exception {
        TransferQueue<String> queue = queue();
        queue.put("a");
        assertThrows(UnsupportedOperationException.class, () -> queue.drainTo(List.of()));
    }

    @Test
    @DisplayName("an item that several threads try to take goes to one of them")
    void anItemGoesToOneConsumer() throws Exception {
        TransferQueue<String> queue = queue();
        List<Calling<String>> consumers = new ArrayList<>();
        for (int each = 0; each < 4; each++) {
            consumers.add(Calling.of(queue::take));
        }
        awaitConsumers(queue, 4);
        for (String item : List.of("a", "b", "c", "d")) {
            queue.transfer(item);
        }
        List<String> taken = new ArrayList<>();
        for (Calling<String> each : consumers) {
            taken.add(each.end());
        }
        assertEquals(List.of("a", "b", "c", "d"), taken.stream().sorted().toList());
        assertEquals(0, queue.size());
    }

    /** What a producer writes in a plain field before it gives an item. */
    private static final class Plain {
        private int value;
    }

    @Test
    @DisplayName("what a producer did before it gave an item is seen by the thread that took it")
    void whatWasDoneBeforeIsSeen() throws Exception {
        TransferQueue<String> queue = queue();
        Plain plain = new Plain();
        Calling<Integer> consumer = Calling.of(() -> {
            queue.take();
            return plain.value;
        });
        awaitConsumers(queue, 1);
        plain.value = 7;
        queue.put("a");
        assertEquals(7, consumer.end());
    }

    @Test
    @DisplayName("two queues are equal only where they are the same one, whatever they have in them")
    void equalityIsIdentity() throws Exception {
        TransferQueue<String> queue = queue();
        TransferQueue<String> other = queue();
        assertEquals(queue, queue);
        assertNotEquals(queue, other);
        int hash = queue.hashCode();
        queue.put("a");
        assertEquals(hash, queue.hashCode());
        assertInstanceOf(String.class, queue.toString());
    }
}
