package rendezvous;

import static org.junit.jupiter.api.Assertions.assertEquals;
import static org.junit.jupiter.api.Assertions.assertFalse;
import static org.junit.jupiter.api.Assertions.assertInstanceOf;
import static org.junit.jupiter.api.Assertions.assertThrows;
import static org.junit.jupiter.api.Assertions.assertTrue;

import java.util.ArrayList;
import java.util.List;
import java.util.concurrent.TimeUnit;
import java.util.concurrent.TimeoutException;
import org.junit.jupiter.api.DisplayName;
import org.junit.jupiter.api.Test;
import org.junit.jupiter.api.Timeout;

/**
 * What the documents of {@link java.util.concurrent.Exchanger} ask of one, sentence by sentence. The JDK's own one passes
 * each of these tests too.
 */
@Timeout(value = 2, unit = TimeUnit.MINUTES)
abstract class ExchangerContract {
    private static final long LATE = 1_000_000;

    /** What exchanges. */
    interface Trade {
        String exchange(String item) throws InterruptedException;

        String exchange(String item, long time, TimeUnit unit) throws InterruptedException, TimeoutException;
    }

    /** An exchanger at which nobody waits. */
    abstract Trade trade();

    private static Calling<String> trading(Trade trade, String item) {
        return Calling.of(() -> trade.exchange(item));
    }

    @Test
    @DisplayName("two threads that meet get each other's object")
    void twoThreadsGetEachOthersObject() throws Exception {
        Trade trade = trade();
        Calling<String> partner = trading(trade, "a");
        assertEquals("a", trade.exchange("b"));
        assertEquals("b", partner.end());
    }

    @Test
    @DisplayName("a thread with a time and one without meet too")
    void aTimedThreadMeetsOneWithoutATime() throws Exception {
        Trade trade = trade();
        Calling<String> partner = trading(trade, "a");
        assertEquals("a", trade.exchange("b", LATE, TimeUnit.MILLISECONDS));
        assertEquals("b", partner.end());
        Calling<String> timed = Calling.of(() -> trade.exchange("c", LATE, TimeUnit.MILLISECONDS));
        assertEquals("c", trade.exchange("d"));
        assertEquals("d", timed.end());
    }

    @Test
    @DisplayName("of an even number of threads each is met by one other")
    void eachThreadMeetsOneOther() throws Exception {
        Trade trade = trade();
        List<Calling<String>> threads = new ArrayList<>();
        for (int each = 0; each < 6; each++) {
            threads.add(trading(trade, String.valueOf(each)));
        }
        List<Integer> got = new ArrayList<>();
        for (Calling<String> each : threads) {
            got.add(Integer.valueOf(each.end()));
        }
        for (int each = 0; each < 6; each++) {
            assertTrue(got.get(each) != each, "with itself");
            assertEquals(each, got.get(got.get(each)), "both ways");
        }
    }

    @Test
    @DisplayName("a thread that nobody meets waits, until somebody does")
    void itWaitsForAPartner() throws Exception {
        Trade trade = trade();
        Calling<String> first = trading(trade, "a");
        Thread.sleep(50);
        assertTrue(first.thread().isAlive());
        assertEquals("a", trade.exchange("b"));
        assertEquals("b", first.end());
    }

    @Test
    @DisplayName("an interrupt while it waits ends it, is told by the exception alone, and the object goes to nobody")
    void anInterruptEndsTheWait() throws Exception {
        Trade trade = trade();
        for (boolean timed : List.of(false, true)) {
            Calling<String> waiting = Calling.of(() -> {
                assertThrows(InterruptedException.class,
                    () -> assertEquals("none", timed ? trade.exchange("a", LATE, TimeUnit.MILLISECONDS) : trade.exchange("a")));
                return "interrupted " + Thread.currentThread().isInterrupted();
            });
            Thread.sleep(20);
            waiting.thread().interrupt();
            assertEquals("interrupted false", waiting.end());
            assertThrows(TimeoutException.class, () -> trade.exchange("b", 1, TimeUnit.MILLISECONDS));
        }
    }

    @Test
    @DisplayName("a thread that is interrupted before it comes is told so, by the exception alone")
    void anInterruptBeforeEndsIt() throws Exception {
        Trade trade = trade();
        Thread.currentThread().interrupt();
        assertThrows(InterruptedException.class, () -> trade.exchange("a"));
        assertFalse(Thread.interrupted());
        Thread.currentThread().interrupt();
        assertThrows(InterruptedException.class, () -> trade.exchange("a", LATE, TimeUnit.MILLISECONDS));
        assertFalse(Thread.interrupted());
        assertThrows(TimeoutException.class, () -> trade.exchange("b", 1, TimeUnit.MILLISECONDS));
    }

    @Test
    @DisplayName("a time that is over ends the wait by its exception, and the object goes to nobody")
    void aTimeThatIsOverEndsTheWait() throws Exception {
        Trade trade = trade();
        for (long time : List.of(20L, 0L, -1L)) {
            assertThrows(TimeoutException.class, () -> trade.exchange("a", time, TimeUnit.MILLISECONDS));
        }
        Calling<String> partner = trading(trade, "b");
        assertEquals("b", trade.exchange("c", LATE, TimeUnit.MILLISECONDS));
        assertEquals("c", partner.end());
    }

    @Test
    @DisplayName("two pairs at two exchangers do not meet")
    void exchangersAreApart() throws Exception {
        Trade one = trade();
        Trade other = trade();
        Calling<String> first = trading(one, "a");
        Calling<String> second = trading(other, "b");
        assertEquals("b", other.exchange("c"));
        assertEquals("a", one.exchange("d"));
        assertInstanceOf(String.class, first.end());
        assertEquals("c", second.end());
    }

    /** What a thread writes in a plain field before it comes. */
    private static final class Plain {
        private int value;
    }

    @Test
    @DisplayName("what a thread did before it came is seen by its partner")
    void whatWasDoneBeforeIsSeen() throws Exception {
        Trade trade = trade();
        Plain plain = new Plain();
        Calling<Integer> partner = Calling.of(() -> {
            trade.exchange("a");
            return plain.value;
        });
        plain.value = 7;
        trade.exchange("b");
        assertEquals(7, partner.end());
    }
}
