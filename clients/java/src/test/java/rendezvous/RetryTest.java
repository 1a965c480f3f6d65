package rendezvous;

import static org.junit.jupiter.api.Assertions.assertEquals;
import static org.junit.jupiter.api.Assertions.assertTrue;

import java.time.Duration;
import java.time.temporal.ChronoUnit;
import java.util.List;
import java.util.concurrent.TimeUnit;
import java.util.stream.LongStream;
import org.junit.jupiter.api.Test;

/** How calls pause. What a retry does not take is WordsTest's. */
final class RetryTest {
    private static final Duration FOR_EVER = ChronoUnit.FOREVER.getDuration();

    /** The bounds of the first pauses in milliseconds. */
    private static List<Long> bounds(Retry retry, int count) {
        return LongStream.iterate(retry.first(), retry::after).limit(count).map(TimeUnit.NANOSECONDS::toMillis).boxed().toList();
    }

    @Test
    void boundsAreDoubledUpToTheLargest() {
        assertEquals(List.of(10L, 20L, 40L, 80L, 160L, 320L, 640L, 1_280L, 2_560L, 5_000L, 5_000L), bounds(Retry.USUAL, 11));
        assertEquals(List.of(3L, 6L, 7L, 7L), bounds(new Retry(Duration.ofMillis(3), Duration.ofMillis(7), Duration.ZERO), 4));
    }

    @Test
    void noPauseIsLongerThanADay() {
        assertEquals(List.of(86_400_000L, 86_400_000L), bounds(new Retry(FOR_EVER, FOR_EVER, FOR_EVER), 2));
    }

    @Test
    void aCallPausesWithinItsBoundsAndBeginsAnewWhereSomethingWasHeard() {
        Retry retry = new Retry(Duration.ofNanos(2), Duration.ofNanos(5), FOR_EVER);
        Running running = new Running(false, Calls.FOR_EVER, Calls.FOR_EVER, Running.GRACE, Abort.NEVER, retry);
        for (int round = 0; round < 100; round++) {
            for (long bound : new long[] {2, 4, 5, 5}) {
                long pause = running.nextPause();
                assertTrue(0 <= pause && pause <= bound, () -> "a pause of " + pause + ", and not below " + bound);
            }
            running.heard(Calls.FOR_EVER);
        }
    }

    @Test
    void anotherPatienceHasTheSamePauses() {
        assertEquals(new Retry(Duration.ofMillis(10), Duration.ofSeconds(5), Duration.ofHours(1)),
            Retry.USUAL.withPatience(Duration.ofHours(1)));
    }
}
