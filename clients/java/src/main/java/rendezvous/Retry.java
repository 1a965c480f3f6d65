package rendezvous;

import java.time.Duration;
import java.util.Objects;

/**
 * How a call goes on where it is not answered. It pauses, each time for a random while below a bound, which is doubled from
 * pause to pause until something is heard; where a server has several addresses, only after each of them failed. It ends
 * where nothing at all is heard for long.
 *
 * @param firstPause the bound of the first pause, above zero; one above a day is a day's
 * @param largestPause the greatest bound, not below the first one
 * @param patience for how long a call goes on while nothing at all is heard; {@code ChronoUnit.FOREVER.getDuration()} is
 *     for ever
 */
public record Retry(Duration firstPause, Duration largestPause, Duration patience) {
    /** What holds where nothing is chosen: pauses below 10 milliseconds at first, 5 seconds at last, and a minute's patience. */
    public static final Retry USUAL = new Retry(Duration.ofMillis(10), Duration.ofSeconds(5), Duration.ofMinutes(1));
    private static final long DAY = Duration.ofDays(1).toNanos();

    /**
     * Looks at what is chosen.
     *
     * @throws IllegalArgumentException if the first pause is not above zero, the largest one below it, or the patience below zero
     */
    public Retry {
        if (of(firstPause, "firstPause").isZero() || firstPause.isNegative()) {
            throw new IllegalArgumentException("a first pause is above zero: firstPause " + firstPause);
        }
        if (of(largestPause, "largestPause").compareTo(firstPause) < 0) {
            throw new IllegalArgumentException("no pause is longer than the largest: firstPause " + firstPause + ", largestPause "
                + largestPause);
        }
        if (of(patience, "patience").isNegative()) {
            throw new IllegalArgumentException("a time is not below zero: patience " + patience);
        }
    }

    private static Duration of(Duration time, String name) {
        return Objects.requireNonNull(time, () -> name + " is a time");
    }

    /** The same pauses with another patience. */
    public Retry withPatience(Duration other) {
        return new Retry(firstPause, largestPause, other);
    }

    /** The bound of the first pause in nanoseconds, a day at most. */
    long first() {
        return Math.min(RvSession.nanos("firstPause", firstPause), DAY);
    }

    /** The bound of the pause after one with this bound. */
    long after(long nanos) {
        return Math.min(Math.min(RvSession.nanos("largestPause", largestPause), DAY), 2 * nanos);
    }
}
