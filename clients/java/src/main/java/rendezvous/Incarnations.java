package rendezvous;

import java.time.Instant;
import java.time.temporal.ChronoUnit;
import java.util.concurrent.atomic.AtomicLong;

/** Incarnations of this process: each is the clock's, in microseconds, and above all before it. */
final class Incarnations {
    /** The greatest that was used. */
    private static final AtomicLong USED = new AtomicLong();

    private Incarnations() {}

    /** A new one. */
    static long next() {
        return at(ChronoUnit.MICROS.between(Instant.EPOCH, Instant.now()));
    }

    /** A new one, where the clock is at so many microseconds since 1970. */
    static long at(long micros) {
        return USED.updateAndGet(before -> {
            long number = Math.max(micros, before + 1);
            if (number > Key.GREATEST) {
                throw new IllegalStateException("no incarnation is left above " + (number - 1));
            }
            return number;
        });
    }

    /** Used is also this one, which the server's word led to. */
    static void used(long number) {
        USED.accumulateAndGet(number, Math::max);
    }
}
