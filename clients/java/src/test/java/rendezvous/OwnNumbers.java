package rendezvous;

import java.util.concurrent.atomic.AtomicLong;

/** Client numbers that nobody else leases: each process has 4,096 of its own, by its number. */
final class OwnNumbers {
    private static final int COUNT = 32;
    private static final AtomicLong NEXT = new AtomicLong(4_096 * ProcessHandle.current().pid());

    private OwnNumbers() {}

    /** The least of 32 of them that no other test has. */
    static long first() {
        return NEXT.getAndAdd(COUNT);
    }
}
