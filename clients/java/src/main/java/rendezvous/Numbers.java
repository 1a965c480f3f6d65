package rendezvous;

import java.util.Optional;
import java.util.TreeSet;

/** Where the client numbers of sessions come from. */
interface Numbers {
    /** The least number of all; with it a session may be tried. */
    long first();

    /** The least number that is free; none where all are taken. */
    Optional<Lease> next();

    /** Whether a number that was used may be given back, and used anew in a greater incarnation. */
    boolean areUsedAgain();

    /** That all are taken. */
    IllegalStateException none();

    /** Numbers that the user gives out, in an incarnation that the user chose: each is for one session. */
    final class Given implements Numbers {
        private final ClientRange range;
        private final long incarnation;
        private final TreeSet<Long> unused = new TreeSet<>();
        private long next;

        Given(ClientRange range, long incarnation) {
            this.range = range;
            this.incarnation = incarnation;
            next = range.first();
        }

        @Override
        public long first() {
            return range.first();
        }

        @Override
        public Optional<Lease> next() {
            if (unused.isEmpty() && next > range.last()) {
                return Optional.empty();
            }
            long client = unused.isEmpty() ? next++ : unused.pollFirst();
            return Optional.of(new Lease(client, incarnation, () -> unused.add(client)));
        }

        @Override
        public boolean areUsedAgain() {
            return false;
        }

        @Override
        public IllegalStateException none() {
            return new IllegalStateException("more threads than the " + (range.last() - range.first() + 1) + " clients");
        }
    }
}
