package rendezvous;

import java.io.IOException;
import java.util.List;
import java.util.function.BooleanSupplier;
import java.util.stream.Collectors;

/** Where a server may be reached: alternatives, which each session tries in turn. */
final class Servers {
    private final List<? extends Link.Maker> all;
    /** The one that led a session on last: with it the next session begins. */
    private volatile int reached;

    /** These alternatives, one at least, of which the first is tried first. */
    Servers(List<? extends Link.Maker> all) {
        this.all = List.copyOf(all);
    }

    /** The turns of one more session. */
    Turns turns() {
        return new Turns();
    }

    @Override
    public String toString() {
        return all.stream().map(Link.Maker::toString).collect(Collectors.joining(","));
    }

    /** Whose turn it is for one session, whose thread alone asks. */
    final class Turns {
        private int current = reached;
        /** How many failed, one after another. */
        private int failed;

        /** A new link to the one whose turn it is. */
        Link make(BooleanSupplier isWoken) throws IOException {
            return all.get(current).make(isWoken);
        }

        /** The name of the one whose turn it is. */
        String name() {
            return all.get(current).toString();
        }

        /** The one whose turn it is failed, and the next one's turn comes. Whether by now each of them failed. */
        boolean endsRound() {
            current = (current + 1) % all.size();
            failed = (failed + 1) % all.size();
            return failed == 0;
        }

        /** A new round begins, with a call. */
        void newRound() {
            failed = 0;
        }

        /** Something was heard that leads on: a new round begins where it fails. */
        void ledOn() {
            newRound();
            reached = current;
        }

        /** The part of so many nanoseconds that one may use, so that there is time for each that is left of the round. */
        long part(long nanos) {
            return nanos / (all.size() - failed);
        }

        /** The names of all. */
        @Override
        public String toString() {
            return Servers.this.toString();
        }
    }
}
