package rendezvous;

import java.io.Serializable;
import java.util.List;

/** What settled a request: one record for each kind of reply, with the key of the request that it is of. */
public sealed interface Outcome extends Serializable permits Receipt, Outcome.Done, Outcome.Nobody, Outcome.Item, Outcome.Empty,
        Outcome.Swapped, Outcome.TimedOut, Outcome.Cancelled, Outcome.Counted, Outcome.Peeked, Outcome.Drained {
    /** The key of the request that was settled so. */
    Key key();

    /** A put's item is in the queue. */
    record Done(Key key) implements Outcome {}

    /** No consumer waited for a transfer that waits for none: nobody gets its item. */
    record Nobody(Key key) implements Outcome {}

    /** A take was assigned this item. */
    record Item(Key key, String item) implements Outcome {}

    /** There is no item, for a take that waits for none or for a peek. */
    record Empty(Key key) implements Outcome {}

    /** An exchange gave the partner's item. */
    record Swapped(Key key, String item) implements Outcome {}

    /** Nobody came in the request's time, so nothing was given or taken. */
    record TimedOut(Key key) implements Outcome {}

    /** The request was cancelled before anybody met it, so nothing was given or taken. */
    record Cancelled(Key key) implements Outcome {}

    /** How many items and waiting consumers a queue has. */
    record Counted(Key key, int items, int consumers) implements Outcome {}

    /** The oldest item of a queue, which stays. */
    record Peeked(Key key, String item) implements Outcome {}

    /** The items that a drain took, oldest first. */
    record Drained(Key key, List<String> items) implements Outcome {
        /** Keeps a copy of the list, which cannot be changed. */
        public Drained {
            items = List.copyOf(items);
        }
    }
}
