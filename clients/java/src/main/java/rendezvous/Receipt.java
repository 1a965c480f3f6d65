package rendezvous;

import java.io.Serializable;
import java.util.Optional;

/**
 * A transfer was received: its item was assigned to exactly one consumer's request.
 *
 * @param key the key of the transfer
 * @param by the key of the consumer's request; a session of version 1 is not told it
 */
public record Receipt(Key key, Optional<Key> by) implements Outcome {
    /** What is serialized for a receipt: its second key is null where there is none. */
    private record Form(Key key, Key by) implements Serializable {
        private Object readResolve() {
            return new Receipt(key, Optional.ofNullable(by));
        }
    }

    private Object writeReplace() {
        return new Form(key, by.orElse(null));
    }
}
