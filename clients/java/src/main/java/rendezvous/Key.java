package rendezvous;

import java.io.Serializable;

/** The name of one request, for ever. */
public record Key(long epoch, long client, long incarnation, long number) implements Serializable {
    /** The greatest number of each of its parts. */
    static final long GREATEST = (1L << 53) - 1;

    /** The key of the request behind this one; null where all numbers are used up. */
    Key next() {
        return number == GREATEST ? null : new Key(epoch, client, incarnation, number + 1);
    }

    @Override
    public String toString() {
        return epoch + "/" + client + "/" + incarnation + "/" + number;
    }
}
