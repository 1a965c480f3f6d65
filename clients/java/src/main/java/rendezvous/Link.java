package rendezvous;

import java.io.IOException;
import java.util.function.BooleanSupplier;

/**
 * One connection, which may be thrown away at any time. All of it is for one thread at a time, but for {@link #wake}. Each
 * call that waits ends by {@link Woken} as soon as its session says so.
 */
interface Link extends AutoCloseable {
    /** The call has something else to do than to wait for the link. */
    final class Woken extends IOException {
        private static final long serialVersionUID = 1;
    }

    /** No connection can be made, however long it is waited for: what says why names the server. */
    final class NotConnected extends IOException {
        private static final long serialVersionUID = 1;

        NotConnected(String words, Exception cause) {
            super(words, cause);
        }
    }

    /** What makes links, none of which is connected yet. As a text it is the server's name. */
    interface Maker {
        /** A new link. Whoever waits there is woken where {@code isWoken} says so. */
        Link make(BooleanSupplier isWoken) throws IOException;
    }

    /** Connects, within so many nanoseconds. */
    void connect(long nanos) throws IOException;

    /** Whether the peer closed it, or said something that nobody asked for. */
    boolean isOver();

    /** Sends one frame with this body, within so many nanoseconds. */
    void send(byte[] body, long nanos) throws IOException;

    /** Reads one frame, within so many nanoseconds; gives its body. */
    byte[] hear(long nanos) throws IOException;

    /** Has who waits here look whether it is woken. Any thread may say this, at any time. */
    void wake();

    /** Closes it, whatever state it is in. */
    @Override
    void close();
}
