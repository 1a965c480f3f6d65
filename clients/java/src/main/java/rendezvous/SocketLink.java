package rendezvous;

import java.io.IOException;
import java.net.InetAddress;
import java.net.InetSocketAddress;
import java.net.SocketTimeoutException;
import java.net.StandardSocketOptions;
import java.net.UnknownHostException;
import java.nio.ByteBuffer;
import java.nio.channels.SelectionKey;
import java.nio.channels.Selector;
import java.nio.channels.SocketChannel;
import java.nio.channels.UnsupportedAddressTypeException;
import java.util.Objects;
import java.util.concurrent.ExecutionException;
import java.util.concurrent.FutureTask;
import java.util.concurrent.TimeUnit;
import java.util.function.BooleanSupplier;
import java.util.regex.Pattern;

/** A link over TCP. Its host is looked up anew with each, and each address that it has is tried, one after another. */
final class SocketLink implements Link {
    /**
     * What makes such links to a server.
     *
     * @param host the server's host, a name or an address
     * @param port the port there
     */
    record To(String host, int port) implements Maker {
        /** A name, or an address of version 4; and one of version 6. Other languages take more characters for white space. */
        private static final String WORD = "[^\\s\\x00\\x1C-\\x1F/?#&,:\\[\\]@%]+";
        private static final Pattern NAME = Pattern.compile(WORD, Pattern.UNICODE_CHARACTER_CLASS);
        private static final Pattern SIX =
            Pattern.compile("(?=[^:%]*:[^:%]*:)[0-9A-Fa-f:.]+(%" + WORD + ")?", Pattern.UNICODE_CHARACTER_CLASS);

        To {
            Objects.requireNonNull(host, "a host is a text");
            boolean isInBrackets = host.startsWith("[") && host.endsWith("]");
            if (!isName(host) && !isSix(isInBrackets ? host.substring(1, host.length() - 1) : host)) {
                throw new IllegalArgumentException("a host is a name or an address, without a port: " + host);
            }
            if (port < 1 || port > 65_535) {
                throw new IllegalArgumentException("a port is 1 to 65535: " + port);
            }
        }

        /** Whether a text is a name or an address of version 4. */
        static boolean isName(String text) {
            return NAME.matcher(text).matches();
        }

        /** Whether a text is an address of version 6, which may name a zone. */
        static boolean isSix(String text) {
            return SIX.matcher(text).matches();
        }

        @Override
        public Link make(BooleanSupplier isWoken) throws IOException {
            return new SocketLink(host, port, isWoken);
        }

        @Override
        public String toString() {
            return (host.indexOf(':') >= 0 && host.charAt(0) != '[' ? "[" + host + "]" : host) + ":" + port;
        }
    }

    /** What gives the addresses of a host, one at least. */
    interface Names {
        InetAddress[] of(String host) throws UnknownHostException;
    }

    private final String host;
    private final int port;
    private final BooleanSupplier isWoken;
    private final Names names;
    private final Selector selector;
    private SocketChannel channel;
    private SelectionKey key;

    SocketLink(String host, int port, BooleanSupplier isWoken) throws IOException {
        this(host, port, isWoken, InetAddress::getAllByName);
    }

    /** The same, with names of one's own, for tests. */
    SocketLink(String host, int port, BooleanSupplier isWoken, Names names) throws IOException {
        this.host = host;
        this.port = port;
        this.isWoken = isWoken;
        this.names = names;
        Selector made = Selector.open();
        SocketChannel opened = null;
        SelectionKey registered = null;
        try {
            opened = SocketChannel.open();
            registered = registered(made, opened);
        } finally {
            if (registered == null) {
                closed(made, opened);
            }
        }
        selector = made;
        channel = opened;
        key = registered;
    }

    private static SelectionKey registered(Selector selector, SocketChannel channel) throws IOException {
        channel.configureBlocking(false);
        channel.setOption(StandardSocketOptions.TCP_NODELAY, true);
        return channel.register(selector, 0);
    }

    @Override
    public void connect(long nanos) throws IOException {
        long ends = System.nanoTime() + nanos;
        try {
            connect(found(ends), ends);
        } catch (UnknownHostException unknown) {
            throw notConnected("the host is not known", unknown);
        } catch (UnsupportedAddressTypeException other) {
            throw notConnected("this program has no addresses of that version", other);
        } catch (Woken woken) {
            throw woken;
        } catch (SocketTimeoutException late) {
            // it may be the call's own time that is over
            throw new IOException(new To(host, port) + ": no connection in time", late);
        } catch (IOException fault) {
            throw notConnected(reason(fault), fault);
        }
    }

    /** Connects to the first of these addresses where that can be done. */
    private void connect(InetAddress[] all, long ends) throws IOException {
        for (int each = 0; !isConnected(all[each], each + 1 == all.length, ends); each++) {
            // a channel that could not be connected is of no more use
            channel.close();
            channel = SocketChannel.open();
            key = registered(selector, channel);
        }
    }

    /** Connects to an address; false where that can't be done, or the fault of the last one. */
    private boolean isConnected(InetAddress address, boolean isLast, long ends) throws IOException {
        try {
            boolean connected = channel.connect(new InetSocketAddress(address, port));
            while (!connected) {
                await(SelectionKey.OP_CONNECT, ends);
                connected = channel.finishConnect();
            }
            return true;
        } catch (Woken | SocketTimeoutException over) {
            throw over;
        } catch (IOException | UnsupportedAddressTypeException fault) {
            if (isLast) {
                throw fault;
            }
            return false;
        }
    }

    private NotConnected notConnected(String why, Exception cause) {
        return new NotConnected(new To(host, port) + ": " + why, cause);
    }

    /** The system's reason, as part of a sentence. */
    private static String reason(IOException fault) {
        String words = String.valueOf(fault.getMessage());
        return words.isEmpty() ? words : Character.toLowerCase(words.charAt(0)) + words.substring(1);
    }

    /** The host's addresses. A name is looked up by another thread, so that this one can be woken. */
    private InetAddress[] found(long ends) throws IOException {
        if (host.indexOf(':') >= 0 || host.matches("[0-9.]+")) {
            return names.of(host);
        }
        FutureTask<InetAddress[]> search = new FutureTask<>(() -> names.of(host)) {
            @Override
            protected void done() {
                wake();
            }
        };
        Thread searching = new Thread(search, "rendezvous looks up " + host);
        searching.setDaemon(true);
        searching.start();
        while (!search.isDone()) {
            select(ends);
        }
        try {
            return search.get();
        } catch (ExecutionException | InterruptedException unknown) {
            throw new UnknownHostException(host);
        }
    }

    @Override
    public boolean isOver() {
        try {
            return channel.read(ByteBuffer.allocate(1)) != 0;
        } catch (IOException over) {
            return true;
        }
    }

    @Override
    public void send(byte[] body, long nanos) throws IOException {
        long ends = System.nanoTime() + nanos;
        ByteBuffer frame = ByteBuffer.allocate(2 + body.length);
        frame.putShort((short) body.length).put(body).flip();
        while (frame.hasRemaining()) {
            if (channel.write(frame) == 0) {
                await(SelectionKey.OP_WRITE, ends);
            }
        }
    }

    @Override
    public byte[] hear(long nanos) throws IOException {
        long ends = System.nanoTime() + nanos;
        int length = Short.toUnsignedInt(read(2, ends).getShort());
        if (length == 0) {
            throw new Bodies.NoAnswer("a frame of 0 bytes came");
        }
        return read(length, ends).array();
    }

    private ByteBuffer read(int count, long ends) throws IOException {
        ByteBuffer got = ByteBuffer.allocate(count);
        while (got.hasRemaining()) {
            int read = channel.read(got);
            if (read < 0) {
                throw new IOException("the connection ended");
            }
            if (read == 0) {
                await(SelectionKey.OP_READ, ends);
            }
        }
        return got.flip();
    }

    /** Waits until the channel is ready. */
    private void await(int operation, long ends) throws IOException {
        key.interestOps(operation);
        while (!select(ends)) {
            // something else than the channel ended the wait
        }
    }

    /** Waits until the channel is ready, or until something else ends the wait; whether the channel is ready. */
    private boolean select(long ends) throws IOException {
        if (isWoken.getAsBoolean()) {
            throw new Woken();
        }
        long left = ends - System.nanoTime();
        if (left <= 0) {
            throw new SocketTimeoutException("no answer came in time");
        }
        boolean ready = selector.select(TimeUnit.NANOSECONDS.toMillis(left) + 1) > 0;
        selector.selectedKeys().clear();
        if (isWoken.getAsBoolean()) {
            throw new Woken();
        }
        return ready;
    }

    @Override
    public void wake() {
        selector.wakeup();
    }

    @Override
    public void close() {
        closed(selector, channel);
    }

    private static void closed(Selector selector, SocketChannel channel) {
        try (selector; channel) {
            return;
        } catch (IOException ignored) {
            // a connection that is thrown away may end as it likes
            return;
        }
    }
}
