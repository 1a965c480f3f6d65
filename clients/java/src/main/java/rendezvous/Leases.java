package rendezvous;

import com.sun.security.auth.module.UnixSystem;
import java.io.FileInputStream;
import java.io.IOException;
import java.io.InputStream;
import java.io.UncheckedIOException;
import java.net.BindException;
import java.net.InetAddress;
import java.net.InetSocketAddress;
import java.net.StandardProtocolFamily;
import java.nio.channels.DatagramChannel;
import java.nio.charset.StandardCharsets;
import java.util.Optional;
import java.util.OptionalLong;
import java.util.regex.Matcher;
import java.util.regex.Pattern;

/**
 * Client numbers that are leased, each by a datagram socket that is bound to a loopback address and a port, which stand for
 * the user and the number. The system keeps the lease: so programs in other languages keep it too, nothing of it can be
 * deleted, it has no environment, and it ends with the process.
 */
final class Leases implements Numbers {
    /** The ports of leases: so many from a first one on, above those that Linux gives out by itself. */
    private static final int FIRST_PORT = 61_000;
    private static final int PORTS = 4_096;
    /** So many addresses, from 127.64.0.0 on; users and blocks of numbers are spread over them by an odd factor. */
    private static final int ADDRESSES = 1 << 22;
    private static final long FACTOR = 2_654_435_761L;
    private static final byte[] ONE_ADDRESS = {127, 0, 0, 1};
    /** Where Linux tells of a process, and its line of users: the real one, the effective one, and two more. */
    private static final String STATUS = "/proc/self/status";
    private static final Pattern USERS = Pattern.compile("(?m)^Uid:\\s*[0-9]+\\s+([0-9]{1,18})\\s");

    private final ClientRange range;

    /** Leases of this range, each in an incarnation of its own. */
    Leases(ClientRange range) {
        this.range = range;
    }

    @Override
    public long first() {
        return range.first();
    }

    @Override
    public boolean areUsedAgain() {
        return true;
    }

    @Override
    public IllegalStateException none() {
        return new NoClientNumber("all client numbers " + range.first() + " to " + range.last() + " are leased");
    }

    @Override
    public Optional<Lease> next() {
        long user = user();
        for (long client = range.first(); client <= range.last(); client++) {
            Optional<DatagramChannel> held = held(place(user, client));
            if (held.isPresent()) {
                return Optional.of(leased(client, held.get()));
            }
        }
        return Optional.empty();
    }

    private Lease leased(long client, DatagramChannel held) {
        boolean made = false;
        try {
            Lease lease = new Lease(client, Incarnations.next(), () -> close(held));
            made = true;
            return lease;
        } finally {
            if (!made) {
                close(held);
            }
        }
    }

    /** The number of the effective user; 0 where the system has none. */
    static long user() {
        if (System.getProperty("os.name").startsWith("Windows")) {
            return 0;
        }
        // the JDK knows the real user alone, and none that has no name
        return effective(status()).orElseGet(() -> new UnixSystem().getUid());
    }

    /** What Linux tells of this process; nothing on another system. */
    private static String status() {
        // no channel: an interrupt would close it
        try (InputStream status = new FileInputStream(STATUS)) {
            return new String(status.readAllBytes(), StandardCharsets.ISO_8859_1);
        } catch (IOException none) {
            return "";
        }
    }

    /** The effective user in what Linux tells of a process. */
    static OptionalLong effective(String status) {
        Matcher users = USERS.matcher(status);
        return users.find() ? OptionalLong.of(Long.parseLong(users.group(1))) : OptionalLong.empty();
    }

    /** The address and the port that stand for a user's client number. Where two fall together, one of them is not free. */
    static InetSocketAddress place(long user, long client) {
        long spread = user + FACTOR * (client / PORTS) & ADDRESSES - 1;
        byte[] address = {127, (byte) (64 + (spread >> 16)), (byte) (spread >> 8), (byte) spread};
        return new InetSocketAddress(address(address), FIRST_PORT + (int) (client % PORTS));
    }

    private static InetAddress address(byte[] bytes) {
        try {
            return InetAddress.getByAddress(bytes);
        } catch (IOException never) {
            throw new UncheckedIOException(never);
        }
    }

    /** What is bound to a place now, or to its port where the system has one loopback address; none where another has it. */
    private static Optional<DatagramChannel> held(InetSocketAddress place) {
        try {
            Optional<DatagramChannel> held = bound(place);
            return held.isPresent() || isThere(place.getAddress()) ? held
                : bound(new InetSocketAddress(address(ONE_ADDRESS), place.getPort()));
        } catch (IOException fault) {
            throw new UncheckedIOException("no client number can be leased at " + place + ": " + fault.getMessage(), fault);
        }
    }

    /** Whether the system has this address: some port of it can be bound. */
    private static boolean isThere(InetAddress address) throws IOException {
        Optional<DatagramChannel> any = bound(new InetSocketAddress(address, 0));
        any.ifPresent(Leases::close);
        return any.isPresent();
    }

    /** A socket that is bound to a place. The system throws away what others send to it. */
    private static Optional<DatagramChannel> bound(InetSocketAddress place) throws IOException {
        DatagramChannel channel = DatagramChannel.open(StandardProtocolFamily.INET);
        boolean bound = false;
        try {
            channel.bind(place);
            channel.connect(channel.getLocalAddress());
            bound = true;
            return Optional.of(channel);
        } catch (BindException taken) {
            return Optional.empty();
        } finally {
            if (!bound) {
                channel.close();
            }
        }
    }

    private static void close(DatagramChannel channel) {
        try {
            channel.close();
        } catch (IOException fault) {
            throw new UncheckedIOException("no end of the lease of a client number: " + fault.getMessage(), fault);
        }
    }
}
