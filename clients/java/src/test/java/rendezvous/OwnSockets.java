package rendezvous;

import java.io.IOException;
import java.io.UncheckedIOException;
import java.net.InetSocketAddress;
import java.nio.ByteBuffer;
import java.nio.ByteOrder;
import java.nio.file.Files;
import java.nio.file.Path;
import java.util.List;
import java.util.Locale;
import java.util.stream.Stream;

/** The datagram sockets that this program itself has open, as Linux tells them: not the copies that other programs have. */
final class OwnSockets {
    private static final Path ALL = Path.of("/proc/self/net/udp");
    private static final Path DESCRIPTORS = Path.of("/proc/self/fd");
    /** Which fields of the system's lines are a socket's local address and its inode. */
    private static final int ADDRESS = 1;
    private static final int INODE = 9;

    private OwnSockets() {}

    /** Whether one is bound to this place; never so on a system that doesn't tell. */
    static boolean isBound(InetSocketAddress place) {
        if (!Files.isReadable(ALL)) {
            return false;
        }
        try {
            List<String> open = open();
            return Files.readAllLines(ALL).stream().map(line -> line.trim().split(" +"))
                .anyMatch(fields -> fields[ADDRESS].equals(shown(place)) && open.contains("socket:[" + fields[INODE] + "]"));
        } catch (IOException fault) {
            throw new UncheckedIOException(fault);
        }
    }

    /** A place as the system's lines show it. */
    private static String shown(InetSocketAddress place) {
        int address = ByteBuffer.wrap(place.getAddress().getAddress()).order(ByteOrder.nativeOrder()).getInt();
        return String.format(Locale.ROOT, "%08X:%04X", address, place.getPort());
    }

    /** What this program's descriptors are open for. */
    private static List<String> open() throws IOException {
        try (Stream<Path> descriptors = Files.list(DESCRIPTORS)) {
            return descriptors.map(OwnSockets::target).toList();
        }
    }

    private static String target(Path descriptor) {
        try {
            return Files.readSymbolicLink(descriptor).toString();
        } catch (IOException closed) {
            return "";
        }
    }
}
