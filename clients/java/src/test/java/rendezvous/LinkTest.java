package rendezvous;

import static org.junit.jupiter.api.Assertions.assertEquals;
import static org.junit.jupiter.api.Assertions.assertThrows;
import static org.junit.jupiter.api.Assertions.assertTrue;

import java.io.IOException;
import java.net.InetAddress;
import java.net.ServerSocket;
import java.nio.charset.StandardCharsets;
import java.nio.file.Path;
import java.util.concurrent.TimeUnit;
import org.junit.jupiter.api.Test;
import org.junit.jupiter.api.Timeout;
import rendezvous.Link.NotConnected;

/** Connections over TCP, and the addresses of a server. */
@Timeout(value = 2, unit = TimeUnit.MINUTES)
final class LinkTest {
    private static final long LONG = TimeUnit.MINUTES.toNanos(1);
    /** At this address nobody listens at the port of a server at another one. */
    private static final byte[] NOBODY = {0, 0, 0, 0, 0, 0, 0, 0, 0, 0, 0, 0, 0, 0, 0, 1};
    private static final byte[] SERVER = {127, 0, 0, 1};

    /** A link to a host that has these addresses, in this order. */
    private static SocketLink link(int port, byte[]... addresses) throws IOException {
        InetAddress[] all = new InetAddress[addresses.length];
        for (int each = 0; each < all.length; each++) {
            all[each] = InetAddress.getByAddress("server", addresses[each]);
        }
        return new SocketLink("server", port, () -> false, host -> all);
    }

    @Test
    void eachAddressOfANameIsTried() throws Exception {
        try (Answering server = new Answering(Answering::well)) {
            for (byte[][] addresses : new byte[][][] {{SERVER, NOBODY}, {NOBODY, SERVER}, {NOBODY, NOBODY, SERVER}}) {
                try (SocketLink link = link(server.port(), addresses)) {
                    link.connect(LONG);
                    link.send("{\"kind\":\"hello\"}".getBytes(StandardCharsets.UTF_8), LONG);
                    assertTrue(new String(link.hear(LONG), StandardCharsets.UTF_8).contains("welcome"));
                }
            }
        }
    }

    /** Connects in a program that has addresses of version 4 alone, and prints what comes of it. */
    public static void main(String[] none) throws IOException {
        try (SocketLink link = new SocketLink("::1", 1, () -> false)) {
            link.connect(LONG);
        } catch (NotConnected told) {
            System.out.print(told.getMessage());
        }
    }

    @Test
    void anAddressOfAVersionThatTheProgramHasNotIsToldByTheServersName() throws Exception {
        String java = Path.of(System.getProperty("java.home"), "bin", "java").toString();
        Process program = new ProcessBuilder(java, "-Djava.net.preferIPv4Stack=true", "-cp", System.getProperty("java.class.path"),
            LinkTest.class.getName()).redirectError(ProcessBuilder.Redirect.INHERIT).start();
        assertEquals("[::1]:1: this program has no addresses of that version",
            new String(program.getInputStream().readAllBytes(), StandardCharsets.UTF_8));
    }

    @Test
    void whereNoneTakesAConnectionTheLastFaultIsTold() throws Exception {
        int port;
        try (ServerSocket free = new ServerSocket(0, 1, InetAddress.getByAddress(SERVER))) {
            port = free.getLocalPort();
        }
        try (SocketLink link = link(port, NOBODY, SERVER)) {
            NotConnected none = assertThrows(NotConnected.class, () -> link.connect(LONG));
            assertTrue(none.getMessage().startsWith("server:" + port + ": "), none.getMessage());
        }
    }
}
