package rendezvous;

import java.io.IOException;
import java.net.InetAddress;
import java.net.Socket;
import java.nio.file.Files;
import java.nio.file.Path;
import java.time.temporal.ChronoUnit;
import java.util.concurrent.ThreadLocalRandom;
import java.util.concurrent.atomic.AtomicLong;
import java.util.stream.Stream;

/**
 * A server of the program that RV_PROGRAM names, or that is built in this clone, or else of its double, which needs
 * python3 on the PATH. It ends with its user.
 */
final class Served implements AutoCloseable {
    private static final AtomicLong CLIENT = new AtomicLong(1);
    /** How often another port is tried, where somebody takes the one that was free. */
    private static final int TRIES = 5;
    private Process process;
    private int port;

    Served() throws IOException, InterruptedException {
        boolean serves = false;
        for (int tried = 0; tried < TRIES && !serves; tried++) {
            serves = serves();
        }
        if (!serves) {
            throw new IOException("no server listens: " + program());
        }
    }

    /** Starts the server at a port that is free, below those that the system gives to clients; whether it listens there. */
    private boolean serves() throws IOException, InterruptedException {
        port = ThreadLocalRandom.current().nextInt(20_000, 32_000);
        if (listens()) {
            return false;
        }
        process = new ProcessBuilder(program(), "serve", "--listen", "127.0.0.1:" + port, "--epoch", "1", "--workers", "32",
            "--connections", "100000").redirectErrorStream(true).redirectOutput(ProcessBuilder.Redirect.DISCARD).start();
        Runtime.getRuntime().addShutdownHook(new Thread(process::destroyForcibly));
        while (process.isAlive() && !listens()) {
            Thread.sleep(10);
        }
        return process.isAlive();
    }

    private boolean listens() {
        try (Socket probe = new Socket(InetAddress.getLoopbackAddress(), port)) {
            return probe.isConnected();
        } catch (IOException notYet) {
            return false;
        }
    }

    private static String program() throws IOException {
        String named = System.getenv("RV_PROGRAM");
        if (named != null) {
            return named;
        }
        Path here = Path.of("").toAbsolutePath();
        return Stream.iterate(here, path -> path != null, Path::getParent)
            .flatMap(path -> Stream.of(path.resolve("crates/rv_app/out/rv_app"), path.resolve("tests/sockets/double.sh")))
            .filter(Files::isExecutable).findFirst().map(Path::toString)
            .orElseThrow(() -> new IOException("no program above " + here + ": RV_PROGRAM is to name one"));
    }

    /** Clients of eight numbers that no others of this test have. */
    RvClients clients() {
        long first = CLIENT.getAndAdd(8);
        return RvClients.builder("127.0.0.1", port).clients(first, first + 7).unleased().incarnation(1)
            .grace(Answering.LONG).connectTimeout(ChronoUnit.FOREVER.getDuration()).build();
    }

    @Override
    public void close() throws IOException {
        process.destroyForcibly();
        try {
            process.waitFor();
        } catch (InterruptedException later) {
            Thread.currentThread().interrupt();
        }
    }
}
