package rendezvous;

import com.google.gson.JsonObject;
import com.google.gson.JsonParser;
import java.io.DataInputStream;
import java.io.DataOutputStream;
import java.io.IOException;
import java.net.InetAddress;
import java.net.ServerSocket;
import java.net.Socket;
import java.nio.charset.StandardCharsets;
import java.time.temporal.ChronoUnit;
import java.util.ArrayList;
import java.util.List;
import java.util.concurrent.TimeUnit;
import java.util.function.Function;

/** A server that answers each message by a function, which may wait, or says nothing where that gives null. */
final class Answering implements AutoCloseable {
    /** The grace of calls that a slow machine is to end by what the server says. */
    static final long LONG = TimeUnit.MINUTES.toNanos(1);

    private final ServerSocket listener = new ServerSocket(0, 200, InetAddress.getLoopbackAddress());
    private final Function<JsonObject, JsonObject> answer;
    private final List<Socket> open = new ArrayList<>();
    private final List<JsonObject> heard = new ArrayList<>();
    private int connections;
    private long epoch = 1;

    /** One that welcomes each hello, and answers all else so. */
    Answering(Function<JsonObject, JsonObject> answer) throws IOException {
        this.answer = answer;
        started(this::accepts);
    }

    private static void started(Runnable part) {
        Thread thread = new Thread(part);
        thread.setDaemon(true);
        thread.start();
    }

    int port() {
        return listener.getLocalPort();
    }

    /** Clients of this server, whose numbers nobody leases. */
    RvClients.Builder clients(long first, long last) {
        return RvClients.builder("127.0.0.1", port()).clients(first, last).unleased().incarnation(1)
            .grace(LONG).connectTimeout(ChronoUnit.FOREVER.getDuration());
    }

    /** What came but hellos. */
    synchronized List<JsonObject> asked() {
        return heard.stream().filter(message -> !Bodies.word(message, "kind").equals("hello")).toList();
    }

    /** The hellos that came. */
    synchronized List<JsonObject> hellos() {
        return heard.stream().filter(message -> Bodies.word(message, "kind").equals("hello")).toList();
    }

    /** How many connections came. */
    synchronized int connections() {
        return connections;
    }

    /** How many connections are open. */
    synchronized int open() {
        return open.size();
    }

    /** The reply that an outcome of the message's request is told by. */
    static JsonObject reply(JsonObject message, Function<Key, Outcome> outcome) {
        return Answers.of(outcome.apply(Bodies.keyOf(message)));
    }

    /** The welcome to a hello, in epoch 1. */
    static JsonObject welcome(JsonObject hello) {
        return welcome(hello, 1);
    }

    private static JsonObject welcome(JsonObject hello, long epoch) {
        JsonObject welcome = hello.deepCopy();
        welcome.addProperty("kind", "welcome");
        welcome.addProperty("epoch", epoch);
        return welcome;
    }

    /** What a server says where nothing waits: puts are done, and what is cancelled is cancelled. */
    static JsonObject well(JsonObject message) {
        return reply(message, Bodies.word(message, "kind").equals("cancel") ? Outcome.Cancelled::new : Outcome.Done::new);
    }

    private void accepts() {
        try {
            while (true) {
                Socket connection = listener.accept();
                synchronized (this) {
                    connections++;
                    open.add(connection);
                }
                started(() -> serves(connection));
            }
        } catch (IOException over) {
            // it is closed
        }
    }

    private void serves(Socket connection) {
        try (connection; DataInputStream in = new DataInputStream(connection.getInputStream());
                DataOutputStream out = new DataOutputStream(connection.getOutputStream())) {
            connection.setTcpNoDelay(true);
            while (true) {
                String text = new String(in.readNBytes(in.readUnsignedShort()), StandardCharsets.UTF_8);
                JsonObject answered = answered(JsonParser.parseString(text).getAsJsonObject());
                if (answered != null) {
                    byte[] body = Bodies.written(answered);
                    out.writeShort(body.length);
                    out.write(body);
                    out.flush();
                }
            }
        } catch (IOException over) {
            // the client closed it
        } finally {
            synchronized (this) {
                open.remove(connection);
            }
        }
    }

    private JsonObject answered(JsonObject message) {
        long current = heard(message);
        if (Bodies.word(message, "kind").equals("hello")) {
            return welcome(message, current);
        }
        return Bodies.number(message, "epoch") < current ? otherEpoch(current) : answer.apply(message);
    }

    /** Keeps what came, and gives the server's epoch. */
    private synchronized long heard(JsonObject message) {
        heard.add(message);
        notifyAll();
        return epoch;
    }

    private static JsonObject otherEpoch(long current) {
        JsonObject refusal = new JsonObject();
        refusal.addProperty("kind", "refused");
        refusal.addProperty("code", 2);
        refusal.addProperty("current", current);
        return refusal;
    }

    /** It is started anew in the next epoch, and has lost what it had; connections stay. */
    synchronized void startsAnew() {
        epoch++;
    }

    /** Waits until so many messages came beside hellos. */
    synchronized void awaitAsked(int count) throws InterruptedException {
        while (asked().size() < count) {
            wait();
        }
    }

    @Override
    public void close() throws IOException {
        listener.close();
        synchronized (this) {
            for (Socket each : open) {
                each.close();
            }
        }
    }
}
