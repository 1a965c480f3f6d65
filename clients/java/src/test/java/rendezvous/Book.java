package rendezvous;

import com.google.gson.JsonObject;
import com.google.gson.JsonParser;
import java.io.DataInputStream;
import java.io.DataOutputStream;
import java.io.IOException;
import java.net.InetAddress;
import java.net.ServerSocket;
import java.net.Socket;
import java.nio.charset.StandardCharsets;
import java.util.ArrayList;
import java.util.HashMap;
import java.util.List;
import java.util.Map;

/** A small server that keeps one client's replies: each number has one, whatever is repeated or cancelled. */
final class Book implements AutoCloseable {
    private final ServerSocket listener;
    private final List<Socket> connections = new ArrayList<>();
    private final Map<Long, JsonObject> asked = new HashMap<>();
    private final Map<Long, JsonObject> replies = new HashMap<>();
    private final Map<Long, Integer> waits = new HashMap<>();

    Book() throws IOException {
        listener = new ServerSocket(0, 50, InetAddress.getLoopbackAddress());
        started(this::accepts);
    }

    private static void started(Runnable part) {
        Thread thread = new Thread(part);
        thread.setDaemon(true);
        thread.start();
    }

    int port() {
        return listener.getLocalPort();
    }

    /** The reply that stands under a number; null where there is none. */
    synchronized JsonObject reply(long number) {
        return replies.get(number);
    }

    /** How many numbers have a reply. */
    synchronized int count() {
        return replies.size();
    }

    private void accepts() {
        try {
            while (true) {
                Socket connection = listener.accept();
                synchronized (this) {
                    connections.add(connection);
                }
                started(() -> serves(connection));
            }
        } catch (IOException over) {
            // the book is closed
        }
    }

    private void serves(Socket connection) {
        try (connection; DataInputStream in = new DataInputStream(connection.getInputStream());
                DataOutputStream out = new DataOutputStream(connection.getOutputStream())) {
            connection.setTcpNoDelay(true);
            while (true) {
                byte[] body = in.readNBytes(in.readUnsignedShort());
                String text = new String(body, StandardCharsets.UTF_8);
                byte[] answer = Bodies.written(answer(JsonParser.parseString(text).getAsJsonObject()));
                out.writeShort(answer.length);
                out.write(answer);
                out.flush();
            }
        } catch (IOException over) {
            // the client closed it
        }
    }

    private synchronized JsonObject answer(JsonObject message) {
        if (Bodies.word(message, "kind").equals("hello")) {
            JsonObject welcome = message.deepCopy();
            welcome.addProperty("kind", "welcome");
            welcome.addProperty("epoch", 1);
            return welcome;
        }
        long number = Bodies.number(message, "number");
        if (replies.containsKey(number)) {
            return replies.get(number);
        }
        if (number > replies.size() + 1) {
            throw new IllegalStateException("a gap before number " + number);
        }
        return first(message, number);
    }

    /** The answer to a number that has no reply yet. What waits for ever waits three times. */
    private JsonObject first(JsonObject message, long number) {
        if (Bodies.word(message, "kind").equals("cancel")) {
            return settled(number, new Outcome.Cancelled(Bodies.keyOf(message)));
        }
        JsonObject before = asked.putIfAbsent(number, message);
        if (before != null && !before.equals(message)) {
            throw new IllegalStateException("two requests under number " + number);
        }
        if (Bodies.word(message, "wait").equals("forever") && waits.merge(number, 1, Integer::sum) < 4) {
            JsonObject waiting = Answers.keyed(Bodies.keyOf(message));
            waiting.addProperty("kind", "waiting");
            return waiting;
        }
        return settled(number, outcome(message, Bodies.keyOf(message)));
    }

    private static Outcome outcome(JsonObject message, Key key) {
        return switch (Bodies.word(message, "call")) {
            case "put" -> new Outcome.Done(key);
            case "transfer" -> new Receipt(key, java.util.Optional.of(new Key(1, 9, 9, key.number())));
            case "take" -> Calls.isTimed(message) ? new Outcome.TimedOut(key)
                : new Outcome.Item(key, "item " + key.number());
            default -> new Outcome.Counted(key, 1, 2);
        };
    }

    private JsonObject settled(long number, Outcome outcome) {
        replies.put(number, Answers.of(outcome));
        return replies.get(number);
    }

    @Override
    public void close() throws IOException {
        listener.close();
        synchronized (this) {
            for (Socket connection : connections) {
                connection.close();
            }
        }
    }
}
