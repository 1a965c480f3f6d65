package rendezvous;

import static org.junit.jupiter.api.Assertions.assertEquals;
import static org.junit.jupiter.api.Assertions.assertInstanceOf;
import static org.junit.jupiter.api.Assertions.assertTimeoutPreemptively;

import com.google.gson.JsonObject;
import com.google.gson.JsonParser;
import java.io.IOException;
import java.nio.charset.StandardCharsets;
import java.time.Duration;
import java.util.List;
import java.util.concurrent.TimeUnit;
import java.util.concurrent.atomic.AtomicBoolean;
import java.util.concurrent.atomic.AtomicInteger;
import java.util.stream.Stream;
import org.junit.jupiter.api.Test;
import org.junit.jupiter.api.Timeout;

/** A session by itself: its time before the welcome, and its close beside calls that begin. */
@Timeout(value = 2, unit = TimeUnit.MINUTES)
final class SessionTest {
    private static final int ROUNDS = 40;

    /** A connection without a network, at which all goes well, and which stays open between calls. */
    private static final class Kept implements Link {
        private final AtomicInteger open;
        private JsonObject said;
        private boolean closed;

        Kept(AtomicInteger open) {
            this.open = open;
            open.incrementAndGet();
        }

        @Override
        public void connect(long nanos) {}

        @Override
        public boolean isOver() {
            return false;
        }

        @Override
        public void send(byte[] body, long nanos) {
            said = JsonParser.parseString(new String(body, StandardCharsets.UTF_8)).getAsJsonObject();
        }

        @Override
        public byte[] hear(long nanos) {
            return Bodies.written(Bodies.word(said, "kind").equals("hello") ? Answering.welcome(said) : Answering.well(said));
        }

        /** A close says this once calls can't begin any more, and before it closes the connection: then others try to begin. */
        @Override
        public void wake() {
            try {
                Thread.sleep(1);
            } catch (InterruptedException never) {
                throw new IllegalStateException(never);
            }
        }

        @Override
        public void close() {
            if (!closed) {
                closed = true;
                open.decrementAndGet();
            }
        }
    }

    /** A server that has a greater incarnation, and is gone behind that word. */
    private static final class Gone implements Link {
        private final AtomicBoolean isGone;

        Gone(AtomicBoolean isGone) {
            this.isGone = isGone;
        }

        @Override
        public void connect(long nanos) throws IOException {
            if (isGone.get()) {
                throw new IOException("gone");
            }
        }

        @Override
        public boolean isOver() {
            return false;
        }

        @Override
        public void send(byte[] body, long nanos) throws IOException {
            connect(nanos);
        }

        @Override
        public byte[] hear(long nanos) {
            isGone.set(true);
            return "{\"code\":4,\"current\":9,\"kind\":\"refused\"}".getBytes(StandardCharsets.UTF_8);
        }

        @Override
        public void wake() {}

        @Override
        public void close() {}
    }

    private static JsonObject put() {
        return Calls.giving(Calls.at("put", "queue", 3), "a");
    }

    /** The call's patience is longer than this test waits. */
    @Test
    void aHelloThatIsSaidAnewIsNoWelcome() {
        AtomicBoolean isGone = new AtomicBoolean();
        RvSession session = new RvSession(isWoken -> new Gone(isGone), 5, 1, null, RvSession.ANSWER, 2);
        session.connectTime(TimeUnit.MILLISECONDS.toNanos(500));
        session.renews();
        Calling<Outcome> calling = Calling.of(() -> session.ask(put()));
        assertTimeoutPreemptively(Duration.ofMinutes(1), () -> assertInstanceOf(RvException.NotAsked.class, calling.thrown()));
    }

    /** Begins calls, none of which asks anything, until the session was closed. */
    private static Boolean tries(RvSession session, AtomicBoolean isClosed) throws InterruptedException {
        while (!isClosed.get()) {
            try {
                session.again();
            } catch (IllegalStateException refused) {
                // nothing is unsettled, or another thread's call runs, or the session was closed
                continue;
            }
        }
        return true;
    }

    @Test
    void nothingStaysOpenWhereCallsBeginAsItIsClosed() throws Exception {
        AtomicInteger open = new AtomicInteger();
        for (int round = 0; round < ROUNDS; round++) {
            RvSession session = new RvSession(isWoken -> new Kept(open), 5, 1, Duration.ofMinutes(1), RvSession.ANSWER, 2);
            session.ask(put());
            AtomicBoolean isClosed = new AtomicBoolean();
            List<Calling<Boolean>> others =
                Stream.generate(() -> Calling.of(() -> tries(session, isClosed))).limit(3).toList();
            session.close();
            isClosed.set(true);
            for (Calling<Boolean> each : others) {
                each.end();
            }
            assertEquals(0, open.get(), "connections that are open after close " + (round + 1));
        }
    }
}
