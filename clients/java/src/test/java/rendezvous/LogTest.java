package rendezvous;

import static org.junit.jupiter.api.Assertions.assertEquals;
import static org.junit.jupiter.api.Assertions.assertInstanceOf;
import static org.junit.jupiter.api.Assertions.assertTrue;

import com.google.gson.JsonObject;
import java.io.IOException;
import java.time.Duration;
import java.util.ArrayDeque;
import java.util.ArrayList;
import java.util.Collections;
import java.util.Deque;
import java.util.List;
import java.util.concurrent.TimeUnit;
import java.util.function.BooleanSupplier;
import java.util.logging.Handler;
import java.util.logging.Level;
import java.util.logging.LogRecord;
import java.util.logging.Logger;
import java.util.logging.StreamHandler;
import org.junit.jupiter.api.AfterEach;
import org.junit.jupiter.api.BeforeEach;
import org.junit.jupiter.api.Test;
import org.junit.jupiter.api.Timeout;

/** What sessions log, each at a scripted server that no other test has. */
@Timeout(value = 2, unit = TimeUnit.MINUTES)
final class LogTest {
    private static final Logger LOG = Logger.getLogger("rendezvous");
    private static final String ITEM = "an item that nobody may see";
    private static final RuntimeException BROKEN = new IllegalStateException("the program's own handler is broken");
    private final List<LogRecord> logged = Collections.synchronizedList(new ArrayList<>());
    /** What the server does with what comes next. */
    private final Deque<ScriptedLink.Script> deeds = new ArrayDeque<>();
    private final Handler handler = new Handler() {
        @Override
        public void publish(LogRecord record) {
            logged.add(record);
        }

        @Override
        public void flush() {
            // nothing is held back
        }

        @Override
        public void close() {
            // nothing is held
        }
    };

    /** What answers by the next deed. It is shown as the server's name. */
    private final class Server implements ScriptedLink.Script, Link.Maker {
        private final String name;
        private final boolean isThere;

        Server(String name, boolean isThere) {
            this.name = name;
            this.isThere = isThere;
        }

        @Override
        public Link make(BooleanSupplier isWoken) throws IOException {
            return ScriptedLink.of(this).make(isWoken);
        }

        @Override
        public void connects() throws IOException {
            if (!isThere) {
                throw new Link.NotConnected(name + ": connection refused", null);
            }
        }

        @Override
        public JsonObject answer(JsonObject message) throws IOException {
            return deeds.remove().answer(message);
        }

        @Override
        public String toString() {
            return name;
        }
    }

    @BeforeEach
    void isHeard() {
        LOG.setLevel(Level.ALL);
        LOG.addHandler(handler);
    }

    @AfterEach
    void isHeardNoMore() {
        LOG.removeHandler(handler);
        LOG.setLevel(null);
    }

    private RvSession session(boolean... isThere) {
        List<Server> servers = new ArrayList<>();
        for (boolean each : isThere) {
            servers.add(new Server("logged-" + (servers.size() + 1), each));
        }
        RvSession session = new RvSession(new Servers(servers), 5, 1, null, RvSession.ANSWER, 2);
        // each pause is shorter than a millisecond
        session.retry(new Retry(Duration.ofNanos(1), Duration.ofNanos(1), Duration.ofDays(1)));
        return session;
    }

    private static JsonObject put() {
        return Calls.giving(Calls.at("put", "queue", 3), ITEM);
    }

    /** The lines of the servers here, each after its level. */
    private List<String> lines() {
        return List.copyOf(logged).stream().filter(record -> record.getMessage().startsWith("logged-"))
            .map(record -> record.getLevel() + " " + record.getMessage()).toList();
    }

    private static JsonObject lost(JsonObject message) throws IOException {
        throw new IOException("the connection ended");
    }

    private static ScriptedLink.Script refusal(int code, long current) {
        return message -> {
            JsonObject refusal = new JsonObject();
            refusal.addProperty("kind", "refused");
            refusal.addProperty("code", code);
            if (current > 0) {
                refusal.addProperty("current", current);
            }
            return refusal;
        };
    }

    /** That a server is not reached is logged once, until one leads on. */
    @Test
    void connectionsAreLoggedAndTries() {
        deeds.addAll(List.of(LogTest::lost, LogTest::lost, Answering::well));
        assertInstanceOf(Outcome.Done.class, session(false, true).ask(put()));
        assertEquals(List.of("FINE logged-1: connection refused", "FINE logged-2: connected",
            "FINE logged-2: lost: the connection ended", "FINE logged-1: connection refused",
            "FINER logged-2: tried again in 0 ms", "FINE logged-2: connected", "FINE logged-2: lost: the connection ended",
            "FINER logged-2: tried again in 0 ms", "FINE logged-2: connected"), lines());
    }

    @Test
    void refusalsAreLogged() {
        deeds.addAll(List.of(refusal(10, 0), Answering::well));
        session(true).ask(put());
        assertEquals(List.of("FINE logged-1: connected", "FINE logged-1: refused 10, epoch full",
            "FINER logged-1: tried again in 0 ms", "FINE logged-1: lost: closed meanwhile", "FINE logged-1: connected"),
            lines());
    }

    @Test
    void theEndOfAnEpochIsLoggedAndWhatIsNotKnownThen() throws Exception {
        deeds.addAll(List.of(LogTest::lost, refusal(2, 9)));
        RvSession session = session(true);
        assertInstanceOf(RvException.EpochEnded.class, Calling.of(() -> session.ask(put())).thrown());
        assertEquals(List.of("FINE logged-1: connected", "FINE logged-1: lost: the connection ended",
            "FINER logged-1: tried again in 0 ms", "FINE logged-1: connected", "FINE logged-1: refused 2, other epoch",
            "FINE logged-1: the epoch ended, the server is of epoch 9", "FINE logged-1: request 1/5/1/1: outcome not known"),
            lines());
    }

    @Test
    void anEpochThatEndedBeforeAnythingWasMetIsLoggedAlone() throws Exception {
        deeds.add(refusal(2, 9));
        RvSession session = session(true);
        assertInstanceOf(RvException.NotAsked.class, Calling.of(() -> session.ask(put())).thrown());
        assertEquals("FINE logged-1: the epoch ended, the server is of epoch 9", lines().get(lines().size() - 1));
    }

    @Test
    void whatIsNotKnownIsLogged() throws Exception {
        RvSession session = session(true);
        deeds.add(message -> {
            session.close();
            throw new IOException("the connection ended");
        });
        assertInstanceOf(RvException.Unsettled.class, Calling.of(() -> session.ask(put())).thrown());
        assertEquals("FINE logged-1: request 1/5/1/1: outcome not known", lines().get(lines().size() - 1));
    }

    @Test
    void nobodySeesAnyOfItByDefaultNorAnItem() throws Exception {
        deeds.addAll(List.of(LogTest::lost, refusal(10, 0), refusal(1, 0)));
        RvSession session = session(false, true);
        assertInstanceOf(RvException.Refused.class, Calling.of(() -> session.ask(put())).thrown());
        assertTrue(lines().size() > 5, lines()::toString);
        for (LogRecord each : List.copyOf(logged)) {
            assertTrue(each.getLevel().intValue() < Level.CONFIG.intValue(), each::getMessage);
            assertTrue(!each.getMessage().contains(ITEM), each::getMessage);
        }
    }

    @Test
    void aHandlerThatThrowsEndsNoCall() {
        Handler broken = new StreamHandler() {
            @Override
            public void publish(LogRecord record) {
                throw BROKEN;
            }
        };
        LOG.addHandler(broken);
        try {
            deeds.addAll(List.of(LogTest::lost, Answering::well));
            assertInstanceOf(Outcome.Done.class, session(false, true).ask(put()));
        } finally {
            LOG.removeHandler(broken);
        }
    }
}
