package rendezvous;

import static org.junit.jupiter.api.Assertions.assertEquals;
import static org.junit.jupiter.api.Assertions.assertFalse;
import static org.junit.jupiter.api.Assertions.assertInstanceOf;
import static org.junit.jupiter.api.Assertions.assertThrows;
import static org.junit.jupiter.api.Assertions.assertTrue;

import com.google.gson.JsonObject;
import java.io.IOException;
import java.time.Duration;
import java.util.ArrayList;
import java.util.Collections;
import java.util.List;
import java.util.concurrent.TimeUnit;
import java.util.function.BooleanSupplier;
import org.junit.jupiter.api.Test;
import org.junit.jupiter.api.Timeout;
import org.junit.jupiter.api.function.Executable;

/** Several addresses of one server, which a session tries in turn. */
@Timeout(value = 2, unit = TimeUnit.MINUTES)
final class ServersTest {
    /** A pause that no test awaits. */
    private static final Retry DAYS = new Retry(Duration.ofDays(1), Duration.ofDays(1), Duration.ofDays(9));
    private final List<String> seen = Collections.synchronizedList(new ArrayList<>());

    /** An address without a network: what is done there is seen, and then answered by a script. */
    private final class Place implements Link.Maker {
        private final String name;
        private final ScriptedLink.Script script;

        Place(String name, ScriptedLink.Script script) {
            this.name = name;
            this.script = script;
        }

        @Override
        public Link make(BooleanSupplier isWoken) throws IOException {
            return ScriptedLink.of(new ScriptedLink.Script() {
                @Override
                public void connects() throws IOException {
                    seen.add(name);
                    script.connects();
                }

                @Override
                public JsonObject answer(JsonObject message) throws IOException {
                    seen.add(name + " " + Bodies.word(message, "kind") + " " + Bodies.number(message, "number"));
                    return script.answer(message);
                }
            }).make(isWoken);
        }

        @Override
        public String toString() {
            return name;
        }
    }

    /** One where no connection can be made. */
    private Place away(String name) {
        return away(name, () -> { });
    }

    /** One where no connection can be made, and this happens meanwhile. */
    private Place away(String name, Runnable meanwhile) {
        return new Place(name, new ScriptedLink.Script() {
            @Override
            public void connects() throws IOException {
                meanwhile.run();
                throw new Link.NotConnected(name + ": connection refused", null);
            }

            @Override
            public JsonObject answer(JsonObject message) {
                throw new IllegalStateException("nothing is connected");
            }
        });
    }

    /** One that loses each connection on which something is asked. */
    private Place lossy(String name) {
        return new Place(name, message -> {
            throw new IOException("the connection ended");
        });
    }

    private Place well(String name) {
        return new Place(name, Answering::well);
    }

    private static RvSession session(Link.Maker... places) {
        RvSession session = new RvSession(new Servers(List.of(places)), 5, 1, null, RvSession.ANSWER, 2);
        session.retry(DAYS);
        return session;
    }

    private static JsonObject put() {
        return Calls.giving(Calls.at("put", "queue", 3), "a");
    }

    @Test
    void theNextOneIsTriedAtOnceWhereNoConnectionCanBeMade() {
        assertInstanceOf(Outcome.Done.class, session(away("a"), away("b"), well("c")).ask(put()));
        assertEquals(List.of("a", "b", "c", "c request 1"), seen);
    }

    @Test
    void aLostConnectionGoesToTheNextOneAtOnceWithTheSameRequest() {
        assertEquals(new Key(1, 5, 1, 1), session(lossy("a"), well("b")).ask(put()).key());
        assertEquals(List.of("a", "a request 1", "b", "b request 1"), seen);
    }

    @Test
    void anAnswerOfALowerEpochGoesToTheNextOneToo() {
        Place stale = new Place("a", message -> {
            JsonObject refusal = new JsonObject();
            refusal.addProperty("kind", "refused");
            refusal.addProperty("code", 2);
            refusal.addProperty("current", 1);
            return refusal;
        });
        assertInstanceOf(Outcome.Done.class, session(stale, well("b")).ask(put()));
        assertEquals(List.of("a", "a request 1", "b", "b request 1"), seen);
    }

    /** While it pauses it has tried each as often as the others, and in turn. */
    @Test
    void aRoundThatReachedNoneEndsInAPause() throws Exception {
        RvSession session = session(away("a"), away("b"));
        Calling<Outcome> calling = Calling.of(() -> session.ask(put()));
        calling.isWithin("pause");
        List<String> tried = List.copyOf(seen);
        session.close();
        assertEquals("nothing was sent: the session was closed", calling.thrown().getMessage());
        assertFalse(tried.isEmpty());
        assertEquals(Collections.nCopies(tried.size() / 2, List.of("a", "b")).stream().flatMap(List::stream).toList(), tried);
    }

    @Test
    void aRoundBeginsAnewWhereSomethingWasHeardThatLeadsOn() {
        int[] asked = {0};
        // each says once that the request waits, and then loses its connection; the ninth time there is an item
        ScriptedLink.Script waits = message -> {
            asked[0]++;
            if (asked[0] % 2 == 0) {
                throw new IOException("the connection ended");
            }
            JsonObject waiting = Answers.keyed(Bodies.keyOf(message));
            waiting.addProperty("kind", "waiting");
            return asked[0] == 9 ? Answers.of(new Outcome.Item(Bodies.keyOf(message), "x")) : waiting;
        };
        RvSession session = session(new Place("a", waits), new Place("b", waits));
        JsonObject take = Calls.waiting(Calls.at("take", "queue", 3), "forever").call();
        assertEquals(new Outcome.Item(new Key(1, 5, 1, 1), "x"), session.ask(take));
        assertEquals(List.of("a", "b", "a", "b", "a"), seen.stream().filter(each -> each.length() == 1).toList());
    }

    @Test
    void whatEndsACallTellsWhatFailedLastAtEach() {
        Abort abort = new Abort();
        RvSession session = session(away("a"), away("b", abort::ask));
        Executable asks = () -> session.ask(new Calls.Job(put()).with(abort), true);
        assertEquals("nothing was sent: a: connection refused; b: connection refused",
            assertThrows(RvException.NotAsked.class, asks).getMessage());
    }

    @Test
    void eachHasItsPartOfTheTime() {
        Servers.Turns turns = new Servers(List.of(away("a"), away("b"), away("c"))).turns();
        assertEquals(30, turns.part(90));
        assertFalse(turns.endsRound());
        assertEquals(45, turns.part(90));
        assertFalse(turns.endsRound());
        assertEquals(90, turns.part(90));
        assertTrue(turns.endsRound());
        assertEquals(30, turns.part(90));
        assertFalse(turns.endsRound());
        turns.newRound();
        assertEquals(30, turns.part(90));
    }

    @Test
    void aNewSessionBeginsWithTheOneThatWasReachedLast() {
        Servers servers = new Servers(List.of(away("a"), well("b"), away("c")));
        assertEquals("a", servers.turns().name());
        new RvSession(servers, 5, 1, null, RvSession.ANSWER, 2).ask(put());
        assertEquals("b", servers.turns().name());
    }

    @Test
    void aServerIsFoundByTheSecondOfItsAddresses() throws Exception {
        long client = OwnNumbers.first();
        try (Answering server = new Answering(Answering::well); RvClients clients =
                RvClients.builder("127.0.0.1:1,127.0.0.1:" + server.port()).clients(client, client).retry(DAYS).build()) {
            new RvTransferQueue(clients, 3).put("a");
            assertEquals(1, server.asked().size());
        }
    }
}
