package rendezvous;

import com.google.gson.JsonObject;
import rendezvous.Event.Plain;

/**
 * What a client is, as a value, and what each event makes of it: no socket, no clock, nothing that changes.
 *
 * @param client the client's number
 * @param incarnation the incarnation's number
 * @param version what the session speaks, 1 or 2
 * @param state whether it has a session, and a request
 * @param key the next request's where it is idle, null where all numbers are used up; the request's where it is outstanding
 * @param call the members of the call that is asked, or that waits for the welcome; or null
 * @param givingUp the request is to be cancelled
 * @param sent a copy of the request was sent
 * @param out how many copies of the request and of its cancel were sent, and have no answer
 * @param accepted the server said that this request waits
 * @param full the last answer to the hello, the request or its cancel was that there is no room
 * @param doubtful a copy of the request may have come to a server of its epoch, which took it: one was lost with its
 *     connection, waits, or found no memory
 * @param flying what was said last on this connection, and has no answer yet
 */
record Machine(long client, long incarnation, int version, State state, Key key, JsonObject call, boolean givingUp,
        boolean sent, int out, boolean accepted, boolean full, boolean doubtful, Flying flying) {
    /** What a client has. */
    enum State { NEW, IDLE, OUTSTANDING, ENDED }

    /** What awaits an answer. */
    enum Flying { NOTHING, HELLO, REQUEST, CANCEL }

    /** A client that has said nothing yet. */
    static Machine started(long client, long incarnation, int version) {
        return new Machine(client, incarnation, version, State.NEW, null, null, false, false, 0, false, false, false,
            Flying.NOTHING);
    }

    /** What an event makes of it. What may not happen to it now is an {@link IllegalStateException}. */
    Step step(Event event) {
        if (event instanceof Event.Ask ask) {
            return asked(ask.call().deepCopy());
        }
        if (event instanceof Event.Hear hear) {
            return heard(hear.answer());
        }
        return switch ((Plain) event) {
            case SPEAK -> spoken();
            case LOSE -> Step.silent(lost());
            case GIVE_UP -> givenUp();
            case EXPIRE -> expired();
        };
    }

    private Step asked(JsonObject next) {
        if (state == State.ENDED) {
            throw new IllegalStateException("the session has ended: start another");
        }
        if (call != null) {
            throw new IllegalStateException("a request is unsettled: ask it again, or give it up");
        }
        if (state == State.IDLE && key == null) {
            throw new IllegalStateException("all numbers are used up: start another session");
        }
        Draft draft = new Draft(this);
        if (state == State.IDLE) {
            draft.fresh(State.OUTSTANDING);
        }
        draft.call = next;
        draft.full = false;
        draft.givingUp = false;
        return Step.silent(draft.made());
    }

    private Step spoken() {
        if (flying != Flying.NOTHING) {
            throw new IllegalStateException("an answer is awaited on this connection");
        }
        if (state == State.NEW) {
            Draft draft = new Draft(this);
            draft.flying = Flying.HELLO;
            return new Step(draft.made(), hello(), null, false);
        }
        return state == State.OUTSTANDING ? saying(new Draft(this)) : Step.silent(this);
    }

    /** One more copy of the request is said, or of its cancel. */
    private static Step saying(Draft draft) {
        draft.out++;
        draft.sent |= !draft.givingUp;
        draft.flying = draft.givingUp ? Flying.CANCEL : Flying.REQUEST;
        Machine made = draft.made();
        return new Step(made, draft.givingUp ? made.keyed("cancel") : made.request(), null, false);
    }

    /** The connection is gone: what became of a request that flew there is not known. */
    private Machine lost() {
        Draft draft = new Draft(this);
        draft.doubtful |= flying == Flying.REQUEST;
        draft.flying = Flying.NOTHING;
        return draft.made();
    }

    private Step givenUp() {
        if (state == State.NEW) {
            return Step.telling(withoutCall(), new Told.NotAsked());
        }
        if (state != State.OUTSTANDING) {
            return Step.silent(this);
        }
        if (isNowhere()) {
            return nowhere();
        }
        Draft draft = new Draft(this);
        draft.givingUp = true;
        return Step.silent(draft.made());
    }

    private Step expired() {
        if (state == State.NEW) {
            return Step.telling(withoutCall(), full ? new Told.Full(null) : new Told.NotAsked());
        }
        if (state != State.OUTSTANDING) {
            return Step.silent(this);
        }
        return isNowhere() ? nowhere() : Step.telling(this, new Told.Unsettled(key, accepted));
    }

    private Machine withoutCall() {
        Draft draft = new Draft(this);
        draft.call = null;
        return draft.made();
    }

    /** Whether the outstanding request certainly is not in the server's book, nor on its way there. */
    private boolean isNowhere() {
        return !sent || full && out == 0;
    }

    private Step nowhere() {
        Draft draft = new Draft(this);
        draft.fresh(State.IDLE);
        return Step.telling(draft.made(), sent ? new Told.Full(key) : new Told.NotAsked());
    }

    private Step heard(JsonObject answer) {
        if (flying == Flying.NOTHING || state == State.IDLE || state == State.ENDED) {
            return fault();
        }
        return state == State.NEW ? greeted(answer) : answered(answer);
    }

    /** An answer that may not come here: the connection is out of step. */
    private Step fault() {
        return new Step(lost(), null, null, true);
    }

    private Step greeted(JsonObject answer) {
        String kind = Bodies.word(answer, "kind");
        if (kind.equals("welcome") && isOwn(answer)) {
            return welcomed(new Key(Bodies.number(answer, "epoch"), client, incarnation, 1));
        }
        return kind.equals("refused") ? helloRefused(answer) : fault();
    }

    /** Whether a welcome is of its client, its incarnation and its version. */
    private boolean isOwn(JsonObject welcome) {
        long named = welcome.has("version") ? Bodies.number(welcome, "version") : 1;
        return Bodies.number(welcome, "client") == client && Bodies.number(welcome, "incarnation") == incarnation
            && named == version;
    }

    private Step welcomed(Key first) {
        Draft draft = new Draft(this);
        draft.fresh(call == null ? State.IDLE : State.OUTSTANDING);
        draft.key = first;
        draft.call = call;
        draft.flying = Flying.NOTHING;
        return call == null ? Step.telling(draft.made(), new Told.Welcomed()) : saying(draft);
    }

    private Step helloRefused(JsonObject refusal) {
        int code = (int) Bodies.number(refusal, "code");
        Long current = refusal.has("current") ? (Long) Bodies.number(refusal, "current") : null;
        if (code == 4 && current > incarnation) {
            return ended(new Told.Replaced(null, current));
        }
        if (code == 1 || code == 9 || code == 12 && current != version) {
            return new Step(lost().withoutCall(), null, new Told.Refused(null, code, current), true);
        }
        if (code != 10 && code != 11) {
            return fault();
        }
        Draft draft = new Draft(this);
        draft.full = code == 10;
        draft.flying = Flying.NOTHING;
        return Step.silent(draft.made());
    }

    private Step answered(JsonObject answer) {
        String kind = Bodies.word(answer, "kind");
        if (kind.equals("refused")) {
            return refused(answer);
        }
        boolean own = !kind.equals("welcome") && Bodies.keyOf(answer).equals(key);
        if (own && kind.equals("reply") && Replies.canHave(call, version, answer)) {
            return settled(Replies.outcomeOf(answer));
        }
        return own && kind.equals("waiting") && flying == Flying.REQUEST && Calls.waits(call) ? waiting() : fault();
    }

    private Step settled(Outcome outcome) {
        Draft draft = new Draft(this);
        draft.fresh(State.IDLE);
        draft.key = key.next();
        draft.flying = Flying.NOTHING;
        return Step.telling(draft.made(), new Told.Settled(outcome));
    }

    /** The server has the request, which waits: it is asked once more, or given up. */
    private Step waiting() {
        Draft draft = new Draft(this);
        draft.accepted = true;
        draft.full = false;
        draft.doubtful = true;
        draft.out--;
        return saying(draft);
    }

    private Step refused(JsonObject refusal) {
        return switch ((int) Bodies.number(refusal, "code")) {
            case 1 -> flying == Flying.REQUEST && !accepted ? badText() : fault();
            case 2 -> above(refusal, "current", key.epoch())
                ? ended(new Told.EpochEnded(key, Bodies.number(refusal, "current"), !doubtful)) : fault();
            case 3 -> ended(new Told.EpochEnded(key, key.epoch(), false));
            case 4 -> above(refusal, "current", incarnation)
                ? ended(new Told.Replaced(key, Bodies.number(refusal, "current"))) : fault();
            case 5 -> above(refusal, "last", key.number()) ? usedByAnother(5) : fault();
            case 6 -> flying == Flying.REQUEST ? usedByAnother(6) : fault();
            case 7 -> Bodies.number(refusal, "open") < key.number() ? usedByAnother(7) : fault();
            case 8 -> Bodies.number(refusal, "last") < key.number() - 1
                ? ended(new Told.EpochEnded(key, key.epoch(), false)) : fault();
            case 10 -> accepted ? fault() : noRoom();
            case 11 -> noMemory();
            default -> fault();
        };
    }

    private static boolean above(JsonObject refusal, String name, long least) {
        return Bodies.number(refusal, name) > least;
    }

    /** Another process uses this client and incarnation. */
    private Step usedByAnother(int code) {
        return ended(new Told.Refused(key, code, null));
    }

    private Step badText() {
        Draft draft = new Draft(this);
        draft.out--;
        if (draft.out == 0) {
            draft.fresh(State.IDLE);
        }
        draft.flying = Flying.NOTHING;
        return Step.telling(draft.made(), new Told.Refused(key, 1, null));
    }

    private Step noRoom() {
        Draft draft = new Draft(this);
        draft.out--;
        draft.full = true;
        draft.doubtful &= draft.out > 0;
        draft.flying = Flying.NOTHING;
        if (!givingUp || draft.out > 0) {
            return Step.silent(draft.made());
        }
        draft.fresh(State.IDLE);
        return Step.telling(draft.made(), new Told.Full(key));
    }

    private Step noMemory() {
        Draft draft = new Draft(this);
        draft.out--;
        draft.full = false;
        draft.doubtful |= flying == Flying.REQUEST;
        draft.flying = Flying.NOTHING;
        return Step.silent(draft.made());
    }

    private Step ended(Told told) {
        Draft draft = new Draft(this);
        draft.fresh(State.ENDED);
        draft.key = null;
        draft.flying = Flying.NOTHING;
        return new Step(draft.made(), null, told, true);
    }

    /** The message of a client that has no session yet. It names a version above the first. */
    private JsonObject hello() {
        JsonObject message = new JsonObject();
        message.addProperty("client", client);
        message.addProperty("incarnation", incarnation);
        message.addProperty("kind", "hello");
        if (version > 1) {
            message.addProperty("version", version);
        }
        return message;
    }

    /** The message that asks the outstanding request, the same each time. */
    private JsonObject request() {
        JsonObject message = keyed("request");
        call.entrySet().forEach(member -> message.add(member.getKey(), member.getValue()));
        return message;
    }

    private JsonObject keyed(String kind) {
        JsonObject message = new JsonObject();
        message.addProperty("client", key.client());
        message.addProperty("epoch", key.epoch());
        message.addProperty("incarnation", key.incarnation());
        message.addProperty("kind", kind);
        message.addProperty("number", key.number());
        return message;
    }

    /** A machine's fields on their way to the next machine's. */
    private static final class Draft {
        private final Machine before;
        private State state;
        private Key key;
        private JsonObject call;
        private boolean givingUp;
        private boolean sent;
        private int out;
        private boolean accepted;
        private boolean full;
        private boolean doubtful;
        private Flying flying;

        Draft(Machine before) {
            this.before = before;
            state = before.state;
            key = before.key;
            call = before.call;
            givingUp = before.givingUp;
            sent = before.sent;
            out = before.out;
            accepted = before.accepted;
            full = before.full;
            doubtful = before.doubtful;
            flying = before.flying;
        }

        /** Goes to a state with no call, of which nothing was sent and nothing is known. */
        void fresh(State next) {
            state = next;
            call = null;
            givingUp = false;
            sent = false;
            out = 0;
            accepted = false;
            full = false;
            doubtful = false;
        }

        Machine made() {
            return new Machine(before.client, before.incarnation, before.version, state, key, call, givingUp, sent, out,
                accepted, full, doubtful, flying);
        }
    }
}
