package rendezvous;

import java.nio.charset.StandardCharsets;
import java.util.Map;

/** What ends a call without a result. {@link #key()} names its request; it is null where nothing but the hello was said. */
public abstract sealed class RvException extends RuntimeException {
    private static final long serialVersionUID = 2;
    private final Key key;

    RvException(Key key, String words) {
        super(key == null ? words : words + " (request " + key + ")");
        this.key = key;
    }

    /** The request's key, or null. */
    public Key key() {
        return key;
    }

    /**
     * The request was sent, and nothing final was heard in time. Whether it was met is not known; {@link RvSession#again()}
     * asks it again, and {@link RvSession#giveUp()} cancels it.
     */
    public static final class Unsettled extends RvException {
        private static final long serialVersionUID = 2;
        private final boolean accepted;

        Unsettled(Key key, boolean accepted, String words) {
            super(key, (accepted ? "accepted, and never answered: " : "asked, and never answered: ") + words);
            this.accepted = accepted;
        }

        /** Whether the server said that the request waits. */
        public boolean accepted() {
            return accepted;
        }
    }

    /**
     * Nothing was asked that anybody met, nor will be. The request was never sent, and the session goes on: {@link #current()}
     * is 0. Or the server was started anew before any copy of the request came to it, and refused each: {@link #current()} is
     * its epoch, and the session has ended.
     */
    public static final class NotAsked extends RvException {
        private static final long serialVersionUID = 3;
        private final long current;

        NotAsked(String words) {
            super(null, "nothing was sent: " + words);
            current = 0;
        }

        NotAsked(Key key, long current) {
            super(key, "nothing was asked: the server was started anew before the request came, and is of epoch " + current);
            this.current = current;
        }

        /** The epoch in which the server was started anew; 0 where the request was never sent. */
        public long current() {
            return current;
        }
    }

    /** The server has no room. The request is certainly not in the queue; its number is used again, so the session goes on. */
    public static final class Full extends RvException {
        private static final long serialVersionUID = 2;

        Full(Key key) {
            super(key, "the server has no room, and nothing is in the queue");
        }
    }

    /**
     * The request has its reply, which could not be written into the record that the clients keep; the cause says why not.
     * {@link #outcome()} is the reply, and nothing else gives what it gives. The session goes on: its next call is asked, and
     * recorded, as if nothing had been.
     */
    public static final class NotRecorded extends RvException {
        private static final long serialVersionUID = 3;
        private final Outcome outcome;
        private final String line;

        NotRecorded(Outcome outcome, byte[] line, RecordFile file, Exception cause) {
            super(outcome.key(), "a reply is not in the record " + file + ": " + cause + ": " + outcome);
            this.outcome = outcome;
            this.line = new String(line, 0, line.length - 1, StandardCharsets.UTF_8);
            initCause(cause);
        }

        /** The reply. */
        public Outcome outcome() {
            return outcome;
        }

        /** The line that was to be written, without the LF at its end. */
        public String line() {
            return line;
        }
    }

    /**
     * The server was started anew, or lost what it had. Whether the request was met is not known; where it is certain that it
     * was not, this is {@link NotAsked}. The session has ended.
     */
    public static final class EpochEnded extends RvException {
        private static final long serialVersionUID = 2;
        private final long current;

        EpochEnded(Key key, long current) {
            super(key, key != null && key.epoch() == current ? "the server was started anew in the same epoch " + current
                : "the epoch ended, the server is of epoch " + current);
            this.current = current;
        }

        /** The server's epoch, which may be the request's. */
        public long current() {
            return current;
        }
    }

    /** A newer process has this client number. This one has to stop. The session has ended. */
    public static final class Replaced extends RvException {
        private static final long serialVersionUID = 2;
        private final long current;

        Replaced(Key key, long current) {
            super(key, "replaced by incarnation " + current);
            this.current = current;
        }

        /** The incarnation of the newer process. */
        public long current() {
            return current;
        }
    }

    /** The server refused, for a reason that a repeat would not change. */
    public static final class Refused extends RvException {
        private static final long serialVersionUID = 2;
        private static final Map<Integer, String> NAMES = Map.ofEntries(
            Map.entry(1, "bad text"), Map.entry(2, "other epoch"), Map.entry(3, "no session"),
            Map.entry(4, "old incarnation"), Map.entry(5, "old number"), Map.entry(6, "other call"),
            Map.entry(7, "busy"), Map.entry(8, "gap"), Map.entry(9, "clients full"), Map.entry(10, "epoch full"),
            Map.entry(11, "no memory"), Map.entry(12, "other version"));
        private final int number;
        private final int current;

        Refused(Key key, int number, Long current, int version) {
            super(key, words(number) + why(key, number, current, version));
            this.number = number;
            this.current = current == null ? 0 : current.intValue();
        }

        /** A refusal in words. */
        static String words(int number) {
            return "refused " + number + ", " + NAMES.get(number);
        }

        /** What a refusal means for a session of this version. */
        private static String why(Key key, int number, Long current, int version) {
            return switch (number) {
                case 1 -> key == null && version > 1 ? ": a server that knows version 1 alone refuses this hello" : "";
                case 5, 6, 7 -> ": another process uses this client and incarnation";
                case 12 -> ": the client's session in this incarnation speaks " + current;
                default -> "";
            };
        }

        /** The refusal's number. */
        public int number() {
            return number;
        }

        /** The refusal's name. */
        public String refusal() {
            return NAMES.get(number);
        }

        /** The version that the session speaks, where that was refused (12); and else 0. */
        public int current() {
            return current;
        }
    }
}
