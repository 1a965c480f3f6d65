package rendezvous;

import com.google.gson.JsonElement;
import com.google.gson.JsonObject;
import java.time.Duration;
import java.util.Map;
import java.util.Objects;
import java.util.Set;
import java.util.concurrent.TimeUnit;

/** The calls of requests, a row each, and their members. */
final class Calls {
    /**
     * What a call is.
     *
     * @param replies the words of the replies that it may have
     * @param now and of those that it may have only where it does not wait
     * @param looks whether it changes nothing at the server
     */
    private record Row(Set<String> replies, Set<String> now, boolean looks) {
        /** A call that may change something. */
        Row(Set<String> replies, Set<String> now) {
            this(replies, now, false);
        }

        /** A call that may change something, and has the same replies however it waits. */
        Row(String... replies) {
            this(Set.of(replies), Set.of());
        }

        /** A call that only looks. */
        static Row looking(String... replies) {
            return new Row(Set.of(replies), Set.of(), true);
        }
    }

    private static final Map<String, Row> CALLS = Map.of(
        "put", new Row("done"),
        "transfer", new Row(Set.of("received"), Set.of("nobody")),
        "take", new Row(Set.of("item"), Set.of("empty")),
        "drain", new Row("drained"),
        "swap", new Row("swapped"),
        "count", Row.looking("counted"),
        "peek", Row.looking("peeked", "empty"));

    /**
     * A call, and how long it may last.
     *
     * @param call its members
     * @param own its own time in nanoseconds, {@link #FOR_EVER} where it has none
     * @param abort by which another thread may cancel it
     */
    record Job(JsonObject call, long own, Abort abort) {
        /** A call that no other thread cancels. */
        Job(JsonObject call, long own) {
            this(call, own, Abort.NEVER);
        }

        /** A call that has no time of its own. */
        Job(JsonObject call) {
            this(call, FOR_EVER);
        }

        /** The same, which another thread may cancel. */
        Job with(Abort other) {
            return new Job(call, own, other);
        }

        /** The same, of whose own time so many nanoseconds are over. */
        Job later(long nanos) {
            return own == FOR_EVER ? this : new Job(call, Math.max(0, own - nanos), abort);
        }

        /** Whether it waits longer than one request, which waits so many milliseconds at most; {@link #FOR_EVER} is no limit. */
        boolean isInPieces(long presence) {
            return presence < FOR_EVER && call.has("wait") && waits(call)
                && (!isTimed(call) || Bodies.number(call, "wait") > presence);
        }

        /**
         * What is asked next of it, with so many nanoseconds left: its members, or those of a piece of its wait. The last piece
         * has what is left.
         */
        JsonObject piece(long presence, long left) {
            if (!isInPieces(presence)) {
                return call;
            }
            JsonObject piece = call.deepCopy();
            piece.addProperty("wait", Math.min(presence, roundedUp(left)));
            return piece;
        }
    }

    static final long FOR_EVER = Long.MAX_VALUE;
    private static final long GREATEST_WAIT = TimeUnit.DAYS.toMillis(1);
    private static final int GREATEST_PLACE = 63;

    private Calls() {}

    /** A call at a queue or an exchanger. */
    static JsonObject at(String word, String kind, int place) {
        JsonObject call = new JsonObject();
        call.addProperty("call", word);
        call.addProperty(kind, place);
        return call;
    }

    /** A place's number, which is 0 to 63. */
    static int place(int number) {
        if (number < 0 || number > GREATEST_PLACE) {
            throw new IllegalArgumentException("queues and exchangers are 0 to " + GREATEST_PLACE + ": " + number);
        }
        return number;
    }

    /** A call that gives an item. */
    static JsonObject giving(JsonObject call, String item) {
        int length = Bodies.lengthOf(Objects.requireNonNull(item, "items are text"));
        if (length < 0) {
            throw new IllegalArgumentException("items are text: one with half of a pair of surrogates is none");
        }
        if (length > Bodies.GREATEST_ITEM) {
            throw new IllegalArgumentException("item above " + Bodies.GREATEST_ITEM + " bytes: " + length);
        }
        call.addProperty("item", item);
        return call;
    }

    /** A time in whole milliseconds, of so many nanoseconds, rounded up. */
    private static long roundedUp(long nanos) {
        long millis = TimeUnit.NANOSECONDS.toMillis(nanos);
        return TimeUnit.MILLISECONDS.toNanos(millis) < nanos ? millis + 1 : millis;
    }

    /** For how many milliseconds one request waits at most, rounded up: more than none, and a day at most. */
    static long presence(Duration time) {
        long millis = roundedUp(RvSession.nanos("presence", time));
        if (millis == 0 || millis > GREATEST_WAIT) {
            throw new IllegalArgumentException("a presence is above zero, and at most a day: " + time);
        }
        return millis;
    }

    /** A call that waits so: "now" or "forever". */
    static Job waiting(JsonObject call, String wait) {
        call.addProperty("wait", wait);
        return new Job(call);
    }

    /**
     * A call that waits for a time: in whole milliseconds, rounded up. Below zero it does not wait. A time above a day is
     * asked as a wait for ever, which the call's own time ends.
     */
    static Job waiting(JsonObject call, long time, TimeUnit unit) {
        Objects.requireNonNull(unit, "a time has a unit");
        long millis = unit.toMillis(Math.max(0, time));
        boolean rest = millis < Long.MAX_VALUE && time > unit.convert(millis, TimeUnit.MILLISECONDS);
        long wait = rest ? millis + 1 : millis;
        if (wait > GREATEST_WAIT) {
            call.addProperty("wait", "forever");
            return new Job(call, unit.toNanos(time));
        }
        call.addProperty("wait", wait);
        return new Job(call, TimeUnit.MILLISECONDS.toNanos(wait));
    }

    /** Whether a call may have a reply of this word. A wait for a time may time out, and each call may be cancelled. */
    static boolean mayHave(JsonObject call, String reply) {
        Row row = CALLS.get(Bodies.word(call, "call"));
        return row.replies().contains(reply) || reply.equals("cancelled") || reply.equals("timedout") && isTimed(call)
            || row.now().contains(reply) && Bodies.word(call, "wait").equals("now");
    }

    /** Whether a call changes nothing at the server: it only looks. */
    static boolean looks(JsonObject call) {
        return CALLS.get(Bodies.word(call, "call")).looks();
    }

    /** Whether a call waits for a time, which may be none. */
    static boolean isTimed(JsonObject call) {
        JsonElement wait = call.get("wait");
        return wait != null && wait.isJsonPrimitive() && wait.getAsJsonPrimitive().isNumber();
    }

    /** A call in short: its method and its place. */
    static String shown(JsonObject call) {
        boolean waits = call.has("wait") && waits(call) && !isTimed(call);
        String word = Bodies.word(call, "call");
        String method = switch (word) {
            case "take" -> waits ? "take" : "poll";
            case "transfer" -> waits ? "transfer" : "tryTransfer";
            case "drain" -> "drainTo";
            case "swap" -> "exchange";
            default -> word;
        };
        return method + "(" + call.get(call.has("queue") ? "queue" : "exchanger") + ")";
    }

    /** Whether a call waits at all. */
    static boolean waits(JsonObject call) {
        return isTimed(call) ? Bodies.number(call, "wait") > 0 : Bodies.word(call, "wait").equals("forever");
    }
}
