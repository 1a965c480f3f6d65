package rendezvous;

import com.google.gson.JsonObject;
import java.util.ArrayList;
import java.util.List;
import java.util.Map;
import java.util.Optional;
import java.util.function.BiFunction;
import java.util.function.Function;

/** The replies, a row each, and which of them a call can have. */
final class Replies {
    /**
     * What a reply is.
     *
     * @param members the names of what it tells beside the request's key
     * @param outcome what it tells, of that key and its members
     */
    private record Row(List<String> members, BiFunction<Key, JsonObject, Outcome> outcome) {
        /** A reply that tells nothing but its word. */
        Row(Function<Key, Outcome> outcome) {
            this(List.of(), (key, reply) -> outcome.apply(key));
        }

        /** A reply that tells an item. */
        static Row ofItem(BiFunction<Key, String, Outcome> outcome) {
            return new Row(List.of("item"), (key, reply) -> outcome.apply(key, Bodies.word(reply, "item")));
        }
    }

    private static final Map<String, Row> REPLIES = Map.ofEntries(
        Map.entry("done", new Row(Outcome.Done::new)),
        Map.entry("received", new Row(List.of(), (key, reply) -> new Receipt(key, consumerOf(reply)))),
        Map.entry("nobody", new Row(Outcome.Nobody::new)),
        Map.entry("item", Row.ofItem(Outcome.Item::new)),
        Map.entry("empty", new Row(Outcome.Empty::new)),
        Map.entry("swapped", Row.ofItem(Outcome.Swapped::new)),
        Map.entry("timedout", new Row(Outcome.TimedOut::new)),
        Map.entry("cancelled", new Row(Outcome.Cancelled::new)),
        Map.entry("counted", new Row(List.of("consumers", "items"), (key, reply) -> new Outcome.Counted(key,
            (int) Bodies.number(reply, "items"), (int) Bodies.number(reply, "consumers")))),
        Map.entry("peeked", Row.ofItem(Outcome.Peeked::new)),
        Map.entry("drained", new Row(List.of("texts"), (key, reply) -> new Outcome.Drained(key, textsOf(reply)))));

    private Replies() {}

    /** The names of what a reply of this word tells; null where there is none. */
    static List<String> membersOf(String word) {
        Row row = REPLIES.get(word);
        return row == null ? null : row.members();
    }

    /** What a reply tells. */
    static Outcome outcomeOf(JsonObject reply) {
        return REPLIES.get(Bodies.word(reply, "reply")).outcome().apply(Bodies.keyOf(reply), reply);
    }

    /** Whether a call can have this reply, in a session of this version. */
    static boolean canHave(JsonObject call, int version, JsonObject answer) {
        String reply = Bodies.word(answer, "reply");
        return Calls.mayHave(call, reply) && switch (reply) {
            case "received" -> namesConsumer(answer) == (version == 2);
            case "drained" -> answer.getAsJsonArray("texts").size() <= Bodies.number(call, "max");
            default -> true;
        };
    }

    private static boolean namesConsumer(JsonObject reply) {
        return reply.has(Bodies.BY.get(0));
    }

    private static List<String> textsOf(JsonObject reply) {
        List<String> items = new ArrayList<>();
        reply.getAsJsonArray("texts").forEach(text -> items.add(text.getAsString()));
        return items;
    }

    /** The key of the consumer that a reply names, in the reply's epoch. */
    private static Optional<Key> consumerOf(JsonObject reply) {
        return namesConsumer(reply) ? Optional.of(new Key(Bodies.number(reply, "epoch"), Bodies.number(reply, "by_client"),
            Bodies.number(reply, "by_incarnation"), Bodies.number(reply, "by_number"))) : Optional.empty();
    }
}
