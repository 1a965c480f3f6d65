package rendezvous;

import com.google.gson.JsonArray;
import com.google.gson.JsonObject;

/** The answers that outcomes were read from. */
final class Answers {
    private Answers() {}

    /** The members of the reply that tells an outcome. */
    static JsonObject of(Outcome outcome) {
        JsonObject reply = keyed(outcome.key());
        reply.addProperty("kind", "reply");
        reply.addProperty("reply", word(outcome));
        if (outcome instanceof Receipt receipt) {
            receipt.by().ifPresent(by -> {
                reply.addProperty("by_client", by.client());
                reply.addProperty("by_incarnation", by.incarnation());
                reply.addProperty("by_number", by.number());
            });
        } else if (outcome instanceof Outcome.Item taken) {
            reply.addProperty("item", taken.item());
        } else if (outcome instanceof Outcome.Swapped swapped) {
            reply.addProperty("item", swapped.item());
        } else if (outcome instanceof Outcome.Peeked peeked) {
            reply.addProperty("item", peeked.item());
        } else if (outcome instanceof Outcome.Counted counted) {
            reply.addProperty("items", counted.items());
            reply.addProperty("consumers", counted.consumers());
        } else if (outcome instanceof Outcome.Drained drained) {
            JsonArray texts = new JsonArray();
            drained.items().forEach(texts::add);
            reply.add("texts", texts);
        }
        return reply;
    }

    private static String word(Outcome outcome) {
        String name = outcome.getClass().getSimpleName().toLowerCase(java.util.Locale.ROOT);
        return name.equals("receipt") ? "received" : name;
    }

    /** The members of a key. */
    static JsonObject keyed(Key key) {
        JsonObject made = new JsonObject();
        made.addProperty("epoch", key.epoch());
        made.addProperty("client", key.client());
        made.addProperty("incarnation", key.incarnation());
        made.addProperty("number", key.number());
        return made;
    }
}
