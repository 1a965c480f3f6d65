package rendezvous;

import com.google.gson.JsonElement;
import com.google.gson.JsonNull;
import com.google.gson.JsonObject;
import com.google.gson.JsonParser;
import java.io.IOException;
import java.nio.file.Files;
import java.nio.file.Path;
import java.util.Locale;
import java.util.Map;

/** The machine on the table of cases, whose path is the one argument. Prints each fault, and how many cases ran. */
final class CaseTable {
    private static final Map<String, Event> EVENTS = Map.of("speak", Event.Plain.SPEAK, "lose", Event.Plain.LOSE,
        "give up", Event.Plain.GIVE_UP, "expire", Event.Plain.EXPIRE);

    private CaseTable() {}

    public static void main(String[] words) throws IOException {
        int cases = 0;
        for (String line : Files.readAllLines(Path.of(words[0]))) {
            JsonObject one = JsonParser.parseString(line).getAsJsonObject();
            if (one.has("machine")) {
                cases++;
                JsonObject made = made(one);
                if (!same(made, one)) {
                    System.out.println("FAULT " + made + " in " + line);
                }
            }
        }
        System.out.println(cases + " cases");
    }

    /** A case with the same machine and event, and what came of them. */
    private static JsonObject made(JsonObject one) throws IOException {
        JsonObject made = new JsonObject();
        made.add("machine", one.get("machine"));
        made.add("event", one.get("event"));
        Machine before = machine(one.getAsJsonObject("machine"));
        String text = before.toString();
        try {
            Step step = before.step(event(one.get("event")));
            made.add("becomes", members(step.machine()));
            made.add("sends", step.send() == null ? JsonNull.INSTANCE : step.send());
            made.add("tells", step.tell() == null ? JsonNull.INSTANCE : members(step.tell()));
            made.addProperty("drops", step.drop());
        } catch (IllegalStateException misused) {
            made.addProperty("misused", true);
        }
        if (!before.toString().equals(text)) {
            throw new IllegalStateException("a step changed its machine: " + one);
        }
        return made;
    }

    private static Event event(JsonElement event) throws IOException {
        if (event.isJsonPrimitive()) {
            return EVENTS.get(event.getAsString());
        }
        JsonObject members = event.getAsJsonObject();
        return members.has("ask") ? new Event.Ask(members.getAsJsonObject("ask"))
            : new Event.Hear(Bodies.readAnswer(Bodies.written(members.getAsJsonObject("hear"))));
    }

    private static Machine machine(JsonObject members) {
        return new Machine(Bodies.number(members, "client"), Bodies.number(members, "incarnation"),
            (int) Bodies.number(members, "version"), Machine.State.valueOf(name(members, "state")), key(members.get("key")),
            members.get("call").isJsonNull() ? null : members.getAsJsonObject("call").deepCopy(), holds(members, "giving_up"),
            holds(members, "sent"), (int) Bodies.number(members, "out"), holds(members, "accepted"), holds(members, "full"),
            holds(members, "doubtful"), Machine.Flying.valueOf(name(members, "flying")));
    }

    private static String name(JsonObject members, String name) {
        return Bodies.word(members, name).toUpperCase(Locale.ROOT);
    }

    private static boolean holds(JsonObject members, String name) {
        return members.get(name).getAsBoolean();
    }

    private static Key key(JsonElement members) {
        return members.isJsonNull() ? null : Bodies.keyOf(members.getAsJsonObject());
    }

    private static JsonObject members(Machine machine) {
        JsonObject made = new JsonObject();
        made.addProperty("client", machine.client());
        made.addProperty("incarnation", machine.incarnation());
        made.addProperty("version", machine.version());
        made.addProperty("state", machine.state().name().toLowerCase(Locale.ROOT));
        made.add("key", members(machine.key()));
        made.add("call", machine.call() == null ? JsonNull.INSTANCE : machine.call());
        made.addProperty("giving_up", machine.givingUp());
        made.addProperty("sent", machine.sent());
        made.addProperty("out", machine.out());
        made.addProperty("accepted", machine.accepted());
        made.addProperty("full", machine.full());
        made.addProperty("doubtful", machine.doubtful());
        made.addProperty("flying", machine.flying().name().toLowerCase(Locale.ROOT));
        return made;
    }

    private static JsonElement members(Key key) {
        return key == null ? JsonNull.INSTANCE : Answers.keyed(key);
    }

    private static JsonObject members(Told told) {
        if (told instanceof Told.Settled settled) {
            JsonObject made = says("settled");
            made.add("reply", Answers.of(settled.outcome()));
            return made;
        }
        if (told instanceof Told.Unsettled left) {
            JsonObject made = says("unsettled", left.key());
            made.addProperty("accepted", left.accepted());
            return made;
        }
        if (told instanceof Told.Refused refused) {
            JsonObject made = withCurrent(says("refused", refused.key()), refused.current());
            made.addProperty("code", refused.code());
            return made;
        }
        if (told instanceof Told.EpochEnded ended) {
            JsonObject made = withCurrent(says("ended", ended.key()), ended.current());
            made.addProperty("unmet", ended.unmet());
            return made;
        }
        if (told instanceof Told.Replaced replaced) {
            return withCurrent(says("replaced", replaced.key()), replaced.current());
        }
        return told instanceof Told.Full full ? says("full", full.key())
            : says(told instanceof Told.NotAsked ? "not asked" : "welcomed");
    }

    private static JsonObject says(String word) {
        JsonObject made = new JsonObject();
        made.addProperty("told", word);
        return made;
    }

    private static JsonObject says(String word, Key key) {
        JsonObject made = says(word);
        made.add("key", members(key));
        return made;
    }

    private static JsonObject withCurrent(JsonObject made, Long current) {
        made.addProperty("current", current);
        return made;
    }

    /** Whether two have the same members; numbers are compared by their digits. */
    private static boolean same(JsonObject one, JsonObject other) {
        return JsonParser.parseString(withNulls(one)).equals(JsonParser.parseString(withNulls(other)));
    }

    private static String withNulls(JsonObject members) {
        return new com.google.gson.GsonBuilder().serializeNulls().create().toJson(members);
    }
}
