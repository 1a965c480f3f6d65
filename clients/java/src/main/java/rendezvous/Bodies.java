package rendezvous;

import com.google.gson.Gson;
import com.google.gson.GsonBuilder;
import com.google.gson.JsonArray;
import com.google.gson.JsonElement;
import com.google.gson.JsonObject;
import com.google.gson.JsonPrimitive;
import com.google.gson.stream.JsonReader;
import com.google.gson.stream.JsonToken;
import java.io.IOException;
import java.io.StringReader;
import java.nio.ByteBuffer;
import java.nio.CharBuffer;
import java.nio.charset.CharacterCodingException;
import java.nio.charset.StandardCharsets;
import java.util.ArrayList;
import java.util.HashSet;
import java.util.List;
import java.util.Map;
import java.util.Set;
import java.util.stream.StreamSupport;

/** Bodies of messages, which are written, and of answers, which are read: the members of their rows, and no others. */
final class Bodies {
    /** What came is no frame, or no answer's body. */
    static final class NoAnswer extends IOException {
        private static final long serialVersionUID = 1;

        NoAnswer(String words) {
            super(words);
        }
    }

    static final int GREATEST_ITEM = 512;
    static final int GREATEST_DRAIN = 16;
    static final int GREATEST_VERSION = 2;
    private static final int GREATEST_COUNT = 100_000;
    private static final List<String> KEY = List.of("client", "epoch", "incarnation", "number");
    /** The consumer's key in a receipt, whose epoch is the answer's. */
    static final List<String> BY = List.of("by_client", "by_incarnation", "by_number");
    private static final Map<Long, String> DETAILS =
        Map.of(2L, "current", 4L, "current", 5L, "last", 7L, "open", 8L, "last", 12L, "current");
    private static final Gson GSON = new GsonBuilder().disableHtmlEscaping().create();

    private Bodies() {}

    /** The compact body of these members. */
    static byte[] written(JsonObject members) {
        return GSON.toJson(members).getBytes(StandardCharsets.UTF_8);
    }

    /** How many bytes of UTF-8 a text has; -1 where it has a lone surrogate. */
    static int lengthOf(String text) {
        try {
            return StandardCharsets.UTF_8.newEncoder().encode(CharBuffer.wrap(text)).remaining();
        } catch (CharacterCodingException lone) {
            return -1;
        }
    }

    /** The members of an answer's body. */
    static JsonObject readAnswer(byte[] body) throws NoAnswer {
        JsonObject answer = readObject(body);
        Set<String> names = new HashSet<>(furtherMembers(answer));
        names.add("kind");
        boolean good = answer.keySet().equals(names)
            && names.stream().allMatch(name -> keepsLimit(name, answer));
        if (!good) {
            throw new NoAnswer("what came has not the members of an answer");
        }
        return answer;
    }

    private static JsonObject readObject(byte[] body) throws NoAnswer {
        try {
            String text = StandardCharsets.UTF_8.newDecoder().decode(ByteBuffer.wrap(body)).toString();
            JsonReader reader = new JsonReader(new StringReader(text));
            JsonObject read = readMembers(reader);
            if (reader.peek() == JsonToken.END_DOCUMENT) {
                return read;
            }
        } catch (IOException | IllegalStateException fault) {
            throw new NoAnswer("what came is no answer's JSON");
        }
        throw new NoAnswer("what came is more than an answer's JSON");
    }

    /** The members of an object, none of which is named twice. */
    private static JsonObject readMembers(JsonReader reader) throws IOException {
        JsonObject read = new JsonObject();
        reader.beginObject();
        while (reader.hasNext()) {
            String name = reader.nextName();
            if (read.has(name)) {
                throw new NoAnswer("a member came twice");
            }
            read.add(name, reader.peek() == JsonToken.BEGIN_ARRAY ? readArray(reader) : readPlain(reader));
        }
        reader.endObject();
        return read;
    }

    /** An array of plain values: no answer has a deeper one. */
    private static JsonArray readArray(JsonReader reader) throws IOException {
        JsonArray read = new JsonArray();
        reader.beginArray();
        while (reader.hasNext()) {
            read.add(readPlain(reader));
        }
        reader.endArray();
        return read;
    }

    /** A text, or a whole number written in digits alone; no answer has another plain value. */
    private static JsonElement readPlain(JsonReader reader) throws IOException {
        JsonToken token = reader.peek();
        if (token == JsonToken.STRING) {
            return new JsonPrimitive(reader.nextString());
        }
        if (token == JsonToken.NUMBER) {
            String digits = reader.nextString();
            if (digits.matches("0|[1-9][0-9]{0,15}")) {
                return new JsonPrimitive(Long.parseLong(digits));
            }
        }
        throw new NoAnswer("a value came that no answer has");
    }

    /** The names that an answer of its kind has beside its kind. */
    private static List<String> furtherMembers(JsonObject answer) throws NoAnswer {
        switch (word(answer, "kind")) {
            case "welcome":
                return answer.has("version") ? List.of("client", "epoch", "incarnation", "version") : KEY.subList(0, 3);
            case "waiting":
                return KEY;
            case "reply":
                boolean names = word(answer, "reply").equals("received") && answer.has(BY.get(0));
                return joined(KEY, "reply", names ? BY : Replies.membersOf(word(answer, "reply")));
            case "refused":
                String detail = isWhole(answer.get("code"), 1, 12) ? DETAILS.get(number(answer, "code")) : null;
                return joined(List.of(), "code", detail == null ? List.of() : List.of(detail));
            default:
                throw new NoAnswer("an answer of no kind came");
        }
    }

    private static List<String> joined(List<String> names, String name, List<String> more) throws NoAnswer {
        if (more == null) {
            throw new NoAnswer("a reply of no kind came");
        }
        List<String> all = new ArrayList<>(names);
        all.add(name);
        all.addAll(more);
        return all;
    }

    private static boolean keepsLimit(String name, JsonObject answer) {
        JsonElement value = answer.get(name);
        switch (name) {
            case "kind":
            case "reply":
                return isText(value);
            case "item":
                return isItem(value);
            case "texts":
                return areTexts(value);
            case "items":
            case "consumers":
                return isWhole(value, 0, GREATEST_COUNT);
            case "code":
                return isWhole(value, 1, 12);
            case "version":
                return isWhole(value, 2, GREATEST_VERSION);
            case "current":
                return isWhole(value, 1, number(answer, "code") == 12 ? GREATEST_VERSION : Key.GREATEST);
            default:
                return isWhole(value, name.equals("last") ? 0 : 1, Key.GREATEST);
        }
    }

    private static boolean isItem(JsonElement value) {
        int length = isText(value) ? lengthOf(value.getAsString()) : -1;
        return length >= 0 && length <= GREATEST_ITEM;
    }

    /** Whether a value is a list of texts that one drain may give. */
    private static boolean areTexts(JsonElement value) {
        return value.isJsonArray() && value.getAsJsonArray().size() <= GREATEST_DRAIN
            && StreamSupport.stream(value.getAsJsonArray().spliterator(), false).allMatch(Bodies::isItem);
    }

    private static boolean isText(JsonElement value) {
        return value.isJsonPrimitive() && value.getAsJsonPrimitive().isString();
    }

    /** Whether a value is a number within limits. */
    private static boolean isWhole(JsonElement value, long least, long most) {
        boolean number = value != null && value.isJsonPrimitive() && value.getAsJsonPrimitive().isNumber();
        return number && value.getAsLong() >= least && value.getAsLong() <= most;
    }

    /** The text of a member; an empty one where it has none. */
    static String word(JsonObject members, String name) {
        JsonElement value = members.get(name);
        return value != null && isText(value) ? value.getAsString() : "";
    }

    /** The number of a member that has one. */
    static long number(JsonObject members, String name) {
        return members.get(name).getAsLong();
    }

    /** The key that an answer names. */
    static Key keyOf(JsonObject answer) {
        return new Key(number(answer, "epoch"), number(answer, "client"), number(answer, "incarnation"),
            number(answer, "number"));
    }
}
