package rendezvous;

import com.google.gson.JsonArray;
import com.google.gson.JsonElement;
import com.google.gson.JsonObject;
import com.google.gson.JsonParser;
import java.io.IOException;
import java.math.BigDecimal;
import java.nio.file.Files;
import java.nio.file.Path;
import java.time.Duration;
import java.time.temporal.ChronoUnit;
import java.util.Optional;

/** Addresses on the table of them, whose path is the one argument. Prints each fault, and how many cases ran. */
final class AddressTable {
    /** What stands between the fault of an address and the address, in what is said of it. */
    private static final String OF = ", in the address ";

    private AddressTable() {}

    public static void main(String[] words) throws IOException {
        int cases = 0;
        for (String line : Files.readAllLines(Path.of(words[0]))) {
            cases++;
            JsonObject one = JsonParser.parseString(line).getAsJsonObject();
            String told = told(one);
            if (!told.isEmpty()) {
                System.out.println("FAULT " + told + " of " + line);
            }
        }
        System.out.println(cases + " cases");
    }

    /** What comes of a case and should not; nothing where all is as it says. */
    private static String told(JsonObject one) {
        String text = Bodies.word(one, "address");
        try {
            Address made = Address.of(text);
            return !one.has("fault") && places(made).equals(one.get("servers"))
                && hasOptions(made, one.getAsJsonObject("options")) ? "" : made.toString();
        } catch (IllegalArgumentException fault) {
            return one.has("fault") && fault.getMessage().equals(Bodies.word(one, "fault") + OF + text) ? "" : fault.toString();
        }
    }

    private static JsonArray places(Address address) {
        JsonArray places = new JsonArray();
        for (SocketLink.To each : address.servers()) {
            JsonArray place = new JsonArray();
            place.add(each.host());
            place.add(each.port());
            places.add(place);
        }
        return places;
    }

    /** Whether an address has these options and no other. */
    private static boolean hasOptions(Address address, JsonObject options) {
        return address.options().keySet().equals(options.keySet())
            && address.patience().equals(member(options, "patience").map(AddressTable::time))
            && address.record().equals(member(options, "record").map(JsonElement::getAsString))
            && address.client().equals(member(options, "client").map(JsonElement::getAsLong))
            && address.version().equals(member(options, "version").map(JsonElement::getAsInt));
    }

    private static Optional<JsonElement> member(JsonObject options, String name) {
        return Optional.ofNullable(options.get(name));
    }

    private static Duration time(JsonElement seconds) {
        if (!seconds.getAsJsonPrimitive().isNumber()) {
            return ChronoUnit.FOREVER.getDuration();
        }
        return Duration.ofNanos(new BigDecimal(seconds.getAsString()).movePointRight(9).longValueExact());
    }
}
