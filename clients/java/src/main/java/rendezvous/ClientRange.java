package rendezvous;

import java.util.Map;
import java.util.regex.Matcher;
import java.util.regex.Pattern;

/**
 * The client numbers from a first to a last one.
 *
 * @param first the least, 1 or more
 * @param last the greatest, at most {@link Key#GREATEST}
 */
record ClientRange(long first, long last) {
    /** The variable that names a range, as FIRST-LAST. */
    static final String VARIABLE = "RV_CLIENTS";
    /** What a server admits in one epoch, whatever numbers they have. */
    static final ClientRange USUAL = new ClientRange(1, 1_024);
    private static final Pattern FORM = Pattern.compile("([0-9]{1,16})-([0-9]{1,16})");

    ClientRange {
        if (first < 1 || last > Key.GREATEST || first > last) {
            throw new IllegalArgumentException(
                "clients are 1 to " + Key.GREATEST + ", the least first: " + first + " to " + last);
        }
    }

    /** The range that the environment names; the usual one where it names none. */
    static ClientRange of(Map<String, String> environment) {
        String named = environment.get(VARIABLE);
        if (named == null) {
            return USUAL;
        }
        Matcher found = FORM.matcher(named);
        try {
            if (found.matches()) {
                return new ClientRange(Long.parseLong(found.group(1)), Long.parseLong(found.group(2)));
            }
        } catch (IllegalArgumentException outside) {
            throw new IllegalArgumentException(VARIABLE + ": " + outside.getMessage(), outside);
        }
        throw new IllegalArgumentException(VARIABLE + " is to be FIRST-LAST, two client numbers, and not: " + named);
    }
}
