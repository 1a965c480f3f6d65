package rendezvous;

import java.nio.ByteBuffer;
import java.nio.CharBuffer;
import java.nio.charset.CharacterCodingException;
import java.nio.charset.MalformedInputException;
import java.nio.charset.StandardCharsets;
import java.time.Duration;
import java.time.temporal.ChronoUnit;
import java.util.ArrayList;
import java.util.HashMap;
import java.util.HexFormat;
import java.util.List;
import java.util.Map;
import java.util.Objects;
import java.util.Optional;
import java.util.Set;
import java.util.function.Predicate;
import java.util.regex.Matcher;
import java.util.regex.Pattern;

/**
 * Where a server is: the places that are alternatives of it, and the options that are chosen for its clients.
 *
 * @param servers the places, in the order in which they are tried
 * @param options by the options' names, their values, which are such that they may have
 */
record Address(List<SocketLink.To> servers, Map<String, String> options) {
    /** The variable that has the address where none is given, and what is taken where that is empty or missing. */
    static final String VARIABLE = "RV_SERVER";
    static final String USUAL = "127.0.0.1:7411";
    private static final String SCHEME = "rv://";
    private static final String FOR_EVER = "forever";
    private static final int GREATEST_PORT = 65_535;
    private static final Pattern PORT = Pattern.compile(":([1-9][0-9]{0,4})");
    private static final Pattern SECONDS = Pattern.compile("([0-9]{1,9})(?:\\.([0-9]{1,9}))?");
    private static final Pattern NUMBER = Pattern.compile("[1-9][0-9]{0,15}");
    /** The options there are, and which values each may have. */
    private static final Map<String, Predicate<String>> OPTIONS = Map.of(
        "patience", value -> value.equals(FOR_EVER) || SECONDS.matcher(value).matches() && !seconds(value).isZero(),
        "record", value -> !value.isEmpty() && value.indexOf('\0') < 0,
        "client", value -> NUMBER.matcher(value).matches() && Long.parseLong(value) <= Key.GREATEST,
        "version", Set.of("1", "2")::contains);

    /** That of a server by its host and its port. */
    static Address of(String host, int port) {
        return new Address(List.of(new SocketLink.To(host, port)), Map.of());
    }

    /** The address that the environment names; the usual one where it names none. */
    static Address of(Map<String, String> environment) {
        String named = environment.getOrDefault(VARIABLE, "");
        try {
            return of(named.isEmpty() ? USUAL : named);
        } catch (IllegalArgumentException none) {
            throw new IllegalArgumentException(none.getMessage() + ", of " + VARIABLE, none);
        }
    }

    /**
     * The address that a text tells.
     *
     * @throws IllegalArgumentException whose message begins with the place of the first fault
     */
    static Address of(String text) {
        boolean isLong = Objects.requireNonNull(text, "an address is a text").startsWith(SCHEME);
        int mark = isLong ? text.indexOf('?') : -1;
        String servers = text.substring(isLong ? SCHEME.length() : 0, mark < 0 ? text.length() : mark);
        try {
            return new Address(servers(servers), mark < 0 ? Map.of() : options(text.substring(mark + 1)));
        } catch (IllegalArgumentException fault) {
            throw new IllegalArgumentException(fault.getMessage() + ", in the address " + text, fault);
        }
    }

    private static List<SocketLink.To> servers(String text) {
        List<SocketLink.To> servers = new ArrayList<>();
        for (String server : text.split(",", -1)) {
            servers.add(server(server, servers.size() + 1));
        }
        return List.copyOf(servers);
    }

    /** The server of this number. An address of version 6 stands in brackets; any other host ends at the last colon. */
    private static SocketLink.To server(String text, int number) {
        boolean isInBrackets = text.startsWith("[") && text.contains("]");
        int end = isInBrackets ? text.indexOf(']') + 1 : text.contains(":") ? text.lastIndexOf(':') : text.length();
        String host = isInBrackets ? text.substring(1, end - 1) : text.substring(0, end);
        if (isInBrackets ? !SocketLink.To.isSix(host) : !SocketLink.To.isName(host)) {
            throw new IllegalArgumentException("host of server " + number);
        }
        Matcher port = PORT.matcher(text.substring(end));
        if (!port.matches() || Integer.parseInt(port.group(1)) > GREATEST_PORT) {
            throw new IllegalArgumentException("port of server " + number);
        }
        return new SocketLink.To(host, Integer.parseInt(port.group(1)));
    }

    private static Map<String, String> options(String text) {
        Map<String, String> options = new HashMap<>();
        for (String option : text.split("&", -1)) {
            String[] parts = option.split("=", 2);
            String name = parts[0];
            if (name.isEmpty()) {
                throw new IllegalArgumentException("option " + (options.size() + 1) + " is empty");
            }
            if (!OPTIONS.containsKey(name)) {
                throw new IllegalArgumentException("option " + name + " is unknown");
            }
            if (options.containsKey(name)) {
                throw new IllegalArgumentException("option " + name + " twice");
            }
            options.put(name, value(name, parts.length == 1 ? "" : parts[1]));
        }
        return Map.copyOf(options);
    }

    private static String value(String name, String coded) {
        try {
            String value = decoded(coded);
            if (OPTIONS.get(name).test(value)) {
                return value;
            }
        } catch (CharacterCodingException none) {
            // it is no text
        }
        throw new IllegalArgumentException("option " + name);
    }

    /** The text for which this one stands, in which each byte of UTF-8 may be written as a percent sign and two digits. */
    private static String decoded(String text) throws CharacterCodingException {
        ByteBuffer coded = StandardCharsets.UTF_8.newEncoder().encode(CharBuffer.wrap(text));
        ByteBuffer bytes = ByteBuffer.allocate(coded.remaining());
        while (coded.hasRemaining()) {
            byte next = coded.get();
            bytes.put(next == '%' ? (byte) (digit(coded) << 4 | digit(coded)) : next);
        }
        return StandardCharsets.UTF_8.newDecoder().decode(bytes.flip()).toString();
    }

    private static int digit(ByteBuffer coded) throws CharacterCodingException {
        int digit = coded.hasRemaining() ? coded.get() : -1;
        if (!HexFormat.isHexDigit(digit)) {
            throw new MalformedInputException(1);
        }
        return HexFormat.fromHexDigit(digit);
    }

    /** A decimal number of seconds. */
    private static Duration seconds(String value) {
        Matcher parts = SECONDS.matcher(value);
        if (!parts.matches()) {
            throw new IllegalArgumentException(value);
        }
        String part = parts.group(2) == null ? "" : parts.group(2);
        return Duration.ofSeconds(Long.parseLong(parts.group(1)), Long.parseLong((part + "0".repeat(9)).substring(0, 9)));
    }

    /** For how long a call goes on while nothing at all is heard. */
    Optional<Duration> patience() {
        return Optional.ofNullable(options.get("patience"))
            .map(value -> value.equals(FOR_EVER) ? ChronoUnit.FOREVER.getDuration() : seconds(value));
    }

    /** The name of the file that keeps a record. */
    Optional<String> record() {
        return Optional.ofNullable(options.get("record"));
    }

    /** The client number. */
    Optional<Long> client() {
        return Optional.ofNullable(options.get("client")).map(Long::valueOf);
    }

    /** What the sessions speak. */
    Optional<Integer> version() {
        return Optional.ofNullable(options.get("version")).map(Integer::valueOf);
    }
}
