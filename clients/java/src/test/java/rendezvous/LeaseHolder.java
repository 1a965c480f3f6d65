package rendezvous;

import java.io.BufferedReader;
import java.io.File;
import java.io.IOException;
import java.io.InputStreamReader;
import java.lang.reflect.Method;
import java.net.URL;
import java.net.URLClassLoader;
import java.nio.charset.StandardCharsets;
import java.util.ArrayDeque;
import java.util.Deque;

/**
 * Leases a client number for each line "lease" of standard input, as the environment tells, for each line "other" by another
 * copy of these classes, and gives the last one back for each line "back". It prints the number and the incarnation, "back", or
 * what was thrown. For a line of digits it prints the incarnation at so many microseconds.
 */
final class LeaseHolder {
    private static final Deque<Lease> HELD = new ArrayDeque<>();

    private LeaseHolder() {}

    public static void main(String[] words) throws IOException, ReflectiveOperationException {
        Method other = otherCopy();
        BufferedReader lines = new BufferedReader(new InputStreamReader(System.in, StandardCharsets.UTF_8));
        for (String line = lines.readLine(); line != null; line = lines.readLine()) {
            System.out.println(switch (line) {
                case "lease" -> leased();
                case "other" -> other.invoke(null);
                case "back" -> givenBack();
                default -> Incarnations.at(Long.parseLong(line));
            });
        }
    }

    private static Method otherCopy() throws IOException, ReflectiveOperationException {
        String[] paths = System.getProperty("java.class.path").split(File.pathSeparator);
        URL[] places = new URL[paths.length];
        for (int each = 0; each < paths.length; each++) {
            places[each] = new File(paths[each]).toURI().toURL();
        }
        // it is open as long as the process lives
        @SuppressWarnings("resource")
        ClassLoader loader = new URLClassLoader(places, ClassLoader.getPlatformClassLoader());
        Method leased = loader.loadClass(LeaseHolder.class.getName()).getDeclaredMethod("leased");
        leased.setAccessible(true);
        return leased;
    }

    private static String leased() {
        try {
            Leases leases = new Leases(ClientRange.of(System.getenv()));
            Lease lease = leases.next().orElseThrow(leases::none);
            HELD.push(lease);
            return lease.client() + " " + lease.incarnation();
        } catch (RuntimeException fault) {
            return fault.getClass().getSimpleName() + ": " + fault.getMessage();
        }
    }

    private static String givenBack() {
        HELD.pop().giveBack();
        return "back";
    }
}
