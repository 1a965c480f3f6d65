package rendezvous;

import java.lang.System.Logger;
import java.lang.System.Logger.Level;
import java.util.HashMap;
import java.util.Map;
import java.util.concurrent.TimeUnit;

/**
 * What one session logs by the logger {@code rendezvous}: of servers, and of requests' keys, never what is in them. All of it is
 * {@link Level#DEBUG} or below, which the JDK shows nobody who has not asked for it.
 */
final class Log {
    private static final Logger LOGGER = System.getLogger("rendezvous");
    /** By the servers' names, what was said last of those that were not reached, until one leads on. */
    private final Map<String, String> faults = new HashMap<>();

    void connected(String server) {
        says(Level.DEBUG, server + ": connected");
    }

    void lost(String server, String why) {
        says(Level.DEBUG, server + ": lost: " + why);
    }

    /** A server was not reached, or is another than it was: this is said unless it was the last that was said of it. */
    void notReached(String server, String words) {
        if (!words.equals(faults.put(server, words))) {
            says(Level.DEBUG, words);
        }
    }

    /** One was reached that leads on: what is said after that is something new. */
    void ledOn() {
        faults.clear();
    }

    void triedAgain(String server, long nanos) {
        says(Level.TRACE, server + ": tried again in " + TimeUnit.NANOSECONDS.toMillis(nanos) + " ms");
    }

    /** A server said this refusal. */
    void refused(String server, String refusal) {
        says(Level.DEBUG, server + ": " + refusal);
    }

    /** What ends a call without an outcome, where that is the end of an epoch, or nobody knows what became of the request. */
    void ended(String server, RvException fault) {
        if (fault instanceof RvException.EpochEnded ended) {
            epochEnded(server, ended.current());
        } else if (fault instanceof RvException.NotAsked unmet && unmet.current() > 0) {
            epochEnded(server, unmet.current());
        }
        if (fault instanceof RvException.EpochEnded || fault instanceof RvException.Unsettled) {
            says(Level.DEBUG, server + ": request " + fault.key() + ": outcome not known");
        }
    }

    private static void epochEnded(String server, long current) {
        says(Level.DEBUG, server + ": the epoch ended, the server is of epoch " + current);
    }

    /** Logs a line. What a program's own logger throws there ends no call. */
    private static void says(Level level, String words) {
        try {
            LOGGER.log(level, words);
        } catch (RuntimeException ignored) {
            // it is the program's to find
            return;
        }
    }
}
