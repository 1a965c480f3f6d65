package rendezvous;

import com.google.gson.JsonObject;

/**
 * What an event makes of a {@link Machine}.
 *
 * @param machine what it becomes
 * @param send the members of a message that is to be sent, or null
 * @param tell what ends the call, or null
 * @param drop whether the connection is to be thrown away
 */
record Step(Machine machine, JsonObject send, Told tell, boolean drop) {
    /** A step that says and tells nothing. */
    static Step silent(Machine machine) {
        return new Step(machine, null, null, false);
    }

    /** A step that ends the call, on a connection that goes on. */
    static Step telling(Machine machine, Told tell) {
        return new Step(machine, null, tell, false);
    }
}
