package rendezvous;

import com.google.gson.JsonObject;

/** What happens to a {@link Machine}. */
sealed interface Event permits Event.Ask, Event.Hear, Event.Plain {
    /** The user asks a call, of these members. */
    record Ask(JsonObject call) implements Event {}

    /** An answer came, of these members. */
    record Hear(JsonObject answer) implements Event {}

    /** The events of which nothing more is to be told. */
    enum Plain implements Event {
        /** There is a connection on which something may be said. */
        SPEAK,
        /** The connection was lost, or thrown away. */
        LOSE,
        /** The request is to be cancelled. */
        GIVE_UP,
        /** The call ends by what is known. */
        EXPIRE
    }
}
