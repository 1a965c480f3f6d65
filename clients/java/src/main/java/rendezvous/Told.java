package rendezvous;

/** What a {@link Machine} tells at the end of a call. Keys are null where only the hello was said. */
sealed interface Told permits Told.Welcomed, Told.Settled, Told.Unsettled, Told.NotAsked, Told.Full, Told.Refused,
        Told.EpochEnded, Told.Replaced {
    /** The session is there, and nothing was to be asked. */
    record Welcomed() implements Told {}

    /** The request's one reply came. */
    record Settled(Outcome outcome) implements Told {}

    /** A request was sent, and its reply is not known; whether the server said that it waits. */
    record Unsettled(Key key, boolean accepted) implements Told {}

    /** The request was never sent. */
    record NotAsked() implements Told {}

    /** The server is full: the request is certainly not in the queue, and its number is used again. */
    record Full(Key key) implements Told {}

    /** A refusal that a repeat would not change; {@code current} is null where it has none. */
    record Refused(Key key, int code, Long current) implements Told {}

    /** The server was started anew, and is of this epoch; {@code unmet}: no copy of the request can have come to one of its own. */
    record EpochEnded(Key key, long current, boolean unmet) implements Told {}

    /** A newer process has the client's number, in this incarnation. */
    record Replaced(Key key, long current) implements Told {}
}
