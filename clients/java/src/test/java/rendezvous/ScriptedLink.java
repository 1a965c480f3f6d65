package rendezvous;

import com.google.gson.JsonObject;
import com.google.gson.JsonParser;
import java.io.IOException;
import java.nio.charset.StandardCharsets;
import java.util.function.BooleanSupplier;

/** A connection without a network, whose messages are answered by a function in the thread that asks: no time passes. */
final class ScriptedLink implements Link {
    /** What answers a message that is no hello; it may do anything to the call meanwhile. */
    interface Script {
        JsonObject answer(JsonObject message) throws IOException;

        /** A connection is made, which may fail. */
        default void connects() throws IOException {}
    }

    private final Script script;
    private final BooleanSupplier isWoken;
    private JsonObject said;

    private ScriptedLink(Script script, BooleanSupplier isWoken) {
        this.script = script;
        this.isWoken = isWoken;
    }

    /** What makes links that are answered so; each hello is welcome. */
    static Link.Maker of(Script script) {
        return isWoken -> new ScriptedLink(script, isWoken);
    }

    @Override
    public void connect(long nanos) throws IOException {
        script.connects();
    }

    /** Each call makes a connection of its own. */
    @Override
    public boolean isOver() {
        return true;
    }

    @Override
    public void send(byte[] body, long nanos) {
        said = JsonParser.parseString(new String(body, StandardCharsets.UTF_8)).getAsJsonObject();
    }

    @Override
    public byte[] hear(long nanos) throws IOException {
        if (Bodies.word(said, "kind").equals("hello")) {
            return Bodies.written(Answering.welcome(said));
        }
        JsonObject answer = script.answer(said);
        if (isWoken.getAsBoolean()) {
            throw new Woken();
        }
        return Bodies.written(answer);
    }

    @Override
    public void wake() {}

    @Override
    public void close() {}
}
