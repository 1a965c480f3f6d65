package rendezvous;

import com.google.gson.JsonObject;
import java.io.IOException;
import java.time.Duration;
import java.util.List;
import java.util.Optional;
import java.util.concurrent.CancellationException;
import java.util.concurrent.atomic.AtomicReference;
import java.util.concurrent.locks.LockSupport;
import java.util.function.Consumer;
import rendezvous.Event.Plain;
import rendezvous.Running.Order;

/**
 * One client in one incarnation: it asks one request at a time, for one thread at a time. A request is repeated, under
 * one key and over new connections, until it has its one reply. Whatever ends a call, the session knows what became of its
 * request: the next call is asked under the right key, or is told that a request is unsettled, or that the session ended.
 *
 * <p>A session that another thread's call runs in throws {@link IllegalStateException}, and so does one that was closed.
 */
public final class RvSession implements AutoCloseable {
    /** What a session speaks where no version is chosen: receipts name the consumer. */
    static final int VERSION = Bodies.GREATEST_VERSION;
    /** For how long one answer is awaited, where nothing else is chosen. */
    static final Duration ANSWER = Duration.ofSeconds(30);
    /** For how long a call goes on before the first welcome, where nothing else is chosen. */
    static final Duration CONNECT = Duration.ofSeconds(5);

    private final Servers.Turns turns;
    private final long patience;
    private final long answerTime;
    private final int version;
    private final AtomicReference<Thread> caller = new AtomicReference<>();
    private volatile Machine machine;
    private volatile Outcome last;
    private volatile Link link;
    private volatile boolean closed;
    private volatile Runnable whenLeft = () -> { };
    private volatile Consumer<Outcome> whenSettled = outcome -> { };
    private volatile long grace = Running.GRACE;
    private volatile long connectTime = Calls.FOR_EVER;
    private volatile long presence = Calls.FOR_EVER;
    private volatile boolean renews;
    private volatile Optional<RecordFile> record = Optional.empty();
    private volatile Retry retry = Retry.USUAL;
    /** The request that was said last, or was to be said when its cancel was, and the body of what was heard last. */
    private JsonObject asked;
    private byte[] heard;
    private Running running;
    private boolean welcomed;
    /** Whether the link is connected. */
    private boolean connected;
    private final Log log = new Log();

    /** A session of version 2 that says hello with its first call, and has a patience of a minute. */
    RvSession(String host, int port, long client, long incarnation) {
        this(host, port, client, incarnation, Retry.USUAL.patience(), ANSWER, VERSION);
    }

    /**
     * A session that says hello with its first call.
     *
     * @param host where the server listens; a name is looked up anew for each connection
     * @param port the port there
     * @param client a number that no other process has
     * @param incarnation one above each that this client was started with
     * @param patience for how long a call goes on while nothing at all is heard; null for ever
     * @param answerTime for how long one answer is awaited, before the connection is thrown away
     * @param version what the session speaks: in version 2 a receipt names the consumer; in version 1, which each
     *     server knows, it does not
     */
    RvSession(String host, int port, long client, long incarnation, Duration patience, Duration answerTime,
            int version) {
        this(new SocketLink.To(host, port), client, incarnation, patience, answerTime, version);
    }

    /** The same, over links of one's own, for tests. */
    RvSession(Link.Maker links, long client, long incarnation, Duration patience, Duration answerTime, int version) {
        this(new Servers(List.of(links)), client, incarnation, patience, answerTime, version);
    }

    /** The same, at a server that may have several addresses. */
    RvSession(Servers servers, long client, long incarnation, Duration patience, Duration answerTime, int version) {
        if (client < 1 || client > Key.GREATEST || incarnation < 1 || incarnation > Key.GREATEST) {
            throw new IllegalArgumentException("clients and incarnations are 1 to " + Key.GREATEST);
        }
        if (version < 1 || version > Bodies.GREATEST_VERSION) {
            throw new IllegalArgumentException("a version is 1 to " + Bodies.GREATEST_VERSION);
        }
        turns = servers.turns();
        this.patience = nanos("patience", patience);
        this.answerTime = Math.min(nanos("answer time", answerTime), Duration.ofDays(1).toNanos());
        this.version = version;
        machine = Machine.started(client, incarnation, version);
    }

    /** A time of this name in nanoseconds; that of null is for ever. */
    static long nanos(String name, Duration time) {
        if (time == null || time.compareTo(Duration.ofNanos(Calls.FOR_EVER)) > 0) {
            return Calls.FOR_EVER;
        }
        if (time.isNegative()) {
            throw new IllegalArgumentException("a time is not below zero: " + name + " " + time);
        }
        return time.toNanos();
    }

    /** The key of the next request, or of the one that is unsettled; null before the welcome and behind the end. */
    public Key key() {
        return machine.key();
    }

    /** Whether a call ended by an exception that left its request unsettled. */
    public boolean isUnsettled() {
        return caller.get() == null && machine.call() != null;
    }

    /** Whether it can ask nothing any more: it has ended or was closed, or all its numbers are used up. */
    public boolean isOver() {
        Machine now = machine;
        return closed || now.state() == Machine.State.ENDED || now.state() == Machine.State.IDLE && now.key() == null;
    }

    /** Whether its epoch is before this one; not so before the welcome and behind the end. */
    boolean isBefore(long epoch) {
        Key now = machine.key();
        return now != null && now.epoch() < epoch;
    }

    /** Whether it has a request that is not settled, also while its call runs. */
    boolean isOutstanding() {
        return machine.state() == Machine.State.OUTSTANDING;
    }

    /** Whether nothing is asked and nothing is unsettled. */
    boolean isIdle() {
        return caller.get() == null && machine.call() == null && !isOver();
    }

    /** Whether a call runs in it. */
    boolean isRunning() {
        return caller.get() != null;
    }

    /** Has this run at the end of each call. */
    void whenLeft(Runnable told) {
        whenLeft = told;
    }

    /** Tells this the outcome of each call that has one, in the call's thread; and null where one begins. */
    void whenSettled(Consumer<Outcome> told) {
        whenSettled = told;
    }

    /** Within so many nanoseconds a call ends that is to end, from the next one on: for tests. */
    void grace(long nanos) {
        grace = nanos;
    }

    /** Before the first welcome a call goes on for so many nanoseconds at most, from the next one on. */
    void connectTime(long nanos) {
        connectTime = nanos;
    }

    /** One request waits for so many milliseconds at most, from the next call on: a longer wait is asked in pieces. */
    void presence(long millis) {
        presence = millis;
    }

    /** Begins anew, once, where the server has a greater incarnation before any welcome: its clock was set back. */
    void renews() {
        renews = true;
    }

    /** Keeps this record, from the next call on. */
    void record(Optional<RecordFile> file) {
        record = file;
    }

    /** Pauses so, from the next call on; the patience is chosen before. */
    void retry(Retry chosen) {
        retry = chosen;
    }

    /** Tells the outcome of the last request no more, for the session is another thread's now. */
    void forget() {
        last = null;
    }

    /** The outcome of the session's last settled request; none before it, and from the next request's begin on. */
    public Optional<Outcome> last() {
        return Optional.ofNullable(last);
    }

    /**
     * Goes on with the request that an exception left unsettled, and gives its outcome. Any thread may say this. An
     * interrupt cancels the request; where it was met before, its outcome is given, and the thread stays interrupted.
     *
     * @throws InterruptedException if the thread is interrupted, and then the request stays unsettled; or if an interrupt
     *     cancelled it
     */
    public Outcome again() throws InterruptedException {
        return goOn(false);
    }

    /**
     * Gives up the request that an exception left unsettled, and gives its outcome: {@link Outcome.Cancelled}, or what
     * settled it before the cancel came. Any thread may say this.
     *
     * @throws InterruptedException if the thread is interrupted, and then the request stays unsettled
     */
    public Outcome giveUp() throws InterruptedException {
        return goOn(true);
    }

    private Outcome goOn(boolean givesUp) throws InterruptedException {
        enter(true, Calls.FOR_EVER, Abort.NEVER);
        try {
            if (machine.call() == null) {
                throw new IllegalStateException("no request is unsettled");
            }
            if (givesUp) {
                running.giveUp();
            }
            Outcome outcome = outcome();
            if (outcome instanceof Outcome.Cancelled) {
                obeyed("the request was cancelled");
            }
            return outcome;
        } finally {
            leave();
        }
    }

    /** The outcome of a call, through interrupts, which are set again at its end. */
    Outcome ask(JsonObject call) {
        try {
            return ask(new Calls.Job(call), false);
        } catch (InterruptedException never) {
            throw new IllegalStateException(never);
        }
    }

    /**
     * The outcome of a call, or of the last piece of its wait. An interrupt cancels it where it is interruptible: if its
     * outcome is that it was cancelled this throws, else the outcome is given, and the thread stays interrupted. Of a call that
     * is not interruptible the interrupt is set again at its end. A call that was aborted and cancelled gives {@link Outcome.Cancelled}.
     */
    Outcome ask(Calls.Job job, boolean interruptible) throws InterruptedException {
        enter(interruptible, job.own(), job.abort());
        try {
            Outcome outcome;
            do {
                take(new Event.Ask(job.piece(presence, running.ownLeft())));
                last = null;
                whenSettled.accept(null);
                outcome = outcome();
            } while (outcome instanceof Outcome.TimedOut && job.isInPieces(presence) && running.hasMore(silence()));
            return outcome instanceof Outcome.Cancelled ? cancelled(outcome.key()) : outcome;
        } finally {
            leave();
        }
    }

    /** What a call's cancel is to the user: it depends on who ordered it. */
    private Outcome cancelled(Key key) throws InterruptedException {
        obeyed("the request was cancelled");
        if (running.order() == Order.TIME) {
            return new Outcome.TimedOut(key);
        }
        if (running.order() == Order.ABORT) {
            return new Outcome.Cancelled(key);
        }
        throw new CancellationException("the request was cancelled, and not by this call (request " + key + ")");
    }

    /** Throws where an interrupt ordered the end of the call. */
    private void obeyed(String words) throws InterruptedException {
        if (running.order() == Order.INTERRUPT) {
            running.tellsInterrupt();
            throw new InterruptedException(words);
        }
    }

    private void enter(boolean interruptible, long own, Abort abort) throws InterruptedException {
        whenSettled.accept(null);
        if (!caller.compareAndSet(null, Thread.currentThread())) {
            throw new IllegalStateException("a session asks one request at a time: another thread's call runs");
        }
        boolean enters = false;
        try {
            if (closed) {
                throw new IllegalStateException("the session was closed");
            }
            if (interruptible && Thread.interrupted()) {
                throw new InterruptedException();
            }
            running = new Running(interruptible, own, silence(), grace, abort, retry);
            turns.newRound();
            abort.wakes(this::wake);
            enters = true;
        } finally {
            if (!enters) {
                letGo();
                if (closed) {
                    whenLeft.run();
                }
            }
        }
    }

    private void leave() {
        running.restoreInterrupt();
        letGo();
        whenLeft.run();
    }

    /** For how many nanoseconds a call goes on while nothing at all is heard. */
    private long silence() {
        return welcomed ? patience : Math.min(patience, connectTime);
    }

    /** The session is nobody's any more. A close that found it somebody's left the connection to whoever lets go. */
    private void letGo() {
        caller.set(null);
        if (closed) {
            rest();
        }
    }

    /** What settled the outstanding request; whatever else ends the call is thrown. */
    private Outcome outcome() throws InterruptedException {
        Told told;
        try {
            told = told();
        } catch (RuntimeException | Error broken) {
            lose();
            ended(take(Plain.EXPIRE).tell()).ifPresent(broken::addSuppressed);
            throw broken;
        }
        if (machine.flying() != Machine.Flying.NOTHING) {
            lose();
        }
        if (told instanceof Told.Settled settled) {
            return recorded(settled.outcome());
        }
        if (told instanceof Told.NotAsked || told instanceof Told.EpochEnded ended && ended.unmet()) {
            obeyed("nothing was asked");
        }
        RvException fault = ended(told).orElseThrow();
        log.ended(turns.name(), fault);
        throw fault;
    }

    /** Records what was heard last, if a record is kept, and then tells that this is the outcome. */
    private Outcome recorded(Outcome outcome) {
        RecordFile file = record.orElse(null);
        byte[] line = file == null ? null : RecordFile.line(Bodies.written(asked), heard);
        try {
            if (file != null) {
                file.append(line);
            }
            return outcome;
        } catch (IOException | RuntimeException fault) {
            throw new RvException.NotRecorded(outcome, line, file, fault);
        } finally {
            last = outcome;
            whenSettled.accept(outcome);
        }
    }

    /** The exception of what ends a call without an outcome. */
    private Optional<RvException> ended(Told told) {
        String words = closed ? "the session was closed"
            : running.fault().orElseGet(() -> named("nothing was heard in time"));
        if (told instanceof Told.Unsettled left) {
            return Optional.of(new RvException.Unsettled(left.key(), left.accepted(), words));
        }
        if (told instanceof Told.NotAsked) {
            return Optional.of(new RvException.NotAsked(words));
        }
        if (told instanceof Told.Full full) {
            return Optional.of(new RvException.Full(full.key()));
        }
        if (told instanceof Told.Refused refused) {
            return Optional.of(new RvException.Refused(refused.key(), refused.code(), refused.current(), version));
        }
        if (told instanceof Told.EpochEnded ended) {
            return Optional.of(ended.unmet() ? new RvException.NotAsked(ended.key(), ended.current())
                : new RvException.EpochEnded(ended.key(), ended.current()));
        }
        return told instanceof Told.Replaced replaced
            ? Optional.of(new RvException.Replaced(replaced.key(), replaced.current())) : Optional.empty();
    }

    /** Talks to the server until there is something to tell. */
    private Told told() {
        JsonObject next = null;
        while (true) {
            Told told = due();
            if (told != null) {
                return told;
            }
            try {
                Step step = exchange(machine.flying() == Machine.Flying.NOTHING ? null : next);
                if (step.tell() != null) {
                    return step.tell();
                }
                next = step.send();
            } catch (Link.Woken woken) {
                lose();
            } catch (IOException fault) {
                failed(fault.getMessage() == null ? "the connection was lost" : fault.getMessage());
            }
        }
    }

    /** Takes in what is due: that the request is given up, that the times are over, that the session was closed. */
    private Told due() {
        Told told = null;
        if (running.takesGiveUp(closed)) {
            if (machine.flying() != Machine.Flying.NOTHING) {
                lose();
            }
            told = take(Plain.GIVE_UP).tell();
        }
        return told == null && running.isExpired() ? take(Plain.EXPIRE).tell() : told;
    }

    /** Says one message, this one or what is to be said now, and takes its answer in. */
    private Step exchange(JsonObject next) throws IOException {
        if (next == null) {
            connect();
        }
        JsonObject message = next == null ? take(Plain.SPEAK).send() : next;
        boolean greets = machine.flying() == Machine.Flying.HELLO;
        link.send(Bodies.written(message), running.left(answerTime));
        heard = link.hear(greets ? turns.part(running.left(answerTime)) : running.left(answerTime));
        JsonObject answer = Bodies.readAnswer(heard);
        if (Bodies.word(answer, "kind").equals("refused")) {
            log.refused(turns.name(), refusal(answer));
        }
        Step step = hear(answer);
        if (step.send() != null || step.tell() != null) {
            welcomed |= machine.state() != Machine.State.NEW;
            turns.ledOn();
            log.ledOn();
            if (step.send() != null) {
                running.heard(silence());
            }
        } else if (step.drop()) {
            dropped(answer);
        } else {
            running.failed(turns.name(), named(refusal(answer)));
            pause();
        }
        return step;
    }

    /** Takes an answer in; or says the hello of a greater incarnation, where the server's word asks for one. */
    private Step hear(JsonObject answer) {
        Event event = new Event.Hear(answer);
        if (renews && machine.state() == Machine.State.NEW && machine.step(event).tell() instanceof Told.Replaced other
                && other.current() < Key.GREATEST) {
            renews = false;
            machine = anew(other.current() + 1);
            return take(Plain.SPEAK);
        }
        return take(event);
    }

    /** The machine that begins in this incarnation, with the call that waits for the welcome. */
    private Machine anew(long incarnation) {
        Incarnations.used(incarnation);
        return Machine.started(machine.client(), incarnation, version).step(new Event.Ask(machine.call())).machine();
    }

    private static String refusal(JsonObject answer) {
        return RvException.Refused.words((int) Bodies.number(answer, "code"));
    }

    /** Whether an answer is the refusal of a server whose epoch is below the session's. */
    private boolean isOfALowerEpoch(JsonObject answer) {
        return Bodies.word(answer, "kind").equals("refused") && Bodies.number(answer, "code") == 2 && machine.key() != null
            && Bodies.number(answer, "current") < machine.key().epoch();
    }

    /** What is wrong, with the server's name before it. */
    private String named(String words) {
        String server = turns.name() + ": ";
        return words.startsWith(server) ? words : server + words;
    }

    /** An answer came that the request cannot have, and its connection was thrown away. */
    private void dropped(JsonObject answer) {
        if (isOfALowerEpoch(answer)) {
            String words = "the server is of the lower epoch " + Bodies.number(answer, "current") + ", and the session of "
                + machine.key().epoch();
            log.notReached(turns.name(), named(words));
            goesOn(words);
        } else {
            String words = "an answer came that this request has not";
            log.lost(turns.name(), words);
            goesOn(words);
        }
    }

    /** Has a connection, a new one where there was none or the peer closed it. */
    private void connect() throws IOException {
        if (link != null && link.isOver()) {
            log.lost(turns.name(), "closed meanwhile");
            hangUp();
        }
        if (link == null) {
            link = turns.make(this::isWoken);
            link.connect(turns.part(running.left(answerTime)));
            connected = true;
            log.connected(turns.name());
        }
    }

    /** Makes what an event makes of the machine its machine, at once. */
    private Step take(Event event) {
        Step step = machine.step(event);
        machine = step.machine();
        if (machine.flying() == Machine.Flying.REQUEST && step.send() != null) {
            asked = step.send();
        }
        if (step.drop()) {
            hangUp();
        }
        return step;
    }

    /** Whether the call has something else to do than to wait. */
    private boolean isWoken() {
        return running.isDue(closed);
    }

    /** No connection was made, or it was lost, and this says why. */
    private void failed(String words) {
        if (connected) {
            log.lost(turns.name(), words);
        } else {
            log.notReached(turns.name(), named(words));
        }
        lose();
        goesOn(words);
    }

    /** Goes on after a fault that cost the connection: with the next address at once, and after a pause where each had one. */
    private void goesOn(String words) {
        running.failed(turns.name(), named(words));
        if (turns.endsRound()) {
            pause();
        }
    }

    /** Pauses for a random time, which may be longer each time. */
    private void pause() {
        long pause = running.nextPause();
        log.triedAgain(turns.name(), pause);
        long ends = System.nanoTime() + pause;
        for (long left = ends - System.nanoTime(); left > 0 && !isWoken(); left = ends - System.nanoTime()) {
            LockSupport.parkNanos(this, left);
        }
    }

    private void lose() {
        hangUp();
        take(Plain.LOSE);
    }

    private void hangUp() {
        Link old = link;
        link = null;
        connected = false;
        if (old != null) {
            old.close();
        }
    }

    /** Closes the connection, unless a call runs. */
    void rest() {
        if (caller.compareAndSet(null, Thread.currentThread())) {
            try {
                hangUp();
            } finally {
                caller.set(null);
            }
        }
    }

    /**
     * Closes the session for good. Another thread's call that runs ends by what is known: {@link RvException.NotAsked},
     * {@link RvException.Full} or {@link RvException.Unsettled}. One that is being given up, by an interrupt, its time or
     * another thread, has a second at most to hear what became of it. This does not wait. An unsettled request goes on
     * standing at the server, until a greater incarnation of the client says hello.
     */
    @Override
    public void close() {
        closed = true;
        wake();
        rest();
    }

    /** The server, the client, its epoch, and what runs. Any thread may ask, at any time. */
    @Override
    public String toString() {
        Machine now = machine;
        String epoch = now.key() == null ? "" : " epoch " + now.key().epoch();
        return "RvSession[" + turns + " client " + now.client() + epoch + " " + state(now) + "]";
    }

    private String state(Machine now) {
        if (closed) {
            return "closed";
        }
        if (caller.get() != null) {
            return now.call() == null ? "running" : "running " + Calls.shown(now.call());
        }
        return switch (now.state()) {
            case NEW -> "before its welcome";
            case IDLE -> "idle";
            case OUTSTANDING -> "unsettled " + Calls.shown(now.call());
            case ENDED -> "ended";
        };
    }

    /** Has the call that runs, if one does, look what it is to do. */
    private void wake() {
        Thread calling = caller.get();
        if (calling != null) {
            LockSupport.unpark(calling);
        }
        Link waiting = link;
        if (waiting != null) {
            waiting.wake();
        }
    }
}
