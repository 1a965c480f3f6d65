package rendezvous;

import com.google.gson.JsonObject;
import com.google.gson.JsonParser;
import java.io.IOException;
import java.nio.file.Files;
import java.nio.file.Path;
import java.time.Duration;
import java.util.List;
import java.util.Optional;
import java.util.concurrent.Callable;
import java.util.concurrent.TimeUnit;

/**
 * A script of calls over real links, again and again: at each call of a link, and behind it, once an interrupt, once a
 * close, once a lost link and once an error is let in. Behind each, what the session says must be what the book has, and
 * so must be what the record has.
 * Prints how many runs there were.
 */
final class LetIn {
    /** What is let in. */
    enum What { NOTHING, INTERRUPT, CLOSE, LOSS, FAULT }

    private final Book book;
    private final What what;
    private final int at;
    private final boolean behind;
    private final Path kept;
    private int calls;
    private int open;
    private boolean done;
    private RvSession session;

    private LetIn(Book book, What what, int at, boolean behind, Path kept) {
        this.book = book;
        this.what = what;
        this.at = at;
        this.behind = behind;
        this.kept = kept;
    }

    public static void main(String[] words) throws Exception {
        int count = runs(What.NOTHING, -1, false);
        int runs = 0;
        for (What what : List.of(What.INTERRUPT, What.CLOSE, What.LOSS, What.FAULT)) {
            for (int at = 0; at < 2 * count; at++) {
                runs(what, at / 2, at % 2 == 1);
                runs++;
            }
        }
        System.out.println(runs + " runs, " + count + " calls of a link");
    }

    /** Runs the script; how many calls of its links it had. */
    private static int runs(What what, int at, boolean behind) throws Exception {
        Path kept = Files.createTempFile("rv-let-in-", ".record");
        try (Book own = new Book()) {
            LetIn run = new LetIn(own, what, at, behind, kept);
            try (RvClients clients = new RvClients(1, 1, run::session)) {
                run.plays(new RvTransferQueue(clients, 3));
            } catch (Exception | AssertionError fault) {
                throw new AssertionError(what + (behind ? " behind " : " at ") + "call " + at, fault);
            }
            demand(run.open == 0, run.open + " links are open");
            return run.calls;
        } finally {
            Files.delete(kept);
        }
    }

    private RvSession session(long client) {
        session = new RvSession(woken -> new Watched(new SocketLink("127.0.0.1", book.port(), woken)), client, 1,
            Duration.ofMinutes(1), Duration.ofMinutes(1), 2);
        // what a slow machine has time for
        session.grace(Answering.LONG);
        session.record(Optional.of(new RecordFile(kept)));
        return session;
    }

    private static void demand(boolean holds, String words) {
        if (!holds) {
            throw new AssertionError(words);
        }
    }

    private void plays(RvTransferQueue queue) throws Exception {
        List<Callable<?>> script = List.of(() -> queue.transferReceipt("a"), queue::size, queue::take,
            () -> queue.poll(1, TimeUnit.MILLISECONDS), () -> {
                queue.put("b");
                return "done";
            }, queue::take);
        for (Callable<?> each : script) {
            boolean before = done;
            plays(each, before);
            if (what == What.CLOSE && done) {
                ended(each);
                return;
            }
        }
        demand(done || what == What.NOTHING || at >= calls, "nothing was let in");
    }

    /** One call, and what it says. An interrupt that was let in is told once. */
    private void plays(Callable<?> each, boolean before) throws Exception {
        boolean told = false;
        try {
            each.call();
            demand(session.last().isPresent(), "no outcome is there");
        } catch (InterruptedException cancelled) {
            told = true;
            demand(what == What.INTERRUPT, "nobody interrupted");
        } catch (RvException.Unsettled left) {
            demand(what == What.CLOSE, "unsettled: " + left);
            demand(left.getMessage().contains("the session was closed"), "it says " + left);
        } catch (RvException.NotAsked nothing) {
            demand(what == What.CLOSE, "not asked: " + nothing);
            demand(book.count() == 0, "it was asked");
        } catch (LinkageError fault) {
            settles(fault);
        }
        boolean now = done && !before && what == What.INTERRUPT;
        demand((Thread.interrupted() || told) == now, "the interrupt was lost, or told without one");
        stands();
    }

    /** Behind an error, a request that is unsettled says so, and is settled. */
    private void settles(LinkageError fault) throws InterruptedException {
        demand(what == What.FAULT, "an error: " + fault);
        demand(fault.getSuppressed().length == 1, "the error does not tell what is known");
        if (session.isUnsettled()) {
            demand(fault.getSuppressed()[0] instanceof RvException.Unsettled, "it is told otherwise");
            session.again();
        }
    }

    /** The last outcome is the book's, and the next key is that of the first number without a reply. */
    private void stands() throws IOException {
        session.last().ifPresent(outcome -> demand(Answers.of(outcome).equals(book.reply(outcome.key().number())),
            outcome + " is told, and " + book.reply(outcome.key().number()) + " stands"));
        if (what != What.CLOSE && session.key() != null) {
            demand(session.key().number() == book.count() + 1, "the next key is " + session.key());
            demand(!session.isUnsettled(), "it is unsettled");
            recorded(book.count());
        }
    }

    /** The record has each request that was settled, one behind another, with the book's reply. */
    private void recorded(int count) throws IOException {
        List<String> lines = Files.readAllLines(kept);
        demand(lines.size() == count, lines.size() + " lines are kept of " + count + " replies");
        for (int number = 1; number <= count; number++) {
            JsonObject line = JsonParser.parseString(lines.get(number - 1)).getAsJsonObject();
            JsonObject asked = line.getAsJsonObject("asked");
            demand(Bodies.word(asked, "kind").equals("request") && asked.has("call") && Bodies.number(asked, "number") == number,
                "request " + number + " is kept as " + asked);
            demand(Answers.of(Replies.outcomeOf(line.getAsJsonObject("told"))).equals(book.reply(number)),
                "the reply of " + number + " is kept as " + line);
        }
    }

    /** Behind a close nothing is asked any more. */
    private void ended(Callable<?> each) throws Exception {
        int count = calls;
        try {
            each.call();
            throw new AssertionError("a closed session asks");
        } catch (IllegalStateException closed) {
            demand(calls == count, "a closed session calls its link");
        }
    }

    /** Lets in what is to be let in at this call. */
    private void counted(boolean isBehind) throws IOException {
        calls += isBehind ? 0 : 1;
        if (calls - 1 != at || isBehind != behind || done) {
            return;
        }
        done = true;
        switch (what) {
            case INTERRUPT -> Thread.currentThread().interrupt();
            case CLOSE -> session.close();
            case LOSS -> throw new IOException("let in");
            case FAULT -> throw new LinkageError("let in");
            default -> done = false;
        }
    }

    /** A link that counts its calls. */
    private final class Watched implements Link {
        private final Link link;

        Watched(Link link) throws IOException {
            this.link = link;
            open++;
        }

        @Override
        public void connect(long nanos) throws IOException {
            counted(false);
            link.connect(nanos);
            counted(true);
        }

        @Override
        public boolean isOver() {
            try {
                counted(false);
                boolean over = link.isOver();
                counted(true);
                return over;
            } catch (IOException lost) {
                return true;
            }
        }

        @Override
        public void send(byte[] body, long nanos) throws IOException {
            counted(false);
            link.send(body, nanos);
            counted(true);
        }

        @Override
        public byte[] hear(long nanos) throws IOException {
            counted(false);
            byte[] body = link.hear(nanos);
            counted(true);
            return body;
        }

        @Override
        public void wake() {
            link.wake();
        }

        @Override
        public void close() {
            open--;
            link.close();
        }
    }
}
