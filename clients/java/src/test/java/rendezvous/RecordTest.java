package rendezvous;

import static org.junit.jupiter.api.Assertions.assertEquals;
import static org.junit.jupiter.api.Assertions.assertFalse;
import static org.junit.jupiter.api.Assertions.assertInstanceOf;
import static org.junit.jupiter.api.Assertions.assertThrows;
import static org.junit.jupiter.api.Assertions.assertTrue;

import com.google.gson.JsonObject;
import com.google.gson.JsonParser;
import java.io.IOException;
import java.io.UncheckedIOException;
import java.nio.file.Files;
import java.nio.file.Path;
import java.util.List;
import java.util.Set;
import java.util.concurrent.BlockingQueue;
import java.util.concurrent.CompletableFuture;
import java.util.concurrent.CompletionException;
import java.util.concurrent.ExecutorService;
import java.util.concurrent.Executors;
import java.util.concurrent.LinkedBlockingQueue;
import java.util.concurrent.TimeUnit;
import java.util.stream.Collectors;
import java.util.stream.IntStream;
import java.util.stream.Stream;
import org.junit.jupiter.api.Test;
import org.junit.jupiter.api.Timeout;
import org.junit.jupiter.api.condition.EnabledOnOs;
import org.junit.jupiter.api.condition.OS;
import org.junit.jupiter.api.io.TempDir;

/** The record of what clients were told: a line for each reply, or an exception that has the reply. */
@Timeout(value = 5, unit = TimeUnit.MINUTES)
final class RecordTest {
    private static final int THREADS = 8;
    private static final int EACH = 100;
    @TempDir
    private Path folder;

    /** The members of each line, which is whole. */
    private static List<JsonObject> lines(Path file) throws IOException {
        assertTrue(Files.readString(file).endsWith("}\n"));
        return Files.readAllLines(file).stream().map(line -> JsonParser.parseString(line).getAsJsonObject()).toList();
    }

    /** A server that says nothing to requests but puts, and this item to cancels. */
    private static Answering silentTo(String item) throws IOException {
        return new Answering(message -> switch (Bodies.word(message, "call")) {
            case "put" -> Answering.well(message);
            case "take" -> null;
            default -> Answering.reply(message, key -> new Outcome.Item(key, item));
        });
    }

    @Test
    void eachReplyHasItsLine() throws Exception {
        Path file = folder.resolve("record");
        try (Answering server = new Answering(Answering::well); RvClients clients = server.clients(1, 1).record(file).build()) {
            new RvTransferQueue(clients, 3).put("a");
            JsonObject line = lines(file).get(0);
            assertEquals(Set.of("asked", "told"), line.keySet());
            assertEquals(server.asked(), List.of(line.getAsJsonObject("asked")));
            assertEquals(Answers.of(clients.last().orElseThrow()), line.getAsJsonObject("told"));
        }
    }

    @Test
    void anInterruptLeavesTheLineWhole() throws Exception {
        Path file = folder.resolve("record");
        try (Answering server = new Answering(Answering::well); RvClients clients = server.clients(1, 1).record(file).build()) {
            Thread.currentThread().interrupt();
            new RvTransferQueue(clients, 3).put("a");
            assertTrue(Thread.interrupted());
            assertEquals(1, lines(file).size());
        }
    }

    @Test
    void threadsShareAFile() throws Exception {
        Path file = folder.resolve("record");
        try (Answering server = new Answering(Answering::well);
                RvClients clients = server.clients(1, THREADS).record(file).build()) {
            RvTransferQueue queue = new RvTransferQueue(clients, 3);
            List<Thread> threads = IntStream.range(0, THREADS)
                .mapToObj(each -> new Thread(() -> IntStream.range(0, EACH).forEach(item -> queue.put("\u0001".repeat(512)))))
                .toList();
            threads.forEach(Thread::start);
            for (Thread thread : threads) {
                thread.join();
            }
        }
        List<JsonObject> lines = lines(file);
        assertEquals(THREADS * EACH, lines.size());
        assertEquals(THREADS * EACH,
            lines.stream().map(line -> Bodies.keyOf(line.getAsJsonObject("told"))).collect(Collectors.toSet()).size());
    }

    /** Clients whose record turns bad once they are made: a folder is in its place. */
    private RvClients turning(RvClients.Builder builder) throws IOException {
        Path file = folder.resolve("record");
        RvClients clients = builder.record(file).build();
        Files.createDirectory(file);
        return clients;
    }

    @Test
    void whatCanNotBeWrittenIsFoundBeforeAnythingIsAsked() throws Exception {
        try (Answering server = new Answering(Answering::well)) {
            for (Path path : List.of(folder, folder.resolve("none").resolve("record"))) {
                RvClients.Builder builder = server.clients(1, 1).record(path);
                UncheckedIOException fault = assertThrows(UncheckedIOException.class, builder::build);
                assertTrue(fault.getMessage().contains(path.toString()), fault.getMessage());
            }
            assertEquals(0, server.connections());
        }
        try (Stream<Path> left = Files.list(folder)) {
            assertEquals(0, left.count());
        }
    }

    @Test
    @EnabledOnOs({OS.LINUX, OS.MAC})
    void aPipeIsRefusedAndADeviceIsTaken() throws Exception {
        Path pipe = folder.resolve("pipe");
        assertEquals(0, new ProcessBuilder("mkfifo", pipe.toString()).start().waitFor());
        try (Answering server = new Answering(Answering::well)) {
            UncheckedIOException fault = assertThrows(UncheckedIOException.class, server.clients(1, 1).record(pipe)::build);
            assertEquals("no record can be kept in " + pipe + ": it is neither a file nor a character device", fault.getMessage());
            server.clients(1, 1).record(Path.of("/dev/null")).build().close();
            assertEquals(0, server.connections());
        }
    }

    @Test
    void whatCanNotBeWrittenIsInTheException() throws Exception {
        try (Answering server = new Answering(Answering::well); RvClients clients = turning(server.clients(1, 1))) {
            RvTransferQueue queue = new RvTransferQueue(clients, 3);
            for (int number = 1; number <= 2; number++) {
                RvException.NotRecorded fault = assertThrows(RvException.NotRecorded.class, () -> queue.put("a"));
                Outcome done = new Outcome.Done(new Key(1, 1, 1, number));
                assertEquals(done, fault.outcome());
                assertEquals(done.key(), fault.key());
                assertEquals(done, clients.last().orElseThrow());
                assertInstanceOf(IOException.class, fault.getCause());
                assertEquals(Answers.of(done), JsonParser.parseString(fault.line()).getAsJsonObject().get("told"));
            }
            assertTrue(clients.unsettled().isEmpty());
        }
    }

    @Test
    void aFutureTellsIt() throws Exception {
        try (Answering server = new Answering(message -> Answering.reply(message, key -> new Outcome.Item(key, "a")));
                RvClients clients = turning(server.clients(1, 1))) {
            RvTransferQueue queue = new RvTransferQueue(clients, 3);
            Throwable told = assertThrows(CompletionException.class, queue.takeAsync()::join).getCause();
            RvException.NotRecorded fault = assertInstanceOf(RvException.NotRecorded.class, told);
            assertEquals(new Outcome.Item(new Key(1, 1, 1, 1), "a"), fault.outcome());
            assertTrue(queue.unclaimed().isEmpty());
        }
    }

    @Test
    void ofACancelledFutureTheThreadsHandlerAloneIsTold() throws Exception {
        BlockingQueue<Throwable> uncaught = new LinkedBlockingQueue<>();
        ExecutorService executor = Executors.newSingleThreadExecutor(call -> {
            Thread thread = new Thread(call);
            thread.setUncaughtExceptionHandler((of, fault) -> uncaught.add(fault));
            return thread;
        });
        try (Answering server = silentTo("a");
                RvClients clients = turning(server.clients(1, 1).executor(executor))) {
            RvTransferQueue queue = new RvTransferQueue(clients, 3);
            CompletableFuture<String> taken = queue.takeAsync();
            server.awaitAsked(1);
            taken.cancel(true);
            RvException.NotRecorded fault = assertInstanceOf(RvException.NotRecorded.class, uncaught.take());
            assertEquals(new Outcome.Item(new Key(1, 1, 1, 1), "a"), fault.outcome());
            assertEquals(List.of(), queue.unclaimed(), "it is told once more");
        } finally {
            executor.shutdown();
        }
    }

    @Test
    void noRecordIsKeptWhereNoneIsWanted() throws Exception {
        try (Answering server = new Answering(Answering::well);
                RvClients clients = server.clients(1, 1).record(folder.resolve("record")).unrecorded().build()) {
            new RvTransferQueue(clients, 3).put("a");
            assertFalse(Files.exists(folder.resolve("record")));
        }
    }
}
