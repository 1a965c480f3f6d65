package rendezvous;

import static org.junit.jupiter.api.Assertions.assertEquals;
import static org.junit.jupiter.api.Assertions.assertThrows;
import static org.junit.jupiter.api.Assertions.assertTrue;

import java.io.IOException;
import java.lang.reflect.Method;
import java.lang.reflect.Modifier;
import java.nio.file.Files;
import java.nio.file.Path;
import java.util.ArrayList;
import java.util.List;
import java.util.Map;
import java.util.Set;
import java.util.TreeSet;
import java.util.concurrent.TimeUnit;
import java.util.concurrent.TransferQueue;
import java.util.concurrent.atomic.AtomicInteger;
import java.util.stream.Stream;
import org.junit.jupiter.api.AfterAll;
import org.junit.jupiter.api.BeforeAll;
import org.junit.jupiter.api.DisplayName;
import org.junit.jupiter.api.Test;

/** The queue of a server: what its interface asks for, and what of that it cannot do. */
@DisplayName("RvTransferQueue")
final class RvTransferQueueTest extends TransferQueueContract {
    private static final AtomicInteger QUEUES = new AtomicInteger();
    private static Served server;
    private static RvClients clients;

    @BeforeAll
    static void serves() throws Exception {
        server = new Served();
        clients = server.clients();
    }

    @AfterAll
    static void ends() throws IOException {
        clients.close();
        server.close();
    }

    @Override
    TransferQueue<String> queue() {
        return new RvTransferQueue(clients, QUEUES.getAndIncrement());
    }

    private interface Refused {
        void run() throws Exception;
    }

    /** What is left out, by name: each form of it. */
    private static Map<String, List<Refused>> leftOut(TransferQueue<String> queue) {
        return Map.ofEntries(
            Map.entry("offer", List.of(() -> queue.offer("a"), () -> queue.offer("a", 1, TimeUnit.DAYS))),
            Map.entry("add", List.of(() -> queue.add("a"))),
            Map.entry("addAll", List.of(() -> queue.addAll(List.of("a")))),
            Map.entry("remainingCapacity", List.of(queue::remainingCapacity)),
            Map.entry("contains", List.of(() -> queue.contains("a"))),
            Map.entry("containsAll", List.of(() -> queue.containsAll(List.of("a")))),
            Map.entry("remove(Object)", List.of(() -> queue.remove("a"))),
            Map.entry("removeAll", List.of(() -> queue.removeAll(List.of("a")))),
            Map.entry("removeIf", List.of(() -> queue.removeIf(item -> true))),
            Map.entry("retainAll", List.of(() -> queue.retainAll(List.of("a")))),
            Map.entry("clear", List.of(queue::clear)),
            Map.entry("iterator", List.of(queue::iterator)),
            Map.entry("spliterator", List.of(queue::spliterator)),
            Map.entry("forEach", List.of(() -> queue.forEach(item -> { }))),
            Map.entry("stream", List.of(queue::stream)),
            Map.entry("parallelStream", List.of(queue::parallelStream)),
            Map.entry("toArray", List.of(queue::toArray, () -> queue.toArray(new String[0]), () -> queue.toArray(String[]::new))));
    }

    @Test
    @DisplayName("what it cannot do it refuses at once, and does nothing")
    void whatIsLeftOutIsRefused() throws Exception {
        TransferQueue<String> queue = queue();
        queue.put("a");
        leftOut(queue).forEach((name, forms) -> forms.forEach(
            form -> assertThrows(UnsupportedOperationException.class, form::run, name)));
        assertEquals(1, queue.size());
        assertEquals("a", queue.poll());
    }

    @Test
    @DisplayName("the page names what it cannot do, and each other method of the interface")
    void thePageNamesEachMethod() throws IOException {
        String page = Files.readString(page());
        Set<String> lacking = new TreeSet<>(leftOut(queue()).keySet());
        Stream.of(TransferQueue.class.getMethods()).filter(method -> !Modifier.isStatic(method.getModifiers()))
            .map(Method::getName).filter(name -> !Set.of("equals", "hashCode", "remove").contains(name)).forEach(lacking::add);
        lacking.removeIf(name -> page.contains("`" + name + "`") || page.contains("`" + name + "("));
        assertEquals(Set.of(), lacking);
    }

    private static Path page() {
        return Stream.iterate(Path.of("").toAbsolutePath(), path -> path != null, Path::getParent)
            .flatMap(path -> Stream.of(path.resolve("README.md"), path.resolve("clients/java/README.md")))
            .filter(path -> Files.isRegularFile(path.resolveSibling("pom.xml"))).findFirst().orElseThrow();
    }

    @Test
    @DisplayName("an item with a property that it cannot have is refused, and nothing is asked")
    void itemsThatNoneCanHaveAreRefused() throws Exception {
        TransferQueue<String> queue = queue();
        for (String item : List.of("x".repeat(513), "é".repeat(257), "\ud800")) {
            assertThrows(IllegalArgumentException.class, () -> queue.put(item));
            assertThrows(IllegalArgumentException.class, () -> queue.transfer(item));
            assertThrows(IllegalArgumentException.class, () -> queue.tryTransfer(item));
            assertThrows(IllegalArgumentException.class, () -> queue.tryTransfer(item, 1, TimeUnit.DAYS));
        }
        assertEquals(0, queue.size());
        queue.put("é".repeat(256));
        assertEquals("é".repeat(256), queue.take());
    }

    @Test
    @DisplayName("the items of a drain that its collection refuses are the last outcome")
    void whatACollectionRefusesIsNotLost() throws Exception {
        TransferQueue<String> queue = queue();
        queue.put("a");
        assertThrows(UnsupportedOperationException.class, () -> queue.drainTo(List.of()));
        List<String> items = new ArrayList<>();
        clients.last().ifPresent(outcome -> items.addAll(((Outcome.Drained) outcome).items()));
        assertEquals(List.of("a"), items);
        assertTrue(queue.isEmpty());
    }
}
