package rendezvous;

import static org.junit.jupiter.api.Assertions.assertEquals;
import static org.junit.jupiter.api.Assertions.assertTrue;

import java.io.IOException;
import java.io.PrintWriter;
import java.io.StringWriter;
import java.nio.file.Files;
import java.nio.file.Path;
import java.util.spi.ToolProvider;
import java.util.stream.Stream;
import org.junit.jupiter.api.Test;
import org.junit.jupiter.api.io.TempDir;

/** The pages of Javadoc, which the JDK's tool makes without a word; Maven packs those that this test made. */
final class JavadocTest {
    @TempDir
    private Path folder;

    @Test
    void thePagesAreMadeWithoutAWord() throws IOException {
        Path pages = Path.of(System.getProperty("rendezvous.javadoc", folder.toString()));
        StringWriter said = new StringWriter();
        PrintWriter words = new PrintWriter(said);
        int status = ToolProvider.findFirst("javadoc").orElseThrow().run(words, words, "-quiet", "-Xdoclint:all,-missing", "-Werror",
            "-encoding", "UTF-8", "--release", "17", "-notimestamp", "-cp", System.getProperty("java.class.path"),
            "-d", pages.toString(), "-sourcepath", sources().toString(), "rendezvous");
        assertEquals("", said.toString());
        assertEquals(0, status);
        assertTrue(Files.isRegularFile(pages.resolve("rendezvous/RvTransferQueue.html")));
    }

    private static Path sources() {
        return Stream.iterate(Path.of("").toAbsolutePath(), path -> path != null, Path::getParent)
            .flatMap(path -> Stream.of(path.resolve("src/main/java"), path.resolve("clients/java/src/main/java")))
            .filter(Files::isDirectory).findFirst().orElseThrow();
    }
}
