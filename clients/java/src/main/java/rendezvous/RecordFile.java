package rendezvous;

import java.io.IOException;
import java.io.OutputStream;
import java.io.UncheckedIOException;
import java.nio.ByteBuffer;
import java.nio.charset.StandardCharsets;
import java.nio.file.AccessDeniedException;
import java.nio.file.FileSystemException;
import java.nio.file.Files;
import java.nio.file.NoSuchFileException;
import java.nio.file.Path;
import java.nio.file.StandardOpenOption;
import java.nio.file.attribute.BasicFileAttributes;
import java.util.Map;
import java.util.Optional;

/** A record of what clients were told: a file that gets a line for each reply before its call ends. */
final class RecordFile {
    /** The variable that names the file. */
    static final String VARIABLE = "RV_RECORD";
    /** How many bytes are tried where a file can be made. */
    private static final int ROOM = 4_096;
    /** The bits of a mode that tell what a file is, and those of a character device. */
    private static final int KIND = 0170000;
    private static final int CHARACTERS = 0020000;
    private static final byte[] ASKED = "{\"asked\":".getBytes(StandardCharsets.UTF_8);
    private static final byte[] TOLD = ",\"told\":".getBytes(StandardCharsets.UTF_8);
    private static final byte[] END = "}\n".getBytes(StandardCharsets.UTF_8);

    private final Path file;

    RecordFile(Path file) {
        this.file = file.toAbsolutePath();
    }

    /** The record that the environment names; none where it names none, or an empty one. */
    static Optional<RecordFile> of(Map<String, String> environment) {
        return Optional.ofNullable(environment.get(VARIABLE)).filter(named -> !named.isEmpty())
            .map(named -> new RecordFile(Path.of(named)));
    }

    /** The line of a reply: the request's body and the reply's. In that LF is white space alone, for which a space stands. */
    static byte[] line(byte[] asked, byte[] told) {
        ByteBuffer line = ByteBuffer.allocate(ASKED.length + asked.length + TOLD.length + told.length + END.length);
        line.put(ASKED).put(asked).put(TOLD);
        for (byte each : told) {
            line.put(each == '\n' ? (byte) ' ' : each);
        }
        return line.put(END).array();
    }

    @Override
    public String toString() {
        return file.toString();
    }

    /**
     * Finds what is in the way of a line, as far as nothing has to be written for that, and leaves what there is as it is: there
     * need be no file, but one can be made.
     *
     * @throws UncheckedIOException that names the file, where no line can be written
     */
    void check() {
        try {
            if (!isThere()) {
                tryBeside(Files.isSymbolicLink(file) ? file.resolveSibling(Files.readSymbolicLink(file)) : file);
            } else if (Files.isRegularFile(file) || Files.isDirectory(file)) {
                Files.newOutputStream(file, StandardOpenOption.APPEND, StandardOpenOption.WRITE).close();
            } else if (!isCharacterDevice()) {
                // to open a pipe that nobody reads would take for ever
                throw new FileSystemException(file.toString(), null, "it is neither a file nor a character device");
            } else if (!Files.isWritable(file)) {
                throw new AccessDeniedException(file.toString());
            }
        } catch (IOException fault) {
            throw new UncheckedIOException("no record can be kept in " + file + ": " + why(fault), fault);
        }
    }

    /** The reason, without the name of a file that was tried. */
    private static String why(IOException fault) {
        if (fault instanceof NoSuchFileException) {
            return "there is no such folder";
        }
        if (fault instanceof AccessDeniedException) {
            return "permission denied";
        }
        return fault instanceof FileSystemException other && other.getReason() != null ? other.getReason() : fault.toString();
    }

    /** Whether there is a file; what hides that is thrown. */
    private boolean isThere() throws IOException {
        try {
            Files.readAttributes(file, BasicFileAttributes.class);
            return true;
        } catch (NoSuchFileException none) {
            return false;
        }
    }

    /** Whether it is one; what the system does not tell apart is taken for one. */
    private boolean isCharacterDevice() throws IOException {
        return !file.getFileSystem().supportedFileAttributeViews().contains("unix")
            || ((int) Files.getAttribute(file, "unix:mode") & KIND) == CHARACTERS;
    }

    /** Makes another file where this one would be, writes a line's length to it, and takes it away. */
    private static void tryBeside(Path path) throws IOException {
        Path other = Files.createTempFile(path.toAbsolutePath().getParent(), ".rv-record-", null);
        try {
            Files.write(other, new byte[ROOM]);
        } finally {
            Files.delete(other);
        }
    }

    /** Appends a line by one write. The file is opened for it, and made where there is none. */
    void append(byte[] line) throws IOException {
        // no channel: an interrupt would close it
        try (OutputStream end = Files.newOutputStream(file, StandardOpenOption.CREATE, StandardOpenOption.APPEND)) {
            end.write(line);
        }
    }
}
