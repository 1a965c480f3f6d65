package rendezvous;

import java.io.BufferedReader;
import java.io.ByteArrayOutputStream;
import java.io.IOException;
import java.io.InputStreamReader;
import java.nio.charset.StandardCharsets;
import javax.tools.JavaCompiler;
import javax.tools.ToolProvider;

/**
 * Compiles by each line of standard input, which has the words of a javac with tabs between them, and prints a line for
 * it: what the compiler says, and nothing where it made the classes.
 */
final class Compiles {
    private Compiles() {}

    public static void main(String[] words) throws IOException {
        JavaCompiler compiler = ToolProvider.getSystemJavaCompiler();
        BufferedReader lines = new BufferedReader(new InputStreamReader(System.in, StandardCharsets.UTF_8));
        for (String line = lines.readLine(); line != null; line = lines.readLine()) {
            ByteArrayOutputStream said = new ByteArrayOutputStream();
            int status = compiler.run(null, said, said, line.split("\t"));
            String told = said.toString(StandardCharsets.UTF_8).replace('\n', ' ');
            System.out.println(status == 0 ? "" : "javac says " + told);
        }
    }
}
