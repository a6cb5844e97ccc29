// Loads and links each class of the packages java and javax of the platform, for tests/agents_java: java Links. Prints how many there are, and
// each class that the virtual machine refuses.
import java.net.URI;
import java.nio.file.FileSystems;
import java.nio.file.Files;
import java.nio.file.Path;
import java.util.Iterator;
import java.util.stream.Stream;

class Links {
    public static void main(String[] words) throws Exception {
        int count = 0;
        try (Stream<Path> all = Files.walk(FileSystems.getFileSystem(URI.create("jrt:/")).getPath("/modules"))) {
            for (Iterator<Path> paths = all.iterator(); paths.hasNext();) {
                String path = paths.next().toString(); // /modules/java.base/java/lang/Object.class
                if (!path.endsWith(".class") || path.endsWith("-info.class")) continue;
                String name = path.substring(path.indexOf('/', "/modules/".length()) + 1, path.length() - ".class".length()).replace('/', '.');
                if (name.startsWith("java.") || name.startsWith("javax.")) count += links(name);
            }
        }
        System.out.println(count + " classes");
    }

    /** Reflection links a class. */
    static int links(String name) {
        try {
            return Class.forName(name, false, null).getDeclaredMethods().length >= 0 ? 1 : 0;
        } catch (ClassNotFoundException | NoClassDefFoundError error) {
            return 0;
        } catch (LinkageError error) {
            System.out.println("refused: " + name + ": " + error);
            return 0;
        }
    }
}
