package goodlock.recorder;

import java.io.File;
import java.util.ArrayList;
import java.util.HashMap;
import java.util.List;
import java.util.Map;

/** The texts of source lines: `src/main/java/bank/Account.java:12 in Account.move`. A class file names no folder; usual ones are tried. */
public final class Lines {
    private static final String[] USUAL = {"", "src/main/java/", "src/test/java/", "src/main/kotlin/", "src/test/kotlin/", "src/main/scala/",
        "src/test/scala/", "src/", "test/", "java/"};
    private static final Map<String, String> FOUND = new HashMap<>();
    private static final List<String> FOLDERS = folders();

    private Lines() {}

    /** A program that is started from its source, `java bank/Bank.java`, is in the folder of that file. */
    private static List<String> folders() {
        String here = System.getProperty("user.dir", "") + "/";
        List<String> all = new ArrayList<>();
        for (String folder : USUAL) all.add(here + folder);
        for (String word : System.getProperty("sun.java.command", "").split(" ")) {
            if (!word.endsWith(".java")) continue;
            File folder = new File(word).getAbsoluteFile().getParentFile();
            if (folder != null) all.add(folder + "/");
        }
        return all;
    }

    static String text(boolean isOfPlatform, String file, int line, String type, String method) {
        String place = line > 0 ? ":" + line : "";
        return (isOfPlatform ? file : pathOf(file)) + place + " in " + simple(type) + "." + plain(method);
    }

    private static synchronized String pathOf(String file) {
        String path = FOUND.get(file);
        if (path == null) FOUND.put(file, path = find(file));
        return path;
    }

    /** A security manager may refuse the look. */
    private static String find(String file) {
        try {
            for (String folder : FOLDERS) if (new File(folder + file).isFile()) return folder + file;
        } catch (SecurityException error) {
            return file;
        }
        return file;
    }

    private static String simple(String type) {
        return type.substring(type.lastIndexOf('.') + 1);
    }

    /** Returns `bank/Account.java` of a class `bank.Account` and its file; a class of the platform has its module in front. */
    public static String fileOf(String module, String type, String file) {
        String folder = type.substring(0, type.lastIndexOf('.') + 1).replace('.', '/');
        return (module == null ? "" : module + "/") + folder + (file == null ? simple(type) : file);
    }

    /** A lambda has the name of its method: its own has a number, which an edit elsewhere changes. */
    static String plain(String method) {
        if (!method.startsWith("lambda$")) return method.replaceAll("[<>]", "");
        int end = method.lastIndexOf('$');
        return end > 7 ? method.substring(7, end) : method;
    }
}
