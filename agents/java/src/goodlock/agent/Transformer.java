package goodlock.agent;

import goodlock.recorder.Ring;
import goodlock.recorder.ThreadState;
import goodlock.weaver.Weaver;
import java.io.IOException;
import java.io.InputStream;
import java.lang.instrument.ClassFileTransformer;
import java.security.ProtectionDomain;
import java.util.ArrayList;
import java.util.List;
import java.util.concurrent.atomic.AtomicInteger;

/** Chooses the classes that are woven: all of the program, and those of the platform whose locks a program can meet. */
final class Transformer implements ClassFileTransformer {
    private static final String[] OF_PLATFORM = {"java/util/", "java/io/Print", "java/io/Piped", "java/net/", "java/sql/", "java/nio/", "java/beans/",
        "java/rmi/", "java/awt/", "java/text/", "java/security/", "javax/", "java/lang/StringBuffer", "java/lang/Thread", "java/lang/VirtualThread",
        "java/lang/Shutdown"};
    /* Locks of the platform's own, which are taken all the time: of ends of threads, of zip and jar files, of addresses in the net. */
    private static final String[] NOT = {"java/lang/ThreadL", "java/lang/ThreadG", "java/lang/Threads", "java/lang/ThreadB",
        "java/lang/VirtualThread$", "java/util/zip/", "java/util/jar/", "java/net/URL"};
    private static final String OWN = "goodlock/";

    private final AtomicInteger refused = new AtomicInteger();
    private final Loaders loaders = new Loaders();

    /** `module`: its name, or null. */
    static boolean isWanted(String module, String name) {
        if (name.startsWith(OWN)) return false;
        return !isOfPlatform(module) || startsWith(name, OF_PLATFORM) && !startsWith(name, NOT);
    }

    private static boolean isOfPlatform(String module) {
        return module != null && (module.startsWith("java.") || module.startsWith("jdk."));
    }

    private static boolean startsWith(String name, String[] prefixes) {
        for (String prefix : prefixes) if (name.startsWith(prefix)) return true;
        return false;
    }

    @Override
    public byte[] transform(Module module, ClassLoader loader, String name, Class<?> before, ProtectionDomain domain, byte[] code) {
        String moduleName = module == null ? null : module.getName();
        if (name == null || !isWanted(moduleName, name)) return null;
        boolean wasInside = ThreadState.setInside(true);
        try {
            if (!loaders.findsRecorder(loader)) return null;
            List<String> unseen = new ArrayList<>();
            byte[] result = Weaver.weave(isOfPlatform(moduleName) ? moduleName : null, before == null ? code : original(before, code), unseen);
            for (String one : unseen) refuse(one);
            return result;
        } catch (Throwable error) {
            refuse(name.replace('/', '.') + ": " + error);
            return null;
        } finally {
            ThreadState.setInside(wasInside);
        }
    }

    /** The first one is shown at once, and the report lists all. */
    private void refuse(String what) {
        if (refused.getAndIncrement() == 0) Premain.say("cannot change " + what + "; its locks are not seen");
        Ring.unseen("the locks of " + what);
    }

    /** The archive of the platform's classes has no stack maps: what was loaded from it is read again from its file. */
    private static byte[] original(Class<?> type, byte[] code) throws IOException {
        String name = type.getName();
        try (InputStream stream = type.getResourceAsStream(name.substring(name.lastIndexOf('.') + 1) + ".class")) {
            return stream == null ? code : stream.readAllBytes();
        }
    }
}
