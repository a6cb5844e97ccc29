package goodlock.agent;

import goodlock.recorder.Locks;
import goodlock.recorder.Ring;
import java.util.Collections;
import java.util.Map;
import java.util.WeakHashMap;

/** Knows which class loaders find the recorder. A loader of modules may ask the platform only for some packages: its classes must stay as they are. */
final class Loaders {
    private static final String RECORDER = "goodlock.recorder.Locks";

    private final Map<ClassLoader, Boolean> known = Collections.synchronizedMap(new WeakHashMap<>());

    /** `loader`: null for that of the platform. */
    boolean findsRecorder(ClassLoader loader) {
        if (loader == null) return true;
        Boolean before = known.get(loader);
        if (before != null) return before;
        boolean finds = asks(loader);
        if (known.put(loader, finds) == null && !finds) say(loader);
        return finds;
    }

    private static boolean asks(ClassLoader loader) {
        try {
            return loader.loadClass(RECORDER) == Locks.class;
        } catch (ClassNotFoundException | LinkageError | RuntimeException error) {
            return false;
        }
    }

    private static void say(ClassLoader loader) {
        String what = "the classes of the loader " + loader.getClass().getName() + ", which does not ask the platform for goodlock.*";
        Premain.say("cannot change " + what + "; their locks are not seen. In OSGi set org.osgi.framework.bootdelegation=goodlock.*");
        Ring.unseen("the locks of " + what);
    }
}
