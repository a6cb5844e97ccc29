package goodlock.recorder;

/** What woven code calls around monitors and locks. An acquire is recorded after it is made, a release before. No call throws. */
public final class Locks {
    private static final StackWalker WALKER = StackWalker.getInstance(StackWalker.Option.RETAIN_CLASS_REFERENCE);

    private Locks() {}

    /** Before a monitor is entered. */
    public static ThreadState enters(Object lock, int site) {
        ThreadState state = lock == null ? null : ThreadState.enter();
        if (state == null) return null;
        ThreadState result = null;
        try {
            state.willEnter(lock, site);
            result = state;
        } catch (Throwable error) {
            ThreadState.faults++;
        }
        state.isInside = false;
        return result;
    }

    /** After it: the result of `enters`. */
    public static void entered(ThreadState state) {
        if (state == null) return;
        state.isInside = true;
        try {
            state.hasEntered();
        } catch (Throwable error) {
            ThreadState.faults++;
        }
        state.isInside = false;
    }

    /** At the begin of a synchronized method. */
    public static void begun(Object lock, int site) {
        acquired(lock, Kind.LOCK, site);
    }

    /** After the method of a lock, which is called at the site of the thread. */
    public static void locked(Object lock, int acquire) {
        acquired(lock, acquire, Sites.UNKNOWN);
    }

    public static void lockedIf(boolean isLocked, Object lock, int acquire) {
        if (isLocked) acquired(lock, acquire, Sites.UNKNOWN);
    }

    private static void acquired(Object lock, int acquire, int site) {
        ThreadState state = ThreadState.enter();
        if (state == null) return;
        try {
            int at = site != Sites.UNKNOWN ? site : state.site;
            if (at != Sites.NOT_RECORDED) state.acquired(lock, acquire, at);
        } catch (Throwable error) {
            ThreadState.faults++;
        }
        state.isInside = false;
    }

    /** Before a monitor is left, and at the end of a synchronized method. */
    public static void exits(Object lock, int site) {
        ThreadState state = lock == null ? null : ThreadState.enter();
        if (state == null) return;
        try {
            state.releases(lock, false, site);
        } catch (Throwable error) {
            ThreadState.faults++;
        }
        state.isInside = false;
    }

    /** Before the method of a lock. */
    public static void unlocks(Object lock) {
        releases(lock, false);
    }

    public static void readerUnlocks(Object lock) {
        releases(lock, true);
    }

    private static void releases(Object lock, boolean reads) {
        ThreadState state = ThreadState.enter();
        if (state == null) return;
        try {
            state.releases(lock, reads, state.site);
        } catch (Throwable error) {
            ThreadState.faults++;
        }
        state.isInside = false;
    }

    /** After a call that turns a stamp of a lock into another one. The bit of a writer is the same in all versions of the platform. */
    public static void converted(long result, long stamp, Object lock) {
        final long writer = 128;
        boolean wasWriter = (stamp & writer) != 0;
        boolean wasReader = !wasWriter && (stamp & writer - 1) != 0;
        boolean isWriter = (result & writer) != 0;
        boolean isReader = !isWriter && (result & writer - 1) != 0;
        if (result == 0 || wasWriter == isWriter && wasReader == isReader) return;
        if (wasWriter || wasReader) releases(lock, wasReader);
        int flags = Kind.COUNTS_NONE | Kind.PREFERS_WRITERS;
        if (isWriter) locked(lock, Kind.WRITE_TRIED | flags);
        if (isReader) locked(lock, Kind.READ_LOCK | Kind.READS_TRIED | flags);
    }

    /** Around a call that may reach a method of the platform. */
    public static void site(int site) {
        ThreadState state = ThreadState.enter();
        if (state == null) return;
        state.site = site;
        state.isInside = false;
    }

    /** The class of a static synchronized method in a class file that cannot name it. */
    public static Class<?> callerClass() {
        return WALKER.getCallerClass();
    }
}
