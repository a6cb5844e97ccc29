package goodlock.recorder;

/** What woven code calls around waits on conditions: a release, and later a receive and an acquire. */
public final class Waits {
    private Waits() {}

    public static void awaits(Object lock, Object condition) {
        awaits(lock, condition, Sites.UNKNOWN);
    }

    private static void awaits(Object lock, Object condition, int site) {
        ThreadState state = ThreadState.enter();
        if (state == null) return;
        try {
            state.awaits(lock, condition, site == Sites.UNKNOWN ? state.site : site);
        } catch (Throwable error) {
            ThreadState.faults++;
        }
        state.isInside = false;
    }

    public static void awaited() {
        awaited(Sites.UNKNOWN);
    }

    private static void awaited(int site) {
        ThreadState state = ThreadState.enter();
        if (state == null) return;
        try {
            state.awaited(site == Sites.UNKNOWN ? state.site : site);
        } catch (Throwable error) {
            ThreadState.faults++;
        }
        state.isInside = false;
    }

    // ---- instead of the calls of Object ----

    public static void monitorWait(Object lock, int site) throws InterruptedException {
        monitorWait(lock, 0, 0, site);
    }

    public static void monitorWait(Object lock, long milliseconds, int site) throws InterruptedException {
        monitorWait(lock, milliseconds, 0, site);
    }

    public static void monitorWait(Object lock, long milliseconds, int nanoseconds, int site) throws InterruptedException {
        if (lock != null) awaits(lock, lock, site);
        try {
            lock.wait(milliseconds, nanoseconds);
        } finally {
            awaited(site);
        }
    }
}
