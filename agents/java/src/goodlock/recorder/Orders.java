package goodlock.recorder;

/** What woven code calls where one thread goes on after another one: the giver before its call, the receiver after it. */
public final class Orders {
    private Orders() {}

    public static void gives(Object object) {
        gives(object, 0, Sites.UNKNOWN);
    }

    /** A thread that finds its predicate true does not wait: the collector orders it after the signal. */
    public static void signals(Object condition) {
        signals(condition, Sites.UNKNOWN);
    }

    public static void signals(Object condition, int site) {
        gives(condition, Kind.BY_CONDITION, site);
    }

    /** Of a volatile field of the object. */
    public static void givesValue(Object object, int site) {
        gives(object, Kind.BY_VALUE, site);
    }

    /** The platform uses some atomics for itself, in calls without a site. */
    public static void givesAtomic(Object object) {
        if (ThreadState.hasSite()) givesValue(object, Sites.UNKNOWN);
    }

    private static void gives(Object object, int how, int site) {
        ThreadState state = object == null ? null : ThreadState.enter();
        if (state == null) return;
        try {
            if (state.site != Sites.NOT_RECORDED) give(state, object, how, site == Sites.UNKNOWN ? state.site : site);
        } catch (Throwable error) {
            ThreadState.faults++;
        }
        state.isInside = false;
    }

    private static void give(ThreadState state, Object object, int how, int site) {
        Entry entry = Numbers.of(object, Sites.UNKNOWN);
        entry.isRecorded = true;
        entry.isGiven = true;
        state.record(Kind.GIVE, entry.address, how, ThreadState.cheapLines(site));
    }

    public static void takes(Object object) {
        takes(object, 0, Sites.UNKNOWN);
    }

    public static void takesValue(Object object, int site) {
        takes(object, Kind.BY_VALUE, site);
    }

    public static void takesAtomic(Object object) {
        if (ThreadState.hasSite()) takesValue(object, Sites.UNKNOWN);
    }

    private static void takes(Object object, int how, int site) {
        ThreadState state = object == null ? null : ThreadState.enter();
        if (state == null) return;
        try {
            Entry entry = Numbers.known(object);
            int[] lines = ThreadState.cheapLines(site == Sites.UNKNOWN ? state.site : site);
            if (entry != null && entry.isGiven) state.record(Kind.TAKE, entry.address, how, lines);
        } catch (Throwable error) {
            ThreadState.faults++;
        }
        state.isInside = false;
    }

    public static void takesIf(boolean isTaken, Object object) {
        if (isTaken) takes(object);
    }
}
