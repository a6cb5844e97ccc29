package goodlock.recorder;

/** The kinds and flags of records, with the numbers of agents/pthread/shared/ring.h. */
public final class Kind {
    public static final int FORK = 1;
    public static final int NAMED = 2;
    public static final int UNSEEN = 4;
    public static final int END = 5;
    public static final int JOINS = 6;
    public static final int JOINED = 7;
    public static final int LOCK = 9;
    public static final int TRIED = 10;
    public static final int TIMED = 11;
    public static final int UNLOCK = 12;
    public static final int WRITE_LOCK = 13;
    public static final int WRITE_TRIED = 14;
    public static final int WRITE_TIMED = 15;
    public static final int READ_LOCK = 16;
    public static final int UNLOCK_EITHER = 17;
    public static final int GIVE = 19;
    public static final int TAKE = 20;
    public static final int NEW = 22;
    public static final int UNSTARTED = 24;
    public static final int FORGOTTEN = 25;
    public static final int TITLE = 27;

    /** Flags of an acquire, beside its kind in one number, so that woven code passes one argument. */
    public static final int READS_TRIED = 1 << 8;
    public static final int READS_TIMED = 2 << 8;
    public static final int PREFERS_WRITERS = 4 << 8;
    /** Only for the recorder: the lock does not count the acquires of one thread. */
    public static final int COUNTS_NONE = 1 << 16;

    /** How an order comes about: by a signal, by a volatile field or an atomic. */
    public static final int BY_CONDITION = 2;
    public static final int BY_VALUE = 4;

    public static final int WITHOUT_END = 1;
    public static final int WAITS_FOR_LOCK = 1;
    public static final int WAITS_FOR_THREAD = 2;

    private static final int KINDS = 0xff;

    private Kind() {}

    static int of(int acquire) {
        return acquire & KINDS;
    }

    static int flags(int acquire) {
        return acquire >> 8 & KINDS;
    }

    static boolean isReader(int acquire) {
        return of(acquire) == READ_LOCK;
    }

    /** Whether it is of a lock with readers and writers. */
    static boolean isShared(int acquire) {
        return of(acquire) >= WRITE_LOCK;
    }
}
