package goodlock.recorder;

import java.util.Arrays;

/** What a thread holds, and where it is. Only the thread itself uses it, except where a comment says otherwise. */
public final class ThreadState {
    private static final ThreadLocal<ThreadState> CURRENT = new ThreadLocal<>();
    private static final int[] NO_LINE = {0};
    private static final LineCache LINES = new LineCache();

    /** Nothing is recorded before the classes that are loaded first are woven. */
    private static volatile boolean isOn;
    /** Events that were lost since the virtual machine had no stack or memory left; a lost count does not matter. */
    static int faults;

    int number;
    /** In code of the agent: nothing is recorded. So it is while the state is made, which may reach woven code. */
    boolean isInside = true;
    /** Of the call that may reach a method of the platform. */
    int site;
    /** The thread that this one waits for, in a join without a timeout. The watch reads it. */
    volatile Thread joining;

    private final Walk walk = new Walk();
    private Held[] held = new Held[8];
    private int count; // the watch reads it, of a thread that waits
    private int gap = 1; // counts the records between which sections can be left out
    private Object nextLock; // the monitor that is about to be entered
    private Entry nextEntry;
    private int nextSite;
    private Held waiting; // the lock that a wait has released
    private Object condition;

    private ThreadState() {
        for (int at = 0; at < held.length; at++) held[at] = new Held();
    }

    // ---- the state of a thread ----

    /** From now on this is recorded, or nothing more is. */
    public static void record(boolean on) {
        isOn = on;
    }

    static ThreadState current() {
        ThreadState state = CURRENT.get();
        return state != null ? state : begin();
    }

    private static ThreadState begin() {
        ThreadState state = new ThreadState();
        CURRENT.set(state);
        Entry entry = Numbers.of(Thread.currentThread(), Sites.UNKNOWN);
        boolean isUnseen = entry.thread == Entry.NO_THREAD;
        if (isUnseen) entry.thread = isAfterMain() ? 0 : Ring.newThread();
        state.number = entry.thread;
        entry.state = state;
        if (isUnseen && state.number > 0) Ring.write(state.number, Kind.UNSEEN, Threads.handle(state.number), 0, null);
        state.isInside = entry.hasEnded;
        return state;
    }

    /** The main thread goes on as another object after `main` has returned. */
    private static boolean isAfterMain() {
        return "DestroyJavaVM".equals(Thread.currentThread().getName());
    }

    /** Returns the state of this thread, which is now inside, or null if nothing is to be recorded. */
    static ThreadState enter() {
        ThreadState state = isOn ? current() : null;
        if (state == null || state.isInside) return null;
        state.isInside = true;
        return state;
    }

    /** Whether the program calls a method of the platform. */
    static boolean hasSite() {
        ThreadState state = isOn ? CURRENT.get() : null;
        return state != null && !state.isInside && state.site > Sites.UNKNOWN;
    }

    /** For a thread of the agent: nothing of it is recorded. */
    public static void ignoreThisThread() {
        CURRENT.set(new ThreadState());
    }

    /** Sets whether this thread is inside; returns whether it was. */
    public static boolean setInside(boolean isInside) {
        ThreadState state = current();
        boolean before = state.isInside;
        state.isInside = isInside;
        return before;
    }

    public static int takeFaults() {
        int found = faults;
        faults = 0;
        return found;
    }

    // ---- records ----

    /** Writes a record of this thread. An acquire that is not written yet comes first. */
    void record(int kind, long address, long other, int[] callers) {
        writePending();
        gap++;
        Ring.write(number, kind, address, other, callers);
    }

    /** The watch calls it too, for a thread that is in a deadlock. */
    public void writePending() {
        if (count != 1 || !held[0].isPending) return;
        Held one = held[0];
        one.isPending = false;
        if (one.callers == null) one.callers = walked(LineCache.mix(keyOf(one.site, one.entry), 1), Sites.of(one.site));
        writeAcquire(one);
    }

    /** For the watch, which cannot walk this thread's stack. */
    public void writePendingWithoutWalk() {
        if (count == 1 && held[0].isPending && held[0].callers == null) held[0].callers = Sites.of(held[0].site).callers();
        writePending();
    }

    private void writeAcquire(Held one) {
        one.entry.isRecorded = true;
        Ring.write(number, Kind.of(one.acquire), one.entry.address, Kind.flags(one.acquire), one.callers);
    }

    /** The lines of an event at a site. A line of the platform says too little: then the stack has those of the program. */
    int[] lines(int site) {
        return isExact(site) ? Sites.of(site).callers() : walk.callers(null);
    }

    /**
     * The lines of an acquire. A walk takes 2 to 10 microseconds, so there is one when the thread acquires this lock at this site of the platform for the
     * first time while it holds these locks since these sites. Later ones are the same to the analysis.
     */
    private int[] linesOfAcquire(int site, Entry entry) {
        if (isExact(site)) return Sites.of(site).callers();
        long key = keyOf(site, entry);
        for (int at = 0; at < count; at++) key = LineCache.mix(LineCache.mix(key, held[at].site), held[at].entry.address);
        return walked(key, null);
    }

    private long keyOf(int site, Entry entry) {
        return LineCache.mix(LineCache.mix(number, site), entry.address);
    }

    private int[] walked(long key, Site from) {
        int[] lines = LINES.get(key);
        if (lines == null) LINES.put(key, lines = walk.callers(from));
        return lines;
    }

    private static boolean isExact(int site) {
        return site > Sites.UNKNOWN && !Sites.of(site).isOfPlatform && Walk.shown == 1;
    }

    /** The lines of an event that is no acquire: a walk would cost more than they are worth. */
    static int[] cheapLines(int site) {
        return site > Sites.UNKNOWN ? Sites.of(site).callers() : NO_LINE;
    }

    // ---- locks ----

    private int place(Object lock, boolean reads) {
        int at = count - 1;
        while (at >= 0 && !held[at].isOf(lock, reads)) at--;
        return at;
    }

    public boolean holdsAny() {
        return count > 0;
    }

    private Held push(Held one) {
        if (count == held.length) grow();
        if (one != null) held[count] = one;
        return held[count++];
    }

    private void grow() {
        int before = held.length;
        held = Arrays.copyOf(held, 2 * before);
        for (int at = before; at < held.length; at++) held[at] = new Held();
    }

    /** Takes a lock out. `free` stays at the end of the array, for the next one. */
    private Held remove(int at, Held free) {
        Held one = held[at];
        System.arraycopy(held, at + 1, held, at, --count - at);
        held[count] = free == null ? one : free;
        return one;
    }

    /** Before a monitor is entered. Its number is drawn now: an identity hash that is drawn later would inflate the monitor. */
    void willEnter(Object monitor, int site) {
        nextLock = monitor;
        nextSite = site;
        nextEntry = place(monitor, false) < 0 ? Numbers.of(monitor, site) : null;
    }

    void hasEntered() {
        if (nextEntry == null) held[place(nextLock, false)].depth++;
        else begin(nextLock, nextEntry, Kind.LOCK, nextSite);
        nextLock = null;
        nextEntry = null;
    }

    /** After an acquire. */
    void acquired(Object lock, int acquire, int site) {
        boolean reads = Kind.isReader(acquire);
        int at = place(lock, reads);
        if (at >= 0 && (acquire & Kind.COUNTS_NONE) == 0) {
            held[at].depth++;
            return;
        }
        Entry entry = Numbers.of(lock, site);
        if (reads && place(lock, false) >= 0) {
            Held one = push(null);
            one.set(lock, entry, acquire, site);
            one.isHidden = true;
        } else begin(lock, entry, acquire, site);
    }

    /** A section begins. The first lock that a thread holds is written with the next record of the thread, or with its release. */
    private void begin(Object lock, Entry entry, int acquire, int site) {
        boolean waits = count == 0 && !Kind.isShared(acquire);
        int[] callers = waits ? firstLines(site, entry) : linesOfAcquire(site, entry);
        if (!waits) writePending();
        gap += waits ? 0 : 1;
        Held one = push(null);
        one.set(lock, entry, acquire, site);
        one.callers = callers;
        one.isPending = waits;
        if (!Kind.isShared(acquire)) entry.isUsedBy(number);
        if (!waits) writeAcquire(one);
    }

    /** In the platform a method has a frame until its section ends, so its caller is found when it is needed. */
    private int[] firstLines(int site, Entry entry) {
        boolean isOnStack = site > Sites.UNKNOWN && Walk.shown == 1 && Sites.of(site).isOfPlatform;
        return isOnStack ? null : linesOfAcquire(site, entry);
    }

    /** Before a release. */
    void releases(Object lock, boolean reads, int site) {
        int at = place(lock, reads);
        if (at < 0) return;
        Held one = held[at];
        if (--one.depth > 0) return;
        if (one.isPending) writeWhole(one, site);
        else if (!one.isHidden) writeRelease(one, site);
        remove(at, null);
        one.lock = null;
        if (!reads) showReading(lock);
    }

    /**
     * Writes a section without a record in it. If no other thread has ever had the lock, the section has no order with any other one. Then one of them
     * is enough between two other records of the thread: what is possible at a later one was possible at the first one. Before the main thread has
     * started another one, none is needed.
     */
    private void writeWhole(Held one, int site) {
        boolean isOwn = one.entry.isOnlyOf(number);
        int before = gap;
        if (isOwn && (one.entry.gap == before || number == 0 && !Threads.hasStarted)) return;
        if (one.callers == null) one.callers = Sites.of(one.site).callers(); // it is in no cycle with another lock
        writeRelease(one, site);
        if (isOwn) one.entry.gap = gap = before;
    }

    private void writeRelease(Held one, int site) {
        int[] callers = site > Sites.UNKNOWN ? Sites.of(site).callers() : one.callers;
        record(Kind.isShared(one.acquire) ? Kind.UNLOCK_EITHER : Kind.UNLOCK, one.entry.address, 0, callers == null ? NO_LINE : callers);
    }

    /** A writer that has read stops to write: no other writer can come between the two records. */
    private void showReading(Object lock) {
        int at = place(lock, true);
        if (at < 0 || !held[at].isHidden) return;
        held[at].isHidden = false;
        held[at].acquire |= Kind.READS_TRIED;
        held[at].callers = lines(held[at].site);
        writeAcquire(held[at]);
    }

    // ---- waits ----

    /** Before a wait on a condition of a lock. */
    void awaits(Object lock, Object condition, int site) {
        int at = place(lock, false);
        if (at < 0) return;
        writePending();
        writeRelease(held[at], site);
        waiting = remove(at, new Held());
        this.condition = condition;
    }

    void awaited(int site) {
        if (waiting == null) return;
        int[] callers = lines(site);
        Entry of = Numbers.known(condition);
        if (of != null && of.isGiven) record(Kind.TAKE, of.address, 0, callers);
        waiting.callers = callers;
        waiting.acquire = Kind.isShared(waiting.acquire) ? Kind.WRITE_LOCK | waiting.acquire & Kind.PREFERS_WRITERS : Kind.LOCK;
        writePending();
        writeAcquire(push(waiting));
        waiting = null;
        condition = null;
    }
}
