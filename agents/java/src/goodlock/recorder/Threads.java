package goodlock.recorder;

import java.nio.ByteBuffer;
import java.nio.ByteOrder;
import java.nio.charset.StandardCharsets;
import java.util.Map;
import java.util.concurrent.ConcurrentHashMap;

/** What woven code of Thread calls: forks, ends, joins and names. */
public final class Threads {
    private static final int NAME = 16;
    /** The states of threads in a join without a timeout, by the numbers of the platform. */
    private static final Map<Long, ThreadState> JOINING = new ConcurrentHashMap<>();

    /** Whether the program has started a thread. */
    static volatile boolean hasStarted;

    private Threads() {}

    public static Map<Long, ThreadState> joining() {
        return JOINING;
    }

    /** A thread's number for joins: that of thread 0 is not 0. */
    static long handle(int thread) {
        return thread + 1L;
    }

    public static long handle(Entry thread) {
        return handle(thread.thread);
    }

    /** The threads that are there before the program: as if the main thread had started them. */
    public static void adopt(Thread main, Iterable<Thread> all) {
        Numbers.of(main, Sites.UNKNOWN).thread = 0;
        Ring.write(0, Kind.NAMED, handle(0), 0, null);
        for (Thread thread : all) {
            Entry entry = Numbers.of(thread, Sites.UNKNOWN);
            if (entry.thread == Entry.NO_THREAD) fork(0, entry, thread, null);
        }
    }

    private static void fork(int parent, Entry entry, Thread child, int[] callers) {
        int number = Ring.newThread();
        entry.thread = number;
        Ring.write(parent, Kind.FORK, 0, number, callers);
        Ring.write(parent, Kind.NAMED, handle(number), number, null);
        writeName(number, child.getName());
    }

    /** A short name is in the record itself. */
    private static void writeName(int thread, String name) {
        byte[] bytes = name.getBytes(StandardCharsets.UTF_8);
        int text = bytes.length < NAME ? 0 : Sites.nameText(name);
        ByteBuffer words = ByteBuffer.allocate(NAME).order(ByteOrder.nativeOrder());
        words.put(bytes, 0, Math.min(bytes.length, NAME - 1));
        Ring.write(thread, Kind.TITLE, words.getLong(0), words.getLong(8), text == 0 ? null : new int[] {text});
    }

    /** Before a thread starts. */
    public static void starts(Thread child) {
        ThreadState state = ThreadState.enter();
        if (state == null) return;
        try {
            state.writePending();
            hasStarted = true;
            fork(state.number, Numbers.of(child, Sites.UNKNOWN), child, state.lines(Sites.UNKNOWN));
        } catch (Throwable error) {
            ThreadState.faults++;
        }
        state.isInside = false;
    }

    /** The start of a thread has failed. */
    public static void isUnstarted(Thread child) {
        ThreadState state = ThreadState.enter();
        if (state == null) return;
        try {
            Entry entry = Numbers.known(child);
            if (entry != null && entry.thread > 0 && child.getState() == Thread.State.NEW) state.record(Kind.UNSTARTED, 0, entry.thread, null);
        } catch (Throwable error) {
            ThreadState.faults++;
        }
        state.isInside = false;
    }

    /** At the end of this thread. What it does from now on is not recorded: it has no more events in the trace. */
    public static void ends(Thread thread) {
        ThreadState state = ThreadState.enter();
        if (state == null) return;
        try {
            Entry entry = Numbers.known(thread);
            if (entry != null) entry.hasEnded = true;
            state.record(Kind.END, 0, 0, null);
        } catch (Throwable error) {
            ThreadState.faults++;
        }
    }

    /** A thread has a new name. */
    public static void isNamed(Thread thread) {
        ThreadState state = ThreadState.enter();
        if (state == null) return;
        try {
            Entry entry = Numbers.known(thread);
            if (entry != null && entry.thread > 0) writeName(entry.thread, thread.getName());
        } catch (Throwable error) {
            ThreadState.faults++;
        }
        state.isInside = false;
    }

    /** Before a join. Without a timeout the watch sees it. */
    public static void joins(Thread child, long milliseconds) {
        ThreadState state = ThreadState.enter();
        if (state == null) return;
        try {
            state.joining = child;
            if (milliseconds == 0) JOINING.put(Thread.currentThread().getId(), state);
        } catch (Throwable error) {
            ThreadState.faults++;
        }
        state.isInside = false;
    }

    /** After it: the thread may still live. */
    public static void joined(Thread child) {
        ThreadState state = ThreadState.enter();
        if (state == null) return;
        try {
            boolean isWithoutEnd = JOINING.remove(Thread.currentThread().getId()) != null;
            state.joining = null;
            Entry entry = Numbers.known(child);
            if (entry != null && entry.thread > 0 && !child.isAlive()) {
                state.record(Kind.JOINS, handle(entry.thread), isWithoutEnd ? Kind.WITHOUT_END : 0, null);
                state.record(Kind.JOINED, handle(entry.thread), 0, state.lines(Sites.UNKNOWN));
            }
        } catch (Throwable error) {
            ThreadState.faults++;
        }
        state.isInside = false;
    }
}
