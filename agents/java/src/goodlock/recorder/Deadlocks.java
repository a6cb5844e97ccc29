package goodlock.recorder;

import java.lang.management.LockInfo;
import java.lang.management.ManagementFactory;
import java.lang.management.ThreadInfo;
import java.lang.management.ThreadMXBean;
import java.util.HashMap;
import java.util.HashSet;
import java.util.Map;
import java.util.Set;

/**
 * Finds threads that wait for each other, and shows the collector what each of them waits for. The virtual machine knows who waits for a monitor or
 * a lock of java.util.concurrent, and who has it; the recorder knows who joins whom. All of it is of one moment.
 */
public final class Deadlocks {
    private static final int DEPTH = 64;

    private ThreadMXBean threads;
    private Set<Long> before = new HashSet<>();
    private Set<ThreadState> shown = new HashSet<>();

    public void look() {
        if (threads == null) threads = ManagementFactory.getThreadMXBean();
        Set<Long> now = new HashSet<>();
        Set<ThreadState> waiting = new HashSet<>();
        if (hasReason()) {
            Map<Long, ThreadInfo> infos = infos();
            for (ThreadInfo info : infos.values()) if (isInCycle(info, infos)) now.add(info.getThreadId());
            if (before.containsAll(now)) show(now, infos, waiting); // it is the same at two looks
        }
        for (ThreadState one : shown) if (!waiting.contains(one)) Ring.waits(one.number, 0, 0, null);
        before = now;
        shown = waiting;
    }

    /** A look at all threads costs time: it needs a deadlock of the virtual machine, or a thread that holds a lock in a join. */
    private boolean hasReason() {
        for (ThreadState one : Threads.joining().values()) {
            Thread joined = one.joining;
            if (one.holdsAny() || joined != null && Threads.joining().containsKey(joined.getId())) return true;
        }
        return threads.findDeadlockedThreads() != null;
    }

    private Map<Long, ThreadInfo> infos() {
        Map<Long, ThreadInfo> infos = new HashMap<>();
        for (ThreadInfo info : threads.getThreadInfo(threads.getAllThreadIds(), DEPTH)) if (info != null) infos.put(info.getThreadId(), info);
        return infos;
    }

    private static boolean isInCycle(ThreadInfo info, Map<Long, ThreadInfo> infos) {
        long at = info.getThreadId();
        for (int step = 0; step < infos.size(); step++) {
            at = next(infos.get(at));
            if (at < 0 || at == info.getThreadId()) return at >= 0;
        }
        return false;
    }

    /** The thread that must go on before this one does, or -1. */
    private static long next(ThreadInfo info) {
        if (info == null || info.getThreadState() == Thread.State.TIMED_WAITING) return -1;
        if (info.getLockOwnerId() >= 0) return info.getLockOwnerId();
        ThreadState state = Threads.joining().get(info.getThreadId());
        Thread joined = state == null ? null : state.joining;
        return joined == null ? -1 : joined.getId();
    }

    private static void show(Set<Long> members, Map<Long, ThreadInfo> infos, Set<ThreadState> waiting) {
        if (members.isEmpty()) return;
        for (Thread thread : Thread.getAllStackTraces().keySet()) {
            Entry entry = members.contains(thread.getId()) ? Numbers.known(thread) : null;
            if (entry == null || entry.state == null) continue;
            entry.state.writePendingWithoutWalk();
            showWait(entry.state, infos.get(thread.getId()));
            waiting.add(entry.state);
        }
    }

    private static void showWait(ThreadState state, ThreadInfo info) {
        int[] callers = Walk.callersOf(info.getStackTrace());
        Thread joined = state.joining;
        Entry joinedEntry = joined == null ? null : Numbers.known(joined);
        if (info.getLockOwnerId() >= 0) {
            LockInfo lock = info.getLockInfo();
            Entry entry = Numbers.like(lock.getClassName(), lock.getIdentityHashCode());
            if (entry != null) Ring.waits(state.number, Kind.WAITS_FOR_LOCK, entry.address, callers);
        } else if (joinedEntry != null) Ring.waits(state.number, Kind.WAITS_FOR_THREAD, Threads.handle(joinedEntry), callers);
    }
}
