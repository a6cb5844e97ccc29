package goodlock.recorder;

import java.lang.ref.ReferenceQueue;
import java.lang.ref.WeakReference;

/** What is known of an object: its number, and if it is a thread, that of the thread. */
public final class Entry extends WeakReference<Object> {
    static final int NO_THREAD = -1;
    private static final int NOBODY = -1;
    private static final int SEVERAL = -2;

    final int hash;
    public final long address;
    volatile Entry next;              // of the same slot; only `forget` changes it after the entry is in the table
    volatile int thread = NO_THREAD;  // of a thread: its number in the trace
    volatile ThreadState state;       // of a thread that has recorded something
    volatile boolean hasEnded;        // of a thread
    boolean isRecorded;               // the collector knows the address
    volatile boolean isGiven;         // a thread has given it to others
    int gap;                          // of a lock of one thread: between which records of the thread it was recorded last
    private int user = NOBODY;        // of a lock: who has acquired it so far. The lock itself orders the accesses

    Entry(Object object, ReferenceQueue<Object> queue, int hash, long address) {
        super(object, queue);
        this.hash = hash;
        this.address = address;
    }

    /** A thread has acquired this lock, and holds it. */
    void isUsedBy(int thread) {
        if (user == NOBODY) user = thread;
        else if (user != thread) user = SEVERAL;
    }

    /** Whether no other thread has ever acquired this lock. */
    boolean isOnlyOf(int thread) {
        return user == thread;
    }

    public int thread() {
        return thread;
    }

    public ThreadState state() {
        return state;
    }
}
