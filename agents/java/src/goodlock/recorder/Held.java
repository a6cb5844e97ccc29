package goodlock.recorder;

/** A lock that a thread holds. Inner acquires are counted, and not recorded. */
final class Held {
    Object lock;
    Entry entry;
    int acquire;        // kind and flags of its acquire
    int depth;
    int site;
    int[] callers;      // null: not known yet
    boolean isPending;  // its acquire is recorded before the next record of the thread, unless the release comes first
    boolean isHidden;   // a writer reads: this is recorded when it stops to write

    boolean isOf(Object other, boolean reads) {
        return lock == other && Kind.isReader(acquire) == reads;
    }

    void set(Object lock, Entry entry, int acquire, int site) {
        this.lock = lock;
        this.entry = entry;
        this.acquire = acquire;
        this.site = site;
        depth = 1;
        callers = null;
        isPending = isHidden = false;
    }
}
