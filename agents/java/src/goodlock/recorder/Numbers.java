package goodlock.recorder;

import java.lang.ref.Reference;
import java.lang.ref.ReferenceQueue;
import java.util.concurrent.atomic.AtomicLong;
import java.util.concurrent.atomic.AtomicReferenceArray;

/**
 * Gives each object a number of its own, by identity, and forgets it when the object is collected. A number is never used twice. The table has no
 * lock: a thread adds an entry by a compare-and-set of the first one, and only `forget` removes entries.
 */
public final class Numbers {
    private static final int BITS = 17;
    private static final int STEP = 8;
    private static final int NAME_SHIFT = 40;
    private static final ReferenceQueue<Object> COLLECTED = new ReferenceQueue<>();
    private static final AtomicLong LAST = new AtomicLong();
    private static final AtomicReferenceArray<Entry> TABLE = new AtomicReferenceArray<>(1 << BITS);

    private Numbers() {}

    private static int slot(int hash) {
        return (hash * 0x9E3779B9) >>> 32 - BITS;
    }

    private static Entry find(Entry from, Object object, int hash) {
        Entry entry = from;
        while (entry != null && (entry.hash != hash || entry.get() != object)) entry = entry.next;
        return entry;
    }

    /** Returns null if the object has no number. */
    public static Entry known(Object object) {
        int hash = System.identityHashCode(object);
        return find(TABLE.get(slot(hash)), object, hash);
    }

    /** Returns the entry of an object. A new one has the name that the object has at this site. */
    static Entry of(Object object, int site) {
        int hash = System.identityHashCode(object);
        int slot = slot(hash);
        for (Entry made = null;;) {
            Entry first = TABLE.get(slot);
            Entry found = find(first, object, hash);
            if (found != null) return found;
            if (made == null) made = new Entry(object, COLLECTED, hash, newAddress(object, site));
            made.next = first;
            if (TABLE.compareAndSet(slot, first, made)) return made;
        }
    }

    /** The number of a name is in the upper bits: the collector needs no further record to know it. */
    private static long newAddress(Object object, int site) {
        return (long) Names.of(object, site) << NAME_SHIFT | LAST.incrementAndGet() * STEP;
    }

    /** Returns the entry of an object with this hash and class, for texts of the virtual machine, which name an object only so; null: none. */
    public static Entry like(String type, int hash) {
        Entry entry = TABLE.get(slot(hash));
        for (; entry != null; entry = entry.next) {
            Object object = entry.get();
            if (entry.hash == hash && object != null && object.getClass().getName().equals(type)) return entry;
        }
        return null;
    }

    /** Removes the entries of collected objects, and says so to the collector. One thread calls this. */
    public static void forget() {
        for (Reference<?> gone; (gone = COLLECTED.poll()) != null;) {
            Entry entry = (Entry) gone;
            remove(entry);
            if (entry.thread > 0) {
                Ring.write(entry.thread, Kind.END, 0, 0, null);
                Ring.write(0, Kind.FORGOTTEN, 0, entry.thread, null);
            }
            if (entry.isRecorded) Ring.write(0, Kind.NEW, entry.address, 0, null);
        }
    }

    private static void remove(Entry entry) {
        int slot = slot(entry.hash);
        if (TABLE.compareAndSet(slot, entry, entry.next)) return;
        Entry before = TABLE.get(slot);
        while (before != null && before.next != entry) before = before.next;
        if (before != null) before.next = entry.next;
    }
}
