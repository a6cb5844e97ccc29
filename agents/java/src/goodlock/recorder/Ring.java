package goodlock.recorder;

import java.lang.invoke.MethodHandles;
import java.lang.invoke.VarHandle;
import java.nio.ByteBuffer;
import java.nio.ByteOrder;
import java.nio.charset.StandardCharsets;

/**
 * Writes records, waits and texts to the memory that is shared with the collector; agents/pthread/shared/ring.h describes it. One atomic addition
 * draws the place of a record. Only a new text takes a lock.
 */
public final class Ring {
    static final int MOST_CALLERS = 5;
    static final int MOST_TEXT = 1 << 20;

    private static final int NEXT = 0;
    private static final int CONSUMED = 64;
    private static final int THREADS = 128;
    private static final int OWNER = 132;
    private static final int ATTACHED = 144;
    private static final int OFF = 148;
    private static final int FINISHED = 152;
    private static final int FRONT_USED = 156;
    private static final int BACK_USED = 160;
    private static final int TEXT = 164;
    private static final int WAITS = 1_048_768;
    private static final int SLOTS = 2_097_344;
    private static final int VALUES = 18_891_020;
    private static final int VALUES_OF_ATOMICS = 1;
    private static final int MOST_WAITS = 1 << 14;
    private static final int MOST_SLOTS = 1 << 18;
    private static final int MOST_LOST = 64;
    private static final int SIZE_OF_RECORD = 64;
    private static final int SIZE_OF_CALLER = 6;
    private static final int NOBODY = (1 << 28) - 1;
    private static final long PATIENCE = 30_000_000_000L; // nanoseconds without a step of the collector
    private static final VarHandle LONG = MethodHandles.byteBufferViewVarHandle(long[].class, ByteOrder.nativeOrder());
    private static final VarHandle INT = MethodHandles.byteBufferViewVarHandle(int[].class, ByteOrder.nativeOrder());
    private static final ByteBuffer MEMORY = Mapping.memory;
    private static final long[] LOST = new long[MOST_LOST];
    private static volatile boolean isOn = MEMORY != null;
    private static long consumed; // at least so many are read: an old value is right too
    private static int lostCount;

    private Ring() {}

    /** Returns whether this process is the one that is traced: the first one that attaches. */
    public static boolean attach() {
        isOn = isOn && INT.compareAndSet(MEMORY, OWNER, 0, (int) ProcessHandle.current().pid());
        if (isOn) INT.setRelease(MEMORY, ATTACHED, 1);
        return isOn;
    }

    /** Asks the collector for the report. Nothing is recorded afterwards. */
    public static void finish() {
        isOn = false;
        INT.setRelease(MEMORY, FINISHED, 1);
    }

    /** Whether the collector wants what volatile fields and atomics hand over: --memory atomics. */
    public static boolean wantsValues() {
        return ((int) INT.get(MEMORY, VALUES) & VALUES_OF_ATOMICS) != 0;
    }

    static int newThread() {
        return (int) INT.getAndAdd(MEMORY, THREADS, 1);
    }

    // ---- records ----

    /** The callers are numbers of texts, the innermost first; null if none is known. */
    static void write(int thread, int kind, long address, long other, int[] callers) {
        if (!isOn) return;
        long place = (long) LONG.getAndAdd(MEMORY, NEXT, 1L);
        try {
            fill(place, thread, kind, address, other, callers);
        } catch (Throwable error) { // there is no stack or memory left: what follows needs none
            LOST[lostCount++ & MOST_LOST - 1] = place + 1;
        }
    }

    private static void fill(long place, int thread, int kind, long address, long other, int[] callers) {
        if (place - consumed >= MOST_SLOTS && !waitsForSlot(place)) return;
        int at = SLOTS + (int) (place & MOST_SLOTS - 1) * SIZE_OF_RECORD;
        int count = callers == null ? 0 : callers.length;
        MEMORY.putLong(at + 8, address).putLong(at + 16, other).putInt(at + 24, thread);
        MEMORY.put(at + 28, (byte) kind).put(at + 29, (byte) count);
        for (int one = 0; one < count; one++) {
            int to = at + 30 + SIZE_OF_CALLER * one;
            MEMORY.putInt(to, callers[one]).putShort(to + 4, (short) 0);
        }
        LONG.setRelease(MEMORY, at, place + 1);
    }

    /** If the collector does not go on, nothing more is recorded, and the program does. */
    private static boolean waitsForSlot(long place) {
        long since = System.nanoTime();
        long before = consumed;
        while (isOn && System.nanoTime() - since < PATIENCE) {
            long now = (long) LONG.getAcquire(MEMORY, CONSUMED);
            if (now != before) since = System.nanoTime();
            before = consumed = now;
            if (place - now < MOST_SLOTS) return true;
            Thread.yield();
        }
        isOn = false;
        INT.setRelease(MEMORY, OFF, 1);
        return false;
    }

    /** Fills the places whose threads could not, so that the collector reads on. Returns how many; one thread calls this. */
    public static int fillLost() {
        int count = 0;
        for (int at = 0; at < MOST_LOST; at++) {
            long place = LOST[at] - 1;
            if (place < 0) continue;
            LOST[at] = 0;
            fill(place, 0, Kind.FORGOTTEN, 0, NOBODY, null); // a record that changes nothing
            count++;
        }
        return count;
    }

    // ---- waits ----

    /** Shows what a thread waits for; address 0: for nothing. */
    public static void waits(int thread, int kind, long address, int[] callers) {
        int at = WAITS + thread % MOST_WAITS * SIZE_OF_RECORD;
        if (address != 0) {
            MEMORY.putInt(at + 8, thread).putInt(at + 12, kind).putInt(at + 16, callers.length).putInt(at + 20, 0);
            for (int one = 0; one < callers.length; one++) MEMORY.putLong(at + 24 + 8 * one, callers[one]);
        }
        LONG.setRelease(MEMORY, at, address);
    }

    // ---- texts ----

    /** Returns the number of a new text, or 0 if there is no room. Names use the first half, so that lines always have room. */
    static synchronized int text(String line, boolean isName) {
        byte[] bytes = lineOf(line);
        int used = (int) INT.get(MEMORY, BACK_USED);
        int number = MOST_TEXT - used - bytes.length;
        if (!isOn || number < (int) INT.get(MEMORY, FRONT_USED) + 1 || isName && used > MOST_TEXT / 2) return 0;
        put(number, bytes);
        INT.setRelease(MEMORY, BACK_USED, used + bytes.length);
        return number;
    }

    /** Writes a line for the report, about what is not seen. */
    public static synchronized void unseen(String line) {
        byte[] bytes = lineOf("unseen " + line);
        int used = (int) INT.get(MEMORY, FRONT_USED);
        if (!isOn || used + bytes.length > MOST_TEXT - (int) INT.get(MEMORY, BACK_USED)) return;
        put(used, bytes);
        INT.setRelease(MEMORY, FRONT_USED, used + bytes.length);
    }

    private static byte[] lineOf(String text) {
        return (text.replaceAll("[\\n\\t]", " ") + "\n").getBytes(StandardCharsets.UTF_8);
    }

    private static void put(int from, byte[] bytes) {
        for (int at = 0; at < bytes.length; at++) MEMORY.put(TEXT + from + at, bytes[at]);
    }
}
