package goodlock.recorder;

/** Lines by a hash of 64 bits, for all threads. It has no lock: a thread may miss what another one has just put there, and finds it again. */
final class LineCache {
    private static final int BITS = 14;
    private static final long FACTOR = 0x9E3779B97F4A7C15L;

    private static final class Item {
        final long key;
        final int[] lines;

        Item(long key, int[] lines) {
            this.key = key;
            this.lines = lines;
        }
    }

    private final Item[] items = new Item[1 << BITS];

    static long mix(long before, long next) {
        return (before ^ next) * FACTOR + (before >>> 29);
    }

    private static int slot(long key) {
        return (int) (key >>> Long.SIZE - BITS);
    }

    /** Returns null if it does not know the lines. */
    int[] get(long key) {
        Item item = items[slot(key)];
        return item != null && item.key == key ? item.lines : null;
    }

    void put(long key, int[] lines) {
        items[slot(key)] = new Item(key, lines);
    }
}
