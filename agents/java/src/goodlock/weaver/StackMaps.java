package goodlock.weaver;

import java.nio.ByteBuffer;

/** Writes the stack maps of changed code: each says which types locals and stack have at a target of a jump. Only their places change. */
final class StackMaps {
    private static final int SAME = 0;
    private static final int SAME_WITH_ONE = 64;
    private static final int FIRST_FAR = 128;
    private static final int SAME_WITH_ONE_FAR = 247;
    private static final int SAME_FAR = 251;
    private static final int FULL = 255;
    private static final int OBJECT = 7;
    private static final int UNINITIALIZED = 8;

    private final ClassFile type;
    private final Method method;
    private final ByteBuffer in;
    private final Places places;
    private final Bytes out = new Bytes();
    private int at;        // in the old table
    private int last = -1; // the new place of the last map

    StackMaps(ClassFile type, Method method, ByteBuffer in, Places places) {
        this.type = type;
        this.method = method;
        this.in = in;
        this.places = places;
    }

    private int u2(int from) {
        return in.getShort(from) & 0xffff;
    }

    /** `table`: the old attribute; 0: there is none. */
    byte[] written(int table) {
        int left = table == 0 ? 0 : u2(table + 6);
        out.u2(left + (method.handler() == null ? 0 : 1));
        at = table + 8;
        for (int place = -1; left > 0; left--) {
            int tag = in.get(at++) & 0xff;
            int delta = tag >= FIRST_FAR ? u2(at) : tag & SAME_WITH_ONE - 1;
            if (tag >= FIRST_FAR) at += 2;
            place += delta + 1;
            map(tag, offset(places.target(place)));
        }
        if (method.handler() != null) mapOfHandler();
        return out.toArray();
    }

    private int offset(int place) {
        int offset = last < 0 ? place : place - last - 1;
        last = place;
        return offset;
    }

    private void map(int tag, int offset) {
        if (tag < SAME_WITH_ONE || tag == SAME_FAR) near(SAME, SAME_FAR, offset);
        else if (tag < FIRST_FAR || tag == SAME_WITH_ONE_FAR) {
            near(SAME_WITH_ONE, SAME_WITH_ONE_FAR, offset);
            types(1);
        } else {
            out.u1(tag).u2(offset);
            if (tag > SAME_FAR && tag < FULL) types(tag - SAME_FAR);
            else if (tag == FULL) for (int list = 0; list < 2; list++) list();
        }
    }

    private void near(int near, int far, int offset) {
        if (offset < SAME_WITH_ONE) out.u1(near + offset);
        else out.u1(far).u2(offset);
    }

    private void list() {
        int count = u2(at);
        at += 2;
        out.u2(count);
        types(count);
    }

    private void types(int count) {
        for (int left = count; left > 0; left--) {
            int tag = in.get(at);
            out.u1(tag);
            if (tag == OBJECT) out.u2(u2(at + 1));
            if (tag == UNINITIALIZED) out.u2(places.moved(u2(at + 1))); // of the `new` that has made it
            at += tag == OBJECT || tag == UNINITIALIZED ? 3 : 1;
        }
    }

    /** At the new handler only `this` is known. */
    private void mapOfHandler() {
        out.u1(FULL).u2(offset(places.size()));
        if (method.isStatic()) out.u2(0);
        else out.u2(1).u1(OBJECT).u2(type.self);
        out.u2(1).u1(OBJECT).u2(type.pool.type("java/lang/Throwable"));
    }
}
