package goodlock.weaver;

import java.nio.ByteBuffer;
import java.util.HashMap;
import java.util.Map;

/**
 * A method, and the code that is put into it. That code has no jumps, and leaves locals as they are. So the rest only moves: jumps, switches,
 * handlers, tables of lines and variables, and stack maps get new places.
 */
final class Method {
    private static final byte[] NOTHING = {};

    private final ClassFile type;
    private final ByteBuffer in;
    private final int at;
    private final int end;
    final int access;
    final String name;
    final String desc;
    final int codeAt; // 0: it has no code
    final int start;  // of its instructions
    final int length;
    private final Map<Integer, byte[]> before = new HashMap<>();
    private final Map<Integer, byte[]> after = new HashMap<>();
    private final Map<Integer, byte[]> instead = new HashMap<>();
    private byte[] entry = NOTHING;
    private byte[] handler; // null: none
    private boolean isChanged;

    Method(ClassFile type, ByteBuffer in, int at, int codeAt, int end) {
        this.type = type;
        this.in = in;
        this.at = at;
        this.codeAt = codeAt;
        this.end = end;
        access = u2(at);
        name = type.pool.text(u2(at + 2));
        desc = type.pool.text(u2(at + 4));
        start = codeAt + 14;
        length = codeAt == 0 ? 0 : in.getInt(codeAt + 10);
    }

    private int u2(int from) {
        return in.getShort(from) & 0xffff;
    }

    boolean isStatic() {
        return (access & ClassFile.STATIC) != 0;
    }

    // ---- instructions ----

    int operation(int place) {
        return in.get(start + place) & 0xff;
    }

    /** The number after an instruction. */
    int argument(int place) {
        return u2(start + place + 1);
    }

    ConstantPool.Member member(int place) {
        return type.pool.member(argument(place));
    }

    /** The place of the next instruction. */
    int next(int place) throws TooLarge {
        int code = operation(place);
        int aligned = start + (place & ~3) + 4;
        if (code == Opcode.TABLESWITCH) return aligned - start + 12 + 4 * (in.getInt(aligned + 8) - in.getInt(aligned + 4) + 1);
        if (code == Opcode.LOOKUPSWITCH) return aligned - start + 8 + 8 * in.getInt(aligned + 4);
        if (code == Opcode.WIDE) return place + (operation(place + 1) == Opcode.IINC ? 6 : 4);
        if (!Opcode.isKnown(code)) throw new TooLarge("it has the unknown instruction " + code);
        return place + Opcode.length(code);
    }

    /** The place of an attribute of the code; 0: there is none. */
    int attribute(String wanted) {
        int from = start + length;
        from += 2 + 8 * u2(from);
        for (int left = u2(from), one = from + 2; left > 0; left--, one += 6 + in.getInt(one + 2))
            if (type.pool.text(u2(one)).equals(wanted)) return one;
        return 0;
    }

    /** The line of a place: the one that is noted last before it, or else the first one; 0: not known. */
    int line(int place) {
        int lines = attribute("LineNumberTable");
        int line = 0;
        int best = -1;
        int least = length;
        for (int left = lines == 0 ? 0 : u2(lines + 6), one = lines + 8; left > 0; left--, one += 4) {
            int from = u2(one);
            if (from <= place ? from >= best : best < 0 && from < least) line = u2(one + 2);
            if (from <= place) best = Math.max(best, from);
            least = Math.min(least, from);
        }
        return line;
    }

    // ---- changes ----

    private void put(Map<Integer, byte[]> where, int place, byte[] code) {
        where.merge(place, code, Method::join);
        isChanged = true;
    }

    private static byte[] join(byte[] one, byte[] two) {
        return new Bytes().raw(one).raw(two).toArray();
    }

    /** A jump to this place comes to the new code too. */
    void before(int place, byte[] code) {
        put(before, place, code);
    }

    void after(int place, byte[] code) {
        put(after, place, code);
    }

    void instead(int place, byte[] code) {
        put(instead, place, code);
    }

    /** What is put here later comes first. */
    void atEntry(byte[] code) {
        entry = join(code, entry);
        isChanged = true;
    }

    void atReturns(byte[] code) throws TooLarge {
        for (int place = 0; place < length; place = next(place)) if (Opcode.returns(operation(place))) before(place, code);
        isChanged = true;
    }

    /** If the method ends by an exception. The stack has only this exception there, and it is thrown on. */
    void atThrows(byte[] code) {
        handler = join(code, new byte[] {(byte) Opcode.ATHROW});
        isChanged = true;
    }

    byte[] before(int place) {
        return before.getOrDefault(place, NOTHING);
    }

    byte[] after(int place) {
        return after.getOrDefault(place, NOTHING);
    }

    /** Null: the instruction stays. */
    byte[] instead(int place) {
        return instead.get(place);
    }

    byte[] entry() {
        return entry;
    }

    byte[] handler() {
        return handler;
    }

    // ---- the result ----

    byte[] original() {
        return new Bytes().raw(in.array(), at, end - at).toArray();
    }

    byte[] written() throws TooLarge {
        if (!isChanged) return original();
        byte[] code = new CodeWriter(type, this, in).written();
        Bytes out = new Bytes().raw(in.array(), at, codeAt + 2 - at).u4(code.length).raw(code);
        int afterCode = codeAt + 6 + in.getInt(codeAt + 2);
        return out.raw(in.array(), afterCode, end - afterCode).toArray();
    }
}
