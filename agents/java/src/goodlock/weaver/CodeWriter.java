package goodlock.weaver;

import java.nio.ByteBuffer;

/** Writes the code of a changed method: its instructions, handlers and attributes. */
final class CodeWriter {
    private static final int MOST_CODE = 0xffff;
    private static final int MOST_ADDED = 8; // words that the code of a hook puts on the stack

    private final ClassFile type;
    private final Method method;
    private final ByteBuffer in;
    private final Places places;

    CodeWriter(ClassFile type, Method method, ByteBuffer in) throws TooLarge {
        this.type = type;
        this.method = method;
        this.in = in;
        places = new Places(method);
    }

    private int u2(int at) {
        return in.getShort(at) & 0xffff;
    }

    byte[] written() throws TooLarge {
        byte[] handler = method.handler();
        int size = places.size() + (handler == null ? 0 : handler.length);
        if (size > MOST_CODE) throw new TooLarge("it has more than 65,535 bytes");
        Bytes out = new Bytes().u2(u2(method.codeAt + 6) + MOST_ADDED).u2(u2(method.codeAt + 8)).u4(size);
        instructions(out);
        if (handler != null) out.raw(handler);
        handlers(out, handler != null);
        new CodeAttributes(type, method, in, places).write(out);
        return out.toArray();
    }

    private void handlers(Bytes out, boolean hasNew) {
        int table = method.start + method.length;
        int left = u2(table);
        out.u2(left + (hasNew ? 1 : 0));
        for (int one = table + 2; left > 0; left--, one += 8)
            out.u2(places.start(u2(one))).u2(places.target(u2(one + 2))).u2(places.target(u2(one + 4))).u2(u2(one + 6));
        if (hasNew) out.u2(method.entry().length).u2(places.size()).u2(places.size()).u2(0);
    }

    // ---- instructions ----

    private void instructions(Bytes out) throws TooLarge {
        out.raw(method.entry());
        for (int place = 0, next; place < method.length; place = next) {
            next = method.next(place);
            out.raw(method.before(place));
            byte[] instead = method.instead(place);
            if (instead != null) out.raw(instead);
            else instruction(out, place, next);
            out.raw(method.after(place));
        }
    }

    private void instruction(Bytes out, int place, int next) throws TooLarge {
        int operation = method.operation(place);
        int at = method.start + place;
        if (Opcode.jumps(operation)) out.u1(operation).u2(shortJump(place, in.getShort(at + 1)));
        else if (Opcode.jumpsFar(operation)) out.u1(operation).u4(jump(place, in.getInt(at + 1)));
        else if (Opcode.isSwitch(operation)) switchTable(out, place, next);
        else out.raw(in.array(), at, next - place);
    }

    private int jump(int from, int offset) {
        return places.target(from + offset) - places.moved(from);
    }

    private int shortJump(int from, int offset) throws TooLarge {
        int jump = jump(from, offset);
        if (jump != (short) jump) throw new TooLarge("it has a jump over more than 32,767 bytes");
        return jump;
    }

    private void switchTable(Bytes out, int place, int next) {
        int operation = method.operation(place);
        boolean hasKeys = operation == Opcode.LOOKUPSWITCH;
        out.u1(operation);
        for (int padding = 3 - places.moved(place) & 3; padding > 0; padding--) out.u1(0);
        int one = method.start + (place & ~3) + 4;
        out.u4(jump(place, in.getInt(one))).u4(in.getInt(one + 4));
        if (!hasKeys) out.u4(in.getInt(one + 8));
        for (one += hasKeys ? 8 : 12; one < method.start + next; one += 4) {
            if (hasKeys) {
                out.u4(in.getInt(one));
                one += 4;
            }
            out.u4(jump(place, in.getInt(one)));
        }
    }
}
