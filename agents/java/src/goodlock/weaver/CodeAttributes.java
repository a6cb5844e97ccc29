package goodlock.weaver;

import java.nio.ByteBuffer;

/** Writes the attributes of changed code: lines, variables and stack maps. Others, which are annotations of types, are left out. */
final class CodeAttributes {
    private static final String[] VARIABLES = {"LocalVariableTable", "LocalVariableTypeTable"};

    private final ClassFile type;
    private final Method method;
    private final ByteBuffer in;
    private final Places places;
    private final Bytes all = new Bytes();
    private int count;

    CodeAttributes(ClassFile type, Method method, ByteBuffer in, Places places) {
        this.type = type;
        this.method = method;
        this.in = in;
        this.places = places;
    }

    private int u2(int at) {
        return in.getShort(at) & 0xffff;
    }

    void write(Bytes out) {
        lines();
        for (String table : VARIABLES) variables(method.attribute(table));
        maps();
        out.u2(count).raw(all.toArray());
    }

    /** Code at the entry has the line of the first instruction: a stack trace within it shows that line. */
    private void lines() {
        int table = method.attribute("LineNumberTable");
        if (table == 0) return;
        int first = method.entry().length == 0 ? 0 : method.line(0);
        int left = u2(table + 6);
        int entries = left + (first > 0 ? 1 : 0);
        all.u2(u2(table)).u4(2 + 4 * entries).u2(entries);
        if (first > 0) all.u2(0).u2(first);
        for (int one = table + 8; left > 0; left--, one += 4) all.u2(places.target(u2(one))).u2(u2(one + 2));
        count++;
    }

    private void variables(int table) {
        if (table == 0) return;
        all.raw(in.array(), table, 8);
        for (int left = u2(table + 6), one = table + 8; left > 0; left--, one += 10) {
            int from = places.target(u2(one));
            int to = places.target(u2(one) + u2(one + 2));
            all.u2(from).u2(to - from).raw(in.array(), one + 4, 6);
        }
        count++;
    }

    private void maps() {
        int table = method.attribute("StackMapTable");
        boolean hasHandler = method.handler() != null;
        if (table == 0 && (!hasHandler || type.version < ClassFile.MAPS_FROM)) return;
        byte[] maps = new StackMaps(type, method, in, places).written(table);
        all.u2(table == 0 ? type.pool.utf8("StackMapTable") : u2(table)).u4(maps.length).raw(maps);
        count++;
    }
}
