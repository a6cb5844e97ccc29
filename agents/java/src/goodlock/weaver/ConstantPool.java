package goodlock.weaver;

import java.nio.ByteBuffer;
import java.nio.charset.StandardCharsets;
import java.util.HashMap;
import java.util.Map;

/** The constants of a class file: those that it has, and those that are added for woven code. */
final class ConstantPool {
    /** A field or method that an instruction names. */
    static final class Member {
        final String owner;
        final String name;
        final String desc;

        Member(String owner, String name, String desc) {
            this.owner = owner;
            this.name = name;
            this.desc = desc;
        }
    }

    private static final int UTF8 = 1;
    private static final int INTEGER = 3;
    private static final int LONG = 5;
    private static final int DOUBLE = 6;
    private static final int CLASS = 7;
    private static final int FIELD = 9;
    private static final int METHOD = 10;
    private static final int NAME_AND_TYPE = 12;
    private static final int START = 10;
    /* By tag: the bytes of an entry; 0: it has a length of its own, or there is none. */
    private static final int[] SIZES = {0, 0, 0, 5, 5, 9, 9, 3, 3, 5, 5, 5, 5, 0, 0, 4, 3, 5, 5, 3, 3};

    private final ByteBuffer in;
    private final int[] entries; // where each one is
    private final Bytes added = new Bytes();
    private final Map<String, Integer> found = new HashMap<>();
    private int count;
    final int end;

    ConstantPool(ByteBuffer in) {
        this.in = in;
        count = u2(START - 2);
        entries = new int[count];
        int at = START;
        for (int one = 1; one < count; one++) {
            entries[one] = at;
            int tag = in.get(at);
            if (tag == LONG || tag == DOUBLE) one++; // the next number is not used
            at += tag == UTF8 ? 3 + u2(at + 1) : SIZES[tag];
        }
        end = at;
    }

    private int u2(int at) {
        return in.getShort(at) & 0xffff;
    }

    String text(int entry) {
        return new String(in.array(), entries[entry] + 3, u2(entries[entry] + 1), StandardCharsets.UTF_8);
    }

    String className(int entry) {
        return text(u2(entries[entry] + 1));
    }

    Member member(int entry) {
        int at = entries[entry];
        int both = entries[u2(at + 3)];
        return new Member(className(u2(at + 1)), text(u2(both + 1)), text(u2(both + 3)));
    }

    // ---- new entries ----

    private int add(String key, Bytes entry) {
        Integer known = found.get(key);
        if (known != null) return known;
        added.raw(entry.toArray());
        found.put(key, count);
        return count++;
    }

    int utf8(String text) {
        byte[] bytes = text.getBytes(StandardCharsets.UTF_8);
        return add("utf8 " + text, new Bytes().u1(UTF8).u2(bytes.length).raw(bytes));
    }

    int type(String name) {
        return add("type " + name, new Bytes().u1(CLASS).u2(utf8(name)));
    }

    int number(int value) {
        return add("number " + value, new Bytes().u1(INTEGER).u4(value));
    }

    int field(Member field) {
        return member(FIELD, field);
    }

    int method(Member method) {
        return member(METHOD, method);
    }

    private int member(int tag, Member member) {
        int both = add("both " + member.name + member.desc, new Bytes().u1(NAME_AND_TYPE).u2(utf8(member.name)).u2(utf8(member.desc)));
        int owner = type(member.owner);
        return add(tag + " " + member.owner + "." + member.name + member.desc, new Bytes().u1(tag).u2(owner).u2(both));
    }

    void write(Bytes out) throws TooLarge {
        if (count > 0xffff) throw new TooLarge("it has too many constants");
        out.u2(count).raw(in.array(), START, end - START).raw(added.toArray());
    }
}
