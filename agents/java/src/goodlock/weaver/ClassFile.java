package goodlock.weaver;

import java.nio.ByteBuffer;
import java.util.ArrayList;
import java.util.List;

/** A class file: its fields, and its methods, into which code can be put. All else is copied. */
final class ClassFile {
    static final class Field {
        final int access;
        final String name;
        final String desc;

        Field(int access, String name, String desc) {
            this.access = access;
            this.name = name;
            this.desc = desc;
        }
    }

    static final int STATIC = 8;
    static final int SYNCHRONIZED = 0x20;
    static final int VOLATILE = 0x40;
    static final int MAPS_FROM = 50; // the first version with stack maps
    static final int TYPES_FROM = 49; // the first version in which an instruction can load a class

    private final ByteBuffer in;
    private final int methodsAt;
    private final int afterMethods;
    final ConstantPool pool;
    final int version;
    final int self; // the entry of this class
    final String name; // bank/Account
    final List<Field> fields = new ArrayList<>();
    final List<Method> methods = new ArrayList<>();
    String source; // null: not known

    ClassFile(byte[] code) {
        in = ByteBuffer.wrap(code);
        version = u2(6);
        pool = new ConstantPool(in);
        self = u2(pool.end + 2);
        name = pool.className(self);
        methodsAt = readFields(pool.end + 8 + 2 * u2(pool.end + 6));
        afterMethods = readMethods(methodsAt);
        for (int left = u2(afterMethods), at = afterMethods + 2; left > 0; left--, at = afterAttribute(at))
            if (pool.text(u2(at)).equals("SourceFile")) source = pool.text(u2(at + 6));
    }

    private int u2(int at) {
        return in.getShort(at) & 0xffff;
    }

    private int afterAttribute(int at) {
        return at + 6 + in.getInt(at + 2);
    }

    private int readFields(int from) {
        int at = from + 2;
        for (int left = u2(from); left > 0; left--) {
            fields.add(new Field(u2(at), pool.text(u2(at + 2)), pool.text(u2(at + 4))));
            int attributes = u2(at + 6);
            for (at += 8; attributes > 0; attributes--) at = afterAttribute(at);
        }
        return at;
    }

    private int readMethods(int from) {
        int at = from + 2;
        for (int left = u2(from); left > 0; left--) {
            int start = at;
            int codeAt = 0;
            int attributes = u2(at + 6);
            for (at += 8; attributes > 0; attributes--) {
                if (pool.text(u2(at)).equals("Code")) codeAt = at;
                at = afterAttribute(at);
            }
            methods.add(new Method(this, in, start, codeAt, at));
        }
        return at;
    }

    /** Returns whether the class has such a field. */
    boolean hasField(String name, int access) {
        for (Field field : fields) if (field.name.equals(name) && (field.access & access) == access) return true;
        return false;
    }

    /** The class with its changed methods. A method that would become too large is unchanged, and is in `refused`. */
    byte[] write(List<Method> refused) throws TooLarge {
        Bytes rest = new Bytes().raw(in.array(), pool.end, methodsAt + 2 - pool.end);
        for (Method method : methods) {
            try {
                rest.raw(method.written());
            } catch (TooLarge error) {
                refused.add(method);
                rest.raw(method.original());
            }
        }
        rest.raw(in.array(), afterMethods, in.capacity() - afterMethods);
        Bytes out = new Bytes().raw(in.array(), 0, 8);
        pool.write(out);
        return out.raw(rest.toArray()).toArray();
    }
}
