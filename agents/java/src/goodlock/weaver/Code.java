package goodlock.weaver;

import goodlock.weaver.ConstantPool.Member;

/** Instructions that are put into a method: mostly a call of the recorder with its arguments. */
final class Code {
    private final ClassFile type;
    private final Bytes out = new Bytes();

    Code(ClassFile type) {
        this.type = type;
    }

    Code op(int... operations) {
        for (int one : operations) out.u1(one);
        return this;
    }

    /** Loads an object from the first three variables. */
    Code load(int variable) {
        return op(Opcode.ALOAD_0 + variable);
    }

    Code number(int value) {
        if (value == (short) value) out.u1(Opcode.SIPUSH).u2(value);
        else out.u1(Opcode.LDC_W).u2(type.pool.number(value));
        return this;
    }

    /** Loads the class itself. */
    Code self() {
        if (type.version < ClassFile.TYPES_FROM) return call("Locks", "callerClass", "()Ljava/lang/Class;");
        out.u1(Opcode.LDC_W).u2(type.self);
        return this;
    }

    /** Replaces the object on the stack by the content of its field. */
    Code field(String name, String desc) {
        out.u1(Opcode.GETFIELD).u2(type.pool.field(new Member(type.name, name, desc)));
        return this;
    }

    /** Calls a static method of the recorder. */
    Code call(String owner, String name, String desc) {
        return callAny("goodlock/recorder/" + owner, name, desc);
    }

    Code callAny(String owner, String name, String desc) {
        out.u1(Opcode.INVOKESTATIC).u2(type.pool.method(new Member(owner, name, desc)));
        return this;
    }

    Code add(Code other) {
        out.raw(other.bytes());
        return this;
    }

    byte[] bytes() {
        return out.toArray();
    }
}
