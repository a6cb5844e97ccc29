package goodlock.weaver;

/** Changes the classes of threads and of the end of the virtual machine. Their own monitors are not recorded. */
final class ThreadWeaver {
    private static final String THREAD = "java/lang/Thread";
    private static final String VIRTUAL = "java/lang/VirtualThread";
    private static final String SHUTDOWN = "java/lang/Shutdown";
    private static final String ONE = "(Ljava/lang/Thread;)V";
    private static final String ENDING = "goodlock/agent/Ending";

    private final ClassFile type;
    private final Method method;
    private boolean isChanged;

    ThreadWeaver(ClassFile type, Method method) {
        this.type = type;
        this.method = method;
    }

    static boolean knows(String type) {
        return type.equals(THREAD) || type.equals(VIRTUAL) || type.equals(SHUTDOWN);
    }

    /** Returns whether the method is changed. */
    boolean change() throws TooLarge {
        String what = method.name + method.desc;
        if (type.name.equals(SHUTDOWN)) atEnd(what);
        else if (type.name.equals(VIRTUAL)) virtual();
        else if (!method.isStatic()) thread(what);
        return isChanged;
    }

    private Code call(String name) {
        return new Code(type).load(0).call("Threads", name, ONE);
    }

    private void atEntry(Code code) {
        method.atEntry(code.bytes());
        isChanged = true;
    }

    private void thread(String what) throws TooLarge {
        starts();
        if (what.equals("exit()V")) atEntry(call("ends"));
        else if (what.equals("join(J)V")) joins();
        else if (what.equals("join(Ljava/time/Duration;)Z")) method.atReturns(call("joined").bytes());
        else if (method.name.equals("setName")) method.atReturns(call("isNamed").bytes());
        else if (what.equals("dispatchUncaughtException(Ljava/lang/Throwable;)V"))
            atEntry(new Code(type).load(0).callAny(ENDING, "isUncaught", ONE));
    }

    /** The fork comes before the call that starts the thread. */
    private void starts() throws TooLarge {
        for (int place = 0; place < method.length; place = method.next(place)) {
            int operation = method.operation(place);
            boolean isCall = operation >= Opcode.INVOKEVIRTUAL && operation < Opcode.INVOKESTATIC;
            if (!isCall || !method.member(place).name.equals("start0")) continue;
            method.before(place, call("starts").bytes());
            method.atThrows(call("isUnstarted").bytes());
            isChanged = true;
        }
    }

    private void joins() throws TooLarge {
        method.atReturns(call("joined").bytes());
        method.atThrows(call("joined").bytes());
        atEntry(new Code(type).load(0).op(Opcode.LLOAD_1).call("Threads", "joins", "(Ljava/lang/Thread;J)V"));
    }

    private void virtual() {
        if (method.name.equals("start") && method.desc.startsWith("(L")) atEntry(call("starts"));
    }

    /** All hooks of the program have run then. */
    private void atEnd(String what) throws TooLarge {
        if (what.equals("halt(I)V")) atEntry(new Code(type).op(Opcode.ILOAD_0).callAny(ENDING, "halts", "(I)V"));
        if (!what.equals("shutdown()V")) return;
        method.atReturns(new Code(type).callAny(ENDING, "shutsDown", "()V").bytes());
        isChanged = true;
    }
}
