package goodlock.weaver;

import goodlock.recorder.Kind;
import goodlock.recorder.Sites;

/** Changes the body of a method of the platform by its rule. */
final class RuleWeaver {
    private static final String OBJECT = "Ljava/lang/Object;";
    private static final String ONE = "(" + OBJECT + ")V";
    private static final String STAMPED = PlatformRules.LOCKS + "StampedLock";

    private final ClassFile type;
    private final Method method;

    RuleWeaver(ClassFile type, Method method) {
        this.type = type;
        this.method = method;
    }

    void apply(Rule rule) throws TooLarge {
        if (rule.acquires()) acquires(rule);
        else if (rule.releases()) releases(rule);
        else if (rule == Rule.CONVERT) converts();
        else if (rule == Rule.WAIT) waits();
        else orders(rule);
    }

    private Code code() {
        return new Code(type);
    }

    /** The object that stands for the lock. */
    private Code lock() {
        for (ClassFile.Field field : type.fields) if (field.name.equals("sync")) return code().load(0).field(field.name, field.desc);
        return code().load(0);
    }

    // ---- locks ----

    private int acquireOf(Rule rule) {
        boolean isTimed = method.desc.startsWith("(J");
        int how = !rule.tries() ? Kind.LOCK : isTimed ? Kind.TIMED : Kind.TRIED;
        int flags = Kind.PREFERS_WRITERS | (type.name.equals(STAMPED) ? Kind.COUNTS_NONE : 0);
        if (rule.isOfWriter()) return how - Kind.LOCK + Kind.WRITE_LOCK | flags;
        if (!rule.isOfReader()) return how;
        return Kind.READ_LOCK | flags | (!rule.tries() ? 0 : isTimed ? Kind.READS_TIMED : Kind.READS_TRIED);
    }

    private void acquires(Rule rule) throws TooLarge {
        Code call = lock().number(acquireOf(rule));
        if (rule.tries()) method.atReturns(isSuccess().add(call).call("Locks", "lockedIf", "(Z" + OBJECT + "I)V").bytes());
        else method.atReturns(call.call("Locks", "locked", "(" + OBJECT + "I)V").bytes());
        method.atThrows(leavesSite().bytes());
    }

    /** Whether the result, a boolean or a stamp, is not 0. */
    private Code isSuccess() {
        if (!method.desc.endsWith("J")) return code().op(Opcode.DUP);
        return code().op(Opcode.DUP2, Opcode.LCONST_0, Opcode.LCMP, Opcode.DUP, Opcode.IMUL);
    }

    /** The call has failed by an exception: the line is not that of what the thread does next. */
    private Code leavesSite() {
        return code().number(Sites.UNKNOWN).call("Locks", "site", "(I)V");
    }

    private void releases(Rule rule) {
        method.atEntry(lock().call("Locks", rule.isOfReader() ? "readerUnlocks" : "unlocks", ONE).bytes());
    }

    private void converts() throws TooLarge {
        method.atReturns(code().op(Opcode.DUP2, Opcode.LLOAD_1).load(0).call("Locks", "converted", "(JJ" + OBJECT + ")V").bytes());
    }

    /** The lock is the outer object of the condition. */
    private void waits() throws TooLarge {
        Code awaited = code().call("Waits", "awaited", "()V");
        method.atReturns(awaited.bytes());
        method.atThrows(code().add(awaited).add(leavesSite()).bytes());
        method.atEntry(code().load(0).field("this$0", "L" + PlatformRules.LOCKS + "AbstractQueuedSynchronizer;").load(0)
            .call("Waits", "awaits", "(" + OBJECT + OBJECT + ")V").bytes());
    }

    // ---- orders ----

    private byte[] gives(int variable) {
        return ordersBy(variable, "gives");
    }

    private byte[] takes() {
        return ordersBy(0, "takes");
    }

    private byte[] ordersBy(int variable, String call) {
        return code().load(variable).call("Orders", call, ONE).bytes();
    }

    private void orders(Rule rule) throws TooLarge {
        boolean hasObject = method.desc.startsWith("(L");
        if (rule == Rule.TAKE || rule == Rule.GIVE_TAKE) takesAtReturns();
        if (rule == Rule.GIVE || rule == Rule.GIVE_TAKE) method.atEntry(gives(0));
        if (rule == Rule.SIGNAL) method.atEntry(ordersBy(0, "signals"));
        if (rule == Rule.GIVE_ARGUMENT && hasObject) method.atEntry(gives(1));
        if (rule == Rule.TAKE_RESULT && method.desc.contains(")L")) method.atReturns(code().op(Opcode.DUP).call("Orders", "takes", ONE).bytes());
        if (rule == Rule.WRITE_VALUE || rule == Rule.CHANGE_VALUE) method.atEntry(ordersBy(0, "givesAtomic"));
        if (rule == Rule.READ_VALUE || rule == Rule.CHANGE_VALUE) method.atReturns(ordersBy(0, "takesAtomic"));
        if (rule == Rule.RUN) method.atEntry(takes());
    }

    private void takesAtReturns() throws TooLarge {
        byte[] ifTrue = code().op(Opcode.DUP).load(0).call("Orders", "takesIf", "(Z" + OBJECT + ")V").bytes();
        method.atReturns(method.desc.endsWith("Z") ? ifTrue : takes());
    }
}
