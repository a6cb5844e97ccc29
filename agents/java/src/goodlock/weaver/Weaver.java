package goodlock.weaver;

import goodlock.recorder.Lines;
import goodlock.recorder.Sites;
import goodlock.weaver.ConstantPool.Member;
import java.util.ArrayList;
import java.util.List;

/** Puts calls of the recorder into a class: around monitors, synchronized methods and some calls, and into the methods of the platform with a rule. */
public final class Weaver {
    private static final String OBJECT = "Ljava/lang/Object;";
    private static final String ONE = "(" + OBJECT + ")V";
    private static final String STATE = "Lgoodlock/recorder/ThreadState;";
    private static final String SITED = "(" + OBJECT + "I)V";

    /** What volatile fields and atomics hand over is recorded: --memory atomics. */
    public static volatile boolean hasValues;

    private final String module; // of the platform; null: the class is of the program
    private final ClassFile type;
    private final String typeName; // bank.Account
    private final boolean isOfQueues;
    private final boolean isOfLocks;
    private final List<Method> refused = new ArrayList<>();
    private Method method;
    private LockField fieldBefore;
    private boolean isChanged;

    private Weaver(String module, byte[] code) {
        this.module = module;
        type = new ClassFile(code);
        typeName = type.name.replace('/', '.');
        isOfQueues = type.name.startsWith(PlatformRules.CONCURRENT);
        isOfLocks = type.name.startsWith(PlatformRules.LOCKS);
    }

    /**
     * Returns the changed class, or null if nothing in it is to be changed. `module`: that of a class of the platform, or null. Methods that would
     * become too large stay, and are added to `unseen`.
     */
    public static byte[] weave(String module, byte[] code, List<String> unseen) throws TooLarge {
        Weaver weaver = new Weaver(module, code);
        for (Method method : weaver.type.methods) if (method.codeAt > 0) weaver.change(method);
        if (!weaver.isChanged) return null;
        byte[] result = weaver.type.write(weaver.refused);
        for (Method method : weaver.refused) unseen.add(weaver.typeName + "." + method.name + ", which is too large");
        return result;
    }

    private void change(Method method) throws TooLarge {
        this.method = method;
        try {
            if (ThreadWeaver.knows(type.name)) isChanged |= new ThreadWeaver(type, method).change();
            else changeAny();
        } catch (TooLarge error) {
            refused.add(method);
        }
    }

    private void changeAny() throws TooLarge {
        fieldBefore = new LockField(method);
        for (int place = 0; place < method.length; place = method.next(place)) {
            int operation = method.operation(place);
            if (operation == Opcode.MONITORENTER) entersMonitor(place);
            else if (operation == Opcode.MONITOREXIT) before(place, code().op(Opcode.DUP).number(site(place, null)).call("Locks", "exits", SITED));
            else if (operation >= Opcode.INVOKEVIRTUAL && operation <= Opcode.INVOKEINTERFACE) atCall(place, method.member(place), operation);
            else if (hasValues && module == null && operation >= Opcode.GETSTATIC && operation <= Opcode.PUTFIELD) atField(place, operation);
            fieldBefore.pass(place);
        }
        if ((method.access & ClassFile.SYNCHRONIZED) != 0) synchronize();
        Rule rule = method.isStatic() ? null : PlatformRules.of(type.name, method.name, hasValues);
        if (rule == null) return;
        new RuleWeaver(type, method).apply(rule);
        isChanged = true;
    }

    // ---- monitors ----

    private void entersMonitor(int place) {
        int site = site(place, fieldBefore.ofMonitor());
        before(place, code().op(Opcode.DUP).number(site).call("Locks", "enters", "(" + OBJECT + "I)" + STATE).op(Opcode.SWAP));
        after(place, code().call("Locks", "entered", "(" + STATE + ")V"));
    }

    private void synchronize() throws TooLarge {
        Code lock = method.isStatic() ? code().self() : code().load(0);
        int site = site(0, null);
        byte[] exits = code().add(lock).number(site).call("Locks", "exits", SITED).bytes();
        method.atReturns(exits);
        method.atThrows(exits);
        method.atEntry(code().add(lock).number(site).call("Locks", "begun", SITED).bytes());
        isChanged = true;
    }

    // ---- calls ----

    private void atCall(int place, Member call, int operation) {
        String what = call.name + call.desc;
        boolean isStatic = operation == Opcode.INVOKESTATIC;
        if (isStatic && call.owner.equals(PlatformRules.LOCKS + "LockSupport") && !isOfQueues) parks(place, call.name);
        else if (isStatic) return;
        else if (what.equals("wait()V") || what.equals("wait(J)V") || what.equals("wait(JI)V")) {
            String desc = call.desc.replace("(", "(" + OBJECT).replace(")", "I)");
            method.instead(place, code().number(site(place, null)).call("Waits", "monitorWait", desc).bytes());
            isChanged = true;
        } else if (what.equals("notify()V") || what.equals("notifyAll()V")) {
            before(place, code().op(Opcode.DUP).number(site(place, null)).call("Orders", "signals", SITED));
        } else if (isOfQueues && runsTask(call)) before(place, code().op(Opcode.DUP).call("Orders", "takes", ONE));
        else if (!call.name.equals("<init>")) noteSite(place, call);
    }

    private static boolean runsTask(Member call) {
        return call.name.equals("run") && call.owner.equals("java/lang/Runnable") || call.name.equals("call") && call.owner.endsWith("/Callable");
    }

    /** Between the platform's own classes a park is part of a lock, which must not order its sections. */
    private void parks(int place, String name) {
        if (name.equals("unpark")) before(place, code().op(Opcode.DUP).call("Orders", "gives", ONE));
        else if (name.startsWith("park"))
            after(place, code().callAny("java/lang/Thread", "currentThread", "()Ljava/lang/Thread;").call("Orders", "takes", ONE));
    }

    /** A method of the platform that the call may reach records with this line. */
    private void noteSite(int place, Member call) {
        if (isOfLocks || !PlatformRules.mayRecord(call.owner, hasValues && module == null) || isOfQueues && !call.owner.startsWith(PlatformRules.LOCKS)) return;
        int site = isOfQueues ? Sites.NOT_RECORDED : site(place, fieldBefore.ofCall(call.desc));
        before(place, code().number(site).call("Locks", "site", "(I)V"));
        after(place, code().number(Sites.UNKNOWN).call("Locks", "site", "(I)V"));
    }

    // ---- volatile fields ----

    /** A volatile field of the class itself: a write gives, a read takes. The object hands over for all its fields. */
    private void atField(int place, int operation) {
        Member field = method.member(place);
        if (!field.owner.equals(type.name) || method.name.startsWith("<") || !type.hasField(field.name, ClassFile.VOLATILE)) return;
        boolean isWide = field.desc.equals("J") || field.desc.equals("D");
        Code object = code();
        Code gives = code().number(site(place, null)).call("Orders", "givesValue", SITED);
        Code takes = code().number(site(place, null)).call("Orders", "takesValue", SITED);
        switch (operation) {
            case Opcode.GETSTATIC: after(place, code().self().add(takes)); break;
            case Opcode.PUTSTATIC: before(place, code().self().add(gives)); break;
            case Opcode.GETFIELD:
                before(place, object.op(Opcode.DUP));
                after(place, (isWide ? code().op(Opcode.DUP2_X1, Opcode.POP2) : code().op(Opcode.SWAP)).add(takes));
                break;
            default:
                object = isWide ? object.op(Opcode.DUP2_X1, Opcode.POP2, Opcode.DUP_X2) : object.op(Opcode.DUP2, Opcode.POP);
                before(place, object.add(gives));
        }
    }

    // ---- helpers ----

    private Code code() {
        return new Code(type);
    }

    private void before(int place, Code code) {
        method.before(place, code.bytes());
        isChanged = true;
    }

    private void after(int place, Code code) {
        method.after(place, code.bytes());
        isChanged = true;
    }

    private int site(int place, String field) {
        return Sites.add(module != null, Lines.fileOf(module, typeName, type.source), method.line(place), typeName, method.name, field);
    }
}
