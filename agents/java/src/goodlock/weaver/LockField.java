package goodlock.weaver;

import goodlock.weaver.ConstantPool.Member;

/** Finds the field from which the instructions before a monitor or a call have taken the lock: `bank.Account.lock`. */
final class LockField {
    private static final int LAST = 3;

    private final Method method;
    private final int[] places = {-1, -1, -1}; // of the last instructions, the last one first

    LockField(Method method) {
        this.method = method;
    }

    /** The next instruction was looked at. */
    void pass(int place) {
        System.arraycopy(places, 0, places, 1, LAST - 1);
        places[0] = place;
    }

    /** Before it compilers copy the lock, and keep the copy in a variable. */
    String ofMonitor() {
        boolean isCopied = places[2] >= 0 && method.operation(places[1]) == Opcode.DUP;
        return isCopied ? at(places[2]) : null;
    }

    /** Only of a call without arguments. */
    String ofCall(String desc) {
        return desc.startsWith("()") && places[0] >= 0 ? at(places[0]) : null;
    }

    private String at(int place) {
        int operation = method.operation(place);
        if (operation != Opcode.GETFIELD && operation != Opcode.GETSTATIC) return null;
        Member field = method.member(place);
        return field.owner.replace('/', '.') + "." + field.name;
    }
}
