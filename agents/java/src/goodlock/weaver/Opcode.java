package goodlock.weaver;

/** The instructions that the weaver looks for or writes, and the length of each one. */
final class Opcode {
    static final int LCONST_0 = 0x09;
    static final int SIPUSH = 0x11;
    static final int LDC_W = 0x13;
    static final int ILOAD_0 = 0x1a;
    static final int LLOAD_1 = 0x1f;
    static final int ALOAD_0 = 0x2a;
    static final int POP = 0x57;
    static final int POP2 = 0x58;
    static final int DUP = 0x59;
    static final int DUP_X2 = 0x5b;
    static final int DUP2 = 0x5c;
    static final int DUP2_X1 = 0x5d;
    static final int SWAP = 0x5f;
    static final int IMUL = 0x68;
    static final int IINC = 0x84;
    static final int LCMP = 0x94;
    static final int IFEQ = 0x99;
    static final int JSR = 0xa8;
    static final int TABLESWITCH = 0xaa;
    static final int LOOKUPSWITCH = 0xab;
    static final int IRETURN = 0xac;
    static final int RETURN = 0xb1;
    static final int GETSTATIC = 0xb2;
    static final int PUTSTATIC = 0xb3;
    static final int GETFIELD = 0xb4;
    static final int PUTFIELD = 0xb5;
    static final int INVOKEVIRTUAL = 0xb6;
    static final int INVOKESTATIC = 0xb8;
    static final int INVOKEINTERFACE = 0xb9;
    static final int ATHROW = 0xbf;
    static final int MONITORENTER = 0xc2;
    static final int MONITOREXIT = 0xc3;
    static final int WIDE = 0xc4;
    static final int IFNULL = 0xc6;
    static final int IFNONNULL = 0xc7;
    static final int GOTO_W = 0xc8;
    static final int JSR_W = 0xc9;

    /* By the number of the instruction; ? has a length of its own. */
    private static final String LENGTHS = "11111111111111112323322222111111111111111111111111111122222111111111111111111111111111111111111111111"
        + "111111111111111111111111111111131111111111111111111133333333333333332??111111333333355323113311?43355";

    private Opcode() {}

    /** Not for switches and WIDE. */
    static int length(int operation) {
        return LENGTHS.charAt(operation) - '0';
    }

    static boolean isKnown(int operation) {
        return operation < LENGTHS.length();
    }

    /** Whether it has a jump of 16 bits. */
    static boolean jumps(int operation) {
        return operation >= IFEQ && operation <= JSR || operation == IFNULL || operation == IFNONNULL;
    }

    static boolean jumpsFar(int operation) {
        return operation == GOTO_W || operation == JSR_W;
    }

    static boolean isSwitch(int operation) {
        return operation == TABLESWITCH || operation == LOOKUPSWITCH;
    }

    static boolean returns(int operation) {
        return operation >= IRETURN && operation <= RETURN;
    }
}
