package goodlock.agent;

import java.lang.instrument.Instrumentation;

/** The virtual machine calls it before the program. It is compiled for Java 8, so that an old virtual machine gets a line and runs the program. */
public final class Premain {
    private static final int OLDEST = 11;

    private Premain() {}

    /** No error of the agent ends the program. */
    public static void premain(String words, Instrumentation instrumentation) {
        String version = System.getProperty("java.specification.version", "");
        try {
            if (isOld(version)) say("Java " + version + " is not supported, Java " + OLDEST + " or later is; the program runs without the agent");
            else Class.forName("goodlock.agent.Agent").getMethod("start", String.class, Instrumentation.class).invoke(null, words, instrumentation);
        } catch (Throwable error) {
            Throwable cause = error.getCause() == null ? error : error.getCause();
            String text = cause.getMessage() == null ? cause.toString() : cause.getMessage();
            say("cannot trace: " + text + "; the program runs on");
        }
    }

    static boolean isOld(String version) {
        return version.startsWith("1.") || version.equals("9") || version.equals("10");
    }

    static void say(String text) {
        System.err.println("goodlock: " + text);
    }
}
