package goodlock.agent;

import goodlock.recorder.Ring;
import goodlock.recorder.ThreadState;
import java.nio.file.Files;
import java.nio.file.Path;

/** The end of a run whose collector this process has started: waits for the report, and may change the exit status. Woven code of the platform
 *  calls it when all hooks of the program have run. */
public final class Ending {
    private static final int DEADLOCK = 1;
    private static final int NOT_ANALYSED = 125;

    private static CollectorProcess collector;
    private static Options options;
    private static int verdict = -1; // -1: not known yet
    private static volatile boolean isEnding;
    private static volatile boolean hasThrown; // the main thread has ended by an exception, which gives the status 1

    private Ending() {}

    static void follow(CollectorProcess process, Options given) {
        collector = process;
        options = given;
    }

    /** The thread ends by an exception. */
    public static void isUncaught(Thread thread) {
        if (thread.getId() == 1) hasThrown = true;
    }

    public static void shutsDown() {
        end(hasThrown ? 1 : 0);
    }

    public static void halts(int status) {
        end(status);
    }

    /** A deadlock gives the wanted status, and a run that was not analysed its own, if that of the program is 0. */
    private static void end(int status) {
        if (collector == null || isEnding) return;
        isEnding = true;
        try {
            int found = finish();
            if (options.errorStatus < 0 || found == 0 || found != DEADLOCK && status != 0) return;
            Runtime.getRuntime().halt(found == DEADLOCK ? options.errorStatus : NOT_ANALYSED);
        } catch (Exception error) {
            Premain.say("there is no report: " + error);
        }
    }

    private static synchronized int finish() throws InterruptedException {
        if (verdict >= 0) return verdict;
        ThreadState.record(false);
        Ring.finish();
        return verdict = collector.waitFor();
    }

    // ---- for a test's framework ----

    /** Ends the recording. Returns why the run fails, or null if it does not. */
    public static String failure() throws Exception {
        if (collector == null) return "the agent has not started, so nothing was looked for";
        int found = finish();
        if (found == 0) return null;
        String why = found == DEADLOCK ? "a deadlock is predicted" : "the run was not analysed, or only in part";
        return why + "\n" + Files.readString(Path.of(options.out + ".report")).replaceAll("(?m)^  witness.*\n", ""); // it is long
    }
}
