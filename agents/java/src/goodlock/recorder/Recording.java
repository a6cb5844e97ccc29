package goodlock.recorder;

import java.io.IOException;

/** The begin of the recording in this process. */
public final class Recording {
    private Recording() {}

    /** The memory is mapped. `stacks`: how many lines an event has. Throws an exception if another process is traced. */
    public static void begin(int stacks) throws IOException {
        Walk.shown = Math.max(1, Math.min(stacks, Ring.MOST_CALLERS));
        if (!Ring.attach()) throw new IOException("another process is traced");
        Threads.adopt(Thread.currentThread(), Thread.getAllStackTraces().keySet());
        ThreadState state = ThreadState.current();
        state.isInside = true;
        state.lines(Sites.UNKNOWN); // loads what a walk needs before the first event
        Numbers.of(new Object(), Sites.UNKNOWN);
        state.isInside = false;
    }
}
