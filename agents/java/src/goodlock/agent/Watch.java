package goodlock.agent;

import goodlock.recorder.Deadlocks;
import goodlock.recorder.Numbers;
import goodlock.recorder.Ring;
import goodlock.recorder.ThreadState;

/** A thread of the agent that looks from time to time for deadlocks that happen, for objects that are gone, and for events that were lost. */
final class Watch extends Thread {
    private static final long EVERY = 250;
    private static final int LOOK = 2; // each so many rounds

    private boolean hasLost;

    Watch() {
        super("goodlock");
        setDaemon(true);
    }

    @Override
    public void run() {
        ThreadState.ignoreThisThread();
        Deadlocks deadlocks = new Deadlocks();
        try {
            for (int round = 0;; round++) {
                Thread.sleep(EVERY);
                Numbers.forget();
                if (Ring.fillLost() + ThreadState.takeFaults() > 0) sayLost();
                if (round % LOOK == 0) deadlocks.look();
            }
        } catch (Throwable error) {
            Ring.unseen("deadlocks that happen, from some time on: " + error);
        }
    }

    private void sayLost() {
        if (!hasLost) Ring.unseen("events for which the virtual machine had no stack or memory left");
        hasLost = true;
    }
}
