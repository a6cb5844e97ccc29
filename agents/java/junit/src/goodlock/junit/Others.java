package goodlock.junit;

import java.util.Set;
import java.util.concurrent.ConcurrentHashMap;
import org.junit.platform.engine.TestExecutionResult;
import org.junit.platform.launcher.TestExecutionListener;
import org.junit.platform.launcher.TestIdentifier;
import org.junit.platform.launcher.TestPlan;

/** Notes which engines of the run have not ended. The engine must not end the recording before their tests have run. */
public final class Others implements TestExecutionListener {
    private static final Set<String> UNFINISHED = ConcurrentHashMap.newKeySet();

    /** Returns the name of an engine with tests that have not run; null: there is none. */
    static String unfinished() {
        for (String name : UNFINISHED) return name;
        return null;
    }

    @Override
    public void testPlanExecutionStarted(TestPlan plan) {
        for (TestIdentifier root : plan.getRoots())
            if (!root.getUniqueId().contains("engine:goodlock") && !plan.getChildren(root).isEmpty()) UNFINISHED.add(root.getDisplayName());
    }

    @Override
    public void executionFinished(TestIdentifier one, TestExecutionResult result) {
        if (!one.getParentId().isPresent()) UNFINISHED.remove(one.getDisplayName());
    }

    @Override
    public void executionSkipped(TestIdentifier one, String reason) {
        if (!one.getParentId().isPresent()) UNFINISHED.remove(one.getDisplayName());
    }
}
