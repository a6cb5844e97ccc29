package goodlock.junit;

import java.lang.reflect.InvocationTargetException;
import org.junit.platform.engine.EngineDiscoveryRequest;
import org.junit.platform.engine.EngineExecutionListener;
import org.junit.platform.engine.ExecutionRequest;
import org.junit.platform.engine.TestDescriptor;
import org.junit.platform.engine.TestEngine;
import org.junit.platform.engine.TestExecutionResult;
import org.junit.platform.engine.UniqueId;
import org.junit.platform.engine.support.descriptor.AbstractTestDescriptor;
import org.junit.platform.engine.support.descriptor.EngineDescriptor;

/**
 * A test engine with one test, "no deadlock is predicted". It runs when the engines before it on the class path have run their tests, ends the
 * recording, and fails with the report if the run fails. Without the agent it is skipped.
 */
public final class DeadlockEngine implements TestEngine {
    private static final String ID = "goodlock";
    private static final String ENDING = "goodlock.agent.Ending";

    private static final class OnlyTest extends AbstractTestDescriptor {
        OnlyTest(UniqueId id) {
            super(id.append("test", "deadlocks"), "no deadlock is predicted");
        }

        @Override
        public Type getType() {
            return Type.TEST;
        }
    }

    @Override
    public String getId() {
        return ID;
    }

    @Override
    public TestDescriptor discover(EngineDiscoveryRequest request, UniqueId id) {
        EngineDescriptor all = new EngineDescriptor(id, ID);
        all.addChild(new OnlyTest(id));
        return all;
    }

    @Override
    public void execute(ExecutionRequest request) {
        EngineExecutionListener listener = request.getEngineExecutionListener();
        TestDescriptor all = request.getRootTestDescriptor();
        listener.executionStarted(all);
        for (TestDescriptor one : all.getChildren()) run(one, listener);
        listener.executionFinished(all, TestExecutionResult.successful());
    }

    private static void run(TestDescriptor one, EngineExecutionListener listener) {
        Class<?> ending = ending();
        if (ending == null) {
            listener.executionSkipped(one, "the agent is not loaded: -javaagent:goodlock.jar");
            return;
        }
        listener.executionStarted(one);
        listener.executionFinished(one, result(ending));
    }

    /** The agent is in the class loader of the platform. */
    private static Class<?> ending() {
        try {
            return Class.forName(ENDING, true, null);
        } catch (ClassNotFoundException error) {
            return null;
        }
    }

    private static TestExecutionResult result(Class<?> ending) {
        String early = Others.unfinished();
        if (early != null) return failed("the tests of " + early + " come later: goodlock-junit.jar must be after the other engines on the class path");
        try {
            Object why = ending.getMethod("failure").invoke(null);
            return why == null ? TestExecutionResult.successful() : failed((String) why);
        } catch (InvocationTargetException error) {
            return TestExecutionResult.failed(error.getCause());
        } catch (ReflectiveOperationException error) {
            return TestExecutionResult.failed(error);
        }
    }

    private static TestExecutionResult failed(String why) {
        AssertionError error = new AssertionError(why);
        error.setStackTrace(new StackTraceElement[0]); // the report has the lines
        return TestExecutionResult.failed(error);
    }
}
