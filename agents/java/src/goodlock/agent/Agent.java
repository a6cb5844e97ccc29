package goodlock.agent;

import goodlock.recorder.Mapping;
import goodlock.recorder.Recording;
import goodlock.recorder.Ring;
import goodlock.recorder.ThreadState;
import goodlock.weaver.Weaver;
import java.lang.instrument.Instrumentation;
import java.util.ArrayList;
import java.util.List;

/** Starts the recording: finds the shared memory, changes the classes that are loaded already, and all later ones when they are loaded. */
public final class Agent {
    private static boolean isStarted;

    private Agent() {}

    public static synchronized void start(String words, Instrumentation instrumentation) throws Exception {
        if (isStarted) throw new IllegalStateException("this agent is given twice, and the first one records");
        isStarted = true;
        Options options = new Options(words == null ? "" : words);
        String ring = System.getenv("GOODLOCK_RING");
        String stacks = System.getenv().getOrDefault("GOODLOCK_STACKS", "1");
        CollectorProcess collector = ring == null ? new CollectorProcess(options) : null;
        try {
            Mapping.open(collector == null ? ring : collector.ring);
            Recording.begin(collector == null ? Integer.parseInt(stacks) : collector.stacks);
            Weaver.hasValues = Ring.wantsValues();
            change(instrumentation);
        } catch (Throwable error) {
            if (collector != null) collector.kill(); // it would wait for this process
            throw error;
        }
        if (collector != null) Ending.follow(collector, options);
        new Watch().start();
        ThreadState.record(true);
    }

    private static void change(Instrumentation instrumentation) throws Exception {
        Transformer transformer = new Transformer();
        instrumentation.addTransformer(transformer, true);
        List<Class<?>> loaded = new ArrayList<>();
        for (Class<?> type : instrumentation.getAllLoadedClasses()) {
            boolean canChange = instrumentation.isModifiableClass(type) && !type.isArray();
            if (canChange && Transformer.isWanted(type.getModule().getName(), type.getName().replace('.', '/'))) loaded.add(type);
        }
        try {
            instrumentation.retransformClasses(loaded.toArray(new Class<?>[0]));
        } catch (Throwable error) {
            instrumentation.removeTransformer(transformer);
            throw error;
        }
    }
}
