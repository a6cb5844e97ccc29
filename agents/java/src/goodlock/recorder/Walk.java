package goodlock.recorder;

import java.lang.StackWalker.StackFrame;
import java.util.Arrays;
import java.util.Iterator;
import java.util.function.Function;
import java.util.stream.Stream;

/**
 * Finds the program's lines on the stack of its thread. The class, the method and the place of each frame are read each time; the texts of the
 * lines, which cost more, only if they are not those of an earlier walk.
 */
final class Walk implements Function<Stream<StackFrame>, int[]> {
    private static final StackWalker WALKER = StackWalker.getInstance(StackWalker.Option.RETAIN_CLASS_REFERENCE);
    private static final int MOST_LOOKED = 2000;

    /** As --stacks: how many lines an event has. */
    static int shown = 1;

    private static final LineCache SEEN = new LineCache();

    private final StackFrame[] found = new StackFrame[Ring.MOST_CALLERS];
    private Site from;

    /** Returns the innermost lines of the program, or that of the platform if there are none. If `from` is not null, frames within its method are
     *  left out. */
    int[] callers(Site from) {
        this.from = from;
        int[] callers = WALKER.walk(this);
        if (callers != null) return callers;
        this.from = null;
        return WALKER.walk(this);
    }

    @Override
    public int[] apply(Stream<StackFrame> stream) {
        Iterator<StackFrame> frames = stream.iterator();
        boolean isOutside = from == null;
        int count = 0;
        StackFrame innermost = null;
        for (int looked = 0; looked < MOST_LOOKED && count < shown && frames.hasNext(); looked++) {
            StackFrame frame = frames.next();
            Class<?> type = frame.getDeclaringClass();
            if (isOfAgent(type)) continue;
            isOutside = isOutside || isOf(from, frame);
            if (!isOutside) continue;
            if (!isOfPlatform(type)) found[count++] = frame;
            else if (innermost == null) innermost = frame;
        }
        if (!isOutside) return null;
        if (count == 0 && innermost != null) found[count++] = innermost;
        return textsOf(count);
    }

    private static boolean isOf(Site site, StackFrame frame) {
        return frame.getDeclaringClass().getName().equals(site.type) && frame.getMethodName().equals(site.method);
    }

    private static boolean isOfAgent(Class<?> type) {
        return type.getClassLoader() == null && type.getName().startsWith("goodlock.");
    }

    private static boolean isOfPlatform(Class<?> type) {
        return moduleOf(type) != null;
    }

    /** Returns the name of a module of the platform, or null. */
    private static String moduleOf(Class<?> type) {
        String name = type.getModule().getName();
        return name != null && (name.startsWith("java.") || name.startsWith("jdk.")) ? name : null;
    }

    private int[] textsOf(int count) {
        long key = count;
        for (int at = 0; at < count; at++) key = keyOf(key, found[at]);
        int[] known = SEEN.get(key);
        if (known != null) return known;
        int[] callers = new int[count];
        for (int at = 0; at < count; at++) callers[at] = Sites.text(lineOf(found[at]));
        Arrays.fill(found, null);
        SEEN.put(key, callers);
        return callers;
    }


    private static long keyOf(long before, StackFrame frame) {
        long key = LineCache.mix(before, System.identityHashCode(frame.getDeclaringClass()));
        key = LineCache.mix(key, frame.getByteCodeIndex());
        key = LineCache.mix(key, frame.getMethodName().hashCode());
        return LineCache.mix(key, frame.getDescriptor().hashCode());
    }

    private static String lineOf(StackFrame frame) {
        String module = moduleOf(frame.getDeclaringClass());
        return Lines.text(module != null, Lines.fileOf(module, frame.getClassName(), frame.getFileName()), frame.getLineNumber(),
            frame.getClassName(), frame.getMethodName());
    }

    /** The lines of a thread that waits, as the virtual machine shows them. */
    static int[] callersOf(StackTraceElement[] stack) {
        int[] callers = new int[Ring.MOST_CALLERS];
        int count = 0;
        int innermost = 0;
        for (StackTraceElement frame : stack) {
            if (count == shown || frame.getClassName().startsWith("goodlock.")) continue;
            String module = frame.getModuleName();
            boolean isOfPlatform = module != null && (module.startsWith("java.") || module.startsWith("jdk."));
            String file = Lines.fileOf(isOfPlatform ? module : null, frame.getClassName(), frame.getFileName());
            if (isOfPlatform && innermost != 0) continue;
            int text = Sites.text(Lines.text(isOfPlatform, file, frame.getLineNumber(), frame.getClassName(), frame.getMethodName()));
            if (isOfPlatform) innermost = text;
            else callers[count++] = text;
        }
        if (count == 0) callers[count++] = innermost;
        return Arrays.copyOf(callers, count);
    }
}
