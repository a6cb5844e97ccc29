package goodlock.agent;

import java.io.BufferedReader;
import java.io.File;
import java.io.IOException;
import java.io.InputStreamReader;
import java.net.URI;
import java.net.URL;
import java.nio.charset.StandardCharsets;
import java.nio.file.Path;
import java.util.ArrayList;
import java.util.List;

/** The collector, if no `goodlock` has started it: another process, which follows this one. */
final class CollectorProcess {
    private final Process process;
    final String ring;
    final int stacks;

    /** Throws an exception if there is no collector, or if it refuses an option; it has said so then. */
    CollectorProcess(Options options) throws Exception {
        File root = root();
        File collector = new File(root, "agents/pthread/out/collector");
        if (!collector.canExecute()) throw new IOException("there is no " + collector + "; run " + root + "/agents/java/build");
        List<String> command = new ArrayList<>(List.of(collector.getPath(), "=",
            System.getenv().getOrDefault("GOODLOCKD_PROGRAM", new File(root, "goodlockd").getPath()), new File(root, "tools/agent_report").getPath(),
            "--java"));
        command.addAll(options.forCollector);
        process = new ProcessBuilder(command).redirectError(ProcessBuilder.Redirect.INHERIT).start();
        String line = new BufferedReader(new InputStreamReader(process.getInputStream(), StandardCharsets.UTF_8)).readLine();
        if (line == null) throw new IOException("the collector has not started");
        int end = line.lastIndexOf(' ');
        ring = line.substring(0, end);
        stacks = Integer.parseInt(line.substring(end + 1));
    }

    /** The folder with `agents`, of this jar's agents/java/out. */
    private static File root() throws Exception {
        URL url = ClassLoader.getSystemResource("goodlock/agent/Agent.class");
        String jar = url == null ? "" : url.getPath().replaceAll("!.*", "");
        return Path.of(new URI(jar)).toRealPath().getParent().getParent().getParent().getParent().toFile();
    }

    /** Waits for the report. Returns the exit status. */
    int waitFor() throws InterruptedException {
        return process.waitFor();
    }

    void kill() {
        process.destroyForcibly();
    }
}
