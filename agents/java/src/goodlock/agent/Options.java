package goodlock.agent;

import java.util.ArrayList;
import java.util.List;

/** The options of the agent, `out=bank,bound=2,allow-partial`: those of `goodlock` without dashes. They are for the collector. */
final class Options {
    private static final int FAILED = 3; // as --fail-on without --error-exitcode
    private static final String FOR_ANSWER = "1";

    final List<String> forCollector = new ArrayList<>();
    String out = "goodlock";
    int errorStatus = -1; // -1: a deadlock does not change the status of the program

    Options(String words) {
        for (String word : words.split(",")) if (!word.isEmpty()) take(word, word.indexOf('='));
        forCollector.add("--error-exitcode=" + FOR_ANSWER);
    }

    private void take(String word, int equals) {
        String name = equals < 0 ? word : word.substring(0, equals);
        String value = equals < 0 ? "" : word.substring(equals + 1);
        if (name.equals("fail-on") && errorStatus < 0) errorStatus = FAILED;
        if (name.equals("out")) out = value;
        if (name.equals("error-exitcode")) errorStatus = statusOf(value);
        else forCollector.add("--" + word);
    }

    private static int statusOf(String value) {
        if (value.matches("[0-9]{1,3}") && Integer.parseInt(value) <= 255) return Integer.parseInt(value);
        throw new IllegalArgumentException("error-exitcode is 0 to 255, not " + value);
    }
}
