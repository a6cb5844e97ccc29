package goodlock.recorder;

import java.util.Arrays;
import java.util.HashMap;
import java.util.Map;

/** The sites of woven code by their numbers, and the texts of the shared memory, each written once. */
public final class Sites {
    /** The site of what queues and executors of the platform do inside: it is not recorded. */
    public static final int NOT_RECORDED = -1;
    /** The line is not known: the stack has it. */
    public static final int UNKNOWN = 0;

    private static final Map<String, Integer> TEXTS = new HashMap<>();
    private static volatile Site[] sites = {new Site(true, "?", 0, "", "", null)};
    private static int count = 1;

    private Sites() {}

    /** Returns the number of a new site. The file has its folder, `bank/Account.java`, the type its package, `bank.Account`. */
    public static synchronized int add(boolean isOfPlatform, String file, int line, String type, String method, String field) {
        Site[] all = count < sites.length ? sites : Arrays.copyOf(sites, 2 * count);
        all[count] = new Site(isOfPlatform, file, line, type, method, field);
        sites = all;
        return count++;
    }

    static Site of(int site) {
        return sites[Math.max(site, UNKNOWN)];
    }

    static int fieldText(int site) {
        return of(site).fieldText();
    }

    static int text(String line) {
        return text(line, false);
    }

    static int nameText(String name) {
        return text(name, true);
    }

    private static synchronized int text(String line, boolean isName) {
        Integer known = TEXTS.get(line);
        if (known != null) return known;
        int number = Ring.text(line, isName);
        TEXTS.put(line, number);
        return number;
    }
}
