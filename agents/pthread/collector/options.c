/* The command line, and the configuration file that adds to it. */
#include "collector.h"

#include <fcntl.h>
#include <getopt.h>

enum { MOST_CONFIGURED = 64, CONFIGURED_BYTES = 1 << 16, FAILED = 3, MOST_SECONDS = 86400 };

static const struct options defaults = {.bound = 4, .error_status = -1, .frames = 1, .window = MOST_EVENTS, .seconds = 60, .on_deadlock = "report",
                                        .most_logged = 1 << 30, .values = VALUES_OF_ATOMICS | VALUES_OF_MEMORY};
struct options options;

void refuse(const char *what) {
    say("%s; --help explains the options", what);
    exit(WRONG);
}

static uint32_t value_of(const char *word, uint32_t least, uint32_t most, const char *what) {
    char *end;
    unsigned long value = strtoul(word, &end, 10);
    if (*end || end == word || word[0] == '-' || value < least || value > most) refuse(what);
    return (uint32_t)value;
}

/* A number of bytes, which may end with K, M or G. */
static uint64_t size_of(const char *word) {
    static const char units[] = "KMG";
    char *end;
    unsigned long long value = strtoull(word, &end, 10);
    const char *unit = *end ? strchr(units, *end) : NULL;
    int shift = unit ? (int)(unit - units + 1) * 10 : 0;
    if (end == word || word[0] == '-' || (*end && !unit) || (unit && end[1]) || value >> 40 || value << shift >> 44)
        refuse("--keep-log is a number of bytes, with K, M or G if you like");
    return value << shift;
}

static uint32_t values_of(const char *word) {
    if (!strcmp(word, "all")) return VALUES_OF_ATOMICS | VALUES_OF_MEMORY;
    if (!strcmp(word, "atomics")) return VALUES_OF_ATOMICS;
    if (strcmp(word, "none")) refuse("--memory is all, atomics or none");
    return 0;
}

/* Of plain memory a program in Java always has the predicates of conditions, and nothing else. */
static void choose_values_of_java(void) {
    if (options.has_chosen_values && options.values & VALUES_OF_MEMORY) refuse("--memory is atomics or none for a program in Java");
    options.values = VALUES_OF_MEMORY | (options.has_chosen_values ? options.values : 0);
}

static char **read_options(int count, char **words) {
    static const struct option known[] = {{"bound", 1, 0, 'b'}, {"out", 1, 0, 'o'}, {"server", 1, 0, 's'}, {"error-exitcode", 1, 0, 'e'},
                                          {"stacks", 1, 0, 't'}, {"window", 1, 0, 'w'}, {"no-config", 0, 0, 'n'}, {"suppress", 1, 0, '0'},
                                          {"baseline", 1, 0, '1'}, {"fail-on", 1, 0, '2'}, {"root", 1, 0, '3'}, {"on-deadlock", 1, 0, 'd'},
                                          {"seconds", 1, 0, 'l'}, {"keep-log", 1, 0, 'k'}, {"follow", 1, 0, 'f'}, {"patience-ms", 1, 0, 'm'},
                                          {"memory", 1, 0, 'v'}, {"leave-deadlock", 0, 0, 'g'}, {"allow-partial", 0, 0, 'p'}, {"trace-children", 0, 0, 'c'},
                                          {"java", 0, 0, 'j'},
                                          {0, 0, 0, 0}};
    char here[PATHS] = "", *out = "goodlock";
    opterr = optind = 0;
    for (int letter; (letter = getopt_long(count, words, "+", known, NULL)) >= 0;) switch (letter) {
        case 'b': options.bound = strcmp(optarg, "auto") ? (int)value_of(optarg, 2, MOST_BOUND, "--bound is 2 to 8, or auto") : 0; break;
        case 'o': out = optarg; break;
        case 's': options.server = optarg; break;
        case 'e': options.error_status = (int)value_of(optarg, 0, 255, "--error-exitcode is 0 to 255"); break;
        case 't': options.frames = (int)value_of(optarg, 1, MOST_STACK, "--stacks is 1 to 20"); break;
        case 'w': options.window = value_of(optarg, 100, MOST_EVENTS, "--window is 100 to 1048576"); break;
        case 'd':
            if (!*(options.on_deadlock = optarg)) refuse("--on-deadlock is report, kill, or a command");
            break;
        case 'l': options.seconds = value_of(optarg, 1, MOST_SECONDS, "--seconds is 1 to 86400"); break;
        case 'f': options.schedule = optarg; break;
        case 'm': options.patience = value_of(optarg, 1, 1000 * MOST_SECONDS, "--patience is a number of seconds"); break;
        case 'g': options.leaves_deadlock = 1; break;
        case 'k': options.most_logged = size_of(optarg); break;
        case 'v': options.values = values_of(optarg), options.has_chosen_values = 1; break;
        case 'p': options.allows_partial = 1; break;
        case 'c': options.follows_others = 1; break;
        case 'j': options.is_java = 1; break; /* agents/java gives it */
        case 'n': options.has_no_config = 1; break;
        case '0': case '1': case '2': case '3': options.gate[letter - '0'] = optarg; break;
        default: refuse("an option is unknown or lacks its value");
    }
    if (options.is_java) choose_values_of_java();
    if (!getcwd(here, sizeof here)) here[0] = 0;
    if (!out[0] || (!here[0] && out[0] != '/')) refuse("--out is the name of a file");
    if (strlen(here) + strlen(out) > MOST_NAME) refuse("the name of --out is too long");
    options.out[0] = 0;
    if (out[0] != '/') strcat(strcpy(options.out, here), "/");
    strcat(options.out, out);
    return words + optind;
}

/* Whether the working folder or one above it has a configuration file. The reporter knows whether it is the one to read. */
static int may_be_configured(void) {
    char folder[PATHS], path[PATHS + 20];
    if (!getcwd(folder, sizeof folder)) return 0;
    for (size_t length = strlen(folder);;) {
        snprintf(path, sizeof path, "%.*s/goodlock.toml", (int)length, folder);
        if (!access(path, F_OK)) return 1;
        if (!length) return 0;
        while (length && folder[--length] != '/') continue;
    }
}

/* Reads the options that the configuration file gives; each ends with a zero byte. Ends if it, or an option of the gate, has a fault.
 * Returns how many there are. */
static int read_configured(char **words) {
    static char text[CONFIGURED_BYTES];
    size_t used = 0;
    ssize_t size;
    int ends[2], count = 0;
    if (pipe2(ends, O_CLOEXEC) < 0) refuse("there is no pipe for the configuration file");
    pid_t child = start_reporter("options", "0", 0, ends[1]);
    close(ends[1]);
    while ((size = read(ends[0], text + used, sizeof text - 1 - used)) > 0) used += (size_t)size;
    close(ends[0]);
    if (wait_for(child)) exit(WRONG);
    for (size_t at = 0; at < used && count < MOST_CONFIGURED; at += strlen(text + at) + 1) words[count++] = text + at;
    return count;
}

/* Reads the command line, after the options of the configuration file: an option on the command line wins. */
char **read_all_options(int count, char **words, const char *goodlockd, int is_python) {
    struct options first = defaults;
    char **program, **all = calloc((size_t)count + MOST_CONFIGURED + 2, sizeof *all);
    int needs_reporter = 0, configured;
    if (!all) refuse("there is no memory");
    first.program = goodlockd, first.is_python = is_python;
    options = first;
    program = read_options(count, words);
    for (int one = 0; one < GATE_OPTIONS; one++) needs_reporter |= options.gate[one] != NULL;
    if (needs_reporter || (!options.has_no_config && may_be_configured())) {
        configured = read_configured(all + 1);
        all[0] = words[0];
        memcpy(all + 1 + configured, words + 1, (size_t)count * sizeof *all); /* the last one is NULL */
        options = first;
        program = read_options(count + configured, all);
    }
    if (options.gate[FAIL_ON] && options.error_status < 0) options.error_status = FAILED;
    return program;
}
