/* The collector: makes the shared memory, starts the program with the recorder, turns records into traces while the program runs,
 * and makes the report when it has ended in any way. `goodlock` starts it and explains the options.
 *
 *     collector LIBRARY GOODLOCKD REPORTER [OPTION ..] PROGRAM [ARG ..]
 *
 * LIBRARY is the recorder; `-` means that the program brings its own and only needs GOODLOCK_RING. `=` means that the process
 * which starts the collector is the program: the collector prints the name of the shared memory and follows this process. `=NUMBER` names
 * another process to follow, for the collector that started it. */
#include "collector.h"

#include <errno.h>
#include <fcntl.h>
#include <signal.h>
#include <stdarg.h>
#include <sys/mman.h>
#include <sys/prctl.h>
#include <sys/resource.h>
#include <sys/wait.h>
#include <time.h>

enum { MOST_CHECKS = 4, MANY_WINDOWS = 16, MANY_EVENTS = 1 << 18, PATIENCE = 5000, NICE = 10 };
enum { MICROSECONDS = 500, STALLED_ROUNDS = 4000, GRACE_ROUNDS = 2000, AHEAD = 1000, LOOK_EVERY = 200, COMMAND_SECONDS = 60 };

/* The agents for Python and Java use these offsets, and they and the crate for Rust these numbers of kinds. */
_Static_assert(R_UNLOCK == 12 && R_UNLOCK_EITHER == 17 && R_GIVE == 19 && R_NEW == 22 && R_TITLE == 27, "goodlock_agent.py, Kind.java, recorder.rs");
_Static_assert(offsetof(struct ring, consumed) == 64 && offsetof(struct ring, threads) == 128 && offsetof(struct ring, owner) == 132 &&
               offsetof(struct ring, attached) == 144 && offsetof(struct ring, sites_used) == 160 && offsetof(struct ring, text) == 164 &&
               offsetof(struct ring, waits) == 1048768 && offsetof(struct ring, slots) == 2097344 &&
               offsetof(struct ring, others) == 18874560 && offsetof(struct ring, values) == 18891020 && sizeof(struct ring) == 24396096 &&
               sizeof(struct record) == 64 && sizeof(struct wait) == 64, "goodlock_agent.py, Mapping.java, Ring.java");

static const char *const gate_names[GATE_OPTIONS] = {"--suppress", "--baseline", "--fail-on", "--root"};
struct ring *ring;
int is_follower;
static const char *reporter;
static pid_t program, follows, deadlock_report, command, checks[MOST_CHECKS];
static const char *schedule_name;
enum { LIBRARIES = 2 };
static struct library { char *path; int file; } libraries[LIBRARIES]; /* to preload; the second one has no path if there is none */
static int is_spoilt, program_status, has_program_ended;
static int go = -1, unstarted_by = -1; /* pipes: the program may start; why it did not */
static uint64_t consumed; /* that of the ring is for the recorder */
static uint32_t windows_closed, windows_checked; /* the last one that is complete; that is searched, or will be at the end */
static uint64_t command_end;
static uint64_t events_waiting, last_closed;     /* of windows that are not searched; when the last one was closed */
static volatile sig_atomic_t signal_to_forward;

static void forward(int number) { signal_to_forward = number; }

int is_asked_to_end(void) { return signal_to_forward; }

void say(const char *format, ...) {
    char line[PATHS + 200];
    va_list arguments;
    va_start(arguments, format);
    vsnprintf(line, sizeof line, format, arguments);
    va_end(arguments);
    dprintf(STDERR_FILENO, "goodlock: %s\n", line);
}

uint64_t now(void) {
    struct timespec time;
    clock_gettime(CLOCK_MONOTONIC, &time);
    return (uint64_t)time.tv_sec * 1000 + (uint64_t)time.tv_nsec / 1000000;
}

void *allocate(size_t bytes) {
    void *memory = calloc(1, bytes);
    if (memory) return memory;
    say("no memory; the program runs on, and nothing more is recorded");
    __atomic_store_n(&ring->off, 1, __ATOMIC_RELAXED);
    _exit(1);
}

void *grow(void *array, size_t count, size_t *room, size_t item) {
    if (count < *room) return array;
    *room = *room ? 2 * *room : 8;
    void *larger = allocate(*room * item);
    if (array) memcpy(larger, array, count * item);
    free(array);
    return larger;
}

void stop_recording(const char *why) {
    __atomic_store_n(&ring->off, 1, __ATOMIC_RELAXED);
    say("%s, so nothing more is recorded; the program runs on", why);
}

/* ---- the report's program ---- */

pid_t start_reporter(const char *task, const char *number, uint64_t milliseconds, int output) {
    char bound[12], seconds[24];
    const char *words[10 + 2 * GATE_OPTIONS] = {"python3", reporter, task, options.program, bound, options.out, number, seconds};
    size_t count = 8;
    pid_t child = fork();
    if (child < 0) say("cannot start a process for the report: %s", strerror(errno));
    if (child) return child;
    snprintf(bound, sizeof bound, options.bound ? "%d" : "auto", options.bound);
    snprintf(seconds, sizeof seconds, "%.3f", (double)milliseconds / 1000);
    for (int one = 0; one < GATE_OPTIONS; one++)
        if (options.gate[one]) words[count++] = gate_names[one], words[count++] = options.gate[one];
    if (options.has_no_config) words[count++] = "--no-config";
    signal(SIGTERM, SIG_IGN), signal(SIGINT, SIG_IGN), signal(SIGUSR1, SIG_IGN), signal(SIGALRM, SIG_IGN);
    if (!strcmp(task, "check")) setpriority(PRIO_PROCESS, 0, NICE);
    if (output >= 0) dup2(output, STDOUT_FILENO);
    keep_name_locked();
    execvp("python3", (char **)words);
    say("cannot run python3, which makes the report: install it; the traces are kept");
    _exit(WRONG);
}

static int status_of(int status) { return WIFEXITED(status) ? WEXITSTATUS(status) : WRONG; }

int wait_for(pid_t child) {
    int status = 0;
    while (child > 0 && waitpid(child, &status, 0) < 0 && errno == EINTR) continue;
    return child > 0 ? status_of(status) : WRONG;
}

/* Waits for a reporter. From this time on, or after a signal, it is asked to end its search: it may not be ready to be asked. With 0 it is
 * asked at once to end all its searches. */
static int wait_until(pid_t child, uint64_t end) {
    struct timespec moment = {0, 4 * MICROSECONDS * 1000};
    int status = 0;
    pid_t ended = -1;
    for (uint64_t rounds = 0; child > 0 && (ended = waitpid(child, &status, WNOHANG)) == 0; rounds++) {
        if (rounds % 50 == 49 && (signal_to_forward || now() > end)) kill(child, signal_to_forward || !end ? SIGUSR1 : SIGALRM);
        nanosleep(&moment, NULL);
    }
    return ended > 0 ? status_of(status) : WRONG;
}

/* ---- the search in windows that are complete ---- */

/* If too many searches run, the windows wait for a later one: the program must not. */
static void start_check(void) {
    char range[24];
    int slot = 0;
    while (slot < MOST_CHECKS && checks[slot]) slot++;
    if (slot == MOST_CHECKS || windows_closed == windows_checked) return;
    snprintf(range, sizeof range, "%u-%u", windows_checked + 1, windows_closed);
    if ((checks[slot] = start_reporter("check", range, options.seconds * 1000, -1)) < 0) checks[slot] = 0;
    windows_checked = windows_closed, events_waiting = 0;
}

/* A process for each small window would cost more than the search. */
void window_closed(uint32_t closed, uint32_t length) {
    close_sites();
    if (is_following()) return;
    windows_closed = closed, events_waiting += length, last_closed = now();
    if (events_waiting >= MANY_EVENTS || windows_closed - windows_checked >= MANY_WINDOWS) start_check();
}

static void end_command(int status) {
    command = 0;
    if (WIFSIGNALED(status) && now() >= command_end) say("the command of --on-deadlock was ended after %d s", COMMAND_SECONDS);
    else if (status) say("the command of --on-deadlock has failed: status %d", WIFEXITED(status) ? WEXITSTATUS(status) : 128 + WTERMSIG(status));
}

int is_own_child(pid_t child) {
    for (int slot = 0; slot < MOST_CHECKS; slot++) if (checks[slot] == child) return 1;
    return child == deadlock_report || child == command;
}

/* Returns whether there are other processes: those whose parents have ended become the collector's. */
static int reap(void) {
    int status;
    pid_t ended;
    while ((ended = waitpid(-1, &status, WNOHANG)) > 0) {
        if (ended == program) has_program_ended = 1, program_status = status;
        if (ended == deadlock_report) deadlock_report = 0;
        if (ended == command) end_command(status);
        follower_has_ended(ended, status);
        for (int slot = 0; slot < MOST_CHECKS; slot++) if (checks[slot] == ended) checks[slot] = 0;
    }
    return ended == 0;
}

/* ---- records ---- */

/* A daemon has a second to start its first thread after its parent has ended. */
static int is_running(void) {
    static int rounds, looks, is_there = 1;
    if (is_follower && ++looks % LOOK_EVERY == 0) is_there = is_alive(follows);
    int has_others = reap();
    if (follows) return !ring->finished && (is_follower ? is_there : getppid() == follows);
    pid_t owner = (pid_t)ring->owner;
    if (!has_program_ended || has_followers()) return 1;
    if (!owner) return has_others && ++rounds < GRACE_ROUNDS;
    return has_others && owner > 0 && owner != program && kill(owner, 0) == 0;
}

/* To the program, or to the daemon that it has become. */
static void pass_on(int number) {
    pid_t to = has_program_ended ? (pid_t)ring->owner : program;
    if (to > 0 && (!has_program_ended || (to != program && is_descendant(to)))) kill(to, number);
    if (has_program_ended) signal_followed(number);
}

/* Of the agent for Python: an interrupted thread leaves a place empty. */
static int counts_no_places(void) { return options.is_python && !options.is_java; }

/* The place after the last record. The agent for Python does not count: an empty place may be before others. */
static uint64_t end_of_records(uint64_t at) {
    uint64_t end = at;
    if (!counts_no_places()) return __atomic_load_n(&ring->next, __ATOMIC_ACQUIRE);
    for (uint64_t ahead = 0; ahead < AHEAD; ahead++)
        if (__atomic_load_n(&ring->slots[(at + ahead) % SLOTS].ready, __ATOMIC_ACQUIRE) == at + ahead + 1) end = at + ahead + 1;
    return end;
}

/* Reads the records that are there. Returns how many. `is_over`: an empty place is of a thread that has died. */
static uint64_t drain(int is_over) {
    uint64_t at = consumed, read = 0, next = end_of_records(at);
    struct record record;
    for (uint64_t first = at; at < next && at - first < SLOTS; at++) {
        struct record *slot = &ring->slots[at % SLOTS];
        if (__atomic_load_n(&slot->ready, __ATOMIC_ACQUIRE) == at + 1) {
            copy_shared(&record, slot, sizeof record);
            read++;
            if (!is_spoilt && !encode(&record)) is_spoilt = 1, stop_recording("the program has overwritten the shared memory");
        } else if (!is_over) break;
        if (at % 256 == 255) __atomic_store_n(&ring->consumed, at + 1, __ATOMIC_RELEASE);
    }
    __atomic_store_n(&ring->consumed, consumed = at, __ATOMIC_RELEASE);
    return read;
}

/* If a stopped thread does not fill its place, and all places behind it are used, the program would wait for it. */
static void give_up_if_stalled(int *rounds) {
    if (counts_no_places()) {
        *rounds = end_of_records(consumed) > consumed ? *rounds + 1 : 0;
        if (*rounds > STALLED_ROUNDS) __atomic_store_n(&ring->consumed, ++consumed, __ATOMIC_RELEASE), *rounds = 0;
    } else if (ring->off || __atomic_load_n(&ring->next, __ATOMIC_RELAXED) - consumed < SLOTS) *rounds = 0;
    else if (++*rounds > STALLED_ROUNDS) stop_recording("a thread was stopped while it recorded an event");
}

/* The process in which the deadlock is, or 0 if it has ended. */
static pid_t deadlocked_process(void) {
    pid_t owner = (pid_t)ring->owner, process = follows ? follows : owner != program && is_descendant(owner) ? owner : program;
    return process == program && has_program_ended ? 0 : process;
}

/* Runs the user's command with the number of the process, in a group of its own. The program runs on meanwhile. */
static void start_command(pid_t process) {
    char number[12], path[PATHS], *line;
    command_end = now() + COMMAND_SECONDS * 1000;
    command = fork();
    if (command < 0) say("cannot start the command of --on-deadlock: %s", strerror(errno));
    if (command) return;
    setpgid(0, 0);
    for (int one = 1; one < 32; one++) if (one != SIGKILL && one != SIGSTOP) signal(one, SIG_DFL);
    int nothing = open("/dev/null", O_RDONLY);
    dup2(nothing, STDIN_FILENO);
    snprintf(number, sizeof number, "%d", process);
    setenv("GOODLOCK_DEADLOCK", in_work(path, "happened"), 1);
    if (asprintf(&line, "%s \"$@\"", options.on_deadlock) > 0) execl("/bin/sh", "sh", "-c", line, "sh", number, NULL);
    _exit(NOT_FOUND);
}

/* After the report of the deadlock: ends the process, or runs the command, if the user wants that. */
static void act_on_deadlock(void) {
    static int has_acted;
    pid_t process = deadlocked_process();
    if (command > 0 && now() >= command_end) kill(-command, SIGKILL);
    if (has_acted || deadlock_report > 0 || !process || !strcmp(options.on_deadlock, "report")) return;
    has_acted = 1;
    if (!strcmp(options.on_deadlock, "kill")) kill(process, SIGKILL);
    else start_command(process);
}

static void collect(void) {
    struct timespec moment = {0, MICROSECONDS * 1000};
    int rounds = 0, stalled = 0, is_reported = 0;
    for (int is_over = 0; !is_over;) {
        is_over = !is_running();
        if (signal_to_forward) pass_on(signal_to_forward), signal_to_forward = 0;
        if (!follows) look_for_processes(program);
        if (drain(is_over) > 0 && !is_over && !is_following()) continue;
        while (is_over && drain(1) > 0) continue;
        if (options.server) flush_trace(), close_sites(); /* the dashboard reads them while the program runs */
        flush_stream();
        give_up_if_stalled(&stalled);
        if (rounds % LOOK_EVERY == 0 && !options.is_python) look_at_maps();
        if (windows_closed > windows_checked && now() - last_closed > PATIENCE) start_check();
        if (is_following()) watch_schedule(deadlocked_process(), is_over);
        else if (!is_reported && (is_over || ++rounds % LOOK_EVERY == 0) && look_for_deadlock(is_over))
            deadlock_report = start_reporter("deadlock", "0", 0, -1), is_reported = 1;
        if (is_reported && !is_over) act_on_deadlock();
        if (!is_over) nanosleep(&moment, NULL);
    }
}

/* ---- start and end ---- */

/* The limit of file sizes is for files: it is restored when the shared memory is there. */
static void make_ring(char *name, size_t size) {
    int file = memfd_create("goodlock", MFD_CLOEXEC | MFD_ALLOW_SEALING);
    struct rlimit limit, most;
    getrlimit(RLIMIT_FSIZE, &limit);
    most = (struct rlimit){limit.rlim_max, limit.rlim_max};
    setrlimit(RLIMIT_FSIZE, &most);
    if (file < 0 || ftruncate(file, sizeof(struct ring)) < 0 || fcntl(file, F_ADD_SEALS, RING_SEALS) < 0 ||
        (ring = mmap(NULL, sizeof(struct ring), PROT_READ | PROT_WRITE, MAP_SHARED, file, 0)) == MAP_FAILED) {
        say("cannot make the shared memory: %s", strerror(errno));
        exit(WRONG);
    }
    setrlimit(RLIMIT_FSIZE, &limit);
    ring->magic = RING_MAGIC, ring->threads = 1, ring->collector = (uint32_t)getpid(), ring->values = is_following() ? 0 : options.values;
    snprintf(name, size, "/proc/%d/fd/%d", getpid(), file);
}

/* LD_PRELOAD is a list with spaces and colons. A library in a folder with these is named as an open file of the collector. */
static const char *preloaded(const struct library *library, char name[40]) {
    if (!strpbrk(library->path, " :")) return library->path;
    snprintf(name, 40, "/proc/%d/fd/%d", getppid(), library->file);
    return name;
}

static void preload(void) {
    static char *list, names[LIBRARIES][40];
    const char *before = getenv("LD_PRELOAD");
    if (asprintf(&list, "%s%s%s%s%s", preloaded(&libraries[0], names[0]), libraries[1].path ? ":" : "",
                 libraries[1].path ? preloaded(&libraries[1], names[1]) : "", before ? ":" : "", before ? before : "") < 0) _exit(NOT_STARTED);
    setenv("LD_PRELOAD", list, 1);
}

static void choose_library(struct library *to, const char *beside, const char *name) {
    const char *slash = strrchr(beside, '/');
    if (asprintf(&to->path, "%.*s%s", slash ? (int)(slash - beside) + 1 : 0, beside, name) < 0) refuse("there is no memory");
    to->file = strpbrk(to->path, " :") ? open(to->path, O_RDONLY | O_CLOEXEC) : -1;
}

/* The recorder; for a program with hooks the one that follows values, with a library that has the name of the runtime which it needs. */
static void choose_libraries(const char *recorder, const char *name) {
    char runtime[MOST_RUNTIME];
    enum hooks hooks = options.values ? hooks_of(name, runtime) : NO_HOOKS;
    if (hooks == OWN_RUNTIME)
        refuse("the program contains the runtime of ThreadSanitizer: link it with -shared-libsan if by clang, and without -static-libtsan if by "
               "gcc, or give --memory none");
    int follows_values = hooks == HOOKED || (options.values && options.has_chosen_values);
    choose_library(&libraries[0], recorder, follows_values ? "values.so" : strrchr(recorder, '/') ? strrchr(recorder, '/') + 1 : recorder);
    if (follows_values && access(libraries[0].path, R_OK)) refuse("values in memory are followed on x86-64 only: give --memory none");
    if (hooks == HOOKED) choose_library(&libraries[1], recorder, runtime);
    if (hooks == HOOKED && access(libraries[1].path, R_OK))
        refuse("the program needs another version of ThreadSanitizer's runtime than those that goodlock replaces: give --memory none");
}

/* The runtime of gcc's AddressSanitizer refuses to come after another library. What the user has set comes later, and wins. */
static void permit_order_of_sanitizer(void) {
    static char *list;
    const char *before = getenv("ASAN_OPTIONS");
    if (asprintf(&list, "verify_asan_link_order=0%s%s", before ? ":" : "", before ? before : "") < 0) _exit(NOT_STARTED);
    setenv("ASAN_OPTIONS", list, 1);
}

static void __attribute__((noreturn)) execute(char **words, const char *name) {
    char text[12];
    for (int number = 1; number < 32; number++) if (number != SIGKILL && number != SIGSTOP) signal(number, SIG_DFL);
    setenv("GOODLOCK_RING", name, 1);
    if (is_following()) setenv("GOODLOCK_SCHEDULE", schedule_name, 1);
    else unsetenv("GOODLOCK_SCHEDULE");
    if (options.is_python) {
        snprintf(text, sizeof text, "%d", options.frames);
        setenv("GOODLOCK_STACKS", text, 1);
    } else preload(), permit_order_of_sanitizer();
    execvp(words[0], words);
    _exit(write(unstarted_by, &errno, sizeof errno) ? NOT_FOUND : NOT_STARTED);
}

/* Makes the program's process, so that its number is known. It waits until `release_program`. */
static void prepare_program(char **words, const char *name) {
    int may_go[2], fault[2];
    char byte;
    if (pipe2(may_go, O_CLOEXEC) < 0 || pipe2(fault, O_CLOEXEC) < 0 || (program = fork()) < 0) {
        say("cannot start a process: %s", strerror(errno));
        exit(NOT_STARTED);
    }
    if (!program) {
        close(may_go[1]);
        unstarted_by = fault[1];
        if (read(may_go[0], &byte, 1) != 1) _exit(WRONG);
        execute(words, name);
    }
    close(may_go[0]), close(fault[1]);
    go = may_go[1], unstarted_by = fault[0];
    ring->program = (uint32_t)program;
}

/* Returns 0 when the program has started, else why it has not. */
static int release_program(void) {
    int fault = 0;
    ssize_t size = write(go, "", 1);
    while (size == 1 && (size = read(unstarted_by, &fault, sizeof fault)) < 0 && errno == EINTR) size = 1;
    close(go), close(unstarted_by);
    return fault;
}

static void write_summary(int is_whole, unsigned long left_out) {
    FILE *file = create_in_work("summary");
    if (!file) return;
    fprintf(file,
            "events %u\nwindows %u\nattached %u\nowner %u\nthreads %u\n"
            "lock_events %lu\nunseen %lu\noverflowing %lu\nread_locks %lu\noff %u\ntruncated %d\nclash %d\nprocesses %u\ncleared %u\nfutexes %lu\n",
            events, window, ring->attached, ring->owner, ring->threads - (uint32_t)unstarted, lock_events, unseen, overflowing, read_locks,
            ring->off || is_spoilt, !is_whole, is_shared_server,
            write_processes(), ring->cleared, (unsigned long)ring->futexes);
    fprintf(file, "frames %d\npython %d\nfollower %d\nfollows %d\nserver %d\n", options.frames, options.is_python, is_follower,
            options.follows_others, options.server != NULL);
    fprintf(file, "crowded_locks %lu\njava %d\n", crowded_locks, options.is_java);
    fprintf(file, "values %u\nvalues_read %lu\n", ring->values, values_read);
    fprintf(file, "no_log %u\nlogged %lu\nleft_out %lu\n", why_no_log(), logged, left_out);
    fclose(file);
}

/* The report may take a time from here on. A signal ends it earlier. */
static int finish(void) {
    char path[PATHS], number[12];
    struct timespec moment = {0, 4 * MICROSECONDS * 1000};
    uint64_t end = now() + options.seconds * 1000, at;
    signal_to_forward = 0;
    if (!follows) signal(SIGINT, forward);
    int is_whole = end_run();
    unsigned long left_out = window > 1 ? write_dependencies() : 0;
    if (options.server && window == 1 && is_whole && !ask_server(events, "1.answer")) unlink(in_work(path, "1.answer"));
    if (options.server) end_streaming();
    read_text();
    close_sites();
    write_libraries();
    write_summary(is_whole, left_out);
    if (deadlock_report > 0) wait_for(deadlock_report);
    while (command > 0) act_on_deadlock(), reap(), nanosleep(&moment, NULL);
    for (int slot = 0; slot < MOST_CHECKS; slot++) /* the log has what they search */
        if (checks[slot]) wait_until(checks[slot], why_no_log() || options.server ? end : 0);
    snprintf(number, sizeof number, "%u", window);
    at = now();
    return wait_until(start_reporter("finish", number, at < end ? end - at : 0, -1), end);
}

/* A deadlock first, then the program's own fault. A run that was not analysed, or only in part, does not pass. */
static int status_of_run(int verdict) {
    int status = WIFSIGNALED(program_status) ? 128 + WTERMSIG(program_status) : WEXITSTATUS(program_status);
    if (options.error_status < 0 || !verdict || (verdict == IN_PART && options.allows_partial)) return status;
    if (verdict == DEADLOCKED) return options.error_status;
    if (!status) say("the exit status is %d: the run was not analysed, or only in part, as said above", NOT_ANALYSED);
    return status ? status : NOT_ANALYSED;
}

/* Takes the name of the run and the server. Ends if that is not possible: then nothing has run, and nothing is written. */
static void prepare_run(void) {
    name_run(follows ? follows : program);
    take_name();
    if (!options.server || connect_to_server(options.server)) return;
    leave_name();
    refuse("--server is an IPv4 address and a port");
}

static int start(char **words) {
    int fault = follows ? 0 : release_program();
    if (!fault) return 1;
    leave_name();
    say("cannot run %s: %s", words[0], strerror(fault));
    program_status = (fault == ENOENT ? NOT_FOUND : NOT_STARTED) << 8;
    return 0;
}

/* How many of the words are options: the last ones are the program and its arguments. */
static size_t options_in(int count, char **program_words) {
    while (*program_words++) count--;
    return (size_t)count;
}

int main(int count, char **words) {
    char name[60];
    struct sigaction action = {.sa_handler = forward};
    if (count < 4) refuse("goodlock starts this program");
    const char *library = words[1];
    reporter = words[3];
    if (library[0] == '=') is_follower = library[1] != 0, follows = is_follower ? atoi(library + 1) : getppid();
    char **all = words + 4;
    words = read_all_options(count - 3, words + 3, words[2], (follows && !is_follower) || !strcmp(library, "-"));
    if (!words[0] && !follows) refuse("there is no program to run");
    signal(SIGINT, SIG_IGN), signal(SIGQUIT, SIG_IGN), signal(SIGPIPE, SIG_IGN), signal(SIGXFSZ, SIG_IGN);
    make_ring(name, sizeof name);
    if (options.schedule) schedule_name = map_schedule(), ring->threads = lanes_of_schedule();
    prctl(PR_SET_CHILD_SUBREAPER, !follows);
    if (options.follows_others && !follows) follow_with(options.program, reporter, all, options_in(count - 4, words));
    if (is_follower) options.server = NULL;
    if (follows) ring->program = (uint32_t)follows;
    else {
        if (!options.is_python) choose_libraries(library, words[0]);
        prepare_program(words, name);
    }
    prepare_run();
    sigaction(SIGTERM, &action, NULL), sigaction(SIGHUP, &action, NULL);
    if (!start(words)) return WEXITSTATUS(program_status);
    begin_run(words);
    if (follows) {
        printf("%s %d\n", name, options.frames);
        fclose(stdout);
    }
    collect();
    if (is_following()) return end_following();
    int verdict = verdict_of_all(finish());
    leave_name();
    ring->finished = 2;
    if (is_follower) return verdict;
    if (follows && options.error_status < 0 && verdict > DEADLOCKED) return NOT_ANALYSED;
    return status_of_run(verdict);
}
