/* Watches a run that follows a schedule: whether it makes steps, has diverged, or is deadlocked. A deadlock counts when the kernel says of each
 * member, 20 times in 100 ms, that it is in a futex call inside the lock that it wants; a thread that spins makes no call, and runs.
 *
 * What came out is in OUT.tmp/outcome, a line for each word. tools/goodlock/reproduce/outcome.py reads it. */
#include "collector.h"
#include "../shared/schedule.h"

#include <errno.h>
#include <fcntl.h>
#include <signal.h>
#include <sys/mman.h>
#include <sys/stat.h>
#include <sys/syscall.h>

enum { LOOK_MS = 5, LOOKS = 20, LOCK_BYTES = 64, PROOF_MS = 5000, GRACE_MS = 10000, PAUSING_MS = 20000, MOST_PATIENCES = 10, MOST_WAITS = 64 };

static struct status *status;
static const struct schedule *schedule;
static struct parts parts;
static char name[60];
static const char *verdict; /* NULL: not decided */
static uint64_t began, stepped, moved, looked, closed, decided;
static uint32_t proofs, looks, works;
static struct wait proven[MOST_WAITS];
static uint32_t proven_count;
static int is_proven, was_readable, is_unproven;
static pid_t starter;

uint32_t lanes_of_schedule(void) { return schedule->lanes; }

/* ---- the shared memory ---- */

static void __attribute__((noreturn)) refuse_schedule(const char *why) {
    say("cannot follow the schedule %s: %s", options.schedule, why);
    exit(WRONG);
}

static void copy_file(int from, int to, size_t size) {
    char *memory = mmap(NULL, size, PROT_READ, MAP_PRIVATE, from, 0);
    if (memory == MAP_FAILED || pwrite(to, memory, size, sizeof(struct status)) != (ssize_t)size) refuse_schedule(strerror(errno));
    munmap(memory, size);
}

const char *map_schedule(void) {
    struct stat it;
    starter = getppid();
    int from = open(options.schedule, O_RDONLY | O_CLOEXEC), file = memfd_create("goodlock-schedule", MFD_CLOEXEC | MFD_ALLOW_SEALING);
    if (from < 0 || fstat(from, &it) < 0 || file < 0 || ftruncate(file, (off_t)sizeof(struct status) + it.st_size) < 0)
        refuse_schedule(strerror(errno));
    copy_file(from, file, (size_t)it.st_size);
    if (fcntl(file, F_ADD_SEALS, RING_SEALS) < 0) refuse_schedule(strerror(errno));
    close(from);
    char *memory = mmap(NULL, sizeof(struct status), PROT_READ | PROT_WRITE, MAP_SHARED, file, 0);
    schedule = mmap(NULL, (size_t)it.st_size, PROT_READ, MAP_PRIVATE, file, sizeof(struct status));
    if (memory == MAP_FAILED || schedule == MAP_FAILED) refuse_schedule(strerror(errno));
    if (!find_parts(schedule, (uint64_t)it.st_size, &parts)) refuse_schedule("it is damaged");
    status = (struct status *)memory;
    status->magic = SCHEDULE_MAGIC, status->state = FOLLOWS, status->turn = 1;
    snprintf(name, sizeof name, "/proc/%d/fd/%d", getpid(), file);
    return name;
}

/* ---- what the kernel says ---- */

/* Reads a file of a thread of the program. Returns 0 if that is not possible. */
static int read_task(pid_t process, uint32_t thread, const char *what, char *line, size_t size) {
    char path[80];
    snprintf(path, sizeof path, "/proc/%d/task/%u/%s", process, thread, what);
    FILE *file = fopen(path, "re");
    size_t got = file ? fread(line, 1, size - 1, file) : 0;
    if (file) fclose(file);
    line[got] = 0;
    return got > 0;
}

/* Whether a thread is blocked in what it waits for. */
static int is_blocked(pid_t process, const struct wait *wait) {
    char line[200];
    long call = -1;
    unsigned long first = 0, operation, value, timeout = 1;
    if (!wait->tid || !read_task(process, wait->tid, "syscall", line, sizeof line)) return 0;
    was_readable = 1;
    int is_running = !strncmp(line, "running", 7);
    if (wait->kind == SPINS_FOR_LOCK || (wait->kind == WAITS_FOR_OWN_LOCK && is_running)) return is_running;
    if (sscanf(line, "%ld %lx %lx %lx %lx", &call, &first, &operation, &value, &timeout) != 5 || call != SYS_futex) return 0;
    if (options.is_python) return !timeout; /* the address of its lock is not known; a thread that waits for the interpreter has a timeout */
    return wait->kind == WAITS_FOR_THREAD || wait->kind == WAITS_FOR_OWN_LOCK || (first >= wait->address && first - wait->address < LOCK_BYTES);
}

/* Looks once. Returns whether a deadlock is proven: it is the same in so many looks, one after another. */
static int look_for_proof(pid_t process) {
    struct wait waits[MOST_WAITS];
    uint32_t count = waits_of_deadlock(waits, MOST_WAITS);
    int is_same = count > 0 && count == proven_count && !memcmp(waits, proven, count * sizeof *waits);
    for (uint32_t at = 0; at < count; at++) is_same = is_same && is_blocked(process, &waits[at]);
    proofs = is_same ? proofs + 1 : 0;
    is_unproven |= count > 0 && !was_readable;
    memcpy(proven, waits, count * sizeof *waits), proven_count = count;
    return proofs >= LOOKS;
}

/* Whether the thread whose turn it is runs, or waits for a processor or a disk: then it may make a step yet. One that has not started yet is
 * started by others, often by the first thread. */
static int is_working(pid_t process) {
    uint32_t turn = status->turn;
    char line[400], *state;
    if (!turn || turn > schedule->turns) return 0;
    uint32_t tid = status->lanes[parts.owners[turn]].tid;
    if (!read_task(process, tid ? tid : (uint32_t)process, "stat", line, sizeof line)) return 0;
    return (state = strrchr(line, ')')) && (state[2] == 'R' || state[2] == 'D');
}

/* ---- the verdict ---- */

static void write_lanes(FILE *file) {
    for (uint32_t lane = 0; lane < MOST_LANES; lane++)
        if (status->lanes[lane].tid) fprintf(file, "lane %u %u %u\n", lane, status->lanes[lane].next, status->lanes[lane].place);
}

static void decide(const char *what, pid_t process) {
    char path[PATHS], whole[PATHS];
    FILE *file = create_in_work("outcome.part");
    verdict = what, decided = now();
    if (!file) return;
    fprintf(file, "verdict %s\nmilliseconds %lu\nturn %u\nskipped %u\nextra %u\nprocess %d\nunproven %d\nclosed %d\n", what,
            (unsigned long)((closed ? closed : decided) - began), status->turn, status->skipped, status->extra, process,
            is_unproven && !was_readable, status->state == CLOSED);
    if (status->state == DIVERGED) {
        uint64_t caller = status->divergence.caller;
        fprintf(file, "divergence %u %u %u %u %u\n", status->divergence.lane, status->divergence.next, status->divergence.kind,
                status->divergence.object, site_of(&caller, caller ? 1 : 0));
    }
    write_lanes(file);
    fclose(file);
    close_sites();
    rename(in_work(path, "outcome.part"), in_work(whole, "outcome")); /* a reader finds all of it or nothing */
    if (strcmp(what, "deadlock")) __atomic_store_n(&status->command, RELEASE, __ATOMIC_RELAXED);
}

/* A deadlock: of the members of the cycle, or another one. The threads stay where they are. */
static int decide_deadlock(pid_t process) {
    if (!look_for_proof(process) || !report_deadlock()) return 0;
    is_proven = 1;
    decide("deadlock", process);
    return 1;
}

/* Whether the run makes no step for so long. Time in which the thread whose turn it is runs counts only after a multiple of this time. */
static int makes_no_step(pid_t process) {
    static uint32_t before[4];
    uint32_t after[4] = {status->turn, status->arrived, status->command, status->extra + status->skipped};
    uint64_t at = now();
    works += (uint32_t)is_working(process), looks++;
    int has_stepped = memcmp(after, before, 3 * sizeof *after) != 0;
    if (has_stepped) stepped = at;
    if (has_stepped || (at - stepped < MOST_PATIENCES * (uint64_t)options.patience &&
                        (after[3] != before[3] || (at - moved > options.patience / 8 && works > looks / 4))))
        moved = at, works = looks = 0;
    memcpy(before, after, sizeof after);
    return at - moved > options.patience;
}

static void watch_steps(pid_t process) {
    if (!makes_no_step(process)) return;
    if (status->command == GO_ON) __atomic_store_n(&status->command, LOOSEN, __ATOMIC_RELAXED);
    else decide("stalled", process);
}

static void watch_run(pid_t process, int has_ended) {
    uint32_t state = status->state;
    if (state == DIVERGED) decide("diverged", process);
    else if (has_ended) decide(state == CLOSED ? "escaped" : "ended", process);
    else if (state == ESCAPED) decide("escaped", process);
    else if (state == CLOSED && !closed) closed = now();
    else if (decide_deadlock(process)) return;
    else if (closed && now() - closed > PROOF_MS) decide("escaped", process);
    else if (schedule->pause && now() - began > PAUSING_MS) decide("stalled", process);
    else if (!closed && !schedule->pause) watch_steps(process);
}

static void end_program(pid_t process) {
    if (process > 0) kill(process, SIGKILL);
}

/* After the verdict: a deadlocked program is ended, or left to a debugger. A released one may end by itself, and may still deadlock. */
static void watch_end(pid_t process, int has_ended) {
    if (has_ended || (!is_proven && decide_deadlock(process))) return;
    if (is_proven && options.leaves_deadlock) return;
    if (is_proven || now() - decided > GRACE_MS) {
        if (!is_proven) say("the program was let go, has not ended in %d s, and is ended now", GRACE_MS / 1000);
        end_program(process);
        decided = now();
    }
}

/* Whether the process that started this run has ended: then nobody wants to know what comes out, and the program is let go. */
static int is_orphan(void) { return getppid() != starter; }

int end_following(void) {
    char path[PATHS];
    if (!is_orphan()) return 0; /* the starter reads the files of the run */
    leave_name();
    unlink(options.schedule);
    snprintf(path, sizeof path, "%s", options.out);
    *strrchr(path, '/') = 0;
    rmdir(path);
    return 0;
}

void watch_schedule(pid_t process, int has_ended) {
    uint64_t at = now();
    if (!began) began = stepped = moved = at;
    if (at - looked < LOOK_MS && !has_ended) return;
    looked = at;
    if (!verdict && is_orphan()) decide("abandoned", process);
    if (!verdict) watch_run(process, has_ended);
    else watch_end(process, has_ended);
}
