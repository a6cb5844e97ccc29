/* The processes of a run besides the one that is recorded. Those with threads are counted: the recorder in them says that it is there, and
 * those without a recorder are found in /proc. With --trace-children each one with a recorder has a collector and files of its own. */
#include "collector.h"

#include <dirent.h>
#include <errno.h>
#include <fcntl.h>
#include <poll.h>
#include <signal.h>
#include <sys/wait.h>

enum { MOST_ANCESTORS = 1000, MOST_UNSEEN = 256, MOST_FOLLOWERS = 64, MOST_WORDS = 128, LEAST_PAUSE = 50, SHARE = 50, PATIENCE = 10000 };
struct status { char name[17], state; pid_t parent; long threads; };

static struct { pid_t number; char name[17]; } without_recorder[MOST_UNSEEN];
static uint32_t without_count, followers_count;
static struct { pid_t number, process; } followers[MOST_FOLLOWERS];
static int worst; /* the verdict of the followers that have ended */
static const char *words_of_follower[MOST_WORDS];

/* Returns 0 if there is no such process. */
static int read_status(pid_t process, struct status *to) {
    char name[40], line[600], *begin, *end;
    FILE *file = (snprintf(name, sizeof name, "/proc/%d/stat", process), fopen(name, "re"));
    size_t size = file ? fread(line, 1, sizeof line - 1, file) : 0;
    if (file) fclose(file);
    line[size] = 0;
    if (!(begin = strchr(line, '(')) || !(end = strrchr(line, ')'))) return 0;
    snprintf(to->name, sizeof to->name, "%.*s", (int)(end - begin - 1), begin + 1);
    return sscanf(end + 1, " %c %d %*d %*d %*d %*d %*u %*u %*u %*u %*u %*u %*u %*d %*d %*d %*d %ld", &to->state, &to->parent, &to->threads) == 3;
}

int is_alive(pid_t process) {
    struct status status;
    return read_status(process, &status) && !strchr("ZX", status.state);
}

/* The one of the collector's children from which a process descends, itself or another one; 0 if none: the number may be any. */
static pid_t child_above(pid_t process) {
    struct status status;
    for (int steps = 0; process > 1 && steps < MOST_ANCESTORS && read_status(process, &status); steps++, process = status.parent)
        if (status.parent == getpid()) return process;
    return 0;
}

int is_descendant(pid_t process) { return child_above(process) != 0; }

static int has_followed(pid_t child) {
    for (uint32_t at = 0; at < followers_count; at++) if (followers[at].number == child) return 1;
    return 0;
}

/* ---- processes without a recorder ---- */

static int is_counted(pid_t process) {
    for (uint32_t at = 0; at < OTHERS; at++) if (ring->others[at].process == (uint32_t)process) return 1;
    for (uint32_t at = 0; at < without_count; at++) if (without_recorder[at].number == process) return 1;
    return 0;
}

static void look_at(pid_t process, pid_t program) {
    struct status status;
    if (process == program || (uint32_t)process == ring->owner || !read_status(process, &status) || status.threads < 2) return;
    pid_t above = child_above(process);
    if (!above || is_own_child(above) || has_followed(above) || is_counted(process) || without_count == MOST_UNSEEN) return;
    without_recorder[without_count].number = process;
    strcpy(without_recorder[without_count++].name, status.name);
}

/* Takes at most a fiftieth of a processor. */
static void find_processes(pid_t program) {
    static uint64_t next;
    uint64_t began = now();
    if (began < next) return;
    DIR *list = opendir("/proc");
    for (struct dirent *entry; list && (entry = readdir(list));)
        if (strspn(entry->d_name, "0123456789") == strlen(entry->d_name)) look_at((pid_t)atol(entry->d_name), program);
    if (list) closedir(list);
    next = now() + LEAST_PAUSE + SHARE * (now() - began);
}

/* ---- followers ---- */

void follow_with(const char *goodlockd, const char *reporter, char **words, size_t count) {
    const char *first[] = {"collector", "", goodlockd, reporter};
    if (count && !strcmp(words[count - 1], "--")) count--;
    if (count + 6 > MOST_WORDS) refuse("--trace-children takes fewer options");
    memcpy(words_of_follower, first, sizeof first);
    memcpy(words_of_follower + 4, words, count * sizeof *words);
    ring->follows_others = 1;
}

/* Starts a collector that follows a process. Returns whether it has made shared memory, and its name. */
static int start_follower(pid_t process, char path[40]) {
    char line[80] = "", number[20], out[PATHS];
    int ends[2], frames;
    size_t last = 4;
    if (followers_count == MOST_FOLLOWERS || pipe2(ends, O_CLOEXEC) < 0) return 0;
    pid_t child = fork();
    if (!child) {
        snprintf(number, sizeof number, "=%d", process), snprintf(out, sizeof out, "--out=%.4000s.p%d", options.out, process);
        while (words_of_follower[last]) last++;
        words_of_follower[1] = number, words_of_follower[last] = out;
        dup2(ends[1], STDOUT_FILENO);
        execv("/proc/self/exe", (char **)words_of_follower);
        _exit(WRONG);
    }
    close(ends[1]);
    struct pollfd wait = {.fd = ends[0], .events = POLLIN};
    if (child > 0 && poll(&wait, 1, PATIENCE) > 0 && read(ends[0], line, sizeof line - 1) < 0) line[0] = 0;
    close(ends[0]);
    if (child > 0) followers[followers_count].number = child, followers[followers_count++].process = process;
    return sscanf(line, "%39s %d", path, &frames) == 2;
}

static void answer_others(void) {
    for (uint32_t at = 0; at < OTHERS; at++) {
        struct other *other = &ring->others[at];
        if (__atomic_load_n(&other->state, __ATOMIC_ACQUIRE) != OTHER_ASKS) continue;
        pid_t process = (pid_t)other->process;
        char path[40] = "";
        int has_ring = is_descendant(process) && start_follower(process, path);
        memcpy(other->path, path, sizeof path);
        __atomic_store_n(&other->state, has_ring ? OTHER_HAS_RING : OTHER_REFUSED, __ATOMIC_RELEASE);
    }
}

void look_for_processes(pid_t program) {
    if (words_of_follower[0]) answer_others();
    find_processes(program);
}

int follower_has_ended(pid_t child, int status) {
    for (uint32_t at = 0; at < followers_count; at++) {
        if (followers[at].number != child) continue;
        int verdict = WIFEXITED(status) ? WEXITSTATUS(status) : WRONG;
        if (verdict == DEADLOCKED || (verdict && !worst)) worst = verdict == DEADLOCKED ? DEADLOCKED : IN_PART;
        followers[at] = followers[--followers_count];
        return 1;
    }
    return 0;
}

int has_followers(void) { return followers_count > 0; }

void signal_followed(int number) {
    for (uint32_t at = 0; at < followers_count; at++) if (is_descendant(followers[at].process)) kill(followers[at].process, number);
}

int verdict_of_all(int verdict) {
    return verdict == DEADLOCKED || worst == DEADLOCKED ? DEADLOCKED : verdict ? verdict : worst;
}

/* ---- the end ---- */

static void write_process(FILE *file, long process, const char *name, int is_traced) {
    fprintf(file, "%ld %d ", process, is_traced);
    for (; *name; name++) fputc(*name > ' ' && *name < 127 ? *name : '?', file);
    fputc('\n', file);
}

uint32_t write_processes(void) {
    uint32_t untraced = without_count;
    FILE *file = create_in_work("processes");
    for (uint32_t at = 0; at < OTHERS && file; at++) {
        struct other other;
        copy_shared(&other, &ring->others[at], sizeof other);
        other.name[sizeof other.name - 1] = 0;
        if (!other.process) continue;
        untraced += other.state != OTHER_HAS_RING;
        write_process(file, other.process, other.name[0] ? other.name : "?", other.state == OTHER_HAS_RING);
    }
    for (uint32_t at = 0; at < without_count && file; at++) write_process(file, without_recorder[at].number, without_recorder[at].name, 0);
    if (file) fclose(file);
    return untraced;
}
