/* The names and the files of a run. OUT.tmp is a folder of this run alone: it is made anew, private, and locked until the run and its
 * reporters have ended. No file is opened through a symbolic link, and none is read that an earlier run has left. */
#include "../collector.h"

#include <dirent.h>
#include <errno.h>
#include <fcntl.h>
#include <sys/file.h>
#include <sys/stat.h>

static int folder = -1;

void name_run(pid_t program) {
    char before[PATHS], *to = options.out;
    strcpy(before, options.out);
    for (const char *from = before; *from;) {
        if (to > options.out + MOST_NAME - 12) refuse("the name of --out is too long");
        if (from[0] == '%' && from[1] == 'p') to += sprintf(to, "%d", program), from += 2;
        else *to++ = *from++;
    }
    *to = 0;
}

static void __attribute__((noreturn)) refuse_name(const char *why) {
    say("cannot write files named %.3900s: %s", options.out, why);
    exit(WRONG);
}

static const char *folder_name(char *path) {
    snprintf(path, PATHS, "%.4000s.tmp", options.out);
    return path;
}

const char *in_work(char *path, const char *name) {
    snprintf(path, PATHS, "%.4000s.tmp/%s", options.out, name);
    return path;
}

/* Whether the open folder is the one that has this name, and not one that another run has removed. */
static int is_at(const char *path) {
    struct stat opened, named;
    return !fstat(folder, &opened) && !lstat(path, &named) && opened.st_dev == named.st_dev && opened.st_ino == named.st_ino;
}

static void remove_files(void) {
    int file = openat(folder, ".", O_RDONLY | O_DIRECTORY | O_CLOEXEC);
    DIR *list = file < 0 ? NULL : fdopendir(file);
    for (struct dirent *entry; list && (entry = readdir(list));)
        if (strcmp(entry->d_name, ".") && strcmp(entry->d_name, "..")) unlinkat(folder, entry->d_name, 0);
    if (list) closedir(list);
}

/* A folder that an earlier run has left is only used if nobody else can write to it. */
static void open_folder(const char *path) {
    struct stat it;
    int is_new = mkdir(path, 0700) == 0;
    if (!is_new && errno != EEXIST) refuse_name(strerror(errno));
    folder = open(path, O_RDONLY | O_DIRECTORY | O_NOFOLLOW | O_CLOEXEC);
    if (is_new || (folder < 0 && errno == ENOENT)) return;
    if (folder < 0 || fstat(folder, &it) < 0 || it.st_uid != geteuid() || it.st_mode & 077)
        refuse_name("NAME.tmp is not a private folder of this user; remove it, or choose another --out");
}

void take_name(void) {
    char path[PATHS];
    do {
        if (folder >= 0) close(folder);
        open_folder(folder_name(path));
        if (folder >= 0 && flock(folder, LOCK_EX | LOCK_NB) < 0 && errno == EWOULDBLOCK)
            refuse_name("another run uses this name; with %p in --out each run has a name of its own");
    } while (folder < 0 || !is_at(path));
    remove_files();
}

void leave_name(void) {
    char path[PATHS];
    if (is_at(folder_name(path))) remove_files(), rmdir(path);
}

void keep_name_locked(void) {
    fcntl(folder, F_SETFD, 0);
}

void window_name(char *path, uint32_t of, const char *kind) {
    if (of == 1) snprintf(path, PATHS, "%.4000s.%s", options.out, kind);
    else snprintf(path, PATHS, "%.4000s.%u.%s", options.out, of, kind);
}

/* ---- the files of an earlier run ---- */

const char *mark_of_name(void) {
    static char mark[PATHS];
    if (mark[0]) return mark;
    snprintf(mark, sizeof mark, "# a further trace of %.3900s", strrchr(options.out, '/') + 1);
    if (is_follower) *strrchr(mark, '.') = 0; /* its name is OUT.pNUMBER */
    return mark;
}

/* Whether a file is OUT.NUMBER.trace, OUT.pNUMBER.trace or OUT.all.trace, and begins with the mark. */
static int is_further(int where, const char *name) {
    const char *base = strrchr(options.out, '/') + 1;
    size_t length = strlen(base), digits;
    char line[PATHS] = "";
    if (strncmp(name, base, length) || name[length] != '.') return 0;
    digits = strspn(name + length + 1, "0123456789p.");
    if (!strncmp(name + length + 1 + digits, "all.", 4)) digits += 4;
    if (!digits || strcmp(name + length + digits, ".trace")) return 0;
    int file = openat(where, name, O_RDONLY | O_NOFOLLOW | O_CLOEXEC | O_NONBLOCK);
    FILE *trace = file < 0 ? NULL : fdopen(file, "r");
    if (trace && !fgets(line, sizeof line, trace)) line[0] = 0;
    if (trace) fclose(trace);
    line[strcspn(line, "\n")] = 0;
    return !strcmp(line, mark_of_name());
}

void remove_earlier(void) {
    char path[PATHS];
    window_name(path, 1, "calls");
    unlink(path);
    window_name(path, 1, "report");
    unlink(path);
    *(strrchr(path, '/') + 1) = 0;
    DIR *list = opendir(path);
    for (struct dirent *entry; list && (entry = readdir(list));) {
        if (!is_further(dirfd(list), entry->d_name)) continue;
        unlinkat(dirfd(list), entry->d_name, 0);
        snprintf(path, PATHS, "%.*s.report", (int)strlen(entry->d_name) - 6, entry->d_name);
        unlinkat(dirfd(list), path, 0);
    }
    if (list) closedir(list);
}

/* ---- new files ---- */

static FILE *opened(int file) { return file < 0 ? NULL : fdopen(file, "w"); }

FILE *create_in_work(const char *name) {
    return opened(openat(folder, name, O_WRONLY | O_CREAT | O_TRUNC | O_NOFOLLOW | O_CLOEXEC, 0600));
}

FILE *create_anew(const char *path) {
    unlink(path);
    return opened(open(path, O_WRONLY | O_CREAT | O_EXCL | O_NOFOLLOW | O_CLOEXEC, 0666));
}
