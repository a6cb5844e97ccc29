/* Other programs that the process starts: by exec in its place, or by spawn. What the recorder does at the start of a program is in
 * recorder.c. */
#include "recorder.h"

#include <spawn.h>
#include <stdarg.h>
#include <string.h>
#include <unistd.h>

#define NAME "GOODLOCK_RING="

#define REALS(X) X(execve) X(execv) X(execvp) X(execvpe) X(fexecve) X(posix_spawn) X(posix_spawnp)
#define DECLARE(name) static __typeof__(&name) real_##name;
REALS(DECLARE)
#define REAL(name) ({ if (!real_##name) real_##name = (__typeof__(&name))dlsym(RTLD_NEXT, #name); real_##name; })

/* A program that is started with another environment is not seen. `change`: 1, or -1 if it did not start. */
static void count_cleared(char *const environment[], int change) {
    for (; environment && *environment; environment++) if (!strncmp(*environment, NAME, sizeof NAME - 1)) return;
    if (mapped) __atomic_fetch_add(&mapped->cleared, (uint32_t)change, __ATOMIC_RELAXED);
}

/* The next program of the process may come without this library: only if it has it, the process is seen again. */
static struct ring *before_exec(char *const environment[]) {
    struct ring *to = page.ring;
    uint32_t mine = (uint32_t)getpid();
    count_cleared(environment, 1);
    if (!to || mine != to->program || (to->owner && to->owner != mine)) return NULL;
    to->attached = 0;
    return to;
}

static int exec_failed(struct ring *to, char *const environment[]) {
    int before = errno;
    count_cleared(environment, -1);
    if (to) to->attached = 1;
    errno = before;
    return -1;
}

#define EXEC(environment, call) ({ struct ring *to = before_exec(environment); (void)call; exec_failed(to, environment); })

EXPORT int execve(const char *path, char *const words[], char *const environment[]) {
    return EXEC(environment, REAL(execve)(path, words, environment));
}
EXPORT int execv(const char *path, char *const words[]) { return EXEC(environ, REAL(execv)(path, words)); }
EXPORT int execvp(const char *name, char *const words[]) { return EXEC(environ, REAL(execvp)(name, words)); }
EXPORT int execvpe(const char *name, char *const words[], char *const environment[]) {
    return EXEC(environment, REAL(execvpe)(name, words, environment));
}
EXPORT int fexecve(int file, char *const words[], char *const environment[]) {
    return EXEC(environment, REAL(fexecve)(file, words, environment));
}

/* The words of a call with a list of arguments, on the stack as in the C library. `execle` has the environment after its last word. */
#define EXEC_LIST(has_environment, call) ({ va_list list; size_t count = 1; char **environment = environ; \
    va_start(list, first); while (va_arg(list, char *)) count++; va_end(list); \
    char *words[count + 1]; \
    va_start(list, first); words[0] = (char *)first; \
    for (size_t at = 1; at <= count; at++) words[at] = va_arg(list, char *); \
    if (has_environment) environment = va_arg(list, char **); \
    va_end(list); EXEC(environment, call); })

EXPORT int execl(const char *path, const char *first, ...) { return EXEC_LIST(0, REAL(execv)(path, words)); }
EXPORT int execlp(const char *name, const char *first, ...) { return EXEC_LIST(0, REAL(execvp)(name, words)); }
EXPORT int execle(const char *path, const char *first, ...) { return EXEC_LIST(1, REAL(execve)(path, words, environment)); }

#define SPAWN(call) ({ int error = call; if (!error) count_cleared(environment, 1); error; })

EXPORT int posix_spawn(pid_t *process, const char *path, const posix_spawn_file_actions_t *actions, const posix_spawnattr_t *attributes,
                       char *const words[], char *const environment[]) {
    return SPAWN(REAL(posix_spawn)(process, path, actions, attributes, words, environment));
}
EXPORT int posix_spawnp(pid_t *process, const char *name, const posix_spawn_file_actions_t *actions, const posix_spawnattr_t *attributes,
                        char *const words[], char *const environment[]) {
    return SPAWN(REAL(posix_spawnp)(process, name, actions, attributes, words, environment));
}

void find_starts(void) {
#define FIND(name) (void)REAL(name);
    REALS(FIND)
}
