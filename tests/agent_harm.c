/* Cases of tests/agents_alone: programs that an agent cannot look into, or must not harm. */
#define _GNU_SOURCE
#include <dlfcn.h>
#include <errno.h>
#include <linux/futex.h>
#include <pthread.h>
#include <sched.h>
#include <stdint.h>
#include <stdio.h>
#include <string.h>
#include <sys/mman.h>
#include <sys/syscall.h>
#include <sys/wait.h>
#include <unistd.h>

static void *nothing(void *unused) { return unused; }

/* no_threads: neither threads nor locks */
static int no_threads(void) { return 0; }

/* threads: two threads, which use no lock that is seen */
static int threads(void) {
    pthread_t two[2];
    for (int at = 0; at < 2; at++) pthread_create(&two[at], NULL, nothing, NULL);
    for (int at = 0; at < 2; at++) pthread_join(two[at], NULL);
    return 0;
}

static void *reads(void *lock) {
    pthread_rwlock_rdlock(lock);
    pthread_rwlock_unlock(lock);
    return NULL;
}

/* readers: a thread that only reads */
static int readers(void) {
    pthread_rwlock_t lock = PTHREAD_RWLOCK_INITIALIZER;
    pthread_t one;
    pthread_create(&one, NULL, reads, &lock);
    return pthread_join(one, NULL);
}

/* unstarted: the system starts none of these threads */
static int unstarted(void) {
    pthread_attr_t attributes;
    pthread_t one;
    pthread_attr_init(&attributes);
    pthread_attr_setstacksize(&attributes, (size_t)1 << 46);
    for (int at = 0; at < 3; at++) if (!pthread_create(&one, &attributes, nothing, NULL)) return 1;
    return pthread_attr_destroy(&attributes);
}

/* loads: libraries of C++ in a program of C, which each are loaded for themselves; one has an allocator of its own */
static int loads(void) {
    static const char *const files[] = {"./library.so", "./own_library.so"};
    for (int round = 0; round < 6; round++) {
        void *library = dlopen(files[round % 2], RTLD_NOW | RTLD_LOCAL);
        int (*run)(void) = library ? (int (*)(void))dlsym(library, "run") : NULL;
        if (!run || run()) return 1;
        if (round > 2) dlclose(library);
    }
    return 0;
}

/* while_loading: threads use locks in functions of different depths while another one loads and closes a library */
static pthread_mutex_t deep = PTHREAD_MUTEX_INITIALIZER;
static int is_loading = 1;

__attribute__((noinline)) static int locks_below(int depth) {
    char room[64];
    memset(room, depth, sizeof room);
    if (depth) return locks_below(depth - 1) + room[depth % 64];
    pthread_mutex_lock(&deep);
    return pthread_mutex_unlock(&deep);
}

static void *locks_on(void *unused) {
    for (int round = 0; round < 20000 && __atomic_load_n(&is_loading, __ATOMIC_RELAXED); round++) locks_below(round % 40);
    return unused;
}

static int while_loading(void) {
    pthread_t two[2];
    for (int at = 0; at < 2; at++) pthread_create(&two[at], NULL, locks_on, NULL);
    for (int round = 0; round < 50; round++) {
        void *library = dlopen("./library.so", RTLD_NOW | RTLD_LOCAL);
        int (*run)(void) = library ? (int (*)(void))dlsym(library, "run") : NULL;
        if (!run || run() || dlclose(library)) return 1;
    }
    __atomic_store_n(&is_loading, 0, __ATOMIC_RELAXED);
    for (int at = 0; at < 2; at++) pthread_join(two[at], NULL);
    return 0;
}

/* reloads: a library is closed and loaded again, to the same place. Its locks are others then. */
static int (*run_of_library)(int);
static void *runs_in(void *order) { return run_of_library(order != NULL) ? order : NULL; }

static int reloads(void) {
    static int orders[2];
    void *before = NULL;
    for (int round = 0; round < 2; round++) {
        void *library = dlopen("./locks.so", RTLD_NOW | RTLD_LOCAL);
        pthread_t one;
        if (!library || !(run_of_library = (int (*)(int))dlsym(library, "run"))) return 1;
        if (before && before != (void *)run_of_library) fprintf(stderr, "the library is at another place\n");
        before = (void *)run_of_library;
        pthread_create(&one, NULL, runs_in, round ? &orders : NULL);
        pthread_join(one, NULL);
        dlclose(library);
    }
    return 0;
}

/* calls: the function `syscall`, also before the first thread is recorded: its results, errors and six arguments, a child that returns to the
 * same stack, and futexes, of which one wait is recorded */
static void *wakes(void *raw) {
    uint32_t *word = raw;
    while (syscall(SYS_futex, word, FUTEX_WAKE_PRIVATE, 1, NULL, NULL, 0) == 0) sched_yield();
    return NULL;
}

static int calls(void) {
    static uint32_t word = 1;
    struct timespec soon = {0, 1000000};
    pthread_t one;
    int status = 0;
    void *memory = (void *)syscall(SYS_mmap, NULL, 4096L, (long)PROT_READ, (long)(MAP_PRIVATE | MAP_ANONYMOUS), -1L, 0L);
    if (memory == MAP_FAILED || syscall(SYS_getpid) != getpid() || syscall(SYS_close, -1) != -1 || errno != EBADF) return 1;
    if (syscall(SYS_futex, &word, FUTEX_WAIT_PRIVATE, 2, NULL, NULL, 0) != -1 || errno != EAGAIN) return 2;
    if (syscall(SYS_futex, &word, FUTEX_WAIT_PRIVATE, 1, &soon, NULL, 0) != -1 || errno != ETIMEDOUT) return 3;
    pthread_create(&one, NULL, wakes, &word);
    if (syscall(SYS_futex, &word, FUTEX_WAIT_PRIVATE, 1, NULL, NULL, 0)) return 4;
    pthread_join(one, NULL);
    pid_t child = (pid_t)syscall(SYS_fork);
    if (!child) _exit(7);
    return waitpid(child, &status, 0) == child && WEXITSTATUS(status) == 7 ? 0 : 5;
}

/* generated: 2,000 calls from code that is in no file. push rbp; mov rbp, rsp; mov rax, FUNCTION; call rax; pop rbp; ret */
static int generated(void) {
    static pthread_mutex_t lock = PTHREAD_MUTEX_INITIALIZER;
    unsigned char code[] = {0x55, 0x48, 0x89, 0xe5, 0x48, 0xb8, 0, 0, 0, 0, 0, 0, 0, 0, 0xff, 0xd0, 0x5d, 0xc3};
    int (*function)(pthread_mutex_t *) = pthread_mutex_lock;
    char *memory = mmap(NULL, 2000 * sizeof code, PROT_READ | PROT_WRITE | PROT_EXEC, MAP_PRIVATE | MAP_ANONYMOUS, -1, 0);
    if (memory == MAP_FAILED) return 1;
    memcpy(code + 6, &function, sizeof function);
    for (char *at = memory; at < memory + 2000 * sizeof code; at += sizeof code) {
        memcpy(at, code, sizeof code);
        ((int (*)(pthread_mutex_t *))at)(&lock);
        pthread_mutex_unlock(&lock);
    }
    return 0;
}

static const struct { const char *name; int (*run)(void); } cases[] = {{"no_threads", no_threads}, {"threads", threads}, {"readers", readers},
                                                               {"unstarted", unstarted}, {"loads", loads}, {"generated", generated},
                                                               {"reloads", reloads}, {"while_loading", while_loading},
                                                               {"calls", calls}};

int main(int count, char **words) {
    for (size_t at = 0; count > 1 && at < sizeof cases / sizeof *cases; at++)
        if (!strcmp(cases[at].name, words[1])) return cases[at].run();
    return count > 1 ? 2 : 0;
}
