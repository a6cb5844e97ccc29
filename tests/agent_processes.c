/* Cases of tests/agents_partial: programs with further processes, and programs with many windows. */
#define _GNU_SOURCE
#include <pthread.h>
#include <spawn.h>
#include <stdio.h>
#include <stdlib.h>
#include <string.h>
#include <sys/wait.h>
#include <unistd.h>

static pthread_mutex_t a = PTHREAD_MUTEX_INITIALIZER, b = PTHREAD_MUTEX_INITIALIZER;
static char *self;

static void both(pthread_mutex_t *first, pthread_mutex_t *second) {
    pthread_mutex_lock(first);
    pthread_mutex_lock(second);
    pthread_mutex_unlock(second);
    pthread_mutex_unlock(first);
}

static int step;

static void *first(void *unused) {
    both(&a, &b);
    __atomic_store_n(&step, 1, __ATOMIC_RELEASE);
    return unused;
}

static void *second(void *unused) {
    while (!__atomic_load_n(&step, __ATOMIC_ACQUIRE)) usleep(1000);
    both(&b, &a);
    return unused;
}

/* bank: two threads that take two locks in two orders, one after the other, which the agent does not see */
static int bank(void) {
    pthread_t two[2];
    pthread_create(&two[0], NULL, first, NULL);
    pthread_create(&two[1], NULL, second, NULL);
    pthread_join(two[1], NULL);
    return pthread_join(two[0], NULL);
}

static void *takes(void *unused) {
    both(&a, &b);
    return unused;
}

/* one: a thread and two locks in one order */
static int one(void) {
    pthread_t thread;
    pthread_create(&thread, NULL, takes, NULL);
    return pthread_join(thread, NULL);
}

static int wait_for(pid_t child) {
    int status;
    return child < 0 || waitpid(child, &status, 0) != child || status ? 1 : 0;
}

/* forks: a child with threads, also by `_Fork`, by which no handlers run; with another program in it */
static int forks(void) {
    if (one()) return 1;
    pid_t child = fork();
    if (!child) _exit(bank());
    return wait_for(child);
}

static int calls_fork_alone(void) {
    if (one()) return 1;
    pid_t child = _Fork();
    if (!child) _exit(bank());
    return wait_for(child);
}

static int executes(void) {
    if (one()) return 1;
    pid_t child = fork();
    if (!child) execlp(self, self, "bank", NULL), _exit(1);
    return wait_for(child);
}

static int spawns(void) {
    char *words[] = {self, "bank", NULL};
    pid_t child;
    return one() || posix_spawn(&child, self, NULL, NULL, words, environ) ? 1 : wait_for(child);
}

/* execle, posix_spawn: a child without the variables of the agent, and without threads */
static int calls_execle(void) {
    char *none[] = {NULL};
    pid_t child;
    if (one()) return 1;
    child = fork();
    if (!child) execle("/bin/true", "true", NULL, none), _exit(1);
    return wait_for(child);
}

static int calls_posix_spawn(void) {
    char *words[] = {"true", NULL}, *none[] = {NULL};
    pid_t child;
    return one() || posix_spawn(&child, "/bin/true", NULL, NULL, words, none) ? 1 : wait_for(child);
}

/* rounds: 3,250 events. With windows of 100 the first one has 100 of them, the second one 99 and a fork, and each later one 94 and six that
 * repeat what is held: 35 windows. With a further word it waits for the end of its input. */
static int rounds(void) {
    for (int round = 0; round < 1625; round++) pthread_mutex_lock(&a), pthread_mutex_unlock(&a);
    return 0;
}

static void *tries_often(void *unused) {
    for (int round = 0; round < 100000; round++) {
        pthread_mutex_lock(&a);
        if (pthread_mutex_trylock(&b)) abort();
        pthread_mutex_unlock(&b);
        pthread_mutex_unlock(&a);
    }
    return unused;
}

/* tries: a thread makes 100,000 attempts while it holds a lock. They are 600,000 events, and 1,300,000 if artificial threads make them. Before
 * and after that the two locks are acquired in both orders, by threads of which one has ended when the other one begins. */
static int tries(void) {
    pthread_t thread;
    pthread_create(&thread, NULL, first, NULL), pthread_join(thread, NULL);
    pthread_create(&thread, NULL, tries_often, NULL), pthread_join(thread, NULL);
    pthread_create(&thread, NULL, second, NULL);
    return pthread_join(thread, NULL);
}

static void *waits_for_input(void *unused) {
    puts("threads");
    fflush(stdout);
    while (getchar() >= 0) continue;
    return unused;
}

/* threads: one that waits for the end of the input */
static int threads(void) {
    pthread_t thread;
    pthread_create(&thread, NULL, waits_for_input, NULL);
    return pthread_join(thread, NULL);
}

static const struct { const char *name; int (*run)(void); } cases[] = {
    {"bank", bank}, {"one", one}, {"forks", forks}, {"calls_fork_alone", calls_fork_alone}, {"executes", executes}, {"spawns", spawns},
    {"execle", calls_execle}, {"posix_spawn", calls_posix_spawn}, {"rounds", rounds}, {"tries", tries}, {"threads", threads}};

int main(int count, char **words) {
    self = words[0];
    for (size_t at = 0; count > 1 && at < sizeof cases / sizeof *cases; at++) {
        if (strcmp(cases[at].name, words[1])) continue;
        int status = cases[at].run();
        while (count > 2 && getchar() >= 0) continue;
        return status;
    }
    return 2;
}
