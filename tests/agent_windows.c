/* Cases of tests/agents_windows: runs of several windows, in one order always. An atomic counter, which the agent does not see, says whose turn
 * it is.
 *
 * usage: agent_windows CASE [NUMBER] */
#define _GNU_SOURCE
#include <pthread.h>
#include <sched.h>
#include <semaphore.h>
#include <signal.h>
#include <stdatomic.h>
#include <stdio.h>
#include <stdlib.h>
#include <string.h>
#include <time.h>
#include <unistd.h>

enum { ROUNDS = 1000000, LOCKS = 80, THREADS = 5, STEPS = 1500, MOST_HELD = 40 };
static pthread_mutex_t a = PTHREAD_MUTEX_INITIALIZER, b = PTHREAD_MUTEX_INITIALIZER, between = PTHREAD_MUTEX_INITIALIZER;
static atomic_int step;
static int rounds = ROUNDS;

static void until(int wanted) { while (atomic_load(&step) < wanted) sched_yield(); }
static void next(void) { atomic_fetch_add(&step, 1); }

static void both(pthread_mutex_t *first, pthread_mutex_t *second) {
    pthread_mutex_lock(first);
    pthread_mutex_lock(second);
    pthread_mutex_unlock(second);
    pthread_mutex_unlock(first);
}

/* Two events a round. */
static void pass_time(void) {
    for (int round = 0; round < rounds; round++) pthread_mutex_lock(&between), pthread_mutex_unlock(&between);
}

static void *early(void *unused) { return both(&a, &b), next(), unused; }
static void *late(void *unused) { return until(2), both(&b, &a), unused; }

/* far: two members, with ROUNDS between them. ends: then the program kills itself. */
static void far(void) {
    pthread_t one, two;
    pthread_create(&one, NULL, early, NULL), pthread_create(&two, NULL, late, NULL);
    until(1);
    pass_time();
    next();
    pthread_join(one, NULL), pthread_join(two, NULL);
}

static void ends(void) {
    far();
    raise(SIGKILL);
}

/* joined: the second thread begins when the first one has ended. */
static void joined(void) {
    pthread_t one, two;
    pthread_create(&one, NULL, early, NULL), pthread_join(one, NULL);
    pass_time();
    next();
    pthread_create(&two, NULL, late, NULL), pthread_join(two, NULL);
}

/* timed: the second member has a timeout. */
static void *late_timed(void *unused) {
    struct timespec end;
    until(2);
    clock_gettime(CLOCK_REALTIME, &end);
    end.tv_sec += 60;
    pthread_mutex_lock(&b);
    pthread_mutex_timedlock(&a, &end);
    pthread_mutex_unlock(&a), pthread_mutex_unlock(&b);
    return unused;
}

static void timed(void) {
    pthread_t one, two;
    pthread_create(&one, NULL, early, NULL), pthread_create(&two, NULL, late_timed, NULL);
    until(1);
    pass_time();
    next();
    pthread_join(one, NULL), pthread_join(two, NULL);
}

/* readers: a writer around a lock, and the first thread as a reader under it. */
static pthread_rwlock_t shared = PTHREAD_RWLOCK_INITIALIZER;

static void *writes(void *unused) {
    pthread_rwlock_wrlock(&shared), pthread_mutex_lock(&a);
    pthread_mutex_unlock(&a), pthread_rwlock_unlock(&shared);
    return next(), unused;
}

static void readers(void) {
    pthread_t one;
    pthread_create(&one, NULL, writes, NULL);
    until(1);
    pass_time();
    pthread_mutex_lock(&a), pthread_rwlock_rdlock(&shared);
    pthread_rwlock_unlock(&shared), pthread_mutex_unlock(&a);
    pthread_join(one, NULL);
}

/* waits: after the rest a holder of a lock joins a thread that has acquired this lock. harmless: that has acquired another one. */
static void *takes(void *lock) {
    pthread_mutex_lock(lock), pthread_mutex_unlock(lock);
    return next(), NULL;
}

static void join_one(pthread_mutex_t *taken) {
    pthread_t one;
    far();
    pass_time();
    pthread_create(&one, NULL, takes, taken);
    until(3);
    pthread_mutex_lock(&a);
    pthread_join(one, NULL);
    pthread_mutex_unlock(&a);
}

static void waits(void) { join_one(&a); }
static void harmless(void) { join_one(&b); }

/* ---- threads that take turns, by random numbers ---- */

static struct lock { pthread_mutex_t mutex; int owner, depth; } locks[LOCKS];
static sem_t tokens;
static int available, held[THREADS], is_recursive[LOCKS];
static unsigned state;

static unsigned dice(unsigned sides) { return (state = state * 1664525 + 1013904223) / 65536 % sides; }

static void acquire(int thread, struct lock *lock) {
    struct timespec end = {.tv_sec = 1L << 40};
    unsigned how = dice(8);
    if (how == 0) pthread_mutex_trylock(&lock->mutex);
    else if (how == 1) pthread_mutex_timedlock(&lock->mutex, &end);
    else pthread_mutex_lock(&lock->mutex);
    held[thread] += !lock->depth++;
    lock->owner = thread;
}

static void act(int thread) {
    int number = (int)dice(LOCKS);
    struct lock *lock = &locks[number];
    switch (dice(12)) {
    case 0: sem_post(&tokens), available++; break;
    case 1: /* under a lock: a receive after a release is a wait on a condition */
        pthread_mutex_lock(&between);
        if (available) sem_wait(&tokens), available--;
        pthread_mutex_unlock(&between);
        break;
    case 2: pthread_rwlock_rdlock(&shared), pthread_rwlock_unlock(&shared); break;
    case 3: pthread_rwlock_wrlock(&shared), pthread_rwlock_unlock(&shared); break;
    case 4: case 5: case 6:
        if (lock->owner != thread) break;
        if (!--lock->depth) lock->owner = -1, held[thread]--;
        pthread_mutex_unlock(&lock->mutex);
        break;
    default:
        if (lock->owner < 0 ? held[thread] < MOST_HELD : lock->owner == thread && is_recursive[number] && lock->depth < 5) acquire(thread, lock);
    }
}

/* Each turn chooses the next thread, which waits for a byte from a pipe of its own. In the first half thread 1 takes most turns, so it holds
 * many locks over the ends of windows. */
static int pipes[THREADS][2], turns;

static void *take_turns(void *raw) {
    int thread = (int)(long)raw;
    char byte;
    while (read(pipes[thread][0], &byte, 1) == 1 && turns < STEPS) {
        act(thread);
        int following = ++turns < STEPS / 2 && dice(3) ? 1 : (int)dice(THREADS);
        if (write(pipes[following][1], "", 1) != 1) abort();
    }
    for (int other = 0; other < THREADS; other++) if (write(pipes[other][1], "", 1) != 1) abort();
    return NULL;
}

static void random_steps(void) {
    pthread_t threads[THREADS];
    pthread_mutexattr_t recursive;
    pthread_mutexattr_init(&recursive), pthread_mutexattr_settype(&recursive, PTHREAD_MUTEX_RECURSIVE);
    sem_init(&tokens, 0, 0);
    for (int at = 0; at < THREADS; at++) if (pipe(pipes[at])) abort();
    if (write(pipes[0][1], "", 1) != 1) abort();
    for (int at = 0; at < LOCKS; at++)
        is_recursive[at] = at % 4 == 0, locks[at].owner = -1, pthread_mutex_init(&locks[at].mutex, is_recursive[at] ? &recursive : NULL);
    for (long at = 1; at < THREADS; at++) pthread_create(&threads[at], NULL, take_turns, (void *)at);
    take_turns(NULL);
    for (int at = 0; at < LOCKS; at++) /* a holder of locks would wait for the other threads */
        for (; locks[at].owner == 0 && locks[at].depth; locks[at].depth--) pthread_mutex_unlock(&locks[at].mutex);
    for (int at = 1; at < THREADS; at++) pthread_join(threads[at], NULL);
}

int main(int count, char **words) {
    static const struct { const char *name; void (*run)(void); } cases[] =
        {{"far", far}, {"ends", ends}, {"joined", joined}, {"timed", timed}, {"readers", readers}, {"waits", waits}, {"harmless", harmless},
         {"random", random_steps}};
    if (count > 2) rounds = atoi(words[2]), state = (unsigned)rounds;
    for (size_t at = 0; at < sizeof cases / sizeof *cases && count > 1; at++) if (!strcmp(cases[at].name, words[1])) return cases[at].run(), 0;
    return 2;
}
