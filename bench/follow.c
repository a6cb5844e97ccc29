/* A service of four threads for bench/follow: `follow SECONDS RATE PLANT` makes RATE events a second, in sections of two nested locks. At
 * second PLANT two of its threads acquire two further locks in opposite orders, one after the other, and it prints the time. */
#include <pthread.h>
#include <stdatomic.h>
#include <stdio.h>
#include <stdlib.h>
#include <time.h>

enum { THREADS = 4, LOCKS = 16, EVENTS_OF_SECTION = 4, STEP_NS = 2000000 };

static pthread_mutex_t locks[LOCKS], planted[2] = {PTHREAD_MUTEX_INITIALIZER, PTHREAD_MUTEX_INITIALIZER};
static atomic_int plants; /* how many of the two threads have planted: the second one waits for the first */
static double seconds, rate, plant;
static struct timespec begin;

static double passed(void) {
    struct timespec now;
    clock_gettime(CLOCK_MONOTONIC, &now);
    return (double)(now.tv_sec - begin.tv_sec) + (double)(now.tv_nsec - begin.tv_nsec) / 1e9;
}

static void section(pthread_mutex_t *outer, pthread_mutex_t *inner) {
    pthread_mutex_lock(outer);
    pthread_mutex_lock(inner);
    pthread_mutex_unlock(inner);
    pthread_mutex_unlock(outer);
}

static void print_time(void) {
    struct timespec now;
    clock_gettime(CLOCK_REALTIME, &now);
    printf("planted %ld.%03ld\n", (long)now.tv_sec, now.tv_nsec / 1000000);
    fflush(stdout);
}

/* The first two threads do so once. */
static void plant_once(int thread, int *is_done) {
    if (*is_done || thread > 1 || passed() < plant || plants != thread) return;
    section(&planted[thread], &planted[1 - thread]);
    *is_done = 1;
    if (++plants == 2) print_time();
}

static void *serve(void *number) {
    int thread = (int)(long)number, is_done = 0;
    unsigned next = (unsigned)thread;
    for (double done = 0, now; (now = passed()) < seconds;) {
        for (; done < now * rate / THREADS / EVENTS_OF_SECTION; done++) {
            unsigned outer = next++ % (LOCKS - 1);
            section(&locks[outer], &locks[outer + 1 + next % (LOCKS - 1 - outer)]);
        }
        plant_once(thread, &is_done);
        nanosleep(&(struct timespec){0, STEP_NS}, NULL);
    }
    return NULL;
}

int main(int count, char **words) {
    pthread_t threads[THREADS];
    if (count != 4) return 2;
    seconds = atof(words[1]), rate = atof(words[2]), plant = atof(words[3]);
    for (int at = 0; at < LOCKS; at++) pthread_mutex_init(&locks[at], NULL);
    clock_gettime(CLOCK_MONOTONIC, &begin);
    for (long at = 0; at < THREADS; at++) pthread_create(&threads[at], NULL, serve, (void *)at);
    for (int at = 0; at < THREADS; at++) pthread_join(threads[at], NULL);
    return 0;
}
