/* Threads one after another, up to eight at a time. Each has two mutexes of its own, one on its stack and one in allocated memory, and one
 * that all share: eight events. Prints the seconds, the microseconds of an event in the first and in the last tenth, and a sum.
 *
 * usage: lives [THREADS (100000)]
 */
#include <pthread.h>
#include <stdio.h>
#include <stdlib.h>
#include <time.h>

enum { AT_A_TIME = 8, EVENTS = 8 };
static pthread_mutex_t shared = PTHREAD_MUTEX_INITIALIZER;
static long sum;

static void *run(void *raw) {
    pthread_mutex_t own, *allocated = malloc(sizeof *allocated);
    pthread_mutex_init(&own, NULL), pthread_mutex_init(allocated, NULL);
    pthread_mutex_lock(allocated);
    pthread_mutex_lock(&own);
    pthread_mutex_lock(&shared);
    sum += (long)raw;
    pthread_mutex_unlock(&shared);
    pthread_mutex_unlock(&own);
    pthread_mutex_unlock(allocated);
    free(allocated);
    return NULL;
}

static double now(void) {
    struct timespec time;
    clock_gettime(CLOCK_MONOTONIC, &time);
    return (double)time.tv_sec + (double)time.tv_nsec / 1e9;
}

int main(int count, char **words) {
    long threads = count > 1 ? atol(words[1]) : 100000, tenth = threads / 10;
    pthread_t handles[AT_A_TIME];
    double began = now(), early = 0, late = 0;
    for (long at = 0; at < threads + AT_A_TIME; at++) {
        if (at == tenth) early = now() - began;
        if (at == threads - tenth) late = now();
        if (at >= AT_A_TIME) pthread_join(handles[at % AT_A_TIME], NULL);
        if (at < threads && pthread_create(&handles[at % AT_A_TIME], NULL, run, (void *)at)) return 1;
    }
    double end = now();
    double events = EVENTS * (double)tenth / 1e6;
    printf("%.6f %.2f %.2f %ld\n", end - began, early / events, (end - late) / events, sum);
    return 0;
}
