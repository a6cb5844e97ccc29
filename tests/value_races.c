/* Races whose outcome the program itself knows.
 *
 * usage: value_races draw N          four threads draw numbers from one atomic, each after a section of a lock of its own; prints who drew which
 *        value_races exchange N      the same by compare and exchange
 *        value_races KIND N          two threads go on one after the other, N times each, by a word in memory: volatile, load, add or compare */
#include <pthread.h>
#include <sched.h>
#include <stdio.h>
#include <stdlib.h>
#include <string.h>

enum { THREADS = 4 };
static pthread_mutex_t locks[THREADS];
static int *drawn[THREADS];
/* Alone in their words: a read of a neighbour counts as one of the word. */
static _Alignas(64) int next;
static _Alignas(64) volatile int racy;
static _Alignas(64) int word_of_turns;
static _Alignas(64) int count;
static char kind;

static void pass(long me) {
    pthread_mutex_lock(&locks[me]);
    pthread_mutex_unlock(&locks[me]);
}

static int draw(void) {
    if (kind == 'd') return __atomic_fetch_add(&next, 1, __ATOMIC_RELAXED);
    int now = __atomic_load_n(&next, __ATOMIC_RELAXED);
    while (!__atomic_compare_exchange_n(&next, &now, now + 1, 1, __ATOMIC_ACQ_REL, __ATOMIC_RELAXED)) continue;
    return now;
}

static void *draw_all(void *raw) {
    for (int at = 0; at < count; at++) pass((long)raw), drawn[(long)raw][at] = draw();
    pass((long)raw);
    return NULL;
}

static int turn_now(void) {
    int expected = -1;
    switch (kind) {
    case 'v': return racy;
    case 'a': return __atomic_fetch_add(&word_of_turns, 0, __ATOMIC_ACQ_REL);
    case 'c': __atomic_compare_exchange_n(&word_of_turns, &expected, -1, 0, __ATOMIC_ACQ_REL, __ATOMIC_ACQUIRE); return expected;
    default: return __atomic_load_n(&word_of_turns, __ATOMIC_ACQUIRE);
    }
}

static void set_turn(int to) {
    int expected = to - 1;
    switch (kind) {
    case 'v': racy = to; return;
    case 'a': __atomic_exchange_n(&word_of_turns, to, __ATOMIC_ACQ_REL); return;
    case 'c': __atomic_compare_exchange_n(&word_of_turns, &expected, to, 0, __ATOMIC_ACQ_REL, __ATOMIC_ACQUIRE); return;
    default: __atomic_store_n(&word_of_turns, to, __ATOMIC_RELEASE);
    }
}

static void *take_turns(void *raw) {
    for (int at = (int)(long)raw; at < 2 * count; at += 2) {
        for (long spins = 0; turn_now() != at; spins++) if (spins > 300) sched_yield();
        pass((long)raw);
        set_turn(at + 1);
    }
    return NULL;
}

int main(int words, char **word) {
    pthread_t handles[THREADS];
    if (words < 3) return 2;
    kind = word[1][0], count = atoi(word[2]);
    int is_draw = kind == 'd' || kind == 'e', threads = is_draw ? THREADS : 2;
    for (long at = 0; at < threads; at++) pthread_mutex_init(&locks[at], NULL), drawn[at] = malloc((size_t)count * sizeof(int));
    for (long at = 0; at < threads; at++) pthread_create(&handles[at], NULL, is_draw ? draw_all : take_turns, (void *)at);
    for (int at = 0; at < threads; at++) pthread_join(handles[at], NULL);
    for (int at = 0; at < threads && is_draw; at++) for (int one = 0; one < count; one++) printf("%d %d\n", at + 1, drawn[at][one]);
    return 0;
}
