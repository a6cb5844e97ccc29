/* Four threads that make random accesses of memory and take random locks, one after another in an order that is known. It prints the whole
 * trace, byte by byte, with a space before each read that is not atomic; the recorder writes its own.
 *
 * usage: value_steps SEED STEPS WIDE    WIDE 1: whole words and no atomic store, so that the two traces must have the same verdicts */
#include <pthread.h>
#include <sched.h>
#include <stdint.h>
#include <stdio.h>
#include <stdlib.h>

#define SIZES(X) X(1) X(2) X(4) X(8)
#define DECLARE(size) void __tsan_read##size(void *); void __tsan_write##size(void *);
SIZES(DECLARE)
void __tsan_read_range(void *, unsigned long), __tsan_write_range(void *, unsigned long);
uint64_t __tsan_atomic64_load(const volatile uint64_t *, int), __tsan_atomic64_fetch_add(volatile uint64_t *, uint64_t, int);
void __tsan_atomic64_store(volatile uint64_t *, uint64_t, int);
uint32_t __tsan_atomic32_fetch_add(volatile uint32_t *, uint32_t, int);
int __tsan_atomic32_compare_exchange_strong(volatile uint32_t *, uint32_t *, uint32_t, int, int);

enum { THREADS = 4, LOCKS = 4, BYTES = 128, MOST = 4000 };
static pthread_mutex_t locks[LOCKS];
static int owner[LOCKS];
static uint64_t memory[BYTES / 8];
static struct step { int thread, what, at, size; } steps[MOST];
static volatile int turn;
static int count;

static void print_bytes(int thread, char letter, int at, int size, const char *before) {
    for (int byte = at; byte < at + size; byte++) printf("%s%d%c%d\n", before, thread, letter, byte + 1);
}

static void access_plain(const struct step *step, int writes) {
    char *at = (char *)memory + step->at;
    print_bytes(step->thread, writes ? 'w' : 'd', step->at, step->size, writes ? "" : " ");
    switch (step->size) {
#define ACCESS(size) case size: if (writes) __tsan_write##size(at); else __tsan_read##size(at); return;
    SIZES(ACCESS)
    default: if (writes) __tsan_write_range(at, (unsigned long)step->size); else __tsan_read_range(at, (unsigned long)step->size);
    }
}

static void access_atomic(const struct step *step) {
    uint64_t *word = &memory[step->at / 8];
    uint32_t expected = 0, *half = (uint32_t *)memory + step->at / 4;
    int of_word = step->at & ~7, of_half = step->at & ~3, thread = step->thread;
    switch (step->what) {
    case 'l': __tsan_atomic64_load(word, 0), print_bytes(thread, 'd', of_word, 8, ""); break;
    case 's': __tsan_atomic64_store(word, 1, 0), print_bytes(thread, 'w', of_word, 8, ""); break;
    case 'f': __tsan_atomic64_fetch_add(word, 1, 0), print_bytes(thread, 'd', of_word, 8, ""), print_bytes(thread, 'w', of_word, 8, ""); break;
    case 'h': __tsan_atomic32_fetch_add(half, 1, 0), print_bytes(thread, 'd', of_half, 4, ""), print_bytes(thread, 'w', of_half, 4, ""); break;
    case 'c':
        print_bytes(thread, 'd', of_half, 4, "");
        if (__tsan_atomic32_compare_exchange_strong(half, &expected, 1, 0, 0)) print_bytes(thread, 'w', of_half, 4, "");
        break;
    }
}

static void make(const struct step *step) {
    switch (step->what) {
    case 'a': pthread_mutex_lock(&locks[step->at]), printf("%da%d\n", step->thread, step->at + 1); break;
    case 'r': printf("%dr%d\n", step->thread, step->at + 1), pthread_mutex_unlock(&locks[step->at]); break;
    case 'd': access_plain(step, 0); break;
    case 'w': access_plain(step, 1); break;
    default: access_atomic(step);
    }
}

static void *run(void *raw) {
    int thread = (int)(long)raw;
    for (int at = 0; at < count; at++) {
        while (turn < at || (turn == at && steps[at].thread != thread)) sched_yield();
        if (steps[at].thread != thread) continue;
        make(&steps[at]);
        turn = at + 1;
    }
    return NULL;
}

static void choose_access(struct step *step, int is_wide) {
    step->what = is_wide ? "ddwwfl"[rand() % 6] : "dddwwwfshcl"[rand() % 11];
    step->size = is_wide ? 8 : 1 << rand() % 4;
    step->at = rand() % (BYTES / step->size) * step->size;
    if (!is_wide && rand() % 8 == 0 && (step->what == 'd' || step->what == 'w')) step->at = rand() % (BYTES - 12), step->size = 9 + rand() % 4;
}

static void choose(struct step *step, int is_wide) {
    int thread = rand() % THREADS + 1, kind = rand() % 10, lock = rand() % LOCKS;
    step->thread = thread;
    if (kind < 5 && !owner[lock]) owner[lock] = thread, step->what = 'a', step->at = lock;
    else if (kind < 8 && owner[lock] == thread) owner[lock] = 0, step->what = 'r', step->at = lock;
    else choose_access(step, is_wide);
}

int main(int words, char **word) {
    pthread_t handles[THREADS + 1];
    if (words < 4 || (count = atoi(word[2])) > MOST) return 2;
    srand((unsigned)atoi(word[1]));
    for (int at = 0; at < LOCKS; at++) pthread_mutex_init(&locks[at], NULL);
    for (int at = 0; at < count; at++) choose(&steps[at], atoi(word[3]));
    for (int at = 1; at <= THREADS; at++) printf("0f%d\n", at);
    for (long at = 1; at <= THREADS; at++) pthread_create(&handles[at], NULL, run, (void *)at);
    for (long at = 1; at <= THREADS; at++) pthread_join(handles[at], NULL);
    for (int at = 1; at <= THREADS; at++) printf("0j%d\n", at);
    return 0;
}
