/* Programs of two threads that take two locks in opposite orders. A value in memory lets the second thread go on or decides what it does. As
 * each case is, the value keeps the threads apart, so that no deadlock can happen; with the word `real` the value comes too early for that. The
 * second thread waits by a pipe, which no agent sees, until the first one has ended: so no deadlock happens. With the word `naps` it waits for
 * 60 ms at most.
 *
 * usage: value_cases CASE [real] [naps] */
#define _GNU_SOURCE
#include <linux/futex.h>
#include <poll.h>
#include <pthread.h>
#include <stdatomic.h>
#include <stdlib.h>
#include <string.h>
#include <sys/syscall.h>
#include <unistd.h>

static pthread_mutex_t one = PTHREAD_MUTEX_INITIALIZER, other = PTHREAD_MUTEX_INITIALIZER, third = PTHREAD_MUTEX_INITIALIZER;
static pthread_cond_t changed = PTHREAD_COND_INITIALIZER;
static int is_real, patience = -1;
static int ended[2]; /* a pipe that the first thread closes at its end */

static void nap(void) {
    struct pollfd end = {.fd = ended[0], .events = POLLIN};
    poll(&end, 1, patience);
}
static void lock(pthread_mutex_t *it) { pthread_mutex_lock(it); }
static void unlock(pthread_mutex_t *it) { pthread_mutex_unlock(it); }
static void nest(pthread_mutex_t *outer, pthread_mutex_t *inner) {
    lock(outer), lock(inner);
    unlock(inner), unlock(outer);
}

/* The first thread's work, and then what lets the second one go on; the other way round if the deadlock is real. */
#define WORK_THEN(step) do { if (!is_real) nest(&one, &other); step; if (is_real) nest(&one, &other); } while (0)
#define FIRST(name) static void name##_first(void)
#define SECOND(name) static void name##_second(void)

/* A flag under a lock of its own. */
static int is_done;
static int look(void) { lock(&third); int it = is_done; unlock(&third); return it; }
static void set(void) { lock(&third), is_done = 1, unlock(&third); }
FIRST(flag_under_lock) { WORK_THEN(set()); }
SECOND(flag_under_lock) { do nap(); while (!look()); nest(&other, &one); }

/* An atomic flag. */
static atomic_int flag;
FIRST(atomic_flag_set) { WORK_THEN(atomic_store_explicit(&flag, 1, memory_order_release)); }
SECOND(atomic_flag_set) { nap(); while (!atomic_load_explicit(&flag, memory_order_acquire)) continue; nest(&other, &one); }

/* A spin lock around both sections. */
static atomic_int spin;
static void enter(void) { while (atomic_exchange_explicit(&spin, 1, memory_order_acquire)) continue; }
static void leave(void) { atomic_store_explicit(&spin, 0, memory_order_release); }
FIRST(spin_gate) { enter(); WORK_THEN(leave()); }
SECOND(spin_gate) { nap(); enter(); if (is_real) leave(); nest(&other, &one); if (!is_real) leave(); }

/* A sequence lock around the value. */
static atomic_uint sequence, data;
static unsigned read_data(void) {
    for (;;) {
        unsigned before = atomic_load_explicit(&sequence, memory_order_acquire), value = atomic_load_explicit(&data, memory_order_acquire);
        if (before % 2 == 0 && before == atomic_load_explicit(&sequence, memory_order_relaxed)) return value;
    }
}
static void publish(void) {
    atomic_store_explicit(&data, 7, memory_order_relaxed);
    atomic_fetch_add_explicit(&sequence, 1, memory_order_release);
}
FIRST(sequence_lock) { atomic_fetch_add(&sequence, 1); WORK_THEN(publish()); }
SECOND(sequence_lock) { do nap(); while (read_data() != 7); nest(&other, &one); }

/* What is read under one lock decides whether the other one is taken. */
static int is_open;
FIRST(value_decides) {
    if (is_real) lock(&other), is_open = 1, unlock(&other);
    lock(&one), lock(&other);
    if (!is_real) is_open = 1;
    unlock(&other), unlock(&one);
}
SECOND(value_decides) {
    nap();
    lock(&other);
    if (is_open) lock(&one), unlock(&one);
    unlock(&other);
}

/* Double-checked initialisation. */
static _Atomic(int *) made;
static int *get(void) {
    int *now = atomic_load_explicit(&made, memory_order_acquire);
    if (now) return now;
    lock(&third);
    if (!(now = atomic_load_explicit(&made, memory_order_relaxed))) {
        if (!is_real) nest(&one, &other);
        now = malloc(sizeof *now), *now = 1;
        atomic_store_explicit(&made, now, memory_order_release);
    }
    unlock(&third);
    return now;
}
FIRST(double_checked) { get(); if (is_real) nest(&one, &other); }
SECOND(double_checked) { nap(); if (*get()) nest(&other, &one); }

/* A queue of atomics hands over an object with a lock. */
struct object { pthread_mutex_t lock; };
static _Atomic(struct object *) ring[4];
static atomic_uint head, tail;
static void push(struct object *it) {
    unsigned at = atomic_load(&tail);
    atomic_store_explicit(&ring[at % 4], it, memory_order_relaxed);
    atomic_store_explicit(&tail, at + 1, memory_order_release);
}
static struct object *pop(void) {
    while (atomic_load_explicit(&head, memory_order_relaxed) == atomic_load_explicit(&tail, memory_order_acquire)) nap();
    unsigned at = atomic_load(&head);
    struct object *it = atomic_load_explicit(&ring[at % 4], memory_order_relaxed);
    atomic_store_explicit(&head, at + 1, memory_order_release);
    return it;
}
FIRST(queue_of_atomics) {
    struct object *it = malloc(sizeof *it);
    pthread_mutex_init(&it->lock, NULL);
    if (!is_real) nest(&it->lock, &third);
    push(it);
    if (is_real) nest(&it->lock, &third);
}
SECOND(queue_of_atomics) { nap(); struct object *it = pop(); nest(&third, &it->lock); }

/* A flag that is only volatile. */
static volatile int seen;
FIRST(volatile_flag) { WORK_THEN(seen = 1); }
SECOND(volatile_flag) { nap(); while (!seen) continue; nest(&other, &one); }

/* A condition that is true already. */
static int is_ready;
static void signal_it(void) { lock(&third), is_ready = 1, pthread_cond_signal(&changed), unlock(&third); }
FIRST(condition_is_true) { WORK_THEN(signal_it()); }
SECOND(condition_is_true) {
    nap();
    lock(&third);
    while (!is_ready) pthread_cond_wait(&changed, &third);
    unlock(&third);
    nest(&other, &one);
}

/* The same, with a signal after the mutex was released. An earlier signal says nothing. The second thread looks at the condition before the last
 * one. Between the two it makes as many sections of another lock as the environment says. */
static int may_look[2], has_looked[2];
static void pass(int to) { if (write(to, "x", 1) != 1) _exit(9); }
static void await(int from) { char byte; if (read(from, &byte, 1) != 1) _exit(9); }
static void signal_early(void) { lock(&third), pthread_cond_signal(&changed), unlock(&third); }
static void signal_late(void) {
    lock(&third), is_ready = 1, unlock(&third);
    pass(may_look[1]), await(has_looked[0]);
    pthread_cond_signal(&changed);
}
FIRST(signal_after_unlock) { signal_early(); WORK_THEN(signal_late()); }
SECOND(signal_after_unlock) {
    static pthread_mutex_t busy = PTHREAD_MUTEX_INITIALIZER;
    const char *sections = getenv("SECTIONS");
    await(may_look[0]);
    lock(&third);
    while (!is_ready) pthread_cond_wait(&changed, &third);
    unlock(&third);
    for (int left = sections ? atoi(sections) : 0; left > 0; left--) lock(&busy), unlock(&busy);
    pass(has_looked[1]);
    nap();
    nest(&other, &one);
}

/* A lock by futex around both sections. */
static atomic_int word; /* 0 free, 1 held, 2 held and waited for */
static void futex_enter(void) {
    int now = 0;
    if (atomic_compare_exchange_strong(&word, &now, 1)) return;
    while (atomic_exchange(&word, 2)) syscall(SYS_futex, &word, FUTEX_WAIT_PRIVATE, 2, NULL, NULL, 0);
}
static void futex_leave(void) {
    if (atomic_exchange(&word, 0) == 2) syscall(SYS_futex, &word, FUTEX_WAKE_PRIVATE, 1, NULL, NULL, 0);
}
FIRST(futex_gate) { futex_enter(); WORK_THEN(futex_leave()); }
SECOND(futex_gate) { nap(); futex_enter(); if (is_real) futex_leave(); nest(&other, &one); if (!is_real) futex_leave(); }

/* A turn that is taken by compare and exchange, and a text that it publishes. */
static char *shown;
static atomic_int turn;
static void show(void) { shown = strdup("shown"), atomic_exchange(&turn, 1); }
FIRST(exchanged_turn) { WORK_THEN(show()); }
SECOND(exchanged_turn) {
    int expected = 1;
    nap();
    while (!atomic_compare_exchange_weak(&turn, &expected, 2)) expected = 1;
    if (shown[0] == 's') nest(&other, &one);
}

/* A pipe: no access of memory. */
static int ends[2];
FIRST(pipe_hands_over) { WORK_THEN(if (write(ends[1], "x", 1) != 1) _exit(9)); }
SECOND(pipe_hands_over) { char byte; nap(); if (read(ends[0], &byte, 1) == 1) nest(&other, &one); }

/* Balances under both locks, in rounds; a spin lock around all. */
static int balances[2] = {100, 100};
static void transfer(int from, int amount) {
    if (!is_real) enter();
    lock(from ? &other : &one), lock(from ? &one : &other);
    if (balances[from] >= amount) balances[from] -= amount, balances[1 - from] += amount;
    unlock(from ? &one : &other), unlock(from ? &other : &one);
    if (!is_real) leave();
}
FIRST(bank_in_rounds) { for (int round = 0; round < 5; round++) transfer(0, 3); }
SECOND(bank_in_rounds) { nap(); for (int round = 0; round < 5; round++) transfer(1, 5); }

/* A gate lock around both sections if they must not meet; in each section a counter, which decides nothing. */
static int count;
static void gate(void (*call)(pthread_mutex_t *)) { if (!is_real) call(&third); }
FIRST(counter_inside) { gate(lock); lock(&one), lock(&other), count++, unlock(&other), unlock(&one); gate(unlock); }
SECOND(counter_inside) { nap(); gate(lock); lock(&other), count++, lock(&one), unlock(&one), unlock(&other); gate(unlock); }

/* The same with a spin lock that is held for a moment in each section. */
FIRST(spin_inside) { gate(lock); lock(&one), lock(&other), enter(), leave(), unlock(&other), unlock(&one); gate(unlock); }
SECOND(spin_inside) { nap(); gate(lock); lock(&other), enter(), leave(), lock(&one), unlock(&one), unlock(&other); gate(unlock); }

/* The same with a spin lock that is annotated. */
#if defined(HOOKS)
void __tsan_mutex_pre_lock(void *, unsigned), __tsan_mutex_post_lock(void *, unsigned, int), __tsan_mutex_post_unlock(void *, unsigned);
int __tsan_mutex_pre_unlock(void *, unsigned);
#else
#define __tsan_mutex_pre_lock(lock, flags)
#define __tsan_mutex_post_lock(lock, flags, depth)
#define __tsan_mutex_pre_unlock(lock, flags)
#define __tsan_mutex_post_unlock(lock, flags)
#endif
static atomic_int spins[2];
static void take(int at) {
    __tsan_mutex_pre_lock(&spins[at], 0);
    while (atomic_exchange(&spins[at], 1)) continue;
    __tsan_mutex_post_lock(&spins[at], 0, 0);
}
static void give(int at) {
    __tsan_mutex_pre_unlock(&spins[at], 0);
    atomic_store(&spins[at], 0);
    __tsan_mutex_post_unlock(&spins[at], 0);
}
FIRST(annotated_inside) { gate(lock); lock(&one), lock(&other), take(0), give(0), unlock(&other), unlock(&one); gate(unlock); }
SECOND(annotated_inside) { nap(); gate(lock); lock(&other), take(0), give(0), lock(&one), unlock(&one), unlock(&other); gate(unlock); }

/* A mutex and an annotated spin lock in opposite orders; an annotated spin lock around both. */
FIRST(annotated_member) { if (!is_real) take(1); lock(&one), take(0), give(0), unlock(&one); if (!is_real) give(1); }
SECOND(annotated_member) { nap(); if (!is_real) take(1); take(0), lock(&one), unlock(&one), give(0); if (!is_real) give(1); }

/* A lock in assembly, of which the compilers tell nothing. */
static volatile int hidden;
static int swap(int to) { __asm__ volatile("xchgl %0, %1" : "+r"(to), "+m"(hidden) : : "memory"); return to; }
static void hidden_enter(void) { while (swap(1)) continue; }
FIRST(lock_in_assembly) { hidden_enter(); WORK_THEN(swap(0)); }
SECOND(lock_in_assembly) { nap(); hidden_enter(); if (is_real) swap(0); nest(&other, &one); if (!is_real) swap(0); }

/* A text that functions of the C library write and compare. */
static char state[16] = "begun";
static void set_text(void) { char *to = state; lock(&third), strcpy(to, "done"), unlock(&third); }
static int is_text_done(void) { lock(&third); int it = !strcmp(state, "done"); unlock(&third); return it; }
FIRST(text_compared) { WORK_THEN(set_text()); }
SECOND(text_compared) { do nap(); while (!is_text_done()); nest(&other, &one); }

#define CASES(X) X(flag_under_lock) X(atomic_flag_set) X(spin_gate) X(sequence_lock) X(value_decides) X(double_checked) X(queue_of_atomics) \
    X(volatile_flag) X(condition_is_true) X(signal_after_unlock) X(futex_gate) X(exchanged_turn) X(pipe_hands_over) X(bank_in_rounds) \
    X(counter_inside) X(spin_inside) X(annotated_inside) X(annotated_member) X(lock_in_assembly) X(text_compared)
#define LISTED(name) {#name, name##_first, name##_second},
static const struct { const char *name; void (*first)(void), (*second)(void); } cases[] = {CASES(LISTED)};
static int chosen;
static void *run_first(void *unused) { cases[chosen].first(); close(ended[1]); return unused; }
static void *run_second(void *unused) { cases[chosen].second(); return unused; }

int main(int words, char **word) {
    pthread_t first, second;
    if (words < 2 || pipe(ends) || pipe(ended) || pipe(may_look) || pipe(has_looked)) return 2;
    is_real = words > 2 && !strcmp(word[2], "real");
    if (!strcmp(word[words - 1], "naps")) patience = 60;
    while (strcmp(cases[chosen].name, word[1])) if (++chosen == sizeof cases / sizeof *cases) return 2;
    pthread_create(&first, NULL, run_first, NULL);
    pthread_create(&second, NULL, run_second, NULL);
    pthread_join(first, NULL);
    pthread_join(second, NULL);
    return 0;
}
