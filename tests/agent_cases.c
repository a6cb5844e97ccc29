/* The cases of the agent for pthreads.
 *
 *     agent_cases NAME
 *
 * Each case runs two threads. The first one acquires two locks in one order, later the second one in the other order; what is
 * between them differs. Steps, which the agent does not see, make the events of a case the same in every run. The comment at a
 * case has the trace that the agent must write. tests/agents compares it, and knows the number of cycles and of confirmed ones. */
#define _GNU_SOURCE
#include <errno.h>
#include <pthread.h>
#include <sched.h>
#include <semaphore.h>
#include <signal.h>
#include <stdatomic.h>
#include <stdio.h>
#include <stdlib.h>
#include <string.h>
#include <sys/mman.h>
#include <sys/wait.h>
#include <threads.h>
#include <time.h>
#include <unistd.h>

static pthread_mutex_t a = PTHREAD_MUTEX_INITIALIZER, b = PTHREAD_MUTEX_INITIALIZER, guard = PTHREAD_MUTEX_INITIALIZER;
static pthread_cond_t condition = PTHREAD_COND_INITIALIZER;
static pthread_rwlock_t gate = PTHREAD_RWLOCK_INITIALIZER;
static atomic_int step;

/* The steps of the cases are not those of a program: with hooks they would keep its threads apart. */
#if defined(HOOKS) && defined(__clang__)
#define HIDDEN __attribute__((disable_sanitizer_instrumentation, noinline))
#elif defined(HOOKS)
#define HIDDEN __attribute__((no_sanitize("thread"), noinline))
#else
#define HIDDEN
#endif
HIDDEN static void until(int number) { while (atomic_load(&step) < number) sched_yield(); }
HIDDEN static void next(void) { atomic_fetch_add(&step, 1); }

static void both(pthread_mutex_t *first, pthread_mutex_t *second) {
    pthread_mutex_lock(first);
    pthread_mutex_lock(second);
    pthread_mutex_unlock(second);
    pthread_mutex_unlock(first);
}

/* Two threads, which begin when both are created. */
static void *(*bodies[2])(void *);
static atomic_int can_begin;

HIDDEN static void *begins(void *raw) {
    while (!atomic_load(&can_begin)) sched_yield();
    return bodies[(long)raw](NULL);
}

HIDDEN static void create_two(pthread_t handles[2], void *(*first)(void *), void *(*second)(void *)) {
    bodies[0] = first, bodies[1] = second;
    atomic_store(&can_begin, 0);
    for (long at = 0; at < 2; at++) if (pthread_create(&handles[at], NULL, begins, (void *)at)) abort();
    atomic_store(&can_begin, 1);
}

HIDDEN static void run_two(void *(*first)(void *), void *(*second)(void *)) {
    pthread_t handles[2];
    create_two(handles, first, second);
    pthread_join(handles[1], NULL); /* the second one ends last, so the order of the joins is always the same */
    pthread_join(handles[0], NULL);
}

static struct timespec later(long milliseconds) {
    struct timespec time;
    clock_gettime(CLOCK_REALTIME, &time);
    time.tv_sec += milliseconds / 1000, time.tv_nsec += milliseconds % 1000 * 1000000;
    if (time.tv_nsec >= 1000000000) time.tv_sec++, time.tv_nsec -= 1000000000;
    return time;
}

/* blocking: 0f1 0f2 1a1 1a2 1r2 1r1 2a2 2a1 2r1 2r2 0j2 0j1 */
static void *a_then_b(void *unused) {
    both(&a, &b);
    next();
    return unused;
}

static void *b_then_a(void *unused) {
    until(1);
    both(&b, &a);
    return unused;
}

static void blocking(void) { run_two(a_then_b, b_then_a); }

/* gate_lock: 0f1 0f2 1a1 1a2 1a3 1r3 1r2 1r1 2a1 2a3 2a2 2r2 2r3 2r1 0j2 0j1 */
static void *guarded_first(void *unused) {
    pthread_mutex_lock(&guard);
    both(&a, &b);
    pthread_mutex_unlock(&guard);
    next();
    return unused;
}

static void *guarded_second(void *unused) {
    until(1);
    pthread_mutex_lock(&guard);
    both(&b, &a);
    pthread_mutex_unlock(&guard);
    return unused;
}

static void gate_lock(void) { run_two(guarded_first, guarded_second); }

/* tried: 0f1 0f2 1a1 1a2 1r2 1r1 2a2 2a3000000002 2a1 2r3000000002 2r1 2r2 2a1 2r1 0j2 0j1 */
static void *tries(void *unused) {
    until(1);
    pthread_mutex_lock(&b);
    if (pthread_mutex_trylock(&a)) abort();
    pthread_mutex_unlock(&a);
    pthread_mutex_unlock(&b);
    if (pthread_mutex_trylock(&a)) abort();
    pthread_mutex_unlock(&a);
    return unused;
}

static void tried(void) { run_two(a_then_b, tries); }

/* tried_and_blocking: 0f1 0f2 1a1 1a3000000001 1a2 1r3000000001 1r2 1r1 2a2 2a1 2r1 2r2 1a1 1a2 1r2 1r1 0j2 0j1 */
static void *tries_and_blocks(void *unused) {
    pthread_mutex_lock(&a);
    if (pthread_mutex_trylock(&b)) abort();
    pthread_mutex_unlock(&b);
    pthread_mutex_unlock(&a);
    next();
    until(2);
    both(&a, &b);
    next();
    return unused;
}

static void *blocks_between(void *unused) {
    until(1);
    both(&b, &a);
    next();
    until(3);
    return unused;
}

static void tried_and_blocking(void) { run_two(tries_and_blocks, blocks_between); }

/* timed: 0f1 0f2 1a1 1a2 1r2 1r1 2a2 2a3500000002 2a1 2r3500000002 2r1 2r2 0j2 0j1 */
static void *times_out(void *unused) {
    struct timespec time = later(10000);
    until(1);
    pthread_mutex_lock(&b);
    if (pthread_mutex_timedlock(&a, &time)) abort();
    pthread_mutex_unlock(&a);
    pthread_mutex_unlock(&b);
    return unused;
}

static void timed(void) { run_two(a_then_b, times_out); }

/* attempts: 0a1 0f1 0j1 0r1 */
static void *gets_nothing(void *unused) {
    struct timespec time = later(20);
    if (!pthread_mutex_trylock(&a) || !pthread_mutex_timedlock(&a, &time)) abort();
    return unused;
}

static void attempts(void) {
    pthread_t handle;
    pthread_mutex_lock(&a);
    if (pthread_create(&handle, NULL, gets_nothing, NULL)) abort();
    pthread_join(handle, NULL);
    pthread_mutex_unlock(&a);
}

/* semaphore: 0f1 0f2 1a1 1a2 1r2 1r1 1d1 1w1 2d1 2a2 2a1 2r1 2r2 0j2 0j1 */
static sem_t posted;

static void *posts(void *unused) {
    both(&a, &b);
    sem_post(&posted);
    return unused;
}

static void *waits(void *unused) {
    sem_wait(&posted);
    both(&b, &a);
    return unused;
}

static void semaphore(void) {
    sem_init(&posted, 0, 0);
    run_two(posts, waits);
}

/* two_posts: 0f1 0f2 1a1 1a2 1r2 1r1 1d1 1w1 0d1 0w1 2d1 2d1 2a2 2a1 2r1 2r2 0j2 0j1
 * The second thread needs both posts, and the first of them is before the locks are free. */
static void *posts_once(void *unused) {
    posts(unused);
    next();
    return unused;
}

static void *waits_twice(void *unused) {
    until(2);
    sem_wait(&posted);
    return waits(unused);
}

static void two_posts(void) {
    pthread_t handles[2];
    sem_init(&posted, 0, 0);
    create_two(handles, posts_once, waits_twice);
    until(1);
    sem_post(&posted);
    next();
    pthread_join(handles[1], NULL);
    pthread_join(handles[0], NULL);
}

/* woken: 0f1 0f2 1a1 1a2 1r2 1r1 2a3 2r3 1a3 1d1 1w1 1r3 2d1 2a3 2r3 2a2 2a1 2r1 2r2 0j2 0j1 */
static int is_ready;

static void *signals(void *unused) {
    both(&a, &b);
    next();
    until(2);
    pthread_mutex_lock(&guard);
    is_ready = 1;
    pthread_cond_signal(&condition);
    pthread_mutex_unlock(&guard);
    return unused;
}

static void *is_woken(void *unused) {
    until(1);
    pthread_mutex_lock(&guard);
    next();
    while (!is_ready) pthread_cond_wait(&condition, &guard);
    pthread_mutex_unlock(&guard);
    both(&b, &a);
    return unused;
}

static void woken(void) { run_two(signals, is_woken); }

/* barrier: the order of the arrivals is not fixed */
static pthread_barrier_t meeting;

static void *before_meeting(void *unused) {
    both(&a, &b);
    pthread_barrier_wait(&meeting);
    return unused;
}

static void *after_meeting(void *unused) {
    pthread_barrier_wait(&meeting);
    both(&b, &a);
    return unused;
}

static void barrier(void) {
    pthread_barrier_init(&meeting, NULL, 2);
    run_two(before_meeting, after_meeting);
}

/* once: 0f1 0f2 1a1 1a2 1r2 1r1 1d1 1w1 1d1 2d1 2a2 2a1 2r1 2r2 0j2 0j1 */
static pthread_once_t control = PTHREAD_ONCE_INIT;

static void initialise(void) { both(&a, &b); }

static void *initialises(void *unused) {
    pthread_once(&control, initialise);
    pthread_once(&control, initialise);
    next();
    return unused;
}

static void *comes_after(void *unused) {
    until(1);
    pthread_once(&control, initialise);
    both(&b, &a);
    pthread_once(&control, initialise);
    return unused;
}

static void once(void) { run_two(initialises, comes_after); }

/* joins_wanting: 0f1 1a2000000001 1a1 1r1 0a1 1r2000000001 0a2000000001 0r2000000001 0j1 0r1 */
static void *uses_a(void *unused) {
    pthread_mutex_lock(&a);
    pthread_mutex_unlock(&a);
    next();
    return unused;
}

static void joins_wanting(void) {
    pthread_t one;
    if (pthread_create(&one, NULL, uses_a, NULL)) abort();
    until(1);
    pthread_mutex_lock(&a);
    pthread_join(one, NULL);
    pthread_mutex_unlock(&a);
}

/* woken_holding: 0f1 0f2 1a2500000001 1a1 1r1 2a1 2a2 2r2 1a2 1r2500000001 1d1 1w1 1r2 2a2500000001 2r2500000001 2d1 2a2 2r2 2r1 0j2 0j1 */
static int can_go_on;

static void *uses_a_and_wakes(void *unused) {
    uses_a(unused);
    until(2);
    pthread_mutex_lock(&guard);
    can_go_on = 1;
    pthread_cond_signal(&condition);
    pthread_mutex_unlock(&guard);
    return unused;
}

static void *waits_with_a(void *unused) {
    until(1);
    pthread_mutex_lock(&a);
    pthread_mutex_lock(&guard);
    next();
    while (!can_go_on) pthread_cond_wait(&condition, &guard);
    pthread_mutex_unlock(&guard);
    pthread_mutex_unlock(&a);
    return unused;
}

static void woken_holding(void) { run_two(uses_a_and_wakes, waits_with_a); }

/* writers: 0f1 0f2 1a1 1a2 1a3 1a4 1r4 1r3 1w1 1r2 1r1 2a1 2a2 2a4 2a3 2r3 2r4 2w1 2r2 2r1 0j2 0j1 */
static void *writes_first(void *unused) {
    pthread_rwlock_wrlock(&gate);
    both(&a, &b);
    pthread_rwlock_unlock(&gate);
    next();
    return unused;
}

static void *writes_second(void *unused) {
    until(1);
    pthread_rwlock_wrlock(&gate);
    both(&b, &a);
    pthread_rwlock_unlock(&gate);
    return unused;
}

static void writers(void) { run_two(writes_first, writes_second); }

/* reader_then_writer: 0f1 0f2 1a2 1a3 1a4 1r4 1r3 1r2 2a1 2a5 2a2 2a4 2a3 2r3 2r4 2w1 2r5 2r2 2r1 0j2 0j1 */
static void *reads_first(void *unused) {
    pthread_rwlock_rdlock(&gate);
    both(&a, &b);
    pthread_rwlock_unlock(&gate);
    next();
    return unused;
}

static void reader_then_writer(void) { run_two(reads_first, writes_second); }

/* writer_then_reader: 0f1 0f2 1a1 1a2 1a3 1a4 1r4 1r3 1w1 1r2 1r1 2a2 2a4 2a3 2r3 2r4 2r2 0j2 0j1 */
static void *reads_second(void *unused) {
    until(1);
    pthread_rwlock_rdlock(&gate);
    both(&b, &a);
    pthread_rwlock_unlock(&gate);
    return unused;
}

static void writer_then_reader(void) { run_two(writes_first, reads_second); }

/* spins: 0f1 0f2 1a1 1a2 1r2 1r1 2a2 2a1 2r1 2r2 0j2 0j1 */
static pthread_spinlock_t spin_a, spin_b;

static void *spins_first(void *unused) {
    pthread_spin_lock(&spin_a), pthread_spin_lock(&spin_b);
    pthread_spin_unlock(&spin_b), pthread_spin_unlock(&spin_a);
    next();
    return unused;
}

static void *spins_second(void *unused) {
    until(1);
    pthread_spin_lock(&spin_b), pthread_spin_lock(&spin_a);
    pthread_spin_unlock(&spin_a), pthread_spin_unlock(&spin_b);
    return unused;
}

static void spins(void) {
    pthread_spin_init(&spin_a, 0), pthread_spin_init(&spin_b, 0);
    run_two(spins_first, spins_second);
}

/* c11: 0f1 0f2 1a1 1a2 1r2 1r1 2a2 2a1 2r1 2r2 0j2 0j1 */
static mtx_t c11_a, c11_b;

static int c11_first(void *unused) {
    until(1);
    mtx_lock(&c11_a), mtx_lock(&c11_b);
    mtx_unlock(&c11_b), mtx_unlock(&c11_a);
    next();
    return unused != NULL;
}

static int c11_second(void *unused) {
    until(2);
    mtx_lock(&c11_b), mtx_lock(&c11_a);
    mtx_unlock(&c11_a), mtx_unlock(&c11_b);
    return unused != NULL ? 1 : 5;
}

static void c11(void) {
    thrd_t first, second;
    int result = 0;
    mtx_init(&c11_a, mtx_plain), mtx_init(&c11_b, mtx_plain);
    thrd_create(&first, c11_first, NULL), thrd_create(&second, c11_second, NULL);
    next();
    thrd_join(second, &result), thrd_join(first, NULL);
    if (result != 5) abort();
}

/* recursive: 0a1 0a1 0a1 0r1 0r1 0r1 */
static void recursive(void) {
    pthread_mutex_t again;
    pthread_mutexattr_t attributes;
    pthread_mutexattr_init(&attributes);
    pthread_mutexattr_settype(&attributes, PTHREAD_MUTEX_RECURSIVE);
    pthread_mutex_init(&again, &attributes);
    for (int depth = 0; depth < 3; depth++) pthread_mutex_lock(&again);
    for (int depth = 0; depth < 3; depth++) pthread_mutex_unlock(&again);
}

/* handed: 0f1 1a1 0d1 0w1 1d1 1r1 0a1 0r1 0j1 */
static void *is_relieved(void *unused) {
    pthread_mutex_lock(&a);
    next();
    until(2);
    return unused;
}

static void handed(void) {
    pthread_t handle;
    if (pthread_create(&handle, NULL, is_relieved, NULL)) abort();
    until(1);
    pthread_mutex_unlock(&a);
    pthread_mutex_lock(&a);
    pthread_mutex_unlock(&a);
    next();
    pthread_join(handle, NULL);
}

/* kept: 0f1 0f2 1a1 1a2 1a3 1r3 1r2 1r1 2a1 2a3 2a2 2r2 2r3 2r1 0j2 0j1, and the same for kept_recursive and kept_robust
 * The second thread can neither release the first one's lock nor wait with it. */
static pthread_mutex_t owned;

static void *keeps(void *unused) {
    pthread_mutex_lock(&owned);
    next();
    until(2);
    both(&a, &b);
    pthread_mutex_unlock(&owned);
    next();
    return unused;
}

static void *cannot_release(void *unused) {
    struct timespec never = {0, -1};
    until(1);
    if (pthread_mutex_unlock(&owned) != EPERM || pthread_cond_wait(&condition, &owned) != EPERM) abort();
    next();
    until(3);
    pthread_mutex_lock(&owned);
    if (pthread_cond_timedwait(&condition, &owned, &never) != EINVAL) abort();
    both(&b, &a);
    pthread_mutex_unlock(&owned);
    if (pthread_mutex_unlock(&owned) != EPERM) abort();
    return unused;
}

static void make_owned(int type, int robustness) {
    pthread_mutexattr_t attributes;
    pthread_mutexattr_init(&attributes);
    pthread_mutexattr_settype(&attributes, type), pthread_mutexattr_setrobust(&attributes, robustness);
    pthread_mutex_init(&owned, &attributes);
}

static void kept(void) { make_owned(PTHREAD_MUTEX_ERRORCHECK, PTHREAD_MUTEX_STALLED), run_two(keeps, cannot_release); }
static void kept_recursive(void) { make_owned(PTHREAD_MUTEX_RECURSIVE, PTHREAD_MUTEX_STALLED), run_two(keeps, cannot_release); }
static void kept_robust(void) { make_owned(PTHREAD_MUTEX_NORMAL, PTHREAD_MUTEX_ROBUST), run_two(keeps, cannot_release); }

/* kept_c11: 0f1 0a1 0a1 0r1 0r1 0j1 */
static mtx_t c11_owned;
static cnd_t c11_condition;

static int cannot_release_c11(void *unused) {
    until(1);
    if (mtx_unlock(&c11_owned) != thrd_error || cnd_wait(&c11_condition, &c11_owned) != thrd_error) abort();
    next();
    return unused != NULL;
}

static void kept_c11(void) {
    thrd_t handle;
    mtx_init(&c11_owned, mtx_plain | mtx_recursive), cnd_init(&c11_condition);
    thrd_create(&handle, cannot_release_c11, NULL);
    mtx_lock(&c11_owned), next(), until(2);
    mtx_lock(&c11_owned), mtx_unlock(&c11_owned), mtx_unlock(&c11_owned);
    thrd_join(handle, NULL);
}

/* abandoned: 0f1 0f2 1a1 1a2 1r1 2a1 2a3 2r1 2a1 2r1 2r3 0j2 0j1 */
static void *ends_with_owned(void *unused) {
    pthread_mutex_lock(&owned);
    pthread_mutex_lock(&a);
    next();
    return unused;
}

static void *repairs(void *unused) {
    until(1);
    if (pthread_mutex_lock(&owned) != EOWNERDEAD) abort();
    pthread_mutex_consistent(&owned);
    pthread_mutex_lock(&b);
    pthread_mutex_unlock(&owned);
    if (pthread_mutex_lock(&owned) || pthread_mutex_unlock(&owned)) abort();
    pthread_mutex_unlock(&b);
    return unused;
}

static void abandoned(void) { make_owned(PTHREAD_MUTEX_NORMAL, PTHREAD_MUTEX_ROBUST), run_two(ends_with_owned, repairs); }

/* ended: 0f1 1a1 0j1 0a2 0r2 */
static void *ends_with_it(void *unused) {
    pthread_mutex_lock(&a);
    return unused;
}

static void ended(void) {
    pthread_t handle;
    if (pthread_create(&handle, NULL, ends_with_it, NULL)) abort();
    pthread_join(handle, NULL);
    pthread_mutex_unlock(&a);
    pthread_mutex_lock(&a);
    pthread_mutex_unlock(&a);
}

/* cancelled: 0f1 1a1 1r1 1a1 1r1 0j1, without the orders of the C library's own initialisations */
static void gives_back(void *mutex) { pthread_mutex_unlock(mutex); }

static void *waits_until_cancelled(void *unused) {
    pthread_mutex_lock(&guard);
    pthread_cleanup_push(gives_back, &guard);
    next();
    for (;;) pthread_cond_wait(&condition, &guard);
    pthread_cleanup_pop(1);
    return unused;
}

static void cancelled(void) {
    pthread_t handle;
    if (pthread_create(&handle, NULL, waits_until_cancelled, NULL)) abort();
    until(1);
    pthread_cancel(handle);
    pthread_join(handle, NULL);
}

/* processes: 0a1 0r1 */
static void processes(void) {
    pid_t child = fork();
    if (child == 0) {
        both(&a, &b);
        exit(0);
    }
    waitpid(child, NULL, 0);
    if (system("true")) abort();
    pthread_mutex_lock(&a);
    pthread_mutex_unlock(&a);
}

/* renewed: 0f1 0f2 1a1 1a2 1r2 1r1 2a3 2a1 2r1 2r3 0j2 0j1, and the same for freed, unmapped and left */
static pthread_mutex_t *reused;

static void *before_reuse(void *unused) {
    both(&a, reused);
    next();
    return unused;
}

static void *after_reuse(void *unused) {
    until(2);
    both(reused, &a);
    return unused;
}

static void reuse(void (*renew)(void)) {
    pthread_t handles[2];
    create_two(handles, before_reuse, after_reuse);
    until(1);
    renew();
    next();
    pthread_join(handles[1], NULL);
    pthread_join(handles[0], NULL);
}

static void destroy_and_init(void) { pthread_mutex_destroy(reused), pthread_mutex_init(reused, NULL); }

static void renewed(void) {
    reused = &b;
    reuse(destroy_and_init);
}

static void free_and_allocate(void) {
    void *before = reused;
    free(reused);
    reused = malloc(sizeof *reused); /* calloc() does not take from the thread's cache */
    if (reused != before) fprintf(stderr, "the allocator has not reused the memory\n");
    pthread_mutex_t fresh = PTHREAD_MUTEX_INITIALIZER;
    memcpy(reused, &fresh, sizeof fresh);
}

static void freed(void) {
    reused = calloc(1, sizeof *reused);
    reuse(free_and_allocate);
}

static void unmap_and_map(void) {
    munmap(reused, 4096);
    if (mmap(reused, 4096, PROT_READ | PROT_WRITE, MAP_PRIVATE | MAP_ANONYMOUS | MAP_FIXED, -1, 0) != (void *)reused) abort();
}

static void unmapped(void) {
    reused = mmap(NULL, 4096, PROT_READ | PROT_WRITE, MAP_PRIVATE | MAP_ANONYMOUS, -1, 0);
    reuse(unmap_and_map);
}

/* left: 0f1 1a1 1a2 1r2 1r1 0j1 0a3 0r3 0f2 2a4 2a1 2r1 2r4 0j2 */
static void *after_return(void *unused) {
    both(reused, &a);
    return unused;
}

static __attribute__((noinline)) void with_local(void *(*thread)(void *)) {
    pthread_mutex_t local = PTHREAD_MUTEX_INITIALIZER;
    pthread_t handle;
    reused = &local;
    if (pthread_create(&handle, NULL, thread, NULL)) abort();
    pthread_join(handle, NULL);
}

static void left(void) {
    with_local(before_reuse);
    pthread_mutex_lock(&guard); /* an event outside the function that had the lock */
    pthread_mutex_unlock(&guard);
    with_local(after_return);
}

/* many_held: locks beyond the server's limit of 32 */
static pthread_mutex_t many[40];

static void *holds_many(void *unused) {
    for (int round = 0; round < 2; round++) {
        for (int at = 0; at < 40; at++) pthread_mutex_lock(&many[at]);
        for (int at = 40; at-- > 0;) pthread_mutex_unlock(&many[at]);
    }
    next();
    return unused;
}

static void *one_then_zero(void *unused) {
    until(1);
    both(&many[1], &many[0]);
    both(&many[39], &many[38]);
    return unused;
}

static void many_held(void) { run_two(holds_many, one_then_zero); }

/* many_tried: as above, all but the first by trylock */
static void *tries_many(void *unused) {
    pthread_mutex_lock(&many[0]);
    for (int at = 1; at < 40; at++) if (pthread_mutex_trylock(&many[at])) abort();
    for (int at = 40; at-- > 0;) pthread_mutex_unlock(&many[at]);
    next();
    return unused;
}

static void many_tried(void) { run_two(tries_many, one_then_zero); }

/* many_threads: 1,200 threads at a time, then the two */
static void *lives(void *unused) {
    pthread_mutex_lock(&guard);
    pthread_mutex_unlock(&guard);
    next();
    until(1200);
    pthread_mutex_lock(&guard);
    pthread_mutex_unlock(&guard);
    return unused;
}

static void many_threads(void) {
    static pthread_t handles[1200];
    pthread_attr_t attributes;
    pthread_attr_init(&attributes);
    pthread_attr_setstacksize(&attributes, 65536);
    for (int at = 0; at < 1200; at++) if (pthread_create(&handles[at], &attributes, lives, NULL)) abort();
    for (int at = 0; at < 1200; at++) pthread_join(handles[at], NULL);
    atomic_store(&step, 0);
    blocking();
}

/* many_events: 1.2 million, then the two */
static void many_events(void) {
    for (int round = 0; round < 600000; round++) pthread_mutex_lock(&guard), pthread_mutex_unlock(&guard);
    blocking();
}

/* windows: with windows of 100 events. The first thread holds two locks over the ends of windows. */
static void *holds_long(void *unused) {
    pthread_mutex_lock(&a);
    pthread_mutex_lock(&b);
    next();
    until(2);
    pthread_mutex_unlock(&b);
    pthread_mutex_unlock(&a);
    both(&a, &b);
    next();
    return unused;
}

static void *ends_windows(void *unused) {
    until(1);
    for (int round = 0; round < 120; round++) pthread_mutex_lock(&guard), pthread_mutex_unlock(&guard);
    next();
    until(3);
    both(&b, &a);
    return unused;
}

static void windows(void) { run_two(holds_long, ends_windows); }

/* stopped: a handler stops two threads wherever they are, and the stopper uses locks and memory meanwhile, as a collector of
 * garbage does. Each stop allows each thread 500 more sections, so their number does not depend on the schedule. */
static pthread_t runners[2];
static atomic_int stopped_count, is_stopping, is_over, stops;

static void stop(int number) {
    int before = errno;
    atomic_fetch_add(&stopped_count, number == SIGUSR1);
    while (atomic_load(&is_stopping)) sched_yield();
    atomic_fetch_sub(&stopped_count, 1);
    errno = before;
}

static void *runs(void *raw) {
    pthread_mutex_t *own = raw;
    for (int sections = 0; !atomic_load(&is_over);)
        if (sections < 500 * atomic_load(&stops)) {
            pthread_mutex_lock(own);
            pthread_mutex_unlock(own);
            sections++;
        } else sched_yield();
    return NULL;
}

static void stopped(void) {
    struct sigaction action = {.sa_handler = stop, .sa_flags = SA_RESTART};
    sigaction(SIGUSR1, &action, NULL);
    if (pthread_create(&runners[0], NULL, runs, &a) || pthread_create(&runners[1], NULL, runs, &b)) abort();
    for (int round = 0; round < 300; round++) {
        atomic_fetch_add(&stops, 1);
        atomic_store(&is_stopping, 1);
        pthread_kill(runners[0], SIGUSR1), pthread_kill(runners[1], SIGUSR1);
        while (atomic_load(&stopped_count) < 2) sched_yield();
        for (int lock = 0; lock < 50; lock++) pthread_mutex_lock(&guard), pthread_mutex_unlock(&guard);
        atomic_store(&is_stopping, 0);
        while (atomic_load(&stopped_count) > 0) sched_yield();
    }
    atomic_store(&is_over, 1);
    pthread_join(runners[0], NULL), pthread_join(runners[1], NULL);
}

/* in_handler: a handler acquires a lock */
static void locks_in_handler(int number) {
    if (number == SIGUSR1) both(&a, &b);
}

static void in_handler(void) {
    struct sigaction action = {.sa_handler = locks_in_handler, .sa_flags = SA_RESTART};
    sigaction(SIGUSR1, &action, NULL);
    raise(SIGUSR1);
    for (int round = 0; round < 100000; round++) {
        pthread_mutex_lock(&guard);
        pthread_mutex_unlock(&guard);
        if (round % 100 == 0) raise(SIGUSR1);
    }
}

/* SIGALRM ends the program after 4 seconds, or after those of ALARM, if something else is to end it first. */
static void end_later(void) {
    const char *seconds = getenv("ALARM");
    alarm(seconds ? (unsigned)atoi(seconds) : 4);
}

/* deadlocks: a deadlock that happens. SIGALRM ends the program. */
static void *a_meets_b(void *unused) {
    pthread_mutex_lock(&a);
    next();
    until(2);
    pthread_mutex_lock(&b);
    return unused;
}

static void *b_meets_a(void *unused) {
    pthread_mutex_lock(&b);
    next();
    until(2);
    pthread_mutex_lock(&a);
    return unused;
}

static void deadlocks(void) {
    end_later();
    run_two(a_meets_b, b_meets_a);
}

/* waits_for_itself: a thread acquires its own lock again */
static void waits_for_itself(void) {
    end_later();
    pthread_mutex_lock(&a);
    pthread_mutex_lock(&a);
}

/* joins_holding: a thread waits for the end of one that waits for its lock */
static void *wants_a(void *unused) {
    pthread_mutex_lock(&a);
    return unused;
}

static void joins_holding(void) {
    pthread_t handle;
    end_later();
    pthread_mutex_lock(&a);
    if (pthread_create(&handle, NULL, wants_a, NULL)) abort();
    pthread_join(handle, NULL);
}

/* reads_and_waits: one thread reads and wants a lock, whose holder wants to write; another reader has come and gone */
static void *reads_then_a(void *unused) {
    pthread_rwlock_rdlock(&gate);
    next();
    until(2);
    pthread_mutex_lock(&a);
    return unused;
}

static void *a_then_writes(void *unused) {
    pthread_mutex_lock(&a);
    until(1);
    pthread_rwlock_rdlock(&gate);
    pthread_rwlock_unlock(&gate);
    next();
    pthread_rwlock_wrlock(&gate);
    return unused;
}

static void reads_and_waits(void) {
    alarm(30);
    run_two(reads_then_a, a_then_writes);
}

/* in_destructors: the functions of two threads have ended, and the destructors of their variables wait for each other */
static pthread_key_t key;

static void in_destructor(void *second) {
    next();
    until(2);
    pthread_mutex_lock(second);
}

static void *ends_with_a(void *unused) {
    pthread_mutex_lock(&a);
    pthread_setspecific(key, &b);
    return unused;
}

static void *ends_with_b(void *unused) {
    pthread_mutex_lock(&b);
    pthread_setspecific(key, &a);
    return unused;
}

static void in_destructors(void) {
    alarm(30);
    pthread_key_create(&key, in_destructor);
    run_two(ends_with_a, ends_with_b);
}

/* ---- each kind of ending, after the two orders ---- */

static void ends_by_exit(void) { blocking(), exit(7); }
static void ends_at_once(void) { blocking(), _exit(7); }
static void ends_quickly(void) { blocking(), quick_exit(7); }
static void ends_by_abort(void) { blocking(), abort(); }
static void ends_by_kill(void) { blocking(), raise(SIGKILL); }
static void ends_by_fault(void) { blocking(), raise(SIGSEGV); }
static void ends_thread(void) { blocking(), pthread_exit(NULL); }

static void closes_all(void) {
    for (int file = 3; file < 1024; file++) close(file);
    for (int file = 3; file < 40; file++) if (dup(1) < 0) break;
    blocking();
}

static void clears_environment(void) { clearenv(), blocking(), exit(7); }

static void changes_folder(void) {
    if (chdir("/")) abort();
    blocking();
}

static void changes_user(void) {
    if (getuid() == 0 && setuid(65534)) abort();
    blocking();
}

static void starts_another(void) {
    both(&a, &b);
    execl("/proc/self/exe", "agent_cases", "blocking", (char *)NULL);
    abort();
}

static void becomes_daemon(void) {
    pid_t child = fork();
    if (child) _exit(7);
    blocking();
}

#define CASES(X) \
    X(blocking) X(gate_lock) X(tried) X(tried_and_blocking) X(timed) X(attempts) X(semaphore) X(two_posts) X(woken) X(barrier) X(once) \
    X(writers) X(reader_then_writer) X(writer_then_reader) X(spins) X(c11) X(recursive) X(handed) \
    X(kept) X(kept_recursive) X(kept_robust) X(kept_c11) X(abandoned) X(ended) X(cancelled) X(processes) \
    X(renewed) X(freed) X(unmapped) X(left) X(many_held) X(many_tried) X(many_threads) X(many_events) X(windows) X(stopped) \
    X(joins_wanting) X(woken_holding) X(in_handler) X(deadlocks) X(waits_for_itself) X(joins_holding) X(reads_and_waits) X(in_destructors) \
    X(ends_by_exit) X(ends_at_once) X(ends_quickly) X(ends_by_abort) \
    X(ends_by_kill) X(ends_by_fault) X(ends_thread) X(closes_all) X(clears_environment) X(changes_folder) X(changes_user) \
    X(starts_another) X(becomes_daemon)

int main(int count, char **words) {
    const char *name = count > 1 ? words[1] : "";
#define RUN(case) if (!strcmp(name, #case)) { case(); return 0; }
    CASES(RUN)
    fprintf(stderr, "there is no case %s\n", name);
    return 2;
}
