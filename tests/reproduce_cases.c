/* The cases of `goodlock --reproduce`.
 *
 *     reproduce_cases NAME
 *
 * Each case has a cycle of two locks, mostly between the threads `first` and `second`. With ORDERED in the environment, as in the run that is
 * recorded, steps which the agent does not see make the events the same in every run, and keep the threads apart. Without it there are no
 * steps: then only the agent brings the threads into their order. */
#define _GNU_SOURCE
#include <errno.h>
#include <pthread.h>
#include <sched.h>
#include <semaphore.h>
#include <stdatomic.h>
#include <stdio.h>
#include <stdlib.h>
#include <string.h>
#include <threads.h>
#include <time.h>
#include <unistd.h>

#define MUTEX PTHREAD_MUTEX_INITIALIZER

static pthread_mutex_t a = MUTEX, b = MUTEX, c = MUTEX, d = MUTEX;
static pthread_cond_t condition = PTHREAD_COND_INITIALIZER;
static int is_ordered, value;
static atomic_int step;

static void until(int number) { while (is_ordered && atomic_load(&step) < number) sched_yield(); }
static void next(void) { atomic_fetch_add(&step, 1); }

#define lock(it) pthread_mutex_lock(it)
#define unlock(it) pthread_mutex_unlock(it)
static void use(pthread_mutex_t *it) { lock(it), unlock(it); }

static void both(pthread_mutex_t *outer, pthread_mutex_t *inner) {
    lock(outer), lock(inner);
    value++;
    unlock(inner), unlock(outer);
}

static pthread_t start(void *(*body)(void *), void *argument) {
    pthread_t handle;
    if (pthread_create(&handle, NULL, body, argument)) abort();
    return handle;
}

static void run_all(int count, void *(*const bodies[])(void *)) {
    pthread_t handles[8];
    for (int at = 0; at < count; at++) handles[at] = start(bodies[at], NULL);
    for (int at = 0; at < count; at++) pthread_join(handles[at], NULL);
}
#define BODY(name) static void *name(void *raw __attribute__((unused)))
#define RUN(...) run_all(sizeof (void *[]){__VA_ARGS__} / sizeof(void *), (void *(*const[])(void *)){__VA_ARGS__})

/* The two members, where nothing else is to do before their locks. */
BODY(forward) { both(&a, &b); next(); return NULL; }
BODY(backward) { until(1); both(&b, &a); return NULL; }

/* ---- hand-overs ---- */

/* A member gets stuck where its wait on a condition acquires the lock again. */
BODY(waits_within) {
    lock(&a), lock(&b);
    next();
    while (!value) pthread_cond_wait(&condition, &b);
    unlock(&b), unlock(&a);
    next();
    return NULL;
}
BODY(wakes) {
    until(1);
    lock(&b), value = 1, pthread_cond_signal(&condition), unlock(&b);
    until(2);
    lock(&b), lock(&a), unlock(&a), unlock(&b);
    return NULL;
}
static void condition_within(void) { RUN(waits_within, wakes); }

/* Two jobs are handed over by conditions before the locks. */
static int jobs;
static pthread_cond_t taken = PTHREAD_COND_INITIALIZER;
BODY(consumes) {
    for (int at = 0; at < 2; at++) {
        lock(&c);
        while (!jobs) pthread_cond_wait(&condition, &c);
        jobs--, pthread_cond_signal(&taken);
        unlock(&c);
    }
    return backward(NULL);
}
BODY(produces) {
    for (int at = 0; at < 2; at++) {
        lock(&c);
        jobs++, pthread_cond_signal(&condition);
        while (jobs) pthread_cond_wait(&taken, &c);
        unlock(&c);
    }
    return forward(NULL);
}
static void conditions(void) { RUN(consumes, produces); }

/* One of the two semaphores has a token at the start: its first receive makes no event. */
static sem_t gate, begin;
BODY(posts) { sem_wait(&gate), use(&a), sem_post(&gate), sem_post(&begin); return forward(NULL); }
BODY(receives) { sem_wait(&begin), sem_wait(&gate), sem_post(&gate); return backward(NULL); }
static void semaphores(void) { sem_init(&gate, 0, 1), sem_init(&begin, 0, 0), RUN(posts, receives); }

static pthread_barrier_t meeting;
static void meet(void) { pthread_barrier_wait(&meeting), use(&c), pthread_barrier_wait(&meeting); }
BODY(meets_forward) { meet(); return forward(NULL); }
BODY(meets_backward) { meet(); return backward(NULL); }
BODY(meets) { meet(); return NULL; }
static void barrier(void) { pthread_barrier_init(&meeting, NULL, 3), RUN(meets_forward, meets_backward, meets); }

/* The routine of a once has a lock; the cycle has a recursive mutex and a spin lock. */
static pthread_once_t once_control = PTHREAD_ONCE_INIT;
static pthread_mutex_t recursive;
static pthread_spinlock_t spin;
static void set_up(void) {
    pthread_mutexattr_t kind;
    pthread_mutexattr_init(&kind), pthread_mutexattr_settype(&kind, PTHREAD_MUTEX_RECURSIVE);
    pthread_mutex_init(&recursive, &kind), pthread_spin_init(&spin, 0), use(&c);
}
BODY(sets_up) {
    pthread_once(&once_control, set_up);
    lock(&recursive), lock(&recursive), pthread_spin_lock(&spin), pthread_spin_unlock(&spin), unlock(&recursive), unlock(&recursive);
    next();
    return NULL;
}
BODY(finds_set_up) {
    until(1);
    pthread_once(&once_control, set_up);
    pthread_spin_lock(&spin), lock(&recursive), unlock(&recursive), pthread_spin_unlock(&spin);
    return NULL;
}
static void once(void) { RUN(sets_up, finds_set_up); }

static pthread_rwlock_t shared = PTHREAD_RWLOCK_INITIALIZER;
BODY(reads) { pthread_rwlock_rdlock(&shared), pthread_rwlock_unlock(&shared), next(); return NULL; }
BODY(writes) {
    until(1);
    pthread_rwlock_wrlock(&shared), use(&a), pthread_rwlock_unlock(&shared), next();
    return NULL;
}
BODY(writes_within) {
    until(2);
    lock(&a), pthread_rwlock_wrlock(&shared), pthread_rwlock_unlock(&shared), unlock(&a);
    return NULL;
}
static void writers(void) { RUN(reads, writes, writes_within); }

/* A reader or a writer is stuck within the lock, and another thread outside. */
static void around(int (*acquire)(pthread_rwlock_t *)) { acquire(&shared), use(&a), pthread_rwlock_unlock(&shared); }
static void under(int (*acquire)(pthread_rwlock_t *)) {
    lock(&a), acquire(&shared);
    pthread_rwlock_unlock(&shared), unlock(&a);
}
BODY(reads_around) { around(pthread_rwlock_rdlock), next(); return NULL; }
BODY(writes_around) { around(pthread_rwlock_wrlock), next(); return NULL; }
BODY(reads_under) { until(1), under(pthread_rwlock_rdlock); return NULL; }
BODY(writes_under) { until(1), under(pthread_rwlock_wrlock); return NULL; }
static void reader_within(void) { RUN(reads_around, writes_under); }
static void reader_outside(void) { RUN(writes_around, reads_under); }

/* The second member is started by a thread that joins another one before. */
static pthread_t second_member;
BODY(prepares) { use(&c); return NULL; }
BODY(starts) { pthread_join(start(prepares, NULL), NULL), use(&c), second_member = start(backward, NULL); return NULL; }
static void forks(void) { RUN(forward, starts), pthread_join(second_member, NULL); }

static mtx_t outer, inner;
static int c11_forward(void *raw __attribute__((unused))) {
    mtx_lock(&outer), mtx_lock(&inner), mtx_unlock(&inner), mtx_unlock(&outer), next();
    return 0;
}
static int c11_backward(void *raw __attribute__((unused))) {
    until(1);
    mtx_lock(&inner), mtx_lock(&outer), mtx_unlock(&outer), mtx_unlock(&inner);
    return 0;
}
static void c11(void) {
    thrd_t one, two;
    mtx_init(&outer, mtx_plain), mtx_init(&inner, mtx_plain);
    if (thrd_create(&one, c11_forward, NULL) || thrd_create(&two, c11_backward, NULL)) abort();
    thrd_join(one, NULL), thrd_join(two, NULL);
}

/* A holder of a lock joins a thread that wants the lock. */
BODY(takes_a) { use(&a), next(); return NULL; }
static void joined(void) {
    pthread_t handle = start(takes_a, NULL);
    until(1), lock(&a);
    pthread_join(handle, NULL), unlock(&a);
}

/* ---- attempts ---- */

/* The cycle is only in the branch of an attempt that has failed. */
BODY(holds) { lock(&c), next(), until(2), unlock(&c), next(); return NULL; }
BODY(fails_to_take) {
    until(1);
    if (pthread_mutex_trylock(&c) == 0) { unlock(&c); return NULL; }
    next(), until(4);
    both(&b, &a);
    return NULL;
}
BODY(takes_later) { until(3), both(&a, &b), next(); return NULL; }
static void fails(void) { RUN(holds, fails_to_take, takes_later); }

/* Attempts that succeed, with and without a lock held, and one that fails as often as the lock is held. */
BODY(tries) {
    until(1);
    while (pthread_mutex_trylock(&c)) next(), usleep(1000);
    unlock(&c);
    lock(&c);
    if (pthread_mutex_trylock(&d) == 0) unlock(&d);
    unlock(&c);
    until(4);
    both(&b, &a);
    return NULL;
}
BODY(is_tried) { lock(&c), next(), until(2), unlock(&c), both(&a, &b), atomic_store(&step, 4); return NULL; }
static void attempts(void) { RUN(is_tried, tries); }

/* ---- other rounds, other threads ---- */

/* How many rounds each thread makes differs by run. */
static int rounds_of(int run) { return is_ordered ? run : 7 - run; }
BODY(rounds_forward) { for (int at = rounds_of(3); at; at--) use(&c); return forward(NULL); }
BODY(rounds_backward) { for (int at = rounds_of(5); at; at--) use(&c); return backward(NULL); }
static void rounds(void) { RUN(rounds_forward, rounds_backward); }

/* Two workers take jobs from a queue; two of the jobs take the locks. Which worker gets which job depends on the run. */
enum { JOBS = 8, END = -1 };
static int queue[JOBS + 1], head, tail;
static void work_on(int job) {
    if (job == 2) both(&a, &b);
    else if (job == 5) both(&b, &a);
    else use(&d);
}
static void *works(void *raw) {
    for (int turn = (int)(long)raw;; turn += 2) {
        until(turn);
        lock(&c);
        while (head == tail) pthread_cond_wait(&condition, &c);
        int job = queue[head];
        if (job != END) head++;
        unlock(&c);
        if (job == END) return next(), NULL;
        work_on(job), next();
    }
}
static void pool(void) {
    pthread_t workers[2];
    for (long at = 0; at < 2; at++) workers[at] = start(works, (void *)at);
    for (int at = 0; at <= JOBS; at++) {
        lock(&c), queue[tail++] = at == JOBS ? END : at, pthread_cond_signal(&condition), unlock(&c);
        if (!is_ordered) usleep(500);
    }
    lock(&c), pthread_cond_broadcast(&condition), unlock(&c);
    for (int at = 0; at < 2; at++) pthread_join(workers[at], NULL);
}

/* A thread outside the witness sets what a member reads: under a lock, and as a flag which the agent does not see. */
static atomic_int flag;
BODY(sets) { use(&c), lock(&c), value = 1, atomic_store(&flag, 1), unlock(&c), next(); return NULL; }
BODY(forward_after) { until(1), both(&a, &b), next(); return NULL; }
BODY(reads_value) {
    until(2), lock(&c);
    int is_set = value;
    unlock(&c);
    if (is_set) both(&b, &a);
    return NULL;
}
BODY(waits_for_flag) {
    while (!flag) usleep(100);
    until(2), both(&b, &a);
    return NULL;
}
static void outsider_value(void) { RUN(sets, forward_after, reads_value); }
static void outsider_flag(void) { RUN(forward_after, waits_for_flag, sets); }

/* Locks on the heap, made and freed many times: addresses are used again. */
struct node { pthread_mutex_t mutex; };
static struct node *one, *two;
static struct node *new_node(void) {
    struct node *node = malloc(sizeof *node);
    pthread_mutex_init(&node->mutex, NULL);
    return node;
}
static void drop(struct node *node) { use(&node->mutex), pthread_mutex_destroy(&node->mutex), free(node); }
BODY(makes) { for (int at = 0; at < 50; at++) drop(new_node()); both(&one->mutex, &two->mutex), next(); return NULL; }
BODY(makes_more) {
    for (int at = 0; at < 50; at++) {
        struct node *other = new_node();
        drop(new_node()), drop(other);
    }
    until(1), both(&two->mutex, &one->mutex);
    return NULL;
}
static void heap(void) { one = new_node(), two = new_node(), RUN(makes, makes_more), drop(one), drop(two); }

/* The cycle comes after many hand-overs: with --window 200 in a later window. */
enum { HAND_OVERS = 60 };
static void hand_over(int at, int me) {
    until(2 * at + me);
    lock(&c);
    while (jobs != me) pthread_cond_wait(&condition, &c);
    jobs = 1 - me, pthread_cond_signal(&condition);
    unlock(&c), use(&d), next();
}
BODY(late_forward) { for (int at = 0; at < HAND_OVERS; at++) hand_over(at, 0); until(2 * HAND_OVERS); return forward(NULL); }
BODY(late_backward) {
    for (int at = 0; at < HAND_OVERS; at++) hand_over(at, 1);
    until(2 * HAND_OVERS + 1), both(&b, &a);
    return NULL;
}
static void late(void) { RUN(late_forward, late_backward); }

/* The members are in different windows with --window 200: a third thread, which is none, has 600 events between them. */
BODY(between) { until(1); for (int at = 0; at < 300; at++) use(&c); next(); return NULL; }
BODY(backward_after) { until(2); both(&b, &a); return NULL; }
static void apart(void) { RUN(forward, between, backward_after); }

/* The main thread joins nobody and ends the program. */
BODY(backward_last) { backward(NULL), next(); return NULL; }
static void no_join(void) { start(forward, NULL), start(backward_last, NULL), until(2); }

/* ---- no witness ---- */

/* The second member waits until somebody says that it may: in the recorded run the first one, after its locks. */
static void say(void) { lock(&c), value = 1, pthread_cond_broadcast(&condition), unlock(&c); }
BODY(says) { until(1), both(&a, &b), say(), next(); return NULL; }
BODY(is_told) {
    lock(&c), next();
    while (!value) pthread_cond_wait(&condition, &c);
    unlock(&c), both(&b, &a);
    return NULL;
}
static void told(void) {
    pthread_t first = start(says, NULL), second = start(is_told, NULL);
    until(2), say();
    pthread_join(first, NULL), pthread_join(second, NULL);
}

/* A semaphore orders the two members by design. */
BODY(posts_after) { both(&a, &b), sem_post(&begin); return NULL; }
BODY(receives_before) { sem_wait(&begin), both(&b, &a); return NULL; }
static void designed(void) { sem_init(&begin, 0, 0), RUN(posts_after, receives_before); }

/* ---- confirmed, and false ---- */

/* The second thread takes its locks only if it reads what the first one writes after its own. */
BODY(writes_after) { both(&a, &b), lock(&c), value = 100, unlock(&c), next(); return NULL; }
BODY(reads_before) {
    until(1), lock(&c);
    int is_done = value >= 100;
    unlock(&c);
    if (is_done) both(&b, &a);
    else puts("nothing to do");
    return NULL;
}
static void false_value(void) { RUN(writes_after, reads_before), puts("end"), exit(7); }

/* It waits for a flag that the first one sets after its locks. */
BODY(sets_after) { both(&a, &b), flag = 1; return NULL; }
BODY(waits_before) {
    while (!flag) usleep(1000);
    both(&b, &a);
    return NULL;
}
static void false_flag(void) { RUN(sets_after, waits_before), puts("end"), exit(7); }

/* As false_value; but in the other branch two threads take two other locks, which is a deadlock. */
static atomic_int has_c, has_d;
BODY(deadlocks_after) {
    both(&a, &b), next();
    flag = 1;
    if (is_ordered) return NULL;
    lock(&d), has_d = 1;
    while (!has_c) usleep(100);
    lock(&c);
    return NULL;
}
BODY(deadlocks_instead) {
    until(1);
    if (flag) return both(&b, &a), NULL;
    lock(&c), has_c = 1;
    while (!has_d) usleep(100);
    lock(&d);
    return NULL;
}
static void another(void) { RUN(deadlocks_after, deadlocks_instead); }

#define CASES(X) \
    X(condition_within) X(conditions) X(semaphores) X(barrier) X(once) X(writers) X(reader_within) X(reader_outside) X(forks) X(c11) X(fails) \
    X(attempts) X(rounds) X(pool) X(joined) X(outsider_value) X(outsider_flag) X(heap) X(late) X(apart) X(no_join) X(told) X(designed) X(false_value) X(false_flag) X(another)

int main(int count, char **words) {
    const char *name = count > 1 ? words[1] : "";
    is_ordered = getenv("ORDERED") != NULL;
#define RUN_CASE(case) if (!strcmp(name, #case)) { case(); return 0; }
    CASES(RUN_CASE)
    fprintf(stderr, "there is no case %s\n", name);
    return 2;
}
