/* Cases of reader-writer locks for the agent for pthreads.
 *
 *     agent_readers NAME
 *
 * Each case runs a few threads, one after another: a thread goes on when the one before it has done all its work, so the events of a case are
 * the same in every run. tests/agents knows the number of cycles and of confirmed ones. */
#define _GNU_SOURCE
#include <pthread.h>
#include <sched.h>
#include <stdatomic.h>
#include <stdio.h>
#include <stdlib.h>
#include <string.h>
#include <time.h>

enum { MANY = 12 };
static pthread_rwlock_t gate = PTHREAD_RWLOCK_INITIALIZER, preferring = PTHREAD_RWLOCK_WRITER_NONRECURSIVE_INITIALIZER_NP;
static pthread_mutex_t a = PTHREAD_MUTEX_INITIALIZER, b = PTHREAD_MUTEX_INITIALIZER;
static void (*bodies[MANY])(void);
static pthread_t handles[MANY];
static atomic_int done, can_end;
static int count;

static void *begin(void *raw) {
    long number = (long)raw;
    while (atomic_load(&done) < number) sched_yield();
    bodies[number]();
    atomic_fetch_add(&done, 1);
    while (!atomic_load(&can_end)) sched_yield();
    return NULL;
}

/* All of them are there until the last one has done its work. */
static void run(void) {
    for (long at = 0; at < count; at++) if (pthread_create(&handles[at], NULL, begin, (void *)at)) abort();
    while (atomic_load(&done) < count) sched_yield();
    atomic_store(&can_end, 1);
    for (int at = 0; at < count; at++) pthread_join(handles[at], NULL);
}

static void add(void (*body)(void)) { bodies[count++] = body; }
static void run_two(void (*first)(void), void (*second)(void)) { add(first), add(second), run(); }
static void run_three(void (*first)(void), void (*second)(void), void (*third)(void)) { add(first), add(second), add(third), run(); }

static void check(int error) {
    if (error) { fprintf(stderr, "%s\n", strerror(error)); abort(); }
}

static struct timespec later(void) {
    struct timespec time;
    clock_gettime(CLOCK_REALTIME, &time);
    time.tv_sec += 100;
    return time;
}

static void end(pthread_rwlock_t *lock) { check(pthread_rwlock_unlock(lock)); }
static void both(pthread_mutex_t *first, pthread_mutex_t *second) {
    pthread_mutex_lock(first), pthread_mutex_lock(second);
    pthread_mutex_unlock(second), pthread_mutex_unlock(first);
}

static void under(int (*acquire)(pthread_rwlock_t *), pthread_rwlock_t *lock, pthread_mutex_t *mutex) {
    pthread_mutex_lock(mutex);
    check(acquire(lock)), end(lock);
    pthread_mutex_unlock(mutex);
}

static void around(int (*acquire)(pthread_rwlock_t *), pthread_rwlock_t *lock, pthread_mutex_t *mutex) {
    check(acquire(lock));
    pthread_mutex_lock(mutex), pthread_mutex_unlock(mutex);
    end(lock);
}

static void reads(void) { check(pthread_rwlock_rdlock(&gate)), end(&gate); }
static void writes(void) { check(pthread_rwlock_wrlock(&gate)), end(&gate); }
static void reads_then_a(void) { around(pthread_rwlock_rdlock, &gate, &a); }
static void writes_then_a(void) { around(pthread_rwlock_wrlock, &gate, &a); }
static void a_then_reads(void) { under(pthread_rwlock_rdlock, &gate, &a); }
static void a_then_writes(void) { under(pthread_rwlock_wrlock, &gate, &a); }

/* A reader or writer that wants a mutex, and a thread that has the mutex and wants to write or read. */
static void reader_writer(void) { run_two(reads_then_a, a_then_writes); }
static void writer_reader(void) { run_two(a_then_writes, reads_then_a); }
static void writer_holds(void) { run_two(writes_then_a, a_then_reads); }
static void reader_waits(void) { run_two(a_then_reads, writes_then_a); }
static void two_writers(void) { run_two(writes_then_a, a_then_writes); }
static void two_readers(void) { run_two(reads_then_a, a_then_reads); }

/* A ring of a reader, a thread with mutexes only, and a writer. */
static void a_then_b(void) { both(&a, &b); }
static void b_then_writes(void) { under(pthread_rwlock_wrlock, &gate, &b); }
static void ring(void) { run_three(reads_then_a, a_then_b, b_then_writes); }

/* The lock keeps a reader and a writer apart, but not two readers. */
static void reads_a_b(void) { check(pthread_rwlock_rdlock(&gate)), both(&a, &b), end(&gate); }
static void reads_b_a(void) { check(pthread_rwlock_rdlock(&gate)), both(&b, &a), end(&gate); }
static void writes_b_a(void) { check(pthread_rwlock_wrlock(&gate)), both(&b, &a), end(&gate); }
static void kept_apart(void) { run_two(reads_a_b, writes_b_a); }
static void not_kept_apart(void) { run_two(reads_a_b, reads_b_a); }

/* A reader reads again, and another thread writes. */
static void reads_twice(pthread_rwlock_t *lock) {
    check(pthread_rwlock_rdlock(lock)), check(pthread_rwlock_rdlock(lock));
    end(lock), end(lock);
}
static void recursive_reader(void) { reads_twice(&gate); }
static void recursive_reader_of_preferring(void) { reads_twice(&preferring); }
static void writes_preferring(void) { check(pthread_rwlock_wrlock(&preferring)), end(&preferring); }
static void recursive(void) { run_two(recursive_reader, writes); }
static void recursive_first(void) { run_two(recursive_reader_of_preferring, writes_preferring); }
static void recursive_after(void) { run_two(writes_preferring, recursive_reader_of_preferring); }

/* A reader wants a mutex, whose holder wants to read. That waits only for a writer that waits for the first one. */
static void preferring_then_a(void) { around(pthread_rwlock_rdlock, &preferring, &a); }
static void a_then_preferring(void) { under(pthread_rwlock_rdlock, &preferring, &a); }
static void writer_waits(void) { run_three(reads_then_a, a_then_reads, writes); }
static void writer_goes_first(void) { run_three(preferring_then_a, a_then_preferring, writes_preferring); }

/* Acquires that do not wait, or not without end. */
static int timed_read(pthread_rwlock_t *lock) { struct timespec time = later(); return pthread_rwlock_timedrdlock(lock, &time); }
static int timed_write(pthread_rwlock_t *lock) { struct timespec time = later(); return pthread_rwlock_timedwrlock(lock, &time); }
static void a_then_tries_to_read(void) { under(pthread_rwlock_tryrdlock, &gate, &a); }
static void a_then_tries_to_write(void) { under(pthread_rwlock_trywrlock, &gate, &a); }
static void a_then_timed_read(void) { under(timed_read, &gate, &a); }
static void a_then_timed_write(void) { under(timed_write, &gate, &a); }
static void tried_read(void) { run_two(writes_then_a, a_then_tries_to_read); }
static void tried_write(void) { run_two(reads_then_a, a_then_tries_to_write); }
static void timed_reader(void) { run_two(writes_then_a, a_then_timed_read); }
static void timed_writer(void) { run_two(reads_then_a, a_then_timed_write); }

/* Many readers of one lock. The last one wants a mutex, whose holder wants to write. The last one may hold another lock while it reads. */
static void many(int readers, void (*last)(void)) {
    for (int at = 1; at < readers; at++) add(reads);
    add(last), add(a_then_writes), run();
}
static void b_and_reads_then_a(void) {
    pthread_mutex_lock(&b);
    reads_then_a();
    pthread_mutex_unlock(&b);
}
static void eight(void) { many(8, reads_then_a); }
static void nine(void) { many(9, reads_then_a); }
static void nine_holding(void) { many(9, b_and_reads_then_a); }

static void *reads_alone(void *unused) { return reads(), unused; }
static void *reads_a_b_alone(void *unused) { return reads_a_b(), unused; }
static void start_and_join(void *(*body)(void *)) {
    pthread_t handle;
    check(pthread_create(&handle, NULL, body, NULL)), check(pthread_join(handle, NULL));
}

/* The first eight readers have ended. */
static void ended(void) {
    for (int at = 0; at < 8; at++) start_and_join(reads_alone);
    run_two(reads_then_a, a_then_writes);
}

/* The first reader has ended, and a later one has its part. The lock still keeps the first one and a later writer apart. */
static void part_of_ended(void) {
    start_and_join(reads_a_b_alone);
    for (int at = 1; at < 8; at++) start_and_join(reads_alone);
    start_and_join(reads_alone);
    run_two(writes, writes_b_a);
}

#define CASE(name) {#name, name}
static const struct { const char *name; void (*run)(void); } cases[] = {
    CASE(reader_writer), CASE(writer_reader), CASE(writer_holds), CASE(reader_waits), CASE(two_writers), CASE(two_readers), CASE(ring),
    CASE(kept_apart), CASE(not_kept_apart), CASE(recursive), CASE(recursive_first), CASE(recursive_after), CASE(writer_waits),
    CASE(writer_goes_first), CASE(tried_read), CASE(tried_write), CASE(timed_reader), CASE(timed_writer), CASE(eight), CASE(nine),
    CASE(nine_holding), CASE(ended), CASE(part_of_ended),
};

int main(int words, char **argv) {
    for (size_t at = 0; words == 2 && at < sizeof cases / sizeof *cases; at++)
        if (!strcmp(argv[1], cases[at].name)) return cases[at].run(), 0;
    fprintf(stderr, "usage: agent_readers NAME\n");
    return 2;
}
