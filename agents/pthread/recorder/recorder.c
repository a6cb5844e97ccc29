/* The recorder: LD_PRELOAD puts it before the program's thread and lock calls, and it writes each call to memory that it shares
 * with the collector. On the path of an event there is no lock, no system call and no allocation: one atomic addition draws a
 * place, and the event is written there. So it works inside signal handlers and allocators, and a stopped thread blocks no other.
 *
 * A release is written before the program's call, an acquire after it. */
#include "recorder.h"

#include <fcntl.h>
#include <link.h>
#include <semaphore.h>
#include <signal.h>
#include <stdio.h>
#include <stdlib.h>
#include <string.h>
#include <sys/mman.h>
#include <sys/prctl.h>
#include <sys/resource.h>
#include <sys/stat.h>
#include <sys/syscall.h>
#include <threads.h>
#include <time.h>
#include <unistd.h>

enum { STARTS = 4096, SECONDS_WITHOUT_PROGRESS = 30, MOST_TEXT = 1000, MOST_TRIES = 10000 };
enum { TYPE = 3, ROBUST = 16, INHERITS = 32, TCB_SIZE = 2304 }; /* of glibc: parts of a mutex's kind; what it keeps of a thread */

struct start { uint32_t taken, number; void *(*run)(void *); int (*run_c11)(void *); void *argument; uint64_t stack_size; };

struct page page __attribute__((aligned(4096)));
struct ring *mapped; /* that of GOODLOCK_RING, also in a process that does not record */
uint32_t is_claimed;
static uint64_t default_stack_size;
static struct start starts[STARTS];
THREAD_LOCAL uint32_t self = NOBODY;
THREAD_LOCAL uint64_t stack_low, stack_high;
static THREAD_LOCAL void (*once_routine)(void);
static THREAD_LOCAL void *once_control;
static THREAD_LOCAL uint32_t tid;
THREAD_LOCAL uint64_t stated;

/* ---- the real functions ---- */

#define REALS(X) \
    X(pthread_create) X(pthread_join) X(pthread_tryjoin_np) X(pthread_timedjoin_np) X(pthread_clockjoin_np) \
    X(pthread_mutex_lock) X(pthread_mutex_trylock) X(pthread_mutex_timedlock) X(pthread_mutex_clocklock) X(pthread_mutex_unlock) \
    X(pthread_mutex_init) X(pthread_mutex_destroy) X(pthread_cond_wait) X(pthread_cond_timedwait) X(pthread_cond_clockwait) \
    X(pthread_cond_signal) X(pthread_cond_broadcast) X(pthread_barrier_wait) X(pthread_once) X(pthread_spin_lock) \
    X(pthread_spin_trylock) X(pthread_spin_unlock) X(pthread_spin_init) X(pthread_spin_destroy) X(pthread_rwlock_rdlock) \
    X(pthread_rwlock_tryrdlock) X(pthread_rwlock_timedrdlock) X(pthread_rwlock_clockrdlock) X(pthread_rwlock_wrlock) \
    X(pthread_rwlock_trywrlock) X(pthread_rwlock_timedwrlock) X(pthread_rwlock_clockwrlock) X(pthread_rwlock_unlock) \
    X(pthread_rwlock_init) X(pthread_rwlock_destroy) X(sem_post) X(sem_wait) X(sem_trywait) X(sem_timedwait) X(sem_clockwait) \
    X(mtx_lock) X(mtx_trylock) X(mtx_timedlock) X(mtx_unlock) X(mtx_init) X(mtx_destroy) X(cnd_wait) X(cnd_timedwait) \
    X(cnd_signal) X(cnd_broadcast) X(thrd_create) X(thrd_join) X(call_once)
#define DECLARE(name) static __typeof__(&name) real_##name;
REALS(DECLARE)

/* The real function of this name. The constructor has found it, except for calls that run before the constructor. */
#define REAL(name) ({ if (!real_##name) real_##name = (__typeof__(&name))dlsym(RTLD_NEXT, #name); real_##name; })

static void find_reals(void) {
#define FIND(name) (void)REAL(name);
    REALS(FIND)
}

/* ---- one event ---- */

/* Waits until the collector has read the slot of this place. Returns 0 if it does not: then nothing more is recorded. */
static int wait_for_slot(struct ring *to, uint64_t place) {
    uint64_t seen = 0, now;
    int before = errno, has_room = 0;
    struct timespec moment = {0, 50000};
    for (int rounds = 0; !__atomic_load_n(&to->off, __ATOMIC_RELAXED); rounds++) {
        now = __atomic_load_n(&to->consumed, __ATOMIC_ACQUIRE);
        if (place - now < SLOTS) { has_room = 1; break; }
        if (now != seen) seen = now, rounds = 0;
        if (rounds > SECONDS_WITHOUT_PROGRESS * 10000 || (rounds % 100 == 99 && kill((pid_t)to->collector, 0) < 0 && errno == ESRCH)) break;
        if (rounds < 20) sched_yield();
        else syscall(SYS_nanosleep, &moment, NULL); /* nanosleep() is a cancellation point */
    }
    if (!has_room) __atomic_store_n(&to->off, 1, __ATOMIC_RELAXED), page.ring = NULL;
    errno = before;
    return has_room;
}

static int claim(int starts_thread);
static void number_self(int starts_thread);

static void write_record(struct ring *to, uint32_t thread, enum kind kind, uint64_t address, uint64_t other, const struct site *site) {
    settle_values();
    uint64_t place = __atomic_fetch_add(&to->next, 1, __ATOMIC_RELAXED);
    count_record(kind == R_SEES);
    struct record *record = &to->slots[place % SLOTS];
    if (place - __atomic_load_n(&to->consumed, __ATOMIC_ACQUIRE) >= SLOTS && !wait_for_slot(to, place)) return;
    record->address = address, record->other = other, record->thread = thread, record->kind = (uint8_t)kind;
    record->frames = (uint8_t)site->count;
    for (uint32_t at = 0; at < (site->count == BY_STACK ? 2 : site->count); at++) memcpy(record->callers[at], &site->callers[at], 6);
    __atomic_store_n(&record->ready, place + 1, __ATOMIC_RELEASE);
}

void tell(enum kind kind, const volatile void *address, uint64_t other, const struct site *site) {
    struct ring *to = page.ring;
    if (!to) return;
    if (self == NOBODY) {
        number_self(0);
        if (self == NOBODY || !(to = page.ring)) return;
    }
    write_record(to, self, kind, (uint64_t)address, other, site);
}

int is_recorded(void) {
    if (page.ring && self == NOBODY) number_self(0);
    return page.ring && self != NOBODY;
}

void acquired(enum kind kind, const volatile void *lock, const struct site *site) {
    remember((uint64_t)lock);
    if (schedule) note_acquired((uint64_t)lock, site->callers[0]);
    tell(kind, lock, site->stack, site);
}

struct wait *will_wait(uint32_t kind, uint64_t address, const struct site *site) {
    if (!is_recorded()) return NULL;
    if (!tid) tid = (uint32_t)syscall(SYS_gettid);
    struct wait *wait = &page.ring->waits[self % WAITS];
    wait->thread = self, wait->kind = kind, wait->frames = site->count, wait->tid = tid;
    for (uint32_t at = 0; at < (site->count == BY_STACK ? 2 : site->count); at++) wait->callers[at] = site->callers[at];
    __atomic_store_n(&wait->address, address, __ATOMIC_RELEASE);
    return wait;
}

void has_waited(struct wait *wait) {
    if (wait) __atomic_store_n(&wait->address, 0, __ATOMIC_RELEASE);
}

#ifdef FOLLOWS_VALUES
void tell_seen(uint64_t cell, void *caller, void *frame) {
    struct site site = {.count = 1, .callers = {(uint64_t)caller}};
    if (frame) take_site(&site, frame, caller);
    tell(R_SEES, (void *)cell, 0, &site);
}
#endif

/* ---- threads ---- */

/* A thread whose start was not seen. The first thread of a process has the number 0. */
static void number_self(int starts_thread) {
    struct ring *to = page.ring;
    struct site none = {.count = 0};
    if (!is_claimed && !claim(starts_thread)) return;
    if (syscall(SYS_gettid) == getpid()) {
        struct site high = {.count = 1, .callers = {stack_high}};
        begin_values(self = 0);
        write_record(to, 0, R_START, (uint64_t)pthread_self(), stack_low, &high);
        return;
    }
    begin_values(self = __atomic_fetch_add(&to->threads, 1, __ATOMIC_RELAXED));
    write_record(to, self, R_UNSEEN, (uint64_t)pthread_self(), 0, &none);
}

static struct ring *map_ring(const char *path);

/* A process of its own trace asks for shared memory, and records in it from now on. */
static void ask_for_ring(struct other *other) {
    struct timespec moment = {0, 1000000};
    uint32_t asks = OTHER_SEEN;
    if (!mapped->follows_others) return;
    __atomic_compare_exchange_n(&other->state, &asks, OTHER_ASKS, 0, __ATOMIC_ACQ_REL, __ATOMIC_ACQUIRE);
    for (int tries = 0; __atomic_load_n(&other->state, __ATOMIC_ACQUIRE) == OTHER_ASKS && tries < MOST_TRIES; tries++) {
        if (tries % 100 == 99 && kill((pid_t)mapped->collector, 0) < 0) return;
        syscall(SYS_nanosleep, &moment, NULL);
    }
    if (__atomic_load_n(&other->state, __ATOMIC_ACQUIRE) != OTHER_HAS_RING) return;
    struct ring *own = map_ring(other->path);
    if (!own) return;
    self = NOBODY, is_claimed = 0, own->attached = 1;
    forget_stacks();
    stop_values();
    page.ring = own;
}

/* This process starts a thread and does not record: says so. */
static void count_process(void) {
    uint32_t mine = (uint32_t)getpid(), process = 0;
    int before = errno;
    struct other *other = NULL;
    if (!mapped || mine == mapped->owner) return;
    for (uint32_t at = mine; at < mine + OTHERS && !other; at++, process = 0) {
        other = &mapped->others[at % OTHERS];
        if (__atomic_load_n(&other->process, __ATOMIC_ACQUIRE) == mine) break;
        if (__atomic_compare_exchange_n(&other->process, &process, mine, 0, __ATOMIC_ACQ_REL, __ATOMIC_ACQUIRE)) prctl(PR_GET_NAME, other->name);
        else other = NULL;
    }
    if (other) ask_for_ring(other);
    errno = before;
}

/* Whether this thread, which starts another one, records. */
static int records_start(void) {
    if (page.ring && self == NOBODY) number_self(1);
    if (!page.ring) count_process();
    if (page.ring && self == NOBODY) number_self(1);
    if (!page.ring || self == NOBODY) return 0;
    follow_values(self);
    return 1;
}

static struct start *new_start(uint64_t stack_size) {
    for (uint32_t tries = 0, at = __atomic_load_n(&page.ring->threads, __ATOMIC_RELAXED); tries < STARTS; tries++, at++) {
        struct start *start = &starts[at % STARTS];
        uint32_t is_free = 0;
        if (!__atomic_compare_exchange_n(&start->taken, &is_free, 1, 0, __ATOMIC_ACQUIRE, __ATOMIC_RELAXED)) continue;
        start->number = schedule ? number_of_child() : NOBODY, start->stack_size = stack_size;
        if (start->number == NOBODY) start->number = __atomic_fetch_add(&page.ring->threads, 1, __ATOMIC_RELAXED);
        return start;
    }
    return NULL;
}

static void give_up_start(struct start *start, uint32_t number, const struct site *site) {
    __atomic_store_n(&start->taken, 0, __ATOMIC_RELEASE);
    tell(R_UNSTARTED, NULL, number, site);
}

static void has_started(uint32_t number, uint64_t handle, const struct site *site) {
    note_handle(number, handle);
    tell(R_NAMED, (void *)handle, number, site);
}

static void tell_end(void *unused) {
    struct site none = {.count = 0};
    if (schedule) end_lane();
    tell(R_END, unused, 0, &none);
    end_values();
}

/* Numbers the new thread, and gives the copied start back. */
static struct start begin_thread(struct start *shared, void *frame) {
    struct start start = *shared;
    struct site high = {.count = 1};
    __atomic_store_n(&shared->taken, 0, __ATOMIC_RELEASE);
    begin_values(self = start.number);
    if (schedule) begin_lane();
    stack_high = (uint64_t)frame, stack_low = stack_high - (start.stack_size < stack_high ? start.stack_size : 0);
    forget_values(stack_low, (uint64_t)pthread_self() + TCB_SIZE - stack_low); /* and the variables of the thread */
    high.callers[0] = stack_high;
    tell(R_START, (void *)pthread_self(), stack_low, &high);
    return start;
}

static void *begin(void *raw) {
    struct start start = begin_thread(raw, __builtin_frame_address(0));
    void *result;
    pthread_cleanup_push(tell_end, NULL);
    result = start.run(start.argument);
    pthread_cleanup_pop(1);
    return result;
}

static int begin_c11(void *raw) {
    struct start start = begin_thread(raw, __builtin_frame_address(0));
    int result;
    pthread_cleanup_push(tell_end, NULL);
    result = start.run_c11(start.argument);
    pthread_cleanup_pop(1);
    return result;
}

EXPORT int pthread_create(pthread_t *handle, const pthread_attr_t *attributes, void *(*run)(void *), void *argument) {
    size_t stack_size = default_stack_size;
    struct start *start;
    int is_start_recorded = records_start();
    TAKE_SITE;
    if (attributes && page.ring) pthread_attr_getstacksize(attributes, &stack_size);
    if (!is_start_recorded || !(start = new_start(stack_size))) return REAL(pthread_create)(handle, attributes, run, argument);
    start->run = run, start->argument = argument;
    uint32_t number = start->number;
    const struct call_of_schedule *turn = ENTER(R_FORK, number, 0);
    tell(R_FORK, NULL, number, &site);
    int error = REAL(pthread_create)(handle, attributes, begin, start);
    if (error) give_up_start(start, number, &site);
    else has_started(number, (uint64_t)*handle, &site);
    LEAVE(turn);
    return error;
}

EXPORT int thrd_create(thrd_t *handle, thrd_start_t run, void *argument) {
    struct start *start;
    int is_start_recorded = records_start();
    TAKE_SITE;
    if (!is_start_recorded || !(start = new_start(default_stack_size))) return REAL(thrd_create)(handle, run, argument);
    start->run_c11 = run, start->argument = argument;
    uint32_t number = start->number;
    const struct call_of_schedule *turn = ENTER(R_FORK, number, 0);
    tell(R_FORK, NULL, number, &site);
    int error = REAL(thrd_create)(handle, begin_c11, start);
    if (error != thrd_success) give_up_start(start, number, &site);
    else has_started(number, (uint64_t)*handle, &site);
    LEAVE(turn);
    return error;
}

static void clean_wait(void *raw) { has_waited(*(struct wait **)raw); }

/* A join may be cancelled: then the thread does not wait any more, and nothing else is recorded. */
#define JOIN(is_blocking, success, busy, call) ({ int error; TAKE_SITE; struct wait *wait = NULL; \
    const struct call_of_schedule *turn = ENTER(R_JOINED, number_of_handle((uint64_t)handle), !is_blocking); \
    tell(R_JOINS, (void *)handle, is_blocking ? WITHOUT_END : 0, &site); \
    if (is_blocking) wait = will_wait(WAITS_FOR_THREAD, (uint64_t)handle, &site); \
    pthread_cleanup_push(clean_wait, &wait); error = turn == &failing_call ? busy : call; pthread_cleanup_pop(1); \
    if (error == (success)) { tell(R_JOINED, (void *)handle, 0, &site); LEAVE(turn); } \
    error; })

EXPORT int pthread_join(pthread_t handle, void **result) { return JOIN(1, 0, 0, REAL(pthread_join)(handle, result)); }
EXPORT int pthread_tryjoin_np(pthread_t handle, void **result) { return JOIN(0, 0, EBUSY, REAL(pthread_tryjoin_np)(handle, result)); }
EXPORT int pthread_timedjoin_np(pthread_t handle, void **result, const struct timespec *until) {
    return JOIN(0, 0, ETIMEDOUT, REAL(pthread_timedjoin_np)(handle, result, until));
}
EXPORT int pthread_clockjoin_np(pthread_t handle, void **result, clockid_t clock, const struct timespec *until) {
    return JOIN(0, 0, ETIMEDOUT, REAL(pthread_clockjoin_np)(handle, result, clock, until));
}
EXPORT int thrd_join(thrd_t handle, int *result) { return JOIN(1, thrd_success, 0, REAL(thrd_join)(handle, result)); }

/* ---- locks ---- */

static int took(int error, int success, enum kind kind, const volatile void *lock, const struct site *site, struct wait *wait,
                const struct call_of_schedule *turn) {
    has_waited(wait);
    if (error != success && error != EOWNERDEAD) return error;
    acquired(kind, lock, site);
    LEAVE(turn);
    return error;
}

void tell_if(int condition, enum kind kind, const volatile void *object, const struct site *site) {
    if (condition) tell(kind, object, 0, site);
}

/* A release of a mutex. If glibc looks at its owner, the release fails in a thread that does not hold the mutex. */
static enum kind unlock_of(const void *lock) {
    int kind = ((const pthread_mutex_t *)lock)->__data.__kind, type = kind & TYPE;
    int has_owner = type == PTHREAD_MUTEX_RECURSIVE_NP || type == PTHREAD_MUTEX_ERRORCHECK_NP || kind & (ROBUST | INHERITS);
    return has_owner ? R_UNLOCK_OWN : R_UNLOCK;
}

/* A blocking acquire: the thread shows what it waits for until it has the lock. */
#define BLOCKING(kind, lock, success, call) BLOCKING_AS(WAITS_FOR_LOCK, kind, lock, success, call)
#define BLOCKING_AS(how, kind, lock, success, call) BLOCKING_WITH(0, how, kind, lock, success, call)
#define BLOCKING_WITH(flags, how, kind, lock, success, call) ({ TAKE_SITE; const struct call_of_schedule *turn = ENTER(kind, lock, 0); \
    site.stack |= (flags); \
    struct wait *wait = will_wait(how, (uint64_t)(lock), &site); \
    took(call, success, kind, lock, &site, wait, turn); })
/* If it is the turn of an attempt, it waits for those that are about to release the lock. */
#define ATTEMPT(kind, lock, success, busy, call) ATTEMPT_AS(0, kind, lock, success, busy, call)
#define ATTEMPT_AS(flags, kind, lock, success, busy, call) ({ TAKE_SITE; const struct call_of_schedule *turn = ENTER(kind, lock, 1); \
    site.stack |= (flags); \
    int error = turn == &failing_call ? busy : call; \
    while (error == (busy) && may_retry(turn)) error = call; \
    took(error, success, kind, lock, &site, NULL, turn); })
#define RELEASE(which, lock, call) ({ TAKE_SITE; enum kind how = which; \
    const struct call_of_schedule *turn = ENTER(how == R_UNLOCK_OWN ? R_UNLOCK : how, lock, 0); \
    tell(how, lock, site.stack, &site); int error = call; LEAVE(turn); error; })
#define RENEW(object, call) ({ TAKE_SITE; int error = call; tell_if(!error, R_NEW, object, &site); error; })

EXPORT int pthread_mutex_lock(pthread_mutex_t *lock) { return BLOCKING(R_LOCK, lock, 0, REAL(pthread_mutex_lock)(lock)); }
EXPORT int pthread_mutex_trylock(pthread_mutex_t *lock) { return ATTEMPT(R_TRIED, lock, 0, EBUSY, REAL(pthread_mutex_trylock)(lock)); }
EXPORT int pthread_mutex_timedlock(pthread_mutex_t *lock, const struct timespec *until) {
    return ATTEMPT(R_TIMED, lock, 0, ETIMEDOUT, REAL(pthread_mutex_timedlock)(lock, until));
}
EXPORT int pthread_mutex_clocklock(pthread_mutex_t *lock, clockid_t clock, const struct timespec *until) {
    return ATTEMPT(R_TIMED, lock, 0, ETIMEDOUT, REAL(pthread_mutex_clocklock)(lock, clock, until));
}
EXPORT int pthread_mutex_unlock(pthread_mutex_t *lock) { return RELEASE(unlock_of(lock), lock, REAL(pthread_mutex_unlock)(lock)); }
EXPORT int pthread_mutex_init(pthread_mutex_t *lock, const pthread_mutexattr_t *attributes) {
    return RENEW(lock, REAL(pthread_mutex_init)(lock, attributes));
}
EXPORT int pthread_mutex_destroy(pthread_mutex_t *lock) { return RENEW(lock, REAL(pthread_mutex_destroy)(lock)); }

EXPORT int pthread_spin_lock(pthread_spinlock_t *lock) { return BLOCKING_AS(SPINS_FOR_LOCK, R_LOCK, lock, 0, REAL(pthread_spin_lock)(lock)); }
EXPORT int pthread_spin_trylock(pthread_spinlock_t *lock) { return ATTEMPT(R_TRIED, lock, 0, EBUSY, REAL(pthread_spin_trylock)(lock)); }
EXPORT int pthread_spin_unlock(pthread_spinlock_t *lock) { return RELEASE(R_UNLOCK, lock, REAL(pthread_spin_unlock)(lock)); }
EXPORT int pthread_spin_init(pthread_spinlock_t *lock, int shared) { return RENEW(lock, REAL(pthread_spin_init)(lock, shared)); }
EXPORT int pthread_spin_destroy(pthread_spinlock_t *lock) { return RENEW(lock, REAL(pthread_spin_destroy)(lock)); }

EXPORT int mtx_lock(mtx_t *lock) { return BLOCKING(R_LOCK, lock, thrd_success, REAL(mtx_lock)(lock)); }
EXPORT int mtx_trylock(mtx_t *lock) { return ATTEMPT(R_TRIED, lock, thrd_success, thrd_busy, REAL(mtx_trylock)(lock)); }
EXPORT int mtx_timedlock(mtx_t *lock, const struct timespec *until) {
    return ATTEMPT(R_TIMED, lock, thrd_success, thrd_timedout, REAL(mtx_timedlock)(lock, until));
}
EXPORT int mtx_unlock(mtx_t *lock) { return RELEASE(unlock_of(lock), lock, REAL(mtx_unlock)(lock)); }
EXPORT int mtx_init(mtx_t *lock, int type) { return RENEW(lock, REAL(mtx_init)(lock, type)); }
EXPORT void mtx_destroy(mtx_t *lock) {
    TAKE_SITE;
    REAL(mtx_destroy)(lock);
    tell(R_NEW, lock, 0, &site);
}

/* What a reader-writer lock does: in glibc only this kind keeps readers out while a writer waits. */
static uint64_t flags_of(const pthread_rwlock_t *lock) {
    return lock->__data.__flags == PTHREAD_RWLOCK_PREFER_WRITER_NONRECURSIVE_NP ? PREFERS_WRITERS : 0;
}

EXPORT int pthread_rwlock_wrlock(pthread_rwlock_t *lock) {
    return BLOCKING_WITH(flags_of(lock), WAITS_FOR_LOCK, R_WRITE_LOCK, lock, 0, REAL(pthread_rwlock_wrlock)(lock));
}
EXPORT int pthread_rwlock_trywrlock(pthread_rwlock_t *lock) {
    return ATTEMPT_AS(flags_of(lock), R_WRITE_TRIED, lock, 0, EBUSY, REAL(pthread_rwlock_trywrlock)(lock));
}
EXPORT int pthread_rwlock_timedwrlock(pthread_rwlock_t *lock, const struct timespec *until) {
    return ATTEMPT_AS(flags_of(lock), R_WRITE_TIMED, lock, 0, ETIMEDOUT, REAL(pthread_rwlock_timedwrlock)(lock, until));
}
EXPORT int pthread_rwlock_clockwrlock(pthread_rwlock_t *lock, clockid_t clock, const struct timespec *until) {
    return ATTEMPT_AS(flags_of(lock), R_WRITE_TIMED, lock, 0, ETIMEDOUT, REAL(pthread_rwlock_clockwrlock)(lock, clock, until));
}
EXPORT int pthread_rwlock_rdlock(pthread_rwlock_t *lock) {
    return BLOCKING_WITH(flags_of(lock), WAITS_FOR_LOCK, R_READ_LOCK, lock, 0, REAL(pthread_rwlock_rdlock)(lock));
}
EXPORT int pthread_rwlock_tryrdlock(pthread_rwlock_t *lock) {
    return ATTEMPT_AS(flags_of(lock) | READS_TRIED, R_READ_LOCK, lock, 0, EBUSY, REAL(pthread_rwlock_tryrdlock)(lock));
}
EXPORT int pthread_rwlock_timedrdlock(pthread_rwlock_t *lock, const struct timespec *until) {
    return ATTEMPT_AS(flags_of(lock) | READS_TIMED, R_READ_LOCK, lock, 0, ETIMEDOUT, REAL(pthread_rwlock_timedrdlock)(lock, until));
}
EXPORT int pthread_rwlock_clockrdlock(pthread_rwlock_t *lock, clockid_t clock, const struct timespec *until) {
    return ATTEMPT_AS(flags_of(lock) | READS_TIMED, R_READ_LOCK, lock, 0, ETIMEDOUT, REAL(pthread_rwlock_clockrdlock)(lock, clock, until));
}
EXPORT int pthread_rwlock_unlock(pthread_rwlock_t *lock) {
    return RELEASE(R_UNLOCK_EITHER, lock, REAL(pthread_rwlock_unlock)(lock));
}
EXPORT int pthread_rwlock_init(pthread_rwlock_t *lock, const pthread_rwlockattr_t *attributes) {
    return RENEW(lock, REAL(pthread_rwlock_init)(lock, attributes));
}
EXPORT int pthread_rwlock_destroy(pthread_rwlock_t *lock) { return RENEW(lock, REAL(pthread_rwlock_destroy)(lock)); }

/* ---- orders ---- */

#define GIVE(object, by, call) ({ TAKE_SITE; const struct call_of_schedule *turn = ENTER(R_GIVE, object, 0); \
    tell(R_GIVE, object, by, &site); int error = call; LEAVE(turn); error; })
/* `fault`: errno of an attempt that fails, 0 if the call waits. */
#define TAKE(object, fault, call) ({ TAKE_SITE; const struct call_of_schedule *turn = ENTER(R_TAKE, object, fault); \
    int error = turn == &failing_call ? (errno = fault, -1) : call; \
    if (!error) { tell(R_TAKE, object, 0, &site); LEAVE(turn); } \
    error; })

EXPORT int sem_post(sem_t *semaphore) { return GIVE(semaphore, 0, REAL(sem_post)(semaphore)); }
EXPORT int sem_wait(sem_t *semaphore) { return TAKE(semaphore, 0, REAL(sem_wait)(semaphore)); }
EXPORT int sem_trywait(sem_t *semaphore) { return TAKE(semaphore, EAGAIN, REAL(sem_trywait)(semaphore)); }
EXPORT int sem_timedwait(sem_t *semaphore, const struct timespec *until) {
    return TAKE(semaphore, ETIMEDOUT, REAL(sem_timedwait)(semaphore, until));
}
EXPORT int sem_clockwait(sem_t *semaphore, clockid_t clock, const struct timespec *until) {
    return TAKE(semaphore, ETIMEDOUT, REAL(sem_clockwait)(semaphore, clock, until));
}
EXPORT int pthread_cond_signal(pthread_cond_t *condition) { return GIVE(condition, BY_CONDITION, REAL(pthread_cond_signal)(condition)); }
EXPORT int pthread_cond_broadcast(pthread_cond_t *condition) { return GIVE(condition, BY_CONDITION, REAL(pthread_cond_broadcast)(condition)); }
EXPORT int cnd_signal(cnd_t *condition) { return GIVE(condition, BY_CONDITION, REAL(cnd_signal)(condition)); }
EXPORT int cnd_broadcast(cnd_t *condition) { return GIVE(condition, BY_CONDITION, REAL(cnd_broadcast)(condition)); }

EXPORT int pthread_barrier_wait(pthread_barrier_t *barrier) {
    TAKE_SITE;
    const struct call_of_schedule *turn = ENTER(R_GIVE, barrier, 0);
    tell(R_GIVE, barrier, 0, &site);
    LEAVE(turn);
    int error = REAL(pthread_barrier_wait)(barrier);
    if (error != 0 && error != PTHREAD_BARRIER_SERIAL_THREAD) return error;
    turn = ENTER(R_TAKE, barrier, 0);
    tell(R_TAKE, barrier, 0, &site);
    LEAVE(turn);
    return error;
}

/* A wait on a condition releases the lock and acquires it again, also if the thread is cancelled in it. A thread that was woken
 * receives what the waker gave before it acquires the lock. If `error` is one of a wait that fails, the thread has no lock. */
struct condition_wait { void *condition, *lock; struct site *site; int success, error; };

static void took_again(void *raw) {
    struct condition_wait *wait = raw;
    if (wait->error == EPERM || wait->error == ENOTRECOVERABLE || wait->error == thrd_error) return;
    if (wait->error == wait->success || wait->error == EOWNERDEAD) tell(R_TAKE, wait->condition, 0, wait->site);
    acquired(R_LOCK, wait->lock, wait->site);
}

/* In a run that follows another one, the thread waits for the turns of what its wait did, and not for the condition: a release, a receive
 * if it was woken, and an acquire. If the schedule ends meanwhile, it wakes up without a reason. Returns whether it was woken. */
static int wait_by_turns(const struct call_of_schedule *turn, void *condition, void *lock, struct site *taken) {
    struct site site = *taken;
    REAL(pthread_mutex_unlock)(lock);
    LEAVE(turn);
    int was_woken = !comes_next(R_LOCK);
    if (was_woken) {
        turn = ENTER(R_TAKE, condition, 0);
        tell(R_TAKE, condition, 0, &site);
        LEAVE(turn);
    }
    turn = ENTER(R_LOCK, lock, 0);
    struct wait *wait = will_wait(WAITS_FOR_LOCK, (uint64_t)lock, &site);
    took(REAL(pthread_mutex_lock)(lock), 0, R_LOCK, lock, &site, wait, turn);
    return was_woken;
}

#define WAIT(success, timeout, call) ({ TAKE_SITE; struct condition_wait wait = {condition, lock, &site, success, ECANCELED}; \
    const struct call_of_schedule *turn = ENTER(R_UNLOCK, lock, 0); \
    tell(unlock_of(lock), lock, site.stack, &site); \
    if (schedule && has_turn(turn)) wait.error = wait_by_turns(turn, condition, lock, &site) ? success : timeout; \
    else { \
        if (turn) enter_loop_of_wait(turn); \
        LEAVE(turn); \
        pthread_cleanup_push(took_again, &wait); wait.error = call; pthread_cleanup_pop(1); \
    } \
    wait.error; })
/* With another number of nanoseconds a wait fails before it releases the lock. */
#define TIMED_WAIT(success, timeout, call) (until->tv_nsec < 0 || until->tv_nsec >= 1000000000 ? call : WAIT(success, timeout, call))

EXPORT int pthread_cond_wait(pthread_cond_t *condition, pthread_mutex_t *lock) {
    return WAIT(0, 0, REAL(pthread_cond_wait)(condition, lock));
}
EXPORT int pthread_cond_timedwait(pthread_cond_t *condition, pthread_mutex_t *lock, const struct timespec *until) {
    return TIMED_WAIT(0, ETIMEDOUT, REAL(pthread_cond_timedwait)(condition, lock, until));
}
EXPORT int pthread_cond_clockwait(pthread_cond_t *condition, pthread_mutex_t *lock, clockid_t clock, const struct timespec *until) {
    return TIMED_WAIT(0, ETIMEDOUT, REAL(pthread_cond_clockwait)(condition, lock, clock, until));
}
EXPORT int cnd_wait(cnd_t *condition, mtx_t *lock) { return WAIT(thrd_success, thrd_success, REAL(cnd_wait)(condition, lock)); }
EXPORT int cnd_timedwait(cnd_t *condition, mtx_t *lock, const struct timespec *until) {
    return TIMED_WAIT(thrd_success, thrd_timedout, REAL(cnd_timedwait)(condition, lock, until));
}

/* The thread that runs the routine gives at its end; each thread whose call returns receives. */
static void run_once(void) {
    void *control = once_control;
    struct site none = {.count = 0};
    once_routine();
    const struct call_of_schedule *turn = schedule ? enter(R_GIVE, (uint64_t)control, &none, 0) : NULL;
    tell(R_GIVE, control, 0, &none);
    LEAVE(turn);
}

EXPORT int pthread_once(pthread_once_t *control, void (*routine)(void)) {
    void (*outer)(void) = once_routine, *outer_control = once_control;
    if (!page.ring) return REAL(pthread_once)(control, routine);
    TAKE_SITE;
    int waits = schedule && comes_next(R_ONCE); /* else this thread runs the routine, whose calls come first */
    const struct call_of_schedule *turn = waits ? ENTER(R_ONCE, control, 0) : NULL;
    once_routine = routine, once_control = control;
    int error = REAL(pthread_once)(control, run_once);
    once_routine = outer, once_control = outer_control;
    if (error) return error;
    if (!waits) turn = ENTER(R_ONCE, control, 0);
    tell(R_ONCE, control, 0, &site);
    LEAVE(turn);
    return error;
}

EXPORT void call_once(once_flag *control, void (*routine)(void)) {
    void (*outer)(void) = once_routine, *outer_control = once_control;
    if (!page.ring) { REAL(call_once)(control, routine); return; }
    TAKE_SITE;
    int waits = schedule && comes_next(R_ONCE);
    const struct call_of_schedule *turn = waits ? ENTER(R_ONCE, control, 0) : NULL;
    once_routine = routine, once_control = control;
    REAL(call_once)(control, run_once);
    once_routine = outer, once_control = outer_control;
    if (!waits) turn = ENTER(R_ONCE, control, 0);
    tell(R_ONCE, control, 0, &site);
    LEAVE(turn);
}

/* ---- for programs with locks of their own: agents/rust calls these, and states callers by numbers ---- */

/* Returns the number of a caller that is not an address, or 0 if there is no room. */
EXPORT uint64_t goodlock_site(const char *text, uint32_t length) {
    struct ring *to = page.ring;
    if (!to || length > MOST_TEXT || __atomic_load_n(&to->sites_used, __ATOMIC_RELAXED) > TEXT / 2 - (1 << 16)) return 0;
    uint32_t at = TEXT - length - 1 - __atomic_fetch_add(&to->sites_used, length + 1, __ATOMIC_RELAXED);
    memcpy(to->text + at, text, length);
    to->text[at + length] = '\n';
    return at;
}

/* The next calls of this thread are by this caller; 0: by their return addresses. */
EXPORT void goodlock_state(uint64_t caller) { stated = caller; }

/* The flags of a reader-writer lock, and of what gives, are 256 times as large. */
EXPORT void goodlock_record(uint32_t kind, uint64_t object, uint64_t caller) {
    struct site site = {.count = 1, .stack = (uint64_t)__builtin_frame_address(0), .callers = {caller}};
    uint32_t flags = kind / 256 % (LOCK_FLAGS + 1);
    tell((enum kind)(kind % 256), (void *)object, kind % 256 == R_GIVE ? flags : site.stack | flags, &site);
}

/* Before a blocking acquire, and with object 0 after it. */
EXPORT void goodlock_wait(uint64_t object, uint64_t caller) {
    struct site site = {.count = 1, .callers = {caller}};
    if (object) will_wait(WAITS_FOR_LOCK, object, &site);
    else if (page.ring && self != NOBODY) has_waited(&page.ring->waits[self % WAITS]);
}

/* ---- start and fork ---- */

static int write_module(struct dl_phdr_info *info, size_t size, void *raw) {
    struct ring *to = raw;
    uint64_t low = UINT64_MAX, high = 0;
    char path[1000] = "";
    for (int at = 0; at < info->dlpi_phnum; at++) {
        const ElfW(Phdr) *part = &info->dlpi_phdr[at];
        if (part->p_type != PT_LOAD) continue;
        if (info->dlpi_addr + part->p_vaddr < low) low = info->dlpi_addr + part->p_vaddr;
        if (info->dlpi_addr + part->p_vaddr + part->p_memsz > high) high = info->dlpi_addr + part->p_vaddr + part->p_memsz;
    }
    if (info->dlpi_name[0]) snprintf(path, sizeof path, "%s", info->dlpi_name);
    else if (readlink("/proc/self/exe", path, sizeof path - 1) < 0) path[0] = 0;
    if (path[0] == '/' && size && to->text_used + sizeof path + 100 < TEXT / 2)
        to->text_used += (uint32_t)sprintf(to->text + to->text_used, "module %lx %lx %lx %s\n", (unsigned long)info->dlpi_addr,
                                           (unsigned long)low, (unsigned long)high, path);
    return 0;
}

/* The process that goodlock has started claims the ring at its first event, any other process when it starts its first thread; the
 * first claim counts. If the owner's program was started by exec, the one before has ended. */
static int claim(int starts_thread) {
    struct ring *to = page.ring;
    uint32_t nobody = 0, mine = (uint32_t)getpid();
    struct site none = {.count = 0};
    if (mine != to->program && mine != to->owner && !to->owner && !starts_thread) return 0;
    if (__atomic_compare_exchange_n(&to->owner, &nobody, mine, 0, __ATOMIC_ACQ_REL, __ATOMIC_ACQUIRE)) is_claimed = 1;
    else if (nobody == mine) {
        is_claimed = 1;
        write_record(to, 0, R_EXEC, 0, 0, &none);
    } else {
        page.ring = NULL;
        return 0;
    }
    dl_iterate_phdr(write_module, to);
    return 1;
}

/* Another process is not in this trace, except if its parent has recorded nothing. */
static void in_child(void) {
    tid = 0;
    stop_values();
    page.ring = is_claimed ? NULL : mapped;
}

/* The name may be that of a run which has ended, and by now of any file: only memory that cannot be cut is mapped. */
static struct ring *map_ring(const char *path) {
    struct stat it;
    int file = open(path, O_RDWR | O_CLOEXEC | O_NONBLOCK | O_NOCTTY);
    if (file < 0) return NULL;
    int is_ring = fstat(file, &it) == 0 && it.st_size == sizeof(struct ring) && fcntl(file, F_GET_SEALS) == RING_SEALS;
    struct ring *found = is_ring ? mmap(NULL, sizeof *found, PROT_READ | PROT_WRITE, MAP_SHARED, file, 0) : MAP_FAILED;
    close(file);
    if (found == MAP_FAILED) return NULL;
    if (found->magic == RING_MAGIC && !found->off) return found;
    munmap(found, sizeof *found);
    return NULL;
}

extern void *__libc_stack_end;

__attribute__((constructor)) static void at_start(void) {
    const char *path = getenv("GOODLOCK_RING");
    struct rlimit limit;
    pthread_attr_t attributes;
    size_t size = 8 << 20;
    hide_deletes();
    find_libraries();
    if (!path) return;
    find_reals();
    find_frees();
    find_starts();
    begin_stacks();
    struct ring *found = map_ring(path);
    if (!found) return;
    if (pthread_getattr_default_np(&attributes) == 0) {
        pthread_attr_getstacksize(&attributes, &size);
        pthread_attr_destroy(&attributes);
    }
    default_stack_size = size;
    stack_high = (uint64_t)__libc_stack_end;
    if (getrlimit(RLIMIT_STACK, &limit) < 0 || limit.rlim_cur > 64 << 20) limit.rlim_cur = 8 << 20;
    stack_low = stack_high - limit.rlim_cur;
    pthread_atfork(NULL, NULL, in_child);
    madvise(&page, sizeof page, MADV_WIPEONFORK);
    mapped = found;
    note_values(found);
    if (found->owner && found->owner != (uint32_t)getpid()) return;
    found->attached = 1;
    begin_schedule(); /* its own calls are not recorded */
    page.ring = found;
}
