/* Calls of libraries besides the C library: GLib's mutexes and conditions, initialisations in C++, futex calls, and the end of a library. */
#include "recorder.h"

#include <link.h>
#include <sys/syscall.h>

enum { WAITED = 1 << 16, MOST_LIBRARIES = 128, FUTEX_WAIT = 0, FUTEX_WAKE = 1, FUTEX_WAIT_BITSET = 9, FUTEX_FLAGS = 128 | 256 };

static THREAD_LOCAL int is_inside; /* a call that is recorded: its own calls are not */

#define CALLS(X) \
    X(void, g_mutex_lock, (void *)) X(int, g_mutex_trylock, (void *)) X(void, g_mutex_unlock, (void *)) X(void, g_mutex_init, (void *)) \
    X(void, g_mutex_clear, (void *)) X(void, g_cond_wait, (void *, void *)) X(int, g_cond_wait_until, (void *, void *, int64_t)) \
    X(void, g_cond_signal, (void *)) X(void, g_cond_broadcast, (void *)) X(int, __cxa_guard_acquire, (void *)) \
    X(void, __cxa_guard_release, (void *))
#define DECLARE(type, name, words) static type(*real_##name) words; EXPORT type name words;
CALLS(DECLARE)

/* A call from another constructor may come before that of this library. */
#define REAL(name) ({ if (!real_##name) real_##name = (__typeof__(real_##name))dlsym(RTLD_NEXT, #name); real_##name; })
/* What the program sees is the real call. */
#define WITHIN(call) ({ int before = is_inside; is_inside = 1; __typeof__(call) result = call; is_inside = before; result; })
#define WITHIN_VOID(call) ({ int before = is_inside; is_inside = 1; call; is_inside = before; })

/* ---- GLib ---- */

EXPORT void g_mutex_lock(void *lock) {
    TAKE_SITE;
    if (is_inside) { REAL(g_mutex_lock)(lock); return; }
    const struct call_of_schedule *turn = ENTER(R_LOCK, lock, 0);
    struct wait *wait = will_wait(WAITS_FOR_LOCK, (uint64_t)lock, &site);
    WITHIN_VOID(REAL(g_mutex_lock)(lock));
    has_waited(wait);
    acquired(R_LOCK, lock, &site);
    LEAVE(turn);
}

EXPORT int g_mutex_trylock(void *lock) {
    TAKE_SITE;
    if (is_inside) return REAL(g_mutex_trylock)(lock);
    const struct call_of_schedule *turn = ENTER(R_TRIED, lock, 1);
    int success = turn == &failing_call ? 0 : REAL(g_mutex_trylock)(lock);
    while (!success && turn != &failing_call && may_retry(turn)) success = REAL(g_mutex_trylock)(lock);
    if (success) { acquired(R_TRIED, lock, &site); LEAVE(turn); }
    return success;
}

EXPORT void g_mutex_unlock(void *lock) {
    TAKE_SITE;
    const struct call_of_schedule *turn = is_inside ? NULL : ENTER(R_UNLOCK, lock, 0);
    if (!is_inside) tell(R_UNLOCK, lock, site.stack, &site);
    WITHIN_VOID(REAL(g_mutex_unlock)(lock));
    LEAVE(turn);
}

EXPORT void g_mutex_init(void *lock) {
    TAKE_SITE;
    REAL(g_mutex_init)(lock);
    tell_if(!is_inside, R_NEW, lock, &site);
}

EXPORT void g_mutex_clear(void *lock) {
    TAKE_SITE;
    REAL(g_mutex_clear)(lock);
    tell_if(!is_inside, R_NEW, lock, &site);
}

/* As wait_by_turns of recorder.c. */
static int wait_by_turns(const struct call_of_schedule *turn, void *condition, void *lock, struct site *taken) {
    struct site site = *taken;
    WITHIN_VOID(REAL(g_mutex_unlock)(lock));
    LEAVE(turn);
    int was_woken = !comes_next(R_LOCK);
    if (was_woken) {
        turn = ENTER(R_TAKE, condition, 0);
        tell(R_TAKE, condition, 0, &site);
        LEAVE(turn);
    }
    turn = ENTER(R_LOCK, lock, 0);
    struct wait *wait = will_wait(WAITS_FOR_LOCK, (uint64_t)lock, &site);
    WITHIN_VOID(REAL(g_mutex_lock)(lock));
    has_waited(wait);
    acquired(R_LOCK, lock, &site);
    LEAVE(turn);
    return was_woken;
}

EXPORT void g_cond_wait(void *condition, void *lock) {
    TAKE_SITE;
    if (is_inside) { REAL(g_cond_wait)(condition, lock); return; }
    const struct call_of_schedule *turn = ENTER(R_UNLOCK, lock, 0);
    tell(R_UNLOCK, lock, site.stack, &site);
    if (turn && has_turn(turn)) { wait_by_turns(turn, condition, lock, &site); return; }
    if (turn) enter_loop_of_wait(turn);
    LEAVE(turn);
    WITHIN_VOID(REAL(g_cond_wait)(condition, lock));
    tell(R_TAKE, condition, 0, &site);
    acquired(R_LOCK, lock, &site);
}

EXPORT int g_cond_wait_until(void *condition, void *lock, int64_t until) {
    TAKE_SITE;
    if (is_inside) return REAL(g_cond_wait_until)(condition, lock, until);
    const struct call_of_schedule *turn = ENTER(R_UNLOCK, lock, 0);
    tell(R_UNLOCK, lock, site.stack, &site);
    if (turn && has_turn(turn)) return wait_by_turns(turn, condition, lock, &site);
    if (turn) enter_loop_of_wait(turn);
    LEAVE(turn);
    int was_woken = WITHIN(REAL(g_cond_wait_until)(condition, lock, until));
    tell_if(was_woken, R_TAKE, condition, &site);
    acquired(R_LOCK, lock, &site);
    return was_woken;
}

EXPORT void g_cond_signal(void *condition) {
    TAKE_SITE;
    const struct call_of_schedule *turn = is_inside ? NULL : ENTER(R_GIVE, condition, 0);
    if (!is_inside) tell(R_GIVE, condition, BY_CONDITION, &site);
    WITHIN_VOID(REAL(g_cond_signal)(condition));
    LEAVE(turn);
}

EXPORT void g_cond_broadcast(void *condition) {
    TAKE_SITE;
    const struct call_of_schedule *turn = is_inside ? NULL : ENTER(R_GIVE, condition, 0);
    if (!is_inside) tell(R_GIVE, condition, BY_CONDITION, &site);
    WITHIN_VOID(REAL(g_cond_broadcast)(condition));
    LEAVE(turn);
}

/* ---- C++: the initialisation of a static variable of a function ---- */

/* Returns 1 in the thread that initialises it. Others come after its end. */
EXPORT int __cxa_guard_acquire(void *guard) {
    TAKE_SITE;
    int waits = schedule && comes_next(R_ONCE);
    const struct call_of_schedule *turn = waits ? ENTER(R_ONCE, guard, 0) : NULL;
    int initialises = WITHIN(REAL(__cxa_guard_acquire)(guard));
    if (initialises) return initialises;
    if (!waits) turn = ENTER(R_ONCE, guard, 0);
    tell(R_ONCE, guard, 0, &site);
    LEAVE(turn);
    return initialises;
}

EXPORT void __cxa_guard_release(void *guard) {
    TAKE_SITE;
    const struct call_of_schedule *turn = ENTER(R_GIVE, guard, 0);
    tell(R_GIVE, guard, 0, &site);
    publish_value(guard); /* the program reads it as an atomic, and calls nothing if it is initialised */
    WITHIN_VOID(REAL(__cxa_guard_release)(guard));
    LEAVE(turn);
}

/* ---- futex calls ---- */

#if defined(__x86_64__)
/* All other calls jump to the real function with the stack and the registers as they are: some of them return twice, or to another stack. */
__attribute__((visibility("hidden"))) long (*goodlock_real_syscall)(long, ...);
__attribute__((visibility("hidden"))) void goodlock_find_syscall(void);
__attribute__((visibility("hidden"))) long goodlock_futex(long number, uint32_t *address, long operation, long value, long time, long second,
                                                          long third);
__asm__(".pushsection .text\n.globl syscall\n.type syscall, @function\nsyscall:\n\tendbr64\n"
        "\tcmpq $0, goodlock_real_syscall(%rip)\n\tje 2f\n"
        "1:\tcmpq $202, %rdi\n\tje goodlock_futex\n\tjmp *goodlock_real_syscall(%rip)\n"
        "2:\tpushq %rdi\n\tpushq %rsi\n\tpushq %rdx\n\tpushq %rcx\n\tpushq %r8\n\tpushq %r9\n\tsubq $8, %rsp\n"
        "\tcall goodlock_find_syscall\n"
        "\taddq $8, %rsp\n\tpopq %r9\n\tpopq %r8\n\tpopq %rcx\n\tpopq %rdx\n\tpopq %rsi\n\tpopq %rdi\n\tjmp 1b\n"
        ".size syscall, .-syscall\n.popsection\n");
_Static_assert(SYS_futex == 202, "the number above");

void goodlock_find_syscall(void) { goodlock_real_syscall = (long (*)(long, ...))dlsym(RTLD_NEXT, "syscall"); }

static uint8_t waited[WAITED]; /* by hash: where a thread has waited by FUTEX_WAIT */
static uint8_t *waited_at(const uint32_t *address) { return &waited[(uint64_t)address * 0x9E3779B97F4A7C15u >> 48]; }

/* A thread that FUTEX_WAKE has woken comes after the waker. Only waits by FUTEX_WAIT count, as std::atomic::wait makes them. */
long goodlock_futex(long number, uint32_t *address, long operation, long value, long time, long second, long third) {
    struct ring *to = page.ring;
    int what = (int)(operation & ~(long)FUTEX_FLAGS);
    if (!to || is_inside || self == NOBODY || __atomic_load_n(&to->waits[self % WAITS].address, __ATOMIC_RELAXED))
        return goodlock_real_syscall(number, address, operation, value, time, second, third);
    TAKE_SITE;
    if (what == FUTEX_WAIT || what == FUTEX_WAIT_BITSET) __atomic_fetch_add(&to->futexes, 1, __ATOMIC_RELAXED);
    if (what == FUTEX_WAIT) __atomic_store_n(waited_at(address), 1, __ATOMIC_SEQ_CST);
    if (what == FUTEX_WAKE && __atomic_load_n(waited_at(address), __ATOMIC_SEQ_CST)) tell(R_GIVE, address, BY_FUTEX, &site);
    long result = goodlock_real_syscall(number, address, operation, value, time, second, third);
    if (what == FUTEX_WAIT && result == 0) tell(R_TAKE, address, BY_FUTEX, &site);
    return result;
}
#endif

/* ---- the end of a library: its locks and its code ---- */

struct library { uint64_t low, high; }; /* low: 0 if it is still there */
struct libraries { uint32_t count; struct library all[MOST_LIBRARIES]; }; /* the last ones that were loaded */

static struct library library_of(const struct dl_phdr_info *info) {
    struct library it = {UINT64_MAX, 0};
    for (int at = 0; at < info->dlpi_phnum; at++) {
        const ElfW(Phdr) *part = &info->dlpi_phdr[at];
        if (part->p_type != PT_LOAD) continue;
        if (info->dlpi_addr + part->p_vaddr < it.low) it.low = info->dlpi_addr + part->p_vaddr;
        if (info->dlpi_addr + part->p_vaddr + part->p_memsz > it.high) it.high = info->dlpi_addr + part->p_vaddr + part->p_memsz;
    }
    return it;
}

static int note_library(struct dl_phdr_info *info, size_t size, void *raw) {
    struct libraries *to = raw;
    (void)size;
    to->all[to->count++ % MOST_LIBRARIES] = library_of(info);
    return 0;
}

static int strike_library(struct dl_phdr_info *info, size_t size, void *raw) {
    struct libraries *from = raw;
    struct library it = library_of(info);
    (void)size;
    for (uint32_t at = 0; at < from->count && at < MOST_LIBRARIES; at++) if (from->all[at].low == it.low) from->all[at].low = 0;
    return 0;
}

EXPORT int dlclose(void *library) {
    static int (*real)(void *);
    struct libraries before;
    struct site none = {.count = 0};
    if (!real) real = (int (*)(void *))dlsym(RTLD_NEXT, "dlclose");
    if (!page.ring) return real(library);
    before.count = 0;
    dl_iterate_phdr(note_library, &before);
    int error = real(library);
    dl_iterate_phdr(strike_library, &before);
    for (uint32_t at = 0; at < before.count && at < MOST_LIBRARIES; at++)
        if (before.all[at].low) tell(R_UNLOADED, (void *)before.all[at].low, before.all[at].high - before.all[at].low, &none);
    return error;
}

void find_libraries(void) {
#define HIDE(type, name, words) hide_unless_next(#name, (void *)name);
    CALLS(HIDE)
}
