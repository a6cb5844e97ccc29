/* The calls that the compilers insert for accesses of atomics: these functions make the accesses. An access that writes makes the cell BUSY,
 * then the access, then names this thread in the cell. So each read is tied to its true writer, and nobody waits for a thread without end. */
#include "memory.h"

#include <sched.h>

enum { PATIENCE = 2000, ROUNDS_OF_YIELD = 50 };
#define ORDER __ATOMIC_SEQ_CST
typedef unsigned __int128 uint128_t;

/* An access that writes: `cell` is BUSY in the name of this thread, which by then comes after what wrote it `before`. */
struct hold { uint64_t *cell, before, mine; };

static int is_busy(uint64_t cell) { return cell & BUSY && cell >> WRITER != me.cell >> WRITER; }

static void pause_in(int round) {
    if (round % ROUNDS_OF_YIELD == ROUNDS_OF_YIELD - 1) sched_yield();
    else __builtin_ia32_pause();
}

/* A holder that does not go on (it is stopped, or this is its signal handler) is passed: this thread comes after it. */
static struct hold hold_cell(const volatile void *at, void *caller, void *frame) {
    struct hold hold = {.cell = NULL};
    if (!is_followed()) return hold;
    settle();
    hold.cell = cell_of((uint64_t)at);
    for (int round = 0;;) {
        hold.before = get(hold.cell);
        if (is_new(hold.before, BY_ATOMICS)) see(hold.before, BY_ATOMICS, caller, frame);
        hold.mine = me.cell;
        if (is_busy(hold.before) && ++round < PATIENCE) pause_in(round);
        else if (swap(hold.cell, &hold.before, hold.mine | BUSY)) return hold;
    }
}

static void leave_cell(struct hold hold, int has_written, unsigned size) {
    uint64_t held = hold.mine | BUSY;
    if (!hold.cell) return;
    swap(hold.cell, &held, has_written ? hold.mine : hold.before & ~BUSY);
    if (size > 8 && has_written) __atomic_store_n(hold.cell + 1, hold.mine, __ATOMIC_RELEASE);
}

/* ---- 16 bytes: the processor can only compare and exchange them ---- */

static uint128_t load_16(const volatile uint128_t *at) { return __sync_val_compare_and_swap((volatile uint128_t *)at, 0, 0); }
static uint128_t exchange_16(volatile uint128_t *at, uint128_t by) {
    uint128_t before = load_16(at), now;
    while ((now = __sync_val_compare_and_swap(at, before, by)) != before) before = now;
    return before;
}
static int compare_16(volatile uint128_t *at, uint128_t *expected, uint128_t by) {
    uint128_t now = __sync_val_compare_and_swap(at, *expected, by);
    int is_done = now == *expected;
    *expected = now;
    return is_done;
}
#define FETCH_16(name, value) \
    static uint128_t fetch_##name##_16(volatile uint128_t *at, uint128_t by) { \
        uint128_t before = load_16(at), now; \
        while ((now = __sync_val_compare_and_swap(at, before, value)) != before) before = now; \
        return before; \
    }
FETCH_16(add, before + by) FETCH_16(sub, before - by) FETCH_16(and, before & by) FETCH_16(or, before | by) FETCH_16(xor, before ^ by)
FETCH_16(nand, ~(before & by))

/* ---- the accesses themselves ---- */

#define ACCESS_OF(bits, type) \
    static inline type load##bits(const volatile type *at) { return __atomic_load_n(at, ORDER); } \
    static inline void store##bits(volatile type *at, type value, int order) { \
        if (order == __ATOMIC_SEQ_CST) __atomic_store_n(at, value, __ATOMIC_SEQ_CST); \
        else __atomic_store_n(at, value, __ATOMIC_RELEASE); \
    } \
    static inline type exchange##bits(volatile type *at, type by) { return __atomic_exchange_n(at, by, ORDER); } \
    static inline int compare##bits(volatile type *at, type *expected, type by) { \
        return __atomic_compare_exchange_n(at, expected, by, 0, ORDER, ORDER); \
    }
ACCESS_OF(8, uint8_t) ACCESS_OF(16, uint16_t) ACCESS_OF(32, uint32_t) ACCESS_OF(64, uint64_t)
static inline uint128_t load128(const volatile uint128_t *at) { return load_16(at); }
static inline void store128(volatile uint128_t *at, uint128_t value, int order) { (void)order, exchange_16(at, value); }
static inline uint128_t exchange128(volatile uint128_t *at, uint128_t by) { return exchange_16(at, by); }
static inline int compare128(volatile uint128_t *at, uint128_t *expected, uint128_t by) { return compare_16(at, expected, by); }

/* A read needs no hold: if no write was made meanwhile, the cell names who wrote the value. */
#define LOADED(bits, type) \
    static type loaded##bits(const volatile type *at, void *caller, void *frame) { \
        type value = load##bits(at); \
        if (!is_followed()) return value; \
        settle(); \
        uint64_t *cell = cell_of((uint64_t)at), before; \
        for (int round = 0;;) { \
            before = get(cell); \
            value = load##bits(at); \
            if (before == get(cell) && !is_busy(before)) break; \
            if (++round > PATIENCE) { \
                if (is_new(before, BY_ATOMICS)) see(before, BY_ATOMICS, caller, frame); \
                before = get(cell); \
                break; \
            } \
            pause_in(round); \
        } \
        if (__builtin_expect(is_new(before, BY_ATOMICS), 0)) see(before, BY_ATOMICS, caller, frame); \
        return value; \
    }

/* ---- the calls ---- */

#define CHANGED(type, at, call) ({ struct hold hold = hold_cell(at, CALLER); type value = call; leave_cell(hold, 1, sizeof(type)); value; })
#define FETCH(bits, type, name, call) \
    EXPORT type __tsan_atomic##bits##_fetch_##name(volatile type *at, type by, int order) { \
        (void)order; \
        return CHANGED(type, at, call(at, by)); \
    }
#define IN_ORDER_add(at, by) __atomic_fetch_add(at, by, ORDER)
#define IN_ORDER_sub(at, by) __atomic_fetch_sub(at, by, ORDER)
#define IN_ORDER_and(at, by) __atomic_fetch_and(at, by, ORDER)
#define IN_ORDER_or(at, by) __atomic_fetch_or(at, by, ORDER)
#define IN_ORDER_xor(at, by) __atomic_fetch_xor(at, by, ORDER)
#define IN_ORDER_nand(at, by) __atomic_fetch_nand(at, by, ORDER)
#define FETCHES(bits, type) FETCH(bits, type, add, IN_ORDER_add) FETCH(bits, type, sub, IN_ORDER_sub) FETCH(bits, type, and, IN_ORDER_and) \
    FETCH(bits, type, or, IN_ORDER_or) FETCH(bits, type, xor, IN_ORDER_xor) FETCH(bits, type, nand, IN_ORDER_nand)

#define ATOMIC(bits, type) \
    LOADED(bits, type) \
    EXPORT type __tsan_atomic##bits##_load(const volatile type *at, int order) { (void)order; return loaded##bits(at, CALLER); } \
    EXPORT void __tsan_atomic##bits##_store(volatile type *at, type value, int order) { \
        struct hold hold = hold_cell(at, CALLER); \
        store##bits(at, value, order); \
        leave_cell(hold, 1, sizeof(type)); \
    } \
    EXPORT type __tsan_atomic##bits##_exchange(volatile type *at, type by, int order) { \
        (void)order; \
        return CHANGED(type, at, exchange##bits(at, by)); \
    } \
    static int compared##bits(volatile type *at, type *expected, type by, void *caller, void *frame) { \
        type now = loaded##bits(at, caller, frame); \
        if (now != *expected) { *expected = now; return 0; } \
        struct hold hold = hold_cell(at, caller, frame); \
        int is_done = compare##bits(at, expected, by); \
        leave_cell(hold, is_done, sizeof(type)); \
        return is_done; \
    } \
    EXPORT int __tsan_atomic##bits##_compare_exchange_strong(volatile type *at, type *expected, type by, int order, int other) { \
        (void)order, (void)other; \
        return compared##bits(at, expected, by, CALLER); \
    } \
    EXPORT int __tsan_atomic##bits##_compare_exchange_weak(volatile type *at, type *expected, type by, int order, int other) { \
        (void)order, (void)other; \
        return compared##bits(at, expected, by, CALLER); \
    } \
    EXPORT type __tsan_atomic##bits##_compare_exchange_val(volatile type *at, type expected, type by, int order, int other) { \
        (void)order, (void)other; \
        compared##bits(at, &expected, by, CALLER); \
        return expected; \
    }
ATOMIC(8, uint8_t) FETCHES(8, uint8_t)
ATOMIC(16, uint16_t) FETCHES(16, uint16_t)
ATOMIC(32, uint32_t) FETCHES(32, uint32_t)
ATOMIC(64, uint64_t) FETCHES(64, uint64_t)
ATOMIC(128, uint128_t)
FETCH(128, uint128_t, add, fetch_add_16) FETCH(128, uint128_t, sub, fetch_sub_16) FETCH(128, uint128_t, and, fetch_and_16)
FETCH(128, uint128_t, or, fetch_or_16) FETCH(128, uint128_t, xor, fetch_xor_16) FETCH(128, uint128_t, nand, fetch_nand_16)

EXPORT void __tsan_atomic_thread_fence(int order) { (void)order, __atomic_thread_fence(__ATOMIC_SEQ_CST); }
EXPORT void __tsan_atomic_signal_fence(int order) { (void)order, __atomic_signal_fence(__ATOMIC_SEQ_CST); }
