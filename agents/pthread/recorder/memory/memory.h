/* Shared by the files of this folder. They follow which thread wrote the values that each thread reads, in programs that gcc or clang has
 * compiled with -fsanitize=thread: such code calls a function of plain.c or atomics.c for each access.
 *
 * Each eight bytes of memory have a cell: who wrote them last, and how many records the writer had drawn by then. A write of a part of them
 * counts as one that has read the rest. A read looks at the cell. Only one thing is recorded (R_SEES): this thread now comes after the first N
 * records of that thread, if that is new. No verdict depends on more: docs/agents.md says why.
 *
 * A record is drawn before the writer's cells name it, and a reader sees a cell before it draws its own record. So in the order of the records
 * the write is before its reads, whenever it was made. */
#include "../recorder.h"

#include <stddef.h>

#if !defined(__x86_64__)
#error "values in memory are followed on x86-64 only: other processors do not store in order, which these cells rely on"
#endif

#define INLINE static inline __attribute__((always_inline))
#define HIDDEN __attribute__((visibility("hidden")))
#define CALLER __builtin_return_address(0), __builtin_frame_address(0)
enum { READS = 0, WRITES = 1 };

/* Orders are known twice: those that accesses of atomics make, and those that all accesses make. */
enum level { BY_ATOMICS, BY_ALL, LEVELS };

/* A cell has the writer's number plus one above WRITER, and the count below. While an atomic is changed its cell is BUSY. */
#define BUSY READ_BY_ATOMIC

/* What a thread needs on each access. `cell` is what it leaves in the cells of what it writes, 0 if nothing is followed. `seen` has, for each
 * writer plus one, how many of its records this thread has recorded that it comes after. `late` is the address of its last plain read, which is
 * looked up a second time: if it races with a write, it may have read the new value and seen the old cell. */
struct knowledge;
struct me {
    uint64_t cell, late, late_caller, *seen[LEVELS];
    struct knowledge *knows;                 /* NULL: of a thread after the first KNOWN */
    uint64_t number, count;                  /* of this thread; of the records that it has drawn */
    uint32_t hidden, has_joined, is_lost;    /* has_joined: the read that is recorded next adds no more than what `knows` has */
    struct block *block;
};
extern THREAD_LOCAL struct me me HIDDEN;
extern int follows_atomics HIDDEN, follows_plain HIDDEN;

/* ---- cells.c ---- */

enum { PART_BITS = 30, PARTS = 1 << 17 };
#define PART_SIZE ((uint64_t)1 << PART_BITS)
extern uint64_t *cell_parts[PARTS] HIDDEN;
/* Returns the cells of this part of the address space, which are there from now on. */
uint64_t *find_part(uint64_t address) HIDDEN;
/* Returns 0 if there is no memory for them. */
int begin_cells(void) HIDDEN;

INLINE uint64_t *cell_of(uint64_t address) {
    uint64_t *part = __atomic_load_n(&cell_parts[address >> PART_BITS & (PARTS - 1)], __ATOMIC_ACQUIRE);
    if (__builtin_expect(!part, 0)) part = find_part(address);
    return part + ((address & (PART_SIZE - 1)) >> 3);
}
INLINE uint64_t get(const uint64_t *cell) { return __atomic_load_n(cell, __ATOMIC_ACQUIRE); }
INLINE int swap(uint64_t *cell, uint64_t *before, uint64_t after) {
    return __atomic_compare_exchange_n(cell, before, after, 0, __ATOMIC_ACQ_REL, __ATOMIC_ACQUIRE);
}

/* ---- knowledge.c ---- */

/* Whether this thread is followed. */
int begin_late(void) HIDDEN;
INLINE int is_followed(void) { return __builtin_expect(me.cell != 0, 1) || (follows_atomics && begin_late()); }
/* Whether this thread has not yet recorded that it comes after what the writer had done. */
INLINE int is_new(uint64_t cell, enum level level) { return (cell & WRITER_COUNT) > me.seen[level][cell >> WRITER]; }
/* Records that it does, if nothing implies it. */
void see(uint64_t cell, enum level level, void *caller, void *frame) HIDDEN;
/* Looks up the last plain read. */
INLINE void settle(void) {
    uint64_t cell = get(cell_of(me.late));
    if (__builtin_expect(is_new(cell, BY_ALL), 0)) see(cell, BY_ALL, (void *)me.late_caller, NULL);
}

/* ---- plain.c ---- */

/* A range of plain memory is read or written by a thread that is followed. */
void touch(uint64_t from, uint64_t size, int writes, void *caller, void *frame) HIDDEN;
INLINE void touch_if(const volatile void *from, uint64_t size, int writes, void *caller, void *frame) {
    if (size && me.cell && follows_plain) touch((uint64_t)from, size, writes, caller, frame);
}
