/* The calls that the compilers insert for accesses of plain memory. */
#include "memory.h"

/* A write of a part of the cell's bytes: the cell then stands for the former writer too. */
static void __attribute__((noinline)) write_part(uint64_t *cell, void *caller, void *frame) {
    uint64_t before = get(cell);
    do if (is_new(before, BY_ALL)) see(before, BY_ALL, caller, frame); while (!swap(cell, &before, me.cell));
}

void __attribute__((noinline)) touch(uint64_t from, uint64_t size, int writes, void *caller, void *frame) {
    uint64_t end = from + size;
    settle();
    for (uint64_t at = from & ~(uint64_t)7; at < end; at += 8) {
        uint64_t *cell = cell_of(at), before = get(cell);
        if (!writes) {
            if (is_new(before, BY_ALL)) see(before, BY_ALL, caller, frame);
        } else if (before != me.cell) {
            if (at >= from && at + 8 <= end) __atomic_store_n(cell, me.cell, __ATOMIC_RELEASE);
            else write_part(cell, caller, frame);
        }
    }
}

void publish_value(const void *at) {
    if (is_followed()) touch((uint64_t)at, 8, WRITES, __builtin_return_address(0), NULL);
}

void touch_values(uint64_t from, uint64_t size, int writes) {
    touch_if((void *)from, size, writes, __builtin_return_address(0), NULL);
}

INLINE int is_split(uint64_t address, unsigned size, int is_aligned) { return size > 8 || (!is_aligned && (address & 7) + size > 8); }

INLINE void reads(const volatile void *memory, unsigned size, int is_aligned, void *caller, void *frame) {
    uint64_t address = (uint64_t)memory;
    if (!follows_plain || !is_followed()) return;
    if (is_split(address, size, is_aligned)) { touch(address, size, READS, caller, frame); return; }
    settle();
    me.late = address, me.late_caller = (uint64_t)caller;
    uint64_t cell = get(cell_of(address));
    if (__builtin_expect(is_new(cell, BY_ALL), 0)) see(cell, BY_ALL, caller, frame);
}

INLINE void writes(const volatile void *memory, unsigned size, int is_aligned, void *caller, void *frame) {
    uint64_t address = (uint64_t)memory;
    if (!follows_plain || !is_followed()) return;
    if (is_split(address, size, is_aligned)) { touch(address, size, WRITES, caller, frame); return; }
    settle();
    uint64_t *cell = cell_of(address);
    if (get(cell) == me.cell) return;
    if (size == 8) __atomic_store_n(cell, me.cell, __ATOMIC_RELEASE);
    else write_part(cell, caller, frame);
}

#define ACCESSES(form, size, is_aligned) \
    EXPORT void __tsan_##form##read##size(void *at) { reads(at, size, is_aligned, CALLER); } \
    EXPORT void __tsan_##form##write##size(void *at) { writes(at, size, is_aligned, CALLER); } \
    EXPORT void __tsan_##form##read_write##size(void *at) { reads(at, size, is_aligned, CALLER), writes(at, size, is_aligned, CALLER); }
ACCESSES(, 1, 1) ACCESSES(, 2, 1) ACCESSES(, 4, 1) ACCESSES(, 8, 1) ACCESSES(, 16, 1)
ACCESSES(unaligned_, 2, 0) ACCESSES(unaligned_, 4, 0) ACCESSES(unaligned_, 8, 0) ACCESSES(unaligned_, 16, 0)
ACCESSES(volatile_, 1, 1) ACCESSES(volatile_, 2, 1) ACCESSES(volatile_, 4, 1) ACCESSES(volatile_, 8, 1) ACCESSES(volatile_, 16, 1)
ACCESSES(unaligned_volatile_, 2, 0) ACCESSES(unaligned_volatile_, 4, 0) ACCESSES(unaligned_volatile_, 8, 0) ACCESSES(unaligned_volatile_, 16, 0)

#define ACCESSES_AT_PC(size) \
    EXPORT void __tsan_read##size##_pc(void *at, void *pc) { (void)pc, reads(at, size, 1, CALLER); } \
    EXPORT void __tsan_write##size##_pc(void *at, void *pc) { (void)pc, writes(at, size, 1, CALLER); }
ACCESSES_AT_PC(1) ACCESSES_AT_PC(2) ACCESSES_AT_PC(4) ACCESSES_AT_PC(8) ACCESSES_AT_PC(16)

#define UNALIGNED(bits, size) \
    EXPORT uint##bits##_t __sanitizer_unaligned_load##bits(const void *at) { \
        uint##bits##_t value; \
        reads(at, size, 0, CALLER); \
        __builtin_memcpy(&value, at, size); \
        return value; \
    } \
    EXPORT void __sanitizer_unaligned_store##bits(void *at, uint##bits##_t value) { \
        writes(at, size, 0, CALLER); \
        __builtin_memcpy(at, &value, size); \
    }
UNALIGNED(16, 2) UNALIGNED(32, 4) UNALIGNED(64, 8)

EXPORT void __tsan_read_range(void *from, uint64_t size) { touch_if(from, size, READS, CALLER); }
EXPORT void __tsan_write_range(void *from, uint64_t size) { touch_if(from, size, WRITES, CALLER); }
EXPORT void __tsan_vptr_read(void **at) { reads(at, 8, 1, CALLER); }
EXPORT void __tsan_vptr_update(void **at, void *value) {
    if (*at != value) writes(at, 8, 1, CALLER);
}
static int has_hooks;

/* Each file of the program that was compiled with hooks calls this when it is loaded, perhaps before the recorder is ready. */
EXPORT void __tsan_init(void) {
    has_hooks = 1;
    if (mapped) __atomic_fetch_or(&mapped->values, VALUES_HOOKED, __ATOMIC_RELAXED);
}

void note_values(struct ring *to) { __atomic_fetch_or(&to->values, VALUES_RECORDER | (has_hooks ? VALUES_HOOKED : 0), __ATOMIC_RELAXED); }

EXPORT void __tsan_func_entry(void *caller) { (void)caller; }
EXPORT void __tsan_func_exit(void) {}
