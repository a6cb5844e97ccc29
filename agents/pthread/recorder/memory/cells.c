/* The cells of memory: a table of parts of the address space, each 1 GB, whose cells are mapped when the first one is needed. No two addresses
 * share a cell, except those in the same eight bytes. */
#include "memory.h"

#include <sys/mman.h>

enum { PAGE_SIZE = 4096, FEW = 64 << 10 };

uint64_t *cell_parts[PARTS];
static uint64_t *spare; /* if there is no memory for a part */

static uint64_t *map_part(void) {
    int before = errno;
    uint64_t *part = mmap(NULL, PART_SIZE, PROT_READ | PROT_WRITE, MAP_PRIVATE | MAP_ANONYMOUS | MAP_NORESERVE, -1, 0);
    if (part == MAP_FAILED) part = NULL;
    else madvise(part, PART_SIZE, MADV_DONTDUMP);
    errno = before;
    return part;
}

/* Cells that are there already are those of the process that has forked this one. */
int begin_cells(void) {
    if (!spare) return (spare = map_part()) != NULL;
    for (uint32_t at = 0; at < PARTS; at++) if (cell_parts[at]) madvise(cell_parts[at], PART_SIZE, MADV_DONTNEED);
    return 1;
}

/* Several threads may map a part at the same time: the first one counts. */
uint64_t *find_part(uint64_t address) {
    uint64_t **at = &cell_parts[address >> PART_BITS & (PARTS - 1)], *other = NULL, *part = map_part();
    if (!part) {
        if (page.ring) __atomic_fetch_or(&page.ring->values, VALUES_LOST, __ATOMIC_RELAXED);
        part = spare;
    }
    if (__atomic_compare_exchange_n(at, &other, part, 0, __ATOMIC_ACQ_REL, __ATOMIC_ACQUIRE)) return part;
    if (part != spare) munmap(part, PART_SIZE);
    return other;
}

/* Pages that were never touched stay so. */
static void clear(uint64_t *low, uint64_t *high) {
    for (; low < high; low++) if (*low) *low = 0;
}

static void clear_many(uint64_t *low, uint64_t *high) {
    uint64_t first = ((uint64_t)low + PAGE_SIZE - 1) & -(uint64_t)PAGE_SIZE, last = (uint64_t)high & -(uint64_t)PAGE_SIZE;
    if (first + FEW > last) { clear(low, high); return; }
    clear(low, (uint64_t *)first), clear((uint64_t *)last, high);
    int before = errno;
    madvise((void *)first, last - first, MADV_DONTNEED);
    errno = before;
}

void forget_values(uint64_t from, uint64_t size) {
    if (!follows_atomics || !size) return;
    for (uint64_t end = from + size, next; from < end; from = next) {
        uint64_t *part = cell_parts[from >> PART_BITS & (PARTS - 1)];
        next = (from | (PART_SIZE - 1)) + 1;
        if (next > end) next = end;
        if (part) clear_many(part + ((from & (PART_SIZE - 1)) >> 3), part + (((next - 1) & (PART_SIZE - 1)) >> 3) + 1);
    }
}
