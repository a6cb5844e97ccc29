/* The memory of the program that ends: a lock in memory that is freed or unmapped is none any more. A table of memory that contained a lock
 * makes most of these calls cost a look and no record. */
#include "recorder.h"

#include <link.h>
#include <stdlib.h>
#include <string.h>
#include <sys/mman.h>
#include <unistd.h>

enum { LINES = 1 << 20, PAGES = 1 << 16, ANY_LINE = 0x0f };

/* By hash: lines of 64 bytes that have a lock, until they are freed, and pages that have had one. A line has a bit for each 16 bytes where a
 * lock begins, and a mark of its own, or no mark if it stands for several. */
static uint8_t lines[LINES], pages[PAGES];
static THREAD_LOCAL int is_finding_free;

#define REALS(X) X(munmap) X(free) X(realloc)
#define DECLARE(name) static __typeof__(&name) real_##name;
REALS(DECLARE)
static size_t (*real_malloc_usable_size)(void *); /* NULL if it does not belong to the same allocator as `free` */
#define REAL(name) ({ if (!real_##name) real_##name = (__typeof__(&name))dlsym(RTLD_NEXT, #name); real_##name; })

static int page_of(uint64_t address) { return (int)((address >> 12) * 0x9E3779B97F4A7C15u >> 48); }
static uint64_t hash_of_line(uint64_t address) { return (address >> 6) * 0x9E3779B97F4A7C15u; }
static uint8_t *line_of(uint64_t address) { return &lines[hash_of_line(address) >> 44]; }
static uint8_t mark_of(uint64_t address) { return (uint8_t)((hash_of_line(address) >> 36) % 15 + 1) << 4; }
static uint8_t bit_of(uint64_t address) { return (uint8_t)(1 << (address >> 4 & 3)); }

/* This memory has a lock. */
void remember(uint64_t address) {
    uint8_t *line = line_of(address), *of_page = &pages[page_of(address)], mark = mark_of(address), bit = bit_of(address);
    uint8_t before = __atomic_load_n(line, __ATOMIC_RELAXED), after;
    if (!*of_page) *of_page = 1;
    do {
        after = !before ? mark | bit : (before & 0xf0) == mark ? before | bit : ANY_LINE;
        if (before == after || before == ANY_LINE) return;
    } while (!__atomic_compare_exchange_n(line, &before, after, 0, __ATOMIC_RELAXED, __ATOMIC_RELAXED));
}

/* Whether these bytes of a line, which are freed, may have a lock. It has none afterwards. */
static int forget(uint64_t from, uint64_t end) {
    uint8_t *line = line_of(from), mark = mark_of(from), bits = 0, before = __atomic_load_n(line, __ATOMIC_RELAXED), after;
    if (!before) return 0;
    if (before == ANY_LINE) return 1;
    for (uint64_t at = from & ~(uint64_t)15; at < end; at += 16) bits |= bit_of(at);
    do {
        if (before == ANY_LINE) return 1;
        if ((before & 0xf0) != mark || !(before & bits)) return 0;
        after = before & ~bits;
        if (!(after & 0x0f)) after = 0;
    } while (!__atomic_compare_exchange_n(line, &before, after, 0, __ATOMIC_RELAXED, __ATOMIC_RELAXED));
    return 1;
}

static int may_contain_lock(uint64_t from, uint64_t size) {
    int found = 0;
    if (size <= 4096) {
        for (uint64_t at = from, end = from + size, next; at < end; at = next) {
            next = (at | 63) + 1;
            found |= forget(at, next < end ? next : end);
        }
        return found;
    }
    if (size > (uint64_t)256 << 12) return 1;
    for (uint64_t at = from & ~(uint64_t)4095; at < from + size; at += 4096) if (pages[page_of(at)]) return 1;
    return 0;
}

static void frees(void *memory) {
    struct site none = {.count = 0};
    if (!memory || !page.ring || !is_claimed || !real_malloc_usable_size) return;
    uint64_t size = real_malloc_usable_size(memory);
    forget_values((uint64_t)memory, size);
    if (may_contain_lock((uint64_t)memory, size)) tell(R_FREE, memory, size, &none);
}

/* Other constructors may free memory before this library's constructor. What dlsym itself frees meanwhile stays allocated. */
EXPORT void free(void *memory) {
    if (!real_free) {
        if (is_finding_free) return;
        is_finding_free = 1;
        if (!REAL(free)) return;
        is_finding_free = 0;
    }
    frees(memory);
    real_free(memory);
}

EXPORT void *realloc(void *memory, size_t size) {
    uint64_t kept = is_following_values() && memory && real_malloc_usable_size ? real_malloc_usable_size(memory) : 0;
    touch_values((uint64_t)memory, kept, 0);
    if (real_free) frees(memory);
    void *after = REAL(realloc)(memory, size);
    if (after) touch_values((uint64_t)after, kept < size ? kept : size, 1);
    return after;
}

/* C++: the library of C++ calls `free`, but an allocator may have its own. `size` and `alignment` are passed on. */
#define DELETES(X) X(_ZdlPv) X(_ZdaPv) X(_ZdlPvm) X(_ZdaPvm) X(_ZdlPvSt11align_val_t) X(_ZdaPvSt11align_val_t) \
    X(_ZdlPvmSt11align_val_t) X(_ZdaPvmSt11align_val_t) X(_ZdlPvRKSt9nothrow_t) X(_ZdaPvRKSt9nothrow_t)
#define DELETE(name) \
    static void (*real_##name)(void *, size_t, size_t); \
    static int frees_##name; \
    EXPORT void name(void *memory, size_t size, size_t alignment) { \
        if (!real_##name) real_##name = (void (*)(void *, size_t, size_t))dlsym(RTLD_NEXT, #name), frees_##name = is_of_allocator(real_##name); \
        if (frees_##name) frees(memory); \
        if (real_##name) real_##name(memory, size, alignment); \
        else free(memory); \
    }

/* Returns whether a function belongs to the allocator whose `malloc_usable_size` is known. */
static int is_of_allocator(void (*function)(void *, size_t, size_t)) {
    Dl_info of_free, of_it;
    return function && real_free && dladdr((void *)function, &of_it) && dladdr((void *)real_free, &of_free) &&
           of_it.dli_fbase == of_free.dli_fbase;
}

DELETES(DELETE)

void hide_unless_next(const char *name, void *own) {
    Dl_info of_own, of_this;
    ElfW(Sym) *symbol;
    if (dlsym(RTLD_NEXT, name) || !dladdr1(own, &of_own, (void **)&symbol, RTLD_DL_SYMENT) || !symbol ||
        !dladdr((void *)hide_unless_next, &of_this) || of_own.dli_fbase != of_this.dli_fbase) return;
    uint64_t page = (uint64_t)sysconf(_SC_PAGESIZE), first = (uint64_t)symbol & -page, end = (uint64_t)(symbol + 1);
    if (mprotect((void *)first, end - first, PROT_READ | PROT_WRITE)) return;
    symbol->st_value = 0;
    mprotect((void *)first, end - first, PROT_READ);
}

void hide_deletes(void) {
#define HIDE(name) hide_unless_next(#name, (void *)name);
    DELETES(HIDE)
}

EXPORT int munmap(void *memory, size_t size) {
    struct site none = {.count = 0};
    if (page.ring && is_claimed && may_contain_lock((uint64_t)memory, size)) tell(R_FREE, memory, size, &none);
    forget_values((uint64_t)memory, size);
    return REAL(munmap)(memory, size);
}

/* ---- start ---- */

void find_frees(void) {
    Dl_info of_free, of_size;
#define FIND(name) (void)REAL(name);
    REALS(FIND)
    size_t (*size)(void *) = (size_t (*)(void *))dlsym(RTLD_NEXT, "malloc_usable_size");
    if (size && real_free && dladdr((void *)size, &of_size) && dladdr((void *)real_free, &of_free) && of_size.dli_fbase == of_free.dli_fbase)
        real_malloc_usable_size = size;
}
