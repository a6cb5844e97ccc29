/* What each thread comes after. A read whose writer it comes after already is not recorded: because it has recorded a later read from the same
 * writer, or because its reads from others imply it. */
#include "memory.h"

#include <sys/mman.h>
#include <sys/syscall.h>
#include <unistd.h>

enum { KNOWN = 128, COUNTS = 1 << 16 };

/* What a thread has recorded that it comes after, for each writer. A block is used again when its thread has ended. */
struct block {
    struct block *next;
    uint32_t owner, has_ended; /* the system's number of the thread */
    uint64_t unused[510];
    uint64_t seen[LEVELS][COUNTS];
};

/* What a thread comes after: of each thread, how many of its records that count. All count but reads whose news were added here, so the
 * numbers stand for all that the thread comes after. `count` of its records belong to this; 0 means that it changes. */
struct knowledge { uint64_t count; uint32_t of[LEVELS][KNOWN]; uint64_t unused[7]; };

THREAD_LOCAL struct me me;
int follows_atomics, follows_plain;
static struct knowledge all_know[KNOWN];
static struct block *blocks;

/* ---- records ---- */

static void begin_change(void) {
    __atomic_store_n(&me.knows->count, 0, __ATOMIC_RELAXED);
    __atomic_thread_fence(__ATOMIC_RELEASE);
}

void count_record(int is_read) {
    int counts = !is_read || !me.has_joined;
    me.count++, me.has_joined = 0;
    if (!me.block) return;
    if (me.cell) me.cell = (me.cell & ~WRITER_COUNT) | me.count;
    if (!me.knows) return;
    begin_change();
    for (int level = BY_ATOMICS; counts && level < LEVELS; level++) {
        uint32_t *mine = &me.knows->of[level][me.number];
        __atomic_store_n(mine, *mine + 1, __ATOMIC_RELAXED);
    }
    __atomic_store_n(&me.knows->count, me.count, __ATOMIC_RELEASE);
}

static uint32_t all_threads(void) {
    uint32_t all = page.ring ? __atomic_load_n(&page.ring->threads, __ATOMIC_RELAXED) : 0;
    return all < KNOWN ? all : KNOWN;
}

/* Copies what another thread comes after, if it has drawn `count` records. Returns 0 if it has drawn another one meanwhile. */
static int copy_knowledge(uint32_t to[LEVELS][KNOWN], const struct knowledge *of, uint64_t count, enum level lowest, uint32_t threads) {
    if (__atomic_load_n(&of->count, __ATOMIC_ACQUIRE) != count) return 0;
    for (int level = lowest; level < LEVELS; level++)
        for (uint32_t at = 0; at < threads; at++) to[level][at] = __atomic_load_n(&of->of[level][at], __ATOMIC_RELAXED);
    __atomic_thread_fence(__ATOMIC_ACQUIRE);
    return __atomic_load_n(&of->count, __ATOMIC_RELAXED) == count;
}

/* Whether what the writer came after when it wrote is new to this thread, which adds it then. If the writer has drawn records since,
 * this is not known: then it is new, and the record of the read counts. */
static int learns(uint64_t cell, enum level lowest) {
    uint64_t writer = (cell >> WRITER) - 1;
    uint32_t theirs[LEVELS][KNOWN], threads = all_threads(), (*mine)[KNOWN];
    int is_news = 0;
    if (!me.knows || writer >= KNOWN || !copy_knowledge(theirs, &all_know[writer], cell & WRITER_COUNT, lowest, threads)) return 1;
    mine = me.knows->of;
    for (int level = lowest; level < LEVELS; level++)
        for (uint32_t at = 0; at < threads; at++) is_news |= theirs[level][at] > mine[level][at];
    if (!is_news) return 0;
    begin_change(); /* until the record is drawn */
    for (int level = lowest; level < LEVELS; level++)
        for (uint32_t at = 0; at < threads; at++)
            if (theirs[level][at] > mine[level][at]) __atomic_store_n(&mine[level][at], theirs[level][at], __ATOMIC_RELAXED);
    return (int)(me.has_joined = 1);
}

void __attribute__((noinline)) see(uint64_t cell, enum level level, void *caller, void *frame) {
    int before = errno;
    for (int at = level; at < LEVELS; at++)
        if (is_new(cell, (enum level)at)) me.seen[at][cell >> WRITER] = cell & WRITER_COUNT;
    if (learns(cell, level)) tell_seen((cell & ~BUSY) | (level == BY_ATOMICS ? READ_BY_ATOMIC : 0), caller, frame);
    errno = before;
}

void settle_values(void) {
    uint64_t own = (uint64_t)&me, address = me.late;
    if (!me.cell || address == own) return;
    me.late = own;
    uint64_t cell = get(cell_of(address));
    if (is_new(cell, BY_ALL)) see(cell, BY_ALL, (void *)me.late_caller, NULL);
}

/* ---- threads ---- */

static int is_gone(uint32_t thread) {
    int before = errno, is_gone = syscall(SYS_tgkill, getpid(), thread, 0) < 0 && errno == ESRCH;
    errno = before;
    return is_gone;
}

/* A block whose thread has ended, or a new one. */
static struct block *take_block(void) {
    uint32_t mine = (uint32_t)syscall(SYS_gettid);
    for (struct block *it = __atomic_load_n(&blocks, __ATOMIC_ACQUIRE); it; it = it->next) {
        uint32_t owner = __atomic_load_n(&it->owner, __ATOMIC_RELAXED);
        if (!__atomic_load_n(&it->has_ended, __ATOMIC_ACQUIRE) || !is_gone(owner) ||
            !__atomic_compare_exchange_n(&it->owner, &owner, mine, 0, __ATOMIC_ACQ_REL, __ATOMIC_RELAXED)) continue;
        madvise(it->seen, sizeof it->seen, MADV_DONTNEED);
        __atomic_store_n(&it->has_ended, 0, __ATOMIC_RELEASE);
        return it;
    }
    struct block *new = mmap(NULL, sizeof *new, PROT_READ | PROT_WRITE, MAP_PRIVATE | MAP_ANONYMOUS | MAP_NORESERVE, -1, 0);
    if (new == MAP_FAILED) return NULL;
    new->owner = mine, new->next = __atomic_load_n(&blocks, __ATOMIC_RELAXED);
    while (!__atomic_compare_exchange_n(&blocks, &new->next, new, 0, __ATOMIC_RELEASE, __ATOMIC_RELAXED)) continue;
    return new;
}

static void lose(void) {
    me.is_lost = 1;
    if (page.ring) __atomic_fetch_or(&page.ring->values, VALUES_LOST, __ATOMIC_RELAXED);
}

void begin_values(uint32_t number) {
    if (!follows_atomics || me.cell || me.is_lost) return;
    struct block *block = number < MOST_WRITERS ? take_block() : NULL;
    if (!block) { lose(); return; }
    for (int level = 0; level < LEVELS; level++) {
        me.seen[level] = block->seen[level];
        me.seen[level][0] = me.seen[level][number + 1] = UINT64_MAX; /* nobody, and itself */
    }
    if (number < KNOWN) me.knows = &all_know[number];
    me.number = number, me.late = (uint64_t)&me, me.block = block;
    me.cell = (me.number + 1) << WRITER | me.count;
}

void end_values(void) {
    if (me.block) __atomic_store_n(&me.block->has_ended, 1, __ATOMIC_RELEASE);
}

int begin_late(void) {
    if (me.hidden || me.is_lost || !is_recorded()) return 0;
    begin_values(self);
    return me.cell != 0;
}

void follow_values(uint32_t number) {
    struct ring *to = page.ring;
    uint32_t wanted = __atomic_load_n(&to->values, __ATOMIC_RELAXED);
    if (follows_atomics || !(wanted & VALUES_OF_ATOMICS)) return;
    if (!begin_cells()) { lose(); return; }
    follows_plain = (wanted & VALUES_OF_MEMORY) != 0;
    __atomic_store_n(&follows_atomics, 1, __ATOMIC_RELEASE);
    begin_values(number);
}

void stop_values(void) {
    follows_atomics = follows_plain = 0;
    me = (struct me){0};
    blocks = NULL;
    for (uint32_t at = 0; at < KNOWN; at++) all_know[at].count = 0;
}

int is_following_values(void) { return me.cell != 0 && follows_plain; }

/* ---- accesses that are not followed ---- */

void hide_accesses(void) {
    if (me.hidden++ || !me.cell) return;
    settle_values();
    me.cell = 0;
}

void show_accesses(void) {
    if (!me.hidden || --me.hidden || !me.block) return;
    me.cell = (me.number + 1) << WRITER | me.count;
}
