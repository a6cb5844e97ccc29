/* The threads and locks that live. Each look-up takes the same time however many there are or were, and the memory is that of those that
 * live: a thread is removed when nobody can join it any more, a lock when its memory is freed or holds another one. */
#include "../collector.h"

enum { LEAST_SLOTS = 64, PAGE = 12, REGION = 21, MOST_LIVE = 1 << 20 };

struct thread *oldest_thread;
static struct thread *newest_thread;
static struct table threads, handles, locks, places;
static struct stack { uint64_t low, high; struct thread *thread; } *stacks; /* sorted by `low` */
static size_t stacks_count, stacks_room;

/* ---- hash tables ---- */

static size_t slot_of(const struct table *table, uint64_t key) { return (size_t)(key * 0x9E3779B97F4A7C15u >> 20) & (table->size - 1); }

struct entry *find_entry(const struct table *table, uint64_t key) {
    if (!table->size) return NULL;
    struct entry *entry = table->slots[slot_of(table, key)];
    while (entry && entry->key != key) entry = entry->next;
    return entry;
}

static void enlarge(struct table *table) {
    struct table larger = {.size = table->size ? 2 * table->size : LEAST_SLOTS, .count = table->count};
    larger.slots = allocate(larger.size * sizeof *larger.slots);
    for (size_t at = 0; at < table->size; at++)
        for (struct entry *entry = table->slots[at], *next; entry; entry = next) {
            size_t slot = slot_of(&larger, entry->key);
            next = entry->next, entry->next = larger.slots[slot], larger.slots[slot] = entry;
        }
    free(table->slots);
    *table = larger;
}

void add_entry(struct table *table, struct entry *entry, uint64_t key) {
    if (table->count++ >= table->size) enlarge(table);
    struct entry **slot = &table->slots[slot_of(table, entry->key = key)];
    entry->next = *slot, *slot = entry;
}

void remove_entry(struct table *table, struct entry *entry) {
    struct entry **link = &table->slots[slot_of(table, entry->key)];
    while (*link != entry) link = &(*link)->next;
    *link = entry->next;
    table->count--;
}

void clear_table(struct table *table) {
    for (size_t at = 0; at < table->size; at++)
        for (struct entry *entry = table->slots[at], *next; entry; entry = next) next = entry->next, free(entry);
    free(table->slots);
    *table = (struct table){0};
}

/* ---- threads ---- */

int has_room_for_threads(void) { return threads.count + 2 <= MOST_LIVE; }

struct thread *known_thread(uint32_t number) { return (struct thread *)find_entry(&threads, number); }

struct thread *find_thread(uint32_t number) {
    struct thread *it = known_thread(number);
    if (it) return it;
    it = allocate(sizeof *it);
    add_entry(&threads, &it->entry, it->number = number);
    it->older = newest_thread;
    *(newest_thread ? &newest_thread->newer : &oldest_thread) = it;
    return newest_thread = it;
}

struct thread *thread_of_handle(uint64_t handle) {
    struct entry *entry = find_entry(&handles, handle);
    return entry ? (struct thread *)((char *)entry - offsetof(struct thread, by_handle)) : NULL;
}

void set_handle(struct thread *it, uint64_t handle) {
    if (it->handle) remove_entry(&handles, &it->by_handle);
    if ((it->handle = handle)) add_entry(&handles, &it->by_handle, handle);
}

/* The last stack that begins at or below an address; the place of the next one. */
static size_t stacks_below(uint64_t address) {
    size_t low = 0, high = stacks_count;
    while (low < high) {
        size_t middle = (low + high) / 2;
        if (stacks[middle].low <= address) low = middle + 1;
        else high = middle;
    }
    return low;
}

void set_stack(struct thread *it, uint64_t low, uint64_t high) {
    if (it->stack_high) {
        size_t at = stacks_below(it->stack_low);
        while (at > 0 && stacks[at - 1].thread != it) at--;
        memmove(&stacks[at - 1], &stacks[at], (stacks_count-- - at) * sizeof *stacks);
    }
    it->stack_low = low, it->stack_high = high;
    if (!high) return;
    size_t at = stacks_below(low);
    stacks = grow(stacks, stacks_count, &stacks_room, sizeof *stacks);
    memmove(&stacks[at + 1], &stacks[at], (stacks_count++ - at) * sizeof *stacks);
    stacks[at] = (struct stack){low, high, it};
}

struct thread *thread_of_stack(uint64_t address) {
    size_t at = stacks_below(address);
    return at && address < stacks[at - 1].high ? stacks[at - 1].thread : NULL;
}

void remove_thread(struct thread *it) {
    set_handle(it, 0);
    set_stack(it, 0, 0);
    remove_entry(&threads, &it->entry);
    *(it->older ? &it->older->newer : &oldest_thread) = it->newer;
    *(it->newer ? &it->newer->older : &newest_thread) = it->older;
    free(it->held), free(it->helpers), free(it);
}

/* ---- locks ---- */

/* The locks of a page, or how many a region has. */
struct place { struct entry entry; size_t count; struct lock *first; };

static uint64_t key_of(uint64_t address, int bits) { return address >> bits << 1 | (bits == REGION); }

static struct place *place_of(uint64_t address, int bits) { return (struct place *)find_entry(&places, key_of(address, bits)); }

static struct place *count_in(uint64_t address, int bits, int step) {
    struct place *place = place_of(address, bits);
    if (!place) place = allocate(sizeof *place), add_entry(&places, &place->entry, key_of(address, bits));
    if (place->count += (size_t)step) return place;
    remove_entry(&places, &place->entry);
    free(place);
    return NULL;
}

static struct lock *recent; /* a record looks for its lock several times */

struct lock *known_lock(uint64_t address) {
    if (recent && recent->address == address) return recent;
    struct lock *lock = (struct lock *)find_entry(&locks, address);
    return lock ? recent = lock : NULL;
}

struct lock *find_lock(uint64_t address) {
    struct lock *lock = known_lock(address);
    if (lock) return lock;
    lock = allocate(sizeof *lock);
    lock->holder = NOBODY;
    add_entry(&locks, &lock->entry, lock->address = address);
    count_in(address, REGION, 1);
    struct place *page = count_in(address, PAGE, 1);
    if ((lock->in_page = page->first)) lock->in_page->before = &lock->in_page;
    lock->before = &page->first, page->first = lock;
    return lock;
}

void remove_lock(struct lock *lock) {
    if (recent == lock) recent = NULL;
    leave_stack_of(lock);
    if ((*lock->before = lock->in_page)) lock->in_page->before = lock->before;
    count_in(lock->address, PAGE, -1);
    count_in(lock->address, REGION, -1);
    remove_entry(&locks, &lock->entry);
    free(lock);
}

void leave_stack_of(struct lock *lock) {
    if (!lock->on_stack_before) return;
    if ((*lock->on_stack_before = lock->on_stack)) lock->on_stack->on_stack_before = lock->on_stack_before;
    lock->on_stack = NULL, lock->on_stack_before = NULL;
}

/* A page that has no lock left is freed, so the next lock is read before. */
static void each_lock_of_page(uint64_t at, uint64_t from, uint64_t last, void (*act)(struct lock *)) {
    struct place *page = place_of(at, PAGE);
    for (struct lock *lock = page ? page->first : NULL, *next; lock; lock = next) {
        next = lock->in_page;
        if (lock->address >= from && lock->address <= last) act(lock);
    }
}

void each_lock_in(uint64_t from, uint64_t size, void (*act)(struct lock *)) {
    uint64_t last = size - 1 > UINT64_MAX - from ? UINT64_MAX : from + size - 1;
    if (!size) return;
    if ((last >> REGION) - (from >> REGION) > locks.count) { /* few locks in a large range */
        for (size_t slot = 0; slot < locks.size; slot++)
            for (struct entry *entry = locks.slots[slot], *next; entry; entry = next) {
                next = entry->next;
                if (entry->key >= from && entry->key <= last) act((struct lock *)entry);
            }
        return;
    }
    for (uint64_t at = from; at <= last;) {
        int bits = place_of(at, REGION) ? PAGE : REGION;
        if (bits == PAGE) each_lock_of_page(at, from, last, act);
        if (at >> bits == last >> bits) return;
        at = ((at >> bits) + 1) << bits;
    }
}

/* ---- another program begins ---- */

void forget_all(void) {
    while (oldest_thread) remove_thread(oldest_thread);
    clear_table(&locks), clear_table(&places);
    recent = NULL;
}
