/* The values that threads read, in the traces: a read, and before it the write whose value it sees. A record R_SEES says that its thread comes
 * after the first K records of another one. So that one writes a variable of its own right after its Kth record, and the thread reads it.
 * docs/agents.md says why no verdict needs more.
 *
 * What a thread comes after already, by forks, joins and reads, is not read again. So each read that is left adds to what its thread comes
 * after, and the most reads of a window are the number of its threads times the number of other records. Of the memory that this takes, all
 * but the places in the log is freed when the window ends. */
#include "../collector.h"

enum { MOST_OF_VECTORS = 64 << 20, MOST_LOGGED = 1 << 25 };

/* What a thread comes after, by the slots of threads: of each, how many records that are no reads. It is shared, and never changed. */
struct vector { struct vector *older; uint32_t count, of[]; };

/* After a record of a thread: how much of the trace and of the log is before, and what the thread then comes after. */
struct place { uint32_t position, site, syncs, variables[LEVELS]; const struct vector *knows[LEVELS]; };

/* A thread that has recorded. `records` and `before`: in the run, and before this window. `logged`: how many entries of the log are before the
 * end of each record, after the `dropped` first ones; these end before `oldest`. */
struct author {
    struct entry entry;
    uint32_t number, slot, window, syncs, site, oldest;
    uint64_t records, before, dropped;
    struct place *places;
    uint32_t *logged;
    size_t count, room, logged_count, logged_room;
    const struct vector *knows[LEVELS];
};

unsigned long values_read;
static struct table authors;
static struct vector *vectors;
static size_t size_of_vectors, all_logged;
static uint32_t slots;

static struct author *known_author(uint32_t thread) { return (struct author *)find_entry(&authors, thread); }

/* Numbers of threads are those that this window knows. */
static struct author *author_of(uint32_t thread) {
    struct author *it = known_author(thread);
    if (!it) it = allocate(sizeof *it), add_entry(&authors, &it->entry, it->number = thread);
    if (it->window != window) it->window = window, it->slot = slots++, it->before = it->records;
    return it;
}

/* ---- what threads come after ---- */

static uint32_t known(const struct vector *knows, uint32_t slot) { return knows && slot < knows->count ? knows->of[slot] : 0; }

static struct vector *new_vector(uint32_t count) {
    size_t size = sizeof(struct vector) + count * sizeof(uint32_t);
    struct vector *it = allocate(size);
    it->count = count, it->older = vectors, vectors = it;
    size_of_vectors += size;
    return it;
}

/* The thread now comes after what another one had done, which came after `theirs`, and of whose records these are no reads. Returns 0 if that
 * is not new. With too many vectors it is taken for new: then reads are written that nobody needs. */
static int learn_at(enum level level, struct author *it, uint32_t slot, const struct vector *theirs, uint32_t syncs) {
    const struct vector *mine = it->knows[level];
    int is_new = syncs > known(mine, slot);
    for (uint32_t at = 0; theirs && at < theirs->count && !is_new; at++) is_new = at != it->slot && theirs->of[at] > known(mine, at);
    if (!is_new || size_of_vectors > MOST_OF_VECTORS) return is_new;
    struct vector *merged = new_vector(slots);
    for (uint32_t at = 0; at < slots; at++) {
        uint32_t other = at == slot && syncs > known(theirs, at) ? syncs : known(theirs, at);
        merged->of[at] = known(mine, at) > other ? known(mine, at) : other;
    }
    it->knows[level] = merged;
    return 1;
}

static int learn(enum level lowest, struct author *it, uint32_t slot, const struct vector *const theirs[LEVELS], uint32_t syncs) {
    int is_new = 0;
    for (int level = lowest; level < LEVELS; level++) is_new |= learn_at((enum level)level, it, slot, theirs[level], syncs);
    return is_new;
}

void learn_by_fork(uint32_t parent, uint32_t child) {
    if (!has_recorder_of_values()) return;
    struct author *from = author_of(parent), *to = author_of(child);
    learn(BY_ATOMICS, to, from->slot, from->knows, from->syncs + 1);
}

void learn_by_join(uint32_t thread, uint32_t child) {
    struct author *from = has_recorder_of_values() ? known_author(child) : NULL;
    if (from && from->window == window) learn(BY_ATOMICS, author_of(thread), from->slot, from->knows, from->syncs);
}

/* ---- places ---- */

/* If these numbers take too much memory, the oldest ones are dropped: the writes that they place then come later than they were. */
static void drop_logged(void) {
    for (size_t slot = 0; slot < authors.size; slot++)
        for (struct entry *entry = authors.slots[slot]; entry; entry = entry->next) {
            struct author *it = (struct author *)entry;
            free(it->logged), it->logged = NULL;
            it->logged_count = it->logged_room = 0, it->dropped = it->records, it->oldest = log_entries();
        }
    all_logged = 0;
}

void note_place(uint32_t thread, int is_read, uint32_t site) {
    struct thread *of = known_thread(thread);
    if (!of) return;
    name_in_window(thread);
    struct author *it = author_of(thread);
    if (!is_read) it->syncs++;
    if (site) it->site = site;
    it->places = grow(it->places, it->count, &it->room, sizeof *it->places);
    struct place *place = &it->places[it->count++];
    *place = (struct place){.position = raw_events(), .site = it->site ? it->site : of->begun, .syncs = it->syncs};
    memcpy(place->knows, it->knows, sizeof place->knows);
    it->records++;
    if (why_no_log()) return;
    if (all_logged++ >= MOST_LOGGED) drop_logged();
    it->logged = grow(it->logged, it->logged_count, &it->logged_room, sizeof *it->logged);
    it->logged[it->logged_count++] = log_entries();
}

static uint32_t logged_at(const struct author *it, uint64_t count) {
    return count <= it->dropped || count - it->dropped > it->logged_count ? it->oldest : it->logged[count - it->dropped - 1];
}

void forget_places(void) {
    for (struct vector *older; vectors; vectors = older) older = vectors->older, free(vectors);
    for (size_t slot = 0; slot < authors.size; slot++)
        for (struct entry *entry = authors.slots[slot]; entry; entry = entry->next) {
            struct author *it = (struct author *)entry;
            free(it->places), it->places = NULL, it->count = it->room = 0;
            memset(it->knows, 0, sizeof it->knows);
        }
    size_of_vectors = slots = 0;
}

void forget_authors(void) {
    for (size_t slot = 0; slot < authors.size; slot++)
        for (struct entry *entry = authors.slots[slot]; entry; entry = entry->next) {
            struct author *it = (struct author *)entry;
            free(it->places), free(it->logged);
        }
    clear_table(&authors);
    all_logged = 0;
}

/* ---- reads ---- */

uint32_t new_value(enum level level) {
    static uint32_t values;
    return (level == BY_ATOMICS ? ATOMIC_VALUES : PLAIN_VALUES) + ++values % (PLAIN_VALUES - ATOMIC_VALUES);
}

void see(uint32_t thread, uint64_t cell, uint32_t site) {
    enum level level = cell & READ_BY_ATOMIC ? BY_ATOMICS : BY_ALL;
    uint64_t writer = (cell >> WRITER) - 1, count = cell & WRITER_COUNT;
    struct author *of = cell >> WRITER ? known_author((uint32_t)writer) : NULL;
    if (!of || writer == thread) return;
    if (count > of->records) count = of->records; /* a signal handler has recorded while the thread did */
    if (!count) return;
    struct moment moment = {.thread = of->number, .site = of->site, .logged = logged_at(of, count)};
    if (of->window != window || count <= of->before) { /* in the trace, all that is before the window comes before it */
        read_in_log(thread, &moment, new_value(level), site);
        return;
    }
    struct place *place = &of->places[count - of->before - 1];
    if (!learn(level, author_of(thread), of->slot, place->knows, place->syncs)) return;
    values_read++;
    moment.position = place->position, moment.site = place->site;
    if (!place->variables[level]) insert_write(&moment, place->variables[level] = new_value(level));
    take_value(thread, place->variables[level], site);
}
