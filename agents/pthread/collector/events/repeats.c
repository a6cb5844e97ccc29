/* Leaves out sections that repeat an earlier one of the window, while the events come. A section is all events of a thread from an acquire
 * while it holds nothing to the release after which it holds nothing. It is left out if
 *
 * - an earlier section of the thread, which is kept, has the same events at the same sites;
 * - since that one began, the thread has no fork, join or access, and no other thread has acquired one of the section's locks.
 *
 * No verdict changes. Take a set of places that is closed and reaches a cycle. If no member of the cycle waits in the section, the set has all
 * of it or nothing. If a member does, it may wait at the same event of the earlier section: what is then taken away from the set is needed by
 * no other thread, since it has no forks, joins and writes, and nobody else acquires its locks.
 *
 * An event waits here until its section has ended: at most MOST_PENDING events, and a moment if the program pauses. Then it is kept. */
#include "../collector.h"

enum { MOST_PENDING = 4096, MOST_KNOWN = 64, MOST_OF_SECTION = 32, PATIENCE_MS = 200 };
enum state { UNDECIDED, KEPT, LEFT_OUT };

struct operation { uint32_t letter, object, site; };
struct pending { uint32_t thread; struct operation it; enum state state; };
/* A section that is kept. `begin`: the number of its first event. */
struct section { uint64_t begin; uint32_t epoch, count; struct operation operations[]; };
/* A thread: its present section, and the sections that it may repeat, by their hashes. `epoch`: its forks, joins and accesses. */
struct person {
    struct entry entry;
    uint64_t begin, first; /* of the section: the number of its first event, and its place in the queue */
    uint32_t depth, epoch, count;
    uint8_t is_plain, is_kept;
    struct operation operations[MOST_OF_SECTION];
    struct section *known[MOST_KNOWN];
};
/* Who has acquired a lock last, and the numbers of this acquire and of the last one by another thread. */
struct acquirers { struct entry entry; uint64_t last, other; uint32_t thread; };

static struct table persons, locks;
static struct pending queue[MOST_PENDING];
static uint64_t head, tail, number;

static struct person *person_of(uint32_t thread) {
    struct person *person = (struct person *)find_entry(&persons, thread);
    if (!person) person = allocate(sizeof *person), add_entry(&persons, &person->entry, thread);
    return person;
}

static void write_decided(void) {
    for (; head < tail && queue[head % MOST_PENDING].state != UNDECIDED; head++) {
        const struct pending *one = &queue[head % MOST_PENDING];
        if (one->state == KEPT) write_now(one->thread, (char)one->it.letter, one->it.object, one->it.site);
    }
}

/* Decides about the events of the thread's section that are in the queue. */
static void decide(struct person *person, enum state state) {
    for (uint64_t at = person->first > head ? person->first : head; at < tail; at++) {
        struct pending *one = &queue[at % MOST_PENDING];
        if (one->thread == (uint32_t)person->entry.key && one->state == UNDECIDED) one->state = state;
    }
    person->is_kept |= state == KEPT;
}

/* ---- earlier sections ---- */

static struct section **slot_of(struct person *person) {
    uint64_t hash = person->count;
    for (uint32_t at = 0; at < person->count; at++) {
        const struct operation *it = &person->operations[at];
        hash = (hash ^ it->letter ^ (uint64_t)it->object << 32 ^ it->site) * 0x9E3779B97F4A7C15u;
        hash ^= hash >> 29;
    }
    return &person->known[hash % MOST_KNOWN];
}

static int is_same(const struct person *person, const struct section *earlier) {
    return earlier && earlier->epoch == person->epoch && earlier->count == person->count &&
           !memcmp(earlier->operations, person->operations, person->count * sizeof *person->operations);
}

/* Whether no other thread has acquired one of the section's locks since then. */
static int is_undisturbed(const struct person *person, uint64_t since) {
    for (uint32_t at = 0; at < person->count; at++) {
        const struct acquirers *it = (struct acquirers *)find_entry(&locks, person->operations[at].object);
        if ((it->thread == (uint32_t)person->entry.key ? it->other : it->last) >= since) return 0;
    }
    return 1;
}

static void remember(struct person *person, struct section **slot) {
    size_t size = person->count * sizeof *person->operations;
    free(*slot);
    *slot = allocate(sizeof **slot + size);
    (*slot)->begin = person->begin, (*slot)->epoch = person->epoch, (*slot)->count = person->count;
    memcpy((*slot)->operations, person->operations, size);
}

static void end_section(struct person *person) {
    struct section **slot = person->is_plain ? slot_of(person) : NULL;
    if (slot && !person->is_kept && is_same(person, *slot) && is_undisturbed(person, (*slot)->begin)) {
        decide(person, LEFT_OUT);
        forget_events(person->count);
        return;
    }
    decide(person, KEPT);
    if (slot) remember(person, slot);
}

/* ---- events ---- */

static void note_acquire(uint32_t thread, uint32_t lock) {
    struct acquirers *it = (struct acquirers *)find_entry(&locks, lock);
    if (!it) it = allocate(sizeof *it), it->thread = thread, add_entry(&locks, &it->entry, lock);
    if (it->thread != thread) it->other = it->last, it->thread = thread;
    it->last = number;
}

static void add_operation(struct person *person, const struct operation *it) {
    if (it->letter == 'a') note_acquire((uint32_t)person->entry.key, it->object);
    if (!person->depth) person->begin = number, person->first = tail, person->count = 0, person->is_plain = 1, person->is_kept = 0;
    person->depth += it->letter == 'a' ? 1 : -1;
    if (person->count == MOST_OF_SECTION) person->is_plain = 0;
    else person->operations[person->count++] = *it;
}

/* A fork, a join or an access: what the thread did before is repeated by nothing that it does later. */
static void begin_epoch(struct person *person) {
    person->epoch++;
    if (person->depth) person->is_plain = 0, decide(person, KEPT);
}

void add_event(uint32_t thread, char letter, uint32_t object, uint32_t site) {
    struct person *person = person_of(thread);
    struct operation it = {(uint8_t)letter, object, site};
    int is_of_section = letter == 'a' || (letter == 'r' && person->depth);
    number++;
    if (tail - head == MOST_PENDING) decide(person_of(queue[head % MOST_PENDING].thread), KEPT), write_decided();
    if (is_of_section) add_operation(person, &it);
    else begin_epoch(person);
    queue[tail++ % MOST_PENDING] = (struct pending){thread, it, is_of_section && !person->is_kept ? UNDECIDED : KEPT};
    if (is_of_section && !person->depth) end_section(person);
    write_decided();
}

void keep_pending(void) {
    for (uint64_t at = head; at < tail; at++)
        if (queue[at % MOST_PENDING].state == UNDECIDED) decide(person_of(queue[at % MOST_PENDING].thread), KEPT);
    write_decided();
}

void look_at_pending(void) {
    static uint64_t seen = UINT64_MAX, since;
    if (head == tail) return;
    if (seen != head) seen = head, since = now();
    else if (now() - since > PATIENCE_MS) keep_pending();
}

void begin_repeats(void) {
    for (size_t slot = 0; slot < persons.size; slot++)
        for (struct entry *entry = persons.slots[slot]; entry; entry = entry->next)
            for (int at = 0; at < MOST_KNOWN; at++) free(((struct person *)entry)->known[at]);
    clear_table(&persons), clear_table(&locks);
    number = 0;
}
