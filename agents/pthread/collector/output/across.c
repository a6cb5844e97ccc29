/* Keeps the dependencies of the whole run: which thread has acquired which lock, and where, while it held which others. At the end of a run
 * of several windows they become an event file with a section for each of them. A cycle of it may have members in different windows.
 *
 * Of the order of the run only this is kept: a thread begins after its fork and ends before its join. Each thread that forks or joins has a
 * companion in the file, which does nothing else: so a section comes neither before nor after what its thread forks or joins. */
#include "../collector.h"

enum { MOST_DEPENDENCIES = 100000, MOST_LIVES = 100000, MOST_WORDS = 4 + 2 * MOST_HELD };
#define COMPANIONS 1500000000u

/* The words are the thread, the lock, the marker, the site of the acquire, and the number and the site of each held lock. */
struct dependency { struct entry entry; struct dependency *next; uint32_t count, words[]; };
struct life { uint32_t thread, object, site; char letter; };
/* A thread with dependencies, or one that forks or joins. `has_fork`: it is known. */
struct person { struct entry entry; struct dependency *first; uint32_t companion; uint8_t has_fork, has_begun; };

static struct table dependencies, persons;
static struct life *lives;
static size_t lives_count, lives_room;
static unsigned long left_out;
static uint32_t companions, last_site;
static FILE *file;

static struct person *person_of(uint32_t thread) {
    struct person *person = (struct person *)find_entry(&persons, thread);
    if (!person) person = allocate(sizeof *person), add_entry(&persons, &person->entry, thread);
    return person;
}

static uint64_t hash_of(const uint32_t *words, uint32_t count) {
    uint64_t hash = count;
    for (uint32_t at = 0; at < count; at++) hash = (hash ^ words[at]) * 0x9E3779B97F4A7C15u, hash ^= hash >> 32;
    return hash;
}

static int is_known(uint64_t hash, const uint32_t *words, uint32_t count) {
    struct dependency *known = (struct dependency *)find_entry(&dependencies, hash);
    while (known && (known->entry.key != hash || known->count != count || memcmp(known->words, words, count * sizeof *words)))
        known = (struct dependency *)known->entry.next;
    return known != NULL;
}

void note_dependency(const struct thread *thread, const struct lock *lock, uint32_t marker) {
    uint32_t words[MOST_WORDS] = {thread->number, lock->number, marker, lock->site}, count = 4;
    for (size_t at = 0; at < thread->held_count && count < MOST_WORDS; at++)
        if (!thread->held[at]->helper) words[count++] = thread->held[at]->number, words[count++] = thread->held[at]->site;
    uint64_t hash = hash_of(words, count);
    if (count == 4 || is_known(hash, words, count)) return;
    if (dependencies.count == MOST_DEPENDENCIES) { left_out++; return; }
    struct dependency *new = allocate(sizeof *new + count * sizeof *words);
    struct person *person = person_of(thread->number);
    memcpy(new->words, words, count * sizeof *words);
    new->count = count, new->next = person->first, person->first = new;
    add_entry(&dependencies, &new->entry, hash);
}

void note_life(char letter, uint32_t thread, uint32_t object, uint32_t site) {
    if (lives_count == MOST_LIVES) return;
    lives = grow(lives, lives_count, &lives_room, sizeof *lives);
    lives[lives_count++] = (struct life){thread, object, site, letter};
}

/* ---- the file ---- */

static void write_event(uint32_t thread, char letter, uint32_t object, uint32_t site) {
    if (site != last_site) fprintf(file, "# at %u\n", last_site = site);
    fprintf(file, "%u%c%u\n", thread, letter, object);
}

static uint32_t name_of(uint32_t thread) { return thread ? thread : FIRST_THREAD; }

static void write_section(const struct dependency *it) {
    uint32_t thread = name_of(it->words[0]), lock = it->words[1], marker = it->words[2], site = it->words[3];
    for (uint32_t at = 4; at < it->count; at += 2) write_event(thread, 'a', it->words[at], it->words[at + 1]);
    if (marker) fprintf(file, "# mark %u\n", marker), write_event(thread, 'a', marker, site);
    write_event(thread, 'a', lock, site);
    if (marker) write_event(thread, 'r', marker, site);
    write_event(thread, 'r', lock, site);
    for (uint32_t at = it->count; at > 4; at -= 2) write_event(thread, 'r', it->words[at - 2], site);
}

static struct person *known_person(uint32_t thread) { return (struct person *)find_entry(&persons, thread); }

/* A thread begins, with all its sections, and its companion. That of the first thread is thread 0 of the file. */
static void begin_person(uint32_t by, uint32_t thread, uint32_t site) {
    struct person *person = known_person(thread);
    if (!person || person->has_begun) return;
    person->has_begun = 1;
    write_event(by, 'f', name_of(thread), site);
    if (person->companion) write_event(by, 'f', person->companion, site);
    for (struct dependency *it = person->first; it; it = it->next) write_section(it);
}

static void end_person(uint32_t by, uint32_t thread, uint32_t site) {
    const struct person *person = known_person(thread);
    if (!thread || !person || !person->has_begun) return;
    write_event(by, 'j', thread, site);
    if (person->companion) write_event(by, 'j', person->companion, site);
}

static void find_companions(void) {
    for (size_t at = 0; at < lives_count; at++) {
        struct person *by = person_of(lives[at].thread), *child = known_person(lives[at].object);
        if (lives[at].thread && !by->companion) by->companion = COMPANIONS + ++companions;
        if (child && lives[at].letter == 'f') child->has_fork = 1;
    }
}

unsigned long write_dependencies(void) {
    if (!(file = create_in_work("all"))) return left_out;
    for (size_t at = 0; at < lives_count; at++) person_of(lives[at].thread);
    find_companions();
    for (size_t slot = 0; slot < persons.size; slot++)
        for (struct entry *entry = persons.slots[slot]; entry; entry = entry->next)
            if (!((struct person *)entry)->has_fork) begin_person(0, (uint32_t)entry->key, 0);
    for (size_t at = 0; at < lives_count; at++) {
        const struct life *life = &lives[at];
        uint32_t by = known_person(life->thread)->companion;
        if (life->letter == 'f') begin_person(by, life->object, life->site);
        else end_person(by, life->object, life->site);
    }
    fclose(file);
    return left_out;
}
