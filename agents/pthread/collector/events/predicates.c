/* The predicates of conditions. A thread that finds its predicate true does not wait, so nothing orders it after the thread that made it true.
 * So a signal or a broadcast writes a plain value, and a later section of the mutex by another thread reads it, unless this thread comes after
 * the signal already: it was woken by it, or has read it. The last signal of a condition comes after its earlier ones.
 *
 * The mutex of a condition is the one with which a thread has waited. Until one has, it is the last one that the signalling thread holds, or has
 * released; a monitor of Java is the mutex of its own condition. A thread that signals without the mutex has made the predicate true in its last
 * section of it, if that was a short time ago. Then this section writes a value too, and sections between it and the signal read that one.
 *
 * Two rules keep the events few, and change no verdict:
 *
 * - A window whose lock graph has no ring has no cycle, with or without these values. So they are deferred until the window ends. A server takes
 *   no event of the past: there, and where repeats are left out, they are events at once.
 * - A thread that signals the same condition next, in the section, reads no value: its signal begins with a read of the hand-over, which needs the
 *   same signals. No event is between the two reads, so a closure has both or neither. With hooks a write may be there, so the value is read. */
#include "../collector.h"

enum { SECTIONS = 256 };

/* A condition. `number`: of its signals. `variable`: of the last one, 0 if nobody has read it. */
struct predicate {
    struct predicate *next; /* of the same mutex */
    struct lock *mutex;
    struct moment signal;
    uint32_t identity, number, variable;
};
/* Which signal of a condition a thread has received last. */
struct received { struct entry entry; uint32_t number; };
/* A section of a lock with this number. */
struct section { uint32_t lock; struct moment begun; };

static struct section sections[SECTIONS]; /* the last ones of the window, the next one at sections_count % SECTIONS */
static size_t sections_count;
static struct table received;
static uint32_t predicates;

static struct received *received_by(uint32_t thread, const struct predicate *it) {
    uint64_t key = (uint64_t)it->identity << 32 | thread;
    struct received *found = (struct received *)find_entry(&received, key);
    if (!found) found = allocate(sizeof *found), add_entry(&received, &found->entry, key);
    return found;
}

void forget_sections(void) { clear_table(&received), sections_count = 0; }

/* ---- mutexes ---- */

/* Who holds the mutex looks at its predicates before this one changes. */
static void let_look(const struct predicate *it) {
    struct thread *holder = it->mutex && it->mutex->holder != NOBODY ? known_thread(it->mutex->holder) : NULL;
    if (holder) read_predicates(holder, NULL);
}

static void leave_mutex(struct predicate *it) {
    let_look(it);
    struct predicate **link = it->mutex ? &it->mutex->guards : NULL;
    while (link && *link != it) link = &(*link)->next;
    if (link) *link = it->next;
    it->mutex = NULL, it->next = NULL;
}

static void set_mutex(struct predicate *it, struct lock *mutex) {
    if (!mutex || it->mutex == mutex) return;
    leave_mutex(it);
    it->mutex = mutex, it->next = mutex->guards, mutex->guards = it;
}

/* The lock that a thread holds since last, or has released last. */
static struct lock *last_mutex(const struct thread *thread) {
    for (size_t at = thread->held_count; at-- > 0;) if (!thread->held[at]->whole) return thread->held[at];
    return thread->released ? known_lock(thread->released) : NULL;
}

void forget_predicates(struct lock *lock) {
    while (lock->guards) leave_mutex(lock->guards);
    if (!lock->predicate) return;
    leave_mutex(lock->predicate);
    free(lock->predicate), lock->predicate = NULL;
}

/* ---- signals ---- */

static struct moment moment_of(uint32_t thread, uint32_t site) {
    uint32_t position = has_values_at_once() ? 0 : raw_events();
    return (struct moment){.window = window, .thread = thread, .site = site, .position = position, .logged = log_entries()};
}

static const struct section *section_at(size_t number) { return &sections[number % SECTIONS]; }

/* Whether a thread has had a section of this lock since this one. */
static int has_looked(size_t since, size_t at) {
    for (size_t one = since + 1; one < at; one++)
        if (section_at(one)->lock == section_at(at)->lock && section_at(one)->begun.thread == section_at(at)->begun.thread) return 1;
    return 0;
}

/* The mutex is not held: its thread's last section has made the predicate true. Others may have looked at it since. */
static void look_back(const struct predicate *it) {
    size_t oldest = sections_count > SECTIONS ? sections_count - SECTIONS : 0, since = sections_count;
    uint32_t lock = it->mutex->number, variable = 0;
    do if (since-- == oldest) return;
    while (section_at(since)->lock != lock || section_at(since)->begun.thread != it->signal.thread);
    for (size_t at = since + 1; at < sections_count; at++) {
        if (section_at(at)->lock != lock || has_looked(since, at)) continue;
        struct moment written = section_at(since)->begun;
        written.site = it->signal.site;
        if (!variable) defer_value(&written, 'w', variable = new_value(BY_ALL), 1);
        defer_value(&section_at(at)->begun, 'd', variable, 1);
    }
}

void note_signal(const struct thread *thread, struct lock *condition, uint32_t site) {
    if (!(options.values & VALUES_OF_MEMORY)) return;
    if (!condition->predicate) condition->predicate = allocate(sizeof *condition->predicate), condition->predicate->identity = ++predicates;
    struct predicate *it = condition->predicate;
    if (!it->mutex) set_mutex(it, condition->holder == thread->number ? condition : last_mutex(thread));
    let_look(it);
    it->signal = moment_of(thread->number, site);
    it->number++, it->variable = 0;
    if (has_values_at_once()) write_value(thread->number, it->variable = new_value(BY_ALL), site);
    else if (it->mutex && it->mutex->holder != thread->number) look_back(it);
}

void note_wake_up(const struct thread *thread, struct lock *condition, int has_waited) {
    struct predicate *it = condition->predicate;
    if (!it) return;
    if (has_waited) set_mutex(it, known_lock(thread->released));
    received_by(thread->number, it)->number = it->number;
}

/* ---- sections ---- */

static void read_signal(uint32_t thread, struct predicate *it, uint32_t site) {
    struct moment moment = moment_of(thread, site);
    int is_new = !it->variable, is_in_window = it->signal.window == window;
    if (is_new) it->variable = new_value(BY_ALL);
    if (has_values_at_once()) take_value(thread, it->variable, site);
    else {
        if (is_new) defer_value(&it->signal, 'w', it->variable, is_in_window);
        defer_value(&moment, 'd', it->variable, is_in_window);
    }
}

void read_predicates(struct thread *thread, const struct lock *given) {
    const struct lock *mutex = thread->looks_at;
    thread->looks_at = NULL;
    for (struct predicate *it = mutex ? mutex->guards : NULL; it; it = it->next) {
        if (!it->number || it->signal.thread == thread->number) continue;
        struct received *last = received_by(thread->number, it);
        if (last->number != it->number && (!given || it != given->predicate)) read_signal(thread->number, it, mutex->site);
        last->number = it->number;
    }
}

void note_section(struct thread *thread, const struct lock *lock) {
    if (!(options.values & VALUES_OF_MEMORY)) return;
    read_predicates(thread, NULL);
    if (!has_values_at_once()) sections[sections_count++ % SECTIONS] = (struct section){lock->number, moment_of(thread->number, lock->site)};
    if (!lock->guards) return;
    thread->looks_at = lock;
    if (has_recorder_of_values()) read_predicates(thread, NULL);
}
