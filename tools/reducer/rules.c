/* Leaves out events that change no cycle, verdict, least instance or witness. docs/algorithm.md has each rule with its reason. */
#include "reducer.h"

/* ---- the kept events ---- */

void remove_left_out(void) {
    size_t count = 0;
    for (size_t at = 0; at < kept.count; at++)
        if (!kept.events[at].is_left_out) kept.events[count++] = kept.events[at];
    kept.count = count;
}

static bool is_of_lock(const struct event *event) { return event->operation == ACQUIRE || event->operation == RELEASE; }

struct lists list_threads(void) {
    if (kept.count >= NONE) end_without_memory();
    struct lists lists = {allocate(kept.count, sizeof *lists.order), allocate(kept.count, sizeof *lists.at), NULL};
    lists.begins = allocate(thread_numbers.count + 2, sizeof *lists.begins);
    for (size_t at = 0; at < kept.count; at++) lists.at[at] = (uint32_t)lists.begins[kept.events[at].thread + 2]++;
    for (size_t at = 2; at < thread_numbers.count + 2; at++) lists.begins[at] += lists.begins[at - 1];
    for (size_t at = 0; at < kept.count; at++) lists.order[lists.begins[kept.events[at].thread + 1]++] = (uint32_t)at;
    return lists;
}

void free_lists(struct lists *lists) {
    free(lists->order), free(lists->at), free(lists->begins);
}

void count_users(void) {
    for (size_t at = 0; at < lock_numbers.count; at++) locks[at].user = NONE;
    for (size_t at = 0; at < kept.count; at++) {
        const struct event *event = &kept.events[at];
        if (!is_of_lock(event)) continue;
        uint32_t *user = &locks[event->object].user;
        *user = *user == NONE || *user == event->thread ? event->thread : SEVERAL;
    }
}

/* ---- accesses ---- */

/* Notes that a thread sees what another one wrote up to an event. Returns whether it is new. */
static bool see(struct pairs *seen, uint32_t thread, uint32_t writer, size_t write) {
    uint64_t *latest = add_pair(seen, pair_of(thread, writer), 0);
    bool is_new = *latest < write;
    if (is_new) *latest = write;
    return is_new;
}

/* A read needs its writer. If that is a write of its own thread, or at or before one that its thread has seen from the same thread, then
 * thread order contains this. A write that no kept read sees is needed by nothing. More events may follow if the trace is not complete: so
 * the last write of each variable stays. A cycle is judged with all accesses and without those of plain values. So a read of another
 * variable stays if only a read of a plain value implies it. */
static void leave_out_accesses(bool is_complete) {
    struct pairs seen = {0}, seen_without = {0}; /* by all reads, and by those of other variables than plain values */
    for (size_t at = 0; at < variable_numbers.count; at++) variables[at].last = 0;
    for (size_t at = 0; at < kept.count; at++) {
        struct event *event = &kept.events[at];
        if (event->operation < READ) continue;
        size_t *last = &variables[event->object].last;
        event->is_needed = false;
        if (event->operation == WRITE) *last = at + 1;
        if (event->operation == WRITE || !*last || kept.events[*last - 1].thread == event->thread) continue;
        uint32_t writer = kept.events[*last - 1].thread;
        bool is_new = see(&seen, event->thread, writer, *last);
        if (!is_plain(event->object)) is_new = see(&seen_without, event->thread, writer, *last);
        if (is_new) event->is_needed = kept.events[*last - 1].is_needed = true;
    }
    for (size_t at = 0; at < kept.count; at++) {
        struct event *event = &kept.events[at];
        bool is_last = event->operation == WRITE && variables[event->object].last == at + 1;
        event->is_left_out = event->operation >= READ && !event->is_needed && (is_complete || !is_last);
    }
    clear_pairs(&seen), clear_pairs(&seen_without);
    remove_left_out();
}

/* ---- locks of one thread ---- */

static void leave_out_own_locks(void) {
    count_users();
    for (size_t at = 0; at < kept.count; at++) {
        struct event *event = &kept.events[at];
        event->is_left_out = is_of_lock(event) && locks[event->object].user != SEVERAL && !locks[event->object].is_mark;
    }
    remove_left_out();
}

/* ---- leaf locks ---- */

struct leaves { struct graph graph; bool *is_full, *is_leaf; }; /* full: of a lock under which something happens that stays */

/* An event other than an outermost acquire or a release is under each lock that its thread holds. */
static void fill_locks(struct leaves *leaves, const struct event *event) {
    const struct held_list *held = &threads[event->thread].held;
    for (size_t at = 0; at < held->count; at++)
        if (event->operation != ACQUIRE || held->items[at].lock != event->object) leaves->is_full[held->items[at].lock] = true;
}

static void note_nesting(struct leaves *leaves) {
    release_all();
    for (size_t at = 0; at < kept.count; at++) {
        const struct event *event = &kept.events[at];
        bool is_outermost = event->operation == ACQUIRE && !locks[event->object].depth;
        if (is_outermost) add_edges(&leaves->graph, event);
        else if (event->operation != RELEASE) fill_locks(leaves, event);
        if (is_of_lock(event)) apply_lock_event(event);
    }
}

/* A lock is a leaf if it is not full and each lock that is acquired under it is a leaf. */
static void find_leaves(struct leaves *leaves) {
    size_t count = lock_numbers.count, found = 0;
    size_t *begins = allocate(count + 2, sizeof *begins), *under = allocate(count, sizeof *under); /* under: locks under it, no leaves */
    uint32_t *holders = allocate(leaves->graph.edges.count, sizeof *holders), *leaf = allocate(count, sizeof *leaf);
    const struct pair *edges = leaves->graph.edges.slots, *end = edges + leaves->graph.edges.size;
    for (const struct pair *edge = edges; edge < end; edge++) if (edge->key) begins[second_of(edge) + 2]++, under[first_of(edge)]++;
    for (size_t at = 2; at < count + 2; at++) begins[at] += begins[at - 1];
    for (const struct pair *edge = edges; edge < end; edge++) if (edge->key) holders[begins[second_of(edge) + 1]++] = first_of(edge);
    for (uint32_t lock = 0; lock < count; lock++) if (!under[lock] && !leaves->is_full[lock]) leaf[found++] = lock;
    for (size_t next = 0; next < found; next++) {
        leaves->is_leaf[leaf[next]] = true;
        for (size_t at = begins[leaf[next]]; at < begins[leaf[next] + 1]; at++)
            if (!--under[holders[at]] && !leaves->is_full[holders[at]]) leaf[found++] = holders[at];
    }
    free(begins), free(under), free(holders), free(leaf);
}

static void leave_out_leaves(void) {
    struct leaves leaves = {{{0}}, allocate(lock_numbers.count, 1), allocate(lock_numbers.count, 1)};
    note_nesting(&leaves);
    find_leaves(&leaves);
    for (size_t at = 0; at < kept.count; at++) {
        struct event *event = &kept.events[at];
        event->is_left_out = is_of_lock(event) && leaves.is_leaf[event->object];
    }
    clear_pairs(&leaves.graph.edges);
    free(leaves.is_full), free(leaves.is_leaf);
    remove_left_out();
}

/* ---- repeats ---- */

/* An outermost section: the events of a thread from where it holds nothing to where it holds nothing again. */
struct section { size_t begin; uint32_t first, length; uint64_t hash, epoch; }; /* begin, first: its first event, and that in the list */
struct section_state { struct section present; uint64_t epoch; uint32_t depth; bool is_plain; }; /* plain: only acquires and releases */
struct acquirers { uint32_t thread; size_t last, other; }; /* 1 more than the index of the last acquire, and of the last by another thread */
struct repeats {
    struct lists lists;
    struct section_state *states; /* of the threads */
    struct acquirers *acquirers;  /* of the locks */
    struct pairs known;           /* maps thread, epoch and hash of a section to the last kept one of them */
    struct section *sections;
    size_t count, room;
};

static uint64_t mix(uint64_t hash, uint64_t value) {
    hash = (hash ^ value) * 0x9E3779B97F4A7C15u;
    return hash ^ hash >> 29;
}

static const uint32_t *events_of(const struct repeats *repeats, uint32_t thread, const struct section *section) {
    return repeats->lists.order + repeats->lists.begins[thread] + section->first;
}

/* Returns whether the first section is a beginning of the other one, with no fork, join or access of the thread between. */
static bool is_beginning(const struct repeats *repeats, uint32_t thread, const struct section *one, const struct section *other) {
    const uint32_t *left = events_of(repeats, thread, one), *right = events_of(repeats, thread, other);
    if (one->length > other->length || one->epoch != other->epoch) return false;
    for (size_t at = 0; at < one->length; at++) {
        const struct event *first = &kept.events[left[at]], *second = &kept.events[right[at]];
        if (first->thread != second->thread || first->operation != second->operation || first->object != second->object) return false;
    }
    return true;
}

/* Returns whether no other thread has acquired a lock of the section since an event. */
static bool is_undisturbed(const struct repeats *repeats, uint32_t thread, const struct section *section, size_t since) {
    const uint32_t *events = events_of(repeats, thread, section);
    for (size_t at = 0; at < section->length; at++) {
        const struct acquirers *acquirers = &repeats->acquirers[kept.events[events[at]].object];
        if (acquirers->thread != thread || acquirers->other > since) return false;
    }
    return true;
}

/* Leaves out a section if it repeats an earlier one. Returns whether it does. */
static bool leave_out_repeat(const struct repeats *repeats, uint32_t thread, const struct section *section, const struct section *earlier) {
    const uint32_t *events = events_of(repeats, thread, section);
    if (kept.events[earlier->begin].thread != thread || !is_beginning(repeats, thread, section, earlier)) return false;
    if (!is_undisturbed(repeats, thread, section, earlier->begin)) return false;
    for (size_t at = 0; at < section->length; at++) kept.events[events[at]].is_left_out = true;
    return true;
}

static void end_section(struct repeats *repeats, uint32_t thread, const struct section *section) {
    uint64_t *known = add_pair(&repeats->known, mix(mix(section->hash, thread), section->epoch) >> 1, 0);
    const struct section *earlier = *known ? &repeats->sections[*known - 1] : NULL;
    if (earlier && earlier->length == section->length && leave_out_repeat(repeats, thread, section, earlier)) return;
    repeats->sections = grow(repeats->sections, repeats->count, &repeats->room, sizeof *repeats->sections);
    repeats->sections[repeats->count++] = *section;
    *known = repeats->count;
}

static void note_acquire(struct acquirers *acquirers, uint32_t thread, size_t at) {
    if (acquirers->last && acquirers->thread != thread) acquirers->other = acquirers->last;
    acquirers->thread = thread, acquirers->last = at + 1;
}

static void take_event(struct repeats *repeats, size_t at) {
    struct event *event = &kept.events[at];
    struct section_state *state = &repeats->states[event->thread];
    event->is_left_out = false;
    if (!is_of_lock(event)) {
        state->epoch++, state->is_plain = false;
        return;
    }
    if (event->operation == ACQUIRE) note_acquire(&repeats->acquirers[event->object], event->thread, at);
    if (!state->depth) state->present = (struct section){.begin = at, .first = repeats->lists.at[at]}, state->is_plain = true;
    state->present.length++;
    state->present.hash = mix(state->present.hash, (uint64_t)event->object << 1 | (event->operation == ACQUIRE));
    state->depth += event->operation == ACQUIRE ? 1 : -1u;
    state->present.epoch = state->epoch;
    if (!state->depth && state->is_plain) end_section(repeats, event->thread, &state->present);
}

/* A section in which the trace ends repeats one that begins like it. */
static void leave_out_open_repeats(struct repeats *repeats) {
    for (size_t at = 0; at < repeats->count; at++) {
        const struct section *earlier = &repeats->sections[at];
        uint32_t thread = kept.events[earlier->begin].thread;
        struct section_state *state = &repeats->states[thread];
        if (!state->depth || !state->is_plain) continue;
        if (leave_out_repeat(repeats, thread, &state->present, earlier)) state->depth = 0;
    }
}

static void leave_out_repeats(bool is_complete) {
    struct repeats repeats = {.lists = list_threads()};
    repeats.states = allocate(thread_numbers.count, sizeof *repeats.states);
    repeats.acquirers = allocate(lock_numbers.count, sizeof *repeats.acquirers);
    for (size_t at = 0; at < kept.count; at++) take_event(&repeats, at);
    if (is_complete) leave_out_open_repeats(&repeats);
    free_lists(&repeats.lists);
    free(repeats.states), free(repeats.acquirers), free(repeats.sections);
    clear_pairs(&repeats.known);
    remove_left_out();
}

/* ---- threads of which nothing is left ---- */

struct life { uint32_t events, forked_by, joined_by; };

static void leave_out_idle_threads(void) {
    struct life *lives = allocate(thread_numbers.count, sizeof *lives);
    for (size_t at = 0; at < thread_numbers.count; at++) lives[at] = (struct life){0, NONE, NONE};
    for (size_t at = 0; at < kept.count; at++) {
        const struct event *event = &kept.events[at];
        lives[event->thread].events |= 1;
        if (event->operation == FORK) lives[event->object].forked_by = event->thread;
        if (event->operation == JOIN) lives[event->object].joined_by = event->thread;
    }
    for (size_t at = 0; at < kept.count; at++) {
        struct event *event = &kept.events[at];
        const struct life *life = event->operation <= JOIN ? &lives[event->object] : NULL;
        event->is_left_out = life && !life->events && (life->joined_by == NONE || life->joined_by == life->forked_by);
    }
    free(lives);
    remove_left_out();
}

/* ---- all rules ---- */

void reduce_so_far(void) {
    leave_out_accesses(false);
    leave_out_repeats(false);
}

void reduce(void) {
    for (size_t before = 0; kept.count != before;) {
        before = kept.count;
        slice();
        leave_out_leaves();
        leave_out_own_locks();
        leave_out_accesses(true);
        leave_out_repeats(true);
        leave_out_idle_threads();
    }
}
