/* Replays witnesses over all events of a run, by the rules of `goodlockd replay`. A witness is a beginning of each thread, in the order of
 * the trace: an event is in it if its thread has begun in it and the event is before the thread's end. Nothing here depends on the rules by
 * which events were left out. One pass replays up to BATCH witnesses at a time: a set has a bit for each of them. */
#include "reducer.h"

#include <errno.h>

enum { LANES = 8, BATCH = 64 * LANES };
typedef struct { uint64_t lanes[LANES]; } set;

enum fault { REACHES, JOIN_ORDER, WRONG_WRITER, OVERLAP, TOO_FAR, NOT_REACHED, NO_ACQUIRE };
static const char *const names[] = {"reaches", "JoinOrder", "WrongWriter", "Overlap", "TooFar", "NotReached", "NoAcquire"};

/* A member waits at its place for a lock, and holds the lock for which the member before it waits. */
struct member { uint32_t witness, thread, lock, holds; uint64_t place; bool is_seen; };
struct end { uint32_t witness, thread; uint64_t place; };
struct last { uint32_t thread, line; uint64_t place; };
struct witness { enum fault fault; uint64_t place; struct last *lasts; size_t count, room; bool is_without; }; /* without plain values */

/* Of a thread: the witnesses that contain its next event, its last event, its items in `ends`. */
struct progress { set in; uint64_t last, cut; uint32_t line; size_t next, end; bool has_events; };
struct section { set acquired, stuck; };    /* of a lock: the last acquire; acquires without their release */

static struct member *members;              /* by place */
static struct end *ends;                    /* by thread and place */
static struct witness *witnesses;
static size_t member_count, members_room, end_count, ends_room, witness_count, witnesses_room;
static struct progress *progress;
static struct section *sections;
static set *writers;                        /* of a variable: in which witnesses its last write is, or all */
static size_t progress_count, progress_room, sections_count, sections_room, writers_count, writers_room;
static set without_values;                  /* the witnesses in which reads of plain values may see any write */
static uint64_t *cut_of;
static size_t cuts_count, cuts_room;
static struct reader reader;
static uint32_t first_of_batch;

/* ---- sets ---- */

static bool has(const set *it, uint32_t bit) { return it->lanes[bit / 64] >> bit % 64 & 1; }
static void add(set *it, uint32_t bit) { it->lanes[bit / 64] |= (uint64_t)1 << bit % 64; }
static void drop(set *it, uint32_t bit) { it->lanes[bit / 64] &= ~((uint64_t)1 << bit % 64); }

static set without(const set *one, const set *other) {
    set result;
    for (int at = 0; at < LANES; at++) result.lanes[at] = one->lanes[at] & ~other->lanes[at];
    return result;
}

static void fail(uint32_t bit, enum fault fault, uint64_t place) {
    struct witness *witness = &witnesses[first_of_batch + bit];
    if (witness->fault == REACHES) witness->fault = fault, witness->place = place;
}

static void fail_all(const set *failing, enum fault fault, uint64_t place) {
    for (int at = 0; at < LANES; at++)
        for (uint64_t bits = failing->lanes[at]; bits; bits &= bits - 1) fail((uint32_t)(64 * at + __builtin_ctzll(bits)), fault, place);
}

/* ---- the file of witnesses ---- */

static void take_cut(uint32_t thread, uint64_t place) {
    while (cuts_count <= thread) {
        cut_of = grow(cut_of, cuts_count, &cuts_room, sizeof *cut_of);
        cut_of[cuts_count++] = UINT64_MAX;
    }
    cut_of[thread] = place;
}

static uint32_t thread_at(uint32_t number) { return (uint32_t)(find_thread(&reader, number) - threads); }
static uint32_t lock_at(uint32_t number) { return (uint32_t)(find_lock(&reader, number) - locks); }

static bool take_line(const char *line) {
    uint32_t thread, lock, holds;
    unsigned long long place;
    bool is_without = !strcmp(line, "without values\n");
    if (is_without || !strcmp(line, "witness\n")) {
        witnesses = grow(witnesses, witness_count, &witnesses_room, sizeof *witnesses);
        witnesses[witness_count++] = (struct witness){.fault = REACHES, .is_without = is_without};
    } else if (sscanf(line, "cut %u %llu", &thread, &place) == 2) {
        take_cut(thread_at(thread), place);
    } else if (sscanf(line, "member %u %u %u %llu", &thread, &lock, &holds, &place) == 4 && witness_count) {
        members = grow(members, member_count, &members_room, sizeof *members);
        uint32_t last = (uint32_t)witness_count - 1;
        members[member_count++] = (struct member){last, thread_at(thread), lock_at(lock), lock_at(holds), place, false};
    } else if (sscanf(line, "end %u %llu", &thread, &place) == 2 && witness_count) {
        ends = grow(ends, end_count, &ends_room, sizeof *ends);
        ends[end_count++] = (struct end){(uint32_t)witness_count - 1, thread_at(thread), place};
    } else return false;
    return true;
}

static int by_place(const void *left, const void *right) {
    const struct member *one = left, *other = right;
    return one->place < other->place ? -1 : one->place > other->place;
}

static int by_thread(const struct end *one, const struct end *other) {
    if (one->witness / BATCH != other->witness / BATCH) return one->witness < other->witness ? -1 : 1;
    return one->thread < other->thread ? -1 : one->thread > other->thread;
}

static int by_thread_and_place(const void *left, const void *right) {
    const struct end *one = left, *other = right;
    int order = by_thread(one, other);
    return order ? order : one->place < other->place ? -1 : one->place > other->place;
}

static void read_witnesses(const char *name) {
    char line[128];
    FILE *file = fopen(name, "r");
    if (!file) end_unread(name, strerror(errno));
    while (fgets(line, sizeof line, file)) if (!take_line(line)) end_unread(name, "a line is not understood");
    if (ferror(file)) end_unread(name, strerror(errno));
    fclose(file);
    if (member_count) qsort(members, member_count, sizeof *members, by_place);
    if (end_count) qsort(ends, end_count, sizeof *ends, by_thread_and_place);
}

/* ---- threads ---- */

static struct progress *progress_of(uint32_t thread) {
    while (progress_count <= thread) {
        progress = grow(progress, progress_count, &progress_room, sizeof *progress);
        progress[progress_count] = (struct progress){.cut = progress_count < cuts_count ? cut_of[progress_count] : UINT64_MAX};
        progress_count++;
    }
    return &progress[thread];
}

static struct section *section_of(uint32_t lock) {
    while (sections_count <= lock) {
        sections = grow(sections, sections_count, &sections_room, sizeof *sections);
        sections[sections_count++] = (struct section){0};
    }
    return &sections[lock];
}

static set *writer_of(uint32_t variable) {
    while (writers_count <= variable) {
        writers = grow(writers, writers_count, &writers_room, sizeof *writers);
        memset(&writers[writers_count++], 0xFF, sizeof *writers);
    }
    return &writers[variable];
}

/* A thread ends in a witness after its events so far. */
static void end_thread(uint32_t thread, uint32_t bit) {
    struct progress *it = &progress[thread];
    struct witness *witness = &witnesses[first_of_batch + bit];
    if (!has(&it->in, bit)) return;
    drop(&it->in, bit);
    if (!it->has_events) return;
    witness->lasts = grow(witness->lasts, witness->count, &witness->room, sizeof *witness->lasts);
    witness->lasts[witness->count++] = (struct last){thread, it->line, it->last};
}

static void end_all(uint32_t thread) {
    for (int at = 0; at < LANES; at++)
        for (uint64_t bits = progress[thread].in.lanes[at]; bits; bits &= bits - 1)
            end_thread(thread, (uint32_t)(64 * at + __builtin_ctzll(bits)));
}

/* Ends the thread in the witnesses whose end is at or before a place. */
static void pass(uint32_t thread, uint64_t place) {
    struct progress *it = progress_of(thread);
    for (; it->next < it->end && ends[it->next].place <= place; it->next++) end_thread(thread, ends[it->next].witness - first_of_batch);
    if (it->cut <= place) end_all(thread);
}

/* ---- the rules ---- */

static void replay_member(const struct event *event, struct member *member) {
    const struct held_list *held = &threads[event->thread].held;
    uint32_t bit = member->witness - first_of_batch;
    bool is_acquire = event->thread == member->thread && event->operation == ACQUIRE && event->object == member->lock;
    bool holds = false;
    for (size_t at = 0; at < held->count; at++) holds |= held->items[at].lock == member->holds;
    member->is_seen = true;
    if (!is_acquire || locks[event->object].depth || !holds) fail(bit, NO_ACQUIRE, event->place);
    else if (!has(&progress_of(event->thread)->in, bit)) fail(bit, NOT_REACHED, event->place);
}

/* After the thread has passed the ends at this place. */
static void replay_wait(const struct event *event, const struct member *member) {
    uint32_t bit = member->witness - first_of_batch;
    if (has(&progress_of(event->thread)->in, bit)) fail(bit, TOO_FAR, event->place);
}

static void replay_lock(const struct event *event, const set *in) {
    struct section *section = section_of(event->object);
    bool is_outermost = locks[event->object].depth == (event->operation == RELEASE);
    if (!is_outermost) return;
    if (event->operation == RELEASE) {
        for (int at = 0; at < LANES; at++) section->stuck.lanes[at] |= section->acquired.lanes[at] & ~in->lanes[at];
        return;
    }
    set failing;
    for (int at = 0; at < LANES; at++) failing.lanes[at] = in->lanes[at] & section->stuck.lanes[at];
    fail_all(&failing, OVERLAP, event->place);
    section->acquired = *in;
}

static void replay_event(const struct event *event) {
    set in = progress_of(event->thread)->in, failing = {{0}};
    struct progress *it = &progress[event->thread];
    it->last = event->place, it->line = event->line, it->has_events = true;
    if (event->operation == FORK) progress_of(event->object)->in = in;
    if (event->operation == JOIN) failing = without(&in, &progress_of(event->object)->in), fail_all(&failing, JOIN_ORDER, event->place);
    if (event->operation == READ) {
        failing = without(&in, writer_of(event->object));
        if (is_plain(event->object)) failing = without(&failing, &without_values);
        fail_all(&failing, WRONG_WRITER, event->place);
    }
    if (event->operation == WRITE) *writer_of(event->object) = in;
    if (event->operation == ACQUIRE || event->operation == RELEASE) replay_lock(event, &in);
}

/* ---- passes ---- */

static void begin_batch(uint32_t first, size_t count) {
    first_of_batch = first;
    begin_run();
    progress_count = sections_count = writers_count = 0;
    for (size_t at = 0; at < thread_numbers.count; at++) progress_of((uint32_t)at);
    for (size_t at = 0, next; at < end_count; at = next) {
        for (next = at + 1; next < end_count && !by_thread(&ends[at], &ends[next]); next++) {}
        if (ends[at].witness / BATCH == first / BATCH) progress[ends[at].thread].next = at, progress[ends[at].thread].end = next;
    }
    memset(&without_values, 0, sizeof without_values);
    for (uint32_t bit = 0; bit < count; bit++) {
        add(&progress_of(thread_at(0))->in, bit);
        if (witnesses[first + bit].is_without) add(&without_values, bit);
    }
}

/* Returns whether the member of a witness of this batch waits at an event. */
static bool is_here(const struct member *member, const struct event *event) {
    return member->place == event->place && member->witness / BATCH == first_of_batch / BATCH;
}

static void replay_batch(struct source *sources, size_t source_count, uint32_t first, size_t count) {
    struct event event;
    size_t next = 0;
    open_run(&reader, sources, source_count);
    begin_batch(first, count);
    while (read_event(&reader, &event)) {
        size_t begin = next;
        for (; next < member_count && members[next].place <= event.place; next++)
            if (is_here(&members[next], &event)) replay_member(&event, &members[next]);
        pass(event.thread, event.place);
        for (; begin < next; begin++) if (is_here(&members[begin], &event)) replay_wait(&event, &members[begin]);
        replay_event(&event);
        apply_event(&event);
    }
    for (uint32_t thread = 0; thread < progress_count; thread++) end_all(thread);
}

/* Prints a place: the number of its file, the place in it, and the line of another file from which it was converted, or 0. */
static void print_place(uint64_t place, uint32_t line) {
    size_t at = 0;
    while (at + 1 < reader.count && reader.sources[at + 1].first <= place) at++;
    printf(" %zu %llu %u", at, (unsigned long long)(place - reader.sources[at].first), line);
}

static void print_verdict(const struct witness *witness) {
    printf("%s", names[witness->fault]);
    if (witness->fault != REACHES) print_place(witness->place, 0);
    for (size_t at = 0; at < witness->count && witness->fault == REACHES; at++) {
        printf(" %u", thread_numbers.numbers[witness->lasts[at].thread]);
        print_place(witness->lasts[at].place, witness->lasts[at].line);
    }
    putchar('\n');
}

void check_witnesses(const char *name, struct source *sources, size_t count) {
    read_witnesses(name);
    for (uint32_t first = 0; first < witness_count; first += BATCH) {
        size_t rest = witness_count - first;
        replay_batch(sources, count, first, rest < BATCH ? rest : BATCH);
    }
    for (size_t at = 0; at < member_count; at++)
        if (!members[at].is_seen && witnesses[members[at].witness].fault == REACHES)
            witnesses[members[at].witness].fault = NO_ACQUIRE, witnesses[members[at].witness].place = members[at].place;
    for (size_t at = 0; at < witness_count; at++) print_verdict(&witnesses[at]);
}
