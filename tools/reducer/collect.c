/* Reads the files of a run. The first pass notes who uses which lock and variable, and the lock graph. If this has a cycle, a second one
 * gives the first slice: up to which event each thread is needed. The last pass keeps these events, without those of locks and variables
 * that one thread uses. While they come, the rules that look only back shorten the list, so the memory depends on the kept events and not
 * on the length of the input. */
#include "reducer.h"

enum { LEAST_SHORTENED = 1 << 22 }; /* that many events are kept before they are shortened for the first time */
struct kept kept;
static struct reader reader;

static void note_user(uint32_t *user, uint32_t thread) {
    *user = *user == NONE || *user == thread ? thread : SEVERAL;
}

/* ---- the first pass ---- */

static void scan_event(struct graph *graph, const struct event *event) {
    if (event->operation == ACQUIRE || event->operation == RELEASE) {
        note_user(&locks[event->object].user, event->thread);
        if (event->operation == ACQUIRE && !locks[event->object].depth) add_edges(graph, event);
        apply_lock_event(event);
    } else if (event->operation >= READ) {
        note_user(&variables[event->object].user, event->thread);
        variables[event->object].is_written |= event->operation == WRITE;
    }
}

static void scan(struct source *sources, size_t count, struct graph *graph) {
    struct event event;
    open_run(&reader, sources, count);
    while (read_event(&reader, &event)) scan_event(graph, &event);
}

/* The first slice reads the events from the last one back. If no lock is in a cycle of the lock graph it needs none. */
static uint64_t *first_slice(const char *folder, struct source *sources, size_t count, const uint32_t *components) {
    struct event event;
    size_t lock = 0;
    while (lock < lock_numbers.count && components[lock] == NONE) lock++;
    if (lock == lock_numbers.count) return allocate(thread_numbers.count, sizeof(uint64_t));
    begin_records(folder);
    begin_run();
    open_run(&reader, sources, count);
    while (read_event(&reader, &event)) apply_event(&event), record(&event);
    return limits_of(components);
}

/* ---- the last pass ---- */

static void locate(struct event *event) {
    take_site(&reader);
    if (reader.where_number == NONE && reader.where_length) reader.where_number = add_text(&texts, reader.where, reader.where_length);
    event->where = reader.where_length ? reader.where_number : NONE;
}

static bool is_of_one_thread(const struct event *event) {
    const struct lock *lock = event->operation == ACQUIRE || event->operation == RELEASE ? &locks[event->object] : NULL;
    if (lock) return lock->user != SEVERAL && !lock->is_mark;
    return event->operation >= READ && (variables[event->object].user != SEVERAL || !variables[event->object].is_written);
}

static void keep(struct event *event, size_t *limit) {
    locate(event);
    kept.events = grow(kept.events, kept.count, &kept.room, sizeof *kept.events);
    kept.events[kept.count++] = *event;
    if (kept.count < *limit) return;
    reduce_so_far();
    if (kept.count > *limit / 2) *limit = 2 * kept.count;
}

static void end_changed(void) { end_unread(reader.sources[reader.at].name, "the file has changed while it was read"); }

/* Keeps the events of each thread up to its limit. Where it is cut is the place of its next event, which is no release. */
static void keep_until(struct source *sources, size_t count, const uint64_t *limits) {
    struct event event;
    size_t room = LEAST_SHORTENED, known[] = {thread_numbers.count, lock_numbers.count, variable_numbers.count};
    uint64_t number = 0, last = 0;
    for (size_t at = 0; at < known[0]; at++) if (limits[at] > last) last = limits[at];
    begin_run();
    open_run(&reader, sources, count);
    for (; number < last && read_event(&reader, &event); number++) {
        if (thread_numbers.count + lock_numbers.count + variable_numbers.count != known[0] + known[1] + known[2]) end_changed();
        apply_event(&event);
        bool is_cut = number >= limits[event.thread];
        if (!is_cut && !is_of_one_thread(&event)) keep(&event, &room);
        if (is_cut && event.operation != RELEASE && event.place < cuts[event.thread]) cuts[event.thread] = event.place;
    }
    if (number != last) end_changed();
    for (size_t at = 0; at < known[0]; at++) if (cuts[at] > reader.place) cuts[at] = reader.place;
}

static size_t used_locks(void) {
    size_t used = 0;
    for (size_t at = 0; at < lock_numbers.count; at++) used += locks[at].user != NONE && !locks[at].is_mark;
    return used;
}

static size_t forked_threads(void) {
    size_t forked = 0;
    for (size_t at = 0; at < thread_numbers.count; at++) forked += threads[at].is_forked;
    return forked;
}

struct counts collect(const char *folder, struct source *sources, size_t count) {
    struct graph graph = {0};
    scan(sources, count, &graph);
    struct counts counts = {.events = reader.place, .threads = forked_threads(), .locks = used_locks()};
    uint32_t *components = components_of(&graph);
    uint64_t *limits = first_slice(folder, sources, count, components);
    clear_pairs(&graph.edges);
    free(components);
    cuts = allocate(thread_numbers.count, sizeof *cuts);
    memset(cuts, 0xFF, thread_numbers.count * sizeof *cuts);
    keep_until(sources, count, limits);
    free(limits);
    return counts;
}

struct counts copy_whole(struct source *sources, size_t count) {
    struct event event;
    begin_run();
    open_run(&reader, sources, count);
    while (read_event(&reader, &event)) {
        apply_event(&event);
        if (event.operation == ACQUIRE) note_user(&locks[event.object].user, event.thread);
        locate(&event);
        pass_on(&event);
    }
    return (struct counts){.events = reader.place, .threads = forked_threads(), .locks = used_locks()};
}
