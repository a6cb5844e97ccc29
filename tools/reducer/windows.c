/* Writes events as traces for goodlockd: one, or windows if they are too many. A later window begins with forks of the threads that were
 * forked before it, by thread 0, and with acquires of the locks that they hold there. These events are marked as repeated. They come before
 * all others, so the forks order nothing. */
#include "reducer.h"

/* Of a thread: the last windows in which it is, is forked and is named. */
struct part { struct held_list held; uint32_t window, forked_in, named_in; bool is_forked; };
struct lock_part { uint32_t depth, named_in; bool is_used; };
struct repeated { struct event acquire; uint32_t depth; };             /* a lock that is held where the window begins */

static struct output output;
static struct written written;
static struct event *window;
static struct repeated *start;
static size_t window_count, start_count, start_room, parts_room, lock_parts_room, parts_count, lock_parts_count;
static size_t repeated_forks, repeated_acquires, present; /* of the window: present threads besides thread 0 */
static struct part *parts;
static struct lock_part *lock_parts;
static FILE *file;
static uint64_t expected; /* the place or line that the next event has without a comment */
static uint32_t source, where;

/* ---- threads and locks of the window ---- */

static struct part *part_of(uint32_t thread) {
    while (parts_count <= thread) {
        parts = grow(parts, parts_count, &parts_room, sizeof *parts);
        parts[parts_count++] = (struct part){0};
    }
    return &parts[thread];
}

static struct lock_part *lock_part_of(uint32_t lock) {
    while (lock_parts_count <= lock) {
        lock_parts = grow(lock_parts, lock_parts_count, &lock_parts_room, sizeof *lock_parts);
        lock_parts[lock_parts_count++] = (struct lock_part){0};
    }
    return &lock_parts[lock];
}

/* The place or the line of an event in its file. */
static uint64_t origin_of(const struct event *event, uint32_t from) {
    return event->line ? event->line : event->place - output.sources[from].first;
}

static uint32_t source_of(uint64_t place) {
    uint32_t at = 0;
    while (at + 1 < output.source_count && output.sources[at + 1].first <= place) at++;
    return at;
}

static bool is_root(uint32_t thread) { return thread_numbers.numbers[thread] == 0; }

static size_t depths_of(uint32_t thread) {
    size_t depths = 0;
    for (size_t at = 0; at < start_count; at++) if (start[at].acquire.thread == thread) depths += start[at].depth;
    return depths;
}

/* What an event adds to a window besides itself, since its threads are not in it yet. */
struct need { size_t threads, forks, acquires; };

static void add_need(struct need *need, uint32_t thread, bool is_forked_here) {
    struct part *part = part_of(thread);
    if (part->window == written.windows) return;
    need->threads += !is_root(thread);
    need->forks += !is_root(thread) && !is_forked_here && part->is_forked;
    need->acquires += depths_of(thread);
}

static struct need need_of(const struct event *event) {
    struct need need = {0};
    add_need(&need, event->thread, false);
    if (event->operation <= JOIN) add_need(&need, event->object, event->operation == FORK);
    return need;
}

static void begin_window(void) {
    written.windows++;
    window_count = start_count = repeated_forks = repeated_acquires = present = 0;
    for (uint32_t thread = 0; thread < parts_count && written.windows > 1; thread++)
        for (size_t at = 0; at < parts[thread].held.count; at++) {
            const struct held *held = &parts[thread].held.items[at];
            struct event acquire = {.place = held->place, .thread = thread, .operation = ACQUIRE, .object = held->lock};
            acquire.where = held->where, acquire.line = held->line;
            start = grow(start, start_count, &start_room, sizeof *start);
            start[start_count++] = (struct repeated){acquire, lock_parts[held->lock].depth};
        }
}

void begin_windows(struct output given) {
    output = given;
    window = allocate(output.most, sizeof *window);
    begin_window();
}

/* ---- the file ---- */

static void write_text(const char *before, uint32_t number, const char *between, uint32_t text) {
    size_t length;
    const char *bytes = text_of(&texts, text, &length);
    if (between) fprintf(file, "%s%u%s%.*s\n", before, number, between, (int)length, bytes);
    else fprintf(file, "%s%.*s\n", before, (int)length, bytes);
}

static void name_thread(uint32_t thread) {
    struct part *part = part_of(thread);
    if (part->named_in == written.windows) return;
    part->named_in = written.windows;
    if (threads[thread].name != NONE) write_text("# thread ", thread_numbers.numbers[thread], " is ", threads[thread].name);
}

/* Writes the comments about a lock, and about that of which it is a part: the window may have no event of the whole lock. */
static void write_comments(uint32_t lock) {
    for (bool is_part = true; is_part && lock_part_of(lock)->named_in != written.windows;) {
        const struct lock *it = &locks[lock];
        uint32_t number = lock_numbers.numbers[lock];
        lock_part_of(lock)->named_in = written.windows;
        if (it->name != NONE) write_text("# lock ", number, " is ", it->name);
        if (it->is_mark) fprintf(file, "# mark %u\n", number);
        if (it->prefers_writers) fprintf(file, "# lock %u prefers writers\n", number);
        if ((is_part = it->whole != NONE)) {
            fprintf(file, "# lock %u is a part of lock %u", number, it->whole);
            if (it->reader != NONE) fprintf(file, " for thread %u", it->reader);
            fputc('\n', file);
            lock = position_of(&lock_numbers, it->whole);
        }
    }
}

static void name_lock(uint32_t lock) {
    struct lock_part *part = lock_part_of(lock);
    written.locks += !part->is_used && !locks[lock].is_mark;
    part->is_used = true;
    write_comments(lock);
}

/* Writes where the event was in the files given, if the events before it do not show it. */
static void write_origin(const struct event *event) {
    uint32_t at = source_of(event->place);
    uint64_t origin = origin_of(event, at);
    if (origin != expected || source != at) {
        fprintf(file, "# %s %llu", event->line ? "line" : "place", (unsigned long long)origin);
        if (source != at && event->line) write_text(" of ", 0, NULL, output.sources[at].line_name);
        else if (source != at) fprintf(file, " of %s\n", output.sources[at].name);
        else fputc('\n', file);
    }
    expected = origin + 1, source = at;
}

static void write_event(const struct event *event) {
    uint32_t number = event->operation <= JOIN ? thread_numbers.numbers[event->object] :
        event->operation <= RELEASE ? lock_numbers.numbers[event->object] : variable_numbers.numbers[event->object];
    name_thread(event->thread);
    if (event->operation <= JOIN) name_thread(event->object);
    else if (event->operation <= RELEASE) name_lock(event->object);
    write_origin(event);
    if (event->where != where && event->where == NONE) fputs("# at\n", file);
    else if (event->where != where) write_text("# at ", 0, NULL, event->where);
    where = event->where;
    fprintf(file, "%u%c%u\n", thread_numbers.numbers[event->thread], "fjardw"[event->operation], number);
    written.events++;
}

/* Writes what a later window repeats. */
static void write_start(void) {
    if (written.windows > 1) fprintf(file, "# window %u\n", written.windows);
    if (repeated_forks + repeated_acquires) fprintf(file, "# repeated %zu\n", repeated_forks + repeated_acquires);
    if (values.are_there) fprintf(file, "# values atomic %u plain %u\n", values.atomic, values.plain);
    for (uint32_t thread = 0; thread < parts_count; thread++) {
        const struct part *part = &parts[thread];
        if (part->window != written.windows || is_root(thread) || !part->is_forked || part->forked_in == written.windows) continue;
        name_thread(thread);
        fprintf(file, "0f%u\n", thread_numbers.numbers[thread]);
        written.events++;
    }
    for (size_t at = 0; at < start_count; at++)
        if (parts[start[at].acquire.thread].window == written.windows)
            for (uint32_t depth = 0; depth < start[at].depth; depth++) write_event(&start[at].acquire);
}

static void write_window(void) {
    char name[4096];
    snprintf(name, sizeof name, "%s/%u.trace", output.folder, written.windows);
    file = open_output(name);
    expected = 0, source = where = NONE;
    write_start();
    for (size_t at = 0; at < window_count; at++) write_event(&window[at]);
    if (ferror(file) || fclose(file)) end_unwritten(name);
}

/* ---- events ---- */

static void end_too_small(const struct event *event) {
    uint32_t at = source_of(event->place);
    fprintf(stderr, "%s: %s %llu does not fit a window: the acquires of the held locks fill it\n", output.sources[at].name,
            event->line ? "line" : "place", (unsigned long long)origin_of(event, at));
    exit(2);
}

static void follow_locks(const struct event *event) {
    struct lock_part *lock = lock_part_of(event->object);
    if (event->operation == ACQUIRE && !lock->depth++) hold(&part_of(event->thread)->held, event);
    if (event->operation == RELEASE && !--lock->depth) unhold(&part_of(event->thread)->held, event->object);
}

static bool is_room_for(struct need need) {
    return window_count + repeated_forks + repeated_acquires + need.forks + need.acquires + 1 <= output.most &&
        present + need.threads + 1 <= MOST_THREADS;
}

static void put(const struct event *event, struct need need) {
    present += need.threads, repeated_forks += need.forks, repeated_acquires += need.acquires;
    part_of(event->thread)->window = written.windows;
    if (event->operation <= JOIN) part_of(event->object)->window = written.windows;
    if (event->operation == FORK) part_of(event->object)->is_forked = true, part_of(event->object)->forked_in = written.windows;
    if (event->operation == ACQUIRE || event->operation == RELEASE) follow_locks(event);
    window[window_count++] = *event;
}

void add_to_window(const struct event *event) {
    struct need need = need_of(event);
    if (!is_room_for(need)) {
        write_window();
        begin_window();
        need = need_of(event);
        if (!is_room_for(need)) end_too_small(event);
    }
    put(event, need);
}

struct written end_windows(void) {
    write_window();
    for (uint32_t thread = 0; thread < parts_count; thread++) written.threads += parts[thread].window > 0;
    return written;
}
