/* A first slice, before events are kept: a pass writes the events to a file of records, which is read here from its end. What an
 * event needs is before it, except the release of an acquire. So each release is taken as needed if a needed acquire of its lock comes
 * later: the result may have more events than the least slice, which slice.c makes of it. */
#include "reducer.h"

#include <errno.h>
#include <fcntl.h>
#include <unistd.h>

enum { BLOCK = 1 << 20 }; /* records */

struct record { uint32_t thread : 27, unused : 2, operation : 3, object; };
static struct record *block;
static size_t block_count;
static int file = -1;
static uint64_t recorded;

/* ---- the file ---- */

/* The file has no name: it is gone when the program ends. */
void begin_records(const char *folder) {
    char path[4096];
    snprintf(path, sizeof path, "%s/records", folder);
    file = open(path, O_RDWR | O_CREAT | O_EXCL | O_CLOEXEC, 0600);
    if (file < 0 || unlink(path)) end_unwritten(path);
    block = allocate(BLOCK, sizeof *block);
}

static void write_block(void) {
    const char *from = (const char *)block;
    for (size_t rest = block_count * sizeof *block; rest;) {
        ssize_t done = write(file, from, rest);
        if (done < 0 && errno != EINTR) end_unwritten("a temporary file");
        if (done > 0) from += done, rest -= (size_t)done;
    }
    block_count = 0;
}

void record(const struct event *event) {
    block[block_count++] = (struct record){.thread = event->thread, .operation = event->operation, .object = event->object};
    recorded++;
    if (block_count == BLOCK) write_block();
}

/* Reads the records of a block that begins at this one. */
static void read_block(uint64_t first) {
    uint64_t count = recorded - first < BLOCK ? recorded - first : BLOCK;
    char *to = (char *)block;
    for (uint64_t done = 0, size = count * sizeof *block; done < size;) {
        ssize_t got = pread(file, to + done, size - done, (off_t)(first * sizeof *block + done));
        if (got < 0 && errno == EINTR) continue;
        if (got <= 0) end_unread("a temporary file", got ? strerror(errno) : "it has become shorter");
        done += (uint64_t)got;
    }
}

/* ---- the slice ---- */

struct backward {
    const uint32_t *components;
    uint64_t *limits;       /* of each thread: 1 more than the number of its last needed event */
    bool *is_wanted;        /* of each variable: a needed read sees its next write */
    bool *is_acquired;      /* of each lock: a needed acquire comes later */
};

/* Undoes an acquire or a release. Returns whether it is outermost. */
static bool undo(const struct event *event) {
    struct lock *lock = &locks[event->object];
    if (event->operation == ACQUIRE) {
        if (--lock->depth) return false;
        unhold(&threads[event->thread].held, event->object);
        return true;
    }
    if (lock->depth++) return false;
    hold(&threads[event->thread].held, event);
    return true;
}

/* Returns whether an event is needed for itself: no later event of its thread says so. */
static bool is_needed(struct backward *backward, const struct event *event, bool is_outermost) {
    if (event->operation == FORK) return backward->limits[event->object] > 0;
    if (event->operation == RELEASE) return is_outermost && backward->is_acquired[event->object];
    if (event->operation == ACQUIRE) return is_outermost && is_possible_member(backward->components, event);
    return event->operation == WRITE && backward->is_wanted[event->object];
}

static void need(struct backward *backward, const struct event *event, uint64_t number, bool is_outermost) {
    if (!backward->limits[event->thread]) backward->limits[event->thread] = number + 1;
    if (event->operation == JOIN && !backward->limits[event->object]) backward->limits[event->object] = number;
    if (event->operation == READ) backward->is_wanted[event->object] = true;
    if (event->operation == ACQUIRE && is_outermost) backward->is_acquired[event->object] = true;
}

static void take_back(struct backward *backward, const struct record *record, uint64_t number) {
    struct event event = {.thread = record->thread, .operation = record->operation, .object = record->object};
    bool is_of_lock = event.operation == ACQUIRE || event.operation == RELEASE, is_outermost = is_of_lock && undo(&event);
    if (backward->limits[event.thread] || is_needed(backward, &event, is_outermost)) need(backward, &event, number, is_outermost);
    if (event.operation == WRITE) backward->is_wanted[event.object] = false;
}

uint64_t *limits_of(const uint32_t *components) {
    struct backward backward = {
        .components = components, .limits = allocate(thread_numbers.count, sizeof(uint64_t)),
        .is_wanted = allocate(variable_numbers.count, 1), .is_acquired = allocate(lock_numbers.count, 1),
    };
    write_block();
    for (uint64_t end = recorded; end;) {
        uint64_t first = (end - 1) / BLOCK * BLOCK;
        read_block(first);
        while (end > first) end--, take_back(&backward, &block[end - first], end);
    }
    free(backward.is_wanted), free(backward.is_acquired), free(block);
    close(file);
    return backward.limits;
}
