/* The encoding of reader-writer locks. docs/agents.md has the reasons.
 *
 * Each reader has a lock of its own, a part of the whole one. A writer acquires the whole lock and then all parts. There are some parts more
 * than readers, for the next readers. Readers without a part are ordered by variables. */
#include "../collector.h"

enum { MOST_PARTS = 8, MOST_READERS = 1 << 10 };
enum { WRITTEN, READ }; /* of a whole lock's variables: writers' ends; ends of readers without a part */

unsigned long read_locks, crowded_locks;

/* parts: those that a writer acquires. retired: parts of these that the next writer acquires for the last time. writes: sections of writers so
 * far. readers: those that hold it, for deadlocks that happen. */
struct sharing {
    struct lock *parts[MOST_PARTS], *retired[MOST_PARTS];
    uint32_t parts_count, retired_count, writes;
    uint8_t was_read, is_crowded, prefers_writers;
    struct reader *readers;
    size_t readers_count, readers_room;
};

static struct sharing *sharing_of(struct lock *lock) {
    if (!lock->sharing) lock->sharing = allocate(sizeof *lock->sharing);
    return lock->sharing;
}

/* ---- readers, for deadlocks that happen ---- */

const struct reader *readers_of(const struct lock *lock, size_t *count) {
    *count = lock->sharing ? lock->sharing->readers_count : 0;
    return lock->sharing ? lock->sharing->readers : NULL;
}

static void add_reader(struct sharing *sharing, uint32_t thread, uint32_t site) {
    if (sharing->readers_count == MOST_READERS) return;
    sharing->readers = grow(sharing->readers, sharing->readers_count, &sharing->readers_room, sizeof *sharing->readers);
    sharing->readers[sharing->readers_count++] = (struct reader){thread, site};
}

/* The last read section of the thread ends; or that of another one, if its own was not seen. */
static void leave_readers(struct sharing *sharing, uint32_t thread) {
    size_t at = sharing->readers_count;
    while (at > 0 && sharing->readers[at - 1].thread != thread) at--;
    if (sharing->readers_count) sharing->readers[at ? at - 1 : 0] = sharing->readers[--sharing->readers_count];
}

/* ---- parts ---- */

static void name_part(const struct lock *part) {
    if (!part->number) return;
    if (part->reader == NOBODY) note_name("# lock %u is a part of lock %u", part->number, number_of(part->whole));
    else note_name("# lock %u is a part of lock %u for thread %u", part->number, number_of(part->whole), part->reader);
}

static void acquire_part(uint32_t thread, struct lock *part, enum how how, uint32_t site) {
    int is_new = !part->number;
    if (is_new) number_of(part), name_part(part);
    acquire(thread, part, how, site);
}

static struct lock *add_part(struct lock *lock) {
    struct sharing *sharing = sharing_of(lock);
    struct lock *part = allocate(sizeof *part);
    part->whole = lock, part->holder = part->reader = NOBODY, part->earlier = sharing->writes;
    return sharing->parts[sharing->parts_count++] = part;
}

static struct lock *find_part(struct sharing *sharing, uint32_t reader, int is_held) {
    for (uint32_t at = 0; at < sharing->parts_count; at++) {
        struct lock *part = sharing->parts[at];
        if (part->reader == reader && (!is_held || part->holder == reader)) return part;
    }
    return NULL;
}

/* A part that another reader needs more: that of a thread which has ended; or if this one holds locks while it reads, that of a thread which
 * never did so. The next writer acquires it once more. */
static int retire_part(struct lock *lock, const struct thread *by) {
    struct sharing *sharing = lock->sharing;
    if (sharing->retired_count == MOST_PARTS) return 0;
    for (uint32_t at = 0; at < sharing->parts_count; at++) {
        struct lock *part = sharing->parts[at];
        const struct thread *reader = known_thread(part->reader);
        if (part->holder != NOBODY || (reader && !reader->has_ended && (!by->held_count || part->is_nested))) continue;
        sharing->retired[sharing->retired_count++] = part;
        memmove(&sharing->parts[at], &sharing->parts[at + 1], (--sharing->parts_count - at) * sizeof *sharing->parts);
        return 1;
    }
    return 0;
}

/* The part by which a thread reads, or NULL. If it reads already, and waiting writers keep further readers out, it has another one. */
static struct lock *part_for(struct lock *lock, const struct thread *thread) {
    struct sharing *sharing = sharing_of(lock);
    struct lock *part = NULL;
    for (uint32_t at = 0; at < sharing->parts_count && !part; at++)
        if (sharing->parts[at]->reader == thread->number && (!sharing->prefers_writers || sharing->parts[at]->holder == NOBODY))
            part = sharing->parts[at];
    if (part) return part;
    part = find_part(sharing, NOBODY, 0);
    if (!part && (sharing->parts_count < MOST_PARTS || retire_part(lock, thread))) part = add_part(lock);
    if (part) part->reader = thread->number, name_part(part);
    else if (!find_part(sharing, thread->number, 0)) crowded_locks += !sharing->is_crowded, sharing->is_crowded = 1;
    return part ? part : find_part(sharing, thread->number, 0);
}

static void note_preference(struct lock *lock, int prefers_writers) {
    struct sharing *sharing = sharing_of(lock);
    if (prefers_writers && !sharing->prefers_writers) note_name("# lock %u prefers writers", number_of(lock));
    sharing->prefers_writers |= prefers_writers != 0;
}

/* ---- sections ---- */

void read_lock(uint32_t thread, uint64_t address, enum how how, int prefers_writers, uint32_t site) {
    struct lock *lock = find_used_lock(thread, address);
    struct sharing *sharing = sharing_of(lock);
    if (lock->holder != NOBODY) release_fully(lock, site);
    note_preference(lock, prefers_writers);
    read_locks += !sharing->was_read, sharing->was_read = 1;
    add_reader(sharing, thread, site);
    struct lock *part = part_for(lock, find_thread(thread));
    if (part) {
        part->is_nested |= find_thread(thread)->held_count > 0;
        acquire_part(thread, part, how, site);
    }
    /* The thread comes after the writers that did not acquire its part, which were all before its first section. */
    if (!part || part->earlier) take_by(thread, lock, WRITTEN, site);
    if (part) part->earlier = 0;
}

/* There are parts for the next readers, so that this writer holds them too. If a thread may read twice, there are two. */
static void add_spare_parts(struct lock *lock) {
    const struct sharing *sharing = lock->sharing;
    uint32_t spare = 0, wanted = sharing->prefers_writers ? 2 : 1;
    for (uint32_t at = 0; at < sharing->parts_count; at++) spare += sharing->parts[at]->reader == NOBODY;
    for (; spare < wanted && sharing->parts_count < MOST_PARTS; spare++) add_part(lock);
}

/* A writer keeps a reader waiting while it waits for another one only if it acquires the part of the first one earlier. So each second writer
 * acquires the parts in the other order. The first one begins with the newest: a thread that reads again has the newer part for that. */
static void acquire_parts(uint32_t thread, struct lock *lock, enum how how, uint32_t site) {
    const struct sharing *sharing = lock->sharing;
    uint32_t count = sharing->parts_count;
    for (uint32_t at = 0; at < sharing->retired_count; at++) acquire_part(thread, sharing->retired[at], how, site);
    for (uint32_t at = 0; at < count; at++) acquire_part(thread, sharing->parts[sharing->writes % 2 ? at : count - 1 - at], how, site);
}

void write_lock(uint32_t thread, uint64_t address, enum how how, int prefers_writers, uint32_t site) {
    struct lock *lock = find_used_lock(thread, address);
    struct sharing *sharing = sharing_of(lock);
    acquire(thread, lock, how, site);
    note_preference(lock, prefers_writers);
    sharing->readers_count = 0;
    if (lock->depth > 1) return;
    add_spare_parts(lock);
    acquire_parts(thread, lock, how, site);
    sharing->writes++;
    take_by(thread, lock, READ, site);
}

/* What the holder reads goes on. Later writers come after the one that acquired retired parts. */
void release_parts(struct lock *lock, uint32_t site) {
    struct sharing *sharing = lock->sharing;
    if (sharing->retired_count) give_by(lock->holder, lock, READ, site);
    for (uint32_t at = sharing->parts_count; at-- > 0;)
        if (sharing->parts[at]->holder == lock->holder) release(sharing->parts[at], NOBODY, site);
    for (; sharing->retired_count; free(sharing->retired[sharing->retired_count])) release_fully(sharing->retired[--sharing->retired_count], site);
}

/* The part that ends when a thread releases the lock: its last one, or that of another reader if it has none. */
static struct lock *part_to_release(struct sharing *sharing, uint32_t thread) {
    for (uint32_t at = sharing->parts_count; at-- > 0;) if (sharing->parts[at]->holder == thread) return sharing->parts[at];
    for (size_t at = 0; at < sharing->readers_count; at++) if (sharing->readers[at].thread == thread) return NULL;
    for (uint32_t at = sharing->parts_count; at-- > 0;) if (sharing->parts[at]->holder != NOBODY) return sharing->parts[at];
    return NULL;
}

void unlock_either(uint32_t thread, uint64_t address, uint32_t site) {
    struct lock *lock = find_lock(address);
    struct sharing *sharing = sharing_of(lock);
    if (lock->holder != NOBODY) {
        write_by(thread, lock, WRITTEN, site);
        release(lock, thread, site);
    } else if (sharing->was_read) {
        struct lock *part = part_to_release(sharing, thread);
        leave_readers(sharing, thread);
        if (part) release(part, thread, site);
        else give_by(thread, lock, READ, site);
    }
}

void forget_sharing(struct lock *lock) {
    struct sharing *sharing = lock->sharing;
    if (!sharing) return;
    for (uint32_t at = 0; at < sharing->parts_count; at++) release_fully(sharing->parts[at], 0), free(sharing->parts[at]);
    for (uint32_t at = 0; at < sharing->retired_count; at++) release_fully(sharing->retired[at], 0), free(sharing->retired[at]);
    free(sharing->readers), free(sharing);
    lock->sharing = NULL;
}
