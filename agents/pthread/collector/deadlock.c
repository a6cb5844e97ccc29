/* Finds threads that wait for each other. Each thread shows in the ring what it waits for; the records say who holds a lock, which may be
 * several readers. A cycle of these that stays the same for a second is a deadlock. If the program has ended, a cycle of two or more is one:
 * each member had the lock that another one waited for. A single thread may have been at an inner acquire of its own lock. */
#include "collector.h"

enum { MOST_MEMBERS = 64, MILLISECONDS = 1000 };

static struct wait waits[MOST_MEMBERS];
static uint32_t members[MOST_MEMBERS], before[MOST_MEMBERS], before_count, look;
static uint64_t waited_for[MOST_MEMBERS], since;
static int was_reported;

/* What a thread waits for; address 0 if for nothing. */
static struct wait wait_of(uint32_t thread) {
    struct wait wait;
    copy_shared(&wait, &ring->waits[thread % WAITS], sizeof wait);
    if (wait.thread != thread || !__atomic_load_n(&ring->waits[thread % WAITS].address, __ATOMIC_ACQUIRE)) wait.address = 0;
    if (wait.frames > BY_STACK) wait.frames = 0;
    return wait;
}

/* Follows the waits from a thread, which is at this place of a cycle that begins with `first`. Returns how many members it has, or 0. A thread
 * whose function has ended still runs the destructors of its variables. */
static uint32_t follow(uint32_t thread, uint32_t first, uint32_t place) {
    struct thread *it = known_thread(thread), *joined;
    if (thread == first && place) return place;
    if (!it || place == MOST_MEMBERS || (place && it->looked == look)) return 0;
    it->looked = look, members[place] = thread;
    struct wait wait = waits[place] = wait_of(thread);
    if (!wait.address) return 0;
    if (wait.kind == WAITS_FOR_THREAD) return (joined = thread_of_handle(wait.address)) ? follow(joined->number, first, place + 1) : 0;
    const struct lock *lock = known_lock(wait.address);
    if (!lock || lock->holder != NOBODY) return lock ? follow(lock->holder, first, place + 1) : 0;
    size_t count;
    const struct reader *readers = readers_of(lock, &count);
    for (uint32_t members; count > 0; count--, readers++) if ((members = follow(readers->thread, first, place + 1))) return members;
    return 0;
}

static uint32_t cycle_of(uint32_t first) {
    look++;
    return follow(first, first, 0);
}

/* A cycle, from its least thread on, and whether it is that of the last look. */
static uint32_t find(int *is_same) {
    uint32_t count = 0, least = NOBODY;
    for (struct thread *it = oldest_thread; it && !count; it = it->newer) count = cycle_of(it->number);
    for (uint32_t at = 0; at < count; at++) if (members[at] < least) least = members[at];
    if (count) count = cycle_of(least);
    *is_same = count && count == before_count && !memcmp(members, before, count * sizeof *members);
    for (uint32_t at = 0; at < count; at++) *is_same = *is_same && waits[at].address == waited_for[at];
    before_count = count;
    for (uint32_t at = 0; at < count; at++) before[at] = members[at], waited_for[at] = waits[at].address;
    return count;
}

/* The locks that a thread holds; those that it reads are below. */
static void write_held(FILE *file, const struct thread *thread) {
    for (size_t one = 0; one < thread->held_count; one++)
        if (!thread->held[one]->whole) fprintf(file, "  lock %u since @%u@\n", thread->held[one]->number, thread->held[one]->site);
}

static void write_read(FILE *file, uint32_t thread, struct lock *lock) {
    size_t count;
    const struct reader *readers = readers_of(lock, &count);
    for (; count > 0; count--, readers++)
        if (readers->thread == thread) fprintf(file, "  lock %u since @%u@\n", number_of(lock), readers->site);
}

static void write_members(FILE *file, uint32_t count) {
    fprintf(file, "deadlock of %u %s\n", count, count == 1 ? "thread, which waits for itself" : "threads, which wait for each other");
    for (uint32_t at = 0; at < count; at++) {
        const struct thread *thread = known_thread(members[at]), *other = thread_of_handle(waits[at].address);
        uint32_t site = site_of(waits[at].callers, (uint32_t)waits[at].frames);
        struct lock *lock = waits[at].kind != WAITS_FOR_THREAD ? known_lock(waits[at].address) : NULL;
        fprintf(file, "thread %u waits for ", name_in_trace(members[at]));
        if (lock) fprintf(file, "lock %u at @%u@\n", number_of(lock), site);
        else fprintf(file, "thread %u at @%u@\n", name_in_trace(other ? other->number : NOBODY), site);
        if (thread && thread->begun) fprintf(file, "  thread %u from @%u@\n", name_in_trace(members[at]), thread->begun);
        if (thread) write_held(file, thread);
        struct wait *wanted = &waits[(at ? at : count) - 1];
        lock = wanted->kind != WAITS_FOR_THREAD ? known_lock(wanted->address) : NULL;
        if (lock && lock->holder == NOBODY) write_read(file, members[at], lock);
    }
}

static int write_deadlock(uint32_t count) {
    FILE *file = create_in_work("deadlock");
    if (!file) return 0;
    write_members(file, count);
    fclose(file);
    close_sites();
    return was_reported = 1;
}

uint32_t waits_of_deadlock(struct wait *to, uint32_t most) {
    int is_same;
    uint32_t count = find(&is_same);
    if (count > most) return 0;
    memcpy(to, waits, count * sizeof *waits);
    return count;
}

int report_deadlock(void) {
    int is_same;
    uint32_t count = find(&is_same);
    return count && write_deadlock(count);
}

int look_for_deadlock(int is_over) {
    int is_same;
    if (was_reported) return 1;
    uint32_t count = find(&is_same);
    if (!is_same) since = now();
    if (!count || (is_over ? count < 2 : now() - since < MILLISECONDS)) return 0;
    return write_deadlock(count);
}
