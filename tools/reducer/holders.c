/* A trace takes MOST_HELD held locks of a thread. An artificial thread holds each further one for it. The two go on in turn: each gives by
 * reading and writing a variable of the lock, and the other one reads it. So other threads see an ordinary section, and no order is lost.
 * The lock is missing in the held locks of later acquires, and the acquire itself is in no cycle. */
#include "reducer.h"

struct owner { uint32_t held; uint32_t *idle; size_t count, room; };    /* of a thread: locks that it holds itself, and idle holders */
struct section { uint32_t depth, holder, variable; };                   /* of a lock; holder: NONE if its thread holds it itself */

static struct owner *owners;
static struct section *sections;
static size_t owners_count, owners_room, sections_count, sections_room;
static uint64_t beyond;
static size_t holders;
static void (*take)(const struct event *event);

static struct owner *owner_of(uint32_t thread) {
    while (owners_count <= thread) {
        owners = grow(owners, owners_count, &owners_room, sizeof *owners);
        owners[owners_count++] = (struct owner){0};
    }
    return &owners[thread];
}

static struct section *section_of(uint32_t lock) {
    while (sections_count <= lock) {
        sections = grow(sections, sections_count, &sections_room, sizeof *sections);
        sections[sections_count++] = (struct section){.holder = NONE, .variable = NONE};
    }
    return &sections[lock];
}

/* Passes an artificial event on, at the place of an event. */
static void put(const struct event *at, uint32_t thread, enum operation operation, uint32_t object) {
    struct event event = *at;
    event.thread = thread, event.operation = operation, event.object = object;
    take(&event);
}

/* The second thread goes on after what the first one has done. */
static void hand_over(const struct event *at, uint32_t first, uint32_t second) {
    uint32_t variable = section_of(at->object)->variable;
    put(at, first, READ, variable), put(at, first, WRITE, variable), put(at, second, READ, variable);
}

static uint32_t holder_for(const struct event *at) {
    struct owner *owner = owner_of(at->thread);
    if (owner->count) return owner->idle[--owner->count];
    uint32_t holder = new_thread();
    holders++;
    put(at, at->thread, FORK, holder);
    return holder;
}

static void acquire(const struct event *event) {
    struct section *section = section_of(event->object);
    bool is_first = !section->depth++;
    if (is_first && owner_of(event->thread)->held == MOST_HELD) {
        uint32_t holder = holder_for(event);
        if (section->variable == NONE) section->variable = new_variable();
        section->holder = holder, beyond++;
        hand_over(event, event->thread, holder);
        put(event, holder, ACQUIRE, event->object);
        hand_over(event, holder, event->thread);
    } else if (section->holder == NONE) {
        owner_of(event->thread)->held += is_first;
        take(event);
    }
}

static void release(const struct event *event) {
    struct section *section = section_of(event->object);
    struct owner *owner = owner_of(event->thread);
    bool is_last = !--section->depth;
    if (section->holder == NONE) {
        owner->held -= is_last;
        take(event);
    } else if (is_last) {
        hand_over(event, event->thread, section->holder);
        put(event, section->holder, RELEASE, event->object);
        owner->idle = grow(owner->idle, owner->count, &owner->room, sizeof *owner->idle);
        owner->idle[owner->count++] = section->holder;
        section->holder = NONE;
    }
}

void begin_holders(void (*next)(const struct event *event)) { take = next; }

void pass_on(const struct event *event) {
    if (event->operation == ACQUIRE) acquire(event);
    else if (event->operation == RELEASE) release(event);
    else take(event);
}

struct beyond counts_beyond(void) { return (struct beyond){beyond, holders}; }
