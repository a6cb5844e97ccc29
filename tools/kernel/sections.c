/* What an acquire that got its lock becomes, and its release. */
#include "kernel.h"

struct made made;
static bool is_interrupted[CONTEXTS]; /* interrupts of this kind can wait for what is held where they come */
static struct { uint32_t items[MOST_PARTS], count; } interrupted[CONTEXTS]; /* the first processors that have such interrupts */

/* ---- interrupts: a lock that the interrupts of a processor hold, and for which a task waits where they may come ---- */

/* Whether an interrupt waits for a lock that a task may hold when it comes: two readers do not wait for each other. */
static bool is_unsafe(const struct class_info *class, enum context context) {
    bool in_write = class->in[context][false], in_read = class->in[context][true];
    if (!class->is_reached[context]) return false;
    if (!in_write && in_read) return class->on[context][false];
    return class->on[context][false] || class->on[context][true];
}

void begin_sections(void) {
    for (int context = SOFTIRQ; context < CONTEXTS; context++)
        for (size_t at = 0; at < class_names.count; at++) is_interrupted[context] |= is_unsafe(&classes[at], context);
    for (uint32_t processor = 0; processor < MOST_PROCESSORS; processor++)
        for (int context = SOFTIRQ; context < CONTEXTS; context++)
            if (has_interrupts(processor, context) && interrupted[context].count < MOST_PARTS)
                interrupted[context].items[interrupted[context].count++] = processor;
}

/* The interrupt begins, as far as locks show. It comes after the tasks before it and before those after it: the recording does not show who
 * asked for it, and until when it may come. */
static void begin_interrupt(uint32_t actor) {
    struct state *state = state_of(actor);
    enum context context = actors[actor].context;
    uint32_t processor = actors[actor].processor;
    if (!is_interrupted[context] || state->has_interrupt) return;
    state->has_interrupt = emit_acquire(actor, lock_number(INTERRUPT, context, processor));
    emit_read(actor, INTERRUPTED, context, processor);
}

/* An interrupt that acquires on a cycle of classes comes after all that was before it: who asked for it is not recorded. */
static void come_after_all(uint32_t actor, uint32_t class) {
    struct state *state = state_of(actor);
    bool is_needed = false;
    for (size_t at = 0; at < state->holding_count && class != queue_class; at++)
        is_needed |= is_on_cycle(lock_infos[state->holdings[at].lock].class, class);
    if (!is_needed || state->is_late) return;
    for (size_t at = 0; at < listed_count; at++) {
        uint32_t other = listed[at];
        if (other == actor || acting[other].last <= state->late) continue;
        emit_write(other, PAST, other, actor);
        emit_read(actor, PAST, other, actor);
    }
    state->is_late = true, state->late = event_count;
}

static void end_interrupt(uint32_t actor) {
    struct state *state = state_of(actor);
    state->is_late = false;
    if (!state->has_interrupt) return;
    emit_turn(actor, INTERRUPTED, actors[actor].context, actors[actor].processor);
    emit_release(actor, lock_number(INTERRUPT, actors[actor].context, actors[actor].processor));
    state->has_interrupt = false;
}

static void wait_for_interrupt(uint32_t actor, enum context context, uint32_t processor) {
    uint32_t number = lock_number(INTERRUPT, context, processor), holder = holder_of(number);
    if (holder != NONE && holder != actor && !state_of(holder)->holding_count) end_interrupt(holder); /* its processor had no event since */
    emit_read(actor, INTERRUPTED, context, processor);
    if (!emit_acquire(actor, number)) return;
    emit_release(actor, number);
    emit_write(actor, INTERRUPTED, context, processor);
    made.interrupts++;
}

/* A task that holds the lock may run on each processor. */
static void allow_interrupts(uint32_t actor, const struct class_info *class, struct waiting acquire) {
    for (int context = SOFTIRQ; context < CONTEXTS; context++) {
        bool is_on = acquire.bits & (context == HARDIRQ ? BIT_IRQS_ON : BIT_SOFTIRQS_ON);
        if (!is_on || !is_interrupted[context] || (int)actors[actor].context >= context || !is_unsafe(class, context)) continue;
        for (uint32_t at = 0; at < interrupted[context].count; at++) wait_for_interrupt(actor, context, interrupted[context].items[at]);
    }
}

/* ---- locks ---- */

struct holding *find_holding(struct state *state, uint32_t lock) {
    for (size_t at = state->holding_count; at-- > 0;) if (state->holdings[at].lock == lock) return &state->holdings[at];
    return NULL;
}

static bool has_part(const struct lock_info *lock, uint32_t actor) {
    for (int at = 0; at < lock->reader_count && at < MOST_PARTS; at++) if (lock->readers[at] == actor) return true;
    return false;
}

static int part_count(const struct lock_info *lock) { return lock->reader_count < MOST_PARTS ? lock->reader_count : MOST_PARTS; }

static uint32_t part_number(uint32_t lock, int at) { return lock_number(PART, lock, lock_infos[lock].readers[at]); }

/* Ends what is known of a holder, since another thread has got the lock. A writer that let readers in has become one itself. */
static void end_other(uint32_t holder, uint32_t lock, bool is_for_reader) {
    struct state *state = state_of(holder);
    struct holding *holding = find_holding(state, lock);
    const struct lock_info *info = &lock_infos[lock];
    if (!holding) return;
    if (is_for_reader && !holding->is_read && info->reader_count) {
        made.downgraded++;
        holding->is_read = true;
        for (int at = part_count(info); at-- > 0;)
            if (info->readers[at] != holder) emit_release(holder, part_number(lock, at));
        emit_release(holder, lock_number(PLAIN, lock, 0));
        return;
    }
    made.unseen++;
    release_holding(holder, (size_t)(holding - state->holdings));
}

static void acquire_number(uint32_t actor, uint32_t number, uint32_t lock, bool is_read) {
    uint32_t holder = holder_of(number);
    if (holder != NONE && holder != actor) end_other(holder, lock, is_read);
    if (!emit_acquire(actor, number)) made.too_many++;
}

/* While a writer waits for one reader, a lock that prefers writers keeps each other reader out: so the writer acquires the parts in one
 * order and in the opposite one. */
static void acquire_for_writing(uint32_t actor, uint32_t lock) {
    const struct lock_info *info = &lock_infos[lock];
    int count = part_count(info);
    acquire_number(actor, lock_number(PLAIN, lock, 0), lock, false);
    if (info->is_sleeping && count > 1) {
        for (int at = count; at-- > 0;) acquire_number(actor, part_number(lock, at), lock, false);
        for (int at = 0; at < count; at++) emit_release(actor, part_number(lock, at));
    }
    for (int at = 0; at < count; at++) acquire_number(actor, part_number(lock, at), lock, false);
    if (info->reader_count > MOST_PARTS) emit_read(actor, READERS, lock, NONE);
}

static void acquire_for_reading(uint32_t actor, uint32_t lock) {
    const struct lock_info *info = &lock_infos[lock];
    if (has_part(info, actor)) acquire_number(actor, lock_number(PART, lock, actor), lock, true);
    else made.readers_as_orders++, emit_read(actor, WRITERS, lock, NONE);
}

static void add_holding(struct state *state, uint32_t lock, bool is_read) {
    state->holdings = grow(state->holdings, state->holding_count, &state->holding_room, sizeof *state->holdings);
    state->holdings[state->holding_count++] = (struct holding){.lock = lock, .is_read = is_read};
    state->version++;
}

void take_lock(uint32_t actor, struct waiting acquire) {
    struct state *state = state_of(actor);
    const struct lock_info *info = &lock_infos[acquire.lock];
    const struct class_info *class = &classes[info->class];
    bool is_read = acquire.bits & BIT_READ, is_tried = acquire.bits & BIT_TRIED;
    struct holding *before = find_holding(state, acquire.lock);
    set_origin(acquire.line, info->class);
    if (class->is_ww) {
        made.ww++;
        return;
    }
    if (before && !before->is_read && !is_read) made.unseen++, release_holding(actor, (size_t)(before - state->holdings));
    if (!is_tried && actors[actor].context != TASK) begin_interrupt(actor), come_after_all(actor, info->class);
    if (state->holding_count >= MOST_HELD_OF_RUN) {
        made.too_many++;
        return;
    }
    add_holding(state, acquire.lock, is_read);
    if (is_read && !info->is_written) return; /* readers do not wait for each other */
    bool is_marked = is_tried && (acting[actor].held || (!is_read && info->reader_count));
    made.tried += is_marked;
    if (is_marked) emit_acquire(actor, lock_number(MARK, actor, 0));
    if (is_read) acquire_for_reading(actor, acquire.lock);
    else acquire_for_writing(actor, acquire.lock);
    if (is_marked) emit_release(actor, lock_number(MARK, actor, 0));
    if (class->is_completion) enter_completion(actor, acquire.lock);
    allow_interrupts(actor, class, acquire);
}

static void release_for_writing(uint32_t actor, uint32_t lock) {
    const struct lock_info *info = &lock_infos[lock];
    if (info->reader_count > MOST_PARTS) emit_write(actor, WRITERS, lock, NONE);
    for (int at = part_count(info); at-- > 0;) emit_release(actor, part_number(lock, at));
    emit_release(actor, lock_number(PLAIN, lock, 0));
}

static void release_for_reading(uint32_t actor, uint32_t lock) {
    const struct lock_info *info = &lock_infos[lock];
    if (!info->is_written) return;
    if (has_part(info, actor)) emit_release(actor, lock_number(PART, lock, actor));
    else emit_turn(actor, READERS, lock, NONE);
}

/* ---- executions of works and timers, which others wait for by name ---- */

struct waiter { uint32_t actor, version, class; };
static struct waiter *waiters;
static size_t waiter_count, waiter_room;

bool is_named(const struct class_info *class) {
    bool is_one = class->work != SEVERAL && class->waited != SEVERAL && class->waited != NONE;
    return (class->is_work || class->is_timer) && class->exec_count && is_one;
}

/* The recording does not show who asked for a timer, so its executions and waits keep their turn. */
static void take_turn(uint32_t actor, uint32_t class) {
    if (classes[class].is_timer) emit_turn(actor, EXECUTED, class, NONE);
    else emit_read(actor, EXECUTED, class, NONE);
}

static bool is_executed_by(const struct class_info *class, uint32_t actor) {
    for (uint32_t at = 0; at < class->exec_count; at++) if (class->execs[at] == actor) return true;
    return false;
}

static void end_execution(uint32_t actor, uint32_t class) {
    uint32_t number = lock_number(NAMED, class, actor);
    emit_turn(actor, EXECUTED, class, NONE);
    emit_release(actor, number);
    for (size_t at = waiter_count; at-- > 0;) {
        struct waiter waiter = waiters[at];
        bool is_waiting = state_of(waiter.actor)->version == waiter.version;
        if (waiter.class != class && is_waiting) continue;
        waiters[at] = waiters[--waiter_count];
        if (waiter.class != class || !is_waiting || holder_of(number) != NONE) continue;
        if (emit_acquire(waiter.actor, number)) emit_release(waiter.actor, number);
        take_turn(waiter.actor, class);
    }
}

void begin_execution(uint32_t actor, struct waiting acquire) {
    uint32_t class = lock_infos[acquire.lock].class, number;
    if (!is_executed_by(&classes[class], actor)) return;
    set_origin(acquire.line, class);
    if (actors[actor].context != TASK) begin_interrupt(actor);
    number = lock_number(NAMED, class, actor);
    if (holder_of(number) != NONE && holder_of(number) != actor) return;
    add_holding(state_of(actor), acquire.lock, false);
    emit_acquire(actor, number);
    if (classes[class].is_timer) emit_turn(actor, EXECUTED, class, NONE);
}

void wait_for_executions(uint32_t actor, uint32_t class) {
    const struct class_info *info = &classes[class];
    uint32_t all = lock_number(NAMED, class, NONE);
    made.named++;
    if (info->is_timer) emit_read(actor, EXECUTED, class, NONE);
    if (!emit_acquire(actor, all)) return;
    for (uint32_t at = 0; at < info->exec_count; at++) {
        uint32_t number = lock_number(NAMED, class, info->execs[at]), holder = holder_of(number);
        if (holder == actor) continue; /* a work that waits for one of its own name */
        if (holder == NONE) {
            if (emit_acquire(actor, number)) emit_release(actor, number);
            continue;
        }
        waiters = grow(waiters, waiter_count, &waiter_room, sizeof *waiters);
        waiters[waiter_count++] = (struct waiter){actor, state_of(actor)->version, class};
    }
    emit_release(actor, all);
    take_turn(actor, class);
}

/* ---- releases ---- */

void release_holding(uint32_t actor, size_t at) {
    struct state *state = state_of(actor);
    struct holding holding = state->holdings[at];
    uint32_t class = lock_infos[holding.lock].class;
    memmove(&state->holdings[at], &state->holdings[at + 1], (--state->holding_count - at) * sizeof *state->holdings);
    state->version++;
    if (is_named(&classes[class])) end_execution(actor, class);
    else if (holding.is_read) release_for_reading(actor, holding.lock);
    else release_for_writing(actor, holding.lock);
    if (classes[class].is_completion) leave_completion(actor, holding.lock);
}

void release_holdings(uint32_t actor) {
    struct state *state = state_of(actor);
    while (state->holding_count) release_holding(actor, state->holding_count - 1);
    end_interrupt(actor);
    state->waiting_count = 0, state->contended = NONE;
}
