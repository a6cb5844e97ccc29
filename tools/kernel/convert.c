/* Makes events of the records. An acquire that may wait is pending until `lock_acquired`; in a recording without these, until the thread
 * has another event. docs/kernel.md says what orders what. */
#include "kernel.h"

bool has_acquired;
static struct state **states;
uint32_t *listed, queue_class = NONE;
size_t listed_count;
static size_t listed_room;
static uint32_t epoch;

struct state *state_of(uint32_t actor) {
    if (!states[actor]) {
        states[actor] = allocate(1, sizeof **states);
        *states[actor] = (struct state){.contended = NONE, .completed = NONE, .epoch = NONE};
    }
    return states[actor];
}

static void list(uint32_t actor) {
    if (state_of(actor)->is_listed) return;
    state_of(actor)->is_listed = true;
    listed = grow(listed, listed_count, &listed_room, sizeof *listed);
    listed[listed_count++] = actor;
}

/* ---- orders ---- */

/* The thread has another event: it comes after those who woke it, and what it did in a completion is done. */
static void go_on(uint32_t actor) {
    struct state *state = state_of(actor);
    for (size_t at = 0; at < state->waker_count; at++) emit_read(actor, WOKEN, state->wakers[at], actor);
    state->waker_count = 0;
}

static struct pairs completers; /* of a completion: who released it last */

static void complete(uint32_t actor) {
    struct state *state = state_of(actor);
    if (state->completed != NONE) emit_write(actor, COMPLETED, state->completed, NONE);
    state->completed = NONE;
}

void leave_completion(uint32_t actor, uint32_t lock) {
    state_of(actor)->completed = lock;
    *add_pair(&completers, lock, 0) = actor;
}

void enter_completion(uint32_t actor, uint32_t lock) {
    const uint64_t *last = find_pair(&completers, lock);
    if (last && states[*last] && states[*last]->completed == lock) complete((uint32_t)*last);
    emit_read(actor, COMPLETED, lock, NONE);
}

/* A wake-up is no order if the woken thread waits for a lock: locks order by themselves. */
static void wake(uint32_t actor, uint32_t woken) {
    struct state *state = state_of(woken);
    if (actor == woken || state->contended != NONE) return;
    made.wakes++;
    emit_write(actor, WOKEN, actor, woken);
    for (size_t at = 0; at < state->waker_count; at++) if (state->wakers[at] == actor) return;
    state->wakers = grow(state->wakers, state->waker_count, &state->waker_room, sizeof *state->wakers);
    state->wakers[state->waker_count++] = actor;
}

/* ---- ends ---- */

static void end_actor(uint32_t actor) {
    if (!states[actor]) return;
    complete(actor);
    release_holdings(actor);
    if (actors[actor].context != TASK || actors[actor].processor != NONE) return; /* further interrupts come */
    for (size_t at = 0; states[actor]->is_listed && at < listed_count; at++)
        if (listed[at] == actor) {
            listed[at] = listed[--listed_count];
            break;
        }
    free(states[actor]->holdings);
    free(states[actor]->waitings);
    free(states[actor]->wakers);
    free(states[actor]);
    states[actor] = NULL;
}

/* The tracer lost events: what was held may be free. */
static void lose(void) {
    epoch++;
    for (size_t at = 0; at < listed_count; at++) release_holdings(listed[at]);
}

/* ---- locks ---- */

/* Without `lock_acquired` the annotations, which nobody waits for, are known by their names. */
static bool is_lock(const struct class_info *class) {
    return !class->is_annotation && !class->is_work && !class->is_timer;
}

static bool take_waiting(struct state *state, uint32_t lock, struct waiting *found) {
    for (size_t at = state->waiting_count; at-- > 0;) {
        if (state->waitings[at].lock != lock) continue;
        *found = state->waitings[at];
        memmove(&state->waitings[at], &state->waitings[at + 1], (--state->waiting_count - at) * sizeof *state->waitings);
        return true;
    }
    return false;
}

static void add_waiting(uint32_t actor, struct waiting acquire) {
    struct state *state = state_of(actor);
    struct waiting before;
    take_waiting(state, acquire.lock, &before);
    if (state->waiting_count == MOST_HELD_OF_RUN) {
        made.too_many++;
        return;
    }
    list(actor);
    state->waitings = grow(state->waitings, state->waiting_count, &state->waiting_room, sizeof *state->waitings);
    state->waitings[state->waiting_count++] = acquire;
}

/* Without `lock_acquired`: a thread that has another event has got its locks. */
static void take_all_waiting(uint32_t actor) {
    struct state *state = state_of(actor);
    if (has_acquired) return;
    for (size_t at = 0; at < state->waiting_count;) {
        struct waiting waiting = state->waitings[at];
        const struct class_info *class = &classes[lock_infos[waiting.lock].class];
        if (!is_lock(class)) {
            at++;
            continue;
        }
        take_waiting(state, waiting.lock, &waiting);
        take_lock(actor, waiting);
    }
}

static void acquire(uint32_t actor, const struct record *record) {
    const struct class_info *class = &classes[lock_infos[record->object].class];
    struct waiting waiting = {record->object, record->line, record->processor, record->bits};
    if (lock_infos[record->object].class != queue_class) complete(actor);
    list(actor);
    if (class->is_timer && is_named(class) && actors[actor].context == SOFTIRQ) begin_execution(actor, waiting);
    else if (waiting.bits & BIT_TRIED && !class->is_work && !class->is_timer) take_lock(actor, waiting);
    else add_waiting(actor, waiting);
}

static void acquired(uint32_t actor, const struct record *record) {
    struct state *state = state_of(actor);
    struct waiting waiting;
    state->contended = NONE;
    if (!take_waiting(state, record->object, &waiting)) return;
    waiting.line = record->line;
    take_lock(actor, waiting);
}

static void release(uint32_t actor, const struct record *record) {
    struct state *state = state_of(actor);
    uint32_t class = lock_infos[record->object].class;
    struct waiting waiting;
    if (state->contended == record->object) state->contended = NONE;
    if (take_waiting(state, record->object, &waiting)) { /* it failed, or waits for nothing */
        if (is_named(&classes[class])) wait_for_executions(actor, class);
        else made.annotations++;
        return;
    }
    struct holding *holding = find_holding(state, record->object);
    if (holding) release_holding(actor, (size_t)(holding - state->holdings));
    else made.not_held += !classes[class].is_ww && is_lock(&classes[class]);
}

static void begin_works(uint32_t actor, uint32_t work) {
    struct state *state = state_of(actor);
    emit_read(actor, QUEUED, work, NONE);
    for (size_t at = 0; at < state->waiting_count;) {
        struct waiting waiting = state->waitings[at];
        const struct class_info *class = &classes[lock_infos[waiting.lock].class];
        if (!class->is_work || !is_named(class)) {
            at++;
            continue;
        }
        take_waiting(state, waiting.lock, &waiting);
        begin_execution(actor, waiting);
    }
}

/* Takes what the actor held when the epoch began. In which order it acquired them is not known, so no member of a cycle acquires there. */
static void take_before(uint32_t actor, const struct record *record) {
    state_of(actor)->epoch = epoch;
    for (uint32_t before = first_before(actor, epoch), lock; before != NONE;) {
        before = next_before(before, &lock);
        const struct class_info *class = &classes[lock_infos[lock].class];
        if (has_acquired ? !class->acquired : !is_lock(class)) continue;
        list(actor);
        made.before++;
        uint8_t bits = BIT_TRIED | (lock_infos[lock].reader_count ? BIT_READ : 0);
        take_lock(actor, (struct waiting){lock, record->line, record->processor, bits});
    }
}

/* ---- records ---- */

static bool is_about_lock(const struct record *record) { return record->kind <= R_RELEASE; }

static void convert(const struct record *record) {
    uint32_t actor = record->actor;
    set_origin(record->line, is_about_lock(record) ? lock_infos[record->object].class : NONE);
    if (record->kind == R_LOST) {
        lose();
        return;
    }
    if (record->kind != R_END && state_of(actor)->epoch != epoch) take_before(actor, record);
    if (record->kind == R_END) end_actor(actor);
    else if (record->kind == R_CONTENDED) state_of(actor)->contended = record->object;
    else if (record->kind == R_AWAY) {
        if (record->object) state_of(actor)->completed = NONE; /* it waits for the completion: it completed nothing */
    } else {
        go_on(actor);
        take_all_waiting(actor);
        set_origin(record->line, is_about_lock(record) ? lock_infos[record->object].class : NONE);
        if (!is_about_lock(record)) complete(actor);
        if (record->kind == R_ACQUIRE) acquire(actor, record);
        else if (record->kind == R_ACQUIRED) acquired(actor, record);
        else if (record->kind == R_RELEASE) release(actor, record);
        else if (record->kind == R_FORK) emit_fork(actor, record->object);
        else if (record->kind == R_WAKE) wake(actor, record->object);
        else if (record->kind == R_QUEUE) emit_write(actor, QUEUED, record->object, NONE);
        else begin_works(actor, record->object);
    }
}

void convert_records(FILE *records, FILE *file, const char *name) {
    enum { BLOCK = 4096 };
    struct record *block = allocate(BLOCK, sizeof *block);
    size_t got;
    has_acquired = counts.kinds[LOCK_ACQUIRED];
    for (uint32_t class = 0; class < class_names.count; class++) {
        int length;
        const char *text = class_name(class, &length);
        if (length == 11 && !memcmp(text, "&rq->__lock", 11)) queue_class = class;
    }
    states = allocate(actor_count, sizeof *states);
    epoch = first_epoch;
    begin_events(file, name);
    begin_sections();
    if (fseek(records, 0, SEEK_SET)) end_unread("a temporary file", "it cannot be read again");
    while ((got = fread(block, sizeof *block, BLOCK, records)))
        for (size_t at = 0; at < got; at++) convert(&block[at]);
    if (ferror(records)) end_unread("a temporary file", "an error");
    free(block);
    end_events();
}
