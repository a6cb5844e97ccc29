/* Turns records into events of traces; docs/agents.md says which and why. A window is one trace: OUT.trace, OUT.2.trace and others.
 *
 * In the first window a thread's number is the recorder's, and thread 0 is the first thread. In each later window thread 0 is an
 * artificial root, which forks each thread at its first event there, and the first thread is FIRST_THREAD. Markers are locks that only one
 * thread acquires. A helper is an artificial thread that holds a lock for a thread that holds too many. */
#include "../collector.h"

enum { MOST_FORKS = MOST_THREADS - 1, SLACK = 1000, FORKS = 32, GROWTH = 7, BUFFER = 1 << 16, LEAST_SEEN = 1 << 10 };
enum { HANDED = 2, VALUE }; /* of a lock's variables: orders and releases by other threads, atomic values. readers.c has the others */

uint32_t events, window;
unsigned long unseen, unstarted, overflowing, lock_events;
static uint32_t numbered, variables, forks, helpers, identities;
static uint32_t tried, tried_forks; /* sections in this window that begin by an acquire which does not wait; what they may need: see search.py */
static uint64_t *seen; /* pairs of a thread and an initialisation that it has received in this window */
static size_t seen_size, seen_count;
static char buffer[BUFFER];
static size_t buffered;
static uint32_t last_site;
static FILE *trace, *waits;
static int has_failed;
static int is_repeating; /* the events repeat what is before the window */
static int leaves_out_repeats; /* see repeats.c; -1: the window has no event yet */

/* Known from the first record on: the shared memory is the program's. */
int has_recorder_of_values(void) {
    static int is_known, is_there;
    if (!is_known) is_known = 1, is_there = !is_following() && ring->values & VALUES_RECORDER;
    return is_there;
}

/* ---- the trace file ---- */

static void write_out(void) {
    if (trace && fwrite(buffer, 1, buffered, trace) != buffered && !has_failed) {
        has_failed = 1;
        say("the trace cannot be written: it ends after a part of the events; the program runs on");
    }
    buffered = 0;
}

static char *put_number(char *to, uint32_t number) {
    char digits[10];
    int count = 0;
    do digits[count++] = (char)('0' + number % 10); while (number /= 10);
    while (count) *to++ = digits[--count];
    return to;
}

void write_now(uint32_t thread, char letter, uint32_t object, uint32_t site) {
    static const char kinds[] = "fjardw";
    if (buffered > BUFFER - 64) write_out();
    char *to = buffer + buffered;
    if (site && site != last_site) {
        memcpy(to, "# at ", 5);
        to = put_number(to + 5, last_site = site);
        *to++ = '\n';
    }
    to = put_number(to, thread);
    *to++ = letter;
    to = put_number(to, object);
    *to++ = '\n';
    buffered = (size_t)(to - buffer);
    if (is_streaming()) stream((uint8_t)(strchr(kinds, letter) - kinds + 1), thread, object);
}

/* An event that only the trace of the window has. */
static void event_of_window(uint32_t thread, char letter, uint32_t object, uint32_t site) {
    events++;
    forks += letter == 'f';
    if (leaves_out_repeats < 0) leaves_out_repeats = has_roller() && !has_recorder_of_values();
    if (leaves_out_repeats) add_event(thread, letter, object, site);
    else write_now(thread, letter, object, site);
}

void forget_events(uint32_t count) { events -= count; }

int is_streaming(void) { return has_server() && !has_recorder_of_values(); }

/* A server takes no event of the past, and where repeats are left out the place of an event is not known before its section has ended. */
int has_values_at_once(void) { return is_streaming() || (has_roller() && !has_recorder_of_values()); }

uint32_t raw_events(void) {
    keep_pending();
    return events - inserted();
}

/* The number of a thread in the log. */
static uint32_t name_in_log(uint32_t in_trace) { return in_trace == FIRST_THREAD ? 0 : in_trace; }

static void event(uint32_t thread, char letter, uint32_t object, uint32_t site) {
    event_of_window(thread, letter, object, site);
    if (!is_repeating) log_event(letter, name_in_log(thread), letter == 'f' ? name_in_log(object) : object, site);
}

/* ---- names ---- */

uint32_t name_in_trace(uint32_t thread) { return thread == 0 && window > 1 ? FIRST_THREAD : thread; }

/* In the log thread 0 forks a thread that nobody has forked. */
static void name_for_log(struct thread *it) {
    if (!it->is_forked && it->number) log_event('f', 0, it->number, it->begun), note_life('f', 0, it->number, it->begun);
    it->is_forked = 1;
}

/* The thread's number in this window. The root forks it, if nobody has. */
static uint32_t name(uint32_t thread) {
    struct thread *it = find_thread(thread);
    if (it->in_window != window) {
        it->in_window = window, it->tries_in_window = 0;
        if (name_in_trace(thread)) event_of_window(0, 'f', name_in_trace(thread), it->begun);
        name_for_log(it);
    }
    return name_in_trace(thread);
}

uint32_t name_in_window(uint32_t thread) { return name(thread); }

/* ---- values ---- */

void write_value(uint32_t thread, uint32_t variable, uint32_t site) {
    note_value();
    event(name(thread), 'w', variable, site);
}

void take_value(uint32_t thread, uint32_t variable, uint32_t site) {
    note_value();
    event(name(thread), 'd', variable, site);
}

static void insert_at(const struct moment *moment, char letter, uint32_t variable, uint64_t order, int is_deferred) {
    const struct insert it = {order, moment->position, name_in_trace(moment->thread), variable, moment->site, letter, (uint8_t)is_deferred};
    insert_event(&it);
}

void insert_write(const struct moment *moment, uint32_t variable) {
    insert_at(moment, 'w', variable, 2 * (uint64_t)moment->logged, 0);
    events++;
    log_after(moment->logged, 'w', moment->thread, variable, moment->site);
}

void defer_value(const struct moment *moment, char letter, uint32_t variable, int is_in_window) {
    uint64_t order = 2 * (uint64_t)moment->logged;
    if (letter == 'd' && moment->logged == log_entries() && !why_no_log()) {
        log_event('d', moment->thread, variable, moment->site);
        order = 2 * (uint64_t)log_entries() - 1;
    } else log_after(moment->logged, letter, moment->thread, variable, moment->site);
    if (is_in_window) insert_at(moment, letter, variable, order, 1);
}

void read_in_log(uint32_t thread, const struct moment *moment, uint32_t variable, uint32_t site) {
    if (why_no_log()) return;
    name(thread);
    log_after(moment->logged, 'w', moment->thread, variable, moment->site);
    log_event('d', thread, variable, site);
}

/* ---- orders ---- */

static uint32_t variable(struct lock *object, int which) {
    if (!object->variables[which]) object->variables[which] = ++variables;
    return object->variables[which];
}

/* Each giver reads before it writes: so all givers are in one order, and a receiver comes after all of them. */
static void give(uint32_t thread, uint32_t to, uint32_t site) {
    event(thread, 'd', to, site);
    event(thread, 'w', to, site);
}

static void take(uint32_t thread, uint32_t from, uint32_t site) { event(thread, 'd', from, site); }

/* The values of one object of Java are one variable. */
static void give_value(uint32_t thread, struct lock *object, uint32_t site) {
    if (!object->variables[VALUE]) object->variables[VALUE] = new_value(BY_ATOMICS);
    note_value();
    give(thread, object->variables[VALUE], site);
}

void give_by(uint32_t thread, struct lock *lock, int which, uint32_t site) { give(name(thread), variable(lock, which), site); }
void write_by(uint32_t thread, struct lock *lock, int which, uint32_t site) { event(name(thread), 'w', variable(lock, which), site); }
void take_by(uint32_t thread, const struct lock *lock, int which, uint32_t site) {
    if (lock->variables[which]) take(name(thread), lock->variables[which], site);
}

/* The second thread goes on after what the first one has done. */
static void follow(uint32_t first, uint32_t second, uint32_t by, uint32_t site) {
    give(first, by, site);
    take(second, by, site);
}

static uint64_t *seen_slot(uint64_t key) {
    size_t at = (size_t)(key * 0x9E3779B97F4A7C15u >> 20) % seen_size;
    while (seen[at] && seen[at] != key) at = (at + 1) % seen_size;
    return &seen[at];
}

static void begin_seen(size_t size) {
    seen = allocate(size * sizeof *seen);
    seen_size = size;
}

/* Returns whether the thread receives this variable, which is not 0, for the first time in this window. */
static int is_first(uint32_t thread, uint32_t from) {
    uint64_t key = (uint64_t)from << 32 | thread, *slot = seen_slot(key);
    if (*slot) return 0;
    *slot = key;
    if (++seen_count * 2 > seen_size) {
        uint64_t *before = seen;
        size_t size = seen_size;
        begin_seen(2 * size);
        for (size_t at = 0; at < size; at++) if (before[at]) *seen_slot(before[at]) = before[at];
        free(before);
    }
    return 1;
}

/* ---- locks ---- */

static void remove_held(struct thread *thread, const struct lock *lock) {
    for (size_t at = 0; at < thread->held_count; at++)
        if (thread->held[at] == lock) {
            memmove(&thread->held[at], &thread->held[at + 1], (--thread->held_count - at) * sizeof *thread->held);
            return;
        }
}

/* A helper of this thread that holds nothing. */
static uint32_t find_helper(uint32_t thread, uint32_t site) {
    struct thread *it = find_thread(thread);
    overflowing++;
    if (!it->helpers_count) {
        event(name(thread), 'f', HELPERS + ++helpers, site);
        return HELPERS + helpers;
    }
    struct helper helper = it->helpers[--it->helpers_count];
    if (helper.window != window) event_of_window(name(thread), 'f', helper.number, site);
    return helper.number;
}

static void count_try(struct thread *it, struct lock *lock) {
    lock->is_tried = 1, tried++;
    if (++it->tries > it->tries_in_window) it->tries_in_window++, tried_forks++;
}

/* Writes to OUT.tmp/N.window how many events and tries a window has, and its lock graph. */
static void write_window(void) {
    char name[24];
    snprintf(name, sizeof name, "%u.window", window);
    FILE *file = is_following() ? NULL : create_in_work(name);
    if (file) fprintf(file, "%u %u\n", events, tried), write_graph(file), fputs("end\n", file), fclose(file);
    forget_graph();
}

/* Writes that the thread acquires a lock that it does not hold. `is_repeating`: again, as in an earlier window. */
static void write_section(struct thread *it, struct lock *lock, uint32_t marker, uint32_t site) {
    uint32_t in_trace = name(it->number);
    lock->is_tried = 0;
    if (lock->helper) {
        follow(in_trace, lock->helper, variable(lock, HANDED), site);
        event(lock->helper, 'a', lock->number, site);
        follow(lock->helper, in_trace, variable(lock, HANDED), site);
        return;
    }
    if (marker) event(in_trace, 'a', marker, site);
    event(in_trace, 'a', lock->number, site);
    if (marker) event(in_trace, 'r', marker, site);
    if (marker && lock->how == TRIES) count_try(it, lock);
    it->depth++;
}

/* The lock that marks the acquire of a lock which the thread does not hold, or 0. */
static uint32_t marker_of(const struct thread *it, const struct lock *lock) {
    if (lock->how == BLOCKS || !it->held_count) return 0;
    return (lock->how == TRIES ? TRY_MARKERS : TIMED_MARKERS) + it->number;
}

/* The thread has acquired a lock that it did not hold. */
static void begin_section(uint32_t thread, struct lock *lock, uint32_t site) {
    struct thread *it = find_thread(thread);
    uint32_t marker = marker_of(it, lock);
    name(thread);
    lock->helper = it->depth + (marker != 0) >= MOST_HELD ? find_helper(thread, site) : 0;
    write_section(it, lock, marker, site);
    for (size_t at = 0; at < it->held_count && lock->how != TRIES; at++) add_edge(it->held[at]->number, lock->number, thread);
    for (size_t at = 0; at < it->held_count; at++) it->held[at]->is_nested = 1;
    if (it->held_count && !lock->helper && lock->how != TRIES) note_dependency(it, lock, marker);
    it->held = grow(it->held, it->held_count, &it->held_room, sizeof *it->held);
    it->held[it->held_count++] = lock;
    note_section(it, lock);
}

static void end_section(uint32_t thread, struct lock *lock, uint32_t site) {
    struct thread *it = find_thread(thread);
    if (it->looks_at == lock) read_predicates(it, NULL);
    remove_held(it, lock);
    it->tries -= lock->is_tried, lock->is_tried = 0;
    if (lock->helper) {
        follow(name(thread), lock->helper, variable(lock, HANDED), site);
        event(lock->helper, 'r', lock->number, site);
        it->helpers = grow(it->helpers, it->helpers_count, &it->helpers_room, sizeof *it->helpers);
        it->helpers[it->helpers_count++] = (struct helper){lock->helper, window};
        lock->helper = 0;
    } else {
        event(name(thread), 'r', lock->number, site);
        it->depth--;
    }
}

/* One release, by `releaser`. If another thread has acquired the lock, its release comes after what the releaser has done. */
void release(struct lock *lock, uint32_t releaser, uint32_t site) {
    if (releaser != NOBODY && releaser != lock->holder) follow(name(releaser), name(lock->holder), variable(lock, HANDED), site);
    if (lock->sharing && lock->depth == 1) release_parts(lock, site);
    if (--lock->depth == 0) {
        end_section(lock->holder, lock, site);
        lock->holder = NOBODY;
    } else if (!lock->helper && lock->depth < MOST_DEPTH) event(name(lock->holder), 'r', lock->number, site);
}

void release_fully(struct lock *lock, uint32_t site) {
    while (lock->holder != NOBODY) release(lock, NOBODY, site);
}

/* The object at this address is another one from now on. */
static void renew(struct lock *lock) {
    release_fully(lock, 0);
    forget_sharing(lock);
    forget_predicates(lock);
    remove_lock(lock);
}

/* Notes whose stack the lock is on. */
static void find_stack(struct thread *it, struct lock *lock) {
    if (lock->address < it->stack_low || lock->address >= it->stack_high) it = thread_of_stack(lock->address);
    if (!it || it->has_ended) return;
    leave_stack_of(lock);
    if ((lock->on_stack = it->on_stack)) lock->on_stack->on_stack_before = &lock->on_stack;
    lock->on_stack_before = &it->on_stack, it->on_stack = lock;
}

/* Locks below the stack pointer were in functions that have returned. */
static void leave_stack(struct thread *thread, uint64_t pointer) {
    for (struct lock *lock = thread->on_stack, *next; lock; lock = next) {
        next = lock->on_stack;
        if (lock->address < pointer) renew(lock);
    }
}

uint32_t number_of(struct lock *lock) { return lock->number ? lock->number : (lock->number = ++numbered); }

struct lock *find_used_lock(uint32_t thread, uint64_t address) {
    struct lock *lock = find_lock(address);
    name(thread); /* before a release that was not seen: the order of forks is that of first events */
    if (!lock->number) find_stack(find_thread(thread), lock), name_lock(number_of(lock), lock->address);
    return lock;
}

void acquire(uint32_t thread, struct lock *lock, enum how how, uint32_t site) {
    if (lock->holder != thread) release_fully(lock, site);
    number_of(lock);
    lock_events++;
    if (lock->depth++ == 0) {
        lock->holder = thread, lock->how = (uint8_t)how, lock->site = site;
        begin_section(thread, lock, site);
    } else if (!lock->helper && lock->depth <= MOST_DEPTH) event(name(thread), 'a', lock->number, site);
}

/* ---- threads ---- */

static void fork_thread(uint32_t parent, uint32_t child, uint32_t site) {
    uint32_t in_trace = name(parent);
    struct thread *it = find_thread(child);
    it->in_window = window, it->begun = site, it->is_forked = 1;
    event(in_trace, 'f', name_in_trace(child), site);
    note_life('f', parent, child, site);
    learn_by_fork(parent, child);
}

/* In the trace they stay held. The next acquire of one gets a new number. */
static void leave_held(struct thread *it) {
    for (size_t at = 0; at < it->held_count; at++) {
        struct lock *lock = it->held[at];
        lock->holder = NOBODY, lock->number = lock->depth = lock->helper = 0;
    }
    it->held_count = 0;
}

/* The thread has no more events, and nobody joins it. */
static void forget_thread(struct thread *it) {
    read_predicates(it, NULL);
    leave_held(it);
    leave_stack(it, UINT64_MAX);
    remove_thread(it);
}

/* Writes to OUT.tmp/N.waits which threads are joined without a timeout by holders of locks, and whether such a thread was woken in a wait on a
 * condition. The search of the window makes these waits for locks. */
static FILE *waits_file(void) {
    char name[24];
    snprintf(name, sizeof name, "%u.waits", window);
    return waits || is_following() ? waits : (waits = create_in_work(name));
}

static void note_join(const struct thread *by, const struct thread *child) {
    if (by->held_count && by->waits_for_end && child->in_window == window && waits_file()) fprintf(waits, "%u\n", name_in_trace(child->number));
}

static int is_release(int kind) { return kind == R_UNLOCK || kind == R_UNLOCK_OWN; }

/* A wait on a condition is a release and a receive. */
static void note_woken(const struct thread *thread) {
    static uint32_t noted;
    if (noted != window && is_release(thread->last_kind) && thread->held_count && waits_file()) noted = window, fputs("woken\n", waits);
}

static void join_thread(uint32_t thread, uint32_t child, uint32_t site) {
    struct thread *it = known_thread(child);
    if (!it || child == thread) return;
    read_predicates(it, NULL);
    note_join(find_thread(thread), it);
    learn_by_join(thread, child);
    if (it->in_window == window && name_in_trace(child)) event_of_window(name(thread), 'j', name_in_trace(child), site);
    name_for_log(find_thread(thread));
    if (it->is_forked && child) log_event('j', thread, child, site), note_life('j', thread, child, site);
    forget_thread(it);
}

/* A thread with the same handle was never joined: nobody can do so any more. */
static void take_handle(struct thread *it, uint64_t handle) {
    struct thread *before = thread_of_handle(handle);
    if (before == it) return;
    if (before) forget_thread(before);
    set_handle(it, handle);
}

static void end_thread(struct thread *it) {
    it->has_ended = 1;
    leave_stack(it, it->stack_high);
    set_stack(it, 0, 0);
    if (it->is_forgotten) forget_thread(it);
}

/* ---- windows ---- */

static void open_trace(void) {
    char path[PATHS];
    window_name(path, window, "trace");
    trace = is_following() ? NULL : create_anew(path);
    if (!trace && !has_failed && !is_following()) has_failed = 1, say("cannot write %s; the program runs on", path);
    if (trace && (window > 1 || is_follower)) fprintf(trace, "%s\n", mark_of_name());
    events = forks = buffered = last_site = tried = tried_forks = 0;
    begin_inserts(), forget_places(), forget_sections();
    begin_repeats();
    leaves_out_repeats = -1;
    free(seen), begin_seen(LEAST_SEEN), seen_count = 0;
}

/* Inserts what was found later. Returns 0 if that is not possible. */
static int finish_trace(void) {
    char path[PATHS];
    window_name(path, window, "trace");
    if (!merge_trace(path)) return 0;
    if (has_server() && !is_streaming()) stream_trace(path);
    return 1;
}

int may_have_cycle(void) { return waits || has_ring(); }

static int close_trace(void) {
    keep_pending();
    write_out();
    if (deferred()) events += decide_on_deferred(may_have_cycle());
    write_window();
    if (waits) fclose(waits), waits = NULL;
    int is_written = !trace || (fclose(trace) == 0 && finish_trace());
    if (!is_written && !has_failed) has_failed = 1, say("the trace cannot be written; the program runs on");
    trace = NULL;
    return !has_failed;
}

void begin_run(char **words) {
    window = find_thread(0)->in_window = 1;
    remove_earlier();
    open_trace();
    begin_calls(words);
}

static void read_all_predicates(void) {
    for (struct thread *it = oldest_thread; it; it = it->newer) read_predicates(it, NULL);
}

int end_run(void) {
    read_all_predicates();
    end_calls();
    return close_trace();
}

void flush_trace(void) {
    look_at_pending();
    if (!buffered) return;
    write_out();
    if (trace) fflush(trace);
}

/* A thread acquires again what it holds, with the artificial threads that hold locks for it. */
static void repeat_held_of(struct thread *it) {
    size_t count = it->held_count;
    it->depth = it->tries = 0, it->held_count = 0;
    for (size_t one = 0; one < count; one++) {
        struct lock *lock = it->held[one]; /* it stays at its place */
        if (lock->helper) event(name(it->number), 'f', lock->helper, lock->site);
        write_section(it, lock, marker_of(it, lock), lock->site);
        for (uint32_t depth = 1; depth < lock->depth && depth < MOST_DEPTH && !lock->helper; depth++)
            event(name(it->number), 'a', lock->number, lock->site);
        for (size_t at = 0; at < it->held_count && lock->how != TRIES; at++) add_edge(it->held[at]->number, lock->number, it->number);
        it->held_count++;
    }
}

/* One thread after another acquires again what it holds. Then each of them, and the root, goes on after all of these. */
static void repeat_held(void) {
    const uint32_t chain = UINT32_MAX - 1, end = UINT32_MAX; /* variables that no lock has */
    int is_first_one = 1;
    is_repeating = 1;
    for (struct thread *it = oldest_thread; it; it = it->newer) {
        if (!it->held_count) continue;
        if (forks + it->held_count + MOST_HELD > MOST_FORKS) { leave_held(it), it->depth = it->tries = 0; continue; }
        uint32_t in_trace = name(it->number);
        if (!is_first_one) take(in_trace, chain, it->begun);
        repeat_held_of(it);
        event(in_trace, 'w', chain, 0);
        is_first_one = 0;
    }
    if (!is_first_one) {
        take(0, chain, 0);
        event(0, 'w', end, 0);
        for (struct thread *it = oldest_thread; it; it = it->newer) if (it->in_window == window) take(name(it->number), end, 0);
    }
    is_repeating = 0;
}

void next_window(void) {
    read_all_predicates();
    close_trace();
    window_closed(window, events);
    window++;
    if (options.server) next_server(events);
    open_trace();
    repeat_held();
}

/* Whether the recorder may have written this. */
static int is_valid(const struct record *record) {
    int has_number = record->kind == R_FORK || record->kind == R_NAMED || record->kind == R_UNSTARTED ||
                     record->kind == R_FORGOTTEN;
    return record->kind >= R_FORK && record->kind <= R_SEES && record->frames <= BY_STACK && record->thread < MOST_NUMBERS &&
           (!has_number || record->other < MOST_NUMBERS) && (record->kind != R_SEES || has_recorder_of_values()) && has_room_for_threads();
}

/* The object of a call, as the log names it. Returns 0 if the record is no call of the program, or there is no log. */
static int object_of_call(const struct record *record, uint32_t *object) {
    if (why_no_log()) return 0;
    if (record->kind == R_FORK) *object = (uint32_t)record->other;
    else if (record->kind == R_JOINED) *object = find_thread(record->thread)->joining;
    else if ((record->kind == R_GIVE || record->kind == R_TAKE) && record->other == BY_FUTEX) return 0;
    else if (record->kind >= R_LOCK && record->kind <= R_ONCE) {
        struct lock *lock = find_lock(record->address);
        if (!lock->identity) lock->identity = ++identities;
        *object = lock->identity;
    } else return 0;
    return 1;
}

/* Another program has begun in this process. A later run begins with the first one again. */
static void begin_program(void) {
    read_all_predicates(), forget_all(), find_thread(0), next_window(), forget_authors();
    if (identities) log_exec();
}

static void encode_record(const struct record *record, const uint64_t *callers, uint32_t site);

int encode(const struct record *record) {
    if (!is_valid(record)) return 0;
    uint64_t callers[MOST_FRAMES] = {0};
    for (int at = 0; at < record->frames && at < MOST_FRAMES; at++) memcpy(&callers[at], record->callers[at], 6);
    uint32_t thread = record->thread, site = site_of(callers, record->kind == R_START || record->kind == R_TITLE ? 0 : record->frames), object = 0;
    struct thread *it = find_thread(thread);
    uint32_t most = events + deferred() + GROWTH * tried + tried_forks + SLACK;
    if (events >= options.window || is_roll_wanted() || most >= MOST_EVENTS || forks + tried_forks + FORKS >= MOST_FORKS) next_window();
    log_no_call();
    if (it->looks_at) read_predicates(it, record->kind == R_GIVE && record->other == BY_CONDITION ? known_lock(record->address) : NULL);
    if (record->kind >= R_LOCK && record->kind < R_GIVE && it->on_stack && record->other >= it->stack_low &&
        record->other < it->stack_high)
        leave_stack(it, record->other & ~(uint64_t)LOCK_FLAGS);
    if (object_of_call(record, &object)) log_call(thread, record->kind == R_UNLOCK_OWN ? R_UNLOCK : record->kind, object, site);
    encode_record(record, callers, site);
    if (has_recorder_of_values()) note_place(thread, record->kind == R_SEES, site);
    if (record->kind != R_SEES && (it = known_thread(thread))) it->last_kind = record->kind;
    return 1;
}

static void encode_record(const struct record *record, const uint64_t *callers, uint32_t site) {
    uint32_t thread = record->thread;
    struct thread *it = find_thread(thread), *other;
    struct lock *lock;
    enum how how;
    switch ((enum kind)record->kind) {
    case R_FORK: fork_thread(thread, (uint32_t)record->other, site); break;
    case R_NAMED:
        if ((other = known_thread((uint32_t)record->other)) && !other->handle) take_handle(other, record->address);
        break;
    case R_START: take_handle(it, record->address), set_stack(it, record->other, callers[0]); break;
    case R_UNSEEN: take_handle(it, record->address), unseen++; break;
    case R_END: end_thread(it); break;
    case R_JOINS:
        it->joining = (other = thread_of_handle(record->address)) ? other->number : NOBODY;
        it->waits_for_end = record->other == WITHOUT_END;
        break;
    case R_JOINED: join_thread(thread, it->joining, site); break;
    case R_EXEC: begin_program(); break;
    case R_LOCK: acquire(thread, find_used_lock(thread, record->address), BLOCKS, site); break;
    case R_TRIED: acquire(thread, find_used_lock(thread, record->address), TRIES, site); break;
    case R_TIMED: acquire(thread, find_used_lock(thread, record->address), TIMES_OUT, site); break;
    case R_UNLOCK:
        it->released = record->address;
        if ((lock = known_lock(record->address)) && lock->holder != NOBODY) release(lock, thread, site);
        break;
    case R_UNLOCK_OWN:
        it->released = record->address;
        if ((lock = known_lock(record->address)) && lock->holder == thread) release(lock, thread, site);
        break;
    case R_WRITE_LOCK: write_lock(thread, record->address, BLOCKS, record->other & PREFERS_WRITERS, site); break;
    case R_WRITE_TRIED: write_lock(thread, record->address, TRIES, record->other & PREFERS_WRITERS, site); break;
    case R_WRITE_TIMED: write_lock(thread, record->address, TIMES_OUT, record->other & PREFERS_WRITERS, site); break;
    case R_READ_LOCK:
        how = record->other & READS_TRIED ? TRIES : record->other & READS_TIMED ? TIMES_OUT : BLOCKS;
        read_lock(thread, record->address, how, record->other & PREFERS_WRITERS, site);
        break;
    case R_UNLOCK_EITHER: unlock_either(thread, record->address, site); break;
    case R_GIVE:
        if (record->other == BY_VALUE) give_value(name(thread), find_lock(record->address), site);
        else give(name(thread), variable(find_lock(record->address), HANDED), site);
        if (record->other == BY_CONDITION) note_signal(it, find_lock(record->address), site);
        break;
    case R_TAKE:
        lock = known_lock(record->address);
        if (record->other == BY_VALUE) {
            if (lock && lock->variables[VALUE]) take_value(thread, lock->variables[VALUE], site);
            break;
        }
        note_woken(it);
        if (!lock || !lock->variables[HANDED]) break;
        take(name(thread), lock->variables[HANDED], site);
        note_wake_up(it, lock, is_release(it->last_kind));
        break;
    case R_ONCE:
        if ((lock = known_lock(record->address)) && lock->variables[HANDED] && is_first(thread, lock->variables[HANDED]))
            take(name(thread), lock->variables[HANDED], site);
        break;
    case R_NEW:
        if ((lock = known_lock(record->address))) renew(lock);
        break;
    case R_UNLOADED: forget_sites(record->address, record->other); /* fall through */
    case R_FREE: each_lock_in(record->address, record->other, renew); break;
    case R_TITLE: name_thread(record, callers[0]); break;
    case R_SEES: see(thread, record->address, site); break;
    case R_UNSTARTED:
        unstarted++;
        if ((other = known_thread((uint32_t)record->other))) forget_thread(other);
        break;
    case R_FORGOTTEN:
        if (!(other = known_thread((uint32_t)record->other))) break;
        other->is_forgotten = 1;
        if (other->has_ended) forget_thread(other);
        break;
    }
}
