/* Writes events that are lawful: a lock has one holder, a thread is forked before its first event. Thread 0 is artificial: it forks each
 * thread that nobody else forks, right before its first event. */
#include "kernel.h"

struct lock_state { uint32_t holder, depth; };

struct acting *acting;
uint64_t event_count;
static FILE *output;
static const char *source;
static struct lock_state *lock_states;
static size_t lock_states_count, lock_states_room;
static struct pairs lock_numbers_of[LOCK_ROLES], variable_numbers_of[VARIABLE_ROLES];
static uint32_t thread_total, variable_total, line_now, line_expected, class_now, class_written;

void begin_events(FILE *file, const char *name) {
    output = file, source = name;
    acting = allocate(actor_count, sizeof *acting);
    lock_states = grow(lock_states, 0, &lock_states_room, sizeof *lock_states);
    lock_states_count = 1; /* locks are numbered from 1 */
    class_now = class_written = NONE;
}

void set_origin(uint32_t line, uint32_t class) { line_now = line, class_now = class; }

void end_events(void) {
    if (ferror(output) || fflush(output)) end_unwritten("a temporary file");
}

/* ---- comments ---- */

static void write_name(const char *kind, uint32_t number, const char *name, int length) {
    fprintf(output, "# %s %u is %.*s\n", kind, number, length, name);
}

static const char *actor_name(uint32_t actor, int *length) {
    size_t found;
    const char *name = text_of(&actor_names, actors[actor].name, &found);
    *length = (int)found;
    return name;
}

static uint32_t thread_of(uint32_t actor) {
    if (!acting[actor].number) {
        int length;
        const char *name = actor_name(actor, &length);
        acting[actor].number = ++thread_total;
        write_name("thread", thread_total, name, length);
    }
    return acting[actor].number;
}

static void name_plain(uint32_t number, uint32_t lock) {
    int length;
    const char *name = class_name(lock_infos[lock].class, &length);
    fprintf(output, "# lock %u is %.*s at %llx\n", number, length, name, (unsigned long long)lock_infos[lock].address);
    if (lock_infos[lock].is_sleeping && lock_infos[lock].reader_count) fprintf(output, "# lock %u prefers writers\n", number);
}

static void name_named(uint32_t number, uint32_t class, uint32_t actor) {
    int length, actor_length = 0;
    const char *name = class_name(class, &length), *who = actor == NONE ? "" : actor_name(actor, &actor_length);
    fprintf(output, "# lock %u is %s %.*s by name%s%.*s\n", number, classes[class].is_timer ? "timer" : "work", length, name,
            actor == NONE ? "" : ", executed by ", actor_length, who);
}

static void name_lock(uint32_t number, enum lock_role role, uint32_t object, uint32_t of) {
    if (role == PLAIN) name_plain(number, object);
    else if (role == PART) fprintf(output, "# lock %u is a part of lock %u for thread %u\n", number, lock_number(PLAIN, object, 0),
                                   thread_of(of));
    else if (role == MARK) fprintf(output, "# lock %u is mark of tried acquires\n# mark %u\n", number, number);
    else if (role == INTERRUPT) fprintf(output, "# lock %u is %s of processor %u\n", number, object == HARDIRQ ? "hardirq" : "softirq", of);
    else name_named(number, object, of);
}

uint32_t lock_number(enum lock_role role, uint32_t object, uint32_t of) {
    struct pairs *table = &lock_numbers_of[role];
    const uint64_t *found = find_pair(table, pair_of(object, of));
    if (found) return (uint32_t)*found;
    if (role == PART) lock_number(PLAIN, object, 0), thread_of(of); /* named before */
    if (lock_states_count == LARGEST) refuse_line("more than %u locks", LARGEST - 1);
    uint32_t number = (uint32_t)lock_states_count;
    lock_states = grow(lock_states, lock_states_count, &lock_states_room, sizeof *lock_states);
    lock_states[lock_states_count++] = (struct lock_state){NONE, 0};
    add_pair(table, pair_of(object, of), number);
    name_lock(number, role, object, of);
    return number;
}

/* ---- events ---- */

static void write_event(uint32_t thread, char letter, uint32_t object) {
    if (line_now != line_expected) fprintf(output, "# line %u of %s\n", line_now, source);
    line_expected = line_now + 1;
    if (class_now != class_written) {
        int length;
        const char *name = class_now == NONE ? NULL : class_name(class_now, &length);
        if (name) fprintf(output, "# at class %.*s\n", length, name);
        else fputs("# at\n", output);
        class_written = class_now;
    }
    fprintf(output, "%u%c%u\n", thread, letter, object);
    event_count++;
}

static uint32_t started(uint32_t actor) {
    uint32_t thread = thread_of(actor);
    if (!acting[actor].is_started) {
        acting[actor].is_started = true;
        write_event(0, 'f', thread);
    }
    acting[actor].last = event_count + 1;
    return thread;
}

void emit_fork(uint32_t actor, uint32_t child) {
    if (acting[child].is_started || actor == child) return;
    uint32_t parent = started(actor), thread = thread_of(child);
    acting[child].is_started = true;
    write_event(parent, 'f', thread);
}

uint32_t holder_of(uint32_t number) { return lock_states[number].holder; }

bool emit_acquire(uint32_t actor, uint32_t number) {
    struct lock_state *lock = &lock_states[number];
    if (lock->holder != NONE && (lock->holder != actor || lock->depth == MOST_DEPTH)) return false;
    if (lock->holder == NONE && acting[actor].held == MOST_HELD_OF_RUN) return false;
    acting[actor].held += !lock->depth++;
    lock->holder = actor;
    write_event(started(actor), 'a', number);
    return true;
}

bool emit_release(uint32_t actor, uint32_t number) {
    struct lock_state *lock = &lock_states[number];
    if (lock->holder != actor) return false;
    write_event(started(actor), 'r', number);
    if (!--lock->depth) lock->holder = NONE, acting[actor].held--;
    return true;
}

void emit_write(uint32_t actor, enum variable_role role, uint32_t first, uint32_t second) {
    uint64_t *number = add_pair(&variable_numbers_of[role], pair_of(first, second), 0);
    if (!*number) {
        if (variable_total == LARGEST) refuse_line("more than %u variables", LARGEST);
        *number = ++variable_total;
    }
    write_event(started(actor), 'w', (uint32_t)*number);
}

void emit_read(uint32_t actor, enum variable_role role, uint32_t first, uint32_t second) {
    const uint64_t *number = find_pair(&variable_numbers_of[role], pair_of(first, second));
    if (number) write_event(started(actor), 'd', (uint32_t)*number);
}

void emit_turn(uint32_t actor, enum variable_role role, uint32_t first, uint32_t second) {
    emit_read(actor, role, first, second);
    emit_write(actor, role, first, second);
}
