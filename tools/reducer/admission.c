/* The state of a run: which threads are forked and joined, and who holds which lock. Refuses events that are not lawful, except those that
 * would only make a trace too big. */
#include "reducer.h"

#include <stdarg.h>

struct numbers thread_numbers, lock_numbers, variable_numbers;
struct thread *threads;
struct lock *locks;
struct variable *variables;
struct texts texts;
struct values values;
static size_t threads_room, locks_room, variables_room;
enum { MOST_REASON = 4500 }; /* bytes, with the name of a file */

static uint32_t thread_of(const struct reader *reader, uint32_t number) {
    size_t before = thread_numbers.count;
    uint32_t at = position_of(&thread_numbers, number);
    if (thread_numbers.count == before) return at;
    if (before == MOST_THREADS_OF_RUN - 1) refuse(reader, "thread %u: there are %zu threads, the most", number, before);
    threads = grow(threads, before, &threads_room, sizeof *threads);
    threads[at] = (struct thread){.is_forked = number == 0, .name = NONE};
    return at;
}

static uint32_t lock_of(const struct reader *reader, uint32_t number) {
    size_t before = lock_numbers.count;
    uint32_t at = position_of(&lock_numbers, number);
    if (lock_numbers.count == before) return at;
    if (before == SEVERAL - 1) refuse(reader, "lock %u: there are %zu locks, the most", number, before);
    locks = grow(locks, before, &locks_room, sizeof *locks);
    locks[at] = (struct lock){.holder = NONE, .user = NONE, .name = NONE, .whole = NONE, .reader = NONE};
    return at;
}

static uint32_t variable_of(uint32_t number) {
    size_t before = variable_numbers.count;
    uint32_t at = position_of(&variable_numbers, number);
    if (variable_numbers.count == before) return at;
    variables = grow(variables, before, &variables_room, sizeof *variables);
    variables[at] = (struct variable){.user = NONE};
    return at;
}

bool is_plain(uint32_t variable) {
    uint32_t number = variable_numbers.numbers[variable];
    return values.are_there && number >= values.plain && number - values.plain < MOST_VALUES;
}

static uint32_t new_position(struct numbers *table) {
    static uint32_t number = LARGEST;
    size_t before = table->count;
    uint32_t at;
    do at = position_of(table, number--);
    while (table->count == before);
    return at;
}

uint32_t new_thread(void) {
    uint32_t at = new_position(&thread_numbers);
    threads = grow(threads, at, &threads_room, sizeof *threads);
    threads[at] = (struct thread){.is_forked = true, .name = NONE};
    return at;
}

uint32_t new_variable(void) {
    uint32_t at = new_position(&variable_numbers);
    variables = grow(variables, at, &variables_room, sizeof *variables);
    return at;
}

struct thread *find_thread(const struct reader *reader, uint32_t number) {
    uint32_t at = thread_of(reader, number);
    return &threads[at];
}

struct lock *find_lock(const struct reader *reader, uint32_t number) {
    uint32_t at = lock_of(reader, number);
    return &locks[at];
}

void release_all(void) {
    for (size_t at = 0; at < thread_numbers.count; at++) threads[at].held.count = 0;
    for (size_t at = 0; at < lock_numbers.count; at++) locks[at].depth = 0, locks[at].holder = NONE;
}

void begin_run(void) {
    release_all();
    for (size_t at = 0; at < thread_numbers.count; at++)
        threads[at].is_forked = thread_numbers.numbers[at] == 0, threads[at].is_joined = false;
}

/* ---- locks ---- */

void hold(struct held_list *list, const struct event *acquire) {
    list->items = grow(list->items, list->count, &list->room, sizeof *list->items);
    list->items[list->count++] = (struct held){acquire->object, acquire->where, acquire->line, acquire->place};
}

void unhold(struct held_list *list, uint32_t lock) {
    for (size_t at = list->count; at-- > 0;)
        if (list->items[at].lock == lock) {
            memmove(&list->items[at], &list->items[at + 1], (--list->count - at) * sizeof *list->items);
            return;
        }
}

bool apply_lock_event(const struct event *event) {
    struct lock *lock = &locks[event->object];
    if (event->operation == ACQUIRE) {
        if (lock->depth++) return false;
        lock->holder = event->thread, lock->since = event->place;
        hold(&threads[event->thread].held, event);
        return true;
    }
    if (--lock->depth) return false;
    lock->holder = NONE;
    unhold(&threads[event->thread].held, event->object);
    return true;
}

/* ---- the rules of docs/definitions.md ---- */

static void refuse_event(const struct reader *reader, const struct word *word, const char *format, ...)
    __attribute__((format(printf, 3, 4), noreturn));

static void refuse_event(const struct reader *reader, const struct word *word, const char *format, ...) {
    char reason[MOST_REASON];
    va_list arguments;
    va_start(arguments, format);
    vsnprintf(reason, sizeof reason, format, arguments);
    va_end(arguments);
    refuse(reader, "%u%c%u: %s", word->thread, "fjardw"[word->operation], word->object, reason);
}

static void check_fork(const struct reader *reader, const struct word *word) {
    if (!word->object) refuse_event(reader, word, "thread 0 exists from the beginning");
    if (find_thread(reader, word->object)->is_forked) refuse_event(reader, word, "thread %u is forked already", word->object);
}

static void check_join(const struct reader *reader, const struct word *word) {
    if (word->object == word->thread) refuse_event(reader, word, "thread %u joins itself", word->thread);
    if (!word->object) refuse_event(reader, word, "thread 0 cannot be joined");
    const struct thread *joined = find_thread(reader, word->object);
    if (!joined->is_forked) refuse_event(reader, word, "thread %u is not forked", word->object);
    if (joined->is_joined) refuse_event(reader, word, "thread %u has been joined already", word->object);
}

static void refuse_held(const struct reader *reader, const struct word *word, const struct lock *lock) {
    size_t at = reader->at;
    while (at && reader->sources[at].first > lock->since) at--;
    refuse_event(reader, word, "thread %u holds lock %u since place %llu%s%s", thread_numbers.numbers[lock->holder], word->object,
                 (unsigned long long)(lock->since - reader->sources[at].first), reader->count > 1 ? " of " : "",
                 reader->count > 1 ? reader->sources[at].name : "");
}

static void check_lock(const struct reader *reader, const struct word *word, uint32_t thread) {
    const struct lock *lock = find_lock(reader, word->object);
    if (word->operation == RELEASE) {
        if (lock->holder != thread) refuse_event(reader, word, "thread %u does not hold lock %u", word->thread, word->object);
        return;
    }
    if (lock->holder == thread && lock->depth == MOST_DEPTH)
        refuse_event(reader, word, "thread %u has acquired lock %u %d times, the most", word->thread, word->object, MOST_DEPTH);
    if (lock->holder != NONE && lock->holder != thread) refuse_held(reader, word, lock);
    if (lock->holder == NONE && threads[thread].held.count == MOST_HELD_OF_RUN)
        refuse_event(reader, word, "thread %u holds %d locks, the most", word->thread, MOST_HELD_OF_RUN);
}

static uint32_t object_of(const struct reader *reader, const struct word *word) {
    if (word->operation <= JOIN) return thread_of(reader, word->object);
    return word->operation <= RELEASE ? lock_of(reader, word->object) : variable_of(word->object);
}

static struct event admit(const struct reader *reader, const struct word *word) {
    uint32_t thread = thread_of(reader, word->thread);
    if (!threads[thread].is_forked) refuse_event(reader, word, "thread %u is not forked", word->thread);
    if (threads[thread].is_joined) refuse_event(reader, word, "thread %u has been joined", word->thread);
    if (word->operation == FORK) check_fork(reader, word);
    if (word->operation == JOIN) check_join(reader, word);
    if (word->operation == ACQUIRE || word->operation == RELEASE) check_lock(reader, word, thread);
    struct event event = {.place = reader->place - 1, .thread = thread, .operation = word->operation, .where = NONE, .line = word->line};
    event.object = object_of(reader, word);
    if (word->operation == FORK) threads[event.object].is_forked = true;
    if (word->operation == JOIN) threads[event.object].is_joined = true;
    return event;
}

/* Refuses an event that is marked as repeated, if no earlier window has it. */
static void admit_repeated(const struct reader *reader, const struct word *word) {
    uint32_t thread = thread_of(reader, word->thread);
    if (word->operation != FORK && word->operation != ACQUIRE)
        refuse_event(reader, word, "it is marked as repeated, but a window repeats only forks and acquires");
    if (word->operation == FORK && !find_thread(reader, word->object)->is_forked)
        refuse_event(reader, word, "it is marked as repeated, but no earlier window forks thread %u", word->object);
    if (word->operation == ACQUIRE && find_lock(reader, word->object)->holder != thread)
        refuse_event(reader, word, "it is marked as repeated, but thread %u does not hold lock %u here", word->thread, word->object);
}

bool read_event(struct reader *reader, struct event *event) {
    struct word word;
    do {
        if (!next_event(reader, &word)) return false;
        if (word.is_repeated) admit_repeated(reader, &word);
    } while (word.is_repeated);
    *event = admit(reader, &word);
    return true;
}

void apply_event(const struct event *event) {
    if (event->operation == ACQUIRE || event->operation == RELEASE) apply_lock_event(event);
}
