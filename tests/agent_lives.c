/* A test of tests/agents_alone: the collector's encoder gets the records of many threads one after another, each with locks of its own on its
 * stack and in allocated memory. Its memory must not grow with threads and locks that have ended, and nobody's name may change. The
 * dependencies of the whole run have a limit, which the early threads reach. */
#include "../agents/pthread/collector/collector.h"

#include <malloc.h>
#include <stdarg.h>

enum { EARLY = 110000, ALL = 220000, STACK = 1 << 16, HEAP = 1 << 20 };
struct options options = {.bound = 4, .window = MOST_EVENTS};
static struct ring memory;
struct ring *ring = &memory;
int is_follower;

void say(const char *format, ...) {
    va_list list;
    va_start(list, format);
    vfprintf(stderr, format, list);
    va_end(list);
    exit(1);
}
void *allocate(size_t bytes) { return calloc(1, bytes); }
void *grow(void *array, size_t count, size_t *room, size_t item) {
    if (count < *room) return array;
    *room = *room ? 2 * *room : 8;
    return realloc(array, *room * item);
}
uint64_t now(void) { return 0; }
void window_closed(uint32_t closed, uint32_t length) { (void)closed, (void)length; }
void window_name(char *path, uint32_t of, const char *kind) { (void)of, (void)kind, *path = 0; }
const char *in_work(char *path, const char *name) { return (void)name, *path = 0, path; }
FILE *create_in_work(const char *name) { return fopen(strcmp(name, "deadlock") ? "/dev/null" : "found", "w"); }
FILE *create_anew(const char *path) { return (void)path, fopen("/dev/null", "w"); }
void remove_earlier(void) {}
const char *mark_of_name(void) { return "#"; }
void stream(uint8_t kind, uint32_t thread, uint32_t object) { (void)kind, (void)thread, (void)object; }
void stream_trace(const char *path) { (void)path; }
int has_server(void) { return 0; }
int has_roller(void) { return 0; }
int is_roll_wanted(void) { return 0; }
void next_server(uint32_t length) { (void)length; }

static void tell(uint32_t thread, enum kind kind, uint64_t address, uint64_t other, uint64_t caller) {
    struct record record = {.thread = thread, .kind = (uint8_t)kind, .address = address, .other = other, .frames = 1};
    memcpy(record.callers[0], &caller, sizeof record.callers[0]);
    if (!encode(&record)) say("record %d is refused\n", kind);
}

/* Thread 0 starts a thread on one of eight stacks. It has a lock on it and one in memory that it frees, and hands over to nobody. Every third
 * one is not joined: its handle is that of a later one. */
static void live(uint32_t number) {
    uint64_t stack = (uint64_t)STACK * (16 + number % 8), handle = stack + STACK - 64, heap = (uint64_t)HEAP * 64 + 128 * number;
    tell(0, R_FORK, 0, number, 100);
    tell(number, R_START, handle, stack, stack + STACK);
    tell(0, R_NAMED, handle, number, 100);
    tell(number, R_LOCK, heap, stack + 512, 200);
    tell(number, R_LOCK, stack + 1024, stack + 512, 201);
    tell(number, R_GIVE, heap + 64, 0, 202);
    tell(number, R_ONCE, heap + 64, 0, 202);
    tell(number, R_UNLOCK, stack + 1024, stack + 512, 203);
    if (number % 5) tell(number, R_UNLOCK, heap, stack + 512, 204); /* else it ends with its lock */
    tell(number, R_READ_LOCK, heap + 96, stack + 512, 205);
    tell(number, R_UNLOCK_EITHER, heap + 96, stack + 512, 206);
    tell(number, R_FREE, heap, 128, 207);
    tell(number, R_END, 0, 0, 0);
    if (number % 3 == 0) return;
    tell(0, R_JOINS, handle, 0, 101);
    tell(0, R_JOINED, handle, 0, 101);
}

int main(void) {
    size_t early = 0, late;
    char *none[] = {NULL};
    begin_run(none);
    for (uint32_t number = 1; number <= ALL; number++) {
        live(number);
        if (number == EARLY) next_window(), early = mallinfo2().uordblks;
    }
    next_window();
    late = mallinfo2().uordblks;
    if (late > early + early / 2) say("%zu bytes after %d threads, and %zu after %d\n", early, EARLY, late, ALL);
    if (look_for_deadlock(1)) say("there is a deadlock\n");
    printf("%s\n", late > early ? "as before" : "not more");
    return 0;
}
