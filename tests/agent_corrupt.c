/* Cases of tests/agents_alone: programs that write to the memory which they share with the collector what the recorder never writes. */
#define _GNU_SOURCE
#include "../agents/pthread/shared/ring.h"

#include <fcntl.h>
#include <pthread.h>
#include <stdio.h>
#include <stdlib.h>
#include <string.h>
#include <sys/mman.h>
#include <unistd.h>

static struct ring *ring;
static pthread_mutex_t lock = PTHREAD_MUTEX_INITIALIZER;

static void record(struct record record) {
    uint64_t place = __atomic_fetch_add(&ring->next, 1, __ATOMIC_RELAXED);
    record.ready = 0;
    ring->slots[place % SLOTS] = record;
    __atomic_store_n(&ring->slots[place % SLOTS].ready, place + 1, __ATOMIC_RELEASE);
}

static void wait_for(uint32_t thread, uint64_t address, uint64_t frames) {
    ring->waits[thread] = (struct wait){.address = address, .thread = thread, .kind = WAITS_FOR_LOCK, .frames = frames};
    memset(ring->waits[thread].callers, 0x41, sizeof ring->waits[thread].callers);
}

/* Two threads that wait for each other. */
static void waits(uint64_t frames) {
    for (uint32_t thread = 0; thread < 2; thread++) {
        record((struct record){.thread = thread, .kind = R_START, .address = 100 + thread});
        record((struct record){.thread = thread, .kind = R_LOCK, .address = 64 * (1 + thread)});
        wait_for(thread, 64 * (2 - thread), frames);
    }
}

static void callers(uint64_t caller) {
    struct record bad = {.kind = R_LOCK, .address = 64, .frames = MOST_FRAMES};
    for (int at = 0; at < MOST_FRAMES; at++) memcpy(bad.callers[at], &caller, sizeof bad.callers[at]);
    record(bad);
}

/* A call by the stack of this number, which has so many callers. The first one is 7 in the record, and another one in the stack. */
static void stacks(uint32_t number, uint32_t count, uint64_t caller) {
    struct record bad = {.kind = R_LOCK, .address = 64, .frames = BY_STACK};
    uint64_t of_record = 7, of_stack = number;
    memcpy(bad.callers[0], &of_record, sizeof bad.callers[0]), memcpy(bad.callers[1], &of_stack, sizeof bad.callers[1]);
    if (number < STACKS) ring->stacks[number].callers[0] = caller, ring->stacks[number].count = count;
    record(bad);
}

/* Names of this thread, of one by a handle that nobody has, and by texts at the end of the text and of another kind. */
static void titles(void) {
    uint64_t callers[] = {0, 1ull << 40, TEXT - 1, 1};
    memset(ring->text, '\n', TEXT);
    for (size_t at = 0; at < sizeof callers / sizeof *callers; at++) {
        struct record bad = {.kind = R_TITLE, .frames = 1, .address = 0x0a0a0a0a41414141, .other = UINT64_MAX};
        memcpy(bad.callers[0], &callers[at], sizeof bad.callers[0]);
        record(bad);
    }
}

/* Calls of a reader-writer lock in each order, also those that no lock permits. */
static void readers(void) {
    static const uint8_t kinds[] = {R_READ_LOCK, R_WRITE_LOCK, R_UNLOCK_EITHER, R_LOCK, R_UNLOCK, R_WRITE_TRIED, R_UNLOCK_OWN, R_NEW, R_FREE, R_END};
    for (uint32_t call = 0; call < 20000; call++) {
        uint32_t draw = call * 2654435761u >> 8;
        record((struct record){.thread = draw % 11, .kind = kinds[draw / 11 % sizeof kinds], .address = 64 + 64 * (draw / 1000 % 2),
                               .other = kinds[draw / 11 % sizeof kinds] == R_FREE ? 64 : draw / 300 % 8});
    }
}

/* Threads that have read what others wrote: those that have recorded, one that has not, and one beyond the last. Counts of records that there
 * are, and too large ones. */
static void sees(void) {
    for (uint32_t call = 0; call < 20000; call++) {
        uint32_t draw = call * 2654435761u >> 8, thread = draw % 11, what = draw / 11 % 4;
        uint64_t writer = draw / 50 % 13 < 12 ? draw / 50 % 13 : 0xffff, count = draw / 700 % 5 ? draw / 700 % 500 : WRITER_COUNT;
        if (what < 2) record((struct record){.thread = thread, .kind = what ? R_UNLOCK : R_LOCK, .address = 64 + 64 * thread});
        else record((struct record){.thread = thread, .kind = R_SEES, .address = writer << WRITER | (what == 2 ? READ_BY_ATOMIC : 0) | count});
    }
}

static int is_cut(const char *path) {
    int file = open(path, O_RDWR);
    return file < 0 || ftruncate(file, 0) == 0 || ftruncate(file, 1 << 30) == 0;
}

int main(int count, char **words) {
    const char *name = count > 1 ? words[1] : "", *path = getenv("GOODLOCK_RING");
    int file = path ? open(path, O_RDWR) : -1;
    ring = file < 0 ? MAP_FAILED : mmap(NULL, sizeof *ring, PROT_READ | PROT_WRITE, MAP_SHARED, file, 0);
    if (ring == MAP_FAILED) return 3;
    if (!strcmp(name, "sees")) ring->values |= VALUES_RECORDER; /* before the first record */
    pthread_mutex_lock(&lock);
    pthread_mutex_unlock(&lock);
#define CASE(text) else if (!strcmp(name, text))
    if (!*name) return 2;
    CASE("frames") record((struct record){.kind = R_LOCK, .frames = 255});
    CASE("frames_7") record((struct record){.kind = R_LOCK, .frames = BY_STACK + 1});
    CASE("kind_0") record((struct record){.kind = 0});
    CASE("kind_28") record((struct record){.kind = R_SEES});
    CASE("kind_29") record((struct record){.kind = R_SEES + 1});
    CASE("stack_beyond") stacks(STACKS, 1, 7);
    CASE("stack_empty") stacks(STACKS - 1, 0, 7);
    CASE("stack_long") stacks(STACKS - 1, MOST_STACK + 1, 7);
    CASE("stack_other") stacks(STACKS - 1, MOST_STACK, 8);
    CASE("titles") titles();
    CASE("readers") readers();
    CASE("sees") sees();
    CASE("thread") record((struct record){.kind = R_LOCK, .thread = 500000000});
    CASE("nobody") record((struct record){.kind = R_LOCK, .thread = NOBODY});
    CASE("fork") record((struct record){.kind = R_FORK, .other = 500000000});
    CASE("fork_64") record((struct record){.kind = R_FORK, .other = (uint64_t)1 << 40});
    CASE("named") record((struct record){.kind = R_NAMED, .other = NOBODY});
    CASE("unstarted") record((struct record){.kind = R_UNSTARTED, .other = NOBODY});
    CASE("last_thread") record((struct record){.kind = R_FORK, .other = 499999999});
    CASE("joined") record((struct record){.kind = R_JOINED});
    CASE("free") record((struct record){.kind = R_FREE, .address = 1, .other = UINT64_MAX});
    CASE("callers") callers(0xffffffffffff);
    CASE("text") memset(ring->text, 'x', TEXT), ring->text_used = TEXT, callers(TEXT - 1);
    CASE("text_used") ring->text_used = UINT32_MAX, callers(TEXT - 1);
    CASE("waits") waits(1);
    CASE("waits_6") waits(MOST_FRAMES + 1);
    CASE("waits_64") waits((uint64_t)1 << 40);
    CASE("next") ring->next = (uint64_t)1 << 63;
    CASE("next_full") ring->next += SLOTS;
    CASE("consumed") ring->consumed = 1 << 20;
    CASE("owner_all") ring->owner = (uint32_t)-1;
    CASE("owner_1") ring->owner = 1;
    CASE("others") memset(ring->others, 'x', sizeof ring->others);
    CASE("asks") ring->others[0] = (struct other){.process = 1, .state = OTHER_ASKS}, ring->follows_others = 1;
    CASE("threads") ring->threads = 0;
    CASE("cut") return is_cut(path);
    else return 2;
    return 0;
}
