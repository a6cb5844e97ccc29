/* A toy allocator with locks of its own, which no agent sees, and with hooks that stream them to a goodlockd server. Its two pools are locked
 * in both orders: `refill` moves a block from the large pool to the small one, `give_back` moves one in the other direction.
 *
 *     cc -o validator -I agents/client examples/programs/validator.c agents/client/goodlock_client.c -pthread
 *     tools/with_server sh -c './validator "$GOODLOCKD"'
 */
#include "goodlock_client.h"

#include <pthread.h>
#include <stdatomic.h>
#include <stdlib.h>

/* ---- the hooks: each event of a lock becomes an event of the server ---- */

static struct goodlock_client client;
static atomic_flag is_sending = ATOMIC_FLAG_INIT; /* one thread at a time uses the client. No event is about this lock */
static _Thread_local uint32_t self;               /* the number of the thread: 0 is the first one */

static void hook(enum goodlock_kind kind, uint32_t object) {
    while (atomic_flag_test_and_set(&is_sending)) continue;
    goodlock_event(&client, kind, self, object); /* the server is asked at the end: a failure is found then */
    atomic_flag_clear(&is_sending);
}

/* ---- the allocator ---- */

struct pool { atomic_flag lock; uint32_t number; int blocks; };
static struct pool small = {ATOMIC_FLAG_INIT, 1, 0}, large = {ATOMIC_FLAG_INIT, 2, 8};

static void lock(struct pool *pool) {
    while (atomic_flag_test_and_set(&pool->lock)) continue;
    hook(GOODLOCK_ACQUIRE, pool->number); /* after the acquire */
}

static void unlock(struct pool *pool) {
    hook(GOODLOCK_RELEASE, pool->number); /* before the release */
    atomic_flag_clear(&pool->lock);
}

static void refill(void) {
    lock(&small);
    lock(&large);
    large.blocks--, small.blocks++;
    unlock(&large);
    unlock(&small);
}

static void give_back(void) {
    lock(&large);
    lock(&small);
    small.blocks--, large.blocks++;
    unlock(&small);
    unlock(&large);
}

/* ---- a run ---- */

/* So that this example never hangs, the second thread begins when the first one is done. No event says so: in a program without this wait
 * both may run at the same time. */
static atomic_int is_refilled;

static void *refiller(void *number) {
    self = *(uint32_t *)number;
    refill();
    is_refilled = 1;
    return NULL;
}

static void *returner(void *number) {
    self = *(uint32_t *)number;
    while (!is_refilled) continue;
    give_back();
    return NULL;
}

static void fail(void) {
    fprintf(stderr, "validator: %s\n", client.fault);
    goodlock_close(&client);
    exit(1);
}

int main(int count, char **words) {
    static uint32_t numbers[] = {1, 2};
    void *(*const bodies[])(void *) = {refiller, returner};
    pthread_t threads[2];
    struct goodlock_opened opened;
    if (goodlock_connect(&client, count > 1 ? words[1] : "", 0)) fail();
    for (int at = 0; at < 2; at++) hook(GOODLOCK_FORK, numbers[at]); /* before the threads start */
    for (int at = 0; at < 2; at++)
        if (pthread_create(&threads[at], NULL, bodies[at], &numbers[at])) exit(1);
    for (int at = 0; at < 2; at++) pthread_join(threads[at], NULL);
    for (int at = 0; at < 2; at++) hook(GOODLOCK_JOIN, numbers[at]); /* after the joins */
    if (goodlock_ask(&client, 2, &opened)) fail();
    if (goodlock_report(&client, opened.question, stdout, 60000)) fail();
    goodlock_close(&client);
    return 0;
}
