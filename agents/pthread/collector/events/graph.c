/* The lock graph of a window: which thread has acquired a lock while it held another one. Each cycle of the window needs a ring in it. */
#include "../collector.h"

struct edge { struct entry entry; uint32_t held, lock, thread; };
/* A lock, and how many edges lead to it from locks that may be on a ring. */
struct node { struct entry entry; uint32_t from; };

static struct table edges;

void add_edge(uint32_t held, uint32_t lock, uint32_t thread) {
    uint64_t key = ((uint64_t)held << 32 | lock) * 0x9E3779B97F4A7C15u ^ thread;
    struct edge *edge = (struct edge *)find_entry(&edges, key);
    while (edge && (edge->held != held || edge->lock != lock || edge->thread != thread)) edge = (struct edge *)edge->entry.next;
    if (edge) return;
    edge = allocate(sizeof *edge);
    edge->held = held, edge->lock = lock, edge->thread = thread;
    add_entry(&edges, &edge->entry, key);
}

void write_graph(FILE *to) {
    for (size_t slot = 0; slot < edges.size; slot++)
        for (struct entry *entry = edges.slots[slot]; entry; entry = entry->next)
            fprintf(to, "%u %u %u\n", ((struct edge *)entry)->held, ((struct edge *)entry)->lock, ((struct edge *)entry)->thread);
}

void forget_graph(void) { clear_table(&edges); }

/* ---- rings ---- */

static int compare(const void *left, const void *right) {
    const struct edge *one = *(struct edge *const *)left, *other = *(struct edge *const *)right;
    return one->held < other->held ? -1 : one->held > other->held;
}

/* The edges, in the order of the held locks. */
static struct edge **sorted_edges(void) {
    struct edge **list = allocate(edges.count * sizeof *list);
    size_t count = 0;
    for (size_t slot = 0; slot < edges.size; slot++)
        for (struct entry *entry = edges.slots[slot]; entry; entry = entry->next) list[count++] = (struct edge *)entry;
    qsort(list, count, sizeof *list, compare);
    return list;
}

/* The first edge from this lock or a greater one. */
static size_t first_from(struct edge *const *list, uint32_t lock) {
    size_t low = 0, high = edges.count;
    while (low < high) {
        size_t middle = low + (high - low) / 2;
        if (list[middle]->held < lock) low = middle + 1;
        else high = middle;
    }
    return low;
}

static struct node *node_of(struct table *nodes, uint32_t lock) {
    struct node *it = (struct node *)find_entry(nodes, lock);
    if (!it) it = allocate(sizeof *it), add_entry(nodes, &it->entry, lock);
    return it;
}

/* Takes away each lock to which no edge leads, with its edges, until none is left. */
static void peel(struct edge *const *list, struct table *nodes) {
    uint32_t *free_locks = allocate(2 * edges.count * sizeof *free_locks);
    size_t count = 0;
    for (size_t at = 0; at < edges.count; at++) node_of(nodes, list[at]->held), node_of(nodes, list[at]->lock)->from++;
    for (size_t slot = 0; slot < nodes->size; slot++)
        for (struct entry *entry = nodes->slots[slot]; entry; entry = entry->next)
            if (!((struct node *)entry)->from) free_locks[count++] = (uint32_t)entry->key;
    while (count) {
        uint32_t lock = free_locks[--count];
        for (size_t at = first_from(list, lock); at < edges.count && list[at]->held == lock; at++)
            if (!--node_of(nodes, list[at]->lock)->from) free_locks[count++] = list[at]->lock;
    }
    free(free_locks);
}

int has_ring(void) {
    struct table nodes = {0};
    const struct edge *first = NULL;
    int has_two_threads = 0;
    if (!edges.count) return 0;
    struct edge **list = sorted_edges();
    peel(list, &nodes);
    for (size_t at = 0; at < edges.count && !has_two_threads; at++) {
        if (!node_of(&nodes, list[at]->held)->from) continue;
        if (!first) first = list[at];
        has_two_threads = list[at]->thread != first->thread;
    }
    clear_table(&nodes), free(list);
    return has_two_threads;
}
