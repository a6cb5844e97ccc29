/* The lock graph, its components, and the slice: what the acquires that may be members of a cycle need. */
#include "reducer.h"

uint64_t *cuts;

/* ---- the lock graph ---- */

void add_edges(struct graph *graph, const struct event *acquire) {
    const struct held_list *held = &threads[acquire->thread].held;
    for (size_t at = 0; at < held->count; at++)
        add_pair(&graph->edges, pair_of(held->items[at].lock, acquire->object), 0);
}

/* A search for strongly connected components (Tarjan 1972) without recursion. */
struct search {
    size_t *begins;             /* of the locks acquired under each lock, in `under` */
    uint32_t *under, *number, *low, *path, *open, *component;
    size_t *next;               /* of each lock: the edge that is followed next */
    size_t path_count, open_count;
    uint32_t numbered;
};

static bool is_shared(uint32_t lock) { return locks[lock].user == SEVERAL; }

static bool is_edge(const struct pair *edge) { return edge->key && is_shared(first_of(edge)) && is_shared(second_of(edge)); }

static void list_edges(struct search *search, const struct pairs *edges) {
    size_t count = lock_numbers.count;
    search->begins = allocate(count + 2, sizeof *search->begins);
    search->under = allocate(edges->count, sizeof *search->under);
    const struct pair *end = edges->slots + edges->size;
    for (const struct pair *edge = edges->slots; edge < end; edge++) if (is_edge(edge)) search->begins[first_of(edge) + 2]++;
    for (size_t at = 2; at < count + 2; at++) search->begins[at] += search->begins[at - 1];
    for (const struct pair *edge = edges->slots; edge < end; edge++)
        if (is_edge(edge)) search->under[search->begins[first_of(edge) + 1]++] = second_of(edge);
}

static void enter(struct search *search, uint32_t lock) {
    search->number[lock] = search->low[lock] = ++search->numbered;
    search->next[lock] = search->begins[lock];
    search->path[search->path_count++] = search->open[search->open_count++] = lock;
}

/* Ends a lock. If it is the first of its component, the component is complete; a single lock gets none. */
static void leave(struct search *search, uint32_t lock) {
    uint32_t above = --search->path_count ? search->path[search->path_count - 1] : NONE;
    if (above != NONE && search->low[lock] < search->low[above]) search->low[above] = search->low[lock];
    if (search->low[lock] != search->number[lock]) return;
    bool is_single = search->open[search->open_count - 1] == lock;
    uint32_t member;
    do {
        member = search->open[--search->open_count];
        search->component[member] = is_single ? NONE : lock;
        search->low[member] = NONE; /* no longer open */
    } while (member != lock);
}

static void follow(struct search *search, uint32_t root) {
    enter(search, root);
    while (search->path_count) {
        uint32_t lock = search->path[search->path_count - 1];
        if (search->next[lock] == search->begins[lock + 1]) {
            leave(search, lock);
            continue;
        }
        uint32_t under = search->under[search->next[lock]++];
        if (!search->number[under]) enter(search, under);
        else if (search->low[under] != NONE && search->number[under] < search->low[lock]) search->low[lock] = search->number[under];
    }
}

uint32_t *components_of(const struct graph *graph) {
    size_t count = lock_numbers.count;
    struct search search = {.numbered = 0};
    list_edges(&search, &graph->edges);
    uint32_t *memory = allocate(4 * count, sizeof *memory);
    search.number = memory, search.low = memory + count, search.path = memory + 2 * count, search.open = memory + 3 * count;
    search.component = allocate(count, sizeof *search.component);
    search.next = allocate(count, sizeof *search.next);
    for (uint32_t lock = 0; lock < count; lock++) if (!search.number[lock]) follow(&search, lock);
    free(memory), free(search.next), free(search.begins), free(search.under);
    return search.component;
}

/* ---- the slice ---- */

/* The needed events of a thread are its first ones. A field has NONE if there is no such event. */
struct needs {
    struct lists lists;
    uint32_t *links;                /* of a read its writer, of an outermost acquire its release */
    uint32_t *forks, *ends;         /* of each thread its fork and its last event */
    uint32_t *needed, *done;        /* of each thread: how many of its events are needed, and how many were followed */
    uint32_t *last;                 /* of each lock its latest needed acquire */
    uint32_t *open;                 /* threads to follow */
    bool *is_open;
    size_t open_count;
};

static uint32_t *none_of(size_t count) {
    uint32_t *array = allocate(count, sizeof *array);
    memset(array, 0xFF, count * sizeof *array);
    return array;
}

static void want(struct needs *needs, uint32_t event) {
    if (event == NONE) return;
    uint32_t thread = kept.events[event].thread;
    if (needs->needed[thread] > needs->lists.at[event]) return;
    needs->needed[thread] = needs->lists.at[event] + 1;
    if (!needs->is_open[thread]) needs->open[needs->open_count++] = thread;
    needs->is_open[thread] = true;
}

/* Of two needed acquires of a lock the earlier one needs its release. */
static void want_release(struct needs *needs, uint32_t acquire) {
    uint32_t *last = &needs->last[kept.events[acquire].object], earlier = acquire;
    if (*last == NONE || acquire > *last) earlier = *last, *last = acquire;
    if (earlier != NONE) want(needs, needs->links[earlier]);
}

static void follow_event(struct needs *needs, uint32_t at, bool is_outermost) {
    const struct event *event = &kept.events[at];
    if (event->operation == READ) want(needs, needs->links[at]);
    if (event->operation == JOIN) want(needs, needs->forks[event->object]), want(needs, needs->ends[event->object]);
    if (is_outermost) want_release(needs, at);
}

static void follow_all(struct needs *needs, const bool *is_outermost) {
    while (needs->open_count) {
        uint32_t thread = needs->open[--needs->open_count], from = needs->done[thread];
        needs->is_open[thread] = false;
        if (!from) want(needs, needs->forks[thread]);
        needs->done[thread] = needs->needed[thread];
        for (uint32_t at = from; at < needs->done[thread]; at++) {
            uint32_t event = needs->lists.order[needs->lists.begins[thread] + at];
            follow_event(needs, event, is_outermost[event]);
        }
    }
}

/* Notes the links of the kept events. Returns for each whether it is an outermost acquire. */
static bool *link_events(struct needs *needs, struct graph *graph) {
    bool *is_outermost = allocate(kept.count, 1);
    uint32_t *acquires = none_of(lock_numbers.count), *writes = none_of(variable_numbers.count);
    release_all();
    for (uint32_t at = 0; at < kept.count; at++) {
        const struct event *event = &kept.events[at];
        needs->ends[event->thread] = at;
        if (event->operation == FORK) needs->forks[event->object] = at;
        if (event->operation == WRITE) writes[event->object] = at;
        if (event->operation == READ) needs->links[at] = writes[event->object];
        if (event->operation != ACQUIRE && event->operation != RELEASE) continue;
        if (event->operation == ACQUIRE && !locks[event->object].depth) add_edges(graph, event);
        if (!apply_lock_event(event)) continue;
        if (event->operation == RELEASE) needs->links[acquires[event->object]] = at;
        else acquires[event->object] = at, is_outermost[at] = true;
    }
    free(acquires), free(writes);
    return is_outermost;
}

bool is_possible_member(const uint32_t *components, const struct event *acquire) {
    const struct held_list *held = &threads[acquire->thread].held;
    for (size_t at = 0; at < held->count && components[acquire->object] != NONE; at++)
        if (components[held->items[at].lock] == components[acquire->object] && held->items[at].lock != acquire->object) return true;
    return false;
}

static void want_members(struct needs *needs, const struct graph *graph, const bool *is_outermost) {
    uint32_t *components = components_of(graph);
    release_all();
    for (uint32_t at = 0; at < kept.count; at++) {
        const struct event *event = &kept.events[at];
        if (event->operation != ACQUIRE && event->operation != RELEASE) continue;
        apply_lock_event(event);
        if (is_outermost[at] && is_possible_member(components, event)) want(needs, at);
    }
    free(components);
}

/* Marks what is not needed, and notes where each thread is cut. */
static void cut(const struct needs *needs) {
    for (size_t at = 0; at < kept.count; at++) {
        struct event *event = &kept.events[at];
        event->is_left_out = needs->lists.at[at] >= needs->needed[event->thread];
        if (event->is_left_out && event->operation != RELEASE && event->place < cuts[event->thread]) cuts[event->thread] = event->place;
    }
}

void slice(void) {
    size_t thread_count = thread_numbers.count;
    struct graph graph = {0};
    struct needs needs = {
        .lists = list_threads(), .links = none_of(kept.count), .forks = none_of(thread_count), .ends = none_of(thread_count),
        .needed = allocate(thread_count, sizeof(uint32_t)), .done = allocate(thread_count, sizeof(uint32_t)),
        .last = none_of(lock_numbers.count), .open = allocate(thread_count, sizeof(uint32_t)), .is_open = allocate(thread_count, 1),
    };
    count_users();
    bool *is_outermost = link_events(&needs, &graph);
    want_members(&needs, &graph, is_outermost);
    follow_all(&needs, is_outermost);
    cut(&needs);
    free_lists(&needs.lists);
    free(needs.links), free(needs.forks), free(needs.ends), free(needs.needed), free(needs.done), free(needs.last), free(needs.open);
    free(needs.is_open), free(is_outermost);
    clear_pairs(&graph.edges);
    remove_left_out();
}
