/* Notes what lockdep looks at: which class was acquired under which, in which way and in which interrupts. */
#include "kernel.h"

/* The instances of a dependency: who held a lock of the first class and acquired one of the second. */
struct sample { uint32_t actor, held, acquired, held_line, line; bool is_held_read, is_read; };
struct dependency { uint32_t first, second; uint64_t count; uint32_t sample_count; struct sample samples[MOST_SAMPLES]; };

static struct pairs positions;  /* of the dependencies, by their classes */
static struct dependency *dependencies;
static size_t dependency_count, dependency_room;

static struct dependency *dependency_of(uint32_t first, uint32_t second) {
    uint64_t at = *add_pair(&positions, pair_of(first, second), dependency_count);
    if (at == dependency_count) {
        dependencies = grow(dependencies, dependency_count, &dependency_room, sizeof *dependencies);
        dependencies[dependency_count++] = (struct dependency){.first = first, .second = second};
    }
    return &dependencies[at];
}

static bool is_same(const struct sample *one, const struct sample *other) {
    return one->actor == other->actor && one->held == other->held && one->acquired == other->acquired &&
           one->is_held_read == other->is_held_read && one->is_read == other->is_read;
}

static void add_sample(struct dependency *dependency, struct sample sample) {
    dependency->count++;
    for (uint32_t at = dependency->sample_count; at-- > 0;) if (is_same(&dependency->samples[at], &sample)) return;
    if (dependency->sample_count < MOST_SAMPLES) dependency->samples[dependency->sample_count++] = sample;
}

struct held_class note_release(struct stack *stack, uint32_t lock) {
    for (size_t at = stack->count; at-- > 0;) {
        struct held_class found = stack->items[at];
        if (found.lock != lock) continue;
        memmove(&stack->items[at], &stack->items[at + 1], (--stack->count - at) * sizeof *stack->items);
        return found;
    }
    return (struct held_class){.class = NONE};
}

void note_acquire(struct stack *stack, uint32_t actor, struct held_class acquire, bool is_tried) {
    /* Who goes on after a second acquire of a lock that is no reader has released it: the release was not seen. */
    if (!acquire.is_read)
        for (size_t at = 0; at < stack->count; at++)
            if (stack->items[at].lock == acquire.lock && !stack->items[at].is_read) {
                note_release(stack, acquire.lock);
                break;
            }
    for (size_t at = 0; !is_tried && at < stack->count; at++) {
        const struct held_class *held = &stack->items[at];
        add_sample(dependency_of(held->class, acquire.class),
                   (struct sample){actor, held->lock, acquire.lock, held->line, acquire.line, held->is_read, acquire.is_read});
    }
    if (stack->count >= MOST_HELD_OF_RUN) return;
    stack->items = grow(stack->items, stack->count, &stack->room, sizeof *stack->items);
    stack->items[stack->count++] = acquire;
}

void forget_dependencies(void) {
    clear_pairs(&positions);
    dependency_count = 0;
}

void find_reached(void) {
    for (size_t at = 0; at < class_names.count; at++)
        for (int context = SOFTIRQ; context < CONTEXTS; context++)
            classes[at].is_reached[context] = classes[at].in[context][false] || classes[at].in[context][true];
    for (bool is_changed = true; is_changed;) {
        is_changed = false;
        for (size_t at = 0; at < dependency_count; at++)
            for (int context = SOFTIRQ; context < CONTEXTS; context++) {
                const struct dependency *dependency = &dependencies[at];
                if (!classes[dependency->first].is_reached[context] || classes[dependency->second].is_reached[context]) continue;
                classes[dependency->second].is_reached[context] = is_changed = true;
            }
    }
}

static struct pairs on_cycles;  /* 1: no, 2: yes */

bool is_on_cycle(uint32_t first, uint32_t second) {
    uint64_t *known = add_pair(&on_cycles, pair_of(first, second), 0);
    if (*known) return *known == 2;
    bool *is_reached = allocate(class_names.count, sizeof *is_reached);
    is_reached[second] = true;
    for (bool is_changed = !is_reached[first]; is_changed && !is_reached[first];) {
        is_changed = false;
        for (size_t at = 0; at < dependency_count; at++)
            if (is_reached[dependencies[at].first] && !is_reached[dependencies[at].second])
                is_reached[dependencies[at].second] = is_changed = true;
    }
    *known = is_reached[first] ? 2 : 1;
    free(is_reached);
    return *known == 2;
}

static void write_class(FILE *file, uint32_t number) {
    const struct class_info *class = &classes[number];
    int length;
    const char *name = class_name(number, &length);
    fprintf(file, "class %u %llu %llu", number, (unsigned long long)class->acquires, (unsigned long long)class->acquired);
    for (int context = SOFTIRQ; context < CONTEXTS; context++)
        fprintf(file, " %d %d %u %d %d %u", class->in[context][false], class->in[context][true], class->in_line[context],
                class->on[context][false], class->on[context][true], class->on_line[context]);
    fprintf(file, " %.*s\n", length, name);
}

static void write_sample(FILE *file, const struct sample *sample) {
    size_t length;
    const char *name = text_of(&actor_names, actors[sample->actor].name, &length);
    fprintf(file, "sample %u %u %u %d %d %u %u %.*s\n", sample->actor, sample->held, sample->acquired, sample->is_held_read,
            sample->is_read, sample->held_line, sample->line, (int)length, name);
}

/* Writes the classes, and each dependency with its samples after it; tools/goodlock/kernel/classes.py reads it. */
void write_classes(FILE *file) {
    for (size_t at = 0; at < class_names.count; at++) if (classes[at].acquires) write_class(file, (uint32_t)at);
    for (size_t at = 0; at < dependency_count; at++) {
        fprintf(file, "dependency %u %u %llu\n", dependencies[at].first, dependencies[at].second,
                (unsigned long long)dependencies[at].count);
        for (uint32_t sample = 0; sample < dependencies[at].sample_count; sample++) write_sample(file, &dependencies[at].samples[sample]);
    }
}
