/* Hash tables with open addressing. Numbers come from files, so the hashes have a random key: nobody can choose numbers that collide. */
#include "reducer.h"

#include <sys/random.h>

enum { LEAST_SLOTS = 64 };
static uint64_t key = 0x9E3779B97F4A7C15u;

void end_without_memory(void) {
    fputs("no memory\n", stderr);
    exit(1);
}

void *allocate(size_t count, size_t size) {
    void *memory = calloc(count ? count : 1, size);
    if (!memory) end_without_memory();
    return memory;
}

void *grow(void *array, size_t count, size_t *room, size_t size) {
    if (count < *room) return array;
    size_t larger = *room ? *room + *room / 2 : LEAST_SLOTS;
    if (larger > SIZE_MAX / size / 2) end_without_memory();
    char *memory = realloc(array, larger * size);
    if (!memory) end_without_memory();
    *room = larger;
    return memory;
}

void seed_hashes(void) {
    uint64_t random;
    if (getrandom(&random, sizeof random, 0) == sizeof random) key = random;
}

static uint64_t hash_of(uint64_t value) {
    value = (value ^ key) * 0xBF58476D1CE4E5B9u;
    value = (value ^ value >> 31 ^ key >> 7) * 0x94D049BB133111EBu;
    return value ^ value >> 30;
}

/* ---- numbers ---- */

static uint32_t *slot_of_number(const struct numbers *table, uint32_t number) {
    size_t at = hash_of(number) & (table->size - 1);
    while (table->slots[at] && table->numbers[table->slots[at] - 1] != number) at = (at + 1) & (table->size - 1);
    return &table->slots[at];
}

uint32_t position_of(struct numbers *table, uint32_t number) {
    if (2 * table->count >= table->size) {
        free(table->slots);
        table->size = table->size ? 2 * table->size : LEAST_SLOTS;
        table->slots = allocate(table->size, sizeof *table->slots);
        for (uint32_t at = 0; at < table->count; at++) *slot_of_number(table, table->numbers[at]) = at + 1;
    }
    uint32_t *slot = slot_of_number(table, number);
    if (!*slot) {
        table->numbers = grow(table->numbers, table->count, &table->room, sizeof *table->numbers);
        table->numbers[table->count] = number;
        *slot = (uint32_t)++table->count;
    }
    return *slot - 1;
}

/* ---- pairs ---- */

static struct pair *slot_of_pair(const struct pairs *table, uint64_t pair) {
    size_t at = hash_of(pair) & (table->size - 1);
    while (table->slots[at].key && table->slots[at].key != pair + 1) at = (at + 1) & (table->size - 1);
    return &table->slots[at];
}

uint64_t *find_pair(const struct pairs *table, uint64_t pair) {
    struct pair *slot = table->size ? slot_of_pair(table, pair) : NULL;
    return slot && slot->key ? &slot->value : NULL;
}

static void enlarge(struct pairs *table) {
    struct pairs larger = {.size = table->size ? 2 * table->size : LEAST_SLOTS, .count = table->count};
    larger.slots = allocate(larger.size, sizeof *larger.slots);
    for (size_t at = 0; at < table->size; at++)
        if (table->slots[at].key) *slot_of_pair(&larger, table->slots[at].key - 1) = table->slots[at];
    free(table->slots);
    *table = larger;
}

uint64_t *add_pair(struct pairs *table, uint64_t pair, uint64_t value) {
    if (2 * table->count >= table->size) enlarge(table);
    struct pair *slot = slot_of_pair(table, pair);
    if (!slot->key) *slot = (struct pair){pair + 1, value}, table->count++;
    return &slot->value;
}

void clear_pairs(struct pairs *table) {
    free(table->slots);
    *table = (struct pairs){0};
}

/* ---- texts ---- */

const char *text_of(const struct texts *table, uint32_t number, size_t *length) {
    size_t begin = number ? table->ends[number - 1] : 0;
    *length = table->ends[number] - begin;
    return table->bytes + begin;
}

static uint32_t *slot_of_text(const struct texts *table, const char *text, size_t length) {
    uint64_t hash = length;
    for (size_t at = 0; at < length; at++) hash = (hash ^ key ^ (unsigned char)text[at]) * 0x9E3779B97F4A7C15u, hash ^= hash >> 29;
    for (size_t at = hash_of(hash) & (table->size - 1);; at = (at + 1) & (table->size - 1)) {
        size_t other;
        const char *found = table->slots[at] ? text_of(table, table->slots[at] - 1, &other) : NULL;
        if (!found || (other == length && !memcmp(found, text, length))) return &table->slots[at];
    }
}

static void enlarge_texts(struct texts *table) {
    free(table->slots);
    table->size = table->size ? 2 * table->size : LEAST_SLOTS;
    table->slots = allocate(table->size, sizeof *table->slots);
    for (uint32_t at = 0; at < table->count; at++) {
        size_t length;
        const char *text = text_of(table, at, &length);
        *slot_of_text(table, text, length) = at + 1;
    }
}

uint32_t add_text(struct texts *table, const char *text, size_t length) {
    if (2 * table->count >= table->size) enlarge_texts(table);
    uint32_t *slot = slot_of_text(table, text, length);
    if (*slot) return *slot - 1;
    while (table->bytes_room - table->used < length) {
        table->bytes = grow(table->bytes, table->bytes_room, &table->bytes_room, 1);
    }
    if (length) memcpy(table->bytes + table->used, text, length);
    table->used += length;
    table->ends = grow(table->ends, table->count, &table->room, sizeof *table->ends);
    table->ends[table->count] = table->used;
    *slot = (uint32_t)++table->count;
    return *slot - 1;
}
