/* Values that are found only later: they are inserted in the past. Until a window ends its trace lacks them; then the trace is written again
 * with them. calls.c does the same for the log, when the run ends. Some are deferred: whether the window needs them is known at its end. */
#include "../collector.h"

#include <sys/stat.h>

static struct insert *inserts;
static size_t inserts_count, inserts_room;
static uint32_t deferred_count;
static int has_values; /* the window has values */

uint32_t inserted(void) { return (uint32_t)inserts_count - deferred_count; }

uint32_t deferred(void) { return deferred_count; }

void begin_inserts(void) { inserts_count = deferred_count = 0, has_values = 0; }

void note_value(void) { has_values = 1; }

void insert_event(const struct insert *it) {
    inserts = grow(inserts, inserts_count, &inserts_room, sizeof *inserts);
    inserts[inserts_count++] = *it;
    deferred_count += it->is_deferred;
}

uint32_t decide_on_deferred(int are_needed) {
    uint32_t count = deferred_count;
    size_t kept = 0;
    deferred_count = 0;
    if (are_needed) return has_values |= count > 0, count;
    for (size_t at = 0; at < inserts_count; at++) if (!inserts[at].is_deferred) inserts[kept++] = inserts[at];
    inserts_count = kept;
    return 0;
}

/* In the order of the log: what follows a run compares the two. */
static int compare(const void *left, const void *right) {
    const struct insert *one = left, *other = right;
    if (one->position != other->position) return one->position < other->position ? -1 : 1;
    if (one->order != other->order) return one->order < other->order ? -1 : 1;
    if (one->letter != other->letter) return one->letter < other->letter ? -1 : 1; /* a read first: a write follows a whole record */
    return one->variable < other->variable ? -1 : one->variable > other->variable;
}

static void write_insert(FILE *to, const struct insert *it, uint32_t *site) {
    if (it->site && it->site != *site) fprintf(to, "# at %u\n", *site = it->site);
    fprintf(to, "%u%c%u\n", it->thread, it->letter, it->variable);
}

/* Copies a trace line by line. A line of a site is written when an event needs it. */
static void merge(FILE *from, FILE *to) {
    char line[PATHS];
    uint32_t site = 0, written = 0, position = 0;
    size_t next = 0;
    int is_first = 1;
    while (fgets(line, sizeof line, from)) {
        int is_event = line[0] != '#';
        if (!is_first || is_event || strncmp(line, "# at ", 5) == 0) {
            if (has_values) fprintf(to, "# values atomic %u plain %u\n", ATOMIC_VALUES, PLAIN_VALUES);
            has_values = 0;
        }
        is_first = 0;
        if (sscanf(line, "# at %u", &site) == 1) continue;
        for (; is_event && next < inserts_count && inserts[next].position <= position; next++) write_insert(to, &inserts[next], &written);
        position += (uint32_t)is_event;
        if (is_event && site && site != written) fprintf(to, "# at %u\n", written = site);
        fputs(line, to);
    }
    for (; next < inserts_count; next++) write_insert(to, &inserts[next], &written);
}

int merge_trace(const char *path) {
    char merged[PATHS];
    struct stat it;
    if (!has_values) return 1;
    if (inserts_count) qsort(inserts, inserts_count, sizeof *inserts, compare);
    FILE *from = fopen(path, "re"), *to = from ? create_in_work("merged") : NULL;
    int is_whole = to && !fstat(fileno(from), &it) && !fchmod(fileno(to), it.st_mode & 0777);
    if (is_whole) merge(from, to), is_whole = !ferror(from);
    if (from) fclose(from);
    if (to && (ferror(to) | fclose(to))) is_whole = 0;
    return is_whole && !rename(in_work(merged, "merged"), path);
}
