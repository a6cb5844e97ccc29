/* Writes the log of the run to OUT.tmp/calls while the program runs. */
#include "../../shared/calls.h"
#include "../collector.h"

#include <endian.h>

enum { BUFFERED = 1 << 16, MOST_ENTRY = 16 };
_Static_assert((int)R_ONCE < (int)LOG_EVENT && FIRST_MARKER == TRY_MARKERS, "calls.h");

static FILE *file;
static uint8_t buffer[BUFFERED]; /* an entry costs less than a call of fwrite */
static size_t buffered;
static uint64_t used;
unsigned long logged;
static uint32_t cut = NO_LOG;
static long begin;
static int is_in_call, is_in_none; /* the events are of the last call; they are marked as those of none */
static uint32_t last_thread, last_site, last_objects[2]; /* of calls; of events */
/* Values that belong to the past: `after` that many entries. They are merged into the log when the run ends. */
static struct late { uint32_t after, thread, variable, site; char letter; } *late;
static size_t late_count, late_room;
static uint32_t entries;

static int has_log(void) { return !cut; }

uint32_t why_no_log(void) { return cut; }

static void cut_log(uint32_t why) {
    uint8_t entry[] = {LOG_CUT | SAME_THREAD | SAME_SITE, (uint8_t)why};
    cut = why, buffered = 0;
    fflush(file), clearerr(file);
    if (!ftruncate(fileno(file), begin) && !fseek(file, begin, SEEK_SET) && fwrite(entry, sizeof entry, 1, file) == 1) return;
    fclose(file), file = NULL;
}

static void write_buffer(void) {
    size_t count = buffered;
    buffered = 0;
    if (fwrite(buffer, 1, count, file) != count) cut_log(CUT_UNWRITTEN);
}

static uint8_t *put_number(uint8_t *to, uint32_t number) {
    for (; number >= 128; number >>= 7) *to++ = (uint8_t)(number | 128);
    *to++ = (uint8_t)number;
    return to;
}

static void put(uint32_t kind, uint32_t thread, uint32_t object, uint32_t site) {
    uint8_t *entry = buffer + buffered, *to = entry + 1, flags = 0;
    uint32_t *last_object = &last_objects[kind >= LOG_EVENT];
    if (!has_log()) return;
    if (thread == last_thread) flags |= SAME_THREAD;
    else to = put_number(to, last_thread = thread);
    if (object == *last_object) flags |= SAME_OBJECT;
    else to = put_number(to, *last_object = object);
    if (site == last_site) flags |= SAME_SITE;
    else to = put_number(to, last_site = site);
    *entry = (uint8_t)kind | flags;
    entries++;
    buffered += (size_t)(to - entry), used += (uint64_t)(to - entry);
    if (used > options.most_logged || entries == UINT32_MAX) cut_log(CUT_LONG);
    else if (buffered > BUFFERED - MOST_ENTRY) write_buffer();
}

/* Without its command a run cannot be made again: then the log is only for the report. */
void begin_calls(char **words) {
    uint32_t size = 0;
    int is_kept = words[0] && !is_follower;
    if (!options.most_logged || is_following() || !(file = create_in_work("calls"))) return;
    for (char **word = words; is_kept && *word; word++) size += (uint32_t)strlen(*word) + 1;
    uint32_t stored = htole32(size);
    fwrite(CALLS_MAGIC, 1, sizeof CALLS_MAGIC - 1, file), fwrite(&stored, sizeof stored, 1, file);
    for (char **word = words; is_kept && *word; word++) fwrite(*word, 1, strlen(*word) + 1, file);
    begin = ftell(file), cut = 0, used = (uint64_t)begin;
    if (begin != (long)(sizeof CALLS_MAGIC - 1 + sizeof stored + size) || fflush(file)) fclose(file), file = NULL, cut = CUT_UNWRITTEN;
}

void log_no_call(void) { is_in_call = 0; }

void log_call(uint32_t thread, uint32_t kind, uint32_t object, uint32_t site) {
    is_in_call = 1, is_in_none = 0;
    put(kind, thread, object, site);
}

static uint32_t kind_of_event(char letter) {
    static const char letters[] = "fjardw";
    return LOG_EVENT + (uint32_t)(strchr(letters, letter) - letters);
}

/* An event without a site is at that of the event before, as in a trace. */
void log_event(char letter, uint32_t thread, uint32_t object, uint32_t site) {
    logged++;
    if (!is_in_call && !is_in_none) is_in_none = 1, put(LOG_OTHER, last_thread, last_objects[1], last_site);
    put(kind_of_event(letter), thread, object, site ? site : last_site);
}

void log_exec(void) { put(LOG_EXEC, last_thread, last_objects[1], last_site); }

/* ---- what belongs to the past ---- */

uint32_t log_entries(void) { return entries; }

void log_after(uint32_t after, char letter, uint32_t thread, uint32_t variable, uint32_t site) {
    if (!has_log()) return;
    late = grow(late, late_count, &late_room, sizeof *late);
    late[late_count++] = (struct late){after, thread, variable, site, letter};
    used += MOST_ENTRY;
}

static int compare(const void *left, const void *right) {
    const struct late *one = left, *other = right;
    if (one->after != other->after) return one->after < other->after ? -1 : 1;
    if (one->letter != other->letter) return one->letter < other->letter ? -1 : 1;
    return one->variable < other->variable ? -1 : one->variable > other->variable;
}

static uint32_t read_number(FILE *from) {
    uint32_t number = 0;
    for (int shift = 0, byte; shift < 35 && (byte = getc(from)) != EOF; shift += 7) {
        number |= (uint32_t)(byte & 127) << shift;
        if (byte < 128) break;
    }
    return number;
}

/* Such an event is of no call, and so is what comes after it up to the next call: records make no events of an earlier one. */
static void put_late(const struct late *it) {
    put(LOG_OTHER, last_thread, last_objects[1], last_site);
    put(kind_of_event(it->letter), it->thread, it->variable, it->site ? it->site : last_site);
}

/* Copies the log entry by entry. The numbers that an entry leaves out are those of the entry before it in the same log. */
static void merge(FILE *from) {
    uint32_t thread = 0, site = 0, objects[2] = {0, 0}, count = 0;
    size_t next = 0;
    for (int byte; has_log() && (byte = getc(from)) != EOF; count++) {
        uint32_t kind = (uint32_t)byte % LOG_KINDS;
        for (; next < late_count && late[next].after <= count; next++) put_late(&late[next]);
        if (!(byte & SAME_THREAD)) thread = read_number(from);
        if (!(byte & SAME_OBJECT)) objects[kind >= LOG_EVENT] = read_number(from);
        if (!(byte & SAME_SITE)) site = read_number(from);
        put(kind, thread, objects[kind >= LOG_EVENT], site);
        if (kind == LOG_END) break;
    }
}

/* Writes the log again, with what belongs to its past. */
static void merge_log(void) {
    char path[PATHS], raw[PATHS];
    FILE *from = NULL;
    qsort(late, late_count, sizeof *late, compare);
    int is_moved = fclose(file) == 0 && rename(in_work(path, "calls"), in_work(raw, "calls.raw")) == 0;
    if (!is_moved || !(from = fopen(raw, "re")) || !(file = create_in_work("calls"))) {
        cut = CUT_UNWRITTEN, file = NULL;
        if (from) fclose(from);
        return;
    }
    for (long at = 0; at < begin; at++) putc(getc(from), file);
    fflush(file);
    last_thread = last_site = last_objects[0] = last_objects[1] = entries = 0;
    used = (uint64_t)begin;
    merge(from);
    fclose(from), unlink(raw);
}

void end_calls(void) {
    if (!file) return;
    put(LOG_END, last_thread, last_objects[1], last_site);
    if (has_log()) write_buffer();
    if (has_log() && late_count && (window > 1 || may_have_cycle())) merge_log(); /* else nobody reads the log */
    if (file && has_log()) write_buffer();
    if (file && fclose(file) && has_log()) {
        char path[PATHS];
        unlink(in_work(path, "calls")), cut = CUT_UNWRITTEN;
    }
    file = NULL;
}
