/* Reads the log of a run that an agent has recorded: ../../agents/pthread/shared/calls.h describes it. Its bytes are hostile input, too. */
#include "reducer.h"

#include "../../agents/pthread/shared/calls.h"

enum { MOST_ENTRY = 16, HEAD = sizeof CALLS_MAGIC - 1 + 4, MOST_COMMAND = 1 << 24 };

/* Makes sure that the next bytes are in the buffer, as far as the file has them. Returns whether there are that many. */
static bool has_bytes(struct reader *reader, size_t count) {
    if (reader->end - reader->begin < count && !reader->is_at_end) fill_buffer(reader);
    return reader->end - reader->begin >= count;
}

static unsigned next_byte(struct reader *reader) {
    if (reader->begin == reader->end) refuse(reader, "the log ends early");
    return (unsigned char)reader->buffer[reader->begin++];
}

/* The command of the run is for another tool. */
static void skip_command(struct reader *reader) {
    const unsigned char *bytes = (const unsigned char *)reader->buffer + reader->begin + sizeof CALLS_MAGIC - 1;
    uint32_t size = bytes[0] | (uint32_t)bytes[1] << 8 | (uint32_t)bytes[2] << 16 | (uint32_t)bytes[3] << 24;
    reader->begin += HEAD;
    for (; size && size <= MOST_COMMAND && has_bytes(reader, 1);) {
        size_t part = reader->end - reader->begin < size ? reader->end - reader->begin : size;
        reader->begin += part, size -= (uint32_t)part;
    }
    if (size) refuse(reader, "the log ends early");
}

void begin_log(struct reader *reader) {
    reader->is_log = has_bytes(reader, HEAD) && !memcmp(reader->buffer + reader->begin, CALLS_MAGIC, sizeof CALLS_MAGIC - 1);
    if (!reader->is_log) return;
    if (reader->count > 1) refuse(reader, "a log is that of a whole run: give it alone");
    skip_command(reader);
    memset(&reader->last, 0, sizeof reader->last);
}

static uint32_t read_number(struct reader *reader) {
    uint64_t number = 0;
    for (int shift = 0; shift < 35; shift += 7) {
        unsigned byte = next_byte(reader);
        number |= (uint64_t)(byte & 127) << shift;
        if (byte < 128 && number <= LARGEST) return (uint32_t)number;
        if (byte < 128) break;
    }
    refuse(reader, "the log has a number that no agent writes");
}

/* Reads an entry. Returns its kind. */
static unsigned read_entry(struct reader *reader) {
    has_bytes(reader, MOST_ENTRY);
    unsigned byte = next_byte(reader), kind = byte % LOG_KINDS;
    struct last_entry *last = &reader->last;
    if (!(byte & SAME_THREAD)) last->thread = read_number(reader);
    if (!(byte & SAME_OBJECT)) last->objects[kind >= LOG_EVENT] = read_number(reader);
    if (!(byte & SAME_SITE)) last->site = read_number(reader), reader->where_number = NONE, reader->where_length = 0;
    return kind;
}

bool next_logged(struct reader *reader, struct word *word) {
    unsigned kind;
    do kind = read_entry(reader);
    while (kind < LOG_EVENT || kind == LOG_OTHER || kind == LOG_EXEC);
    if (kind == LOG_CUT) refuse(reader, "the log is not whole");
    if (kind == LOG_END) {
        reader->begin = reader->end, reader->is_at_end = true;
        return false;
    }
    *word = (struct word){.thread = reader->last.thread, .object = reader->last.objects[1]};
    word->operation = (enum operation)(kind - LOG_EVENT);
    if (word->operation >= READ && word->object >= ATOMIC_VALUES && word->object < PLAIN_VALUES + MOST_VALUES)
        values = (struct values){ATOMIC_VALUES, PLAIN_VALUES, true};
    if (word->operation == ACQUIRE && word->object >= FIRST_MARKER) find_lock(reader, word->object)->is_mark = true;
    reader->place++;
    return true;
}

void take_site(struct reader *reader) {
    if (reader->is_log && reader->where_number == NONE && reader->last.site)
        reader->where_length = (size_t)sprintf(reader->where, "%u", reader->last.site);
}
