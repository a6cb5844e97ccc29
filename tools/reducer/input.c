/* Reads event files of any length. A file is hostile input: each number is checked, and the memory does not depend on its lines. */
#include "reducer.h"

#include <errno.h>
#include <fcntl.h>
#include <stdarg.h>
#include <unistd.h>

enum { BUFFER = 1 << 20, MOST_SHOWN = 60 };
static const char letters[] = "fjardw";

/* ---- errors ---- */

void refuse(const struct reader *reader, const char *format, ...) {
    va_list arguments;
    fflush(stdout);
    fprintf(stderr, reader->is_log ? "%s: place %llu: " : "%s:%llu: ", reader->sources[reader->at].name,
            (unsigned long long)(reader->is_log ? reader->place : reader->line));
    va_start(arguments, format);
    vfprintf(stderr, format, arguments);
    va_end(arguments);
    fputc('\n', stderr);
    exit(2);
}

void end_unread(const char *name, const char *reason) {
    fprintf(stderr, "cannot read %s: %s\n", name, reason);
    exit(1);
}

void end_unwritten(const char *name) {
    fprintf(stderr, "cannot write: %s: %s\n", name, strerror(errno));
    exit(1);
}

void *open_output(const char *name) {
    FILE *file = fopen(name, "w");
    if (!file) end_unwritten(name);
    return file;
}

/* Writes a text of a file as an error shows it: on one line, cut if it is long. */
static void show(char *to, const char *text, size_t length) {
    size_t shown = length < MOST_SHOWN ? length : MOST_SHOWN;
    for (size_t at = 0; at < shown; at++) {
        unsigned char byte = (unsigned char)text[at];
        to += byte >= ' ' && byte < 127 ? sprintf(to, "%c", byte) : sprintf(to, "\\x%02x", byte);
    }
    strcpy(to, length > shown ? ".." : "");
}

/* Returns why a word is no event. */
static const char *fault_of(const char *word, size_t length) {
    size_t digits = strspn(word, "0123456789"), more = digits && length > digits ? strspn(word + digits + 1, "0123456789") : 0;
    if (word[length - 1] == '\r') return "carriage return: a line ends with a line feed alone";
    if (length >= 3 && !memcmp(word, "\xEF\xBB\xBF", 3)) return "byte order mark: save the file without it";
    if (length >= 2 && !memcmp(word, "\x1F\x8B", 2)) return "not text: it looks like gzip data, unpack it";
    if (memchr(word, '\t', length)) return "tab: words are separated by spaces";
    for (size_t at = 0; at < length; at++) if ((unsigned char)word[at] < ' ' || word[at] == 127) return "not text";
    if (word[0] == '#') return "text after an event: a comment has a line of its own";
    if (more && strchr(letters, word[digits]) && digits + 1 + more == length) {
        if ((word[0] == '0' && digits > 1) || (word[digits + 1] == '0' && more > 1)) return "leading zero";
        return "number above 4294967295";
    }
    return "not an event, which is a thread, one of the letters f j a r d w, and an object, as in 1a10";
}

static void refuse_word(const struct reader *reader, const char *word) {
    char shown[4 * MOST_SHOWN + 3], copy[MOST_COMMENT + 1];
    size_t length = 0;
    while (word[length] != ' ' && word[length] != '\n' && length < MOST_COMMENT) length++;
    memcpy(copy, word, length);
    copy[length] = 0;
    show(shown, copy, length);
    refuse(reader, "%s: %s", shown, fault_of(copy, length));
}

/* ---- files ---- */

void fill_buffer(struct reader *reader) {
    memmove(reader->buffer, reader->buffer + reader->begin, reader->end - reader->begin);
    reader->end -= reader->begin, reader->begin = 0;
    while (reader->end < BUFFER && !reader->is_at_end) {
        ssize_t got = read(reader->file, reader->buffer + reader->end, BUFFER - reader->end);
        if (got < 0 && errno != EINTR) end_unread(reader->sources[reader->at].name, strerror(errno));
        if (got == 0) reader->is_at_end = true;
        if (got > 0) reader->end += (size_t)got;
    }
    reader->buffer[reader->end] = '\n';
}

static void open_source(struct reader *reader) {
    struct source *source = &reader->sources[reader->at];
    reader->file = open(source->path, O_RDONLY | O_CLOEXEC);
    if (reader->file < 0) end_unread(source->name, strerror(errno));
    source->first = reader->place;
    reader->begin = reader->end = 0;
    reader->is_at_end = reader->is_in_line = reader->has_window = false;
    reader->line = 1, reader->origin = 0;
    reader->where_length = 0, reader->where_number = NONE;
    begin_log(reader);
}

void open_run(struct reader *reader, struct source *sources, size_t count) {
    char *buffer = reader->buffer ? reader->buffer : allocate(BUFFER + 1, 1);
    memset(reader, 0, sizeof *reader);
    reader->sources = sources, reader->count = count, reader->buffer = buffer;
    open_source(reader);
}

static bool next_source(struct reader *reader) {
    if (reader->repeated) refuse(reader, "the file ends within the events that are marked as repeated");
    close(reader->file);
    if (reader->at + 1 == reader->count) return false;
    reader->at++;
    open_source(reader);
    return true;
}

/* ---- comments ---- */

/* Reads a number of at most 4,294,967,295 without leading zeros. Returns the end, or NULL. */
static const char *read_number(const char *at, uint32_t *number) {
    const char *begin = at;
    uint64_t value = 0;
    while ((unsigned)(*at - '0') < 10 && at - begin < 11) value = value * 10 + (unsigned)(*at++ - '0');
    if (at == begin || value > LARGEST || (*begin == '0' && at > begin + 1)) return NULL;
    *number = (uint32_t)value;
    return at;
}

/* Returns what follows a number and a word in a comment, such as `# lock 3 is NAME`, or NULL. */
static const char *after(const char *text, const char *before, uint32_t *number, const char *word) {
    size_t length = strlen(before);
    if (strncmp(text, before, length) || !(text = read_number(text + length, number))) return NULL;
    length = strlen(word);
    return strncmp(text, word, length) ? NULL : text + length;
}

static void take_where(struct reader *reader, const char *text) {
    size_t length = 0;
    for (; *text; text++)
        if (*text != ' ' || (length && text[1] && text[1] != ' ')) reader->where[length++] = *text;
    reader->where_length = length, reader->where_number = NONE;
}

static uint32_t text_number(const char *text) { return add_text(&texts, text, strlen(text)); }

/* The events of a file are converted from the lines of one other file. */
static void take_origin(struct reader *reader, uint32_t line, const char *name) {
    struct source *source = &reader->sources[reader->at];
    uint32_t text = text_number(name);
    if (source->line_name != NONE && source->line_name != text) refuse(reader, "the events are of the lines of two files");
    source->line_name = text, reader->origin = line;
}

static void take_window(struct reader *reader, uint32_t number) {
    if (reader->count > 1 && number != reader->at + 1)
        refuse(reader, "this is window %u, and the file is number %zu: give all windows of the run, in their order", number,
               reader->at + 1);
    reader->has_window = true;
}

/* The lock is a part: of a lock, and perhaps for a thread. Returns whether the text says so. */
static bool take_part(struct reader *reader, uint32_t part, const char *text) {
    uint32_t whole, thread = NONE;
    const char *rest = after(text, "a part of lock ", &whole, "");
    if (rest && *rest) rest = after(rest, " for thread ", &thread, "");
    if (!rest || *rest) return false;
    find_lock(reader, whole), find_lock(reader, part)->whole = whole;
    find_lock(reader, part)->reader = thread;
    return true;
}

/* The comment is before the first event of each file of the run. */
static void take_values(struct reader *reader, const char *text, uint32_t atomic) {
    uint32_t plain;
    const char *rest = after(text, " plain ", &plain, "");
    if (!rest || *rest || reader->place != reader->sources[reader->at].first) return;
    if (atomic >= plain || plain > PLAIN_VALUES)
        refuse(reader, "the plain values do not begin after the atomic ones, at most at %u", PLAIN_VALUES);
    if (values.are_there && (values.atomic != atomic || values.plain != plain)) refuse(reader, "an earlier window has other values");
    values = (struct values){atomic, plain, true};
}

/* Takes a comment, of which the text is complete. Other comments have no meaning for the run. */
static void take_comment(struct reader *reader, const char *text) {
    uint32_t number;
    const char *rest;
    if (!strncmp(text, "# at", 4) && (text[4] == ' ' || !text[4])) take_where(reader, text + 4);
    else if ((rest = after(text, "# thread ", &number, " is "))) find_thread(reader, number)->name = text_number(rest);
    else if ((rest = after(text, "# lock ", &number, " is "))) {
        if (!take_part(reader, number, rest)) find_lock(reader, number)->name = text_number(rest);
    } else if ((rest = after(text, "# lock ", &number, " prefers writers")) && !*rest) find_lock(reader, number)->prefers_writers = true;
    else if ((rest = after(text, "# mark ", &number, "")) && !*rest) find_lock(reader, number)->is_mark = true;
    else if ((rest = after(text, "# values atomic ", &number, ""))) take_values(reader, rest, number);
    else if ((rest = after(text, "# line ", &number, " of ")) && number) take_origin(reader, number, rest);
    else if ((rest = after(text, "# window ", &number, "")) && !*rest) take_window(reader, number);
    else if ((rest = after(text, "# repeated ", &number, "")) && !*rest && reader->count > 1) {
        if (!reader->at) refuse(reader, "the first window of a run repeats nothing");
        reader->repeated += number;
    }
}

/* Returns whether a comment has a name or a code location. */
static bool has_text(const char *text) {
    static const char *const begins[] = {"# at ", "# thread ", "# lock ", "# line "};
    for (size_t at = 0; at < sizeof begins / sizeof *begins; at++) if (!strncmp(text, begins[at], strlen(begins[at]))) return true;
    return false;
}

/* Reads a comment up to its line feed. */
static void read_comment(struct reader *reader) {
    static char text[MOST_COMMENT];
    size_t length = 0;
    for (;;) {
        const char *begin = reader->buffer + reader->begin, *end = memchr(begin, '\n', reader->end - reader->begin + 1);
        size_t part = (size_t)(end - begin), copied = part < MOST_COMMENT - 1 - length ? part : MOST_COMMENT - 1 - length;
        memcpy(text + length, begin, copied);
        length += copied;
        reader->begin += part;
        if (reader->begin < reader->end || reader->is_at_end) break;
        fill_buffer(reader);
    }
    text[length] = 0;
    if (length < MOST_COMMENT - 1) take_comment(reader, text);
    else if (has_text(text)) refuse(reader, "a comment of more than %d bytes", MOST_COMMENT - 2);
}

/* ---- events ---- */

static void read_word(struct reader *reader, struct word *word) {
    const char *begin = reader->buffer + reader->begin, *letter, *at = read_number(begin, &word->thread);
    if (!at || !*at || !(letter = strchr(letters, *at)) || !(at = read_number(at + 1, &word->object)) || (*at != ' ' && *at != '\n'))
        refuse_word(reader, begin);
    word->operation = (enum operation)(letter - letters);
    if (reader->at && !reader->has_window)
        refuse(reader, "there is no comment `# window %zu` before the first event: only one file, or the windows of one run in their "
               "order, can be reduced", reader->at + 1);
    reader->begin += (size_t)(at - begin);
}

bool next_event(struct reader *reader, struct word *word) {
    for (;;) {
        if (reader->end - reader->begin <= MOST_COMMENT && !reader->is_at_end) fill_buffer(reader);
        if (reader->is_log && next_logged(reader, word)) return true;
        if (reader->begin == reader->end) {
            if (!next_source(reader)) return false;
            continue;
        }
        char byte = reader->buffer[reader->begin];
        if (byte == '\n') reader->begin++, reader->line++, reader->is_in_line = false;
        else if (byte == ' ') reader->begin++;
        else if (byte == '#' && !reader->is_in_line) read_comment(reader);
        else break;
    }
    read_word(reader, word);
    reader->is_in_line = true;
    reader->place++;
    word->line = reader->origin;
    reader->origin += reader->origin > 0;
    word->is_repeated = reader->repeated > 0;
    reader->repeated -= word->is_repeated;
    return true;
}
