/* Reads a line of tracefs, `trace-cmd report` (with and without -l) or `perf script`. */
#include "kernel.h"

/* ---- words ---- */

static bool is_digit(char byte) { return byte >= '0' && byte <= '9'; }

static struct span trimmed(struct span text) {
    while (text.length && (text.at[0] == ' ' || text.at[0] == '\t')) text.at++, text.length--;
    while (text.length && strchr(" \t\r", text.at[text.length - 1])) text.length--;
    return text;
}

/* Takes the last word from a text, which has no space at its end then. */
static struct span pop_word(struct span *text) {
    *text = trimmed(*text);
    size_t begin = text->length;
    while (begin && text->at[begin - 1] != ' ' && text->at[begin - 1] != '\t') begin--;
    struct span word = {text->at + begin, text->length - begin};
    text->length = begin;
    *text = trimmed(*text);
    return word;
}

static bool read_decimal(struct span text, uint32_t *number) {
    uint64_t value = 0;
    if (!text.length || text.length > 10) return false;
    for (size_t at = 0; at < text.length; at++) {
        if (!is_digit(text.at[at])) return false;
        value = value * 10 + (uint64_t)(text.at[at] - '0');
    }
    *number = (uint32_t)value;
    return value < INT32_MAX;
}

/* Reads the digits at the begin of a text. */
static bool read_number_at(const char *at, const char *end, uint32_t *number) {
    struct span digits = {at, 0};
    while (at + digits.length < end && is_digit(at[digits.length])) digits.length++;
    return read_decimal(digits, number);
}

static bool read_hex(struct span text, uint64_t *number) {
    if (text.length > 2 && text.at[0] == '0' && text.at[1] == 'x') text.at += 2, text.length -= 2;
    *number = 0;
    if (!text.length || text.length > 16) return false;
    for (size_t at = 0; at < text.length; at++) {
        char byte = text.at[at], letter = (char)(byte | 32);
        if (!is_digit(byte) && (letter < 'a' || letter > 'f')) return false;
        *number = *number << 4 | (uint64_t)(is_digit(byte) ? byte - '0' : letter - 'a' + 10);
    }
    return true;
}

static const char *find(struct span text, const char *what) {
    size_t length = strlen(what);
    return memmem(text.at, text.length, what, length) ? (const char *)memmem(text.at, text.length, what, length) + length : NULL;
}

static struct span first_word(struct span text) {
    size_t length = 0;
    text = trimmed(text);
    while (length < text.length && text.at[length] != ' ' && text.at[length] != '\t') length++;
    return (struct span){text.at, length};
}

/* ---- the head of a line: task, processor, flags, time ---- */

/* Reads a time with its colon: seconds, and microseconds if it has a point. */
static bool read_stamp(struct span word, uint64_t *time) {
    size_t at = 0, point = 0;
    for (*time = 0; at + 1 < word.length; at++) {
        if (word.at[at] == '.' && !point && at && is_digit(word.at[at + 1])) point = at;
        else if (!is_digit(word.at[at])) return false;
        else if (!point || at <= point + 6) *time = *time * 10 + (uint64_t)(word.at[at] - '0');
    }
    for (size_t digits = point ? at - point - 1 : 0; digits < 6; digits++) *time *= 10;
    return word.length > 1 && word.at[at] == ':';
}

static void take_flags(struct span flags, struct line *line) {
    char irqs = flags.at[0], context = flags.at[2];
    line->has_flags = true;
    line->context = strchr("hHzZ", context) ? HARDIRQ : context == 's' ? SOFTIRQ : TASK;
    line->irqs_on = line->context != HARDIRQ && irqs != 'd' && irqs != 'D';
    line->softirqs_on = line->context == TASK && irqs == '.';
    line->is_preemptible = line->context == TASK && irqs == '.' && flags.at[3] == '.';
}

static bool is_flags(struct span word) {
    return word.length >= 4 && word.length <= 6 && !is_digit(word.at[0]) && strchr(".hHzZsS", word.at[2]) && word.at[2];
}

static bool take_processor(struct span word, struct line *line) {
    if (word.length < 3 || word.at[0] != '[' || word.at[word.length - 1] != ']') return false;
    line->has_processor = read_decimal((struct span){word.at + 1, word.length - 2}, &line->processor);
    return line->has_processor;
}

/* Takes `1d.h2.`, the processor and the flags of `trace-cmd report -l`. */
static bool take_latency(struct span word, struct line *line) {
    size_t digits = 0;
    while (digits < word.length && is_digit(word.at[digits])) digits++;
    struct span flags = {word.at + digits, word.length - digits};
    if (!digits || !is_flags(flags) || !read_decimal((struct span){word.at, digits}, &line->processor)) return false;
    take_flags(flags, line);
    return line->has_processor = true;
}

static void skip_group(struct span *text) { /* `(1234)` or `( 1234)`: the number of the process */
    struct span rest = *text, word = pop_word(&rest);
    if (!word.length || word.at[word.length - 1] != ')') return;
    while (word.length && word.at[0] != '(') word = pop_word(&rest);
    if (word.length) *text = rest;
}

/* Takes `bash-1234` of the kernel and of trace-cmd, or `bash 1234` and `bash 1234/1235` of perf. */
static bool take_task(struct span text, struct line *line) {
    struct span rest = text, word = pop_word(&rest);
    size_t dash = word.length;
    while (dash && word.at[dash - 1] != '-') dash--;
    line->is_dying = rest.length == 3 && !memcmp(rest.at, ":-1", 3) && word.length == 2 && !memcmp(word.at, "-1", 2);
    if (line->is_dying) return line->is_perf = line->has_processor;
    if (dash && line->has_processor) {
        line->name = trimmed((struct span){text.at, (size_t)(word.at - text.at) + dash - 1});
        return line->name.length && read_decimal((struct span){word.at + dash, word.length - dash}, &line->task);
    }
    const char *slash = memrchr(word.at, '/', word.length);
    struct span number = slash ? (struct span){slash + 1, (size_t)(word.at + word.length - slash) - 1} : word;
    line->name = rest, line->is_perf = true;
    return rest.length && read_decimal(number, &line->task);
}

static bool take_head(struct span text, struct line *line) {
    struct span word = pop_word(&text), rest = text, before;
    uint32_t count;
    if (read_decimal(word, &count)) word = pop_word(&text); /* perf counts the events */
    if (!read_stamp(word, &line->time)) return false;
    rest = text, word = pop_word(&rest), before = rest;
    if (take_latency(word, line)) text = rest;
    else if (is_flags(word) && take_processor(pop_word(&before), line)) take_flags(word, line), text = before;
    else if (take_processor(word, line)) text = rest;
    skip_group(&text);
    return take_task(text, line);
}

static const char *const kind_names[KINDS] = {
    "lock_acquire", "lock_acquired", "lock_contended", "lock_release", "sched_switch", "sched_process_fork", "sched_waking",
    "workqueue_queue_work", "workqueue_execute_start"};

static enum kind kind_of(struct span word) {
    if (word.length < 12 || !strchr("lsw", word.at[0])) return KINDS;
    for (enum kind kind = 0; kind < KINDS; kind++)
        if (word.length == strlen(kind_names[kind]) && !memcmp(word.at, kind_names[kind], word.length)) return kind;
    return KINDS;
}

/* Returns where the head of a line ends: before `lock:`, which perf puts before the event. */
static struct span head_before(const char *text, const char *word) {
    struct span head = {text, (size_t)(word - text)};
    static const char *const systems[] = {"lock:", "sched:", "workqueue:"};
    for (size_t at = 0; at < 3; at++) {
        size_t length = strlen(systems[at]);
        if (head.length <= length || memcmp(word - length, systems[at], length)) continue;
        if (strchr(" \t:", word[-(ptrdiff_t)length - 1])) head.length -= length;
    }
    return head;
}

enum found read_line(const char *text, size_t length, struct line *line) {
    const char *end = text + length, *begin = text;
    enum found found = NO_EVENT;
    if (*text == '#') return NO_EVENT;
    for (const char *colon = text; (colon = memchr(colon, ':', (size_t)(end - colon))); colon++) {
        const char *word = colon;
        while (word > begin && word[-1] != ' ' && word[-1] != ':' && word[-1] != '\t') word--;
        begin = colon;
        enum kind kind = word > text ? kind_of((struct span){word, (size_t)(colon - word)}) : KINDS;
        if (kind == KINDS) continue;
        *line = (struct line){.kind = kind, .text = trimmed((struct span){colon + 1, (size_t)(end - colon) - 1})};
        if (take_head(head_before(text, word), line)) return EVENT;
        found = NO_HEAD;
    }
    return found;
}

/* ---- the text of an event ---- */

static bool take_prefix(struct span *text, const char *prefix) {
    size_t length = strlen(prefix);
    if (text->length < length || memcmp(text->at, prefix, length)) return false;
    text->at += length, text->length -= length;
    return true;
}

enum address read_lock_text(const struct line *line, struct lock_text *lock) {
    struct span word = first_word(line->text);
    const char *end = line->text.at + line->text.length, *after = word.at + word.length;
    *lock = (struct lock_text){.class = trimmed((struct span){after, (size_t)(end - after)})};
    if (line->kind == LOCK_ACQUIRE) {
        lock->is_tried = take_prefix(&lock->class, "try ");
        lock->is_read = take_prefix(&lock->class, "read ");
    }
    if (lock->class.length > MOST_NAME) lock->class.length = MOST_NAME;
    if (word.length == 16 && !memcmp(word.at, "(____ptrval____)", 16)) return HIDDEN_ADDRESS;
    return lock->class.length && read_hex(word, &lock->address) ? ADDRESS : NO_ADDRESS;
}

/* Reads `bash:1234 [120] S ==> worker:77 [120]`. */
static bool read_short_switch(struct span before, struct span after, struct switch_text *found) {
    struct span state = pop_word(&before), priority = pop_word(&before), task = pop_word(&before);
    const char *colon = task.length ? memrchr(task.at, ':', task.length) : NULL, *bracket = NULL;
    (void)priority;
    if (!state.length || !colon) return false;
    found->state = state.at[0];
    found->name = (struct span){task.at, (size_t)(colon - task.at)};
    for (size_t at = 1; at < after.length; at++) if (after.at[at] == '[' && after.at[at - 1] == ' ') bracket = after.at + at - 1;
    if (!bracket || !read_decimal((struct span){colon + 1, (size_t)(task.at + task.length - colon) - 1}, &found->task)) return false;
    const char *next = memrchr(after.at, ':', (size_t)(bracket - after.at));
    if (!next) return false;
    found->next_name = (struct span){after.at, (size_t)(next - after.at)};
    return read_decimal((struct span){next + 1, (size_t)(bracket - next) - 1}, &found->next);
}

bool read_switch(struct span text, struct switch_text *found) {
    const char *arrow = find(text, " ==> ");
    if (!arrow) return false;
    struct span before = {text.at, (size_t)(arrow - text.at) - 5}, after = {arrow, (size_t)(text.at + text.length - arrow)};
    const char *task = find(before, " prev_pid="), *state = find(before, " prev_state="), *next = find(after, " next_pid=");
    if (!take_prefix(&after, "next_comm=") || !task || !state || !next) return read_short_switch(before, after, found);
    found->state = state < arrow - 5 ? *state : 0;
    bool has_name = take_prefix(&before, "prev_comm=") && task - 10 >= before.at;
    found->name = (struct span){before.at, has_name ? (size_t)(task - 10 - before.at) : 0};
    found->next_name = (struct span){after.at, (size_t)(next - after.at) - 10};
    return found->state && read_number_at(task, arrow, &found->task) && read_number_at(next, text.at + text.length, &found->next);
}

/* Reads `comm=bash pid=1 child_comm=bash child_pid=2`, or trace-cmd's `bash:1 child_comm=..`. */
bool read_fork(struct span text, uint32_t *child, struct span *name) {
    const char *number = find(text, " child_pid="), *begin = find(text, " child_comm=");
    if (!number || !begin || number - 11 < begin) return false;
    *name = (struct span){begin, (size_t)(number - begin) - 11};
    return read_number_at(number, text.at + text.length, child);
}

/* Reads `comm=worker pid=77 prio=120 target_cpu=001`, or `worker:77 [120] CPU:001` of trace-cmd. */
bool read_woken(struct span text, uint32_t *task) {
    const char *end = text.at + text.length, *number = find(text, " pid="), *bracket = find(text, " [");
    if (number) return read_number_at(number, end, task);
    const char *colon = bracket ? memrchr(text.at, ':', (size_t)(bracket - text.at)) : NULL;
    return colon && read_number_at(colon + 1, end, task);
}

bool read_work(struct span text, uint64_t *address) {
    const char *begin = find(text, "struct=");
    if (!begin) begin = find(text, "struct ");
    if (!begin) return false;
    struct span word = first_word((struct span){begin, (size_t)(text.at + text.length - begin)});
    if (word.length && word.at[word.length - 1] == ':') word.length--;
    return read_hex(word, address);
}

/* Returns whether a line says that the tracer lost events: `CPU:1 [LOST 12 EVENTS]`, `CPU:1 [EVENTS DROPPED]`, `PERF_RECORD_LOST`, .. */
bool is_lost(const char *line) {
    if (!strchr(line, '[') && !strstr(line, "PERF_RECORD_LOST") && !strstr(line, "ost ")) return false;
    const char *bracket = strchr(line, '[');
    if (bracket && (strstr(bracket, "EVENTS DROPPED]") || (strstr(bracket, "[LOST ") && strstr(bracket, " EVENTS]")))) return true;
    if (strstr(line, "PERF_RECORD_LOST")) return true;
    const char *lost = strstr(line, "ost ");
    return lost && lost > line && (lost[-1] | 32) == 'l' && is_digit(lost[4]) && strstr(lost, " events");
}
