/* Reads a recording once: finds its threads, locks and classes, and writes a record for each event that convert.c needs. */
#include "kernel.h"

#include <errno.h>
#include <stdarg.h>
#include <unistd.h>

enum { BUFFER = 1 << 20, SWITCHED_ON = 1000000 }; /* microseconds in which perf switches on its events */

struct run_counts counts;
struct actor *actors;
size_t actor_count;
struct lock_info *lock_infos;
size_t lock_count;
struct class_info *classes;
struct texts class_names, actor_names;
char **ww_names;

static size_t actor_room, lock_room, class_room;
static struct texts lock_keys, work_keys;
static struct numbers task_numbers;
/* Of a task: its present actor, and what the actor holds by class; `epoch`: as of which loss of events. */
struct life { uint32_t actor, epoch; struct stack stack; };
static struct life *lives;
static size_t life_room;
/* Of a processor: the idle task and the interrupts, the task that it runs, and one that has ended there. */
struct processor {
    struct life life[CONTEXTS];
    uint32_t current, dying, previous; /* previous: a task that perf does not know any more has gone away, and still releases a lock */
    bool is_open[CONTEXTS], is_used[CONTEXTS]; /* is_used: these interrupts wait for locks */
};
static struct processor *processors;
static size_t processor_count, processor_room;
static uint32_t epoch;
uint32_t first_epoch;
static struct pairs before_heads;
static struct before { uint32_t lock, next; } *befores;
static size_t before_count, before_room;
static uint64_t first_time;
static const char *file_name;
static FILE *output;

void refuse_line(const char *format, ...) {
    va_list arguments;
    fprintf(stderr, "%s:%llu: ", file_name, (unsigned long long)counts.lines);
    va_start(arguments, format);
    vfprintf(stderr, format, arguments);
    va_end(arguments);
    fputc('\n', stderr);
    exit(2);
}

void end_unread(const char *name, const char *reason) {
    fprintf(stderr, "cannot read %s: %s\n", name, reason);
    exit(1);
}

void end_unwritten(const char *name) {
    fprintf(stderr, "cannot write: %s: %s\n", name, strerror(errno));
    exit(1);
}

/* Refuses a text of the line, which is shown on one line and cut if it is long. */
static void refuse_text(struct span text, const char *why) {
    char shown[256];
    size_t length = 0;
    for (size_t at = 0; at < text.length && at < 60; at++) {
        unsigned char byte = (unsigned char)text.at[at];
        length += (size_t)snprintf(shown + length, sizeof shown - length, byte >= ' ' && byte < 127 ? "%c" : "\\x%02x", byte);
    }
    refuse_line("%.*s%s: %s", (int)length, shown, text.length > 60 ? ".." : "", why);
}

/* ---- actors ---- */

static uint32_t new_actor(struct span name, uint32_t task, uint32_t processor, enum context context) {
    actors = grow(actors, actor_count, &actor_room, sizeof *actors);
    uint32_t text = add_text(&actor_names, name.at, name.length);
    actors[actor_count] = (struct actor){text, task, processor, context};
    return (uint32_t)actor_count++;
}

static struct processor *processor_of(uint32_t number) {
    if (number >= MOST_PROCESSORS) refuse_line("processor %u: the largest number is %d", number, MOST_PROCESSORS - 1);
    while (processor_count <= number) {
        processors = grow(processors, processor_count, &processor_room, sizeof *processors);
        struct processor *new = &processors[processor_count++];
        *new = (struct processor){.current = NONE, .dying = NONE, .previous = NONE};
        for (int context = 0; context < CONTEXTS; context++) new->life[context].actor = NONE;
    }
    return &processors[number];
}

static struct life *life_of(uint32_t task) {
    size_t before = task_numbers.count;
    uint32_t at = position_of(&task_numbers, task);
    if (task_numbers.count > before) {
        lives = grow(lives, before, &life_room, sizeof *lives);
        lives[at] = (struct life){.actor = NONE};
    }
    return &lives[at];
}

static void write_record(uint32_t actor, enum record_kind kind, uint32_t object, uint32_t processor, uint8_t bits) {
    uint32_t line = counts.lines < LARGEST ? (uint32_t)counts.lines : LARGEST;
    struct record record = {line, actor, object, (uint16_t)processor, (uint8_t)kind, bits};
    if (fwrite(&record, sizeof record, 1, output) != 1) end_unwritten("a temporary file");
}

static void end_life(struct life *life) {
    if (life->actor == NONE) return;
    write_record(life->actor, R_END, 0, 0, 0);
    life->stack.count = 0;
}

static void end_task(uint32_t task) {
    struct life *life = life_of(task);
    end_life(life);
    free(life->stack.items);
    *life = (struct life){.actor = NONE};
}

static struct span text_span(const char *text) { return (struct span){text, strlen(text)}; }

static struct life *life_of_processor(uint32_t number, enum context context) {
    static const char *const names[CONTEXTS] = {"idle task", "softirq", "hardirq"};
    struct life *life = &processor_of(number)->life[context];
    char name[64];
    snprintf(name, sizeof name, "%s of processor %u", names[context], number);
    if (life->actor == NONE) life->actor = new_actor(text_span(name), 0, number, context);
    return life;
}

static void name_actor(uint32_t actor, struct span name, uint32_t task) {
    char text[128];
    if ((name.length == 5 && !memcmp(name.at, "<...>", 5)) || !name.length) return;
    int length = snprintf(text, sizeof text, "%.*s-%u", (int)(name.length < 64 ? name.length : 64), name.at, task);
    actors[actor].name = add_text(&actor_names, text, (size_t)length);
}

static struct life *life_of_task(uint32_t task, struct span name) {
    struct life *life = life_of(task);
    if (life->actor == NONE) {
        char unnamed[32];
        snprintf(unnamed, sizeof unnamed, "task %u", task);
        life->actor = new_actor(text_span(unnamed), task, NONE, TASK);
    }
    name_actor(life->actor, name, task);
    return life;
}

/* Returns who does the event of a line. What has ended by then on its processor is ended. */
static struct life *life_of_line(struct line *line) {
    struct processor *processor = processor_of(line->processor);
    if (line->is_dying) line->task = processor->previous != NONE ? processor->previous : processor->current;
    if (line->task == NONE) line->task = 0;
    if (!line->is_dying || line->kind == LOCK_RELEASE) processor->previous = NONE;
    if (processor->dying != NONE && line->task != processor->dying) {
        uint32_t task = processor->dying;
        processor->dying = NONE;
        end_task(task);
    }
    if (line->has_processor && !line->is_dying) processor->current = line->task;
    for (int context = CONTEXTS - 1; context > (int)line->context; context--) {
        if (processor->is_open[context]) end_life(&processor->life[context]);
        processor->is_open[context] = false;
    }
    processor->is_open[line->context] = true;
    struct life *life = line->context != TASK || !line->task ? life_of_processor(line->processor, line->context)
                                                             : life_of_task(line->task, line->name);
    if (life->epoch != epoch) life->epoch = epoch, life->stack.count = 0;
    return life;
}

/* ---- classes and locks ---- */

static bool begins(struct span name, const char *with) { return name.length >= strlen(with) && !memcmp(name.at, with, strlen(with)); }

static bool ends(struct span name, const char *with) {
    size_t length = strlen(with);
    return name.length >= length && !memcmp(name.at + name.length - length, with, length);
}

static bool has(struct span name, const char *text) { return memmem(name.at, name.length, text, strlen(text)); }

/* Several classes have these names, so each lock is a class. */
static struct span class_text(struct span name, uint64_t address) {
    static const char *const names[] = {"lock", "mutex", "sem", "rwsem"};
    static char text[64];
    for (size_t at = 0; at < sizeof names / sizeof *names; at++)
        if (begins(name, names[at]) && name.length == strlen(names[at]))
            return (struct span){text, (size_t)snprintf(text, sizeof text, "%s %llx", names[at], (unsigned long long)address)};
    return name;
}

/* Nobody waits for these: they exclude nobody. */
static bool is_ignored(struct span name) {
    static const char *const names[] = {"rcu_read_lock", "rcu_read_lock_bh", "rcu_read_lock_sched", "rcu_read_lock_trace", "rcu_callback"};
    for (size_t at = 0; at < sizeof names / sizeof *names; at++)
        if (begins(name, names[at]) && name.length == strlen(names[at])) return true;
    return ends(name, "seqcount") || ends(name, "srcu");
}

/* The annotations of a kernel without LOCK_STAT, which are known by their names. */
static bool is_annotation(struct span name) {
    static const char *const names[] = {"fs_reclaim", "mmu_notifier_invalidate_range", "kn->active", "jbd2_handle", "cpuhp_state",
                                        "console_owner", "sb_writers", "sb_internal", "sb_pagefaults", "dup_mmap_sem", "ww_class_acquire",
                                        "sk_lock-"};
    for (size_t at = 0; at < sizeof names / sizeof *names; at++) if (begins(name, names[at])) return !ends(name, "_lock");
    return name.at[0] == '(' && ends(name, ")");
}

/* The locks of a wait/wound class back off when they would wait for each other. */
static bool is_ww(struct span name) {
    for (char **at = ww_names; *at; at++) if (name.length == strlen(*at) && begins(name, *at)) return true;
    return ends(name, "ww_class_mutex");
}

static bool is_timer_name(struct span name) {
    return (begins(name, "(&") && ends(name, ")")) || ends(name, "timer") || has(name, ".c:");
}

/* Who takes the lock of a completion completes it or waits for it: so do exits of processes and waits for them. */
static bool is_completion(struct span name) {
    return begins(name, "&x->wait") || ends(name, ").wait.lock") || (begins(name, "&sig->wait_chldexit") && name.length == 19);
}

static uint32_t class_of(struct span name) {
    size_t before = class_names.count;
    uint32_t class = add_text(&class_names, name.at, name.length);
    if (class_names.count > before) {
        classes = grow(classes, before, &class_room, sizeof *classes);
        classes[class] = (struct class_info){
            .work = NONE, .waited = NONE, .is_ignored = is_ignored(name), .is_annotation = is_annotation(name), .is_ww = is_ww(name),
            .is_work = begins(name, "(wq_completion)"), .is_completion = is_completion(name)};
    }
    return class;
}

bool has_interrupts(uint32_t processor, enum context context) {
    return processor < processor_count && processors[processor].is_used[context];
}

const char *class_name(uint32_t class, int *length) {
    size_t found;
    const char *text = text_of(&class_names, class, &found);
    *length = (int)found;
    return text;
}

static uint32_t lock_of(uint64_t address, uint32_t class) {
    char key[12];
    memcpy(key, &address, 8);
    memcpy(key + 8, &class, 4);
    size_t before = lock_keys.count;
    uint32_t lock = add_text(&lock_keys, key, sizeof key);
    if (lock_keys.count > before) {
        lock_infos = grow(lock_infos, before, &lock_room, sizeof *lock_infos);
        lock_infos[lock] = (struct lock_info){.address = address, .class = class, .epoch = NONE};
        lock_count = lock_keys.count;
    }
    return lock;
}

static void add_reader(struct lock_info *lock, uint32_t actor) {
    for (int at = 0; at < lock->reader_count && at < MOST_PARTS; at++) if (lock->readers[at] == actor) return;
    if (lock->reader_count < MOST_PARTS) lock->readers[lock->reader_count] = actor;
    if (lock->reader_count <= MOST_PARTS) lock->reader_count++;
}

/* Notes in which interrupts a class is taken, and that it is taken where they may come. */
static void note_use(struct class_info *class, const struct line *line, const struct lock_text *text) {
    uint32_t number = (uint32_t)(counts.lines < LARGEST ? counts.lines : LARGEST);
    bool on[CONTEXTS] = {false, line->softirqs_on, line->irqs_on};
    if (!line->has_flags) return;
    for (int context = SOFTIRQ; context < CONTEXTS; context++) {
        if (on[context] && !class->on[context][text->is_read]) class->on[context][text->is_read] = true, class->on_line[context] = number;
        if ((int)line->context == context && !text->is_tried && !class->in[context][text->is_read])
            class->in[context][text->is_read] = true, class->in_line[context] = number;
    }
}

/* ---- events ---- */

/* Notes a value that is perhaps the only one. */
static void note_only(uint32_t *only, uint32_t value) { *only = *only == NONE || *only == value ? value : SEVERAL; }

/* Notes who executes works or timers of a class. */
static void add_exec(uint32_t class, uint32_t actor) {
    struct class_info *info = &classes[class];
    for (uint32_t at = 0; at < info->exec_count; at++) if (info->execs[at] == actor) return;
    if (info->exec_count < MOST_PARTS) info->execs[info->exec_count++] = actor;
}

static void take_acquire(struct life *life, const struct line *line, const struct lock_text *text, uint32_t class_number, uint32_t lock) {
    struct class_info *class = &classes[class_number];
    uint8_t bits = (uint8_t)((text->is_tried ? BIT_TRIED : 0) | (text->is_read ? BIT_READ : 0) | (line->irqs_on ? BIT_IRQS_ON : 0) |
                             (line->softirqs_on ? BIT_SOFTIRQS_ON : 0));
    class->acquires++;
    lock_infos[lock].epoch = epoch;
    if (text->is_read) add_reader(&lock_infos[lock], life->actor);
    else lock_infos[lock].is_written = true;
    if (line->is_preemptible) lock_infos[lock].is_sleeping = true;
    if (line->context != TASK && !text->is_tried) processors[line->processor].is_used[line->context] = true;
    bool is_begun = line->context == SOFTIRQ && !text->is_tried && !text->is_read && !life->stack.count;
    if (is_begun) class->is_timer = true, add_exec(class_number, life->actor);
    note_use(class, line, text);
    uint32_t number = (uint32_t)(counts.lines < LARGEST ? counts.lines : LARGEST);
    note_acquire(&life->stack, life->actor, (struct held_class){class_number, lock, number, text->is_read, is_begun}, text->is_tried);
    write_record(life->actor, R_ACQUIRE, lock, line->processor, bits);
}

/* ---- what was held before ---- */

/* A lock that was acquired since the begin of the epoch was not held through it. */
static void note_before(uint32_t actor, uint32_t lock) {
    if (lock_infos[lock].epoch == epoch) return;
    uint64_t *head = add_pair(&before_heads, pair_of(actor, epoch), NONE);
    befores = grow(befores, before_count, &before_room, sizeof *befores);
    befores[before_count] = (struct before){lock, (uint32_t)*head};
    *head = before_count++;
}

uint32_t first_before(uint32_t actor, uint32_t at) {
    const uint64_t *head = find_pair(&before_heads, pair_of(actor, at));
    return head ? (uint32_t)*head : NONE;
}

uint32_t next_before(uint32_t before, uint32_t *lock) {
    *lock = befores[before].lock;
    return befores[before].next;
}

/* Returns the lock that is released: one may get another class while it is held. */
static uint32_t held_at(const struct stack *stack, uint32_t lock) {
    uint32_t found = lock;
    for (size_t at = stack->count; at-- > 0;) {
        if (stack->items[at].lock == lock) return lock;
        if (found == lock && lock_infos[stack->items[at].lock].address == lock_infos[lock].address) found = stack->items[at].lock;
    }
    return found;
}

static void take_lock_event(struct life *life, const struct line *line) {
    struct lock_text text;
    enum address found = read_lock_text(line, &text);
    static const char *const names[] = {"lock_acquire", "lock_acquired", "lock_contended", "lock_release"};
    char why[64];
    snprintf(why, sizeof why, "%s has no address and name", names[line->kind]);
    if (found == NO_ADDRESS) refuse_text(line->text, why);
    counts.hidden += found == HIDDEN_ADDRESS;
    uint32_t class = found == ADDRESS ? class_of(class_text(text.class, text.address)) : NONE;
    if (class == NONE || classes[class].is_ignored) return;
    uint32_t lock = lock_of(text.address, class);
    if (line->kind == LOCK_RELEASE) lock = held_at(&life->stack, lock), class = lock_infos[lock].class;
    if (line->kind == LOCK_ACQUIRE) {
        take_acquire(life, line, &text, class, lock);
        return;
    }
    if (line->kind == LOCK_ACQUIRED) classes[class].acquired++, lock_infos[lock].is_waited = true;
    if (line->kind == LOCK_RELEASE) {
        struct held_class held = note_release(&life->stack, lock);
        if (held.class == NONE) note_before(life->actor, lock);
        else if (!held.is_begun) note_only(&classes[class].waited, lock);
    }
    static const uint8_t kinds[] = {R_ACQUIRE, R_ACQUIRED, R_CONTENDED, R_RELEASE};
    write_record(life->actor, kinds[line->kind], lock, line->processor, 0);
}

static void take_switch(struct life *life, const struct line *line) {
    struct switch_text text;
    if (!read_switch(line->text, &text)) refuse_text(line->text, "sched_switch has no previous and next task");
    uint32_t actor = life->actor;
    write_record(actor, R_AWAY, text.state != 'R', line->processor, 0);
    if (text.task && text.task == actors[actor].task) name_actor(actor, text.name, text.task);
    if (text.next) life_of_task(text.next, text.next_name);
    if (!line->has_processor) return;
    struct processor *processor = processor_of(line->processor);
    processor->current = text.next;
    processor->previous = line->is_dying ? line->task : NONE;
    if ((text.state == 'X' || text.state == 'Z') && text.task && text.task == line->task) processor->dying = text.task;
}

static void take_fork(struct life *life, const struct line *line) {
    uint32_t child, actor = life->actor;
    struct span name;
    if (!read_fork(line->text, &child, &name)) refuse_text(line->text, "sched_process_fork has no child");
    end_task(child);
    write_record(actor, R_FORK, life_of_task(child, name)->actor, line->processor, 0);
}

static void take_waking(struct life *life, const struct line *line) {
    uint32_t task, actor = life->actor;
    if (!read_woken(line->text, &task)) refuse_text(line->text, "sched_waking has no task");
    if (task) write_record(actor, R_WAKE, life_of_task(task, (struct span){0})->actor, line->processor, 0);
}

static void take_work(struct life *life, const struct line *line) {
    uint64_t address;
    if (!read_work(line->text, &address)) refuse_text(line->text, "the event has no work");
    uint32_t work = add_text(&work_keys, (const char *)&address, sizeof address);
    if (line->kind == WORK_BEGINS) {
        const struct stack *stack = &life->stack; /* a work runs under the name of its queue and its own */
        struct held_class *own = stack->count ? &stack->items[stack->count - 1] : NULL;
        if (own && !classes[own->class].acquired) {
            own->is_begun = classes[own->class].is_work = true;
            add_exec(own->class, life->actor);
            note_only(&classes[own->class].work, work);
        }
        if (stack->count > 1 && classes[own[-1].class].is_work) own[-1].is_begun = true, add_exec(own[-1].class, life->actor);
    }
    write_record(life->actor, line->kind == WORK_BEGINS ? R_BEGIN_WORK : R_QUEUE, work, line->processor, 0);
}

/* perf switches on one event after another: the run begins where it has them all. */
static void begin_again(void) {
    first_epoch = ++epoch;
    counts.begun = counts.lines;
    clear_pairs(&before_heads);
    before_count = 0;
    forget_dependencies();
    for (size_t at = 0; at < class_names.count; at++) {
        memset(classes[at].in, 0, sizeof classes[at].in);
        memset(classes[at].on, 0, sizeof classes[at].on);
    }
    if (fflush(output) || ftruncate(fileno(output), 0) || fseek(output, 0, SEEK_SET)) end_unwritten("a temporary file");
}

/* Whether perf has perhaps just switched on events of this kind. */
static bool is_switched_on(const struct line *line) {
    bool is_first = !counts.kinds[line->kind], is_needed = line->kind != LOCK_CONTENDED && line->kind < WORK_QUEUED;
    return is_first && is_needed && counts.is_perf && line->time - first_time < SWITCHED_ON;
}

static void take_event(struct line *line) {
    if (!counts.events++) first_time = line->time;
    counts.flagged += line->has_flags;
    counts.is_perf |= line->is_perf;
    if (is_switched_on(line)) begin_again();
    counts.kinds[line->kind]++;
    struct life *life = life_of_line(line);
    if (line->kind <= LOCK_RELEASE) take_lock_event(life, line);
    else if (line->kind == SCHED_SWITCH) take_switch(life, line);
    else if (line->kind == SCHED_FORK) take_fork(life, line);
    else if (line->kind == SCHED_WAKING) take_waking(life, line);
    else take_work(life, line);
}

/* Takes a line, which a zero byte follows. */
static void take_line(const char *text, size_t length) {
    struct line line;
    counts.lines++;
    if (length > MOST_LINE) refuse_line("a line of more than %d bytes", MOST_LINE);
    enum found found = read_line(text, length, &line);
    if (found == NO_HEAD) refuse_text((struct span){text, length}, "before the event there are no task, number and time");
    if (found == EVENT) take_event(&line);
    else if (is_lost(text)) {
        counts.lost++;
        epoch++;
        write_record(0, R_LOST, 0, 0, 0);
    }
}

/* Takes the lines that a buffer has, and returns how many bytes they are. */
static size_t take_lines(char *buffer, size_t length) {
    char *at = buffer, *end = buffer + length, *feed;
    while ((feed = memchr(at, '\n', (size_t)(end - at)))) {
        if (memchr(at, 0, (size_t)(feed - at))) counts.nul_line = counts.lines + 1;
        if (counts.nul_line) return length;
        *feed = 0;
        take_line(at, (size_t)(feed - at));
        at = feed + 1;
    }
    return (size_t)(at - buffer);
}

void read_recording(const char *name, FILE *records) {
    char *buffer = allocate(BUFFER + 1, 1);
    size_t length = 0;
    file_name = name, output = records;
    for (;;) {
        ssize_t got = read(STDIN_FILENO, buffer + length, BUFFER - length);
        if (got < 0 && errno == EINTR) continue;
        if (got < 0) end_unread(name, strerror(errno));
        if (!got) break;
        length += (size_t)got;
        size_t taken = take_lines(buffer, length);
        memmove(buffer, buffer + taken, length -= taken);
        if (counts.nul_line) break;
        if (length > MOST_LINE) counts.lines++, refuse_line("a line of more than %d bytes", MOST_LINE);
    }
    if (memchr(buffer, 0, length)) counts.nul_line = counts.lines + 1; /* the tool that wrote the file was ended */
    else if (length && !counts.nul_line) counts.cut_line = counts.lines + 1;
    free(buffer);
    if (!counts.kinds[LOCK_ACQUIRE] && !counts.kinds[LOCK_RELEASE]) counts.lines++, refuse_line("the file has no lock events");
    for (size_t at = 0; at < class_names.count; at++) {
        struct span text;
        text.at = text_of(&class_names, (uint32_t)at, &text.length);
        classes[at].is_timer = classes[at].is_timer && !classes[at].acquired && is_timer_name(text);
    }
    if (fflush(records)) end_unwritten("a temporary file");
}
