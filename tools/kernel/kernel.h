/* Shared by the files of the program of tools/from_ftrace: text.c reads a line, run.c finds the threads, locks and classes of a recording
 * and writes its records to a temporary file, classes.c notes what lockdep looks at, orders.c and convert.c make events of the records.
 * docs/kernel.md says what each event of the kernel becomes. The recording is hostile input. */
#include "../reducer/reducer.h"

enum {
    MOST_LINE = 1 << 16, MOST_PROCESSORS = 8192, MOST_NAME = 10000,
    MOST_PARTS = 8,     /* readers of a lock, and threads that execute a work, with a lock number of their own */
    MOST_SAMPLES = 16,  /* instances that are kept of a dependency by class */
};

/* ---- text.c ---- */

enum kind {
    LOCK_ACQUIRE, LOCK_ACQUIRED, LOCK_CONTENDED, LOCK_RELEASE, SCHED_SWITCH, SCHED_FORK, SCHED_WAKING, WORK_QUEUED, WORK_BEGINS, KINDS
};
enum context { TASK, SOFTIRQ, HARDIRQ, CONTEXTS };
struct span { const char *at; size_t length; };

/* A line with an event. Spans are within the line. */
struct line {
    enum kind kind;
    struct span name, text;     /* of the task; of the event, after its colon */
    uint32_t task, processor;
    uint64_t time;              /* in microseconds */
    enum context context;
    bool has_flags, has_processor, is_perf, is_dying; /* is_dying: perf does not know the task any more */
    bool irqs_on, softirqs_on, is_preemptible;        /* false without flags */
};
enum found { NO_EVENT, EVENT, NO_HEAD };
enum found read_line(const char *text, size_t length, struct line *line);

/* What a lock event is about. */
struct lock_text { uint64_t address; struct span class; bool is_tried, is_read; };
enum address { ADDRESS, HIDDEN_ADDRESS, NO_ADDRESS };
enum address read_lock_text(const struct line *line, struct lock_text *lock);
struct switch_text { uint32_t task, next; char state; struct span name, next_name; };
bool read_switch(struct span text, struct switch_text *found);
/* Returns the number after a word such as ` child_pid=`, or after the last `:` of trace-cmd's short form. */
bool read_fork(struct span text, uint32_t *child, struct span *name);
bool read_woken(struct span text, uint32_t *task);
bool read_work(struct span text, uint64_t *address);
bool is_lost(const char *line);

/* ---- run.c: the recording, in one pass ---- */

enum record_kind {
    R_ACQUIRE, R_ACQUIRED, R_CONTENDED, R_RELEASE, R_AWAY, R_FORK, R_WAKE, R_QUEUE, R_BEGIN_WORK, R_END, R_LOST
};
enum { BIT_TRIED = 1, BIT_READ = 2, BIT_IRQS_ON = 4, BIT_SOFTIRQS_ON = 8 };
/* `object` is a lock, another actor or a work; of R_AWAY whether the task sleeps. */
struct record { uint32_t line, actor, object; uint16_t processor; uint8_t kind, bits; };

/* An actor is a task from its fork to its end, the idle task of a processor, or the interrupts of a processor. */
struct actor { uint32_t name, task, processor; enum context context; };
struct lock_info {
    uint64_t address;
    uint32_t class, epoch, readers[MOST_PARTS]; /* epoch: of its last acquire */
    uint16_t reader_count;      /* MOST_PARTS + 1: more than have parts */
    bool is_written, is_waited, is_sleeping; /* is_waited: `lock_acquired` was seen; is_sleeping: acquired where a task may sleep */
};
struct class_info {
    uint64_t acquires, acquired;
    uint32_t execs[MOST_PARTS], exec_count;         /* who executed works or timers of this name */
    uint32_t work, waited;      /* the only work of this name, and the only lock in a wait for one: NONE, or SEVERAL */
    bool is_ignored, is_work, is_timer, is_ww, is_completion, is_annotation; /* is_ignored: nobody waits for it */
    bool in[CONTEXTS][2], on[CONTEXTS][2];      /* taken in an interrupt; taken where it may come: [..][is_read] */
    uint32_t in_line[CONTEXTS], on_line[CONTEXTS];
    bool is_reached[CONTEXTS];  /* by dependencies from a class that the interrupt takes */
};
struct run_counts {
    uint64_t lines, events, lost, hidden, nul_line, cut_line, kinds[KINDS], flagged, begun; /* begun: the line where perf has all events */
    bool is_perf;
};
extern struct run_counts counts;
extern struct actor *actors;
extern size_t actor_count;
extern struct lock_info *lock_infos;
extern size_t lock_count;
extern struct class_info *classes;
extern struct texts class_names, actor_names;
/* Whether the interrupts of a processor acquire locks. */
bool has_interrupts(uint32_t processor, enum context context);
extern char **ww_names;             /* of further classes of locks that back off, to NULL */
const char *class_name(uint32_t class, int *length);
/* What an actor released without an acquire since the begin of an epoch, so that it held it there. An epoch begins with the recording and
 * with each loss of events. Returns the first one or NONE; `next_before` the next one. */
uint32_t first_before(uint32_t actor, uint32_t epoch);
uint32_t next_before(uint32_t before, uint32_t *lock);
extern uint32_t first_epoch;
/* Reads a recording from standard input, and writes its records to a file. */
void read_recording(const char *name, FILE *records);
void refuse_line(const char *format, ...) __attribute__((format(printf, 1, 2), noreturn));

/* ---- classes.c: dependencies between classes ---- */

struct held_class { uint32_t class, lock, line; bool is_read, is_begun; }; /* is_begun: a work or a timer is executed */
struct stack { struct held_class *items; size_t count, room; };
/* Notes an acquire of an actor that holds the stack, and pushes it. */
void note_acquire(struct stack *stack, uint32_t actor, struct held_class acquire, bool is_tried);
/* Removes a lock, and returns what it was; its class is NONE if it was not there. */
struct held_class note_release(struct stack *stack, uint32_t lock);
void forget_dependencies(void);
/* Finds the classes that interrupts reach. */
void find_reached(void);
/* Whether an acquire of the second class under the first is on a cycle of classes. */
bool is_on_cycle(uint32_t first, uint32_t second);
void write_classes(FILE *file);

/* ---- emit.c: writes lawful events ---- */

/* A lock of the recording, the part of it by which an actor reads, the marker of tried acquires of an actor, the interrupts of a processor,
 * or what executes works or timers of a name. */
enum lock_role { PLAIN, PART, MARK, INTERRUPT, NAMED, LOCK_ROLES };
/* What an event comes after: a wake-up, the queueing of a work, a completion, earlier readers and writers, executions, interrupts, all that
 * was before an interrupt. */
enum variable_role { WOKEN, QUEUED, COMPLETED, READERS, WRITERS, EXECUTED, INTERRUPTED, PAST, VARIABLE_ROLES };
struct acting { uint64_t last; uint32_t number, held; bool is_started; }; /* last: of its events; number: of the thread, or 0 */
extern struct acting *acting;       /* of each actor */
extern uint64_t event_count;
void begin_events(FILE *file, const char *name);
/* The line, and the class or NONE, of the next events. */
void set_origin(uint32_t line, uint32_t class);
/* Returns the number of a lock, which is made at its first use. `of` is an actor, a processor or NONE. */
uint32_t lock_number(enum lock_role role, uint32_t object, uint32_t of);
uint32_t holder_of(uint32_t number);  /* an actor, or NONE */
bool emit_acquire(uint32_t actor, uint32_t number);
bool emit_release(uint32_t actor, uint32_t number);
void emit_fork(uint32_t actor, uint32_t child);
void emit_write(uint32_t actor, enum variable_role role, uint32_t first, uint32_t second);
/* Reads a variable if it was written. */
void emit_read(uint32_t actor, enum variable_role role, uint32_t first, uint32_t second);
/* Comes after all earlier calls for this variable. */
void emit_turn(uint32_t actor, enum variable_role role, uint32_t first, uint32_t second);
void end_events(void);

/* ---- convert.c: what each actor holds, and sections.c: what an acquire or a release becomes ---- */

struct holding { uint32_t lock; bool is_read; };
struct waiting { uint32_t lock, line; uint16_t processor; uint8_t bits; }; /* an acquire that may wait */
struct state {
    struct holding *holdings;
    struct waiting *waitings;
    uint32_t *wakers;
    size_t holding_count, holding_room, waiting_count, waiting_room, waker_count, waker_room;
    uint32_t contended, completed, version, epoch; /* locks or NONE; version: changes with each acquire and release */
    bool is_listed, has_interrupt, is_late; /* is_late: the interrupt comes after all that was before */
    uint64_t late;              /* the number of events then */
};
struct made {
    uint64_t tried, unseen, not_held, before, readers_as_orders, downgraded, annotations, ww, named, interrupts, wakes, too_many;
};
extern struct made made;
extern bool has_acquired;           /* the recording has lock_acquired */
extern uint32_t *listed;            /* the actors that have acquired locks and have not ended */
extern size_t listed_count;
extern uint32_t queue_class;        /* the locks of the run queues, which a thread acquires when it goes away; or NONE */
struct state *state_of(uint32_t actor);
void convert_records(FILE *records, FILE *file, const char *name);
/* A thread has got the lock of a completion: it comes after those before it. It has released it: so do others, unless it goes away. */
void enter_completion(uint32_t actor, uint32_t lock);
void leave_completion(uint32_t actor, uint32_t lock);

/* Makes the events of an acquire that got its lock. */
void take_lock(uint32_t actor, struct waiting acquire);
/* Releases a lock that the actor holds, by its position in `holdings`. */
void release_holding(uint32_t actor, size_t at);
/* Releases what the actor holds, and forgets for what it waits. */
void release_holdings(uint32_t actor);
struct holding *find_holding(struct state *state, uint32_t lock);
void begin_sections(void);
/* Whether all works or timers of a name are one: waits are by name. */
bool is_named(const struct class_info *class);
/* Begins what executes works or timers of a class. */
void begin_execution(uint32_t actor, struct waiting acquire);
/* Waits for the executions of a class: flush_work, cancel_work_sync, del_timer_sync. */
void wait_for_executions(uint32_t actor, uint32_t class);
