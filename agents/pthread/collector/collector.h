/* Shared by the files of the collector. collector.c runs the program and reads its records, options.c reads the command line, processes.c follows
 * further processes, hooks.c looks whether a program was compiled with hooks, deadlock.c finds threads that wait for each other, reproduce.c
 * watches a run that follows a schedule.
 *
 * events/ makes the events of the traces: encode.c turns records into them, readers.c those of reader-writer locks, accesses.c and predicates.c
 * those of values, inserts.c adds events of the past, repeats.c leaves out repeats, graph.c has the lock graph, tables.c keeps threads and locks.
 *
 * output/ writes all else that is kept of a run, and streams: work.c keeps the files of a run, calls.c writes the log, across.c the dependencies
 * of all windows, names.c keeps names, sites.c names callers, server.c streams to a server, roll.c asks for the servers of windows. */
#define _GNU_SOURCE
#include "../shared/limits.h"
#include "../shared/ring.h"

#include <stddef.h>
#include <stdio.h>
#include <stdlib.h>
#include <string.h>
#include <unistd.h>

enum { PATHS = 4096, MOST_NAME = 3900, GATE_OPTIONS = 4, FAIL_ON = 2 };
/* Exit statuses: a wrong command line; the program could not be started; the gate passes only a run that was analysed. */
enum { WRONG = 2, NOT_STARTED = 126, NOT_FOUND = 127, NOT_ANALYSED = 125 };
enum { MOST_BOUND = 8 };
enum { DEADLOCKED = 1, IN_PART = 3 }; /* exit statuses of the reporter, besides WRONG */
/* A number from this on is no thread: the shared memory belongs to the program, which may write anything to it. The markers of threads
 * have numbers that far apart. */
enum { MOST_NUMBERS = TIMED_MARKERS - TRY_MARKERS };

/* What the command line says. */
struct options {
    const char *server, *program;   /* program: goodlockd */
    const char *gate[GATE_OPTIONS]; /* of the options --suppress, --baseline, --fail-on, --root: for the reporter */
    char out[PATHS];                /* absolute */
    const char *on_deadlock;        /* report, kill, or a command */
    int bound, error_status, frames, is_python, has_no_config, allows_partial, follows_others;
    int is_java;                    /* is_python is set too: the program brings its recorder, and sites are texts */
    uint32_t window, seconds;       /* bound: 0 if each is searched up to the largest that can have a cycle */
    uint64_t most_logged;           /* bytes of the log; 0: there is none */
    uint32_t values;                /* that are followed: of atomics, of memory */
    int has_chosen_values;          /* the command line says so: also for the programs that the program starts */
    const char *schedule;           /* of the run that is followed; NULL: none. These three are of goodlock --reproduce */
    uint32_t patience;              /* milliseconds */
    int leaves_deadlock;            /* to a debugger */
};
extern struct options options;
extern struct ring *ring;
extern int is_follower; /* of a further process, for the collector that started it */

/* Whether a signal has arrived that ends the search. */
int is_asked_to_end(void);
/* Prints one line. */
void say(const char *format, ...) __attribute__((format(printf, 1, 2)));
/* Milliseconds. */
uint64_t now(void);
void *allocate(size_t bytes);
/* Returns the array with room for one more item than `count`. */
void *grow(void *array, size_t count, size_t *room, size_t item);
/* Says that nothing more is recorded, and why; the program runs on. */
void stop_recording(const char *why);
/* Runs a task of the reporter, which may take this many milliseconds. `output` is its standard output, or -1: that of the collector. Returns
 * -1 if there is no process. */
pid_t start_reporter(const char *task, const char *number, uint64_t milliseconds, int output);
/* Returns the exit status of a process; WRONG if it has none. */
int wait_for(pid_t child);

/* A window's trace is complete: its cycles are searched while the program runs. `length`: its events. */
void window_closed(uint32_t window, uint32_t length);

/* Copies from the shared memory. What is checked afterwards is the copy: the compiler cannot read the memory again. */
static inline void copy_shared(void *to, const void *from, size_t size) {
    memcpy(to, from, size);
    __asm__ volatile("" ::: "memory");
}

/* ---- options.c ---- */

void refuse(const char *what) __attribute__((noreturn));
/* Reads the command line, after the options of the configuration file. Returns the program and its arguments. */
char **read_all_options(int count, char **words, const char *goodlockd, int is_python);

/* ---- work.c ---- */

/* Replaces each %p in the name of the run by a process number. */
void name_run(pid_t program);
/* Makes OUT.tmp, and locks the name until this process and its reporters end. Ends the process if another run uses the name. */
void take_name(void);
/* Removes OUT.tmp. */
void leave_name(void);
/* In a reporter, before it is executed: the name stays locked until the reporter ends, too. */
void keep_name_locked(void);
/* The path OUT.tmp/NAME. */
const char *in_work(char *path, const char *name);
/* Removes the report of an earlier run and all its further files, which say that they are of this name. */
void remove_earlier(void);
/* The beginning of such a file. */
const char *mark_of_name(void);
/* The name of a window's file: OUT.trace, OUT.2.trace and others. */
void window_name(char *path, uint32_t window, const char *kind);
/* Open a file for writing: OUT.tmp/NAME, or a new one at this path. Return NULL if that is not possible. */
FILE *create_in_work(const char *name);
FILE *create_anew(const char *path);

/* ---- encode.c ---- */

enum how { BLOCKS, TRIES, TIMES_OUT };
/* An entry of a hash table is the first member of what the table keeps, or is found from it. */
struct entry { uint64_t key; struct entry *next; };
struct table { struct entry **slots; size_t size, count; };
struct lock {
    struct entry entry;                                         /* by address */
    struct lock *in_page, **before, *on_stack, **on_stack_before; /* the next ones in its page, and on its thread's stack */
    uint64_t address;
    uint32_t number, holder, depth, helper, site, variables[4]; /* number 0: the next acquire gets a new one; helper: see encode.c */
    uint32_t identity;                                          /* in the log of calls; 0: the next call gives it a new one */
    uint8_t how, is_tried, is_nested;                           /* is_nested: its holder has acquired another one */
    struct sharing *sharing;                                    /* its readers: see readers.c. NULL: it is no reader-writer lock */
    struct predicate *predicate, *guards;                       /* of a condition; those of a mutex: see predicates.c */
    struct lock *whole;                                         /* of a part; its other members: */
    uint32_t reader, earlier;                                   /* who reads by it; how many sections of writers had no such part */
};
struct reader { uint32_t thread, site; };
/* When a thread had drawn a record: how many events of the window and entries of the log were before. */
struct moment { uint32_t window, position, thread, site, logged; };
struct thread {
    struct entry entry, by_handle;                              /* by number */
    struct thread *older, *newer;
    uint64_t handle, stack_low, stack_high, released;           /* released: the address of the mutex that it has released last */
    uint32_t number, begun, joining, depth;                     /* begun: the site of its fork; depth: locks that the trace shows */
    uint32_t in_window;                                         /* the window in which it was forked last */
    uint32_t tries, tries_in_window;                            /* locks that it holds by an acquire which does not wait; the most of the window */
    uint32_t looked;                                            /* the look for a deadlock that has passed it last */
    uint8_t has_ended, is_forgotten, waits_for_end, last_kind;  /* is_forgotten: nobody joins it; waits_for_end: in its join; of a record */
    uint8_t is_forked;                                          /* in the log */
    struct lock **held, *on_stack;
    const struct lock *looks_at;                                /* the mutex of its section, if it is to read the predicates of it */
    struct helper { uint32_t number, window; } *helpers;        /* artificial threads that hold nothing, and the last window that has them */
    size_t held_count, held_room, helpers_count, helpers_room;
};
extern uint32_t events, window;
extern unsigned long unseen, unstarted, overflowing, lock_events;

/* Takes a copy of a record. Returns 0 if it is not one that the recorder writes. */
int encode(const struct record *record);
/* Opens the first window of a program with this command line, and removes the files of an earlier run. */
void begin_run(char **words);
/* Closes the last window. Returns 0 if a trace could not be written. */
int end_run(void);
/* Writes the events so far to the file. */
void flush_trace(void);
/* Closes the window and opens the next one. */
void next_window(void);
uint32_t name_in_trace(uint32_t thread);
/* The same, after the thread was forked in this window. */
uint32_t name_in_window(uint32_t thread);
/* The events of the window without those that were inserted. */
uint32_t raw_events(void);
/* The number of a lock in the traces. One that nobody has acquired gets one. */
uint32_t number_of(struct lock *lock);

/* For readers.c. The lock at this address, which has a number from now on. */
struct lock *find_used_lock(uint32_t thread, uint64_t address);
void acquire(uint32_t thread, struct lock *lock, enum how how, uint32_t site);
/* One release, by `releaser`; NOBODY: by the holder. */
void release(struct lock *lock, uint32_t releaser, uint32_t site);
void release_fully(struct lock *lock, uint32_t site);
/* The thread reads and then writes one of the lock's variables; it writes it; it reads it, if it was written. */
void give_by(uint32_t thread, struct lock *lock, int which, uint32_t site);
void write_by(uint32_t thread, struct lock *lock, int which, uint32_t site);
void take_by(uint32_t thread, const struct lock *lock, int which, uint32_t site);

/* The thread writes or reads a value; it wrote it at a moment of this window. */
void write_value(uint32_t thread, uint32_t variable, uint32_t site);
void take_value(uint32_t thread, uint32_t variable, uint32_t site);
void insert_write(const struct moment *moment, uint32_t variable);
/* The thread reads a value that was written before the window, at this moment: the log has both. */
void read_in_log(uint32_t thread, const struct moment *moment, uint32_t variable, uint32_t site);
/* The same for a write or a read of which it is known at the end of the window whether that has it: only if the window may have a cycle. If it
 * is not `is_in_window`, since the other one of the two is in another window, only the log has it. */
void defer_value(const struct moment *moment, char letter, uint32_t variable, int is_in_window);
/* Whether events are streamed when they are recorded. */
int is_streaming(void);
int has_values_at_once(void);
/* Whether the window may have a cycle, as far as it is recorded. */
int may_have_cycle(void);

/* ---- graph.c: the lock graph of a window ---- */

/* The thread has acquired a lock while it held another one. */
void add_edge(uint32_t held, uint32_t lock, uint32_t thread);
/* Whether the graph has a ring with edges of two threads. */
int has_ring(void);
void write_graph(FILE *to);
void forget_graph(void);

/* Writes an event to the trace of the window, and streams it. */
void write_now(uint32_t thread, char letter, uint32_t object, uint32_t site);
/* That many events of the window are left out. */
void forget_events(uint32_t count);

/* ---- repeats.c ---- */

/* A window begins. */
void begin_repeats(void);
/* Writes the event, at once or later, unless its section repeats an earlier one. */
void add_event(uint32_t thread, char letter, uint32_t object, uint32_t site);
/* Writes all events that wait; those that have waited for a while. */
void keep_pending(void);
void look_at_pending(void);

/* ---- accesses.c ---- */

enum level { BY_ATOMICS, BY_ALL, LEVELS }; /* as in recorder/memory/memory.h */
extern unsigned long values_read;
/* Whether the program has the recorder that follows values. */
int has_recorder_of_values(void);
/* A variable that no event has yet. */
uint32_t new_value(enum level level);
/* The thread has drawn a record, whose events are written. Called only with that recorder. */
void note_place(uint32_t thread, int is_read, uint32_t site);
/* A thread has forked or joined another one. */
void learn_by_fork(uint32_t parent, uint32_t child);
void learn_by_join(uint32_t thread, uint32_t child);
/* The thread has read what another one wrote. */
void see(uint32_t thread, uint64_t cell, uint32_t site);
/* A window begins; another program begins in the process. */
void forget_places(void);
void forget_authors(void);

/* ---- predicates.c ---- */

/* A thread signals a condition; it was woken by one, or has received what somebody gave; it has begun a section of a lock. */
void note_signal(const struct thread *thread, struct lock *condition, uint32_t site);
void note_wake_up(const struct thread *thread, struct lock *condition, int has_waited);
void note_section(struct thread *thread, const struct lock *lock);
/* Before what a thread does next: it looks at the predicates of the section that it has begun. `given`: the condition that it signals, or NULL. */
void read_predicates(struct thread *thread, const struct lock *given);
/* A condition or a mutex ends; a window begins. */
void forget_predicates(struct lock *lock);
void forget_sections(void);

/* ---- inserts.c ---- */

void begin_inserts(void);
/* The events that were inserted, without deferred ones; those that are deferred. */
uint32_t inserted(void);
uint32_t deferred(void);
/* The window has a value. */
void note_value(void);
/* A write or a read after `position` events of the window. `order`: of inserts at one position. It is that of the log: twice the number of entries
 * before it, and one more for an event that is an entry. Inserts of one order are reads first, then by their variables. */
struct insert { uint64_t order; uint32_t position, thread, variable, site; char letter; uint8_t is_deferred; };
void insert_event(const struct insert *it);
/* The window has the deferred events if they are needed. Returns how many it gets. */
uint32_t decide_on_deferred(int are_needed);
/* Writes the trace of the window again, with the events that were inserted. Returns 0 if that is not possible. */
int merge_trace(const char *path);

/* ---- hooks.c ---- */

enum { MOST_RUNTIME = 80 };
enum hooks { NO_HOOKS, HOOKED, OWN_RUNTIME }; /* OWN_RUNTIME: it is linked into the program, so that no other one can replace it */
/* Whether a program was compiled with hooks, and the name of the runtime that it needs. */
enum hooks hooks_of(const char *program, char runtime[MOST_RUNTIME]);

/* ---- readers.c ---- */

extern unsigned long read_locks, crowded_locks; /* crowded: with more readers than parts */
void read_lock(uint32_t thread, uint64_t address, enum how how, int prefers_writers, uint32_t site);
void write_lock(uint32_t thread, uint64_t address, enum how how, int prefers_writers, uint32_t site);
void unlock_either(uint32_t thread, uint64_t address, uint32_t site);
/* The whole lock is about to be released; it has been, and is removed. */
void release_parts(struct lock *lock, uint32_t site);
void forget_sharing(struct lock *lock);
/* Those that hold the lock. */
const struct reader *readers_of(const struct lock *lock, size_t *count);

/* ---- names.c ---- */

/* Adds a line to OUT.tmp/names: a comment for the traces. Numbers of threads are the recorder's. */
void note_name(const char *format, ...) __attribute__((format(printf, 1, 2)));
/* A thread has a name; a lock has a number: the report finds its name by its address, if it is in a file's memory. */
void name_thread(const struct record *record, uint64_t handle_or_text);
void name_lock(uint32_t number, uint64_t address);
void close_names(void);
/* Adds a line to OUT.tmp/unseen: what the recorder could not see. */
void note_unseen(const char *what);

/* ---- calls.c ---- */

/* 0 if there is a log that is whole so far, else why there is none: see shared/calls.h. */
uint32_t why_no_log(void);
/* The log of a program with this command line begins, and ends. */
void begin_calls(char **words);
void end_calls(void);
/* A call, to which the next events belong; or they belong to no call. */
void log_call(uint32_t thread, uint32_t kind, uint32_t object, uint32_t site);
void log_no_call(void);
/* An event of the run, without windows; how many there were. */
extern unsigned long logged;
void log_event(char letter, uint32_t thread, uint32_t object, uint32_t site);
/* The entries so far; an event after as many of them. */
uint32_t log_entries(void);
void log_after(uint32_t entries, char letter, uint32_t thread, uint32_t variable, uint32_t site);
/* Another program has begun in the process. */
void log_exec(void);

/* ---- across.c ---- */

/* A thread that holds these locks has acquired another one. `marker`: the lock that marks the acquire, or 0. */
void note_dependency(const struct thread *thread, const struct lock *lock, uint32_t marker);
/* A fork or a join, by their letters. */
void note_life(char letter, uint32_t thread, uint32_t object, uint32_t site);
/* Writes the dependencies of the run to OUT.tmp/all, as an event file. Returns how many were left out. */
unsigned long write_dependencies(void);

/* ---- processes.c ---- */

/* Whether a process is there, and no zombie; whether it descends from the collector. */
int is_alive(pid_t process);
int is_descendant(pid_t process);
/* In collector.c: whether a child of the collector is one of its own tools. */
int is_own_child(pid_t child);
/* Further processes with threads are followed, with these options. */
void follow_with(const char *goodlockd, const char *reporter, char **words, size_t count);
/* Counts further processes with threads, and answers those that ask to be followed. `program`: the process that is started first. */
void look_for_processes(pid_t program);
/* Returns 0 if the child is no follower. */
int follower_has_ended(pid_t child, int status);
int has_followers(void);
void signal_followed(int number);
/* The verdict of this collector and of its followers. */
int verdict_of_all(int verdict);
/* Writes OUT.tmp/processes: a line `NUMBER TRACED NAME` for each. Returns how many were not traced. */
uint32_t write_processes(void);

/* ---- tables.c ---- */

struct entry *find_entry(const struct table *table, uint64_t key);
void add_entry(struct table *table, struct entry *entry, uint64_t key);
void remove_entry(struct table *table, struct entry *entry);
/* Removes and frees all entries. */
void clear_table(struct table *table);

extern struct thread *oldest_thread;
/* Return NULL if there is none; `find` makes one. */
struct thread *known_thread(uint32_t number);
struct thread *find_thread(uint32_t number);
/* Whether a record may make new ones. */
int has_room_for_threads(void);
/* The newest thread with this handle, and the one with this address on its stack. */
struct thread *thread_of_handle(uint64_t handle);
struct thread *thread_of_stack(uint64_t address);
/* 0: none. */
void set_handle(struct thread *thread, uint64_t handle);
void set_stack(struct thread *thread, uint64_t low, uint64_t high);
/* It holds no lock, and none is on its stack. */
void remove_thread(struct thread *thread);

struct lock *known_lock(uint64_t address);
struct lock *find_lock(uint64_t address);
/* Nobody holds it. */
void remove_lock(struct lock *lock);
void leave_stack_of(struct lock *lock);
/* `act` may remove the lock that it gets. */
void each_lock_in(uint64_t from, uint64_t size, void (*act)(struct lock *));
void forget_all(void);

/* ---- deadlock.c ---- */

/* Writes which threads wait for each other to OUT.tmp/deadlock, if they have done so for a while or `is_over`. Returns whether it has
 * written any so far. */
int look_for_deadlock(int is_over);

/* The waits of threads that wait for each other now, from the least thread on. Returns how many there are. */
uint32_t waits_of_deadlock(struct wait *to, uint32_t most);
/* Writes which threads wait for each other now to OUT.tmp/deadlock. Returns whether there are any. */
int report_deadlock(void);

/* ---- reproduce.c: a run that follows a schedule ---- */

static inline int is_following(void) { return options.schedule != NULL; }
/* Returns the name of the shared memory. Ends the process if there is no schedule. */
const char *map_schedule(void);
uint32_t lanes_of_schedule(void);
/* Looks at the run, in the process that records, from time to time and when it has ended. */
void watch_schedule(pid_t process, int has_ended);
/* The run has ended. Returns the exit status of the collector. */
int end_following(void);

/* ---- sites.c ---- */

uint32_t site_of(const uint64_t *callers, uint32_t count);
/* The file that the recorder has named for this address, and the address in it; NULL: none. */
const char *file_at(uint64_t address, uint64_t *offset);
/* Reads the lines that the recorder has added to the text. */
void read_text(void);
/* Copies a text of the shared memory, as far as it has that many bytes and is one line. */
enum { MOST_TEXT = 1000 };
void copy_text(char to[MOST_TEXT + 1], uint64_t from);
void close_sites(void);
/* Reads which files are mapped, from time to time; writes the names of the libraries that were seen to OUT.tmp/libraries, and the path of the
 * program to OUT.tmp/program. */
void look_at_maps(void);
void write_libraries(void);
/* Callers in this memory are others from now on. */
void forget_sites(uint64_t from, uint64_t size);

/* ---- server.c ---- */

extern int is_shared_server; /* with another agent */
/* Returns 0 if this is no address. */
int connect_to_server(const char *address);
/* Whether a server takes the events of the window. */
int has_server(void);
/* A window of `length` events is complete, and the next one begins. */
void next_server(uint32_t length);
/* The run has ended. Writes what no server has seen to OUT.tmp/unserved. */
void end_streaming(void);
void stream(uint8_t kind, uint32_t thread, uint32_t object);
/* Streams the events of a file. */
void stream_trace(const char *path);
/* Sends what is collected, and reads the replies. */
void flush_stream(void);
/* Asks for the report of `length` events and writes it to OUT.tmp/NAME. Returns 0 if there is none. */
int ask_server(uint32_t length, const char *name);

/* ---- roll.c: servers for windows, by tools/with_server --roll ---- */

/* Whether the run at this address has one. */
int find_roller(const char *address);
int has_roller(void);
/* Announces the window, before which the run had `first` events. Returns the address of its server; an empty text: there is none. */
const char *address_of_window(uint32_t number, uint64_t first);
/* Reads, from time to time, whether the server takes no more questions, so that the next window is to begin. */
void look_at_roller(void);
int is_roll_wanted(void);
void end_rolling(void);
