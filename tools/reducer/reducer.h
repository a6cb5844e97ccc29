/* Shared by the files of the reducer, the program of tools/reduce: input.c reads event files, log.c the logs of agents, admission.c refuses
 * unlawful events, collect.c reads a run and keeps what the rules need, backward.c, rules.c and slice.c leave out events, holders.c hands
 * locks to artificial threads, windows.c writes traces, check.c replays witnesses over the whole run, tables.c has the hash tables.
 * docs/algorithm.md has the rules with their reasons. */
#define _GNU_SOURCE
#include <stdbool.h>
#include <stddef.h>
#include <stdint.h>
#include <stdio.h>
#include <stdlib.h>
#include <string.h>

#include "../../agents/pthread/shared/limits.h"

/* Of the input. Each acquire adds an edge to the lock graph for each held lock, so their number is bounded. */
enum { MOST_HELD_OF_RUN = 1024, MOST_THREADS_OF_RUN = 1 << 27, MOST_COMMENT = 1 << 16 };
#define LARGEST UINT32_MAX
#define NONE UINT32_MAX             /* no thread, lock, text, .. */
#define SEVERAL (UINT32_MAX - 1)    /* more than one thread */

enum operation { FORK, JOIN, ACQUIRE, RELEASE, READ, WRITE };

/* An event that is kept. Its place counts the events of all files; `line` is the line of another file that a comment gives, or 0. Threads
 * and objects are positions in their tables. */
struct event {
    uint64_t place;
    uint32_t thread : 27, is_needed : 1, is_left_out : 1, operation : 3; /* is_needed: of an access */
    uint32_t object, where, line;
};

/* ---- tables.c ---- */

void end_without_memory(void) __attribute__((noreturn));
void *allocate(size_t count, size_t size);
/* Returns the array with room for one more item than `count`. Memory that no item uses yet is not touched, so it is not resident. */
void *grow(void *array, size_t count, size_t *room, size_t size);
void seed_hashes(void);

/* Numbers of a file, such as those of threads, with their positions in order of first appearance. */
struct numbers { uint32_t *slots, *numbers; size_t size, count, room; };
/* Returns the position of a number, which is added if it is new. */
uint32_t position_of(struct numbers *table, uint32_t number);

/* Maps pairs of positions to values. */
struct pairs { struct pair { uint64_t key, value; } *slots; size_t size, count; }; /* a key is 1 more than that of the pair; 0: free */
static inline uint64_t pair_of(uint32_t first, uint32_t second) { return (uint64_t)first << 32 | second; }
static inline uint32_t first_of(const struct pair *slot) { return (uint32_t)((slot->key - 1) >> 32); }
static inline uint32_t second_of(const struct pair *slot) { return (uint32_t)(slot->key - 1); }
/* Returns the value of a pair, or NULL. */
uint64_t *find_pair(const struct pairs *table, uint64_t pair);
/* Returns the value of a pair, which is added with this value if it is new. */
uint64_t *add_pair(struct pairs *table, uint64_t pair, uint64_t value);
void clear_pairs(struct pairs *table);

/* Different texts, numbered by first appearance. */
struct texts { char *bytes; size_t used, bytes_room; size_t *ends; size_t count, room; uint32_t *slots; size_t size; };
uint32_t add_text(struct texts *table, const char *text, size_t length);
const char *text_of(const struct texts *table, uint32_t number, size_t *length);

/* ---- input.c ---- */

struct source { const char *path, *name; uint64_t first; uint32_t line_name; }; /* first: the place of its first event, once it is open */
struct word { uint32_t thread, object, line; enum operation operation; bool is_repeated; }; /* line: of another file, or 0 */

struct last_entry { uint32_t thread, site, objects[2]; }; /* of a log: what the next entry may have, too */

/* Reads the events of the files of a run, one after another. */
struct reader {
    struct source *sources;
    size_t count, at;           /* of the sources; at: the present one */
    int file;
    bool is_in_line, is_at_end, has_window, is_log;
    struct last_entry last;
    char *buffer;
    size_t begin, end;
    uint64_t line, place;       /* line: the present one; place: of the next event */
    uint64_t repeated;          /* that many of the next events repeat what an earlier window has */
    uint32_t origin;            /* the line of another file that a comment gives for the next event, or 0 */
    char where[MOST_COMMENT];
    size_t where_length;
    uint32_t where_number;      /* of the text, or NONE if it is not in the table yet */
};
void open_run(struct reader *reader, struct source *sources, size_t count);
/* Reads the next event. Returns false at the end of the last file. */
bool next_event(struct reader *reader, struct word *word);
/* Reads until the buffer is full or the file ends. A line feed follows the last byte. */
void fill_buffer(struct reader *reader);
/* Ends the program with a line about the present line of the present file, or about the present place of a log. */
void refuse(const struct reader *reader, const char *format, ...) __attribute__((format(printf, 2, 3), noreturn));
/* Ends the program with a line about a file. */
void end_unread(const char *name, const char *reason) __attribute__((noreturn));
void end_unwritten(const char *name) __attribute__((noreturn));
void *open_output(const char *name);

/* ---- log.c ---- */

/* Notes whether the file is a log, and skips what is before its entries. */
void begin_log(struct reader *reader);
/* Reads the next event. Returns false at the end. */
bool next_logged(struct reader *reader, struct word *word);
/* Writes the site of the event as its code location: a number, which the agent replaces. */
void take_site(struct reader *reader);

/* ---- admission.c: the state of the run after the events that were read ---- */

struct held { uint32_t lock, where, line; uint64_t place; }; /* of its outermost acquire */
struct held_list { struct held *items; size_t count, room; }; /* in the order of the acquires */
void hold(struct held_list *list, const struct event *acquire);
void unhold(struct held_list *list, uint32_t lock);
struct thread { bool is_forked, is_joined; uint32_t name; struct held_list held; };
struct lock {
    uint32_t depth, holder, user, name; /* user: the only thread that acquires it, NONE or SEVERAL */
    uint64_t since;
    bool is_mark, prefers_writers;
    uint32_t whole, reader;             /* of a part: numbers of its lock and of the thread that reads by it; NONE */
};
struct variable { uint32_t user; bool is_written; size_t last; }; /* last: 1 more than the index of its last write, or 0 */
/* The variables that stand for values which threads read: those of atomics are from `atomic` on, plain values from `plain` on. A comment of an
 * event file says which these are; in a log they are those that agents choose. */
enum { MOST_VALUES = 1000000000 }; /* of a kind */
struct values { uint32_t atomic, plain; bool are_there; };
extern struct values values;
extern struct numbers thread_numbers, lock_numbers, variable_numbers;
extern struct thread *threads;
extern struct lock *locks;
extern struct variable *variables;
/* Returns whether a variable stands for a plain value. */
bool is_plain(uint32_t variable);
extern struct texts texts; /* names of threads and locks, code locations, names of files */

/* Return the thread and the lock with a number, which are added if they are new. The pointers are valid until the next call. */
struct thread *find_thread(const struct reader *reader, uint32_t number);
struct lock *find_lock(const struct reader *reader, uint32_t number);
/* Return the position of an artificial thread, which is forked, and of a variable. Nothing in the run has their numbers. */
uint32_t new_thread(void);
uint32_t new_variable(void);
/* Forgets the events that were read, and keeps the tables. */
void begin_run(void);
/* Reads the next event that no earlier window has, without its code location. Ends the program if it is not lawful. The caller applies what
 * it does to locks. Returns false at the end of the last file. */
bool read_event(struct reader *reader, struct event *event);
void apply_event(const struct event *event);
/* Applies an acquire or a release. Returns whether it is outermost. */
bool apply_lock_event(const struct event *event);
/* Forgets which locks are held. */
void release_all(void);

/* ---- collect.c ---- */

struct kept { struct event *events; size_t count, room; };
extern struct kept kept;
struct counts { uint64_t events; size_t threads, locks; };
/* Reads the files, and keeps the events that can matter to a cycle. The folder is for a temporary file. */
struct counts collect(const char *folder, struct source *sources, size_t count);
/* Reads the files, and passes each event on that is not repeated. */
struct counts copy_whole(struct source *sources, size_t count);

/* ---- backward.c ---- */

void begin_records(const char *folder);
void record(const struct event *event);
/* Returns for each thread how many events of the run are up to its last needed one, or 0, after `record` got all of them. */
uint64_t *limits_of(const uint32_t *components);

/* ---- rules.c ---- */

/* Leaves out events until no rule changes the kept ones. */
void reduce(void);
/* Applies the rules that look only back to the events so far. Further events may follow. */
void reduce_so_far(void);
/* The indices of the kept events by thread: those of thread t are in `order` from `begins[t]` to `begins[t + 1]`. `at` is the position of
 * an event among those of its thread. */
struct lists { uint32_t *order, *at; size_t *begins; };
struct lists list_threads(void);
void free_lists(struct lists *lists);
/* Notes for each lock and variable whether one thread uses it. */
void count_users(void);
/* Removes the kept events that are marked as left out. */
void remove_left_out(void);

/* ---- slice.c ---- */

struct graph { struct pairs edges; }; /* the pairs of a held lock and one that was acquired under it */
void add_edges(struct graph *graph, const struct event *acquire);
/* Returns the component of each lock in the lock graph, or NONE if no other lock is in it. Locks of one thread are left out. */
uint32_t *components_of(const struct graph *graph);
/* Returns whether the thread of an outermost acquire holds another lock of the acquired lock's component. */
bool is_possible_member(const uint32_t *components, const struct event *acquire);
/* Leaves out what no possible member of a cycle needs. */
void slice(void);
/* Of each thread the first place that a witness may not contain: a slice left out an event there, which is no release, or the last pass
 * ended there. */
extern uint64_t *cuts;

/* ---- holders.c ---- */

/* The events that are passed on go to `next`, with artificial ones between them. */
void begin_holders(void (*next)(const struct event *event));
void pass_on(const struct event *event);
/* How many acquires artificial threads make, and how many of these threads there are. */
struct beyond { uint64_t acquires; size_t threads; };
struct beyond counts_beyond(void);

/* ---- windows.c ---- */

/* A trace for goodlockd has at most `most` events, MOST_THREADS threads and MOST_HELD held locks. More become windows, FOLDER/1.trace, .. */
struct output { const char *folder; size_t most; const struct source *sources; size_t source_count; };
void begin_windows(struct output output);
void add_to_window(const struct event *event);
struct written { uint64_t events; uint32_t windows; size_t threads, locks; };
struct written end_windows(void);

/* ---- check.c ---- */

/* Replays the witnesses in a file over all events, and prints a verdict for each. */
void check_witnesses(const char *cycles, struct source *sources, size_t count);
