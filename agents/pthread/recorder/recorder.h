/* Shared by the files of the recorder: recorder.c has the events and the calls of the C library, libraries.c those of other libraries, frees.c
 * the end of memory, stacks.c finds callers, titles.c has the names of threads, follow.c and pause.c what a run needs that follows a recorded
 * one. The files in memory/ follow values; they are in one of the two recorders that `build` makes. */
#define _GNU_SOURCE
#include "../shared/ring.h"

#include <dlfcn.h>
#include <errno.h>
#include <pthread.h>

__attribute__((weak)) int _dl_find_object(void *, struct dl_find_object *); /* NULL before glibc 2.35 */

#define THREAD_LOCAL __thread __attribute__((tls_model("initial-exec")))
#define EXPORT __attribute__((visibility("default")))

/* count: of the callers, or BY_STACK. */
struct site { uint32_t count; uint64_t stack, callers[MOST_FRAMES]; };

/* A child by `fork`, `_Fork` or `clone` finds this page filled with zeros. ring: NULL if nothing is recorded. */
extern struct page { struct ring *ring; char rest[4096 - sizeof(struct ring *)]; } page;
extern struct ring *mapped;
extern uint32_t is_claimed; /* by this process */
extern THREAD_LOCAL uint32_t self;
extern THREAD_LOCAL uint64_t stack_low, stack_high;
extern THREAD_LOCAL uint64_t stated; /* the caller of this thread's next calls, if the program states it */

/* stacks.c: finds the callers of the caller, from the frame of the recorder's function. They are on this thread's stack. */
void find_stack(struct site *site, const uint64_t *frame);
/* The library has been loaded; the process has another ring from now on. */
void begin_stacks(void);
void forget_stacks(void);

/* The return address of the program's call, and those above it if the thread is on its own stack. */
static inline __attribute__((always_inline)) void take_site(struct site *site, void *frame, void *caller) {
    uint64_t at = (uint64_t)frame;
    site->stack = at, site->callers[0] = stated ? stated : (uint64_t)caller, site->count = 1;
    if (!stated && page.ring && at >= stack_low && at < stack_high) find_stack(site, frame);
}
#define TAKE_SITE struct site site; take_site(&site, __builtin_frame_address(0), __builtin_return_address(0))

/* Records an event, if anything is recorded. */
void tell(enum kind kind, const volatile void *address, uint64_t other, const struct site *site);
void tell_if(int condition, enum kind kind, const volatile void *object, const struct site *site);
/* After an acquire: also remembers that this memory contains a lock. */
void acquired(enum kind kind, const volatile void *lock, const struct site *site);
/* Shows what this thread waits for. Returns NULL if nothing is recorded. */
struct wait *will_wait(uint32_t kind, uint64_t address, const struct site *site);
void has_waited(struct wait *wait);
/* A library that the program loads for itself has a function of this name that RTLD_NEXT does not find. Then this library must not come before
 * it: the loader passes over a symbol without a value. */
void hide_unless_next(const char *name, void *own);
/* In libraries.c, programs.c and frees.c. */
void find_libraries(void);
void find_starts(void);
void find_frees(void);
void hide_deletes(void);
/* This memory has a lock. */
void remember(uint64_t address);

/* Whether this thread records. It is numbered from then on. */
int is_recorded(void);

/* ---- follow.c: nothing of this happens if there is no schedule ---- */

struct schedule;
struct call_of_schedule;
extern const struct schedule *schedule;
extern const struct call_of_schedule failing_call;
/* Maps the schedule, if there is one. */
void begin_schedule(void);
/* Before a call of the program: waits for its turn. Returns what `leave` takes after the call if that has succeeded, or NULL. `may_fail`: a call
 * that failed in the recorded run has to fail, which is `failing_call`. */
const struct call_of_schedule *enter(enum kind kind, uint64_t object, struct site *site, int may_fail);
void leave(const struct call_of_schedule *call);
/* Whether an attempt that has failed is to be made again: its turn has come. Waits a little. */
int may_retry(const struct call_of_schedule *call);
/* Whether a wait on a condition that begins with this call is made by turns. If not, the real wait acquires the lock again. */
int has_turn(const struct call_of_schedule *call);
void enter_loop_of_wait(const struct call_of_schedule *call);
/* Whether the thread's next call in the recorded run was of this kind. */
int comes_next(enum kind kind);
/* The number of this thread's next child in the recorded run, or NOBODY; which thread has a handle. */
uint32_t number_of_child(void);
void note_handle(uint32_t number, uint64_t handle);
uint32_t number_of_handle(uint64_t handle);
/* In a run without a witness: what this thread holds. */
void note_acquired(uint64_t object, uint64_t caller);
/* The thread's function begins, and has ended. */
void begin_lane(void);
void end_lane(void);

#define ENTER(kind, object, may_fail) (schedule ? enter(kind, (uint64_t)(object), &site, may_fail) : NULL)
#define LEAVE(call) ((call) ? leave(call) : (void)0)

/* ---- memory/: the values that threads read, in the recorder for programs with hooks ---- */

#ifdef FOLLOWS_VALUES
/* Before the first thread is created: what is written before is seen by all, since they are forked later. `number` is this thread. */
void follow_values(uint32_t number);
/* This process has this ring, and its recorder can follow values. */
void note_values(struct ring *to);
/* This thread has a number from now on; its function has ended. */
void begin_values(uint32_t number);
void end_values(void);
/* Nothing is followed any more: this is another process. */
void stop_values(void);
int is_following_values(void);
/* Before and after this thread draws the place of a record. */
void settle_values(void);
void count_record(int is_read);
/* This memory is new, or is read or written by a library. */
void forget_values(uint64_t from, uint64_t size);
void touch_values(uint64_t from, uint64_t size, int writes);
/* A library writes an atomic of eight bytes. */
void publish_value(const void *at);
/* The accesses of this thread are not followed between these two: they are those of a lock that the program annotates. */
void hide_accesses(void);
void show_accesses(void);
/* Records R_SEES. The frame is that of the function which returns to the caller, or NULL if it has returned. */
void tell_seen(uint64_t cell, void *caller, void *frame);
#else
static inline void follow_values(uint32_t number) { (void)number; }
static inline void note_values(struct ring *to) { (void)to; }
static inline void begin_values(uint32_t number) { (void)number; }
static inline void end_values(void) {}
static inline void stop_values(void) {}
static inline int is_following_values(void) { return 0; }
static inline void settle_values(void) {}
static inline void count_record(int is_read) { (void)is_read; }
static inline void forget_values(uint64_t from, uint64_t size) { (void)from, (void)size; }
static inline void touch_values(uint64_t from, uint64_t size, int writes) { (void)from, (void)size, (void)writes; }
static inline void publish_value(const void *at) { (void)at; }
static inline void hide_accesses(void) {}
static inline void show_accesses(void) {}
#endif
