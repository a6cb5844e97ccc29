/* The memory that a recorder in the traced program shares with the collector, which is another process. */
#include <stdint.h>

enum { SLOTS = 1 << 18, MOST_FRAMES = 5, WAITS = 1 << 14, TEXT = 1 << 20, OTHERS = 256, STACKS = 1 << 15, MOST_STACK = 20 };
enum { BY_STACK = MOST_FRAMES + 1 }; /* instead of a number of callers: callers[1] is the number of a stack */
#define NOBODY UINT32_MAX
#define RING_MAGIC 0x31676E69726C6467u /* another file is none, also if GOODLOCK_RING is of a run that has ended */
#define RING_SEALS (F_SEAL_SHRINK | F_SEAL_GROW | F_SEAL_SEAL)

enum kind {
    /* threads */
    R_FORK = 1, /* other: the number of the new thread */
    R_NAMED,    /* the creator learned the handle `address` of the thread `other` */
    R_START,    /* a new thread's first record; address: its handle, other: the low end of its stack, callers[0]: the high end */
    R_UNSEEN,   /* the first record of a thread whose start was not seen; address: its handle */
    R_END,      /* a thread's function has ended */
    R_JOINS,    /* before a join of the handle `address`; other: WITHOUT_END, or 0 if it does not wait, or not without end */
    R_JOINED,   /* after it */
    R_EXEC,     /* another program begins in this process */
    /* locks; address: the lock, other: the thread's stack pointer, with the flags below */
    R_LOCK, R_TRIED, R_TIMED,    /* after a blocking, a non-blocking and a timed acquire */
    R_UNLOCK,                    /* before a release */
    R_WRITE_LOCK, R_WRITE_TRIED, R_WRITE_TIMED, R_READ_LOCK, R_UNLOCK_EITHER, /* the same for reader-writer locks */
    R_UNLOCK_OWN,                /* before a release that fails if the thread does not hold the lock */
    /* orders; address: what is handed over, other: BY_FUTEX, BY_CONDITION, BY_VALUE, or something else */
    R_GIVE,     /* before the giver's call */
    R_TAKE,     /* after the receiver's call; other: BY_VALUE or something else */
    R_ONCE,     /* after a call that returns only when an initialisation has ended */
    /* memory */
    R_NEW,      /* the object at `address` was initialised or destroyed */
    R_FREE,     /* `other` bytes at `address` are freed */
    R_UNSTARTED, /* a thread: `other` was forked, but the system has not started it */
    R_FORGOTTEN, /* a thread: nobody can join `other` any more */
    R_UNLOADED,  /* `other` bytes at `address` are no library any more */
    /* names */
    R_TITLE,     /* a thread is called so: the bytes of `address` and `other`; callers[0]: its handle, 0 for this one. If callers[0] is the
                  * number of a text, that is the name of this one */
    /* values */
    R_SEES,      /* the thread has read what another one wrote; address: who, and how many records that one had drawn: see recorder/memory/memory.h */
};

/* In the lowest bits of a stack pointer: how a reader acquires the lock, if it does not wait without end; what the lock does. */
enum { READS_TRIED = 1, READS_TIMED = 2, PREFERS_WRITERS = 4, LOCK_FLAGS = 15 };

/* BY_FUTEX: a later run that follows this one makes such a call when it has to, and not in its turn: it may be within a lock that is not seen.
 * BY_CONDITION: a signal or a broadcast. BY_VALUE: a write or a read of an atomic value in the object; from the agent for Java. */
enum { BY_FUTEX = 1, BY_CONDITION = 2, BY_VALUE = 4 };
enum { WITHOUT_END = 1 };

/* One event of the program, in one cache line. `ready` is its place plus one, and is written last. */
struct record {
    uint64_t ready, address, other;
    uint32_t thread;
    uint8_t kind, frames;
    uint8_t callers[MOST_FRAMES][6]; /* addresses have 48 bits */
    uint8_t unused[4];
};

/* SPINS_FOR_LOCK: it makes no call to wait. WAITS_FOR_OWN_LOCK: for a lock that the program annotates, in some way. */
enum { WAITS_FOR_LOCK = 1, WAITS_FOR_THREAD, SPINS_FOR_LOCK, WAITS_FOR_OWN_LOCK };

/* What a thread is about to wait for; address is 0 while it does not wait. */
struct wait {
    uint64_t address;
    uint32_t thread, kind;
    uint32_t frames, tid; /* tid: the system's number of the thread, 0 if it is not known */
    uint64_t callers[MOST_FRAMES];
};

/* A process with threads other than the owner. If it asks, it waits until the collector has made shared memory for it. */
struct other {
    uint32_t process, state; /* process: 0 if the place is free */
    char name[16], path[40];
};
enum { OTHER_SEEN, OTHER_ASKS, OTHER_HAS_RING, OTHER_REFUSED };

struct ring {
    _Alignas(64) uint64_t next;                            /* the next place; the recorder adds one for each event */
    uint64_t magic;
    _Alignas(64) uint64_t consumed;                        /* the collector has read all places below */
    _Alignas(64) uint32_t threads;                         /* the next thread number */
    uint32_t owner, collector, program;                    /* processes: the one that records, the collector, the started one */
    uint32_t attached, off, finished;                      /* a recorder is loaded; nothing more is recorded; read all and report */
    uint32_t text_used, sites_used;                        /* from the front and from the back */
    char text[TEXT];                                       /* what explains callers, see below */
    _Alignas(64) struct wait waits[WAITS];
    _Alignas(64) struct record slots[SLOTS];
    struct other others[OTHERS];                           /* hashed by process */
    uint32_t follows_others, cleared;                      /* cleared: programs that were started without GOODLOCK_RING */
    _Alignas(64) uint64_t futexes;                         /* calls of futex that are not those of a lock which is recorded */
    uint32_t stacks_used, values;                          /* values: which are followed, see VALUES_.. below */
    struct callers { uint64_t callers[MOST_STACK]; uint32_t count, unused; } stacks[STACKS]; /* written before the first record with its number */
};

/* Bits of `values`. The collector wants those of atomics, of plain memory. The recorder can follow them; the program has hooks; some are lost. */
enum { VALUES_OF_ATOMICS = 1, VALUES_OF_MEMORY = 2, VALUES_RECORDER = 4, VALUES_HOOKED = 8, VALUES_LOST = 16 };
/* In the address of R_SEES: the writer's number plus one in the high bits, whether an atomic has been read, the writer's count. */
enum { WRITER = 48, MOST_WRITERS = 65000 };
#define READ_BY_ATOMIC ((uint64_t)1 << 47)
#define WRITER_COUNT (READ_BY_ATOMIC - 1)

/* The text has lines, each ends with a line feed. From the front: `module BASE LOW HIGH PATH`, in hexadecimal, for a file that is mapped
 * from LOW to HIGH; its own addresses begin at BASE. From the back: `FILE:LINE in NAME` or `FILE:LINE` for a caller that is not an
 * address; the place of its line in the text is the caller's number. So a caller below TEXT is such a number; 0 is not known.
 * `unseen WHAT`, from the front: a line for the report. The agent for Java has no addresses: an object has a number, with the number of a text,
 * which is its name, in the 24 highest bits. */
