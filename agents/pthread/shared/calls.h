/* The log of a run, NAME.calls: its calls, and the events that each of them made, in their order and without windows. tools/reduce makes one
 * trace of a run of several windows from it, and goodlock --reproduce follows it: tools/reducer/log.c and tools/goodlock/reproduce/calls.py
 * read it.
 *
 * It begins with CALLS_MAGIC, then the size of the command in 4 bytes, the least first, then the command: its words, each with a zero byte.
 * Then come entries up to LOG_END; then lines of text, which the reporter writes.
 *
 * An entry is a byte with its kind and the SAME_ flags; then, for each flag that is not set, a number: a thread, an object, a site. A flag
 * says that the number is that of the entry before; the object, that of the last call if the entry is a call, else that of the last event.
 * At first they are 0. A number has 7 bits in each byte, the least first; 128 is added to all its bytes but the last. */
#include <stdint.h>

#define CALLS_MAGIC "goodcalls 2\n"
enum { LOG_KINDS = 32, SAME_THREAD = 32, SAME_OBJECT = 64, SAME_SITE = 128 };

/* Kinds below LOG_EVENT are calls of the program, with the numbers of ring.h: the object of a fork or a join is a thread, that of another call
 * the number of a lock, a condition or the like in the log. */
enum logged_kind {
    LOG_EVENT = 22,  /* and 5 more: an event f j a r d w, of the last call. The first thread is 0, as in the first window */
    LOG_OTHER = 28,  /* the events after it are of no call */
    LOG_EXEC,        /* another program begins in the process */
    LOG_CUT,         /* the log is not whole; `object` says why */
    LOG_END,
};
enum why_cut { CUT_LONG = 1, CUT_UNWRITTEN, NO_LOG };

/* Locks from this number on mark an acquire that does not wait, or not without end. */
#define FIRST_MARKER 3000000000u
