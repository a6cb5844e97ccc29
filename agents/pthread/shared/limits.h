/* The limits of a trace, and the numbers that the agent chooses. tools/goodlock/limits.py has the same: tests/unit compares them. */

enum { MOST_EVENTS = 1048576, MOST_THREADS = 1024, MOST_HELD = 32, MOST_DEPTH = 255 };

/* FIRST_THREAD: the program's first thread in a window after the first one. HELPERS: artificial threads. Markers are locks that mark an
 * acquire that does not wait, or one with a timeout. */
#define FIRST_THREAD 1000000000u
#define HELPERS 2000000000u
#define TRY_MARKERS 3000000000u
#define TIMED_MARKERS 3500000000u

/* Variables from here on stand for values that threads read: those of atomics, and those of plain memory and of predicates of conditions. */
#define ATOMIC_VALUES 1000000000u
#define PLAIN_VALUES 2000000000u
