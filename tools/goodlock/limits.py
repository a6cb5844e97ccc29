"""The limits of the formats (docs/formats.md), and the numbers that the agents choose (docs/agents.md). The tests compare
agents/pthread/shared/limits.h with it."""

LARGEST = 4_294_967_295  # number of a thread, a lock or a variable
NUMBER = r"(0|[1-9][0-9]{0,9})"  # as text; it may be larger
MOST_EVENTS = 1_048_576
MOST_THREADS = 1_024
MOST_HELD = 32
MOST_DEPTH = 255
MOST_HELD_OF_RUN = 1_024  # by a thread of a run that tools/reduce reads
LEAST_BOUND, MOST_BOUND = 2, 8

# In a window after the first one the program's first thread is FIRST_THREAD. Helpers are artificial threads. Markers are locks that mark
# an acquire: one that does not wait from TRY_MARKERS on, one with a timeout from TIMED_MARKERS on.
FIRST_THREAD, HELPERS, TRY_MARKERS, TIMED_MARKERS = 1_000_000_000, 2_000_000_000, 3_000_000_000, 3_500_000_000
WAKE_UPS = 2_500_000_000  # locks from here on are for threads that wake others
ENDS_OF_THREADS = 2_000_000_000  # thread N holds lock ENDS_OF_THREADS + N until it ends, if a holder of locks joins it

# Variables that stand for values which threads read: those of atomics, then those of plain memory and of predicates of conditions. There are at
# most MOST_VALUES of each kind. A trace says by a comment that it has such variables: Values in traces.py.
ATOMIC_VALUES, PLAIN_VALUES = 1_000_000_000, 2_000_000_000
MOST_VALUES = 1_000_000_000
END_OF_VALUES = PLAIN_VALUES + MOST_VALUES
