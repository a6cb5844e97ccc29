/* Shared by the files of the recorder that make a run follow a schedule: follow.c its lanes, pause.c the pauses of a run without a witness. */
#include "recorder.h"
#include "../shared/schedule.h"

extern const struct schedule *schedule; /* NULL: the program runs alone */
extern struct parts parts;

/* One thread at a time is between these two. Calls that it makes there are not the program's. */
void enter_state(void);
void leave_state(void);
/* Waits up to 10 ms, outside. Ends the schedule if the collector has ended. */
void nap(void);
/* Whether nobody is held any more. */
int is_over(void);
/* Whether a call is at this place of the schedule. */
int is_at(uint32_t site, uint64_t caller);
/* The lane of this thread, or NOBODY if it has none. */
uint32_t own_lane(void);
extern struct status *status;

/* ---- pause.c ---- */

void pause_before(enum kind kind, uint64_t object, struct site *site);
