/* What a run follows, and how far it is: memory that the recorder in the program shares with the collector. The first part, struct status,
 * is written by both. After it comes the schedule, which tools/goodlock/reproduce/schedule.py makes: struct schedule, then its lanes, calls,
 * owners of turns, code addresses, files and members.
 *
 * A lane has the calls that a thread made in the recorded run, in their order. A turn is the number of a call in the order to follow. */
#include <stdint.h>

#define SCHEDULE_MAGIC 0x31646568637321ULL
enum { MOST_LANES = 1024, MOST_MEMBERS = 8, MOST_HOLDS = 32, FILE_NAME = 64, BUILD_ID = 32, MOST_CALLS = 1 << 28 };
enum { FREE = 0, HELD = -1, REACH = -2 };       /* turns: it has no event to order; it is not in the order; a member gets stuck here */
enum { GO_ON, LOOSEN, RELEASE };                /* commands: hold all; hold only what the witness needs; hold nobody */
enum { FOLLOWS = 1, CLOSED, DIVERGED, ESCAPED }; /* states of a run. ESCAPED: a member has got the lock for which it should have waited */
enum { UNSEEN, OUTSIDE, WAITS_FOR_TURN, HELD_BACK, ARRIVED, IN_CALL, ENDED }; /* places of a thread */

struct status {
    uint64_t magic;
    uint32_t command;                            /* of the collector; the rest is of the program */
    uint32_t state, turn, arrived, skipped, extra;
    struct { uint32_t lane, next, kind, object; uint64_t caller; } divergence; /* object: of the schedule, 0 if it has none */
    struct { uint32_t tid, next, place, pauses; } lanes[MOST_LANES];
    uint8_t rest[8136];
};
_Static_assert(sizeof(struct status) == 24576, "the schedule begins at a page");

struct lane_of_schedule { uint32_t is_listed, parent, child_of, first, count, needed, wanted, unused; }; /* child_of: which fork of its parent */
struct call_of_schedule { uint32_t kind, object, site; int32_t turn; };
struct site_of_schedule { uint64_t offset; uint32_t file, is_known; };
struct file_of_schedule { char name[FILE_NAME]; uint8_t id[BUILD_ID]; uint64_t id_size; };
struct member_of_schedule { uint32_t wait, holds, hold[MOST_HOLDS]; }; /* sites */
struct schedule {
    uint64_t magic;
    uint32_t lanes, calls, turns, sites, files, members, objects;
    uint32_t pause;                              /* milliseconds; 0: the run follows the lanes */
    uint32_t pauses_early, unused[5];
};
_Static_assert(sizeof(struct schedule) == 64 && sizeof(struct lane_of_schedule) == 32 && sizeof(struct call_of_schedule) == 16 &&
               sizeof(struct site_of_schedule) == 16 && sizeof(struct file_of_schedule) == 104 && sizeof(struct member_of_schedule) == 136,
               "schedule.py");

/* The parts of a schedule. */
struct parts {
    const struct lane_of_schedule *lanes;
    const struct call_of_schedule *calls;
    const struct site_of_schedule *sites;
    const struct file_of_schedule *files;
    const struct member_of_schedule *members;
    const uint32_t *owners;                      /* of turns 0 to `turns` */
};

/* Finds the parts. Returns 0 if these bytes are no schedule: the file may be any. */
static inline int find_parts(const struct schedule *it, uint64_t size, struct parts *to) {
    if (size < sizeof *it || it->magic != SCHEDULE_MAGIC || it->lanes > MOST_LANES || it->calls > MOST_CALLS || it->turns > it->calls ||
        it->sites > MOST_CALLS || it->files > MOST_CALLS || it->members > MOST_MEMBERS || it->objects > it->calls) return 0;
    uint64_t owners = ((uint64_t)it->turns + 2) & ~1ULL;
    if (size != sizeof *it + it->lanes * sizeof *to->lanes + it->calls * sizeof *to->calls + owners * sizeof *to->owners +
                it->sites * sizeof *to->sites + it->files * sizeof *to->files + it->members * sizeof *to->members) return 0;
    to->lanes = (const struct lane_of_schedule *)(it + 1);
    to->calls = (const struct call_of_schedule *)(to->lanes + it->lanes);
    to->owners = (const uint32_t *)(to->calls + it->calls);
    to->sites = (const struct site_of_schedule *)(to->owners + owners);
    to->files = (const struct file_of_schedule *)(to->sites + it->sites);
    to->members = (const struct member_of_schedule *)(to->files + it->files);
    for (uint32_t at = 0; at < it->lanes; at++)
        if (to->lanes[at].first > it->calls || to->lanes[at].count > it->calls - to->lanes[at].first) return 0;
    for (uint32_t at = 0; at < it->calls; at++)
        if (to->calls[at].site >= it->sites || to->calls[at].turn < REACH || to->calls[at].turn > (int32_t)it->turns) return 0;
    for (uint32_t at = 0; at <= it->turns; at++) if (to->owners[at] >= it->lanes) return 0;
    for (uint32_t at = 0; at < it->sites; at++) if (to->sites[at].is_known && to->sites[at].file >= it->files) return 0;
    for (uint32_t at = 0; at < it->files; at++) if (to->files[at].id_size > BUILD_ID || to->files[at].name[FILE_NAME - 1]) return 0;
    for (uint32_t at = 0; at < it->members; at++) {
        if (to->members[at].wait >= it->sites || to->members[at].holds > MOST_HOLDS) return 0;
        for (uint32_t hold = 0; hold < to->members[at].holds; hold++) if (to->members[at].hold[hold] >= it->sites) return 0;
    }
    return 1;
}
