/* A run without a witness: a thread that is at a member's acquire, and holds the locks that this member holds, pauses there. If the threads of
 * all members come to their acquires meanwhile, they wait for each other. When a thread has paused for SURE_MS, each further pause makes its next
 * ones rarer: the acquires may be in a loop. */
#include "follow.h"

#include <time.h>

enum { NAP_MS = 10, SURE_MS = 2000 };

static THREAD_LOCAL struct { uint64_t lock, caller; } held[MOST_HOLDS];
static THREAD_LOCAL uint32_t held_count, seed;

static int holds_from(uint32_t site) {
    for (uint32_t at = 0; at < held_count; at++) if (is_at(site, held[at].caller)) return 1;
    return 0;
}

/* 1 if the thread is at a member's acquire and holds what this member holds, 2 if it is at an acquire of what a member holds, else 0. In some
 * runs threads pause there too: the others may need that lock to come to their places. */
static uint32_t role_at(uint64_t caller) {
    uint32_t role = 0;
    for (uint32_t member = 0; member < schedule->members; member++) {
        const struct member_of_schedule *it = &parts.members[member];
        uint32_t holds = 0;
        for (uint32_t at = 0; at < it->holds; at++) {
            holds += (uint32_t)holds_from(it->hold[at]);
            if (schedule->pauses_early && is_at(it->hold[at], caller)) role = 2;
        }
        if (holds == it->holds && is_at(it->wait, caller)) return 1;
    }
    return role;
}

static void forget_held(uint64_t lock) {
    for (uint32_t at = held_count; at-- > 0;)
        if (held[at].lock == lock) {
            held[at] = held[--held_count];
            return;
        }
}

static uint32_t draw(uint32_t below) {
    if (!seed) seed = self * 2654435761u ^ (uint32_t)time(NULL) ^ 1;
    seed = seed * 1664525 + 1013904223;
    return (seed >> 8) % below;
}

void pause_before(enum kind kind, uint64_t object, struct site *site) {
    if (kind == R_UNLOCK || kind == R_UNLOCK_EITHER) forget_held(object);
    if ((kind != R_LOCK && kind != R_WRITE_LOCK && kind != R_READ_LOCK) || is_over()) return;
    uint32_t role = role_at(site->callers[0]);
    if (!role) return;
    uint32_t pauses = ++status->lanes[self].pauses, sure = SURE_MS / schedule->pause;
    if (draw(role * (pauses > sure ? pauses - sure + 1 : 1))) return;
    enter_state();
    for (uint32_t naps = schedule->pause / NAP_MS; naps-- > 0 && !is_over();) nap();
    leave_state();
}

void note_acquired(uint64_t object, uint64_t caller) {
    if (schedule->pause && own_lane() != NOBODY && held_count < MOST_HOLDS) held[held_count].lock = object, held[held_count++].caller = caller;
}
