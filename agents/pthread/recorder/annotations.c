/* Locks of the program's own, as it annotates them: by goodlock.h, or in memory/annotated.c as for ThreadSanitizer. */
#include "annotations.h"
#include "../goodlock.h"

enum { MOST_NESTED = 16 };

/* The calls that this thread has begun and not ended: where they are, and their turns in a run that follows another one. */
struct call { struct site site; const struct call_of_schedule *turn; };
static THREAD_LOCAL struct { struct call calls[MOST_NESTED]; uint32_t count; } begun;

static void push(const struct site *site, const struct call_of_schedule *turn) {
    if (begun.count++ < MOST_NESTED) begun.calls[begun.count - 1] = (struct call){*site, turn == &failing_call ? NULL : turn};
}

/* Returns NULL if there is none. */
static struct call *pop(void) { return begun.count && --begun.count < MOST_NESTED ? &begun.calls[begun.count] : NULL; }

static void leave_call(const struct call *call) {
    if (call) LEAVE(call->turn);
}

static enum kind kind_of(unsigned flags) {
    int tries = flags & GOODLOCK_TRIES;
    if (flags & GOODLOCK_READS) return R_READ_LOCK;
    if (flags & GOODLOCK_WRITES) return tries ? R_WRITE_TRIED : R_WRITE_LOCK;
    return tries ? R_TRIED : R_LOCK;
}

static void begin_call(enum kind kind, const volatile void *lock, struct site *site, int may_fail) {
    push(site, schedule ? enter(kind, (uint64_t)lock, site, may_fail) : NULL);
}

static void end_wait(void) {
    show_accesses();
    if (page.ring && self != NOBODY) has_waited(&page.ring->waits[self % WAITS]);
}

void annotate_will_lock(const volatile void *lock, unsigned flags, void *caller, void *frame) {
    struct site site;
    take_site(&site, frame, caller);
    begin_call(kind_of(flags), lock, &site, flags & GOODLOCK_TRIES);
    if (!(flags & GOODLOCK_TRIES)) will_wait(WAITS_FOR_OWN_LOCK, (uint64_t)lock, &site);
    hide_accesses();
}

/* The acquire is where the call has begun. */
void annotate_has_locked(const volatile void *lock, unsigned flags, void *caller, void *frame) {
    struct site site;
    struct call *call = pop();
    end_wait();
    if (call) site = call->site;
    else take_site(&site, frame, caller);
    if ((flags & (GOODLOCK_READS | GOODLOCK_TRIES)) == (GOODLOCK_READS | GOODLOCK_TRIES)) site.stack |= READS_TRIED;
    acquired(kind_of(flags), lock, &site);
    leave_call(call);
}

void annotate_has_failed(void) {
    end_wait();
    pop();
}

void annotate_will_unlock(const volatile void *lock, unsigned flags, void *caller, void *frame) {
    enum kind kind = flags & (GOODLOCK_READS | GOODLOCK_WRITES) ? R_UNLOCK_EITHER : R_UNLOCK;
    struct site site;
    take_site(&site, frame, caller);
    begin_call(kind, lock, &site, 0);
    tell(kind, lock, site.stack, &site);
    hide_accesses();
}

void annotate_has_unlocked(void) {
    show_accesses();
    leave_call(pop());
}

/* R_NEW, R_GIVE or R_TAKE. */
void annotate_object(enum kind kind, const volatile void *object, void *caller, void *frame) {
    struct site site;
    take_site(&site, frame, caller);
    const struct call_of_schedule *turn = kind == R_NEW ? NULL : ENTER(kind, object, 0);
    tell(kind, object, 0, &site);
    LEAVE(turn);
}

/* ---- goodlock.h ---- */

EXPORT void goodlock_will_lock(const volatile void *lock, unsigned flags) { annotate_will_lock(lock, flags, CALL_SITE); }
EXPORT void goodlock_has_locked(const volatile void *lock, unsigned flags) { annotate_has_locked(lock, flags, CALL_SITE); }
EXPORT void goodlock_has_failed(const volatile void *lock) { (void)lock, annotate_has_failed(); }
EXPORT void goodlock_will_unlock(const volatile void *lock, unsigned flags) { annotate_will_unlock(lock, flags, CALL_SITE); }
EXPORT void goodlock_has_unlocked(const volatile void *lock) { (void)lock, annotate_has_unlocked(); }
EXPORT void goodlock_is_new(const volatile void *lock) { annotate_object(R_NEW, lock, CALL_SITE); }
EXPORT void goodlock_gives(const volatile void *object) { annotate_object(R_GIVE, object, CALL_SITE); }
EXPORT void goodlock_takes(const volatile void *object) { annotate_object(R_TAKE, object, CALL_SITE); }
