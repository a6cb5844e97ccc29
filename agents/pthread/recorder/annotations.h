/* What annotations.c does for a lock of the program's own. The flags are those of goodlock.h. What the thread reads and writes between `will`
 * and `has` is that of the lock itself: it is not followed. */
#include "recorder.h"

#define CALL_SITE __builtin_return_address(0), __builtin_frame_address(0)

void annotate_will_lock(const volatile void *lock, unsigned flags, void *caller, void *frame);
void annotate_has_locked(const volatile void *lock, unsigned flags, void *caller, void *frame);
void annotate_has_failed(void);
void annotate_will_unlock(const volatile void *lock, unsigned flags, void *caller, void *frame);
void annotate_has_unlocked(void);
void annotate_object(enum kind kind, const volatile void *object, void *caller, void *frame);
