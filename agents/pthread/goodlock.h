/* Annotations for locks of your own: goodlock then records them as it records a mutex of pthreads. Without goodlock each one costs a test of an
 * address, and nothing has to be linked.
 *
 *     void lock(struct lock *it) {
 *         GOODLOCK_WILL_LOCK(it, 0);
 *         while (atomic_exchange(&it->is_held, 1)) continue;
 *         GOODLOCK_HAS_LOCKED(it, 0);
 *     }
 *
 *     void unlock(struct lock *it) {
 *         GOODLOCK_WILL_UNLOCK(it, 0);
 *         atomic_store(&it->is_held, 0);
 *         GOODLOCK_HAS_UNLOCKED(it);
 *     }
 *
 * The address of the lock is its name. The two annotations of a call are in the same thread, one after the other; further calls may be between.
 * In a program for which the compiler has an option -fsanitize=thread, you can also use __tsan_mutex_pre_lock and the like. */
#ifndef GOODLOCK_H
#define GOODLOCK_H

/* The same flags for all annotations of a call. A lock with readers needs one of the first two in each call. */
enum {
    GOODLOCK_WRITES = 1, /* as the writer of a reader-writer lock */
    GOODLOCK_READS = 2,  /* as a reader */
    GOODLOCK_TRIES = 4   /* the call does not wait: a deadlock cannot happen there */
};

#define GOODLOCK_WILL_LOCK(lock, flags) GOODLOCK_CALL(goodlock_will_lock, (lock, flags))
#define GOODLOCK_HAS_LOCKED(lock, flags) GOODLOCK_CALL(goodlock_has_locked, (lock, flags))
/* Instead, if a call that tries has not got the lock. */
#define GOODLOCK_HAS_FAILED(lock) GOODLOCK_CALL(goodlock_has_failed, (lock))
#define GOODLOCK_WILL_UNLOCK(lock, flags) GOODLOCK_CALL(goodlock_will_unlock, (lock, flags))
#define GOODLOCK_HAS_UNLOCKED(lock) GOODLOCK_CALL(goodlock_has_unlocked, (lock))
/* The lock was initialised or destroyed: what comes at this address is another one. */
#define GOODLOCK_IS_NEW(lock) GOODLOCK_CALL(goodlock_is_new, (lock))
/* What a thread has done before it gives comes before what another one does after it takes. */
#define GOODLOCK_GIVES(object) GOODLOCK_CALL(goodlock_gives, (object))
#define GOODLOCK_TAKES(object) GOODLOCK_CALL(goodlock_takes, (object))

/* The functions are in goodlock's recorder. In a program without it their addresses are 0. On x86-64 they are read from the table that is filled
 * when the program starts: a program without -fPIE would have 0 for ever. */
#if defined(__x86_64__)
#define GOODLOCK_ADDRESS(function) __extension__({ __typeof__(&function) address_; \
    __asm__(".weak " #function "\n\tmovq " #function "@GOTPCREL(%%rip), %0" : "=r"(address_)); address_; })
#else
#define GOODLOCK_ADDRESS(function) (&function)
#endif
#define GOODLOCK_CALL(function, words) __extension__({ __typeof__(&function) call_ = GOODLOCK_ADDRESS(function); if (call_) call_ words; (void)0; })

#ifdef __cplusplus
extern "C" {
#endif
__attribute__((weak)) void goodlock_will_lock(const volatile void *lock, unsigned flags);
__attribute__((weak)) void goodlock_has_locked(const volatile void *lock, unsigned flags);
__attribute__((weak)) void goodlock_has_failed(const volatile void *lock);
__attribute__((weak)) void goodlock_will_unlock(const volatile void *lock, unsigned flags);
__attribute__((weak)) void goodlock_has_unlocked(const volatile void *lock);
__attribute__((weak)) void goodlock_is_new(const volatile void *lock);
__attribute__((weak)) void goodlock_gives(const volatile void *object);
__attribute__((weak)) void goodlock_takes(const volatile void *object);
#ifdef __cplusplus
}
#endif

#endif
