/* Annotations as for ThreadSanitizer: of locks of the program's own, as absl, folly and Qt have them, and of orders. What only matters for races
 * does nothing here. */
#include "../annotations.h"
#include "../../goodlock.h"

#include <string.h>

enum { READ_LOCK = 1 << 3, TRY_LOCK = 1 << 4, TRY_FAILED = 1 << 5 }; /* of tsan_interface.h */

static unsigned flags_of(unsigned flags) {
    return (flags & READ_LOCK ? GOODLOCK_READS : GOODLOCK_WRITES) | (flags & TRY_LOCK ? GOODLOCK_TRIES : 0);
}

EXPORT void __tsan_mutex_create(void *lock, unsigned flags) { (void)flags, annotate_object(R_NEW, lock, CALL_SITE); }
EXPORT void __tsan_mutex_destroy(void *lock, unsigned flags) { (void)flags, annotate_object(R_NEW, lock, CALL_SITE); }
EXPORT void __tsan_mutex_pre_lock(void *lock, unsigned flags) { annotate_will_lock(lock, flags_of(flags), CALL_SITE); }
EXPORT void __tsan_mutex_post_lock(void *lock, unsigned flags, int depth) {
    (void)depth;
    if (flags & TRY_FAILED) annotate_has_failed();
    else annotate_has_locked(lock, flags_of(flags), CALL_SITE);
}
EXPORT int __tsan_mutex_pre_unlock(void *lock, unsigned flags) {
    annotate_will_unlock(lock, flags_of(flags), CALL_SITE);
    return 0;
}
EXPORT void __tsan_mutex_post_unlock(void *lock, unsigned flags) { (void)lock, (void)flags, annotate_has_unlocked(); }
EXPORT void __tsan_mutex_pre_signal(void *lock, unsigned flags) { (void)lock, (void)flags, hide_accesses(); }
EXPORT void __tsan_mutex_post_signal(void *lock, unsigned flags) { (void)lock, (void)flags, show_accesses(); }
EXPORT void __tsan_mutex_pre_divert(void *lock, unsigned flags) { (void)lock, (void)flags, show_accesses(); }
EXPORT void __tsan_mutex_post_divert(void *lock, unsigned flags) { (void)lock, (void)flags, hide_accesses(); }
EXPORT void __tsan_acquire(void *object) { annotate_object(R_TAKE, object, CALL_SITE); }
EXPORT void __tsan_release(void *object) { annotate_object(R_GIVE, object, CALL_SITE); }

/* ---- the older functions, with the line of the call ---- */

typedef const char *text;
typedef const volatile void *memory;

EXPORT void AnnotateRWLockCreate(text file, int line, memory lock) { (void)file, (void)line, annotate_object(R_NEW, lock, CALL_SITE); }
EXPORT void AnnotateRWLockCreateStatic(text file, int line, memory lock) { (void)file, (void)line, (void)lock; }
EXPORT void AnnotateRWLockDestroy(text file, int line, memory lock) { (void)file, (void)line, annotate_object(R_NEW, lock, CALL_SITE); }
EXPORT void AnnotateRWLockAcquired(text file, int line, memory lock, long writes) {
    (void)file, (void)line;
    annotate_will_lock(lock, writes ? GOODLOCK_WRITES : GOODLOCK_READS, CALL_SITE);
    annotate_has_locked(lock, writes ? GOODLOCK_WRITES : GOODLOCK_READS, CALL_SITE);
}
EXPORT void AnnotateRWLockReleased(text file, int line, memory lock, long writes) {
    (void)file, (void)line;
    annotate_will_unlock(lock, writes ? GOODLOCK_WRITES : GOODLOCK_READS, CALL_SITE);
    annotate_has_unlocked();
}
EXPORT void AnnotateHappensBefore(text file, int line, memory object) { (void)file, (void)line, annotate_object(R_GIVE, object, CALL_SITE); }
EXPORT void AnnotateHappensAfter(text file, int line, memory object) { (void)file, (void)line, annotate_object(R_TAKE, object, CALL_SITE); }

/* ---- what does nothing: a program may still call it ---- */

#define NOTHING(X) X(__tsan_ignore_thread_begin) X(__tsan_ignore_thread_end) X(__tsan_flush_memory) X(__tsan_on_report) X(__tsan_destroy_fiber) \
    X(__tsan_switch_to_fiber) X(__tsan_set_fiber_name) X(__tsan_external_register_header) X(__tsan_external_assign_tag) \
    X(__tsan_external_read) X(__tsan_external_write) X(AnnotateBenignRace) X(AnnotateBenignRaceSized) X(AnnotateCondVarSignal) \
    X(AnnotateCondVarSignalAll) X(AnnotateCondVarWait) X(AnnotateEnableRaceDetection) X(AnnotateExpectRace) X(AnnotateFlushExpectedRaces) \
    X(AnnotateFlushState) X(AnnotateIgnoreReadsBegin) X(AnnotateIgnoreReadsEnd) X(AnnotateIgnoreSyncBegin) X(AnnotateIgnoreSyncEnd) \
    X(AnnotateIgnoreWritesBegin) X(AnnotateIgnoreWritesEnd) X(AnnotateMemoryIsInitialized) X(AnnotateMemoryIsUninitialized) \
    X(AnnotateMutexIsNotPHB) X(AnnotateMutexIsUsedAsCondVar) X(AnnotateNewMemory) X(AnnotateNoOp) X(AnnotatePCQCreate) X(AnnotatePCQDestroy) \
    X(AnnotatePCQGet) X(AnnotatePCQPut) X(AnnotatePublishMemoryRange) X(AnnotateThreadName) X(AnnotateTraceMemory) \
    X(AnnotateUnpublishMemoryRange) X(__sanitizer_acquire_crash_state) X(__sanitizer_on_print) X(__sanitizer_print_stack_trace) \
    X(__sanitizer_report_error_summary) X(__sanitizer_sandbox_on_notify) X(__sanitizer_set_death_callback) X(__sanitizer_set_report_fd) \
    X(__sanitizer_set_report_path) X(__sanitizer_symbolize_global) X(__sanitizer_symbolize_pc) X(__sanitizer_weak_hook_memcmp) \
    X(__sanitizer_weak_hook_strcmp) X(__sanitizer_weak_hook_strncmp) X(__sanitizer_weak_hook_strcasecmp) X(__sanitizer_weak_hook_strncasecmp) \
    X(__sanitizer_weak_hook_memmem) X(__sanitizer_weak_hook_strstr) X(__sanitizer_weak_hook_strcasestr) X(__sanitizer_malloc_hook) \
    X(__sanitizer_free_hook) X(__sanitizer_cov_dump) X(__sanitizer_cov_reset) X(__sanitizer_dump_coverage) \
    X(__sanitizer_dump_trace_pc_guard_coverage) X(__sanitizer_cov_8bit_counters_init) X(__sanitizer_cov_bool_flag_init) \
    X(__sanitizer_cov_pcs_init) X(__sanitizer_cov_trace_pc_guard) X(__sanitizer_cov_trace_pc_guard_init) X(__sanitizer_cov_trace_pc_indir) \
    X(__sanitizer_cov_trace_cmp) X(__sanitizer_cov_trace_cmp1) X(__sanitizer_cov_trace_cmp2) X(__sanitizer_cov_trace_cmp4) \
    X(__sanitizer_cov_trace_cmp8) X(__sanitizer_cov_trace_const_cmp1) X(__sanitizer_cov_trace_const_cmp2) \
    X(__sanitizer_cov_trace_const_cmp4) X(__sanitizer_cov_trace_const_cmp8) X(__sanitizer_cov_trace_div4) X(__sanitizer_cov_trace_div8) \
    X(__sanitizer_cov_trace_gep) X(__sanitizer_cov_trace_switch)
#define DOES_NOTHING(name) EXPORT void name(void) {}
NOTHING(DOES_NOTHING)

/* As for a program that uses none of it: no memory of the allocator, no fiber, no report. */
#define ZERO(X) X(__tsan_create_fiber) X(__tsan_get_current_fiber) X(__tsan_external_register_tag) X(RunningOnValgrind) \
    X(__sanitizer_get_allocated_size) X(__sanitizer_get_current_allocated_bytes) X(__sanitizer_get_estimated_allocated_size) \
    X(__sanitizer_get_free_bytes) X(__sanitizer_get_heap_size) X(__sanitizer_get_ownership) X(__sanitizer_get_unmapped_bytes) \
    X(__sanitizer_install_malloc_and_free_hooks) X(__sanitizer_get_module_and_offset_for_pc) X(__sanitizer_get_report_path)
#define IS_ZERO(name) EXPORT uint64_t name(void) { return 0; }
ZERO(IS_ZERO)

EXPORT text ThreadSanitizerQuery(text query) { return strcmp(query, "pure_happens_before") ? "0" : "1"; }
