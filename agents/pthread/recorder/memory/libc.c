/* Functions of the C library that read or write memory for the program, and those that a program finds in the runtime of ThreadSanitizer: it
 * calls them without a version, and would get those of long ago. */
#include "memory.h"

#include <glob.h>
#include <regex.h>
#include <sched.h>
#include <stdio.h>
#include <stdlib.h>
#include <string.h>
#include <sys/mman.h>
#include <stdarg.h>

#define REALS(X) X(memcpy) X(memmove) X(memset) X(memcmp) X(memchr) X(strlen) X(strcmp) X(strncmp) X(strcpy) X(strncpy) X(strcat) X(strchr) \
    X(mremap) X(pthread_cond_init) X(pthread_cond_destroy) X(realpath) X(sched_getaffinity) X(pthread_attr_getaffinity_np) X(glob) X(glob64) \
    X(fmemopen) X(regexec)
#define DECLARE(name) static __typeof__(&name) real_##name;
REALS(DECLARE)
#define REAL(name) ({ if (!real_##name) real_##name = (__typeof__(&name))dlsym(RTLD_NEXT, #name); real_##name; })

/* ---- copies; these three are called before dlsym works ---- */

static void *copy_up(void *to, const void *from, size_t size) {
    void *at = to;
    __asm__ volatile("rep movsb" : "+D"(at), "+S"(from), "+c"(size) : : "memory");
    return to;
}
static void *copy_down(void *to, const void *from, size_t size) {
    char *at = (char *)to + size - 1;
    from = (const char *)from + size - 1;
    __asm__ volatile("std; rep movsb; cld" : "+D"(at), "+S"(from), "+c"(size) : : "memory");
    return to;
}
static void *fill(void *to, int byte, size_t size) {
    void *at = to;
    __asm__ volatile("rep stosb" : "+D"(at), "+c"(size) : "a"(byte) : "memory");
    return to;
}

__attribute__((constructor)) static void find_reals(void) {
#define FIND(name) (void)REAL(name);
    REALS(FIND)
}

static void copies(const void *to, const void *from, size_t size, void *caller, void *frame) {
    touch_if(from, size, READS, caller, frame);
    touch_if(to, size, WRITES, caller, frame);
}

INLINE void *copy(void *to, const void *from, size_t size, void *caller, void *frame) {
    copies(to, from, size, caller, frame);
    return real_memcpy ? real_memcpy(to, from, size) : copy_up(to, from, size);
}
INLINE void *move(void *to, const void *from, size_t size, void *caller, void *frame) {
    copies(to, from, size, caller, frame);
    if (real_memmove) return real_memmove(to, from, size);
    return (uint64_t)to - (uint64_t)from >= size ? copy_up(to, from, size) : copy_down(to, from, size);
}
INLINE void *set(void *to, int byte, size_t size, void *caller, void *frame) {
    touch_if(to, size, WRITES, caller, frame);
    return real_memset ? real_memset(to, byte, size) : fill(to, byte, size);
}
EXPORT void *memcpy(void *to, const void *from, size_t size) { return copy(to, from, size, CALLER); }
EXPORT void *memmove(void *to, const void *from, size_t size) { return move(to, from, size, CALLER); }
EXPORT void *memset(void *to, int byte, size_t size) { return set(to, byte, size, CALLER); }
EXPORT void *__tsan_memcpy(void *to, const void *from, size_t size) { return copy(to, from, size, CALLER); }
EXPORT void *__tsan_memmove(void *to, const void *from, size_t size) { return move(to, from, size, CALLER); }
EXPORT void *__tsan_memset(void *to, int byte, size_t size) { return set(to, byte, size, CALLER); }

/* Pages that move take along what was written in them. */
EXPORT void *mremap(void *memory, size_t size, size_t new_size, int flags, ...) {
    va_list list;
    va_start(list, flags);
    void *wanted = flags & MREMAP_FIXED ? va_arg(list, void *) : NULL, *after;
    va_end(list);
    touch_if(memory, size, READS, CALLER);
    after = REAL(mremap)(memory, size, new_size, flags, wanted);
    if (after != MAP_FAILED && after != memory) touch_if(after, size < new_size ? size : new_size, WRITES, CALLER);
    return after;
}

/* ---- texts ---- */

static void reads_text(const char *text, size_t most, void *caller, void *frame) {
    if (!me.cell || !follows_plain) return;
    size_t length = strnlen(text, most);
    touch((uint64_t)text, length < most ? length + 1 : length, READS, caller, frame);
}
static void copies_text(char *to, const char *from, size_t most, void *caller, void *frame) {
    if (!me.cell || !follows_plain) return;
    size_t length = strnlen(from, most);
    copies(to, from, length < most ? length + 1 : length, caller, frame);
}

EXPORT int memcmp(const void *one, const void *other, size_t size) {
    touch_if(one, size, READS, CALLER), touch_if(other, size, READS, CALLER);
    return REAL(memcmp)(one, other, size);
}
EXPORT void *memchr(const void *memory, int byte, size_t size) {
    void *found = REAL(memchr)(memory, byte, size);
    touch_if(memory, found ? (size_t)((char *)found - (const char *)memory) + 1 : size, READS, CALLER);
    return found;
}
EXPORT size_t strlen(const char *text) {
    size_t length = REAL(strlen)(text);
    touch_if(text, length + 1, READS, CALLER);
    return length;
}
EXPORT int strcmp(const char *one, const char *other) {
    reads_text(one, SIZE_MAX, CALLER), reads_text(other, SIZE_MAX, CALLER);
    return REAL(strcmp)(one, other);
}
EXPORT int strncmp(const char *one, const char *other, size_t most) {
    reads_text(one, most, CALLER), reads_text(other, most, CALLER);
    return REAL(strncmp)(one, other, most);
}
EXPORT char *strchr(const char *text, int letter) {
    reads_text(text, SIZE_MAX, CALLER);
    return REAL(strchr)(text, letter);
}
EXPORT char *strcpy(char *to, const char *from) {
    copies_text(to, from, SIZE_MAX, CALLER);
    return REAL(strcpy)(to, from);
}
EXPORT char *strncpy(char *to, const char *from, size_t most) {
    copies_text(to, from, most, CALLER);
    return REAL(strncpy)(to, from, most);
}
EXPORT char *strcat(char *to, const char *from) {
    if (me.cell) copies_text(to + strnlen(to, SIZE_MAX), from, SIZE_MAX, CALLER);
    return REAL(strcat)(to, from);
}

/* ---- the newest version ---- */

#define NEWEST(result, name, parameters, ...) EXPORT result name parameters { return REAL(name)(__VA_ARGS__); }
NEWEST(int, pthread_cond_init, (pthread_cond_t *condition, const pthread_condattr_t *attributes), condition, attributes)
NEWEST(int, pthread_cond_destroy, (pthread_cond_t *condition), condition)
NEWEST(char *, realpath, (const char *path, char *result), path, result)
NEWEST(int, sched_getaffinity, (pid_t process, size_t size, cpu_set_t *set), process, size, set)
NEWEST(int, pthread_attr_getaffinity_np, (const pthread_attr_t *attributes, size_t size, cpu_set_t *set), attributes, size, set)
NEWEST(int, glob, (const char *pattern, int flags, int (*fails)(const char *, int), glob_t *result), pattern, flags, fails, result)
NEWEST(int, glob64, (const char *pattern, int flags, int (*fails)(const char *, int), glob64_t *result), pattern, flags, fails, result)
NEWEST(FILE *, fmemopen, (void *memory, size_t size, const char *mode), memory, size, mode)
NEWEST(int, regexec, (const regex_t *expression, const char *text, size_t count, regmatch_t matches[count], int flags), expression, text, count,
       matches, flags)
