/* The names that a program gives its threads. */
#include "recorder.h"

#include <string.h>

enum { SET_NAME = 15, MOST_NAME = 16 }; /* PR_SET_NAME: its header declares prctl in another way */

/* The name is in two words of the record, so it needs no memory. `handle`: of the thread, 0 for this one. */
static void tell_title(uint64_t handle, const char *name) {
    struct site site = {.count = 1, .callers = {handle}};
    uint64_t words[2] = {0, 0};
    memcpy(words, name, strnlen(name, MOST_NAME - 1));
    tell(R_TITLE, (void *)words[0], words[1], &site);
}

EXPORT int pthread_setname_np(pthread_t handle, const char *name) {
    static int (*real)(pthread_t, const char *);
    if (!real) real = (int (*)(pthread_t, const char *))dlsym(RTLD_NEXT, "pthread_setname_np");
    int error = real(handle, name);
    if (!error && page.ring) tell_title((uint64_t)handle, name);
    return error;
}

EXPORT int prctl(int option, unsigned long first, unsigned long second, unsigned long third, unsigned long fourth) {
    static int (*real)(int, unsigned long, unsigned long, unsigned long, unsigned long);
    if (!real) real = (int (*)(int, unsigned long, unsigned long, unsigned long, unsigned long))dlsym(RTLD_NEXT, "prctl");
    int error = real(option, first, second, third, fourth);
    if (!error && option == SET_NAME && page.ring) tell_title(0, (const char *)first);
    return error;
}
