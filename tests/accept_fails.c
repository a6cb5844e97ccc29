/* A library for LD_PRELOAD: the first calls of accept4 fail, each with the next number of ACCEPT_ERRORS, which spaces separate. Each of them
   waits for a connection first, and leaves it to a later call. */
#define _GNU_SOURCE
#include <dlfcn.h>
#include <errno.h>
#include <poll.h>
#include <stdlib.h>
#include <sys/socket.h>

int accept4(int listener, struct sockaddr *address, socklen_t *length, int flags) {
    static char *errors;
    if (!errors) errors = getenv("ACCEPT_ERRORS");
    char *end = errors;
    long error = errors ? strtol(errors, &end, 10) : 0;
    if (end != errors) {
        errors = end;
        struct pollfd waiting = {.fd = listener, .events = POLLIN};
        poll(&waiting, 1, -1);
        errno = (int)error;
        return -1;
    }
    int (*real)(int, struct sockaddr *, socklen_t *, int) = (int (*)(int, struct sockaddr *, socklen_t *, int))dlsym(RTLD_NEXT, "accept4");
    return real(listener, address, length, flags);
}
