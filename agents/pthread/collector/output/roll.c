/* Asks tools/with_server --roll for the server of each window, by lines at a Unix socket that GOODLOCKD_ROLL names. The environment
 * may name any socket: each reply is checked, and waited for 5 seconds. */
#include "../collector.h"

#include <errno.h>
#include <poll.h>
#include <sys/socket.h>
#include <sys/un.h>

enum { REPLY_MILLISECONDS = 5000, MOST_LINE = 80, MOST_LINES = 16 };

static int roller = -1;
static char line[MOST_LINE]; /* the beginning of a line that has arrived */
static size_t line_length;
static int is_wanted;

static void leave_roller(const char *why) {
    if (roller >= 0) close(roller);
    roller = -1, is_wanted = 0;
    if (why) say("%s: no further window gets a server; the program runs on", why);
}

int find_roller(const char *address) {
    const char *path = getenv("GOODLOCKD_ROLL"), *of = getenv("GOODLOCKD");
    struct sockaddr_un to = {.sun_family = AF_UNIX};
    if (!path || !of || strcmp(of, address) || strlen(path) >= sizeof to.sun_path) return 0;
    strcpy(to.sun_path, path);
    roller = socket(AF_UNIX, SOCK_STREAM | SOCK_CLOEXEC | SOCK_NONBLOCK, 0);
    if (roller < 0 || connect(roller, (struct sockaddr *)&to, sizeof to) < 0) leave_roller("tools/with_server --roll does not reply");
    return roller >= 0;
}

int has_roller(void) { return roller >= 0; }

/* Reads a line, until a time or only what is there. Returns 0 if there is none. */
static int read_line(char to[MOST_LINE], uint64_t until) {
    for (;;) {
        char byte;
        ssize_t more = recv(roller, &byte, 1, 0);
        if (more == 0 || (more < 0 && errno != EAGAIN && errno != EINTR)) { leave_roller("tools/with_server --roll has ended"); return 0; }
        if (more < 0) {
            struct pollfd one = {.fd = roller, .events = POLLIN};
            uint64_t at = now();
            if (at >= until) return 0;
            poll(&one, 1, (int)(until - at));
            continue;
        }
        if (byte != '\n' && line_length < MOST_LINE - 1) { line[line_length++] = byte; continue; }
        line[line_length] = 0, line_length = 0;
        strcpy(to, line);
        return 1;
    }
}

/* The answer to a window: an address, or an empty text if no server has room. Returns 0 if there is none. */
static int read_address(char to[MOST_LINE]) {
    char text[MOST_LINE];
    for (uint64_t until = now() + REPLY_MILLISECONDS; roller >= 0 && now() < until && read_line(text, until);) {
        to[0] = 0;
        if (!strcmp(text, "none")) return 1;
        if (!strncmp(text, "server ", 7)) { strcpy(to, text + 7); return 1; }
    }
    if (roller >= 0) leave_roller("tools/with_server --roll does not reply");
    return 0;
}

const char *address_of_window(uint32_t number, uint64_t first) {
    static char address[MOST_LINE];
    char path[PATHS], *request;
    window_name(path, number, "trace");
    if (roller < 0) return "";
    int length = asprintf(&request, "window %u first %llu trace %s\n", number, (unsigned long long)first, strchr(path, '\n') ? "" : path);
    if (length < 0) return "";
    ssize_t sent = send(roller, request, (size_t)length, MSG_NOSIGNAL); /* an empty buffer takes it as a whole */
    free(request);
    is_wanted = 0;
    if (sent != length) { leave_roller("tools/with_server --roll has ended"); return ""; }
    return read_address(address) ? address : "";
}

void look_at_roller(void) {
    char text[MOST_LINE];
    for (int lines = 0; lines < MOST_LINES && roller >= 0 && read_line(text, 0); lines++) is_wanted |= !strcmp(text, "roll");
}

int is_roll_wanted(void) { return is_wanted; }

void end_rolling(void) { leave_roller(NULL); }
