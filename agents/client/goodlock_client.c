/* See goodlock_client.h. The frames are those of docs/formats.md; each reply is checked before it is used, since the server may be hostile. */
#ifndef _POSIX_C_SOURCE
#define _POSIX_C_SOURCE 200809L
#endif
#include "goodlock_client.h"

#include <arpa/inet.h>
#include <errno.h>
#include <fcntl.h>
#include <netinet/in.h>
#include <netinet/tcp.h>
#include <poll.h>
#include <stdarg.h>
#include <stdlib.h>
#include <string.h>
#include <sys/socket.h>
#include <time.h>
#include <unistd.h>

enum { ASK = 7, ANSWER = 8, STATUS = 9, BATCH = 10 };
enum { REFUSED = 66, OPENED, PENDING, REPORT, STATUS_REPLY, FAULT, BATCHED };
enum { HEAD = 4, EVENT = 9, PART = 4096, LEAST_NAP = 1, MOST_NAP = 50, LEAST_BOUND = 2, MOST_BOUND = 8 };

/* ---- texts ---- */

static const struct { int number; const char *name, *reason; } reasons[] = {
    {1, "Full", "the server takes no more events"},
    {2, "Unforked", "no fork of the thread came before"},
    {3, "Ended", "the thread was joined already"},
    {4, "AlreadyForked", "the thread was forked already, or is thread 0"},
    {5, "TooManyThreads", "a server takes 1023 forks"},
    {6, "JoinsItself", "a thread joins itself"},
    {7, "JoinUnknown", "no fork of the joined thread came before"},
    {8, "JoinedTwice", "the thread was joined already"},
    {9, "TooNested", "the thread has acquired this lock 255 times without a release"},
    {10, "HeldByOther", "another thread holds the lock"},
    {11, "TooDeep", "the thread holds 32 locks already"},
    {12, "NotHeld", "the thread does not hold the lock"},
    {13, "NoMemory", "the server has no memory for it"},
    {20, "BadBound", "a bound is 2 to 8"},
    {21, "TooManyQuestions", "a server takes 256 questions"},
    {22, "NoSuchQuestion", "the server has no question with this number"},
    {23, "ReportTooLong", "the report has more bytes than a reply can have"},
    {40, "BoardBusy", "the server could not read its state: ask again"},
    {41, "TooManyCycles", "a task has more than 4294967295 cycles"},
};

static int find_reason(int number) {
    int count = (int)(sizeof reasons / sizeof reasons[0]), at = 0;
    while (at < count && reasons[at].number != number) at++;
    return at < count ? at : -1;
}

const char *goodlock_refusal_name(int number) {
    int at = find_reason(number);
    return at < 0 ? "unknown" : reasons[at].name;
}

const char *goodlock_refusal_reason(int number) {
    int at = find_reason(number);
    return at < 0 ? "" : reasons[at].reason;
}

/* Notes what has happened. Returns the outcome. */
#ifdef __GNUC__
__attribute__((format(printf, 3, 4)))
#endif
static enum goodlock_outcome say(struct goodlock_client *client, enum goodlock_outcome outcome, const char *format, ...) {
    va_list arguments;
    va_start(arguments, format);
    vsnprintf(client->fault, sizeof client->fault, format, arguments);
    va_end(arguments);
    return outcome;
}

/* The session has ended. */
static enum goodlock_outcome end(struct goodlock_client *client, enum goodlock_outcome outcome, const char *text) {
    if (client->socket >= 0) close(client->socket);
    client->socket = -1;
    client->end = outcome;
    return say(client, outcome, "%s", text);
}

static enum goodlock_outcome end_gone(struct goodlock_client *client) {
    if (client->has_replied) return end(client, GOODLOCK_GONE, "the server has closed the session: it has ended, or was restarted");
    return end(client, GOODLOCK_BUSY, "the server has closed the session without a reply: it serves 16 sessions already, or has ended");
}

static enum goodlock_outcome end_silent(struct goodlock_client *client) {
    return end(client, GOODLOCK_SILENT, "the server has not replied within the time limit");
}

static enum goodlock_outcome end_strange(struct goodlock_client *client) {
    return end(client, GOODLOCK_STRANGE, "what replies at this address is not a goodlockd server");
}

static enum goodlock_outcome refused(struct goodlock_client *client, const char *what, int number) {
    const char *reason = goodlock_refusal_reason(number);
    client->refusal = number;
    return say(client, GOODLOCK_REFUSED, "%s was refused: %d %s%s%s", what, number, goodlock_refusal_name(number), *reason ? ", " : "", reason);
}

/* ---- bytes, each call with the time at which it ends ---- */

static int64_t now(void) {
    struct timespec time;
    clock_gettime(CLOCK_MONOTONIC, &time);
    return (int64_t)time.tv_sec * 1000 + time.tv_nsec / 1000000;
}

/* Waits until the socket is ready. Returns 0 if the time is over. */
static int is_ready(int socket, short what, int64_t deadline) {
    for (;;) {
        struct pollfd one;
        int64_t left = deadline - now();
        one.fd = socket, one.events = what, one.revents = 0;
        if (left < 0) left = 0;
        int count = poll(&one, 1, left > 60000 ? 60000 : (int)left);
        if (count > 0) return 1;
        if (now() >= deadline) return 0;
        if (count < 0 && errno != EINTR) return 1; /* the next call on the socket fails, too */
    }
}

static int has_to_wait(void) { return errno == EAGAIN || errno == EWOULDBLOCK || errno == EINTR; }

static enum goodlock_outcome send_all(struct goodlock_client *client, const uint8_t *from, size_t length, int64_t deadline) {
    for (size_t sent = 0; sent < length;) {
        ssize_t more = send(client->socket, from + sent, length - sent, MSG_NOSIGNAL);
        if (more > 0) sent += (size_t)more;
        else if (more < 0 && !has_to_wait()) return end_gone(client);
        else if (!is_ready(client->socket, POLLOUT, deadline)) return end_silent(client);
        if (sent < length && now() >= deadline) return end_silent(client); /* also if one byte goes after another */
    }
    return GOODLOCK_DONE;
}

static enum goodlock_outcome receive(struct goodlock_client *client, uint8_t *to, size_t length, int64_t deadline) {
    for (size_t got = 0; got < length;) {
        ssize_t more = recv(client->socket, to + got, length - got, 0);
        if (more > 0) got += (size_t)more, client->has_replied = 1;
        else if (more == 0 || !has_to_wait()) return end_gone(client);
        else if (!is_ready(client->socket, POLLIN, deadline)) return end_silent(client);
        if (got < length && now() >= deadline) return end_silent(client); /* also if one byte comes after another */
    }
    return GOODLOCK_DONE;
}

static uint32_t number(const uint8_t *from) {
    return (uint32_t)from[0] << 24 | (uint32_t)from[1] << 16 | (uint32_t)from[2] << 8 | from[3];
}

static uint64_t long_number(const uint8_t *from) { return (uint64_t)number(from) << 32 | number(from + 4); }

static void put_number(uint8_t *to, uint32_t value) {
    for (int byte = 0; byte < 4; byte++) to[byte] = (uint8_t)(value >> (24 - 8 * byte));
}

/* ---- replies ---- */

/* Reads the kind of the next reply, and how many bytes follow. */
static enum goodlock_outcome read_head(struct goodlock_client *client, int *kind, uint32_t *left, int64_t deadline) {
    uint8_t head[5];
    enum goodlock_outcome outcome = receive(client, head, 5, deadline);
    if (outcome) return outcome;
    if (number(head) == 0) return end_strange(client);
    *kind = head[4], *left = number(head) - 1;
    return GOODLOCK_DONE;
}

/* Reads the rest of a reply, which is of this kind and length, or a refusal of `what`. */
static enum goodlock_outcome read_rest(struct goodlock_client *client, int kind, uint32_t left, int wanted, uint8_t *rest, uint32_t length,
                                       const char *what, int64_t deadline) {
    uint8_t reason;
    if (kind == wanted && left == length) return receive(client, rest, length, deadline);
    if ((kind != REFUSED && kind != FAULT) || left != 1) return end_strange(client);
    enum goodlock_outcome outcome = receive(client, &reason, 1, deadline);
    if (outcome) return outcome;
    if (kind == REFUSED && what) return refused(client, what, reason);
    if (kind == REFUSED) return end_strange(client);
    say(client, GOODLOCK_STRANGE, "the server does not understand a request (fault %d): it is of another version", reason);
    close(client->socket);
    client->socket = -1;
    return client->end = GOODLOCK_STRANGE;
}

/* ---- connect and close ---- */

static int read_port(const char *text) {
    int port = 0;
    size_t length = strlen(text);
    if (length < 1 || length > 5 || strspn(text, "0123456789") != length) return 0;
    for (; *text; text++) port = 10 * port + (*text - '0');
    return port < 65536 ? port : 0;
}

/* Returns the size of the socket's address, or 0 if the text is none. */
static socklen_t read_address(const char *text, struct sockaddr_storage *to) {
    char host[INET6_ADDRSTRLEN];
    const char *colon = strrchr(text, ':');
    int port = colon ? read_port(colon + 1) : 0, is_bracketed = text[0] == '[' && colon && colon - text >= 2 && colon[-1] == ']';
    size_t length = !colon ? 0 : (size_t)(colon - text) - (is_bracketed ? 2 : 0);
    struct sockaddr_in *short_one = (struct sockaddr_in *)to;
    struct sockaddr_in6 *long_one = (struct sockaddr_in6 *)to;
    memset(to, 0, sizeof *to);
    if (!port || length == 0 || length >= sizeof host) return 0;
    memcpy(host, text + is_bracketed, length);
    host[length] = 0;
    if (!is_bracketed && inet_pton(AF_INET, host, &short_one->sin_addr) == 1) {
        short_one->sin_family = AF_INET, short_one->sin_port = htons((uint16_t)port);
        return sizeof *short_one;
    }
    if (inet_pton(AF_INET6, host, &long_one->sin6_addr) != 1) return 0;
    long_one->sin6_family = AF_INET6, long_one->sin6_port = htons((uint16_t)port);
    return sizeof *long_one;
}

static int open_socket(int family) {
    int on = 1, socket_type = SOCK_STREAM;
#ifdef SOCK_CLOEXEC
    socket_type |= SOCK_CLOEXEC; /* also if another thread starts a program right now */
#endif
    int it = socket(family, socket_type, 0);
    if (it < 0) return it;
    fcntl(it, F_SETFD, FD_CLOEXEC);
    fcntl(it, F_SETFL, O_NONBLOCK);
    setsockopt(it, IPPROTO_TCP, TCP_NODELAY, &on, sizeof on);
    return it;
}

/* Returns 0 or a number of errno; -1 if the time is over. */
static int connect_until(int to, const struct sockaddr_storage *address, socklen_t size, int64_t deadline) {
    int fault = 0;
    socklen_t length = sizeof fault;
    if (connect(to, (const struct sockaddr *)address, size) == 0) return 0;
    if (errno != EINPROGRESS && errno != EINTR) return errno;
    if (!is_ready(to, POLLOUT, deadline)) return -1;
    return getsockopt(to, SOL_SOCKET, SO_ERROR, &fault, &length) < 0 ? errno : fault;
}

static enum goodlock_outcome end_unconnected(struct goodlock_client *client, int fault, const char *address) {
    const char *why = fault < 0 ? "nothing replies within the time limit" : fault == ECONNREFUSED ? "nobody listens there" :
                      fault == ENETUNREACH || fault == EHOSTUNREACH ? "there is no way to this host" :
                      fault == EMFILE || fault == ENFILE ? "the process has too many open files" : "the connection failed";
    end(client, fault < 0 ? GOODLOCK_SILENT : GOODLOCK_GONE, "");
    return say(client, client->end, "cannot connect to %.60s: %s%s", address, why, fault == ECONNREFUSED ? "; start a server with goodlockd serve" : "");
}

static enum goodlock_outcome begin_session(struct goodlock_client *client, const char *address) {
    struct sockaddr_storage to;
    socklen_t size = read_address(address, &to);
    if (!size) return say(client, GOODLOCK_MISUSED, "\"%.60s\" is no address in digits with a port, such as 127.0.0.1:7070 or [::1]:7070", address);
    client->socket = open_socket(to.ss_family);
    int fault = client->socket < 0 ? errno : connect_until(client->socket, &to, size, now() + client->milliseconds);
    if (fault) return end_unconnected(client, fault, address);
    client->end = GOODLOCK_DONE;
    return GOODLOCK_DONE;
}

enum goodlock_outcome goodlock_connect(struct goodlock_client *client, const char *address, int milliseconds) {
    int before = errno;
    memset(client, 0, sizeof *client);
    client->socket = -1, client->end = GOODLOCK_CLOSED;
    client->milliseconds = milliseconds > 0 ? milliseconds : GOODLOCK_MILLISECONDS;
    client->report_milliseconds = GOODLOCK_REPORT_MILLISECONDS;
    enum goodlock_outcome outcome = begin_session(client, address ? address : "");
    errno = before;
    return outcome;
}

void goodlock_close(struct goodlock_client *client) {
    int before = errno;
    end(client, GOODLOCK_CLOSED, "the session was closed");
    errno = before;
}

/* ---- events ---- */

static const char *action_of(int kind) {
    static const char *const actions[] = {"", "forks thread", "joins thread", "acquires lock", "releases lock", "reads variable", "writes variable"};
    return kind >= GOODLOCK_FORK && kind <= GOODLOCK_WRITE ? actions[kind] : "";
}

static void note_refused(struct goodlock_client *client, const uint8_t *event, uint64_t place, int reason) {
    client->is_refused = 1;
    client->refused.number = place, client->refused.kind = event[0], client->refused.reason = reason;
    client->refused.thread = number(event + 1), client->refused.object = number(event + 5);
}

/* The outcome of an operation on events, after which the caller knows of a refused one. */
static enum goodlock_outcome tell(struct goodlock_client *client, enum goodlock_outcome outcome) {
    char what[100];
    if (outcome || !client->is_refused) return outcome;
    client->is_told = 1, client->count = 0;
    snprintf(what, sizeof what, "event %llu (thread %lu %s %lu)", (unsigned long long)client->refused.number, (unsigned long)client->refused.thread,
             action_of(client->refused.kind), (unsigned long)client->refused.object);
    return refused(client, what, client->refused.reason);
}

/* Reads the reply to the oldest batch. */
static enum goodlock_outcome read_batched(struct goodlock_client *client, int64_t deadline) {
    const uint8_t *batch = client->batches[client->first];
    uint8_t rest[6];
    int kind = 0;
    uint32_t left = 0, count = batch[HEAD - 1];
    enum goodlock_outcome outcome = read_head(client, &kind, &left, deadline);
    if (!outcome) outcome = read_rest(client, kind, left, BATCHED, rest, sizeof rest, NULL, deadline);
    if (outcome) return outcome;
    uint32_t accepted = rest[0], reason = rest[1], length = number(rest + 2);
    if (accepted > count || (reason == 0) != (accepted == count) || length < client->accepted) return end_strange(client);
    client->others = length - (uint32_t)client->accepted;
    if (reason && !client->is_refused) note_refused(client, batch + HEAD + EVENT * accepted, client->answered + accepted, (int)reason);
    client->accepted += accepted, client->answered += count;
    client->first = (client->first + 1) % GOODLOCK_IN_FLIGHT, client->sent--;
    return GOODLOCK_DONE;
}

static enum goodlock_outcome send_batch(struct goodlock_client *client, int64_t deadline) {
    uint8_t *batch = client->batches[(client->first + client->sent) % GOODLOCK_IN_FLIGHT];
    size_t length = 2 + EVENT * (size_t)client->count;
    batch[0] = (uint8_t)(length >> 8), batch[1] = (uint8_t)length, batch[2] = BATCH, batch[3] = (uint8_t)client->count;
    client->count = 0, client->sent++;
    enum goodlock_outcome outcome = send_all(client, batch, length + 2, deadline);
    return outcome || client->sent < GOODLOCK_IN_FLIGHT ? outcome : read_batched(client, deadline);
}

static enum goodlock_outcome read_all_batched(struct goodlock_client *client, int64_t deadline) {
    enum goodlock_outcome outcome = client->end;
    while (!outcome && client->sent) outcome = read_batched(client, deadline);
    return outcome;
}

static enum goodlock_outcome add_event(struct goodlock_client *client, enum goodlock_kind kind, uint32_t thread, uint32_t object) {
    if (client->end) return client->end;
    if (kind < GOODLOCK_FORK || kind > GOODLOCK_WRITE) return say(client, GOODLOCK_MISUSED, "%d is no kind of event", (int)kind);
    client->events++;
    if (client->is_refused) return GOODLOCK_DONE;
    uint8_t *event = client->batches[(client->first + client->sent) % GOODLOCK_IN_FLIGHT] + HEAD + EVENT * client->count++;
    event[0] = (uint8_t)kind;
    put_number(event + 1, thread), put_number(event + 5, object);
    if (client->count < GOODLOCK_BATCH) return GOODLOCK_DONE;
    int64_t deadline = now() + client->milliseconds;
    enum goodlock_outcome outcome = send_batch(client, deadline);
    return !outcome && client->is_refused ? read_all_batched(client, deadline) : outcome;
}

enum goodlock_outcome goodlock_event(struct goodlock_client *client, enum goodlock_kind kind, uint32_t thread, uint32_t object) {
    int before = errno;
    enum goodlock_outcome outcome = tell(client, add_event(client, kind, thread, object));
    errno = before;
    return outcome;
}

static enum goodlock_outcome flush(struct goodlock_client *client, int64_t deadline) {
    enum goodlock_outcome outcome = client->end;
    if (!outcome && client->count && !client->is_refused) outcome = send_batch(client, deadline);
    if (!outcome) outcome = read_all_batched(client, deadline);
    return tell(client, outcome);
}

enum goodlock_outcome goodlock_flush(struct goodlock_client *client) {
    int before = errno;
    enum goodlock_outcome outcome = flush(client, now() + client->milliseconds);
    errno = before;
    return outcome;
}

/* ---- questions ---- */

/* Sends a request, and reads the head of its reply: first come the replies to the batches before it. */
static enum goodlock_outcome request(struct goodlock_client *client, int kind, uint32_t question, int *reply, uint32_t *left, int64_t deadline) {
    uint8_t frame[7] = {0, 5, 0, 0, 0, 0, 0};
    enum goodlock_outcome outcome = read_all_batched(client, deadline);
    frame[2] = (uint8_t)kind;
    put_number(frame + 3, question);
    if (!outcome) outcome = send_all(client, frame, sizeof frame, deadline);
    return outcome ? outcome : read_head(client, reply, left, deadline);
}

static enum goodlock_outcome ask(struct goodlock_client *client, int bound, struct goodlock_opened *opened) {
    uint8_t frame[4] = {0, 2, ASK, 0}, rest[12];
    int kind = 0, was_told = client->is_told;
    uint32_t left = 0;
    int64_t deadline = now() + client->milliseconds;
    if (client->end) return client->end;
    if (bound < LEAST_BOUND || bound > MOST_BOUND) return say(client, GOODLOCK_MISUSED, "%d is no bound: it is 2 to 8", bound);
    enum goodlock_outcome outcome = flush(client, deadline);
    if (outcome && !(outcome == GOODLOCK_REFUSED && was_told)) return outcome;
    frame[3] = (uint8_t)bound;
    outcome = send_all(client, frame, sizeof frame, deadline);
    if (!outcome) outcome = read_head(client, &kind, &left, deadline);
    if (!outcome) outcome = read_rest(client, kind, left, OPENED, rest, sizeof rest, "the question", deadline);
    if (outcome) return outcome;
    opened->question = number(rest), opened->length = number(rest + 4), opened->total = number(rest + 8);
    return GOODLOCK_DONE;
}

enum goodlock_outcome goodlock_ask(struct goodlock_client *client, int bound, struct goodlock_opened *opened) {
    int before = errno;
    enum goodlock_outcome outcome = ask(client, bound, opened);
    errno = before;
    return outcome;
}

static enum goodlock_outcome read_status(struct goodlock_client *client, uint32_t question, struct goodlock_question *status) {
    uint8_t rest[41];
    int kind = 0;
    uint32_t left = 0;
    int64_t deadline = now() + client->milliseconds;
    enum goodlock_outcome outcome = request(client, STATUS, question, &kind, &left, deadline);
    if (!outcome) outcome = read_rest(client, kind, left, STATUS_REPLY, rest, sizeof rest, "the status", deadline);
    if (outcome) return outcome;
    if (number(rest) != question) return end_strange(client);
    status->question = question, status->accepted = number(rest + 4), status->opened = number(rest + 8), status->length = number(rest + 12);
    status->bound = rest[16], status->total = number(rest + 17), status->delivered = number(rest + 21);
    status->cycles = long_number(rest + 25), status->confirmed = long_number(rest + 33);
    return GOODLOCK_DONE;
}

enum goodlock_outcome goodlock_status(struct goodlock_client *client, uint32_t question, struct goodlock_question *status) {
    int before = errno;
    enum goodlock_outcome outcome = read_status(client, question, status);
    errno = before;
    return outcome;
}

/* ---- reports ---- */

/* Where a report goes: to one of the two. `start`: the length of the text before. */
struct sink { FILE *file; struct goodlock_text *text; size_t start; };

static int make_room(struct goodlock_text *text, size_t length) {
    size_t room = text->room ? text->room : (size_t)PART;
    while (room - text->length <= length) {
        if (room > SIZE_MAX / 2) return 0;
        room *= 2;
    }
    if (room == text->room) return 1;
    char *larger = (char *)realloc(text->bytes, room);
    if (!larger) return 0;
    text->bytes = larger, text->room = room;
    return 1;
}

/* Returns 0 if the sink does not take the bytes. */
static int put(struct sink *to, const uint8_t *bytes, size_t length) {
    struct goodlock_text *text = to->text;
    if (to->file) return fwrite(bytes, 1, length, to->file) == length;
    if ((text->most && text->length + length > text->most) || !make_room(text, length)) return 0;
    memcpy(text->bytes + text->length, bytes, length);
    text->length += length;
    text->bytes[text->length] = 0;
    return 1;
}

static int is_text(const uint8_t *bytes, size_t length) {
    for (size_t at = 0; at < length; at++)
        if (bytes[at] != '\n' && (bytes[at] < ' ' || bytes[at] > '~')) return 0;
    return 1;
}

static enum goodlock_outcome end_of_report(struct goodlock_client *client, struct sink *to, int has_room) {
    if (has_room && (!to->file || fflush(to->file) == 0)) return GOODLOCK_DONE;
    if (to->file) return say(client, GOODLOCK_NO_ROOM, "the report cannot be written to the file");
    to->text->length = to->start;
    if (to->text->bytes) to->text->bytes[to->start] = 0;
    return say(client, GOODLOCK_NO_ROOM, "there is no memory for the report, or it is longer than the text may be");
}

/* Reads the text of a report, also what the sink does not take. Memory grows with what arrives, never with the length that is claimed. */
static enum goodlock_outcome read_report(struct goodlock_client *client, uint32_t left, struct sink *to, int64_t deadline) {
    uint8_t part[PART];
    int has_room = !to->text || !to->text->most || to->text->length + (uint64_t)left <= to->text->most;
    while (left > 0) {
        size_t length = left < (uint32_t)PART ? left : (size_t)PART;
        enum goodlock_outcome outcome = receive(client, part, length, deadline);
        if (outcome) return outcome;
        if (!is_text(part, length)) return end_strange(client);
        has_room = has_room && put(to, part, length);
        left -= (uint32_t)length;
    }
    return end_of_report(client, to, has_room);
}

static enum goodlock_outcome answer(struct goodlock_client *client, uint32_t question, struct sink *to) {
    uint8_t rest[12];
    int kind = 0;
    uint32_t left = 0;
    int64_t deadline = now() + client->report_milliseconds;
    enum goodlock_outcome outcome = request(client, ANSWER, question, &kind, &left, deadline);
    if (outcome) return outcome;
    int is_report = kind == REPORT && left >= 4;
    outcome = is_report ? receive(client, rest, 4, deadline) : read_rest(client, kind, left, PENDING, rest, sizeof rest, "the answer", deadline);
    if (outcome) return outcome;
    if (number(rest) != question) return end_strange(client);
    if (is_report) return read_report(client, left - 4, to, deadline);
    return say(client, GOODLOCK_PENDING, "the question is not settled: %lu of %lu tasks are done", (unsigned long)number(rest + 4),
               (unsigned long)number(rest + 8));
}

enum goodlock_outcome goodlock_answer(struct goodlock_client *client, uint32_t question, FILE *file) {
    int before = errno;
    struct sink to = {file, NULL, 0};
    enum goodlock_outcome outcome = answer(client, question, &to);
    errno = before;
    return outcome;
}

enum goodlock_outcome goodlock_answer_text(struct goodlock_client *client, uint32_t question, struct goodlock_text *text) {
    int before = errno;
    struct sink to = {NULL, text, text->length};
    enum goodlock_outcome outcome = answer(client, question, &to);
    errno = before;
    return outcome;
}

enum goodlock_outcome goodlock_report(struct goodlock_client *client, uint32_t question, FILE *file, int milliseconds) {
    int before = errno;
    struct sink to = {file, NULL, 0};
    int64_t deadline = now() + milliseconds;
    enum goodlock_outcome outcome;
    for (int nap = LEAST_NAP; (outcome = answer(client, question, &to)) == GOODLOCK_PENDING && now() < deadline; nap = nap < MOST_NAP ? 2 * nap : nap)
        poll(NULL, 0, nap);
    errno = before;
    return outcome;
}
