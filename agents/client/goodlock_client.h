/* A client of goodlockd, for programs that know their own locks: lock validators, run-time systems, simulators.
 *
 *     struct goodlock_client client;
 *     struct goodlock_opened opened;
 *     if (goodlock_connect(&client, "127.0.0.1:7070", 0)) puts(client.fault);
 *     goodlock_event(&client, GOODLOCK_FORK, 0, 1);
 *     goodlock_event(&client, GOODLOCK_ACQUIRE, 1, 10);
 *     if (goodlock_ask(&client, 2, &opened)) puts(client.fault);
 *     if (goodlock_report(&client, opened.question, stdout, 60000)) puts(client.fault);
 *     goodlock_close(&client);
 *
 * Copy these two files; they need POSIX.1-2008 and nothing else. README.md explains what the events mean.
 *
 * - A function returns GOODLOCK_DONE, which is 0, or why it has failed. Then client.fault says it in a sentence.
 * - No function waits for ever, prints, or changes errno, and the socket raises no signal. There are no global variables.
 * - Only goodlock_answer_text allocates memory. So hooks of an allocator may use the rest.
 * - One thread at a time uses a client. If several have events, hold a lock of your own around each call. */
#ifndef GOODLOCK_CLIENT_H
#define GOODLOCK_CLIENT_H

#include <stddef.h>
#include <stdint.h>
#include <stdio.h>

#ifdef __cplusplus
extern "C" {
#endif

enum goodlock_kind { GOODLOCK_FORK = 1, GOODLOCK_JOIN, GOODLOCK_ACQUIRE, GOODLOCK_RELEASE, GOODLOCK_READ, GOODLOCK_WRITE };

enum goodlock_outcome {
    GOODLOCK_DONE,
    /* After these four the session goes on. */
    GOODLOCK_REFUSED,    /* the server has refused an event or a request: client.refusal is the number of the reason */
    GOODLOCK_PENDING,    /* the question is not settled yet */
    GOODLOCK_MISUSED,    /* an argument is wrong; nothing was sent */
    GOODLOCK_NO_ROOM,    /* for a report in memory, or in its file: the client has read the rest of it and dropped it */
    /* The session has ended. Each later call returns the same outcome; goodlock_connect begins another session. */
    GOODLOCK_GONE,       /* nobody listens at the address, or the server has ended */
    GOODLOCK_BUSY,       /* the server has closed the session without a reply: it serves 16 already, or has ended */
    GOODLOCK_SILENT,     /* a call has taken longer than its time limit */
    GOODLOCK_STRANGE,    /* what replies is not a goodlockd server */
    GOODLOCK_CLOSED      /* there is no session: goodlock_close was called */
};

enum { GOODLOCK_BATCH = 64, GOODLOCK_IN_FLIGHT = 16, GOODLOCK_FAULT = 200 };
enum { GOODLOCK_MILLISECONDS = 10000, GOODLOCK_REPORT_MILLISECONDS = 600000 };

/* Its memory is the caller's: about 10 KB. The fields of the first part may be read at any time. */
struct goodlock_client {
    char fault[GOODLOCK_FAULT]; /* the last failure, as one sentence without a line feed; empty: none */
    int milliseconds;           /* the most that a call takes, except for a report. These two may be set after goodlock_connect */
    int report_milliseconds;    /* the most that the transfer of a report takes */
    int refusal;                /* the number of the last refusal; 0: none */
    uint64_t events;            /* that were handed to goodlock_event */
    uint64_t accepted;          /* of these, as far as the server has replied */
    int is_refused;             /* an event was refused, and no further event is sent. Which one: */
    struct { uint64_t number; int kind, reason; uint32_t thread, object; } refused; /* number: among the events, from 0 on */
    uint32_t others;            /* events of other sessions in the server's trace, when it replied last to a batch */

    /* The rest is for the client alone. */
    int socket;
    enum goodlock_outcome end;  /* why there is no session */
    int has_replied, is_told;   /* is_told: the caller knows of the refused event */
    uint64_t answered;          /* events of the batches with a reply */
    unsigned first, sent;       /* the batches without a reply: `sent` ones from `first` on */
    unsigned count;             /* events in the batch behind these, which is being filled */
    uint8_t batches[GOODLOCK_IN_FLIGHT][4 + 9 * GOODLOCK_BATCH];
};

struct goodlock_opened { uint32_t question, length, total; }; /* length: the question covers the first ones of the trace; total: its tasks */

struct goodlock_question {
    uint32_t question, accepted, opened, length; /* accepted: events of the trace now; opened: questions; length: see goodlock_opened */
    uint8_t bound;
    uint32_t total, delivered;                   /* tasks; the question is settled if all of them are delivered */
    uint64_t cycles, confirmed;                  /* that are found so far */
};

/* A text that grows. It begins with all fields zero; `bytes` ends with a zero byte, and is for `free`. */
struct goodlock_text { char *bytes; size_t length, room, most; }; /* most: of its length; 0: no limit but the memory */

/* Connects to a server at an address such as 127.0.0.1:7070 or [::1]:7070. Names are not looked up. `milliseconds`: the most that this
 * call and each later one takes; 0: GOODLOCK_MILLISECONDS. The client may be uninitialised; a session that is open must be closed. */
enum goodlock_outcome goodlock_connect(struct goodlock_client *client, const char *address, int milliseconds);

/* Ends the session. Events that are not sent are lost: call goodlock_flush before. May be called at any time after goodlock_connect, also in
 * a child process after `fork`, where it does not end the session of the parent. */
void goodlock_close(struct goodlock_client *client);

/* Adds an event. Each 64 events are sent as one batch, and up to 16 batches wait for replies. So a refused event is found later:
 * GOODLOCK_REFUSED from here on means that no further event is sent. Of the events behind the refused one the server drops those of the
 * same batch; it may have accepted those of the next 15. */
enum goodlock_outcome goodlock_event(struct goodlock_client *client, enum goodlock_kind kind, uint32_t thread, uint32_t object);

/* Sends all events, and reads the replies. Then the server has them all, or the result says why not. */
enum goodlock_outcome goodlock_flush(struct goodlock_client *client);

/* Opens a question about the cycles of 2 to `bound` threads, at most 8, in the events so far, after goodlock_flush. If that finds out about
 * a refused event, nothing is asked. The next call asks about the events that the server has. */
enum goodlock_outcome goodlock_ask(struct goodlock_client *client, int bound, struct goodlock_opened *opened);

enum goodlock_outcome goodlock_status(struct goodlock_client *client, uint32_t question, struct goodlock_question *status);

/* Writes the report of a question to a file, or adds it to a text. GOODLOCK_PENDING: the question is not settled. */
enum goodlock_outcome goodlock_answer(struct goodlock_client *client, uint32_t question, FILE *file);
enum goodlock_outcome goodlock_answer_text(struct goodlock_client *client, uint32_t question, struct goodlock_text *text);

/* Waits until a question is settled, at most `milliseconds`, and writes its report. GOODLOCK_PENDING: the time is over. */
enum goodlock_outcome goodlock_report(struct goodlock_client *client, uint32_t question, FILE *file, int milliseconds);

/* The name of the reason of a refusal, such as HeldByOther, and what it means; "unknown" and "" for a number that has none. */
const char *goodlock_refusal_name(int number);
const char *goodlock_refusal_reason(int number);

#ifdef __cplusplus
}
#endif

#endif
