/* Calls the client in C as the lines of standard input say, and prints for each line the outcome and the fault, or the numbers that it read.
 * tests/client runs it. */
#include "goodlock_client.h"

#include <errno.h>
#include <fcntl.h>
#include <stdlib.h>
#include <string.h>
#include <unistd.h>

static const char *const outcomes[] = {"DONE", "REFUSED", "PENDING", "MISUSED", "NO_ROOM", "GONE", "BUSY", "SILENT", "STRANGE", "CLOSED"};
static struct goodlock_client client;

static void end(enum goodlock_outcome outcome) {
    printf("%s%s%s\n", outcomes[outcome], outcome ? " " : "", outcome ? client.fault : "");
}

/* Prints the first outcome of the events that is not DONE. */
static void events(const char *word, unsigned count, unsigned thread, unsigned object) {
    enum goodlock_outcome outcome = GOODLOCK_DONE;
    for (unsigned at = 0; at < count && !outcome; at++) outcome = goodlock_event(&client, (enum goodlock_kind)atoi(word), thread, object);
    end(outcome);
}

static void ask(int bound) {
    struct goodlock_opened opened;
    enum goodlock_outcome outcome = goodlock_ask(&client, bound, &opened);
    if (outcome) end(outcome);
    else printf("DONE question %u length %u total %u\n", (unsigned)opened.question, (unsigned)opened.length, (unsigned)opened.total);
}

static void status(unsigned question) {
    struct goodlock_question it;
    enum goodlock_outcome outcome = goodlock_status(&client, question, &it);
    if (outcome) { end(outcome); return; }
    printf("DONE question %u accepted %u opened %u length %u bound %u total %u delivered %u cycles %llu confirmed %llu\n", (unsigned)it.question,
           (unsigned)it.accepted, (unsigned)it.opened, (unsigned)it.length, it.bound, (unsigned)it.total, (unsigned)it.delivered,
           (unsigned long long)it.cycles, (unsigned long long)it.confirmed);
}

static void to_file(const char *command, unsigned question, const char *name) {
    FILE *file = fopen(name, "w");
    enum goodlock_outcome outcome = strcmp(command, "report") ? goodlock_answer(&client, question, file) : goodlock_report(&client, question, file, 60000);
    if (file) fclose(file);
    end(outcome);
}

/* Adds a report of at most `most` bytes to a text that begins with "> ", and writes the text to a file. */
static void to_text(unsigned question, const char *name, unsigned most) {
    struct goodlock_text text = {NULL, 0, 0, 0};
    text.bytes = (char *)malloc(3);
    memcpy(text.bytes, "> ", 3);
    text.length = 2, text.room = 3, text.most = most;
    enum goodlock_outcome outcome = goodlock_answer_text(&client, question, &text);
    FILE *file = fopen(name, "w");
    fputs(text.bytes, file);
    fclose(file);
    free(text.bytes);
    end(outcome);
}

static void numbers(void) {
    printf("DONE events %llu accepted %llu others %u refused", (unsigned long long)client.events, (unsigned long long)client.accepted, (unsigned)client.others);
    if (client.is_refused)
        printf(" %llu: %d %u %u %d %s", (unsigned long long)client.refused.number, client.refused.kind, (unsigned)client.refused.thread,
               (unsigned)client.refused.object, client.refused.reason, goodlock_refusal_name(client.refused.reason));
    puts("");
}

static void run(const char *command, const char *word, unsigned a, unsigned b, unsigned c) {
    if (!strcmp(command, "connect")) end(goodlock_connect(&client, word, (int)a));
    else if (!strcmp(command, "events")) events(word, a, b, c);
    else if (!strcmp(command, "flush")) end(goodlock_flush(&client));
    else if (!strcmp(command, "ask")) ask(atoi(word));
    else if (!strcmp(command, "status")) status((unsigned)atoi(word));
    else if (!strcmp(command, "answer") || !strcmp(command, "report")) to_file(command, a, word);
    else if (!strcmp(command, "text")) to_text(a, word, b);
    else if (!strcmp(command, "limit")) client.report_milliseconds = atoi(word), end(GOODLOCK_DONE);
    else if (!strcmp(command, "numbers")) numbers();
    else if (!strcmp(command, "close")) goodlock_close(&client), end(GOODLOCK_DONE);
    else puts("UNKNOWN");
}

int main(void) {
    char line[200], command[20], word[100];
    setvbuf(stdout, NULL, _IOLBF, 0);
    goodlock_connect(&client, NULL, 0);
    while (fgets(line, sizeof line, stdin)) {
        unsigned a = 0, b = 0, c = 0;
        word[0] = 0;
        if (sscanf(line, "%19s %99s %u %u %u", command, word, &a, &b, &c) < 1) continue;
        errno = EXFULL;
        run(command, word, a, b, c);
        if (errno != EXFULL && strcmp(command, "answer") && strcmp(command, "report") && strcmp(command, "text")) puts("errno has changed");
    }
    goodlock_close(&client);
    return open("/dev/null", O_RDONLY) == 3 ? 0 : 1; /* every socket is closed */
}
