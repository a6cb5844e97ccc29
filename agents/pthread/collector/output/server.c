/* Streams windows to servers, by the client in agents/client, and asks the server of the only window for its report. A server takes one window:
 * with tools/with_server --roll each window has a server of its own, else the first one has. */
#include "../../../client/goodlock_client.h"
#include "../collector.h"

enum { LOOK_EVERY = 100, MOST_UNSERVED = 2000 };

int is_shared_server;
static struct goodlock_client client;
static int has_session, is_full;   /* is_full: the server has the first window, and takes no other one */
static int is_lost;                /* a session has ended before its window */
static int is_rolling;             /* each window gets a server, as long as tools/with_server runs */
static uint64_t first;             /* events of the windows before */
static uint32_t unserved;          /* windows that no server has seen, or not to the end */
static char list[MOST_UNSERVED];   /* of their numbers */

static void give_up(const char *why) {
    say("%s; the program runs on, and the collected events are kept", why);
    goodlock_close(&client);
    has_session = 0;
}

/* Whether the server has all events so far, and no others. Else the session ends. */
static int is_taken(enum goodlock_outcome outcome) {
    if (client.others) is_shared_server = 1, give_up("another agent streams to this server too, and one server takes one run");
    else if (outcome) is_lost = 1, give_up(client.fault);
    return has_session;
}

static enum goodlock_outcome connect_to(const char *address) {
    enum goodlock_outcome outcome = goodlock_connect(&client, address, 0);
    has_session = outcome == GOODLOCK_DONE;
    return outcome;
}

int connect_to_server(const char *address) {
    is_rolling = find_roller(address);
    const char *of_window = is_rolling ? address_of_window(1, 0) : "";
    enum goodlock_outcome outcome = connect_to(*of_window ? of_window : address);
    if (outcome == GOODLOCK_MISUSED && !*of_window) return 0;
    if (outcome) give_up(client.fault);
    return 1;
}

int has_server(void) { return has_session && !is_full; }

void stream(uint8_t kind, uint32_t thread, uint32_t object) {
    if (has_server()) is_taken(goodlock_event(&client, (enum goodlock_kind)kind, thread, object));
}

void stream_trace(const char *path) {
    static const char kinds[] = "fjardw";
    char line[PATHS], letter;
    FILE *file = has_server() ? fopen(path, "re") : NULL;
    uint32_t thread, object;
    while (file && fgets(line, sizeof line, file))
        if (sscanf(line, "%u%c%u", &thread, &letter, &object) == 3) stream((uint8_t)(strchr(kinds, letter) - kinds + 1), thread, object);
    if (file) fclose(file);
}

void flush_stream(void) {
    static int rounds;
    if (has_session) is_taken(goodlock_flush(&client));
    if (++rounds % LOOK_EVERY == 0) look_at_roller();
}

/* ---- windows ---- */

/* Without a session at its end, the server has not seen the whole window. */
static void note_unserved(uint32_t number) {
    static uint32_t last;
    size_t used = strlen(list);
    unserved++;
    if (used + 30 > sizeof list) return;
    if (last && last == number - 1) {
        char *dash = strrchr(list, ' ') ? strchr(strrchr(list, ' '), '-') : strchr(list, '-');
        used = dash ? (size_t)(dash - list) : used;
        snprintf(list + used, sizeof list - used, "-%u", number);
    } else snprintf(list + used, sizeof list - used, "%s%u", used ? ", " : "", number);
    last = number;
}

/* Without --roll: the server stays as it is, for its operators. */
static void end_first_window(void) {
    if (!has_session || is_full) return;
    is_full = 1;
    say("the server has the first window, %llu events, and takes no more: it sees nothing from event %llu on; tools/with_server --roll gives "
        "each window a server", (unsigned long long)first, (unsigned long long)first);
}

void next_server(uint32_t length) {
    static int is_said;
    if (has_session) is_taken(goodlock_flush(&client));
    first += length;
    if (!is_rolling) { end_first_window(); return; }
    if (!has_session) note_unserved(window - 1);
    goodlock_close(&client);
    has_session = 0;
    const char *address = address_of_window(window, first);
    if (*address && connect_to(address)) give_up(client.fault);
    else if (!*address && has_roller() && !is_said++) say("no server has room for window %u: such windows are left out, as the report says; the program runs on", window);
}

void end_streaming(void) {
    FILE *file = NULL;
    if (has_session) is_taken(goodlock_flush(&client));
    if (is_rolling && !has_session) note_unserved(window);
    if (unserved || is_full || (is_lost && client.accepted)) file = create_in_work("unserved");
    if (file && unserved) fprintf(file, "on a server: %s %s%s\n", unserved == 1 ? "window" : "windows", list, strlen(list) + 30 > sizeof list ? " and others" : "");
    else if (file) fprintf(file, "on the server: what came from event %llu on\n", (unsigned long long)client.accepted);
    if (file) fclose(file);
    goodlock_close(&client);
    has_session = 0;
    end_rolling();
}

/* ---- the report ---- */

/* Waits for the report of a question, and writes it to a file. Returns 0 if there is none. */
static int write_answer(uint32_t question, FILE *file) {
    enum goodlock_outcome outcome = GOODLOCK_PENDING;
    client.report_milliseconds = (int)options.seconds * 1000;
    for (int tries = 0; outcome == GOODLOCK_PENDING && tries < (int)options.seconds * 50 && !is_asked_to_end(); tries++) {
        if ((outcome = goodlock_answer(&client, question, file)) == GOODLOCK_PENDING) usleep(10000);
    }
    if (outcome) give_up("the server sends no report");
    return outcome == GOODLOCK_DONE;
}

int ask_server(uint32_t length, const char *name) {
    struct goodlock_opened opened;
    flush_stream();
    if (!has_session) return 0;
    if (goodlock_ask(&client, options.bound ? options.bound : MOST_BOUND, &opened) || opened.length != length) {
        give_up("the server does not report on these events");
        return 0;
    }
    FILE *file = create_in_work(name);
    int is_whole = file && write_answer(opened.question, file);
    if (file && fclose(file)) is_whole = 0;
    return is_whole;
}
