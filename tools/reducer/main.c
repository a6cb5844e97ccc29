/* The program of tools/reduce; tools/goodlock/reducer.py runs it.
 *
 *   reducer reduce FOLDER MOST PATH NAME ..   writes what can matter to FOLDER/1.trace, .., and for the check FOLDER/places, FOLDER/cuts
 *   reducer whole FOLDER MOST PATH NAME ..    writes all events
 *   reducer check WITNESSES PATH NAME ..      replays witnesses over all events
 *
 * MOST is the most events of a trace. A file has a path, and a name for messages. Exit status: 0, 1 if a file cannot be read or written, 2
 * if a file has a fault. */
#include "reducer.h"

#include <signal.h>

static struct source *sources_of(char **words, int count) {
    struct source *sources = allocate((size_t)count / 2, sizeof *sources);
    for (int at = 0; at + 1 < count; at += 2)
        sources[at / 2] = (struct source){.path = words[at], .name = words[at + 1], .first = UINT64_MAX, .line_name = NONE};
    return sources;
}

static void *open_in(const char *folder, const char *name) {
    char path[4096];
    snprintf(path, sizeof path, "%s/%s", folder, name);
    return open_output(path);
}

/* What the check needs: the place of each event, and where each thread is cut. */
static FILE *places;

static void take_reduced(const struct event *event) {
    fwrite(&(uint64_t){event->place}, sizeof(uint64_t), 1, places);
    add_to_window(event);
}

static void write_cuts(const char *folder) {
    FILE *file = open_in(folder, "cuts");
    for (size_t at = 0; at < thread_numbers.count; at++)
        fprintf(file, "%u %llu\n", thread_numbers.numbers[at], (unsigned long long)cuts[at]);
    if (ferror(file) || fclose(file)) end_unwritten(folder);
}

static void print_counts(struct counts counts, struct written written) {
    struct beyond beyond = counts_beyond();
    printf("events %llu\nthreads %zu\nlocks %zu\n", (unsigned long long)counts.events, counts.threads, counts.locks);
    printf("kept %llu\nkept_threads %zu\n", (unsigned long long)written.events, written.threads - beyond.threads);
    printf("kept_locks %zu\n", written.locks);
    printf("windows %u\nbeyond %llu\n", written.windows, (unsigned long long)beyond.acquires);
}

static void reduce_files(const char *folder, size_t most, struct source *sources, size_t count) {
    struct counts counts = collect(folder, sources, count);
    reduce();
    write_cuts(folder);
    places = open_in(folder, "places");
    begin_windows((struct output){folder, most, sources, count});
    begin_holders(take_reduced);
    for (size_t at = 0; at < kept.count; at++) pass_on(&kept.events[at]);
    print_counts(counts, end_windows());
    if (ferror(places) || fclose(places)) end_unwritten(folder);
}

static void copy_files(const char *folder, size_t most, struct source *sources, size_t count) {
    begin_windows((struct output){folder, most, sources, count});
    begin_holders(add_to_window);
    struct counts counts = copy_whole(sources, count);
    print_counts(counts, end_windows());
}

static int refuse_words(void) {
    fputs("reducer: wrong command line: tools/reduce runs this program\n", stderr);
    return 2;
}

int main(int count, char **words) {
    const char *task = count > 2 ? words[1] : "";
    bool is_check = !strcmp(task, "check"), is_whole = !strcmp(task, "whole");
    int first = is_check ? 3 : 4;
    if (count < first + 2 || (count - first) % 2 || (!is_check && !is_whole && strcmp(task, "reduce"))) return refuse_words();
    size_t source_count = (size_t)(count - first) / 2, most = is_check ? 0 : strtoul(words[3], NULL, 10);
    struct source *sources = sources_of(words + first, count - first);
    if (!is_check && (most < 2 || most > MOST_EVENTS)) return refuse_words();
    seed_hashes();
    signal(SIGXFSZ, SIG_IGN); /* a file that would be too long is an error as a full disk is */
    if (is_check) check_witnesses(words[2], sources, source_count);
    else if (is_whole) copy_files(words[2], most, sources, source_count);
    else reduce_files(words[2], most, sources, source_count);
    if (ferror(stdout) || fflush(stdout)) end_unwritten("standard output");
    return 0;
}
