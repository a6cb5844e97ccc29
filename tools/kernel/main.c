/* The program of tools/from_ftrace; tools/goodlock/kernel/program.py runs it.
 *
 *   kernel FOLDER NAME CLASS ..   reads a recording from standard input, and writes to FOLDER the events as `converted` and what
 *                                 lockdep looks at as `classes`
 *
 * NAME is shown in messages. Locks of the classes back off. It prints its counts. Exit status: 0, 1 if a file cannot be read or written,
 * 2 if a line has a fault. */
#include "kernel.h"

static FILE *open_in(const char *folder, const char *name) {
    char path[4096];
    if (snprintf(path, sizeof path, "%s/%s", folder, name) >= (int)sizeof path) end_unread(folder, "the name is too long");
    FILE *file = fopen(path, "w+");
    if (!file) end_unwritten(path);
    if (!strcmp(name, "records")) remove(path);
    return file;
}

static void print(const char *name, uint64_t number) { printf("%s %llu\n", name, (unsigned long long)number); }

static void print_counts(void) {
    static const char *const kinds[KINDS] = {"lock_acquire", "lock_acquired", "lock_contended", "lock_release", "sched_switch",
                                             "sched_process_fork", "sched_waking", "workqueue_queue_work", "workqueue_execute_start"};
    const struct { const char *name; uint64_t number; } numbers[] = {
        {"lines", counts.lines}, {"events", counts.events}, {"flagged", counts.flagged}, {"lost", counts.lost}, {"hidden", counts.hidden},
        {"nul_line", counts.nul_line}, {"cut_line", counts.cut_line}, {"begun", counts.begun}, {"threads", actor_count},
        {"locks", lock_count}, {"classes", class_names.count}, {"made", event_count}, {"tried", made.tried}, {"unseen", made.unseen},
        {"not_held", made.not_held}, {"before", made.before}, {"readers_as_orders", made.readers_as_orders},
        {"downgraded", made.downgraded}, {"annotations", made.annotations}, {"ww", made.ww}, {"named", made.named},
        {"interrupts", made.interrupts}, {"wakes", made.wakes}, {"too_many", made.too_many}};
    for (int kind = 0; kind < KINDS; kind++) print(kinds[kind], counts.kinds[kind]);
    for (size_t at = 0; at < sizeof numbers / sizeof *numbers; at++) print(numbers[at].name, numbers[at].number);
}

int main(int count, char **words) {
    if (count < 3) {
        fputs("kernel: wrong command line: tools/from_ftrace runs this program\n", stderr);
        return 2;
    }
    seed_hashes();
    FILE *records = open_in(words[1], "records"), *events = open_in(words[1], "converted"), *class_file = open_in(words[1], "classes");
    ww_names = words + 3;
    read_recording(words[2], records);
    find_reached();
    write_classes(class_file);
    convert_records(records, events, words[2]);
    print_counts();
    if (ferror(class_file) || fclose(class_file) || fclose(events) || ferror(stdout) || fflush(stdout)) end_unwritten("a temporary file");
    return 0;
}
