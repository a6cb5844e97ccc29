/* Writes what threads and locks are called, and which locks are parts of others, to OUT.tmp/names. The report adds it to the traces. */
#include "../collector.h"

#include <stdarg.h>

enum { NAME_OF_JAVA = 40 }; /* bits of an object's number below that of its name */

static FILE *file, *unseen_file;

void note_name(const char *format, ...) {
    va_list arguments;
    if (is_following() || (!file && !(file = create_in_work("names")))) return;
    va_start(arguments, format);
    vfprintf(file, format, arguments);
    va_end(arguments);
    fputc('\n', file);
}

/* The bytes are the program's. A name with a line feed would be two lines. */
void name_thread(const struct record *record, uint64_t handle_or_text) {
    char name[MOST_TEXT + 1] = "";
    const struct thread *named = handle_or_text >= TEXT ? thread_of_handle(handle_or_text) : NULL;
    uint32_t number = named ? named->number : record->thread;
    if (handle_or_text > 0 && handle_or_text < TEXT) copy_text(name, handle_or_text);
    else memcpy(name, &record->address, 8), memcpy(name + 8, &record->other, 8);
    for (char *at = name; *at; at++) if ((unsigned char)*at < ' ' || *at == 127) *at = '?';
    if (*name && (named || handle_or_text < TEXT)) note_name("# thread %u is %s", number, name);
}

void note_unseen(const char *what) {
    if (!unseen_file && !(unseen_file = create_in_work("unseen"))) return;
    for (; *what; what++) fputc((unsigned char)*what < ' ' || *what == 127 ? '?' : *what, unseen_file);
    fputc('\n', unseen_file);
    fflush(unseen_file); /* the reporter reads it */
}

/* An object of Java has the number of its name in its own number. */
static void name_lock_of_java(uint32_t number, uint64_t address) {
    char name[MOST_TEXT + 1];
    if (address >> NAME_OF_JAVA >= TEXT || !(address >> NAME_OF_JAVA)) return;
    copy_text(name, address >> NAME_OF_JAVA);
    for (char *at = name; *at; at++) if ((unsigned char)*at < ' ' || *at == 127) *at = '?';
    if (*name) note_name("# lock %u is %s", number, name);
}

void name_lock(uint32_t number, uint64_t address) {
    uint64_t offset;
    if (options.is_java) {
        name_lock_of_java(number, address);
        return;
    }
    const char *path = file_at(address, &offset);
    if (path) note_name("lock %u at %s+0x%lx", number, path, (unsigned long)offset);
}

void close_names(void) {
    if (file) fflush(file);
}
