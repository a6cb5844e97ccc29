/* Numbers the callers of events, and writes what is known of each to OUT.tmp/sites: a line `NUMBER`, then for each frame a tab and
 * PATH+0xOFFSET, or the text of a site that is not an address. The report finds the source lines later. */
#include "../collector.h"

enum { PATH = 2000, PAUSE = 100, LONG_PAUSE = 3000 };
#define UNSEEN "unseen "
struct site { struct entry entry; uint64_t callers[MOST_STACK]; uint32_t count, number; }; /* by a hash of its callers */
struct module { uint64_t base, low, high; char *path; };

static struct table sites;
static uint32_t sites_count, site_of_stack[STACKS]; /* 0: not known */
static struct modules { struct module *all; size_t count, room; } told, mapped; /* by the recorder; by the system: sorted */
static uint32_t text_read;
static unsigned long size_when_read;
static uint64_t read_at;
static FILE *file;

static void add_module(struct modules *to, uint64_t base, uint64_t low, uint64_t high, const char *path) {
    to->all = grow(to->all, to->count, &to->room, sizeof *to->all);
    to->all[to->count++] = (struct module){base, low, high, path ? strdup(path) : NULL};
}

void read_text(void) {
    uint32_t used = __atomic_load_n(&ring->text_used, __ATOMIC_ACQUIRE);
    unsigned long base, low, high;
    char line[PATH + 100], path[PATH];
    while (text_read < used && used <= TEXT) {
        size_t size = used - text_read < sizeof line ? used - text_read : sizeof line - 1;
        copy_shared(line, ring->text + text_read, size);
        line[size] = 0;
        char *end = strchr(line, '\n');
        if (!end && size < sizeof line - 1) return;
        text_read += end ? (uint32_t)(end - line) + 1 : (uint32_t)size;
        if (end && !strncmp(line, UNSEEN, sizeof UNSEEN - 1)) *end = 0, note_unseen(line + sizeof UNSEEN - 1);
        else if (end && sscanf(line, "module %lx %lx %lx %1999[^\n]", &base, &low, &high, path) == 4) add_module(&told, base, low, high, path);
    }
}

static FILE *open_of_program(const char *what) {
    char name[40];
    snprintf(name, sizeof name, "/proc/%u/%s", ring->owner, what);
    return fopen(name, "re");
}

/* The pages that the program has mapped: it is another number if it has mapped a file since, as good as always. 0 if it has ended. */
static unsigned long size_of_program(void) {
    FILE *statistics = open_of_program("statm");
    unsigned long pages = 0;
    if (statistics && fscanf(statistics, "%lu", &pages) != 1) pages = 0;
    if (statistics) fclose(statistics);
    return pages;
}

/* The addresses of a file begin where its first part is mapped. A part of memory without a file has no path. */
static void read_maps(void) {
    char line[PATH + 200], path[PATH], before[PATH] = "";
    unsigned long low, high, offset, base = 0;
    FILE *maps = open_of_program("maps");
    if (!maps) return;
    for (size_t at = 0; at < mapped.count; at++) free(mapped.all[at].path);
    mapped.count = 0;
    while (fgets(line, sizeof line, maps)) {
        path[0] = 0;
        if (sscanf(line, "%lx-%lx %*s %lx %*s %*s %1999[^\n]", &low, &high, &offset, path) < 3) continue;
        if (path[0] != '/') add_module(&mapped, 0, low, high, NULL);
        else {
            if (strcmp(path, before)) base = low - offset;
            add_module(&mapped, base, low, high, strcpy(before, path));
        }
    }
    fclose(maps);
}

/* The recorder names few files, which may have parts in each other's gaps. */
static const struct module *told_module(uint64_t address) {
    for (size_t at = told.count; at-- > 0;) if (address >= told.all[at].low && address < told.all[at].high) return &told.all[at];
    return NULL;
}

static const struct module *mapped_module(uint64_t address) {
    size_t low = 0, high = mapped.count;
    while (low < high) {
        size_t middle = (low + high) / 2;
        if (mapped.all[middle].high <= address) low = middle + 1;
        else high = middle;
    }
    return low < mapped.count && mapped.all[low].low <= address ? &mapped.all[low] : NULL;
}

/* Whether to look again what is mapped. Memory without a file may have become that of one, but that is no reason to look each time. */
static int may_have_changed(const struct module *found) {
    if (found && now() - read_at < PAUSE) return 0;
    unsigned long size = size_of_program();
    if (!size || size == size_when_read) return 0;
    size_when_read = size, read_at = now();
    return 1;
}

/* The file that is mapped there, or NULL. */
static const struct module *module_of(uint64_t address) {
    const struct module *found = told_module(address);
    if (found) return found;
    found = mapped_module(address);
    if ((!found || !found->path) && may_have_changed(found)) read_maps(), found = mapped_module(address);
    return found && found->path ? found : NULL;
}

void copy_text(char to[MOST_TEXT + 1], uint64_t from) {
    size_t size = TEXT - from < MOST_TEXT ? TEXT - from : MOST_TEXT;
    copy_shared(to, ring->text + from, size);
    to[size] = 0;
    to[strcspn(to, "\t\n")] = 0;
}

static void write_text(uint64_t from) {
    char text[MOST_TEXT + 1];
    copy_text(text, from);
    fprintf(file, "\t%s", from ? text : "?");
}

const char *file_at(uint64_t address, uint64_t *offset) {
    read_text();
    const struct module *module = told_module(address);
    if (!module) return NULL;
    *offset = address - module->base;
    return module->path;
}

/* Frame pointers may lead to words that are no return addresses, so a frame outside every mapped file ends the list. */
static void write_site(const struct site *site) {
    if (!file && !(file = create_in_work("sites"))) return;
    fprintf(file, "%u", site->number);
    read_text();
    for (uint32_t at = 0; at < site->count; at++) {
        uint64_t caller = site->callers[at];
        int is_text = caller < TEXT && (at == 0 || options.is_python);
        const struct module *module = is_text ? NULL : module_of(caller);
        if (is_text) write_text(caller);
        else if (module) fprintf(file, "\t%s+0x%lx", module->path, (unsigned long)(caller - 1 - module->base));
        else if (at == 0) fprintf(file, "\t?+0x%lx", (unsigned long)caller);
        else break;
    }
    fputc('\n', file);
}

static uint32_t site_by_callers(const uint64_t *callers, uint32_t count) {
    uint64_t hash = count;
    for (uint32_t at = 0; at < count; at++) hash = (hash ^ callers[at]) * 0x9E3779B97F4A7C15u;
    struct site *site = (struct site *)find_entry(&sites, hash);
    while (site && (site->entry.key != hash || site->count != count || memcmp(site->callers, callers, count * sizeof *callers)))
        site = (struct site *)site->entry.next;
    if (site) return site->number;
    site = allocate(sizeof *site);
    site->count = count, site->number = ++sites_count;
    memcpy(site->callers, callers, count * sizeof *callers);
    write_site(site);
    add_entry(&sites, &site->entry, hash);
    return site->number;
}

uint32_t site_of(const uint64_t *callers, uint32_t count) {
    if (count == 0) return 0;
    if (count != BY_STACK) return site_by_callers(callers, count);
    uint64_t number = callers[1];
    struct callers stack;
    if (number >= STACKS) return site_by_callers(callers, 1);
    if (site_of_stack[number]) return site_of_stack[number];
    copy_shared(&stack, &ring->stacks[number], sizeof stack);
    if (!stack.count || stack.count > MOST_STACK || stack.callers[0] != callers[0]) return site_by_callers(callers, 1);
    return site_of_stack[number] = site_by_callers(stack.callers, stack.count);
}

void forget_sites(uint64_t from, uint64_t size) {
    memset(site_of_stack, 0, sizeof site_of_stack);
    for (size_t slot = 0; slot < sites.size; slot++)
        for (struct entry *entry = sites.slots[slot], *next; entry; entry = next) {
            const struct site *site = (struct site *)entry;
            uint32_t at = 0;
            next = entry->next;
            while (at < site->count && site->callers[at] - from >= size) at++;
            if (at < site->count) remove_entry(&sites, entry), free(entry);
        }
    for (size_t at = 0; at < told.count; at++) if (told.all[at].low - from < size) told.all[at].low = told.all[at].high;
    for (size_t at = 0; at < mapped.count; at++) if (mapped.all[at].low - from < size) free(mapped.all[at].path), mapped.all[at].path = NULL;
    size_when_read = 0, read_at = 0;
}

void look_at_maps(void) {
    unsigned long size = size_of_program();
    if (!size || size == size_when_read || now() - read_at < LONG_PAUSE) return;
    size_when_read = size, read_at = now();
    read_maps();
}

static void write_libraries_of(FILE *file, const struct modules *modules) {
    for (size_t at = 0; at < modules->count; at++) {
        const char *name = modules->all[at].path ? strrchr(modules->all[at].path, '/') : NULL;
        if (name && strstr(name, ".so")) fprintf(file, "%s\n", name + 1);
    }
}

/* The recorder names the program's own file first. */
static void write_program(void) {
    FILE *file = told.count ? create_in_work("program") : NULL;
    if (file) fprintf(file, "%s\n", told.all[0].path), fclose(file);
}

void write_libraries(void) {
    write_program();
    FILE *file = create_in_work("libraries");
    if (!file) return;
    write_libraries_of(file, &told), write_libraries_of(file, &mapped);
    fclose(file);
}

void close_sites(void) {
    if (file) fflush(file);
    close_names();
}
