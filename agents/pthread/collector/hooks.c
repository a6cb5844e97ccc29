/* Whether a program was compiled with hooks for its accesses of memory: then it needs a runtime of ThreadSanitizer, which the recorder
 * replaces. The file may be any. */
#include "collector.h"

#include <elf.h>
#include <fcntl.h>
#include <limits.h>
#include <sys/mman.h>
#include <sys/stat.h>

struct image { const char *bytes; size_t size; };

/* Returns NULL if the file has not that many bytes there. */
static const void *bytes_at(const struct image *image, uint64_t offset, uint64_t size) {
    return offset <= image->size && size <= image->size - offset ? image->bytes + offset : NULL;
}

static const char *text_at(const struct image *image, const Elf64_Shdr *texts, uint64_t offset) {
    const char *text = offset < texts->sh_size ? bytes_at(image, texts->sh_offset + offset, 1) : NULL;
    size_t most = text ? (size_t)(texts->sh_size - offset) : 0, left = text ? image->size - (size_t)(text - image->bytes) : 0;
    return text && memchr(text, 0, most < left ? most : left) ? text : NULL;
}

static int is_runtime(const char *name) { return !strncmp(name, "libtsan.so.", 11) || !strncmp(name, "libclang_rt.tsan", 16); }

static void look_at_needed(const struct image *image, const Elf64_Shdr *section, const Elf64_Shdr *texts, char runtime[MOST_RUNTIME]) {
    const Elf64_Dyn *it = bytes_at(image, section->sh_offset, section->sh_size);
    for (size_t count = it ? section->sh_size / sizeof *it : 0; count > 0; count--, it++) {
        const char *name = it->d_tag == DT_NEEDED ? text_at(image, texts, it->d_un.d_val) : NULL;
        if (name && is_runtime(name) && strlen(name) < MOST_RUNTIME && !strchr(name, '/')) strcpy(runtime, name);
    }
}

static int has_own_runtime(const struct image *image, const Elf64_Shdr *section, const Elf64_Shdr *texts) {
    const Elf64_Sym *it = bytes_at(image, section->sh_offset, section->sh_size);
    for (size_t count = it ? section->sh_size / sizeof *it : 0; count > 0; count--, it++) {
        const char *name = it->st_shndx != SHN_UNDEF ? text_at(image, texts, it->st_name) : NULL;
        if (name && !strcmp(name, "__tsan_init")) return 1;
    }
    return 0;
}

static enum hooks look_at(const struct image *image, char runtime[MOST_RUNTIME]) {
    const Elf64_Ehdr *head = bytes_at(image, 0, sizeof *head);
    if (!head || memcmp(head->e_ident, ELFMAG, SELFMAG) || head->e_ident[EI_CLASS] != ELFCLASS64) return NO_HOOKS;
    if (head->e_shentsize != sizeof(Elf64_Shdr)) return NO_HOOKS;
    const Elf64_Shdr *all = bytes_at(image, head->e_shoff, (uint64_t)head->e_shnum * sizeof *all);
    int is_own = 0;
    for (uint32_t at = 0; all && at < head->e_shnum; at++) {
        const Elf64_Shdr *texts = all[at].sh_link < head->e_shnum ? &all[all[at].sh_link] : NULL;
        if (texts && all[at].sh_type == SHT_DYNAMIC) look_at_needed(image, &all[at], texts, runtime);
        if (texts && (all[at].sh_type == SHT_DYNSYM || all[at].sh_type == SHT_SYMTAB)) is_own |= has_own_runtime(image, &all[at], texts);
    }
    return is_own ? OWN_RUNTIME : runtime[0] ? HOOKED : NO_HOOKS;
}

/* The file that `execvp` would start. */
static int open_program(const char *name) {
    char path[PATHS];
    const char *folders = getenv("PATH");
    if (strchr(name, '/')) return open(name, O_RDONLY | O_CLOEXEC);
    for (const char *at = folders; at && *name; at = *at ? at + 1 : NULL) {
        size_t length = strcspn(at, ":");
        snprintf(path, sizeof path, "%.*s%s%s", (int)length, at, length ? "/" : "", name);
        if (!access(path, X_OK)) return open(path, O_RDONLY | O_CLOEXEC);
        at += length;
        if (!*at) break;
    }
    return -1;
}

enum hooks hooks_of(const char *program, char runtime[MOST_RUNTIME]) {
    struct stat it;
    int file = open_program(program);
    enum hooks found = NO_HOOKS;
    runtime[0] = 0;
    if (file < 0) return NO_HOOKS;
    struct image image = {.size = fstat(file, &it) || !S_ISREG(it.st_mode) || it.st_size > INT_MAX ? 0 : (size_t)it.st_size};
    const char *bytes = image.size ? mmap(NULL, image.size, PROT_READ, MAP_PRIVATE, file, 0) : MAP_FAILED;
    close(file);
    if (bytes == MAP_FAILED) return NO_HOOKS;
    image.bytes = bytes;
    found = look_at(&image, runtime);
    munmap((void *)bytes, image.size);
    return found;
}
