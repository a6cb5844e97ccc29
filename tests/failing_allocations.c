/* Makes allocations of the program that it is preloaded into fail, as a table says that it shares with tests/failing_allocations.

   An allocation counts if the return address of the call is in the program's file: what the C library allocates for itself
   neither counts nor fails. Counting begins before `main`, or after the first line on standard output, as the table says. */
#define _GNU_SOURCE
#include <errno.h>
#include <fcntl.h>
#include <link.h>
#include <stdatomic.h>
#include <stdint.h>
#include <stdlib.h>
#include <string.h>
#include <sys/mman.h>
#include <sys/syscall.h>
#include <unistd.h>

/* The file that REFUSE_TABLE names. The script may change `first` and `last` while the program runs. */
struct table {
    _Atomic uint64_t first;   /* the first allocation that fails; 1-based */
    _Atomic uint64_t last;    /* none fails after this one */
    _Atomic uint64_t every;   /* of these one in `every` fails */
    _Atomic uint64_t begun;   /* whether allocations count */
    _Atomic uint64_t counted; /* allocations so far */
    _Atomic uint64_t refused; /* those of them that failed */
};

extern void *__libc_malloc(size_t size);
extern void *__libc_calloc(size_t count, size_t size);
extern void *__libc_realloc(void *block, size_t size);
extern void *__libc_memalign(size_t alignment, size_t size);

static struct table *table;
static uintptr_t program_start, program_end;

/* The first object is the program's own file. */
static int note_program(struct dl_phdr_info *object, size_t size, void *data)
{
    (void)size;
    (void)data;
    program_start = UINTPTR_MAX;
    for (int at = 0; at < object->dlpi_phnum; at++) {
        const ElfW(Phdr) *part = &object->dlpi_phdr[at];
        uintptr_t start = object->dlpi_addr + part->p_vaddr;
        if (part->p_type != PT_LOAD)
            continue;
        if (start < program_start)
            program_start = start;
        if (start + part->p_memsz > program_end)
            program_end = start + part->p_memsz;
    }
    return 1;
}

__attribute__((constructor)) static void open_table(void)
{
    const char *name = getenv("REFUSE_TABLE");
    int file = name ? open(name, O_RDWR | O_CLOEXEC) : -1;
    void *shared;
    if (file < 0)
        _exit(125);
    shared = mmap(NULL, sizeof *table, PROT_READ | PROT_WRITE, MAP_SHARED, file, 0);
    close(file);
    if (shared == MAP_FAILED)
        _exit(125);
    dl_iterate_phdr(note_program, NULL);
    table = shared;
}

/* Counts an allocation by this caller, and returns whether it fails. */
static int refuses(const void *caller)
{
    uint64_t number;
    if (!table || !table->begun || (uintptr_t)caller < program_start || (uintptr_t)caller >= program_end)
        return 0;
    number = ++table->counted;
    if (number < table->first || number > table->last || (number - table->first) % table->every)
        return 0;
    table->refused++;
    errno = ENOMEM;
    return 1;
}

void *malloc(size_t size)
{
    return refuses(__builtin_return_address(0)) ? NULL : __libc_malloc(size);
}

void *calloc(size_t count, size_t size)
{
    return refuses(__builtin_return_address(0)) ? NULL : __libc_calloc(count, size);
}

void *realloc(void *block, size_t size)
{
    return refuses(__builtin_return_address(0)) ? NULL : __libc_realloc(block, size);
}

void *aligned_alloc(size_t alignment, size_t size)
{
    return refuses(__builtin_return_address(0)) ? NULL : __libc_memalign(alignment, size);
}

int posix_memalign(void **block, size_t alignment, size_t size)
{
    if (refuses(__builtin_return_address(0)))
        return ENOMEM;
    *block = __libc_memalign(alignment, size);
    return *block ? 0 : ENOMEM;
}

/* Counting begins after a line on standard output. */
ssize_t write(int file, const void *bytes, size_t size)
{
    ssize_t written = syscall(SYS_write, file, bytes, size);
    if (table && file == STDOUT_FILENO && written > 0 && memchr(bytes, '\n', written))
        table->begun = 1;
    return written;
}
