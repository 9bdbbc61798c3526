/* refused: memory that is refused to a program once.
 *
 *   LD_PRELOAD=refused.so REFUSED_AT=N REFUSED_IN=FILE PROGRAM ..
 *
 * Of the calls of malloc, calloc, realloc and aligned_alloc that the code of PROGRAM makes itself, the one with this number,
 * counted from 1, gives nothing. Those that the C library makes, as where it looks a host up, aren't counted. FILE has 8 bytes,
 * and holds how many calls there were, in the order of bytes of the machine. */
#define _GNU_SOURCE
#include <errno.h>
#include <fcntl.h>
#include <link.h>
#include <stdatomic.h>
#include <stdint.h>
#include <stdlib.h>
#include <sys/mman.h>
#include <unistd.h>

void *__libc_malloc(size_t);
void *__libc_calloc(size_t, size_t);
void *__libc_realloc(void *, size_t);
void *__libc_memalign(size_t, size_t);

/* Where the code of the program lies; nothing is counted before that is known. */
static uintptr_t from, until;
static uint64_t number;
static _Atomic uint64_t unseen, *made = &unseen;

/* The program is the first object that is told. */
static int note(struct dl_phdr_info *it, size_t size, void *data) {
    for (int i = 0; i < it->dlpi_phnum; i++) {
        const ElfW(Phdr) *part = &it->dlpi_phdr[i];
        if (part->p_type == PT_LOAD && part->p_flags & PF_X) {
            from = it->dlpi_addr + part->p_vaddr;
            until = from + part->p_memsz;
        }
    }
    (void)size, (void)data;
    return 1;
}

__attribute__((constructor)) static void begin(void) {
    const char *at = getenv("REFUSED_AT"), *in = getenv("REFUSED_IN");
    int file = in ? open(in, O_RDWR) : -1;
    void *shared = file < 0 ? MAP_FAILED : mmap(NULL, 8, PROT_READ | PROT_WRITE, MAP_SHARED, file, 0);
    if (shared == MAP_FAILED)
        _exit(99);
    close(file);
    made = shared;
    number = at ? strtoull(at, NULL, 10) : 0;
    dl_iterate_phdr(note, NULL);
}

static int refuses(void *caller) {
    uintptr_t place = (uintptr_t)caller;
    if (place < from || until <= place || atomic_fetch_add(made, 1) + 1 != number)
        return 0;
    errno = ENOMEM;
    return 1;
}

#define CALLER __builtin_return_address(0)

void *malloc(size_t size) { return refuses(CALLER) ? NULL : __libc_malloc(size); }

void *calloc(size_t count, size_t size) { return refuses(CALLER) ? NULL : __libc_calloc(count, size); }

void *realloc(void *old, size_t size) { return refuses(CALLER) ? NULL : __libc_realloc(old, size); }

void *aligned_alloc(size_t align, size_t size) { return refuses(CALLER) ? NULL : __libc_memalign(align, size); }
