/* Refuses allocations of the program that it is preloaded into; checks/memory.py builds it and says which.

   The file that REFUSE names is four numbers of 64 bits, in this machine's order, which both sides share: how many allocations the
   program asked for, how many of them were refused, the number of the first one to be refused, counted from 1 (0: none), and how many
   are refused from there on. Only calls from the program's own text count: the loader and the C library take memory too. */
#define _GNU_SOURCE
#include <errno.h>
#include <fcntl.h>
#include <link.h>
#include <stddef.h>
#include <stdint.h>
#include <stdlib.h>
#include <sys/mman.h>
#include <unistd.h>

extern void *__libc_malloc(size_t);
extern void *__libc_calloc(size_t, size_t);
extern void *__libc_realloc(void *, size_t);
extern void *__libc_memalign(size_t, size_t);

static volatile uint64_t *shared;
static uintptr_t low, high;

static int takes_range(struct dl_phdr_info *info, size_t size, void *unused) {
    for (int at = 0; at < info->dlpi_phnum; at++) {
        const ElfW(Phdr) *part = &info->dlpi_phdr[at];
        if (part->p_type == PT_LOAD && (part->p_flags & PF_X)) {
            low = info->dlpi_addr + part->p_vaddr;
            high = low + part->p_memsz;
        }
    }
    /* the program itself comes first */
    return 1;
}

__attribute__((constructor)) static void begins(void) {
    const char *name = getenv("REFUSE");
    int file = name ? open(name, O_RDWR) : -1;
    if (file < 0) {
        return;
    }
    void *made = mmap(NULL, 32, PROT_READ | PROT_WRITE, MAP_SHARED, file, 0);
    close(file);
    dl_iterate_phdr(takes_range, NULL);
    if (made != MAP_FAILED) {
        shared = made;
    }
}

static int is_refused(const void *caller) {
    uintptr_t from = (uintptr_t)caller;
    if (!shared || from < low || from >= high) {
        return 0;
    }
    uint64_t number = ++shared[0];
    if (!shared[2] || number < shared[2] || number - shared[2] >= shared[3]) {
        return 0;
    }
    shared[1]++;
    errno = ENOMEM;
    return 1;
}

#define REFUSED is_refused(__builtin_return_address(0))

void *malloc(size_t size) { return REFUSED ? NULL : __libc_malloc(size); }

void *calloc(size_t count, size_t size) { return REFUSED ? NULL : __libc_calloc(count, size); }

void *realloc(void *old, size_t size) { return REFUSED ? NULL : __libc_realloc(old, size); }

void *memalign(size_t align, size_t size) { return REFUSED ? NULL : __libc_memalign(align, size); }

void *aligned_alloc(size_t align, size_t size) { return REFUSED ? NULL : __libc_memalign(align, size); }

int posix_memalign(void **to, size_t align, size_t size) {
    void *made = REFUSED ? NULL : __libc_memalign(align, size);
    if (!made) {
        return ENOMEM;
    }
    *to = made;
    return 0;
}
