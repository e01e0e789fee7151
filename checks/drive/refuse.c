// Refuses allocations of the program that it is loaded into before the C library (LD_PRELOAD): the one whose number stands
// in REFUSE_AT, or all from that number on if REFUSE_FROM has it. Calls of malloc and realloc count from 1. Where
// REFUSE_COUNT names a file of eight bytes, the number of calls stands in it, also while the program runs.
#include <errno.h>
#include <fcntl.h>
#include <stdatomic.h>
#include <stdlib.h>
#include <sys/mman.h>
#include <unistd.h>

extern void *__libc_malloc(size_t size);
extern void *__libc_realloc(void *block, size_t size);

static atomic_ulong own_calls;
static atomic_ulong *calls = &own_calls;
static unsigned long refused_at, refused_from;

static unsigned long number_in(const char *name) {
    const char *text = getenv(name);
    return text ? strtoul(text, NULL, 10) : 0;
}

__attribute__((constructor)) static void begin(void) {
    refused_at = number_in("REFUSE_AT");
    refused_from = number_in("REFUSE_FROM");
    const char *path = getenv("REFUSE_COUNT");
    int file = path ? open(path, O_RDWR) : -1;
    if (file >= 0) {
        void *shared = mmap(NULL, sizeof *calls, PROT_READ | PROT_WRITE, MAP_SHARED, file, 0);
        if (shared != MAP_FAILED) calls = shared;
        close(file);
    }
    atomic_store(calls, 0);
}

static int is_refused(void) {
    unsigned long number = atomic_fetch_add(calls, 1) + 1;
    if (number != refused_at && (refused_from == 0 || number < refused_from)) return 0;
    errno = ENOMEM;
    return 1;
}

void *malloc(size_t size) {
    return is_refused() ? NULL : __libc_malloc(size);
}

void *realloc(void *block, size_t size) {
    return is_refused() ? NULL : __libc_realloc(block, size);
}
