// Counts what the threads of a program do to wait for each other. It is preloaded:
//
//     gcc -O2 -shared -fPIC -o count.so bench/count.c
//     COUNTS=told LD_PRELOAD=./count.so crates/market/out/market run < examples/village.json
//
// The program's locks and condition variables (bells) are words of its own memory. Who must wait sleeps at the word by the
// C library's `syscall`, with the number of `futex`, and who frees or rings wakes by the same call; both are taken over
// here, with `sched_yield` and `pthread_create`. A bell's word is the number of times that it was rung. A sleeper at a lock
// expects its word to be 2, 3 or 4, and a lock wakes one at a time; every other word is a bell.
//
// Taking a free lock and freeing it are one instruction each, in the program's own code, on x86-64 `lock cmpxchg`: a lock
// that is freed is first tried to be moved from 0 to 1. So each such instruction is replaced by a jump to a copy that
// counts those moves first. A lock is freed as often as it was taken.
#define _GNU_SOURCE
#include <dlfcn.h>
#include <errno.h>
#include <fcntl.h>
#include <link.h>
#include <linux/futex.h>
#include <pthread.h>
#include <sched.h>
#include <stdarg.h>
#include <stdatomic.h>
#include <stdint.h>
#include <stdio.h>
#include <stdlib.h>
#include <string.h>
#include <sys/mman.h>
#include <sys/syscall.h>
#include <unistd.h>

typedef atomic_ulong Count;

// What was asked at a word.
typedef struct {
    _Atomic(uint64_t *) word;
    // Calls to sleep there, and those of them that came back at once since the word had changed.
    Count sleeps, awake;
    // Calls to wake, and the threads that they woke.
    Count wakes, woken;
    // The greatest value seen in it.
    Count value;
    atomic_bool is_bell;
} Place;

#define PLACES 4096
static Place places[PLACES];
static Count threads, yields, lost;
static const char *told_to;

static long (*real_syscall)(long, ...);
static int (*real_yield)(void);
static int (*real_create)(pthread_t *, const pthread_attr_t *, void *(*)(void *), void *);

// The place of a word; no place if there is no more room.
static Place *place_of(uint64_t *word) {
    uintptr_t first = ((uintptr_t)word >> 3) % PLACES;
    for (uintptr_t step = 0; step < PLACES; step++) {
        Place *place = &places[(first + step) % PLACES];
        uint64_t *there = NULL;
        if (atomic_compare_exchange_strong(&place->word, &there, word) || there == word) {
            return place;
        }
    }
    lost++;
    return NULL;
}

static void look(Place *place) {
    unsigned long now = __atomic_load_n(atomic_load(&place->word), __ATOMIC_SEQ_CST);
    unsigned long before = atomic_load(&place->value);
    while (before < now && !atomic_compare_exchange_weak(&place->value, &before, now)) {
    }
}

static long sleep_at(uint64_t *word, long operation, unsigned expected, long timeout, long fifth, long sixth) {
    Place *place = place_of(word);
    if (place) {
        place->sleeps++;
        if (expected < 2 || expected > 4) {
            place->is_bell = 1;
        }
        look(place);
    }
    long result = real_syscall(SYS_futex, word, operation, (long)expected, timeout, fifth, sixth);
    if (place && result == -1 && errno == EAGAIN) {
        place->awake++;
    }
    return result;
}

static long wake_at(uint64_t *word, long operation, unsigned most) {
    Place *place = place_of(word);
    if (place) {
        place->wakes++;
        if (most > 1) {
            place->is_bell = 1;
        }
        // A lock may be gone once it is free; a bell that is being rung is there.
        if (place->is_bell) {
            look(place);
        }
    }
    long result = real_syscall(SYS_futex, word, operation, (long)most, 0L, 0L, 0L);
    if (place && result > 0) {
        place->woken += (unsigned long)result;
    }
    return result;
}

long syscall(long number, ...) {
    va_list list;
    va_start(list, number);
    long a[6];
    for (int i = 0; i < 6; i++) {
        a[i] = va_arg(list, long);
    }
    va_end(list);
    if (number == SYS_futex) {
        int command = (int)a[1] & FUTEX_CMD_MASK;
        if (command == FUTEX_WAIT || command == FUTEX_WAIT_BITSET) {
            return sleep_at((uint64_t *)a[0], a[1], (unsigned)a[2], a[3], a[4], a[5]);
        }
        if (command == FUTEX_WAKE) {
            return wake_at((uint64_t *)a[0], a[1], (unsigned)a[2]);
        }
    }
    return real_syscall(number, a[0], a[1], a[2], a[3], a[4], a[5]);
}

int sched_yield(void) {
    yields++;
    return real_yield();
}

int pthread_create(pthread_t *thread, const pthread_attr_t *attributes, void *(*work)(void *), void *argument) {
    threads++;
    return real_create(thread, attributes, work, argument);
}

#ifdef __x86_64__
#define COPY_BYTES 64

// The code of the copies; its first word is how often a lock was freed.
static uint8_t *copies;
static size_t copied, room;

// The length of `lock cmpxchg %register, memory` with 64 bits, whose first five bytes are the two prefixes, the two of the
// operation and the one that names the operands; 0 if this is no such instruction, or its place is told from its end.
static size_t length_of(const uint8_t *code) {
    if (code[0] != 0xf0 || (code[1] & 0xf8) != 0x48 || code[2] != 0x0f || code[3] != 0xb1) {
        return 0;
    }
    int mode = code[4] >> 6, base = code[4] & 7;
    if (mode == 3 || (mode == 0 && base == 5)) {
        return 0;
    }
    int indexed = base == 4;
    int far = mode == 2 || (mode == 0 && indexed && (code[5] & 7) == 5);
    return 5 + indexed + (far ? 4 : mode == 1 ? 1 : 0);
}

static void put_jump(uint8_t *from, const uint8_t *to) {
    int32_t distance = (int32_t)(to - (from + 5));
    from[0] = 0xe9;
    memcpy(from + 1, &distance, 4);
}

// Replaces an instruction by a jump to a copy: where it would move a word from 0 to 1 the first word of the copies rises.
// The instruction sets all flags anew, so the tests before it lose nothing.
static void replace(uint8_t *code, size_t length) {
    uint8_t *copy = copies + 64 + COPY_BYTES * copied++;
    int new_value = (code[4] >> 3 & 7) + (code[1] & 4 ? 8 : 0);
    uint8_t tests[] = {
        0x48, 0x85, 0xc0,                                                   // test %rax, %rax
        0x75, 14,                                                           // jne to the instruction
        0x48 | (new_value >> 3), 0x83, 0xf8 | (new_value & 7), 0x01,        // cmp $1, %register
        0x75, 8,                                                            // jne to the instruction
        0xf0, 0x48, 0xff, 0x05, 0, 0, 0, 0,                                 // lock incq of the first word
    };
    int32_t distance = (int32_t)(copies - (copy + sizeof tests));
    memcpy(tests + sizeof tests - 4, &distance, 4);
    memcpy(copy, tests, sizeof tests);
    memcpy(copy + sizeof tests, code, length);
    put_jump(copy + sizeof tests + length, code + length);
    put_jump(code, copy);
}

// Memory for the copies within reach of a jump.
static uint8_t *near_memory(uintptr_t address, size_t bytes) {
    for (uintptr_t step = 1; step < 1024; step++) {
        void *wanted = (void *)((address - (step << 20)) & ~(uintptr_t)4095);
        void *found = mmap(wanted, bytes, PROT_READ | PROT_WRITE | PROT_EXEC,
                           MAP_PRIVATE | MAP_ANONYMOUS | MAP_FIXED_NOREPLACE, -1, 0);
        if (found != MAP_FAILED) {
            return found;
        }
    }
    return NULL;
}

// Replaces the instructions in a program's code.
static void replace_all(uint8_t *code, size_t bytes) {
    room = 1;
    for (size_t at = 0; at + 16 < bytes; at++) {
        room += length_of(code + at) > 0;
    }
    copies = near_memory((uintptr_t)code, 64 + COPY_BYTES * room);
    uintptr_t page = (uintptr_t)code & ~(uintptr_t)4095;
    size_t pages = (uintptr_t)code + bytes - page;
    if (!copies || mprotect((void *)page, pages, PROT_READ | PROT_WRITE | PROT_EXEC)) {
        copies = NULL;
        return;
    }
    for (size_t at = 0; at + 16 < bytes; at++) {
        size_t length = length_of(code + at);
        if (length > 0) {
            replace(code + at, length);
            at += length - 1;
        }
    }
    mprotect((void *)page, pages, PROT_READ | PROT_EXEC);
}

// The program itself comes first.
static int visit(struct dl_phdr_info *program, size_t size, void *data) {
    (void)size, (void)data;
    for (int i = 0; i < program->dlpi_phnum; i++) {
        const ElfW(Phdr) *part = &program->dlpi_phdr[i];
        if (part->p_type == PT_LOAD && part->p_flags & PF_X) {
            replace_all((uint8_t *)(program->dlpi_addr + part->p_vaddr), part->p_memsz);
        }
    }
    return 1;
}
#endif

__attribute__((constructor)) static void begin(void) {
    real_syscall = (long (*)(long, ...))dlsym(RTLD_NEXT, "syscall");
    real_yield = (int (*)(void))dlsym(RTLD_NEXT, "sched_yield");
    real_create = (int (*)(pthread_t *, const pthread_attr_t *, void *(*)(void *), void *))dlsym(RTLD_NEXT, "pthread_create");
    told_to = getenv("COUNTS");
#ifdef __x86_64__
    dl_iterate_phdr(visit, NULL);
#endif
}

// Tells the counts of a program that has threads; one that only starts it, as `timeout` does, has none.
static void tell(void) {
    static atomic_bool is_told;
    if (!told_to || !threads || atomic_exchange(&is_told, 1)) {
        return;
    }
    unsigned long bells = 0, rung = 0, waits = 0, awake = 0, wakes = 0, woken = 0, lock_sleeps = 0;
    for (int i = 0; i < PLACES; i++) {
        if (!places[i].word) {
            continue;
        }
        if (places[i].is_bell) {
            bells++;
            rung += places[i].value;
            waits += places[i].sleeps;
            awake += places[i].awake;
            wakes += places[i].wakes;
            woken += places[i].woken;
        } else {
            lock_sleeps += places[i].sleeps;
        }
    }
    int file = open(told_to, O_WRONLY | O_CREAT | O_TRUNC, 0644);
    if (file < 0) {
        return;
    }
    dprintf(file, "threads started %lu\n", threads);
#ifdef __x86_64__
    if (copies) {
        dprintf(file, "lock takes %lu\n", *(unsigned long *)copies);
    }
#endif
    dprintf(file, "sleeps for a lock %lu\n", lock_sleeps);
    dprintf(file, "waits on condition variables %lu\n", waits);
    dprintf(file, "that ended before the sleep %lu\n", awake);
    dprintf(file, "condition variables in use %lu\n", bells);
    dprintf(file, "notify calls seen %lu\n", rung);
    dprintf(file, "with a sleeper %lu\n", wakes);
    dprintf(file, "threads woken by them %lu\n", woken);
    dprintf(file, "yields %lu\n", yields);
    if (lost) {
        dprintf(file, "calls that found no room %lu\n", lost);
    }
    close(file);
}

__attribute__((destructor)) static void end(void) {
    tell();
}

void _exit(int status) {
    tell();
    for (;;) {
        real_syscall(SYS_exit_group, (long)status);
    }
}
