/*
 * Loaded before a program (LD_PRELOAD), it makes calls of the program fail: those that take memory (malloc, calloc, realloc,
 * aligned_alloc, posix_memalign), or those that start a thread (pthread_create).
 *   FAILING_KIND=memory, or thread: which of them are counted
 *   FAILING_NUMBER=N: the Nth of these fails, from 1 on
 *   FAILING_REST=1: so do all after it
 * A call counts where its return address lies in the program: what the C library takes for itself is let alone. For each call that
 * fails a byte is written to descriptor 9.
 */
#define _GNU_SOURCE
#include <dlfcn.h>
#include <errno.h>
#include <link.h>
#include <pthread.h>
#include <stdatomic.h>
#include <stdint.h>
#include <stdlib.h>
#include <string.h>
#include <unistd.h>

enum kind { MEMORY, THREAD };

/* Where the program's code lies; nothing is counted before this is known. */
static uintptr_t program_start = 0, program_end = 0;

static enum kind failing_kind = MEMORY;
static unsigned long failing_number = 0;
static int fails_on = 0;
static atomic_ulong counted = 0;

/* What the program would call without this library. */
static void *(*real_malloc)(size_t) = NULL;
static void *(*real_calloc)(size_t, size_t) = NULL;
static void *(*real_realloc)(void *, size_t) = NULL;
static void *(*real_aligned_alloc)(size_t, size_t) = NULL;
static int (*real_posix_memalign)(void **, size_t, size_t) = NULL;
static int (*real_pthread_create)(pthread_t *, const pthread_attr_t *, void *(*)(void *), void *) = NULL;

/* The loader may take memory before `begin` is called. */
static void find_real(void)
{
    if (real_malloc != NULL) return;
    *(void **)&real_calloc = dlsym(RTLD_NEXT, "calloc");
    *(void **)&real_realloc = dlsym(RTLD_NEXT, "realloc");
    *(void **)&real_aligned_alloc = dlsym(RTLD_NEXT, "aligned_alloc");
    *(void **)&real_posix_memalign = dlsym(RTLD_NEXT, "posix_memalign");
    *(void **)&real_pthread_create = dlsym(RTLD_NEXT, "pthread_create");
    *(void **)&real_malloc = dlsym(RTLD_NEXT, "malloc");
}

static int fails(enum kind kind, const void *caller)
{
    uintptr_t at = (uintptr_t)caller;
    unsigned long number;
    if (kind != failing_kind || at < program_start || at >= program_end) return 0;
    number = atomic_fetch_add(&counted, 1) + 1;
    if (fails_on ? number < failing_number : number != failing_number) return 0;
    /* Where the byte can't be written the check would take the call for one that didn't fail. */
    if (write(9, "x", 1) != 1) abort();
    return 1;
}

void *malloc(size_t size)
{
    if (fails(MEMORY, __builtin_return_address(0))) {
        errno = ENOMEM;
        return NULL;
    }
    find_real();
    return real_malloc(size);
}

void *calloc(size_t count, size_t size)
{
    if (fails(MEMORY, __builtin_return_address(0))) {
        errno = ENOMEM;
        return NULL;
    }
    find_real();
    return real_calloc(count, size);
}

void *realloc(void *block, size_t size)
{
    /* A length of 0 gives the block back. */
    if ((block == NULL || size > 0) && fails(MEMORY, __builtin_return_address(0))) {
        errno = ENOMEM;
        return NULL;
    }
    find_real();
    return real_realloc(block, size);
}

void *aligned_alloc(size_t alignment, size_t size)
{
    if (fails(MEMORY, __builtin_return_address(0))) {
        errno = ENOMEM;
        return NULL;
    }
    find_real();
    return real_aligned_alloc(alignment, size);
}

int posix_memalign(void **block, size_t alignment, size_t size)
{
    if (fails(MEMORY, __builtin_return_address(0))) return ENOMEM;
    find_real();
    return real_posix_memalign(block, alignment, size);
}

int pthread_create(pthread_t *thread, const pthread_attr_t *attributes, void *(*start)(void *), void *argument)
{
    if (fails(THREAD, __builtin_return_address(0))) return EAGAIN;
    find_real();
    return real_pthread_create(thread, attributes, start, argument);
}

/* The first object that is told is the program. */
static int measure(struct dl_phdr_info *program, size_t size, void *unused)
{
    int k;
    (void)size;
    (void)unused;
    for (k = 0; k < program->dlpi_phnum; k++) {
        const ElfW(Phdr) *part = &program->dlpi_phdr[k];
        if (part->p_type == PT_LOAD && (part->p_flags & PF_X)) {
            program_start = program->dlpi_addr + part->p_vaddr;
            program_end = program_start + part->p_memsz;
        }
    }
    return 1;
}

__attribute__((constructor)) static void begin(void)
{
    const char *kind = getenv("FAILING_KIND"), *number = getenv("FAILING_NUMBER"), *rest = getenv("FAILING_REST");
    failing_kind = kind != NULL && strcmp(kind, "thread") == 0 ? THREAD : MEMORY;
    failing_number = number != NULL ? strtoul(number, NULL, 10) : 0;
    fails_on = rest != NULL && strcmp(rest, "1") == 0;
    find_real();
    dl_iterate_phdr(measure, NULL);
}
