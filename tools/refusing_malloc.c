/* Refuses one allocation of a program: the one whose number the variable REFUSE gives, counted from 1, or none where it
   is 0. Where COUNT_FILE names a file, the number of allocations is written there when the program ends.
   Built by tools/refuse_memory.py as a library that is loaded before the C library's own. */
#define _GNU_SOURCE
#include <dlfcn.h>
#include <errno.h>
#include <stdio.h>
#include <stdlib.h>

static unsigned long calls, refused;
static int ready;

static int is_refused(void)
{
    if (!ready) {
        const char *number = getenv("REFUSE");
        refused = number ? strtoul(number, NULL, 10) : 0;
        ready = 1;
    }
    calls++;
    if (calls != refused)
        return 0;
    errno = ENOMEM;
    return 1;
}

typedef void *(*Malloc)(size_t);
typedef void *(*Realloc)(void *, size_t);
typedef void *(*AlignedAlloc)(size_t, size_t);
typedef int (*PosixMemalign)(void **, size_t, size_t);

void *malloc(size_t size)
{
    static Malloc next;
    if (!next)
        next = (Malloc)dlsym(RTLD_NEXT, "malloc");
    return is_refused() ? NULL : next(size);
}

void *realloc(void *old, size_t size)
{
    static Realloc next;
    if (!next)
        next = (Realloc)dlsym(RTLD_NEXT, "realloc");
    return is_refused() ? NULL : next(old, size);
}

void *aligned_alloc(size_t alignment, size_t size)
{
    static AlignedAlloc next;
    if (!next)
        next = (AlignedAlloc)dlsym(RTLD_NEXT, "aligned_alloc");
    return is_refused() ? NULL : next(alignment, size);
}

int posix_memalign(void **place, size_t alignment, size_t size)
{
    static PosixMemalign next;
    if (!next)
        next = (PosixMemalign)dlsym(RTLD_NEXT, "posix_memalign");
    return is_refused() ? ENOMEM : next(place, alignment, size);
}

__attribute__((destructor)) static void tell(void)
{
    unsigned long made = calls; /* opening the file allocates too */
    const char *name = getenv("COUNT_FILE");
    FILE *file = name ? fopen(name, "w") : NULL;
    if (file) {
        fprintf(file, "%lu\n", made);
        fclose(file);
    }
}
