/* The memory of libgopat_matches_c.a, by malloc, realloc and free. Another allocator may stand in their place: an answer
   `ok` has room for n bytes at p, aligned to a, which is at most 16; without it p is not null, and nothing changed. */
#include <stdbool.h>
#include <stdlib.h>

typedef struct {
    bool ok;
    void *p;
} Tried;

static char nothing;

static Tried tried(void *p) { return (Tried){.ok = p != NULL, .p = p != NULL ? p : &nothing}; }

Tried rattle_alloc(size_t n, size_t a) { return tried(malloc(n != 0 ? n : a)); }

Tried rattle_realloc(void *p, size_t kept, size_t n, size_t a) {
    (void)kept;
    return tried(realloc(p, n != 0 ? n : a));
}

void rattle_dealloc(void *p) { free(p); }
