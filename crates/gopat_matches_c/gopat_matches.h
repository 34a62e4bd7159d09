/* gopat for programs in C: where the patterns of a text match, as numbers. Link with libgopat_matches_c.a, and with
   heap.o, which is made of heap.c in this folder.

   A GopatPatterns is a handle. It begins as zeros, `GopatPatterns patterns = {0};`, and then holds nothing;
   gopat_patterns_open gives it the patterns of a text, and gopat_patterns_close frees them. Nobody but these calls
   changes or copies it. Two handles may be used by two threads at once; one handle by one call at a time.

   A call may take memory by malloc, and 2 MB of stack. */
#ifndef GOPAT_MATCHES_H
#define GOPAT_MATCHES_H

#include "gopat.h"
#include <stdbool.h>

#ifdef __cplusplus
extern "C" {
#endif

/* More values of a status. */
enum {
    GOPAT_CLOSED = 17,         /* the handle holds nothing */
    GOPAT_NO_MEMORY = 18,      /* there was no memory */
    GOPAT_BAD_TEXT = 19,       /* the text has a fault */
    GOPAT_TOO_MANY_STATES = 20 /* the automaton of the patterns has more than 100,000 states */
};

typedef struct {
    bool is_open;
    void *at;
} GopatPatterns;

/* What became of a text: how many patterns it has, or with GOPAT_BAD_TEXT the line of its first fault, counted from 1,
   and its kind, 1 to 18, as docs/FORMATS.md numbers them. */
typedef struct {
    uint8_t status;
    uint8_t kind;
    uint64_t line;
    size_t patterns;
} GopatOpened;

/* A match: the place of its pattern in the text, counted from 0, the point of its move, and the transformation of its
   diagram, 0 to 7. */
typedef struct {
    uint16_t pattern;
    uint16_t at;
    uint8_t transform;
} GopatMatch;

/* With GOPAT_OK the first matches of the buffer, so many, are the answer; with GOPAT_SHORT_BUFFER there are so many, and
   the buffer is as it was. */
typedef struct {
    uint8_t status;
    size_t number;
} GopatFound;

/* Reads the n bytes of a pattern file into the handle, and joins its patterns into one automaton. What the handle held
   is freed first. The patterns name no helper. Faults: of the text (19), of the states (20); or memory (18). With a
   fault the handle holds nothing. The text must not be null, and n bytes must be there. */
GopatOpened gopat_patterns_open(GopatPatterns *patterns, const char *text, size_t n);

/* Writes the matches on the board for a colour into the first places of a buffer with room for so many, in order: by the
   pattern, the transformation and the point. Readings that patterns ask for have these depths. Faults: of the handle
   (17), of the board (1 to 4), the colour (9), the depths (7), the buffer (15); or memory (18). With a fault the buffer
   stays as it is. It must not be null, and so many places must be there. */
GopatFound gopat_matches(GopatPatterns *patterns, GopatBoard board, uint8_t colour, GopatDepths depths,
                         GopatMatch *found, size_t room);

/* Frees what the handle holds; then it holds nothing. A handle that holds nothing stays so. */
void gopat_patterns_close(GopatPatterns *patterns);

#ifdef __cplusplus
}
#endif
#endif
