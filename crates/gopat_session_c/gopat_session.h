/* gopat for programs in C: a session of the protocol without the pipe. Link with libgopat_session_c.a, and with heap.o,
   which is made of heap.c in the folder of gopat_matches_c.

   A GopatSession is a handle. It begins as zeros, `GopatSession session = {0};`, and then holds nothing;
   gopat_session_open gives it a session, and gopat_session_close frees it. Nobody but these calls changes or copies it.
   Two handles may be used by two threads at once; one handle by one call at a time.

   A call may take memory by malloc, and 2 MB of stack. */
#ifndef GOPAT_SESSION_H
#define GOPAT_SESSION_H

#include "gopat_matches.h"

#ifdef __cplusplus
extern "C" {
#endif

/* More values of a status. */
enum {
    GOPAT_BAD_CACHE = 21,  /* cache is not in 8 to 65,536 */
    GOPAT_BAD_STATES = 22, /* states is not in 1 to 1,000,000 */
    GOPAT_BAD_LINE = 23    /* the line has a line feed */
};

typedef struct {
    bool is_open;
    void *at;
} GopatSession;

/* The options of a session, as the program has them. */
typedef struct {
    GopatDepths depths; /* how deep readings go, and in which tree; a line `depths` changes it */
    uint32_t cache;     /* how many questions are kept with their answers at most */
    uint32_t states;    /* how many states the automaton of the patterns may have */
} GopatOptions;

/* The options of the program that is given none: `GopatOptions options = GOPAT_USUAL_OPTIONS;`. */
#define GOPAT_USUAL_OPTIONS {{10, 2, GOPAT_STATED}, 4096, 100000}

/* The reply to a line has so many bytes. With GOPAT_OK they are the first bytes of the buffer; with GOPAT_SHORT_BUFFER
   the buffer is as it was. `ends` is 1 if the line ends the session, as quit does, else 0; the handle answers further
   lines all the same. With every other status both are 0. */
typedef struct {
    uint8_t status;
    uint8_t ends;
    size_t length;
} GopatReply;

/* Opens a session of the patterns of n bytes of a pattern file, with no bytes of none: an empty board of 19 rows. What
   the handle held is freed first. The patterns name no helper. Faults: of the depths (7), the cache (21), the states
   (22), then of the text (19), and more states than the options allow (20); or memory (18) in place of the last two.
   With a fault the handle holds nothing. The text must not be null, and n bytes must be there. */
GopatOpened gopat_session_open(GopatSession *session, const char *text, size_t n, GopatOptions options);

/* Answers a line of n bytes, without a line feed, as the program does, and writes the reply into the first bytes of a
   buffer of room bytes, without a zero behind it. There are no helpers, and each file that a line names counts as
   empty. Faults: of the handle (17), the line (23), or memory (18), and then nothing was done; or the buffer (15). With
   15 the line was answered, and gopat_last_reply writes its reply. Neither pointer may be null, and so many bytes must
   be there. */
GopatReply gopat_line(GopatSession *session, const char *line, size_t n, char *reply, size_t room);

/* Writes the reply to the last line that was answered once more; no bytes before the first one. Faults: 17, 15. */
GopatReply gopat_last_reply(GopatSession *session, char *reply, size_t room);

/* Frees what the handle holds; then it holds nothing. A handle that holds nothing stays so. */
void gopat_session_close(GopatSession *session);

#ifdef __cplusplus
}
#endif
#endif
