/* gopat for programs in C: questions about a position of Go. Link with libgopat_c.a.

   Each call is a question of its own: nothing is kept from one call to the next, no memory is taken, and calls may run
   in several threads at once. Every argument may hold any number. If the status of a reply is not GOPAT_OK, it says
   what was wrong with them; of several faults the one is told that comes first in the comment of the call.
   A call needs less than 1.5 MB of stack. With fewer than 12 plies it needs less than 64 KB, gopat_proof 160 KB.

   A point is row * size + column. Row 0 is the top row and column 0 the left one, so on a board of 9 rows the vertex
   E5 is point 40. */
#ifndef GOPAT_H
#define GOPAT_H

#include <stddef.h>
#include <stdint.h>

#ifdef __cplusplus
extern "C" {
#endif

/* What stands on a point, and a colour. */
enum { GOPAT_EMPTY = 0, GOPAT_BLACK = 1, GOPAT_WHITE = 2 };

/* Numbers of points that are none. */
enum { GOPAT_NO_MOVE = 65534, GOPAT_PASS = 65535 };

/* The question of a proof. */
enum { GOPAT_ATTACK = 1, GOPAT_DEFEND = 2 };

/* Which tree is read. */
enum { GOPAT_STATED = 0, GOPAT_WIDER = 1 };

/* The status of a reply. */
enum {
    GOPAT_OK = 0,
    GOPAT_BAD_SIZE = 1,    /* the size is not in 2 to 25 */
    GOPAT_BAD_CELL = 2,    /* the byte of a point is none of 0, 1 and 2 */
    GOPAT_NO_LIBERTY = 3,  /* a string on the board has no liberty */
    GOPAT_BAD_BAN = 4,     /* ban_colour is none of 0, 1 and 2, or ban_point is not an empty point of the board */
    GOPAT_OFF_BOARD = 5,   /* a point is not on the board */
    GOPAT_NO_STONE = 6,    /* no stone stands on a point that is asked about */
    GOPAT_BAD_DEPTHS = 7,  /* plies is not in 1 to 200, wide not in 0 to 12, or tree not in 0 to 1 */
    GOPAT_TWO_COLOURS = 8, /* the two stones are of different colours */
    GOPAT_BAD_COLOUR = 9,  /* the colour to play is neither 1 nor 2 */
    GOPAT_BAD_KIND = 10,   /* the question is neither 1 nor 2 */
    GOPAT_BAD_CODE = 11,   /* the code is above 3 */
    GOPAT_OCCUPIED = 12,   /* a stone stands on the point */
    GOPAT_KO = 13,         /* the ko ban forbids the play */
    GOPAT_SUICIDE = 14,    /* the stone would have no liberty after its captures */
    GOPAT_SHORT_BUFFER = 15, /* the proof has more bytes than the buffer */
    GOPAT_TOO_LONG = 16      /* the proof has more than GOPAT_MOST_TEXT bytes */
};

/* How many bytes a proof may have. */
enum { GOPAT_MOST_TEXT = 60000 };

/* A position. Only the first size * size bytes of cells are looked at. A board of zeros with a size is empty. */
typedef struct {
    uint8_t size;
    uint8_t ban_colour; /* the colour that may not play at ban_point; 0 if there is no ban */
    uint16_t ban_point;
    uint8_t cells[625]; /* GOPAT_EMPTY, GOPAT_BLACK or GOPAT_WHITE for each point, in the order of the points */
} GopatBoard;

/* How deep a reading goes: 10, 2 and GOPAT_STATED are a fair start. */
typedef struct {
    uint8_t plies; /* how many moves, passes among them, may follow on one another */
    uint8_t wide;  /* in how many of the first plies more is tried than the liberties of the strings */
    uint8_t tree;
} GopatDepths;

/* The code is 0 to 3 for a reading, and 1 (yes) or 0 (no) for a connection. The move is a point, GOPAT_PASS or
   GOPAT_NO_MOVE, the last exactly if the code is 0. */
typedef struct {
    uint8_t status;
    uint8_t code;
    uint16_t at;
} GopatAnswer;

/* Each byte of the points is 1 if a play there attains the code, else 0, in the order of the points. Bytes behind the
   last point of the board are 0. */
typedef struct {
    uint8_t status;
    uint8_t code;
    uint8_t pass; /* 1 if the defender's pass attains the code, else 0 */
    uint8_t points[625];
} GopatMoves;

/* With GOPAT_OK the first length bytes of the buffer are the proof of the code; with GOPAT_SHORT_BUFFER the proof has
   this length and the buffer is as it was. */
typedef struct {
    uint8_t status;
    uint8_t code;
    uint16_t length;
} GopatProof;

typedef struct {
    uint8_t status;
    uint16_t number;
} GopatNumber;

typedef struct {
    uint8_t status;
    GopatBoard board;
} GopatPlayed;

/* Whether the string at the target can be captured when the attacker plays first. Code 3: even if the defender may
   ignore the ko ban once; 2: if neither side may; 1: only if the attacker may once; 0: not. The move is the first that
   attains the code. Faults: of the board (1 to 4), the target (5, 6), the depths (7). */
GopatAnswer gopat_attack(GopatBoard board, uint16_t target, GopatDepths depths);

/* Whether the string at the target can be saved when the defender plays first; codes and faults as above. The move is
   GOPAT_PASS if no stone need be added. */
GopatAnswer gopat_defend(GopatBoard board, uint16_t target, GopatDepths depths);

/* Every move that attains the code of gopat_attack (kind GOPAT_ATTACK) or of gopat_defend (GOPAT_DEFEND), of the moves
   that the reader tries. With code 0 there are none. Faults: of the board (1 to 4), the question (10), the target
   (5, 6), the depths (7). */
GopatMoves gopat_all(GopatBoard board, uint8_t kind, uint16_t target, GopatDepths depths);

/* Writes the first proof of the code of gopat_attack (kind GOPAT_ATTACK) or of gopat_defend (GOPAT_DEFEND) into the
   first bytes of a buffer of n bytes, without a zero behind it: the words that the program's attack_proof and
   defend_proof print behind the code, which gopat_check accepts. A buffer of GOPAT_MOST_TEXT bytes is always enough.
   Faults: of the board (1 to 4), the question (10), the target (5, 6), the depths (7), the proof (16), the buffer (15).
   With a fault the buffer stays as it is. It must not be null, and n bytes must be there. */
GopatProof gopat_proof(GopatBoard board, uint8_t kind, uint16_t target, GopatDepths depths, char *text, size_t n);

/* Whether the strings at a and b can be joined when their own colour plays first. The move is GOPAT_PASS if they are
   one string already. Faults: of the board (1 to 4), of a and then b (5, 6), two colours (8), the plies (7). */
GopatAnswer gopat_connect(GopatBoard board, uint16_t a, uint16_t b, uint8_t plies);

/* Whether they can be kept apart when the other colour plays first. Faults as above. */
GopatAnswer gopat_disconnect(GopatBoard board, uint16_t a, uint16_t b, uint8_t plies);

/* The board after the colour plays at a point, or passes at GOPAT_PASS. With a fault it is the board that was handed
   over. Faults: of the board (1 to 4), the colour (9), the point (5), the rules (12, 13, 14). */
GopatPlayed gopat_play(GopatBoard board, uint8_t colour, uint16_t at);

/* How many liberties the string at the point has. Faults: of the board (1 to 4), the point (5, 6). */
GopatNumber gopat_liberties(GopatBoard board, uint16_t at);

/* Whether the n bytes of text prove that the attack on the target's string, or its defence, has this code: 1 or 0. They
   are the words that the program's attack_proof and defend_proof print behind the code. Faults: of the board (1 to 4),
   the question (10), the target (5, 6), the depths (7), the code (11). The text must not be null,
   and n bytes must be there. */
GopatNumber gopat_check(GopatBoard board, uint8_t kind, uint16_t target, GopatDepths depths, uint8_t code,
                        const char *text, size_t n);

#ifdef __cplusplus
}
#endif
#endif
