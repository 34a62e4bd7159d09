/* Asks gopat's library the questions of a file, one after another, and prints the numbers of each reply. try_doors.py
   writes the file: records of this type, as they stand in memory. With a second word each question is asked so many
   times, and what is printed is the processor's seconds that all of them took. */
#include "gopat.h"
#include <stdio.h>
#include <stdlib.h>
#include <string.h>
#include <time.h>

typedef struct {
    GopatBoard board;
    uint16_t a, b;
    GopatDepths depths;
    uint8_t call, number, code, length; /* number: a colour or a kind; length: the bytes of the text, or the room */
    char text[256];
} Question;

/* A number of the bytes. */
static uint16_t mixed(const void *bytes, int n) {
    uint16_t number = 0;
    for (int i = 0; i < n; i++)
        number = (uint16_t)(number * 31 + ((const uint8_t *)bytes)[i]);
    return number;
}

/* The proof is asked for with so much room, its bytes in memory of their own. */
static GopatAnswer proved(const Question *q) {
    char *text = malloc(q->length + 1u);
    memset(text, 7, q->length + 1u);
    GopatProof proof = gopat_proof(q->board, q->number, q->a, q->depths, text, q->length);
    uint16_t number = (uint16_t)(mixed(text, q->length + 1) + proof.length);
    free(text);
    return (GopatAnswer){proof.status, proof.code, number};
}

/* All moves are asked for. */
static GopatAnswer all(const Question *q) {
    GopatMoves moves = gopat_all(q->board, q->number, q->a, q->depths);
    return (GopatAnswer){moves.status, moves.code, (uint16_t)(mixed(moves.points, 625) * 31 + moves.pass)};
}

static GopatAnswer asked(const Question *q) {
    GopatNumber number = {0, 0};
    GopatPlayed played;
    switch (q->call) {
    case 0: return gopat_attack(q->board, q->a, q->depths);
    case 1: return gopat_defend(q->board, q->a, q->depths);
    case 2: return gopat_connect(q->board, q->a, q->b, q->depths.plies);
    case 3: return gopat_disconnect(q->board, q->a, q->b, q->depths.plies);
    case 4: number = gopat_liberties(q->board, q->a); break;
    case 5: number = gopat_check(q->board, q->number, q->a, q->depths, q->code, q->text, q->length); break;
    case 7: return all(q);
    case 8: return proved(q);
    default:
        played = gopat_play(q->board, q->number, q->a);
        number = (GopatNumber){played.status, mixed(played.board.cells, 625)};
    }
    return (GopatAnswer){number.status, 0, number.number};
}

int main(int words, char **word) {
    int times = words > 2 ? atoi(word[2]) : 1;
    unsigned long sum = 0;
    Question *question = malloc(sizeof *question);
    double seconds = 0;
    FILE *file = fopen(word[1], "rb");
    while (file && fread(question, sizeof *question, 1, file) == 1) {
        struct timespec from, to;
        clock_gettime(CLOCK_PROCESS_CPUTIME_ID, &from);
        for (int i = 0; i < times; i++) {
            GopatAnswer answer = asked(question);
            sum += answer.at;
            if (words < 3)
                printf("%d %d %d\n", answer.status, answer.code, answer.at);
        }
        clock_gettime(CLOCK_PROCESS_CPUTIME_ID, &to);
        seconds += (double)(to.tv_sec - from.tv_sec) + 1e-9 * (double)(to.tv_nsec - from.tv_nsec);
    }
    if (words > 2)
        printf("%f %lu\n", seconds, sum);
    free(question);
    return file == NULL;
}
