/* Every move that captures three white stones, the proof that the first of them does, and its check. */
#include "gopat.h"
#include <stdio.h>

static char text[GOPAT_MOST_TEXT];

int main(void) {
    static const uint8_t black[] = {21, 22, 29, 32, 38, 41, 48, 50}, white[] = {30, 31, 39};
    GopatBoard board = {.size = 9};
    for (size_t i = 0; i < sizeof black; i++)
        board.cells[black[i]] = GOPAT_BLACK;
    for (size_t i = 0; i < sizeof white; i++)
        board.cells[white[i]] = GOPAT_WHITE;
    GopatDepths depths = {.plies = 10, .wide = 2, .tree = GOPAT_STATED};
    GopatMoves moves = gopat_all(board, GOPAT_ATTACK, 30, depths);
    if (moves.status != GOPAT_OK)
        return moves.status;
    printf("attack %d by", moves.code);
    for (int p = 0; p < 81; p++)
        if (moves.points[p])
            printf(" %c%d", "ABCDEFGHJ"[p % 9], 9 - p / 9);
    GopatProof proof = gopat_proof(board, GOPAT_ATTACK, 30, depths, text, sizeof text);
    GopatNumber checked = gopat_check(board, GOPAT_ATTACK, 30, depths, proof.code, text, proof.length);
    printf(": %.*s (%s)\n", proof.length, text, checked.number ? "checked" : "refused");
    return proof.status;
}
