/* A white stone in atari: can it be captured, can it be saved, and what does the capture leave? */
#include "gopat.h"
#include <stdio.h>

/* The vertex of a point, in letters and numbers. */
static const char *vertex(unsigned point, unsigned size) {
    static char text[8];
    if (point == GOPAT_PASS || point == GOPAT_NO_MOVE)
        return point == GOPAT_PASS ? "PASS" : "none";
    snprintf(text, sizeof text, "%c%u", "ABCDEFGHJKLMNOPQRSTUVWXYZ"[point % size], size - point / size);
    return text;
}

int main(void) {
    GopatBoard board = {.size = 9};
    board.cells[31] = board.cells[39] = board.cells[41] = GOPAT_BLACK;
    board.cells[40] = GOPAT_WHITE;
    GopatDepths depths = {.plies = 10, .wide = 2, .tree = GOPAT_STATED};
    GopatAnswer attack = gopat_attack(board, 40, depths), defend = gopat_defend(board, 40, depths);
    if (attack.status != GOPAT_OK)
        return attack.status;
    printf("attack %d %s, ", attack.code, vertex(attack.at, 9));
    printf("defend %d %s, ", defend.code, vertex(defend.at, 9));
    GopatPlayed next = gopat_play(board, GOPAT_BLACK, attack.at);
    printf("liberties %d\n", gopat_liberties(next.board, attack.at).number);
    return next.status;
}
