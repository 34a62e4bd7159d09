/* Where a pattern of one stone in the second line matches, as numbers. */
#include "gopat_matches.h"
#include <stdio.h>
#include <string.h>

static const char text[] = "Pattern Edge\nO*|\n:8,s\n";

int main(void) {
    GopatPatterns patterns = {0};
    GopatOpened opened = gopat_patterns_open(&patterns, text, strlen(text));
    if (opened.status != GOPAT_OK)
        return opened.status;
    GopatBoard board = {.size = 9};
    board.cells[52] = GOPAT_BLACK; /* H4 */
    GopatDepths depths = {.plies = 10, .wide = 2, .tree = GOPAT_STATED};
    GopatMatch found[16];
    GopatFound reply = gopat_matches(&patterns, board, GOPAT_BLACK, depths, found, 16);
    printf("%zu pattern, matches:", opened.patterns);
    for (size_t i = 0; reply.status == GOPAT_OK && i < reply.number; i++)
        printf(" %c%d", "ABCDEFGHJ"[found[i].at % 9], 9 - found[i].at / 9);
    printf("\n");
    gopat_patterns_close(&patterns);
    return reply.status;
}
