/* Asks a handle of gopat from C what a file of questions says, and prints each reply. try_handles.py runs it, also under
   valgrind: each buffer is memory of its own, with not a byte more than is told.

   usage: ask_handles PATTERNS QUESTIONS

   A question is its bytes as the struct below has them. A reply is a line: the status, the number, and three numbers
   for each match. Between the questions handles are closed, opened again with parts of the patterns' text, and asked
   while they hold nothing; and what a refused question leaves of its buffer is looked at. */
#include "gopat_matches.h"
#include <stdio.h>
#include <stdlib.h>
#include <string.h>

typedef struct {
    GopatBoard board;
    uint8_t colour;
    GopatDepths depths;
    uint16_t room;
} Question;

/* What stands in a buffer before a question. */
enum { BEFORE = 7 };

/* The bytes of a file, in memory that ends where they end. */
static char *bytes_of(const char *name, size_t *n) {
    FILE *file = fopen(name, "rb");
    if (file == NULL || fseek(file, 0, SEEK_END) != 0)
        exit(2);
    *n = ftell(file);
    rewind(file);
    char *bytes = malloc(*n + (*n == 0));
    if (fread(bytes, 1, *n, file) != *n)
        exit(2);
    fclose(file);
    return bytes;
}

/* Whether the bytes from one on are as they were before the question. */
static bool as_before(const GopatMatch *found, size_t from, size_t room) {
    const unsigned char *bytes = (const unsigned char *)found;
    for (size_t i = from * sizeof *found; i < room * sizeof *found; i++)
        if (bytes[i] != BEFORE)
            return false;
    return true;
}

/* Prints the reply to a question. */
static void ask(GopatPatterns *patterns, Question one) {
    size_t room = one.room;
    GopatMatch *found = malloc((room + (room == 0)) * sizeof *found);
    memset(found, BEFORE, room * sizeof *found);
    GopatFound reply = gopat_matches(patterns, one.board, one.colour, one.depths, found, room);
    size_t number = reply.status == GOPAT_OK ? reply.number : 0;
    if (!as_before(found, number, room))
        exit(3);
    printf("%d %zu", reply.status, reply.number);
    for (size_t i = 0; i < number; i++)
        printf(" %d %d %d", found[i].pattern, found[i].transform, found[i].at);
    printf("\n");
    free(found);
}

/* Opens a handle with the first bytes of a text, asks it, and closes it twice. */
static void open_and_close(GopatPatterns *patterns, const char *text, size_t n, Question one) {
    GopatMatch none;
    char *part = malloc(n + (n == 0));
    memcpy(part, text, n);
    GopatOpened opened = gopat_patterns_open(patterns, part, n);
    free(part);
    GopatFound reply = gopat_matches(patterns, one.board, one.colour, one.depths, &none, 0);
    bool closed = reply.status == GOPAT_CLOSED;
    if (closed != (opened.status != GOPAT_OK) || (opened.status == GOPAT_BAD_TEXT) != (opened.line != 0))
        exit(4);
    gopat_patterns_close(patterns);
    gopat_patterns_close(patterns);
}

int main(int argc, char **argv) {
    if (argc != 3)
        return 2;
    size_t n, length;
    char *text = bytes_of(argv[1], &n), *questions = bytes_of(argv[2], &length);
    GopatPatterns patterns = {0}, other = {0};
    if (gopat_patterns_open(&patterns, text, n).status != GOPAT_OK)
        return 5;
    for (size_t at = 0; at + sizeof(Question) <= length; at += sizeof(Question)) {
        Question one;
        memcpy(&one, questions + at, sizeof one);
        ask(&patterns, one);
        if (at / sizeof one % 20 == 0)
            open_and_close(&other, text, at / sizeof one % (n + 1), one);
        if (at / sizeof one % 100 == 0 && gopat_patterns_open(&patterns, text, n).status != GOPAT_OK)
            return 6;
    }
    gopat_patterns_close(&patterns);
    free(text), free(questions);
    return 0;
}
