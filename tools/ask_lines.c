/* Asks a session of gopat from C the lines of a file, and writes each reply. try_sessions.py runs it, also under
   valgrind: each buffer is memory of its own, with not a byte more than is told.

   usage: ask_lines PATTERNS LINES PLIES WIDE TREE [TIMES]

   The buffer of most lines is too short at first; then it has to be as it was, and the reply is fetched with the room
   that was told. At times another handle is opened with a part of the patterns, asked and closed. With TIMES nothing is
   tried: all lines are answered so many times, each time by a new session, and the processor's seconds are written. */
#include "gopat_session.h"
#include <stdio.h>
#include <stdlib.h>
#include <string.h>
#include <time.h>

/* What stands in a buffer before a line, and how much room a timed line has. */
enum { BEFORE = 7, ROOM = 100000 };

/* The bytes of a file, in memory that ends where they end. */
static char *bytes_of(const char *name, size_t *n) {
    FILE *file = fopen(name, "rb");
    if (file == NULL || fseek(file, 0, SEEK_END) != 0)
        exit(2);
    *n = ftell(file);
    rewind(file);
    char *bytes = malloc(*n + (*n == 0));
    if (fread(bytes, 1, *n, file) != *n)
        exit(2);
    fclose(file);
    return bytes;
}

/* A copy in memory that ends where it ends. */
static char *copy_of(const char *bytes, size_t n) {
    char *copy = malloc(n + (n == 0));
    memcpy(copy, bytes, n);
    return copy;
}

/* A buffer of so much room. */
static char *buffer_of(size_t room) {
    char *buffer = malloc(room + (room == 0));
    memset(buffer, BEFORE, room);
    return buffer;
}

/* Whether the bytes of a buffer from one on are as they were. */
static bool as_before(const char *buffer, size_t from, size_t room) {
    for (size_t i = from; i < room; i++)
        if (buffer[i] != BEFORE)
            return false;
    return true;
}

/* Fetches the last reply with so much room, and writes it if it fits. */
static GopatReply fetch(GopatSession *session, size_t room, bool show) {
    char *buffer = buffer_of(room);
    GopatReply reply = gopat_last_reply(session, buffer, room);
    if (!as_before(buffer, reply.status == GOPAT_OK ? reply.length : 0, room))
        exit(3);
    if (show && reply.status == GOPAT_OK)
        fwrite(buffer, 1, reply.length, stdout);
    free(buffer);
    return reply;
}

/* Answers a line with so much room, and writes its reply. */
static void ask(GopatSession *session, const char *text, size_t n, size_t room) {
    char *line = copy_of(text, n), *buffer = buffer_of(room);
    GopatReply reply = gopat_line(session, line, n, buffer, room);
    free(line);
    bool fits = reply.length <= room;
    if (reply.status != (fits ? GOPAT_OK : GOPAT_SHORT_BUFFER) || !as_before(buffer, fits ? reply.length : 0, room))
        exit(4);
    if (fits)
        fwrite(buffer, 1, reply.length, stdout);
    free(buffer);
    GopatReply again = fetch(session, reply.length, !fits);
    if (again.status != GOPAT_OK || again.length != reply.length || again.ends != reply.ends)
        exit(5);
    if (reply.length > 0 && fetch(session, reply.length - 1, false).status != GOPAT_SHORT_BUFFER)
        exit(6);
}

/* Opens a handle with the first bytes of a text, asks it, and closes it twice. */
static void open_and_close(GopatSession *session, const char *text, size_t n, GopatOptions options) {
    char *part = copy_of(text, n), buffer[10];
    GopatOpened opened = gopat_session_open(session, part, n, options);
    free(part);
    GopatReply reply = gopat_line(session, "komi 1", 6, buffer, sizeof buffer);
    if ((reply.status == GOPAT_CLOSED) != (opened.status != GOPAT_OK))
        exit(7);
    if ((opened.status == GOPAT_BAD_TEXT) != (opened.line != 0))
        exit(8);
    gopat_session_close(session);
    gopat_session_close(session);
    if (gopat_last_reply(session, buffer, sizeof buffer).status != GOPAT_CLOSED)
        exit(9);
}

/* Answers all lines by a new session, and writes nothing. */
static void answer_all(const char *text, size_t n, const char *lines, size_t length, GopatOptions options) {
    static char buffer[ROOM];
    GopatSession session = {0};
    if (gopat_session_open(&session, text, n, options).status != GOPAT_OK)
        exit(10);
    for (size_t at = 0, end; at < length; at = end + 1) {
        for (end = at; end < length && lines[end] != '\n'; end++)
            ;
        if (gopat_line(&session, lines + at, end - at, buffer, sizeof buffer).status != GOPAT_OK)
            exit(11);
    }
    gopat_session_close(&session);
}

int main(int argc, char **argv) {
    if (argc != 6 && argc != 7)
        return 2;
    size_t n, length;
    char *text = bytes_of(argv[1], &n), *lines = bytes_of(argv[2], &length);
    GopatOptions options = {{atoi(argv[3]), atoi(argv[4]), atoi(argv[5])}, 4096, 100000};
    if (argc == 7) {
        clock_t start = clock();
        for (int i = 0; i < atoi(argv[6]); i++)
            answer_all(text, n, lines, length, options);
        printf("%f\n", (double)(clock() - start) / CLOCKS_PER_SEC);
        return 0;
    }
    GopatSession session = {0}, other = {0};
    if (gopat_session_open(&session, text, n, options).status != GOPAT_OK)
        return 10;
    size_t number = 0;
    for (size_t at = 0, end; at < length; at = end + 1, number++) {
        for (end = at; end < length && lines[end] != '\n'; end++)
            ;
        ask(&session, lines + at, end - at, number * 7 % 40);
        if (number % 50 == 0)
            open_and_close(&other, text, number / 50 % (n + 1), options);
    }
    gopat_session_close(&session);
    free(text), free(lines);
    return 0;
}
