/* The white stone in atari by lines of the protocol, without the pipe: each line is a call. */
#include "gopat_session.h"
#include <stdio.h>
#include <string.h>

static const char *const lines[] = {"boardsize 9", "play b E6", "play b D5", "play w E5", "play b F5"};

/* Answers a line; what stands in the buffer then is its reply. */
static GopatReply ask(GopatSession *session, const char *line, char *room, size_t size) {
    return gopat_line(session, line, strlen(line), room, size);
}

int main(void) {
    GopatSession session = {0};
    GopatOptions options = GOPAT_USUAL_OPTIONS;
    GopatOpened opened = gopat_session_open(&session, "", 0, options);
    if (opened.status != GOPAT_OK)
        return opened.status;
    char room[1000];
    for (size_t i = 0; i < sizeof lines / sizeof *lines; i++)
        ask(&session, lines[i], room, sizeof room);
    GopatReply attack = ask(&session, "attack E5", room, sizeof room);
    printf("attack %.*s, ", (int)attack.length - 4, room + 2); /* "= 3 E4" and two line feeds */
    GopatReply defend = ask(&session, "defend E5", room, sizeof room);
    printf("defend %.*s, ", (int)defend.length - 4, room + 2);
    ask(&session, "play b E4", room, sizeof room);
    GopatReply left = ask(&session, "countlib E4", room, sizeof room);
    printf("liberties %.*s\n", (int)left.length - 4, room + 2);
    gopat_session_close(&session);
    return left.status;
}
