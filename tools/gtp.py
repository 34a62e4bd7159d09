"""Sessions of the Go Text Protocol with a program: all lines in and all replies out, or one line after the other. And
what such lines speak of: vertices, and the board of a `showboard` reply."""

import re
import subprocess
import time
from typing import NamedTuple

COLUMNS = "ABCDEFGHJKLMNOPQRSTUVWXYZ"


def gnugo(program: str) -> list[str]:
    """The command that starts GNU Go."""
    return [program, "--mode", "gtp", "--quiet"]


def vertices(size: int) -> list[str]:
    """The vertices of a board, column by column, each from the first row up."""
    return [f"{column}{row}" for column in COLUMNS[:size] for row in range(1, size + 1)]


class Shown(NamedTuple):
    """A board: its size, and the mark of each stone, X for black and O for white, by its vertex in reading order."""

    size: int
    stones: dict[str, str]

    def of(self, mark: str) -> list[str]:
        """The vertices of the stones with this mark."""
        return [vertex for vertex, one in self.stones.items() if one == mark]


def shown(text: str) -> Shown:
    """The board of a `showboard` reply, gopat's or GNU Go's, which marks the handicap points by +."""
    rows = [line.split() for line in text.splitlines() if re.match(r" *\d+ [.+XO]", line)]
    size = len(rows)
    stones = {column + row[0]: mark for row in rows for column, mark in zip(COLUMNS[:size], row[1:]) if mark in "XO"}
    return Shown(size, stones)


class Reply(NamedTuple):
    """A reply without its id: whether it is a success, and its text."""

    ok: bool
    text: str


def session(command: list[str], lines: list[str], folder: str | None = None) -> tuple[list[Reply], float]:
    """The replies to the lines, one for each, and the seconds that the program ran."""
    start = time.monotonic()
    done = subprocess.run(
        command, input="\n".join(lines) + "\n", capture_output=True, text=True, cwd=folder, check=False
    )
    seconds = time.monotonic() - start
    texts = [part.strip("\n") for part in done.stdout.split("\n\n")]
    replies = [Reply(text[0] == "=", text[1:].lstrip("0123456789").lstrip(" ")) for text in texts if text]
    if len(replies) != len(lines):
        raise RuntimeError(f"{command[0]}: {len(replies)} replies to {len(lines)} lines")
    return replies, seconds


def reply_of(text: bytes) -> Reply:
    """A reply without an id."""
    said = text.decode()
    return Reply(said[0] == "=", said[1:].removeprefix(" ").removesuffix("\n\n"))


# So many lines are sent together by `Running.ask_all`.
TOGETHER = 200


class Ended(Exception):
    """The program ended where a reply was wanted."""


class Running:
    """A running program that is asked one line after the other."""

    def __init__(self, command: list[str]):
        self.process = subprocess.Popen(command, stdin=subprocess.PIPE, stdout=subprocess.PIPE)

    def pass_on(self, line: bytes) -> bytes:
        """The reply to a line that has words, with its empty line."""
        try:
            self.process.stdin.write(line.rstrip(b"\n") + b"\n")
            self.process.stdin.flush()
        except BrokenPipeError as why:
            raise Ended from why
        return self.next_reply()

    def next_reply(self) -> bytes:
        """The next reply, with its empty line."""
        reply = b""
        while not reply.endswith(b"\n\n"):
            part = self.process.stdout.readline()
            if not part:
                raise Ended
            reply += part
        return reply

    def ask(self, line: str) -> Reply:
        """The reply to a line without an id."""
        return reply_of(self.pass_on(line.encode()))

    def ask_all(self, lines: list[str]) -> list[Reply]:
        """The replies to lines without ids, each of which has words. So many lines at once go out together that their
        replies stay in the pipe."""
        replies: list[Reply] = []
        for first in range(0, len(lines), TOGETHER):
            part = lines[first : first + TOGETHER]
            replies.append(reply_of(self.pass_on("\n".join(part).encode())))
            replies += [reply_of(self.next_reply()) for _ in part[1:]]
        return replies

    def end(self) -> int:
        """The exit status, after the end of the lines."""
        try:
            self.process.stdin.close()
        except BrokenPipeError:
            pass
        return self.process.wait()
