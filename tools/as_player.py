"""Stands between a Go interface and gopat, and answers what an interface wants of a player that gopat leaves out.

usage: python3 tools/as_player.py GOPAT [option or pattern file of gopat ...] [option of GNU Go ...]

An interface starts this command in place of gopat. These commands are answered here; every other line goes to gopat as
it came, and its reply back at once.

    time_settings, time_left, kgs-time_settings       taken, and no clock is kept
    fixed_handicap, place_free_handicap               GNU Go's points, each set by a play line
    set_free_handicap                                 the points, each set by a play line
    final_score                                       refused as the protocol says: cannot score
    final_status_list                                 every stone is alive, no point is anybody's
    list_commands, known_command                      gopat's commands and these

Words that an interface adds for GNU Go are left out of gopat's command line: --mode gtp, --quiet and --level N.
The exit status is gopat's.
"""

import os
import re
import sys
from typing import Callable, NamedTuple

import command_line
import gtp

OPTIONS_OF_GNUGO = {"--mode": 2, "--level": 2, "--quiet": 1}
GREATEST_ID = 2147483647
LONGEST_LINE = 65536
STATUSES = ("dead", "seki", "white_territory", "black_territory", "dame")


class Line(NamedTuple):
    """A protocol line: its id, or nothing, the command, and the words behind it."""

    id: str
    command: str
    words: list[str]


def board(gopat: gtp.Running) -> gtp.Shown:
    """The board as it stands."""
    return gtp.shown(gopat.ask("showboard").text)


def set_stones(gopat: gtp.Running, vertices: list[str]) -> bool:
    """Black stones at these points; where one is refused none stays."""
    for count, vertex in enumerate(vertices):
        if not gopat.ask(f"play b {vertex}").ok:
            for _ in range(count):
                gopat.ask("undo")
            return False
    return True


def read_line(raw: bytes) -> Line | None:
    """The words of a line as gopat takes them; None where it has no word, and so no reply. One that is too long for
    gopat has a reply, and no words here."""
    if len(raw.rstrip(b"\n")) > LONGEST_LINE:
        return Line("", "", [])
    text = raw.decode("latin-1").replace("\t", " ").partition("#")[0]
    words = "".join(letter for letter in text if letter >= " " and letter != "\x7f").split(" ")
    words = [word for word in words if word]
    if not words:
        return None
    number = ""
    if re.fullmatch("[0-9]+", words[0]) and int(words[0]) <= GREATEST_ID:
        number = str(int(words.pop(0)))
    return Line(number, words[0] if words else "", words[1:])


def handicap_points(size: int, count: int) -> list[str] | None:
    """GNU Go's points of a fixed handicap, from the top row down; None where there is none of so many stones."""
    most = 9 if size % 2 == 1 and size >= 9 else 4 if size >= 7 else 0
    if not 2 <= count <= most:
        return None
    low = 3 if size < 12 else 4
    high, middle = size + 1 - low, (size + 1) // 2
    corners = [(low, low), (high, high), (low, high), (high, low)]
    sides = [(low, middle), (high, middle)], [(middle, low), (middle, high)]
    points = corners[: min(count, 4)]
    points += sides[0] if count >= 6 else []
    points += sides[1] if count >= 8 else []
    points += [(middle, middle)] if count in (5, 7, 9) else []
    points.sort(key=lambda point: (-point[1], point[0]))
    return [f"{gtp.COLUMNS[column - 1]}{row}" for column, row in points]


def number(words: list[str]) -> int | None:
    """The first word as a number."""
    return int(words[0]) if words and re.fullmatch("[0-9]{1,9}", words[0]) else None


def taken(_gopat: gtp.Running, words: list[str]) -> gtp.Reply:
    """Times are taken and not kept."""
    return gtp.Reply(True, "") if words else gtp.Reply(False, "syntax error")


def cannot_score(_gopat: gtp.Running, _words: list[str]) -> gtp.Reply:
    return gtp.Reply(False, "cannot score")


def final_status_list(gopat: gtp.Running, words: list[str]) -> gtp.Reply:
    """All stones are alive. Quarry wants a list, also an empty one, and ends at a refusal."""
    if words[:1] == ["alive"]:
        return gtp.Reply(True, " ".join(board(gopat).stones))
    return gtp.Reply(True, "") if words[:1] and words[0] in STATUSES else gtp.Reply(False, "syntax error")


def fixed_handicap(gopat: gtp.Running, words: list[str]) -> gtp.Reply:
    return set_handicap(gopat, number(words), False)


def place_free_handicap(gopat: gtp.Running, words: list[str]) -> gtp.Reply:
    """The fixed handicap of so many stones, or the greatest that there is: the protocol allows fewer."""
    return set_handicap(gopat, number(words), True)


def set_handicap(gopat: gtp.Running, count: int | None, may_be_fewer: bool) -> gtp.Reply:
    if count is None:
        return gtp.Reply(False, "syntax error")
    size, stones = board(gopat)
    if stones:
        return gtp.Reply(False, "board not empty")
    counts = range(count, 1, -1) if may_be_fewer and count < size * size else [count]
    vertices = next(filter(None, (handicap_points(size, one) for one in counts)), None)
    if vertices is None or not set_stones(gopat, vertices):
        return gtp.Reply(False, "invalid number of stones")
    return gtp.Reply(True, " ".join(vertices))


def set_free_handicap(gopat: gtp.Running, words: list[str]) -> gtp.Reply:
    if board(gopat).stones:
        return gtp.Reply(False, "board not empty")
    is_list = len(words) >= 2 and all(re.fullmatch("[A-Za-z][0-9]+", word) for word in words)
    return gtp.Reply(True, "") if is_list and set_stones(gopat, words) else gtp.Reply(False, "bad vertex list")


def list_commands(gopat: gtp.Running, _words: list[str]) -> gtp.Reply:
    theirs = gopat.ask("list_commands").text.split("\n")
    return gtp.Reply(True, "\n".join(theirs + [name for name in COMMANDS if name not in theirs]))


def known_command(gopat: gtp.Running, words: list[str]) -> gtp.Reply:
    return gtp.Reply(True, "true") if words and words[0] in COMMANDS else gopat.ask(" ".join(["known_command", *words]))


COMMANDS: dict[str, Callable[[gtp.Running, list[str]], gtp.Reply]] = {
    "list_commands": list_commands,
    "known_command": known_command,
    "time_settings": taken,
    "time_left": taken,
    "kgs-time_settings": taken,
    "fixed_handicap": fixed_handicap,
    "place_free_handicap": place_free_handicap,
    "set_free_handicap": set_free_handicap,
    "final_score": cannot_score,
    "final_status_list": final_status_list,
}


def reply_to(gopat: gtp.Running, raw: bytes, line: Line) -> bytes:
    """The reply, from here or from gopat."""
    if line.command not in COMMANDS:
        return gopat.pass_on(raw)
    answer = COMMANDS[line.command](gopat, line.words)
    text = f"{'=' if answer.ok else '?'}{line.id}{' ' if answer.text else ''}{answer.text}\n\n"
    return text.encode()


def without_their_options(words: list[str]) -> list[str]:
    """The words of a command line without those that are GNU Go's."""
    kept: list[str] = []
    at = 0
    while at < len(words):
        name, has_value, _ = words[at].partition("=")
        if name in OPTIONS_OF_GNUGO:
            at += 1 if has_value else OPTIONS_OF_GNUGO[name]
        else:
            kept.append(words[at])
            at += 1
    return kept


def main(program: str, *words: str) -> int:
    """Answers the lines of standard input until gopat or the input ends, and answers gopat's exit status."""
    gopat = gtp.Running(without_their_options([program, *words]))
    try:
        for raw in iter(sys.stdin.buffer.readline, b""):
            line = read_line(raw)
            if line is not None:
                sys.stdout.buffer.write(reply_to(gopat, raw, line))
                sys.stdout.buffer.flush()
            if line is not None and line.command == "quit":
                break
    except gtp.Ended:
        pass
    except BrokenPipeError:
        os.dup2(os.open(os.devnull, os.O_WRONLY), sys.stdout.fileno())
    return gopat.end()


if __name__ == "__main__":
    command_line.run(main, __doc__)
