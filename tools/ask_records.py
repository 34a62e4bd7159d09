"""Asks gopat the same questions of every game record of a folder, and tells the replies as lines of four columns,
parted by tabs: record, move, question, reply.

usage: python3 tools/ask_records.py GOPAT FOLDER [--every N] QUESTION ...
       python3 tools/ask_records.py --stream [--table FILE] GOPAT FOLDER [--every N] QUESTION ... > STREAM
       python3 tools/ask_records.py --replies STREAM < REPLIES

GOPAT is a command with its options and pattern files, in one word for the shell. The folder is searched for *.sgf. A
question is a protocol line in one word. In it STRINGS stands for each string on the board in turn, by its first stone
in reading order, and STRINGS:2 for each that has at most two liberties:

       python3 tools/ask_records.py 'gopat --depth=20' games 'attack STRINGS:3' 'match_patterns b'

A question leaves the board as it is: `reg_genmove b`, and not `genmove b`.

The questions are asked where a record ends, on the board that `loadsgf` sets up. With `--every N` they are asked after
each N moves, which are sent as `play` lines. Lines of a reply are parted by a comma and a blank. A record that gopat
refuses is told on standard error with its name and gopat's words.

`--stream` prints the protocol lines that are asked, for one gopat or for several (docs/USING.md, "Many records, many
processors"), and `--replies` puts the replies to such a stream together. A record begins with a line `# record`. Its
lines have ids: 12030007 is question 7 after move 30 of record 12. With more than 2,146 records, or moves or
questions past 999, a stream has to be made with `--table FILE`. Then the ids count lines, and the file says in four
columns what each of them is.

The exit status is 1 where a record or a question was refused, and 2 where the script cannot go on: there are no
records, an id has no room, or replies are missing.
"""

import argparse
import contextlib
import functools
import pathlib
import re
import shlex
import sys
from typing import Callable, Iterator, NamedTuple, TextIO

import command_line
import gtp
import sgf

STRINGS = re.compile(r"\bSTRINGS(?::(\d+))?(?!\S)")
MOST = 2146, 999, 999
SETTING_UP = ("loadsgf", "boardsize", "play")


class Task(NamedTuple):
    """What is asked of a folder."""

    gopat: list[str]
    folder: str
    every: int | None
    questions: list[str]


class Line(NamedTuple):
    """A protocol line of a stream, without its id, and where it belongs: the record's number and name, the move, and
    the question's number, which is 0 for lines that set a board up."""

    record: int
    name: str
    move: str
    question: int
    text: str


@functools.cache
def neighbours(size: int) -> dict[str, list[str]]:
    """The neighbours of each vertex."""
    found: dict[str, list[str]] = {vertex: [] for vertex in gtp.vertices(size)}
    for vertex, beside in found.items():
        column, row = gtp.COLUMNS.index(vertex[0]), int(vertex[1:])
        around = ((column, row - 1), (column, row + 1), (column - 1, row), (column + 1, row))
        beside += [f"{gtp.COLUMNS[x]}{y}" for x, y in around if 0 <= x < size and 1 <= y <= size]
    return found


def strings(board: gtp.Shown) -> Iterator[tuple[str, int]]:
    """The vertex of each string's first stone, and its number of liberties."""
    seen: set[str] = set()
    for vertex in board.stones:
        if vertex not in seen:
            string, liberties = string_of(board, vertex)
            seen |= string
            yield vertex, len(liberties)


def string_of(board: gtp.Shown, vertex: str) -> tuple[set[str], set[str]]:
    """The stones and the liberties of the string at a stone."""
    beside, stones = neighbours(board.size), board.stones
    string, liberties, left = {vertex}, set(), [vertex]
    while left:
        for one in beside[left.pop()]:
            if one not in stones:
                liberties.add(one)
            elif stones[one] == stones[vertex] and one not in string:
                string.add(one)
                left.append(one)
    return string, liberties


def questions_on(board: gtp.Shown, questions: list[str]) -> Iterator[str]:
    """The protocol lines of the questions on a board."""
    found_strings = list(strings(board)) if any(STRINGS.search(question) for question in questions) else []
    for question in questions:
        found = STRINGS.search(question)
        if found is None:
            yield question
            continue
        most = int(found[1]) if found[1] else board.size * board.size
        yield from (STRINGS.sub(vertex, question) for vertex, liberties in found_strings if liberties <= most)


def moves_of(path: str) -> Iterator[tuple[str, bool]]:
    """The lines that play a record, each with whether it is a move and no stone that is set up."""
    record = sgf.read(path)
    yield f"boardsize {record.size}", False
    for move in record.moves:
        yield f"play {move}", not move.is_set_up


class Stopped(Exception):
    """The script cannot go on; the text says why."""


class Refused(Exception):
    """A record that is not asked about; the text says why."""


def setting_up(task: Task, path: str) -> Iterator[tuple[str, str | None]]:
    """The lines that set up a record's boards, each with the move's number where the questions follow it."""
    yield f"loadsgf {path}", None if task.every else "end"
    count = 0
    for line, is_move in moves_of(path) if task.every else []:
        count += is_move
        yield line, str(count) if is_move and count % task.every == 0 else None


def lines_of(task: Task, engine: gtp.Running, record: int, path: str) -> Iterator[Line]:
    """The lines of a record. The boards are asked of gopat as they come."""
    if re.search(r"[\s#]|[^ -~]", path):
        raise Refused("a name with a blank, a '#' or a letter outside ASCII cannot be sent")
    name = str(pathlib.Path(path).relative_to(task.folder))
    try:
        for line, move in setting_up(task, path):
            reply = engine.ask(line)
            if not reply.ok:
                raise Refused(reply.text if line.startswith("loadsgf") else f"{line}: {reply.text}")
            yield Line(record, name, move or "", 0, line)
            asked = questions_on(gtp.shown(engine.ask("showboard").text), task.questions) if move else []
            yield from (Line(record, name, move or "", count, text) for count, text in enumerate(asked, start=1))
    except sgf.NotPlayable as why:
        raise Refused(str(why).removeprefix(f"{path}: ")) from why


def paths_of(folder: str) -> Iterator[tuple[int, str]]:
    """The records of a folder with their numbers, and on a terminal how far it is."""
    paths = sorted(str(path) for path in pathlib.Path(folder).rglob("*.sgf"))
    if not paths:
        raise Stopped(f"{folder}: no *.sgf")
    for record, path in enumerate(paths, start=1):
        yield record, path
        if sys.stderr.isatty() and (record % 10 == 0 or record == len(paths)):
            print(f"\r{record} of {len(paths)} records", end="\n" if record == len(paths) else "", file=sys.stderr)


def ask(task: Task, out: TextIO) -> tuple[int, int]:
    """Asks all questions, and answers how many were answered and how many records and questions were refused."""
    engine = gtp.Running(task.gopat)
    answered = refused = 0
    for record, path in paths_of(task.folder):
        try:
            for line in lines_of(task, engine, record, path):
                if line.question:
                    reply = engine.ask(line.text)
                    out.write(row(line.name, line.move, line.text, reply))
                    answered, refused = answered + 1, refused + (not reply.ok)
        except Refused as why:
            print(f"{path}: {why}", file=sys.stderr)
            refused += 1
    engine.end()
    return answered, refused


def row(name: str, move: str, question: str, reply: gtp.Reply) -> str:
    """The four columns of a reply."""
    text = ", ".join(reply.text.strip("\n").split("\n"))
    return "\t".join([name, move, question, text if reply.ok else f"? {text}"]) + "\n"


def readable_id(line: Line) -> int:
    """The id that names record, move and question."""
    parts = line.record, int(line.move) if line.move.isdigit() else 0, line.question
    if any(part > most for part, most in zip(parts, MOST)):
        raise Stopped(f"{line.name}: no id has room for record, move and question {parts}: use --table")
    return (parts[0] * 1000 + parts[1]) * 1000 + parts[2]


class Table:
    """Ids that count lines, and a file that says what they are."""

    def __init__(self, file: TextIO):
        self.file, self.count = file, 0

    def __call__(self, line: Line) -> int:
        self.count += 1
        self.file.write(f"{self.count}\t{line.name}\t{line.move}\t{line.text}\n")
        return self.count


def write_stream(task: Task, out: TextIO, number: Callable[[Line], int]) -> int:
    """Writes the stream with its ids, and answers how many records were refused. Nothing is written of these."""
    engine = gtp.Running(task.gopat)
    refused = 0
    for record, path in paths_of(task.folder):
        try:
            lines = list(lines_of(task, engine, record, path))
        except Refused as why:
            print(f"{path}: {why}", file=sys.stderr)
            refused += 1
            continue
        out.write(f"# record {record} {lines[0].name}\n")
        for line in lines:
            if line.question == 0 and line.move:
                out.write(f"# move {line.move}\n")
            out.write(f"{number(line)} {line.text}\n")
    engine.end()
    return refused


def replies_in(file: TextIO) -> Iterator[str]:
    """The replies of a session, without their last two line feeds."""
    reply = ""
    for line in file:
        if line != "\n":
            reply += line
        elif reply:
            yield reply[:-1]
            reply = ""


def put_together(stream: TextIO, file: TextIO, out: TextIO) -> tuple[int, int]:
    """Writes the four columns, and answers how many questions were answered and how many lines were refused."""
    replies, name, move = replies_in(file), "", ""
    answered = refused = 0
    for line in stream:
        number, _, text = line.rstrip("\n").partition(" ")
        if number == "#":
            name, move = heading(text, name)
            continue
        reply = read_reply(number, next(replies, ""))
        if reply is None:
            raise Stopped(f"{name}: no reply to {number} {text}")
        refused += not reply.ok
        if text.split(" ")[0] not in SETTING_UP:
            answered += 1
            out.write(row(name, move, text, reply))
        elif not reply.ok:
            print(f"{name}: {text}: {reply.text}", file=sys.stderr)
    return answered, refused


def heading(text: str, name: str) -> tuple[str, str]:
    """The record and the move after a line `# record NUMBER NAME` or `# move NUMBER`."""
    words = text.split(" ")
    return (words[2], "") if words[0] == "record" else (name, words[1])


def read_reply(number: str, text: str) -> gtp.Reply | None:
    """The reply, where it has this id."""
    end = 1 + len(number)
    if text[1:end] != number or text[end : end + 1].isdigit():
        return None
    return gtp.Reply(text[0] == "=", text[end:].removeprefix(" "))


def ended(answered: int, refused: int) -> int:
    """Tells how much was answered, and answers the exit status."""
    print(f"{answered} replies, {refused} refused", file=sys.stderr)
    return 1 if refused else 0


def read_words(given: tuple[str, ...]) -> argparse.Namespace:
    words = argparse.ArgumentParser(usage=__doc__, add_help=False)
    words.add_argument("--stream", action="store_true")
    words.add_argument("--table")
    words.add_argument("--every", type=int)
    words.add_argument("--replies")
    words.add_argument("words", nargs="*")
    found = words.parse_intermixed_args(given)
    if not found.replies and len(found.words) < 3:
        words.error("a folder and a question are wanted")
    return found


def work(*given: str) -> int:
    """Does what the words of the command line say, and answers the exit status."""
    words = read_words(given)
    if words.replies:
        with open(words.replies, encoding="ascii") as stream:
            return ended(*put_together(stream, sys.stdin, sys.stdout))
    task = Task(shlex.split(words.words[0]), words.words[1], words.every, words.words[2:])
    if not words.stream:
        return ended(*ask(task, sys.stdout))
    with contextlib.ExitStack() as files:
        table = Table(files.enter_context(open(words.table, "w", encoding="ascii"))) if words.table else None
        return 1 if write_stream(task, sys.stdout, table or readable_id) else 0


def main(*given: str) -> int:
    """The same, where what is missing is told."""
    try:
        return work(*given)
    except BrokenPipeError:
        raise
    except (Stopped, OSError) as why:
        print(why, file=sys.stderr)
    except gtp.Ended:
        print("gopat ended before it had answered", file=sys.stderr)
    return 2


if __name__ == "__main__":
    command_line.run(main, __doc__)
