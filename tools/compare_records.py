"""Plays game records in gopat and in GNU Go, and compares what they answer of the board: which plays they take,
liberties, legal points, captures and stones, with moves taken back in between.

usage: python3 tools/compare_records.py GOPAT GNUGO FOLDER [SEED]

The folder is searched for *.sgf. Records that take stones off the board are passed over. The exit status is 1 where a
reply differs.
"""

import pathlib
import random
from typing import Callable, NamedTuple

import command_line
import gtp
import sgf


class Question(NamedTuple):
    """What is said to each program, and what of a reply has to be equal."""

    ours: str
    theirs: str
    seen_in_ours: Callable[[gtp.Reply], object]
    seen_in_theirs: Callable[[gtp.Reply], object]


def same(line: str, seen: Callable[[gtp.Reply], object]) -> Question:
    return Question(line, line, seen, seen)


def taken(reply: gtp.Reply):
    return reply.ok


def text(reply: gtp.Reply):
    return reply


def vertices(reply: gtp.Reply):
    return reply.ok, frozenset(reply.text.split())


def stones(mark: str) -> Callable[[gtp.Reply], object]:
    """The vertices of a board's text that hold the mark."""

    def seen(reply: gtp.Reply):
        return reply.ok, frozenset(gtp.shown(reply.text).of(mark))

    return seen


def asked_now_and_then(move: sgf.Move, luck: random.Random):
    """Some questions on the board after a move."""
    if luck.random() < 0.25 and move.vertex != "PASS":
        yield same(f"findlib {move.vertex}", vertices)
    if luck.random() < 0.05:
        yield from (same(f"all_legal {colour}", vertices) for colour in "bw")
    if luck.random() < 0.08:
        yield from (same(f"captures {colour}", text) for colour in "bw")
    if luck.random() < 0.06:
        yield from (
            Question("showboard", f"list_stones {colour}", stones(mark), vertices)
            for colour, mark in (("b", "X"), ("w", "O"))
        )


def questions(record: sgf.Record, luck: random.Random):
    """The record's moves, some of them taken back and played again, with questions in between."""
    yield same(f"boardsize {record.size}", taken)
    for count, move in enumerate(record.moves, start=1):
        yield same(f"play {move}", taken)
        yield from asked_now_and_then(move, luck)
        if luck.random() < 0.04:
            last = record.moves[max(0, count - luck.randint(1, 8)) : count]
            yield from (same("undo", taken) for _ in last)
            yield from (same(f"play {again}", taken) for again in last)


def differences(gopat: str, gnugo: str, record: sgf.Record, luck: random.Random) -> tuple[int, list[str]]:
    """How many replies were compared, and those that differ."""
    asked = list(questions(record, luck))
    ours, _ = gtp.session([gopat], [question.ours for question in asked])
    theirs, _ = gtp.session(gtp.gnugo(gnugo), [question.theirs for question in asked])
    return len(asked), [
        f"{question.ours}: {our.text[:60]!r}, {their.text[:60]!r}"
        for question, our, their in zip(asked, ours, theirs)
        if question.seen_in_ours(our) != question.seen_in_theirs(their)
    ]


def main(gopat: str, gnugo: str, folder: str, seed: str = "1") -> int:
    luck = random.Random(int(seed))
    records = replies = differ = 0
    for path in sorted(pathlib.Path(folder).rglob("*.sgf")):
        try:
            record = sgf.read(str(path))
        except sgf.NotPlayable:
            continue
        if not record.moves or not 5 <= record.size <= 19:
            continue
        count, found = differences(gopat, gnugo, record, luck)
        records, replies, differ = records + 1, replies + count, differ + len(found)
        if found:
            print(f"{path}: {len(found)} differ, the first: {found[0]}")
    print(f"{records} records, {replies} replies compared, {differ} differ")
    return 1 if differ else 0


if __name__ == "__main__":
    command_line.run(main, __doc__)
