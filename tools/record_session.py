"""Prints protocol lines that go through game records as a Go interface would: each move with the board after it, some
moves taken back and played again, and at the end all of them.

usage: python3 tools/record_session.py RECORD.sgf [RECORD.sgf ...] | gopat

A record that is no row of plays is told on standard error, with the move from which on it is none, and the next record
follows; the exit status is then 1.
"""

import itertools
import sys

import command_line
import sgf


def lines(record: sgf.Record):
    """The lines without their ids."""
    yield f"boardsize {record.size}"
    if record.komi:
        yield f"komi {record.komi}"
    for count, move in enumerate(record.moves, start=1):
        yield f"play {move}"
        yield "showboard"
        if count % 4 == 0:
            yield from back_and_forth(record.moves[:count], 3 + count % 9)
    yield from ["undo"] * len(record.moves)
    yield "showboard"
    yield from (f"play {move}" for move in record.moves)
    yield "showboard"


def back_and_forth(moves: list[sgf.Move], steps: int):
    """Takes so many moves back and plays them again."""
    last = moves[-steps:]
    yield from ["undo"] * len(last)
    yield "showboard"
    yield from (f"play {move}" for move in last)
    yield from ["showboard", "captures black", "captures white"]


def main(first: str, *more: str) -> int:
    """Prints the lines of all records, numbered through."""
    numbers, status = itertools.count(1), 0
    for path in (first, *more):
        try:
            record = sgf.read(path)
        except sgf.NotPlayable as why:
            print(why, file=sys.stderr)
            status = 1
            continue
        for line in lines(record):
            print(next(numbers), line)
    return status


if __name__ == "__main__":
    command_line.run(main, __doc__)
