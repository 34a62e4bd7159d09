"""Times what gopat and GNU Go answer of the board, on the moves of a game record: how many lines each answers a second.

usage: python3 tools/time_board.py GOPAT GNUGO RECORD.sgf [REPEATS]

Each group of lines is sent again and again (REPEATS, 2000 unless given) after the moves that it needs. The time of a
session that only makes these moves is taken off. Each session is run three times, and the shortest counts.
"""

from typing import NamedTuple

import command_line
import gtp
import sgf


class Group(NamedTuple):
    """Lines that are timed together, and the lines that come before them."""

    name: str
    before: list[str]
    lines: list[str]


def groups(record: sgf.Record, repeats: int) -> list[Group]:
    """Whole games; plays that are taken back; and questions on the last position."""
    plays = [f"play {move}" for move in record.moves]
    start = [f"boardsize {record.size}", "clear_board"]
    there = start + plays
    stones = [move.vertex for move in record.moves[-20:] if move.vertex.lower() != "pass"]
    points = gtp.vertices(record.size)
    return [
        Group("play", start, (["clear_board"] + plays) * max(1, repeats // 20)),
        Group("play and undo", there[:-1], [plays[-1], "undo"] * (10 * repeats)),
        Group("countlib", there, [f"countlib {vertex}" for vertex in stones] * repeats),
        Group("findlib", there, [f"findlib {vertex}" for vertex in stones] * repeats),
        Group("is_legal", there, [f"is_legal b {vertex}" for vertex in points] * max(1, repeats // 20)),
        Group("all_legal", there, ["all_legal b"] * repeats),
    ]


def shortest(command: list[str], lines: list[str]) -> float:
    return min(gtp.session(command, lines)[1] for _ in range(3))


def lines_a_second(command: list[str], group: Group) -> float:
    """How many lines of the group are answered in a second, without what comes before them."""
    spent = shortest(command, group.before + group.lines) - shortest(command, group.before)
    return len(group.lines) / max(spent, 1e-6)


def main(gopat: str, gnugo: str, path: str, repeats: str = "2000"):
    record = sgf.read(path)
    print(f"{len(record.moves)} moves on {record.size} by {record.size}")
    for group in groups(record, int(repeats)):
        ours = lines_a_second([gopat], group)
        theirs = lines_a_second(gtp.gnugo(gnugo), group)
        print(f"{group.name:14} {ours:12,.0f} {theirs:12,.0f} lines a second: {ours / theirs:6.1f} times")


if __name__ == "__main__":
    command_line.run(main, __doc__)
