"""Times questions that gopat and GNU Go answer from what they have kept, and measures the largest cache full of real
readings.

usage: python3 tools/time_kept.py GOPAT GNUGO REGRESSION [QUESTIONS [REPEATS [ROUNDS]]]

REGRESSION is the folder with *.tst in GNU Go's source: its attack and defend questions are asked in the positions of
its game records, as tools/compare_readings.py finds them, QUESTIONS of them (all). Each is asked for the first time;
REPEATS times again (1000); and after each of a row of moves that are far from its string, as many as find room there.
The row is played in ROUNDS orders (10), each by chance, and taken back behind each, so that neither program meets a
whole position again. The time of a session that makes the same moves and does not ask is taken off; all times are the
processor's, and the shortest of three counts. Since that difference is small beside GNU Go's sessions, all stones of
the same positions are also asked about, once and behind each of 30 moves that are far from them. Then questions about
every stone of random boards, at several depths, fill a cache of 65,536 questions.
"""

import pathlib
import random
from typing import Iterator, NamedTuple

import command_line
import compare_readings
import cost
import gtp

LARGEST_CACHE = 65_536


class Timed(NamedTuple):
    """A kind of asking: the lines that ask, and the same lines without the questions."""

    name: str
    asking: list[str]
    plain: list[str]
    questions: int


def place(vertex: str) -> tuple[int, int]:
    """The column, from 0 on, and the row of a vertex."""
    return gtp.COLUMNS.index(vertex[0]), int(vertex[1:])


def is_far(one: str, other: str, size: int) -> bool:
    """Whether two vertices are more steps apart than the board has rows."""
    return sum(abs(a - b) for a, b in zip(place(one), place(other))) > size


def empty_points(asked: compare_readings.Asked) -> list[str]:
    """The vertices without a stone."""
    taken = set(asked.black) | set(asked.white)
    return [vertex for vertex in gtp.vertices(asked.size) if vertex not in taken]


def far_points(asked: compare_readings.Asked) -> list[str]:
    """Empty points that are far from the target, none beside another."""
    target = asked.question.split()[1]
    alternate = [vertex for vertex in empty_points(asked) if sum(place(vertex)) % 2]
    return [vertex for vertex in alternate if is_far(vertex, target, asked.size)]


def rounds_of_moves(luck: random.Random, asked: compare_readings.Asked, rounds: int) -> list[list[str]]:
    """Plays by both colours in turn at all far points, in so many orders."""
    points = far_points(asked)
    orders = [luck.sample(points, len(points)) for _ in range(rounds)]
    return [[f"play {'bw'[number % 2]} {vertex}" for number, vertex in enumerate(order)] for order in orders]


def far_from(asked: compare_readings.Asked, vertex: str) -> list[str]:
    """One attack question for each stone that is far from the vertex."""
    return [f"attack {stone}" for stone in asked.black + asked.white if is_far(stone, vertex, asked.size)]


def moves_far_from_many(luck: random.Random, asked: compare_readings.Asked) -> Iterator[tuple[str, list[str]]]:
    """Plays at 30 empty points, each with the questions about the stones that are far from it."""
    empty = empty_points(asked)
    for number, vertex in enumerate(luck.sample(empty, min(30, len(empty)))):
        yield f"play {'bw'[number % 2]} {vertex}", far_from(asked, vertex)


def about_all_far_stones(questions: list[compare_readings.Asked]) -> Timed:
    """Each stone is asked about once, and again behind each move that is far from it, which is then taken back."""
    luck = random.Random(1)
    asking, plain, count = [], [], 0
    for asked in questions:
        there = compare_readings.set_up(asked) + [f"attack {stone}" for stone in asked.black + asked.white]
        moves = list(moves_far_from_many(luck, asked))
        asking += there + joined([play, *about, "undo"] for play, about in moves)
        plain += there + joined([play, "undo"] for play, _ in moves)
        count += sum(len(about) for _, about in moves)
    return Timed("all far stones", asking, plain, count)


def after_each(orders: list[list[str]], text: list[str]) -> list[str]:
    """The moves of each order, with these lines behind each move, and the order taken back."""
    return joined(joined([move] + text for move in moves) + ["undo"] * len(moves) for moves in orders)


def joined(rows: Iterator[list[str]]) -> list[str]:
    """The lines of all rows."""
    return [line for row in rows for line in row]


def kinds_of_asking(questions: list[compare_readings.Asked], repeats: int, rounds: int) -> list[Timed]:
    """Each kind over all questions, in one session each."""
    luck = random.Random(1)
    rows = [(compare_readings.set_up(one), one.question, rounds_of_moves(luck, one, rounds)) for one in questions]
    first = joined(there + [text] for there, text, _ in rows)
    again = joined(there + [text] * (1 + repeats) for there, text, _ in rows)
    silent = joined(there + [text] + after_each(orders, []) for there, text, orders in rows)
    distant = joined(there + [text] + after_each(orders, [text]) for there, text, orders in rows)
    return [
        Timed("the first time", first, joined(there for there, _, _ in rows), len(rows)),
        Timed("the same again", again, first, len(rows) * repeats),
        Timed("after a distant move", distant, silent, sum(len(moves) for _, _, orders in rows for moves in orders)),
    ]


def microseconds(command: list[str], kind: Timed) -> float:
    """The microseconds of a question."""
    asking, plain = (min(cost.of(command, some).seconds for _ in range(3)) for some in (kind.asking, kind.plain))
    return (asking - plain) * 1e6 / kind.questions


def full_board(luck: random.Random, size: int) -> list[str]:
    """The lines of a random board with stones on most of its points."""
    points = gtp.vertices(size)
    luck.shuffle(points)
    return [f"boardsize {size}", *(f"play {luck.choice('bw')} {point}" for point in points[: len(points) * 2 // 3])]


def filling(luck: random.Random) -> Iterator[str]:
    """Lines that ask attack and defend about every point of random boards, at depths that differ: more than the cache
    keeps."""
    asked = 0
    while asked < 2 * LARGEST_CACHE:
        for size in range(19, 8, -1):
            there = full_board(luck, size)
            yield from there
            stones = [line.split()[2] for line in there[1:]]
            for plies, wide in ((plies, wide) for plies in range(2, 6) for wide in range(2)):
                yield f"depths {plies} {wide}"
                yield from (f"{kind} {stone}" for stone in stones for kind in ("attack", "defend"))
                asked += 2 * len(stones)


def main(gopat: str, gnugo: str, regression: str, wanted: str = "1000", repeats: str = "1000", rounds: str = "10"):
    questions = [asked for asked in compare_readings.asked_of_gnugo(gnugo, pathlib.Path(regression)) if asked.theirs.ok]
    random.Random(1).shuffle(questions)
    questions = questions[: int(wanted)]
    print(f"{len(questions)} questions, at the depths of the options")
    for kind in [*kinds_of_asking(questions, int(repeats), int(rounds)), about_all_far_stones(questions)]:
        ours = microseconds([gopat], kind)
        theirs = microseconds(gtp.gnugo(gnugo), kind)
        print(f"{kind.name:22} {ours:9.2f} us by gopat, {theirs:9.2f} us by GNU Go: {ours / theirs:.2f} of its time")
    largest = [gopat, "--cache", str(LARGEST_CACHE)]
    full, empty = cost.of(largest, filling(random.Random(1))), cost.of(largest)
    print(f"a cache of {LARGEST_CACHE}: {full.megabytes:.0f} MB when full, {empty.megabytes:.0f} MB when empty")


if __name__ == "__main__":
    command_line.run(main, __doc__)
