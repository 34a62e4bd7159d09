"""The rules of Go, apart from the proved ones: positions, plays and passes, points and their names."""

import functools
from typing import NamedTuple

import gtp

EMPTY, BLACK, WHITE = 0, 1, 2
# How many positions each function keeps its answers for: changed proofs come by the same positions again and again.
KEPT = 50_000
COLOURS = {"b": BLACK, "black": BLACK, "w": WHITE, "white": WHITE}


class Move(NamedTuple):
    """A move at a point, or the pass where there is none."""

    point: int | None


class Position(NamedTuple):
    """The size, a cell for each point in reading order, and the ban: a point and the colour that may not play there."""

    size: int
    cells: bytes
    ban: tuple[int, int] | None = None


def empty(size: int) -> Position:
    return Position(size, bytes(size * size))


def other(colour: int) -> int:
    return BLACK + WHITE - colour


@functools.cache
def neighbours(size: int) -> list[tuple[int, ...]]:
    """The neighbours of each point."""
    rows = [divmod(point, size) for point in range(size * size)]
    sides = [[(row - 1, column), (row, column - 1), (row, column + 1), (row + 1, column)] for row, column in rows]
    return [tuple(r * size + c for r, c in side if 0 <= r < size and 0 <= c < size) for side in sides]


def string_at(size: int, cells: bytes, point: int) -> tuple[set[int], set[int]]:
    """The stones of the string at a point, and its liberties."""
    beside = neighbours(size)
    colour, stones, liberties, left = cells[point], {point}, set(), [point]
    while left:
        for near in beside[left.pop()]:
            if cells[near] == EMPTY:
                liberties.add(near)
            elif cells[near] == colour and near not in stones:
                stones.add(near)
                left.append(near)
    return stones, liberties


def captures(size: int, cells: bytes, point: int) -> set[int]:
    """The stones of the other colour beside a new stone whose strings have no liberty."""
    taken: set[int] = set()
    for near in neighbours(size)[point]:
        if cells[near] == other(cells[point]) and near not in taken:
            stones, liberties = string_at(size, cells, near)
            taken |= stones if not liberties else set()
    return taken


@functools.lru_cache(KEPT)
def play_free(position: Position, colour: int, point: int) -> Position | None:
    """The position after a play for which no ban counts; none where the point is occupied or the play is suicide."""
    size = position.size
    if position.cells[point] != EMPTY:
        return None
    cells = bytearray(position.cells)
    cells[point] = colour
    taken = captures(size, cells, point)
    for stone in taken:
        cells[stone] = EMPTY
    stones, liberties = string_at(size, cells, point)
    if not liberties:
        return None
    is_ko = len(taken) == 1 and len(stones) == 1 and len(liberties) == 1
    return Position(size, bytes(cells), (min(taken), other(colour)) if is_ko else None)


def play(position: Position, colour: int, point: int | None) -> Position | None:
    """The position after a move, where a point that is none is the pass; none where the rules forbid the play."""
    if point is None:
        return position._replace(ban=None)
    return None if position.ban == (point, colour) else play_free(position, colour, point)


def vertex_of(size: int, point: int | None) -> str:
    """The name of a move at a point, `PASS` if there is none."""
    return "PASS" if point is None else f"{gtp.COLUMNS[point % size]}{size - point // size}"


def is_point(size: int, word: str) -> bool:
    """Whether a word in capitals is the vertex of a point."""
    column, row = word[:1], word[1:]
    if column not in gtp.COLUMNS[:size] or not 1 <= len(row) <= 2 or not set(row) <= set("0123456789"):
        return False
    return column != "" and 1 <= int(row) <= size


def move_of(size: int, word: str) -> Move | None:
    """The move that a word names, in either case; none where it names no move."""
    word = word.upper() if word.isascii() else ""
    if word == "PASS":
        return Move(None)
    if not is_point(size, word):
        return None
    return Move((size - int(word[1:])) * size + gtp.COLUMNS.index(word[0]))
