"""The position at the end of a game record, or behind protocol lines, as the scripts that draw and ask share it."""

import pathlib
import re
from typing import NamedTuple

import sgf
from go_rules import BLACK, COLOURS, EMPTY, WHITE, Position, empty, move_of, play, string_at, vertex_of

SET_UP = {"AB": BLACK, "AW": WHITE, "AE": EMPTY}
MOVES = {"B": BLACK, "W": WHITE}
LETTERS = {BLACK: "b", WHITE: "w"}
NAMES = {BLACK: "Black", WHITE: "White"}


class NotRead(Exception):
    """The file is no record or no lines that lead to a position. The text says which and why."""


class Played(NamedTuple):
    """A play or a pass, if there is no point."""

    colour: int
    point: int | None


class Situation(NamedTuple):
    """A position, the moves that led to it, without the stones that were set up, and the protocol lines that set it
    up."""

    position: Position
    moves: list[Played]
    lines: list[str]

    def after(self, move: Played) -> "Situation | None":
        """The situation after a move; none where the rules forbid it."""
        position = play(self.position, move.colour, move.point)
        if position is None:
            return None
        line = f"play {LETTERS[move.colour]} {vertex_of(position.size, move.point)}"
        return Situation(position, [*self.moves, move], [*self.lines, line])


def first(size: int) -> Situation:
    """The empty board."""
    return Situation(empty(size), [], [f"boardsize {size}"])


def set_up(position: Position, moves: list[Played]) -> Situation:
    """A position that stones were set on or taken off by hand."""
    stones = [(point, colour) for point, colour in enumerate(position.cells) if colour != EMPTY]
    lines = [f"play {LETTERS[colour]} {vertex_of(position.size, point)}" for point, colour in stones]
    return Situation(position._replace(ban=None), moves, [f"boardsize {position.size}", *lines, "play b pass"])


def point_of(size: int, value: str) -> int | None:
    """The point of a value of a record; none for a pass."""
    vertex = sgf.vertex(value, size)
    move = move_of(size, vertex)
    if move is None:
        raise NotRead(f"{value} is no point of the board")
    return move.point


def checked(position: Position) -> Position:
    """A position that was set up, in which each string has a liberty."""
    for point, colour in enumerate(position.cells):
        if colour != EMPTY and not string_at(position.size, position.cells, point)[1]:
            raise NotRead(f"the string at {vertex_of(position.size, point)} has no liberty")
    return position


def after_node(before: Situation, node: sgf.Node) -> Situation:
    """The situation after the stones and the moves of a node."""
    size, after = before.position.size, before
    if any(name in SET_UP for name in node.properties):
        cells = bytearray(before.position.cells)
        for name, colour in SET_UP.items():
            for value in sgf.listed(node.texts(name)):
                cells[point_of(size, value)] = colour
        after = set_up(checked(Position(size, bytes(cells))), before.moves)
    for name, values in node.properties.items():
        for value in values if name in MOVES else []:
            played = after.after(Played(MOVES[name], point_of(size, value)))
            if played is None:
                raise NotRead(f"move {len(after.moves) + 1}, {sgf.vertex(value, size)}, is refused")
            after = played
    return after


def size_of(root: sgf.Node) -> int:
    """The size of a record."""
    text = (root.texts("SZ") or ["19"])[0]
    if not text.isdigit() or not 2 <= int(text) <= 25:
        raise NotRead(f"{text} is no size from 2 to 25")
    return int(text)


def record(text: str) -> list[Situation]:
    """The situation after each node of the main line of a record."""
    root = sgf.tree(text)
    found = [first(size_of(root))]
    for node in root.main_line():
        found.append(after_node(found[-1], node))
    return found[1:]


def after_line(before: list[Situation], line: str) -> list[Situation]:
    """The situations behind one protocol line more, the last of which stands. A refused line changes nothing."""
    words = re.sub(r"^\s*\d+\s+", "", line.split("#")[0]).split()
    match words:
        case ["boardsize", size]:
            return [first(int(size))]
        case ["clear_board"]:
            return [first(before[-1].position.size)]
        case ["loadsgf", path, *_]:
            return [read(path)]
        case ["undo"]:
            return before[:-1] or before
        case ["play", colour, vertex, *_]:
            move = move_of(before[-1].position.size, vertex)
            after = before[-1].after(Played(COLOURS[colour.lower()], move.point)) if move else None
            return [*before, after] if after else before
    return before


def read(path: str) -> Situation:
    """The end of the main line of the record in a file `*.sgf`; in another file, what its protocol lines lead to, where
    other lines than `boardsize`, `clear_board`, `play`, `undo` and `loadsgf` are passed over."""
    try:
        text = pathlib.Path(path).read_text(encoding="latin-1")
        if path.endswith(".sgf"):
            return record(text)[-1]
        found = [first(19)]
        for line in text.splitlines():
            found = after_line(found, line)
        return found[-1]
    except (OSError, sgf.NoTree, NotRead, ValueError, KeyError, IndexError) as why:
        raise NotRead(f"{path}: {why}".replace(f"{path}: {path}", path)) from why


def set_up_sgf(position: Position) -> str:
    """The properties that set the stones of a position up in a record."""
    size, found = position.size, ""
    for name, colour in (("AB", BLACK), ("AW", WHITE)):
        points = [point for point, one in enumerate(position.cells) if one == colour]
        found += name + "".join(f"[{sgf.point_at(point, size)}]" for point in points) if points else ""
    return found


def point_named(position: Position, vertex: str) -> int:
    """The point that a word of the command line names."""
    move = move_of(position.size, vertex)
    if move is None or move.point is None:
        raise NotRead(f"{vertex} is no point of a board of {position.size} rows")
    return move.point
