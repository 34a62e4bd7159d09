"""Diagrams of pattern entries: turned as gopat turns them, laid on a board, and drawn. The rules are those of
docs/FORMATS.md, read a second time."""

import pathlib
import re
from typing import NamedTuple

import database
from board_picture import Edges, Grid, Picture, Spot, around, of_position
from go_rules import EMPTY, Position, move_of, other

HELPERS = {b"near_edge", b"no_ban"}
VALUE = re.compile(rb"value\(([0-9]{1,6})\)")
# What a transformation does with rows down and columns to the right, and the words for it.
TURNS = [
    (lambda r, c: (r, c), "as drawn"),
    (lambda r, c: (c, -r), "turned a quarter clockwise"),
    (lambda r, c: (-r, -c), "turned by half"),
    (lambda r, c: (-c, r), "turned a quarter counter-clockwise"),
    (lambda r, c: (r, -c), "mirrored, left for right"),
    (lambda r, c: (-c, -r), "mirrored, left for right, and turned a quarter clockwise"),
    (lambda r, c: (-r, c), "mirrored, top for bottom"),
    (lambda r, c: (c, r), "mirrored, left for right, and turned a quarter counter-clockwise"),
]
SIDES = [(-1, 0), (0, 1), (1, 0), (0, -1)]


class NotRead(Exception):
    """A pattern file that gopat would refuse, or that cannot be read. The text says why."""


class Diagram(NamedTuple):
    """The letter of each cell and the labels, by the rows down and the columns to the right of the star; and the sides
    at which the board ends."""

    cells: dict[tuple[int, int], str]
    labels: dict[tuple[int, int], str]
    edges: Edges


class Entry(NamedTuple):
    """An entry for a reader: its name, its diagram and the text of its parts."""

    name: str
    diagram: Diagram
    mark: str
    classes: str
    items: list[str]
    value: int
    text: str
    expression: str
    remarks: str


def joined(paths: list[str]) -> bytes:
    """The text of several files, as gopat reads them."""
    texts = [pathlib.Path(path).read_bytes() for path in paths]
    return b"".join(text if text.endswith(b"\n") or not text else text + b"\n" for text in texts)


def read(paths: list[str]) -> list[Entry]:
    """The entries of several files in order, read as one text. A fault is told by its line in it and its kind, as gopat
    does."""
    try:
        return list(map(entry_of, database.entries(joined(paths), HELPERS)))
    except OSError as why:
        raise NotRead(str(why)) from why
    except database.Fault as why:
        raise NotRead(f"{' '.join(paths)}: bad database: line {why.line} kind {why.kind}") from why


def text_of(part: bytes) -> str:
    """Bytes of a pattern file for a reader; what is no UTF-8 is read as Latin-1."""
    try:
        return part.decode()
    except UnicodeDecodeError:
        return part.decode("latin-1")


def entry_of(entry: database.Entry) -> Entry:
    """An entry for a reader."""
    values = filter(None, (VALUE.fullmatch(item) for item in entry.items))
    return Entry(
        text_of(entry.name), diagram_of(entry), text_of(entry.mark), text_of(entry.classes),
        [text_of(item) for item in entry.items], next((int(found[1]) for found in values), 0),
        "\n".join(map(text_of, entry.words)), text_of(b" ".join(entry.expression)).strip(),
        text_of(b" ".join(entry.remarks)),
    )


def diagram_of(entry: database.Entry) -> Diagram:
    """The diagram of an entry with the labels of its constraint diagram."""
    star = next((row, line.index(b"*")) for row, line in enumerate(entry.rows) if b"*" in line)
    cells, labels = {}, {}
    constraint = [word for main, word in zip(entry.words, entry.constraint) if database.ROW.fullmatch(main)]
    for row, line in enumerate(entry.rows):
        labelled = constraint[row][entry.sides[0] :] if constraint else line
        for column, letter in enumerate(line):
            place = row - star[0], column - star[1]
            cells[place] = chr(letter)
            if labelled[column] != letter:
                labels[place] = chr(labelled[column])
    left, right = entry.sides
    return Diagram(cells, labels, Edges(entry.top is not None, right, entry.bottom, left))


def turned(diagram: Diagram, number: int) -> Diagram:
    """A diagram after a transformation."""
    turn = TURNS[number][0]
    there = {turn(*side): is_edge for side, is_edge in zip(SIDES, diagram.edges)}
    return Diagram(
        {turn(*place): letter for place, letter in diagram.cells.items()},
        {turn(*place): label for place, label in diagram.labels.items()},
        Edges(*(there[side] for side in SIDES)),
    )


class Reach(NamedTuple):
    """The first and the last row and column of a diagram, from the star."""

    top: int
    bottom: int
    left: int
    right: int


def reach(diagram: Diagram) -> Reach:
    rows, columns = zip(*diagram.cells)
    return Reach(min(rows), max(rows), min(columns), max(columns))


def picture(diagram: Diagram, friend: str = "b") -> Picture:
    """The picture of a diagram, where the side to move has this colour. The star is a blue square. A faint stone may
    be there or not, and at a question mark stands what may."""
    ends, enemy = reach(diagram), "w" if friend == "b" else "b"
    found = Picture(Grid(ends.bottom - ends.top + 1, ends.right - ends.left + 1, diagram.edges))
    for (row, column), letter in diagram.cells.items():
        spot = Spot(row - ends.top, column - ends.left)
        if letter in "OX":
            found.stones[spot] = friend if letter == "O" else enemy
        elif letter in "ox":
            found.faint[spot] = friend if letter == "o" else enemy
        elif letter == "*":
            found.marks[spot] = "star"
        label = diagram.labels.get((row, column), "") + ("?" if letter == "?" else "")
        if label:
            found.labels[spot] = label
    return found


def admitted(letter: str, cell: int, friend: int) -> bool:
    """Whether a letter admits what stands at a point."""
    admits = {"O": {friend}, "X": {other(friend)}, "o": {friend, EMPTY}, "x": {other(friend), EMPTY}}
    return letter == "?" or cell in admits.get(letter, {EMPTY})


def points(diagram: Diagram, size: int, star: int) -> dict[tuple[int, int], int] | None:
    """The point of each cell with the star at a point; none where one lies off the board."""
    row, column = divmod(star, size)
    found = {}
    for down, right in diagram.cells:
        if not (0 <= row + down < size and 0 <= column + right < size):
            return None
        found[down, right] = (row + down) * size + column + right
    return found


def fits(diagram: Diagram, position: Position, star: int, friend: int) -> bool:
    """Whether a diagram fits with its star at a point: each cell admits what stands there, and the board ends where an
    edge is drawn."""
    at, size = points(diagram, position.size, star), position.size
    if at is None or not all(admitted(diagram.cells[place], position.cells[at[place]], friend) for place in at):
        return False
    ends, (row, column) = reach(diagram), divmod(star, size)
    ends_there = Edges(row + ends.top == 0, column + ends.right == size - 1,
                       row + ends.bottom == size - 1, column + ends.left == 0)
    return all(is_end or not is_edge for is_end, is_edge in zip(ends_there, diagram.edges))


class Match(NamedTuple):
    """A match: its entry, the transformation, and the point of the star."""

    entry: Entry
    turn: int
    point: int


class Differs(Exception):
    """gopat tells something that does not fit what these scripts see. The text says what."""


def match_of(line: str, named: dict[str, list[Entry]], position: Position, friend: int) -> Match:
    """The match of a line of a `match_patterns` reply. Of several entries of one name it is the first whose diagram
    fits there."""
    name, number, vertex = line.split(" ")
    turn, point = int(number), move_of(position.size, vertex).point
    for entry in named.get(name, []):
        if fits(turned(entry.diagram, turn), position, point, friend):
            return Match(entry, turn, point)
    raise Differs(f"{line}: no entry of this name fits there")


def matches(text: str, entries: list[Entry], position: Position, friend: int) -> list[Match]:
    """The matches of a `match_patterns` reply."""
    named: dict[str, list[Entry]] = {}
    for entry in entries:
        named.setdefault(entry.name, []).append(entry)
    return [match_of(line, named, position, friend) for line in text.splitlines()]


def turn_in_words(match: Match) -> str:
    """The transformation of a match."""
    return f"transformation {match.turn}: {TURNS[match.turn][1]}"


def part_of(entry: Entry) -> str:
    """The colon line and the expression of an entry."""
    fields = [entry.mark, entry.classes or "-", *entry.items]
    return ":" + ",".join(fields) + (f"\n;{entry.expression}" if entry.expression else "")


def on_board(match: Match, position: Position) -> Picture:
    """The part of the board around a match, with its move and its labels."""
    diagram = turned(match.entry.diagram, match.turn)
    at = points(diagram, position.size, match.point)
    frame = around(position.size, list(at.values()), 1)
    found = of_position(position, frame)
    found.marks[frame.spot(match.point)] = "star"
    found.labels.update({frame.spot(at[place]): label for place, label in diagram.labels.items()})
    return found
