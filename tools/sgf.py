"""Game records in SGF: the board size, the komi and the stones of the main line, as moves of the Go Text Protocol; the
first game tree of a record; and text as a value."""

import re
from typing import Iterator, NamedTuple

import gtp

TOKEN = re.compile(r"[();]|([A-Za-z]+)((?:\s*\[(?:\\.|[^\\\]])*\])+)", re.DOTALL)
VALUE = re.compile(r"\[((?:\\.|[^\\\]])*)\]", re.DOTALL)


class Move(NamedTuple):
    """A stone or a pass. A stone that the record sets up is a move too: any order of plays gives the same position."""

    colour: str
    vertex: str
    is_set_up: bool = False

    def __str__(self) -> str:
        return f"{self.colour} {self.vertex}"


class Record(NamedTuple):
    size: int
    komi: str | None
    moves: list[Move]


class NotPlayable(Exception):
    """The record's main line is no row of plays, as where it takes stones off the board. The text says which record and
    which of its stones."""


def read(path: str) -> Record:
    """The record in a file, by its first variation."""
    with open(path, encoding="latin-1") as file:
        properties = list(main_line(file.read()))
    size, komi, moves = 19, None, []
    for name, values in properties:
        if name == "SZ":
            size = int(values[0])
        elif name == "KM":
            komi = values[0] or None
    for name, values in properties:
        if name == "AE":
            raise NotPlayable(f"{path}: stones are taken off the board behind move {len(moves)}")
        if name in ("AB", "AW"):
            moves += [Move(name[1].lower(), vertex(point, size), True) for point in listed(values)]
        elif name in ("B", "W"):
            moves.append(Move(name.lower(), vertex(values[0], size)))
    return Record(size, komi, moves)


def main_line(text: str) -> Iterator[tuple[str, list[str]]]:
    """The properties of the first variation, in order. In old records a name has small letters too, which do not
    count."""
    for token in TOKEN.finditer(text):
        if token[0] == ")":
            return
        if token[1]:
            name = "".join(letter for letter in token[1] if letter.isupper())
            yield name, [re.sub(r"\\(.)", r"\1", value) for value in VALUE.findall(token[2])]


class Node:
    """A node of a game tree: its properties by their names in capitals, and its children."""

    def __init__(self):
        self.properties: dict[str, list[str]] = {}
        self.children: list["Node"] = []

    def texts(self, *names: str) -> list[str]:
        """The values of these properties, in this order."""
        return [value for name in names for value in self.properties.get(name, [])]

    def main_line(self) -> Iterator["Node"]:
        """This node and the first child of each."""
        node: Node | None = self
        while node:
            yield node
            node = node.children[0] if node.children else None


class NoTree(Exception):
    """The text has no game tree, or one that does not end."""


def tree(text: str) -> Node:
    """The first node of the first game tree of a text."""
    above, behind = Node(), []
    here = above
    for token in TOKEN.finditer(text):
        if token[0] == "(":
            behind.append(here)
        elif token[0] == ")":
            here = behind.pop() if behind else above
            if not behind and above.children:
                return above.children[0]
        elif token[0] == ";" and behind:
            here.children.append(Node())
            here = here.children[-1]
        elif token[1] and here is not above:
            name = "".join(letter for letter in token[1] if letter.isupper())
            values = [re.sub(r"\\(.)", r"\1", value, flags=re.DOTALL) for value in VALUE.findall(token[2])]
            here.properties.setdefault(name, []).extend(values)
    raise NoTree("no whole game tree")


def escaped(text: str) -> str:
    """A text as it stands in a value."""
    return text.replace("\\", "\\\\").replace("]", "\\]")


def listed(values: list[str]) -> Iterator[str]:
    """The points of a list, in which AA:BB is a rectangle."""
    for value in values:
        first, _, last = value.partition(":")
        for column in range(ord(first[0]), ord((last or first)[0]) + 1):
            for row in range(ord(first[1]), ord((last or first)[1]) + 1):
                yield chr(column) + chr(row)


def point_at(place: int | None, size: int) -> str:
    """The value for the point of this number in reading order; the empty one, a pass, if there is none."""
    return "" if place is None else chr(ord("a") + place % size) + chr(ord("a") + place // size)


def vertex(point: str, size: int) -> str:
    """The vertex of a point; an empty one, or tt on a board that has no such point, is a pass."""
    if point == "" or (point == "tt" and size <= 19):
        return "PASS"
    column, row = (ord(letter) - ord("a") for letter in point)
    return f"{gtp.COLUMNS[column]}{size - row}"
