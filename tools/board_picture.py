"""Draws a board, or a part of one: as SVG, as text, or as a row of a table.

usage: python3 tools/board_picture.py POSITION [OPTION ..] > OUT

POSITION is a game record `*.sgf`, of which the end of the main line is drawn, or a file of protocol lines, of which
`boardsize`, `clear_board`, `play`, `undo` and `loadsgf` count. No program is asked. The options are

  --form svg|text|row|page   what is written: an SVG picture (the default), text as `showboard` has it, a row of an HTML
                             table (picture, size, stones), or a page with this row
  --part C2:F6               only the points between these two; where the board goes on, its lines do too
  --numbers                  each stone that a move put there has the number of the move
  --last                     the last move is marked
  --label D4=A               a letter or a short text at a point
  --triangle D4, --square D4, --circle D4, --cross D4    a mark at a point

The options for a point may stand several times. In the text a letter stands in the place of an empty point; all other
marks are told below the board. The exit status is 2 where the words cannot be taken or POSITION cannot be read.
"""

import argparse
import html
import sys
from typing import Iterator, NamedTuple

import command_line
import gtp
import html_page
import positions
from go_rules import BLACK, EMPTY, Position


class Spot(NamedTuple):
    """A place of a picture: the row from the top and the column from the left, both counted from 0."""

    row: int
    column: int


class Edges(NamedTuple):
    """On which sides the picture ends where the board ends."""

    top: bool
    right: bool
    bottom: bool
    left: bool


ALL_EDGES = Edges(True, True, True, True)


class Grid(NamedTuple):
    """What of a picture does not depend on stones and marks. The names are those of the rows and the columns; both are
    empty if none are drawn."""

    rows: int
    columns: int
    edges: Edges
    row_names: tuple[str, ...] = ()
    column_names: tuple[str, ...] = ()


class Picture:
    """A grid with stones, `b` and `w`; faint stones, where a stone or none may stand; marks; and labels."""

    def __init__(self, grid: Grid):
        self.grid = grid
        self.stones: dict[Spot, str] = {}
        self.faint: dict[Spot, str] = {}
        self.marks: dict[Spot, str] = {}
        self.labels: dict[Spot, str] = {}

    def spots(self) -> Iterator[Spot]:
        """All places in reading order."""
        yield from (Spot(row, column) for row in range(self.grid.rows) for column in range(self.grid.columns))


class Frame(NamedTuple):
    """A part of a board: its size, the first and the last row, and the first and the last column."""

    size: int
    top: int
    bottom: int
    left: int
    right: int

    def grid(self) -> Grid:
        """The grid of this part, with the names that the board has there."""
        last = self.size - 1
        edges = Edges(self.top == 0, self.right == last, self.bottom == last, self.left == 0)
        row_names = tuple(str(self.size - row) for row in range(self.top, self.bottom + 1))
        column_names = tuple(gtp.COLUMNS[self.left : self.right + 1])
        return Grid(len(row_names), len(column_names), edges, row_names, column_names)

    def spot(self, point: int) -> Spot | None:
        """The place of a point in the picture; none where it lies outside."""
        row, column = divmod(point, self.size)
        inside = self.top <= row <= self.bottom and self.left <= column <= self.right
        return Spot(row - self.top, column - self.left) if inside else None


def whole(size: int) -> Frame:
    return Frame(size, 0, size - 1, 0, size - 1)


def around(size: int, points: list[int], margin: int) -> Frame:
    """The part with these points and so many lines around them; a side that would stop one or two lines before the
    edge of the board goes up to it."""
    rows, columns = [point // size for point in points], [point % size for point in points]
    low = [max(min(lines) - margin, 0) for lines in (rows, columns)]
    high = [min(max(lines) + margin, size - 1) for lines in (rows, columns)]
    top, left = (0 if line <= 2 else line for line in low)
    bottom, right = (size - 1 if line >= size - 3 else line for line in high)
    return Frame(size, top, bottom, left, right)


def of_position(position: Position, frame: Frame | None = None) -> Picture:
    """The picture of a position, or of a part of it."""
    frame = frame or whole(position.size)
    picture = Picture(frame.grid())
    for point, colour in enumerate(position.cells):
        spot = frame.spot(point)
        if spot and colour != EMPTY:
            picture.stones[spot] = "b" if colour == BLACK else "w"
    return picture


# SVG. The lines are one unit apart, and the first row and the first column lie at 0.


BEYOND = 0.6
NAMED = 1.15
STYLE = """
.wood{fill:#e6bf7a}.line{stroke:#5a4520;stroke-width:.04;fill:none}.edge{stroke:#5a4520;stroke-width:.1;fill:none}
.b,.w,.rim{stroke-linecap:round;fill:none}.rim{stroke:#111;stroke-width:.94}.b{stroke:#151515;stroke-width:.86}
.w{stroke:#fdfdfd;stroke-width:.86}.half{opacity:.5}
.mark{fill:none;stroke:#111;stroke-width:.1}.mark.on{stroke:#fff}.mark.in{stroke:#c22}
.ring{fill:none;stroke:#c5221f;stroke-width:.1}
.good{fill:#1e8e3e}.bad{fill:#c5221f}.star{fill:#1e6fd0}.gap{fill:#e6bf7a}
.name,.text{font-family:sans-serif;text-anchor:middle}.name{font-size:.44px;fill:#5a4520}
.text{font-weight:bold;fill:#111}.text.on{fill:#fff}
@media(prefers-color-scheme:dark){.wood,.gap{fill:#c89f5c}.line,.edge{stroke:#3a2c12}.name{fill:#3a2c12}}
""".strip()


class Grids:
    """The grids that several pictures of a page share. Each is written once."""

    def __init__(self):
        self.names: dict[Grid, str] = {}

    def use(self, grid: Grid) -> str:
        """What a picture has in the place of its grid."""
        name = self.names.setdefault(grid, f"grid{len(self.names)}")
        return f'<use href="#{name}"/>'

    def definitions(self) -> str:
        """The grids, for the beginning of a page."""
        parts = "".join(f'<g id="{name}">{grid_svg(grid)}</g>' for grid, name in self.names.items())
        return f'<svg width="0" height="0" style="position:absolute" aria-hidden="true"><defs>{parts}</defs></svg>'


class Box(NamedTuple):
    """The part of the plane that a picture covers."""

    left: float
    top: float
    width: float
    height: float


def box_of(grid: Grid) -> Box:
    """What a grid covers, with its names."""
    left, below = (NAMED if names else BEYOND for names in (grid.row_names, grid.column_names))
    return Box(-left, -BEYOND, grid.columns - 1 + left + BEYOND, grid.rows - 1 + BEYOND + below)


def short(number: float) -> str:
    """A number with two places at most."""
    return f"{number:.2f}".rstrip("0").rstrip(".") or "0"


def grid_svg(grid: Grid) -> str:
    """The wood, the lines and the names."""
    box, edges = box_of(grid), grid.edges
    left, right = (0 if edges.left else -0.5), grid.columns - (1 if edges.right else 0.5)
    top, bottom = (0 if edges.top else -0.5), grid.rows - (1 if edges.bottom else 0.5)
    lines = [f"M{short(left)} {row}H{short(right)}" for row in range(grid.rows)]
    lines += [f"M{column} {short(top)}V{short(bottom)}" for column in range(grid.columns)]
    last_row, last_column = grid.rows - 1, grid.columns - 1
    sides = [lines[0], lines[-1], lines[last_row], lines[grid.rows]]
    edge = "".join(side for side, is_there in zip(sides, edges) if is_there)
    wood = '<rect class="wood" x="{}" y="{}" width="{}" height="{}" rx=".15"/>'.format(*map(short, box))
    names = [name_svg(-0.78, row + 0.15, name) for row, name in enumerate(grid.row_names)]
    names += [name_svg(column, last_row + 0.98, name) for column, name in enumerate(grid.column_names)]
    thick = f'<path class="edge" stroke-linecap="square" d="{edge}"/>' if edge else ""
    return f'{wood}<path class="line" d="{"".join(lines)}"/>{thick}{"".join(names)}'


def name_svg(x: float, y: float, name: str) -> str:
    return f'<text class="name" x="{short(x)}" y="{short(y)}">{name}</text>'


def dots(kind: str, spots: list[Spot]) -> str:
    """Stones as one path: each is a line without length that has round ends."""
    return f'<path class="{kind}" d="{"".join(f"M{spot.column} {spot.row}h0" for spot in spots)}"/>' if spots else ""


def stones_svg(stones: dict[Spot, str], kind: str = "") -> str:
    """The stones, each colour as a path, with a rim around the white ones."""
    black, white = ([spot for spot, one in stones.items() if one == colour] for colour in "bw")
    return dots(f"b{kind}", black) + dots(f"rim{kind}", white) + dots(f"w{kind}", white)


SHAPES = {
    "triangle": "M{x} {up}L{right} {low}H{left}Z",
    "square": "M{left} {top}H{right}V{bottom}H{left}Z",
    "cross": "M{left} {top}L{right} {bottom}M{right} {top}L{left} {bottom}",
    "circle": "M{left} {y}a{side} {side} 0 1 1 {across} 0a{side} {side} 0 1 1 -{across} 0",
}


def mark_svg(spot: Spot, mark: str, stone: str | None, is_labelled: bool) -> str:
    """A mark at a place, by what stands there; around a label it is wider."""
    x, y, wide = spot.column, spot.row, 1.35 if is_labelled else 1
    if mark in ("good", "bad"):
        return f'<circle class="{mark}" cx="{x}" cy="{y}" r=".3"/>'
    if mark == "star":
        return f'<rect class="star" x="{short(x - 0.32)}" y="{short(y - 0.32)}" width=".64" height=".64" rx=".1"/>'
    if mark == "last":
        kind, radius = ("ring", ".4") if is_labelled else ("bad", ".17")
        return f'<circle class="{kind}" cx="{x}" cy="{y}" r="{radius}"/>'
    side, up, low = 0.25 * wide, 0.3 * wide, 0.2 * wide
    sides = {"left": x - side, "right": x + side, "top": y - side, "bottom": y + side, "up": y - up, "low": y + low}
    sides |= {"side": side, "across": 2 * side}
    places = {name: short(number) for name, number in {**sides, "x": x, "y": y}.items()}
    kind = {"b": " on", "w": ""}.get(stone or "", " in")
    return f'<path class="mark{kind}" d="{SHAPES[mark].format(**places)}"/>'


def label_svg(spot: Spot, text: str, is_dark: bool, is_empty: bool) -> str:
    """A text at a place, the smaller the longer it is; at an empty point the lines below it are hidden."""
    size = {1: 0.6, 2: 0.54, 3: 0.4}.get(len(text), 1.3 / max(len(text), 1))
    gap = f'<circle class="gap" cx="{spot.column}" cy="{spot.row}" r=".36"/>' if is_empty else ""
    place = f'x="{spot.column}" y="{short(spot.row + 0.36 * size)}" font-size="{short(size)}"'
    return f'{gap}<text class="text{" on" if is_dark else ""}" {place}>{html.escape(text)}</text>'


def inner_svg(picture: Picture) -> str:
    """What stands on the grid."""
    parts = [stones_svg(picture.faint, " half"), stones_svg(picture.stones)]
    for spot, mark in picture.marks.items():
        parts.append(mark_svg(spot, mark, picture.stones.get(spot), spot in picture.labels))
    for spot, text in picture.labels.items():
        is_marked = picture.marks.get(spot) in ("good", "bad", "star")
        is_empty = spot not in picture.stones and spot not in picture.faint and spot not in picture.marks
        parts.append(label_svg(spot, text, is_marked or picture.stones.get(spot) == "b", is_empty))
    return "".join(parts)


def svg(picture: Picture, unit: float = 24, grids: Grids | None = None, ground: str = "") -> str:
    """The picture with so many pixels from line to line: for a page that has the grids and the style, or for a file of
    its own. On a page something else may lie below in the place of the grid."""
    box = box_of(picture.grid)
    width, height = (round(side * unit) for side in (box.width, box.height))
    frame = " ".join(map(short, box))
    head = f'class="board" width="{width}" height="{height}" viewBox="{frame}"'
    if grids is not None:
        return f"<svg {head}>{ground or grids.use(picture.grid)}{inner_svg(picture)}</svg>"
    inner = f"<style>{STYLE}</style>{grid_svg(picture.grid)}{inner_svg(picture)}"
    return f'<svg xmlns="http://www.w3.org/2000/svg" {head}>{inner}</svg>\n'


# Text and tables.


def spot_name(grid: Grid, spot: Spot) -> str:
    """The vertex of a place, or its row and column counted from 1 where the grid has no names."""
    if not grid.row_names:
        return f"row {spot.row + 1}, column {spot.column + 1}"
    return f"{grid.column_names[spot.column]}{grid.row_names[spot.row]}"


def sign(picture: Picture, spot: Spot) -> str:
    """The letter for a place."""
    if spot in picture.stones:
        return {"b": "X", "w": "O"}[picture.stones[spot]]
    if spot in picture.faint:
        return {"b": "x", "w": "o"}[picture.faint[spot]]
    if picture.marks.get(spot) == "star":
        return "*"
    label = picture.labels.get(spot, ".")
    return label if len(label) == 1 else "."


def legend(picture: Picture) -> list[str]:
    """The marks and labels that the letters do not show, one kind a line."""
    hidden = {spot: text for spot, text in picture.labels.items() if sign(picture, spot) != text}
    lines = [", ".join(f"{text} {spot_name(picture.grid, spot)}" for spot, text in hidden.items())] if hidden else []
    for kind in dict.fromkeys(mark for mark in picture.marks.values() if mark != "star"):
        spots = [spot_name(picture.grid, spot) for spot, mark in picture.marks.items() if mark == kind]
        lines.append(f"{kind}: {' '.join(spots)}")
    return lines


def text(picture: Picture) -> str:
    """The picture as text: as `showboard` has it, with edges where a part of a board has some."""
    grid, edges = picture.grid, picture.grid.edges
    is_part = edges != ALL_EDGES
    left, right = (" |" if edges.left else "  ", " |" if edges.right else "") if is_part else ("", "")
    names = [f"{name:>2}" for name in grid.row_names] or [""] * grid.rows
    margin = "  " if grid.row_names else ""
    across = "-" * (2 * grid.columns + 1)
    rule = margin + (" +" if edges.left else "  ") + across + ("+" if edges.right else "")
    lines = [rule] if is_part and edges.top else []
    for row, name in enumerate(names):
        cells = "".join(f" {sign(picture, Spot(row, column))}" for column in range(grid.columns))
        lines.append(name + left + cells + right)
    lines += [rule] if is_part and edges.bottom else []
    if grid.column_names:
        lines.append(margin + ("  " if is_part else "") + "".join(f" {name}" for name in grid.column_names))
    return "\n".join([*lines, *legend(picture)]) + "\n"


def row(cells: list[str]) -> str:
    """A row of an HTML table: a picture, or several, and texts that are HTML already."""
    return "<tr>" + "".join(f"<td>{cell}</td>" for cell in cells) + "</tr>\n"


def stones_in_words(position: Position) -> str:
    """The size and the stones, as `9 rows, 5 black and 1 white`."""
    black, white = (position.cells.count(colour) for colour in (1, 2))
    return f"{position.size} rows, {black} black and {white} white"


# The command.


MARKS = ("triangle", "square", "circle", "cross")


def read_words(given: tuple[str, ...]) -> argparse.Namespace:
    words = argparse.ArgumentParser(usage=__doc__, add_help=False)
    words.add_argument("position")
    words.add_argument("--form", choices=("svg", "text", "row", "page"), default="svg")
    words.add_argument("--part")
    words.add_argument("--numbers", action="store_true")
    words.add_argument("--last", action="store_true")
    for name in ("label", *MARKS):
        words.add_argument(f"--{name}", action="append", default=[])
    return words.parse_args(given)


def frame_of(position: Position, part: str | None) -> Frame:
    """The part between the two points of a word such as `C2:F6`."""
    if part is None:
        return whole(position.size)
    points = [positions.point_named(position, name) for name in part.split(":")]
    if len(points) != 2:
        raise positions.NotRead(f"{part} is no part of a board, such as C2:F6")
    rows, columns = zip(*(divmod(point, position.size) for point in points))
    return Frame(position.size, *sorted(rows), *sorted(columns))


def numbers_of(situation: positions.Situation) -> dict[int, str]:
    """The number of the last play at each point where a stone of its colour stands."""
    cells = situation.position.cells
    plays = [(number, move) for number, move in enumerate(situation.moves, 1) if move.point is not None]
    return {move.point: str(number) for number, move in plays if cells[move.point] == move.colour}


def drawn(situation: positions.Situation, words: argparse.Namespace) -> Picture:
    """The picture that the words of the command line ask for."""
    position = situation.position
    frame = frame_of(position, words.part)
    picture = of_position(position, frame)
    labels = numbers_of(situation) if words.numbers else {}
    marks = {situation.moves[-1].point: "last"} if words.last and situation.moves else {}
    for word in words.label:
        name, _, label = word.partition("=")
        labels[positions.point_named(position, name)] = label
    marks |= {positions.point_named(position, name): kind for kind in MARKS for name in vars(words)[kind]}
    for found, put in ((labels, picture.labels), (marks, picture.marks)):
        put.update({frame.spot(point): one for point, one in found.items() if point is not None and frame.spot(point)})
    return picture


def main(*given: str) -> int:
    words = read_words(given)
    try:
        situation = positions.read(words.position)
        picture = drawn(situation, words)
    except positions.NotRead as why:
        print(why, file=sys.stderr)
        return 2
    cells = [svg(picture), html.escape(stones_in_words(situation.position))]
    forms = {
        "svg": lambda: svg(picture),
        "text": lambda: text(picture),
        "row": lambda: row(cells),
        "page": lambda: html_page.page("A board", STYLE, [f"<table>{row(cells)}</table>"]),
    }
    sys.stdout.write(forms[words.form]())
    return 0


if __name__ == "__main__":
    command_line.run(main, __doc__)
