"""Shows the matches of a position: as a page, or as a game record that any editor opens.

usage: python3 tools/show_matches.py GOPAT POSITION COLOUR FILE.db .. [--sgf | --svg] > OUT

POSITION is a game record `*.sgf`, of which the end of the main line counts, or a file of protocol lines, of which
`boardsize`, `clear_board`, `play`, `undo` and `loadsgf` count. COLOUR is `b` or `w`, the side to move. gopat is started
with the pattern files and asked, at the depths that its options say, by `showboard`, `match_patterns COLOUR` and
`reg_genmove COLOUR`; it plays nothing.

The page has the board with a letter at each point where something matches; then for each match, in gopat's order, the
diagram as gopat turned it, the place on the board, and the entry. In a diagram the blue square is the move, a faint
stone may be there or not, and `?` admits any point. With --sgf the first node has the letters, and each match is a
variation with its move, with squares on the other points of the diagram and the labels of the entry. With --svg only
the board with the letters is drawn.

Each match is looked at a second time: its diagram, turned by this script, has to fit on the board that `showboard`
tells. The exit status is 1 where one does not, or that board is another than the script's, and 2 where the words cannot
be taken, a file cannot be read, or gopat refuses something.
"""

import argparse
import html
import pathlib
import shlex
import string
import sys
from typing import NamedTuple

import asking
import board_picture
import command_line
import diagrams
import html_page
import positions
import sgf
from go_rules import COLOURS, Position, vertex_of
from proof_tree import counted

LETTERS = string.ascii_uppercase + string.ascii_lowercase


class Told(NamedTuple):
    """What gopat said of a position: the matches, and the move that it would play."""

    matches: list[diagrams.Match]
    move: str


def ask(words: argparse.Namespace, situation: positions.Situation, entries: list[diagrams.Entry]) -> Told:
    """Asks gopat."""
    lines = [*situation.lines, "showboard", f"match_patterns {words.colour}", f"reg_genmove {words.colour}"]
    replies = asking.answers(shlex.join([*shlex.split(words.gopat), *words.files]), lines)
    refused = [f"{line}: {reply.text}" for line, reply in zip(lines, replies) if not reply.ok]
    if refused:
        raise asking.Refused(refused[0])
    shown, matched, move = replies[-3:]
    if asking.cells_of(shown.text) != situation.position.cells:
        raise diagrams.Differs("showboard tells another board")
    friend, position = COLOURS[words.colour], situation.position
    return Told(diagrams.matches(matched.text, entries, position, friend), move.text)


def labels_of(matches: list[diagrams.Match]) -> dict[int, str]:
    """A label for each point where something matches, in the order of the matches: letters, and then numbers."""
    points = list(dict.fromkeys(match.point for match in matches))
    return {point: LETTERS[at] if at < len(LETTERS) else str(at) for at, point in enumerate(points)}


def in_words(told: Told, name: str) -> str:
    """How much matches, and the move."""
    points = len({match.point for match in told.matches})
    move = "it would pass" if told.move == "PASS" else f"it would play {told.move}"
    found = f"{counted(len(told.matches), 'match')} for {name} at {counted(points, 'point')}"
    return f"{found}; asked by reg_genmove {move}."


def names_of(files: list[str]) -> str:
    """The names of files without their folders."""
    return " ".join(pathlib.Path(file).name for file in files)


# The page.


def section(match: diagrams.Match, position: Position, letter: str, friend: str, grids: board_picture.Grids) -> str:
    """A match on the page."""
    diagram = diagrams.picture(diagrams.turned(match.entry.diagram, match.turn), friend)
    entry, vertex = match.entry, vertex_of(position.size, match.point)
    figures = [
        (board_picture.svg(diagram, 22, grids), f"transformation {match.turn}"),
        (board_picture.svg(diagrams.on_board(match, position), 22, grids), f"at {vertex}"),
    ]
    drawn = "".join(f"<figure>{one}<figcaption>{told}</figcaption></figure>" for one, told in figures)
    remarks = f'<p class="soft">{diagrams.turn_in_words(match)}</p><p>{html.escape(entry.remarks)}</p>'
    text = html.escape(f"{entry.text}\n\n{diagrams.part_of(entry)}")
    heading = f"<h2>{letter}: {html.escape(entry.name)} at {vertex}</h2>"
    whole = f"<details open><summary>the entry, value {entry.value}</summary><pre>{text}</pre></details>"
    return f'<section><div class="row">{drawn}</div><div>{heading}{remarks}{whole}</div></section>'


def lettered(told: Told, position: Position) -> board_picture.Picture:
    """The board with a letter at each point where something matches."""
    picture, frame = board_picture.of_position(position), board_picture.whole(position.size)
    picture.labels.update({frame.spot(point): letter for point, letter in labels_of(told.matches).items()})
    return picture


def board(told: Told, situation: positions.Situation, _colour: int, _files: list[str]) -> str:
    """The board alone."""
    return board_picture.svg(lettered(told, situation.position), 26)


def page(told: Told, situation: positions.Situation, colour: int, files: list[str]) -> str:
    """The whole page."""
    grids, position, letters = board_picture.Grids(), situation.position, labels_of(told.matches)
    friend, name = positions.LETTERS[colour], positions.NAMES[colour]
    drawing = board_picture.svg(lettered(told, position), 26, grids)
    sections = [section(match, position, letters[match.point], friend, grids) for match in told.matches]
    head = f"<p>{html.escape(names_of(files))}: {in_words(told, name)}</p>"
    legend = f'<p class="soft">In a diagram the side to move is {name}; the blue square is the move, a faint stone may '
    legend += "be there or not, and ? admits any point.</p>"
    parts = [grids.definitions(), head, drawing, legend, *sections]
    return html_page.page("Matches", board_picture.STYLE, parts)


# The record.


def match_sgf(match: diagrams.Match, position: Position, letter: str, colour: int) -> str:
    """The variation of a match."""
    diagram, size = diagrams.turned(match.entry.diagram, match.turn), position.size
    at = diagrams.points(diagram, size, match.point)
    star = sgf.point_at(match.point, size)
    squares = "".join(f"[{sgf.point_at(point, size)}]" for point in at.values() if point != match.point)
    labels = "".join(f"[{sgf.point_at(at[place], size)}:{label}]" for place, label in diagram.labels.items())
    entry, vertex = match.entry, vertex_of(size, match.point)
    head = f"{entry.name} at {vertex}, {diagrams.turn_in_words(match)}; value {entry.value}."
    told = f"{head}\n{entry.text}\n\n{diagrams.part_of(entry)}"
    name = sgf.escaped(f"{letter}: {entry.name} {vertex}")
    marks = (f"SQ{squares}" if squares else "") + (f"LB{labels}" if labels else "")
    return f"\n(;{positions.LETTERS[colour].upper()}[{star}]N[{name}]{marks}\nC[{sgf.escaped(told)}])"


def record(told: Told, situation: positions.Situation, colour: int, files: list[str]) -> str:
    """The whole record."""
    position, letters = situation.position, labels_of(told.matches)
    size = position.size
    set_up = positions.set_up_sgf(position)
    label = "".join(f"[{sgf.point_at(point, size)}:{letter}]" for point, letter in letters.items())
    text = f"{names_of(files)}: {in_words(told, positions.NAMES[colour])}"
    marks = f"PL[{positions.LETTERS[colour].upper()}]" + (f"LB{label}" if label else "")
    head = f";FF[4]GM[1]CA[UTF-8]AP[gopat]SZ[{size}]\n{set_up}\n{marks}\nC[{sgf.escaped(text)}]"
    found = "".join(match_sgf(match, position, letters[match.point], colour) for match in told.matches)
    return f"({head}{found})\n"


# The command.


def read_words(given: tuple[str, ...]) -> argparse.Namespace:
    words = argparse.ArgumentParser(usage=__doc__, add_help=False)
    words.add_argument("gopat")
    words.add_argument("position")
    words.add_argument("colour", choices=("b", "w"))
    words.add_argument("files", nargs="+")
    forms = words.add_mutually_exclusive_group()
    forms.add_argument("--sgf", action="store_true")
    forms.add_argument("--svg", action="store_true")
    return words.parse_args(given)


def main(*given: str) -> int:
    words = read_words(given)
    try:
        situation, entries = positions.read(words.position), diagrams.read(words.files)
        told = ask(words, situation, entries)
    except (positions.NotRead, diagrams.NotRead, asking.Refused, diagrams.Differs) as why:
        print(why, file=sys.stderr)
        return 1 if isinstance(why, diagrams.Differs) else 2
    shown = record if words.sgf else board if words.svg else page
    sys.stdout.write(shown(told, situation, COLOURS[words.colour], words.files))
    return 0


if __name__ == "__main__":
    command_line.run(main, __doc__)
