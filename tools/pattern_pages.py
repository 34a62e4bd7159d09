"""Writes a catalogue of pattern files as one page: each entry drawn, and where it matches in game records.

usage: python3 tools/pattern_pages.py FILE.db .. [--records FOLDER [--gopat GOPAT] [--moves N,N..]] > OUT.html

Each entry has its diagram with labels and edges, its mark, class letters, items, value and expression, and what its
author says of it. The page begins with an index by name and one by value. Each file is read by itself; a file that
gopat would refuse is told with its fault, and no page is written.

With --records gopat (crates/gopat/out/gopat, or the one of --gopat) is asked for the matches of both colours in the
position at the end of each record of the folder; with --moves after so many moves, and at the end of a shorter record,
for each of these numbers. It is asked by `showboard` and `match_patterns`, at the depths that its options say. Then
each entry tells how often it matched, with at most three places on boards, which open on a click; those that never
matched are listed.

Each match is looked at a second time: its diagram, turned by this script, has to fit on the board that `showboard`
tells. The exit status is 1 where one does not, and 2 where the words cannot be taken, a file cannot be read, or gopat
refuses something. A record that no row of plays gives is told on standard error and left out.
"""

import argparse
import html
import pathlib
import shlex
import sys
from typing import NamedTuple

import asking
import board_picture
import command_line
import diagrams
import html_page
import positions
from go_rules import BLACK, WHITE, Position, vertex_of
from proof_tree import counted

GOPAT = "crates/gopat/out/gopat"
MOST_BOARDS = 3
MARKS = {"8": "s 0 to 7", **dict.fromkeys("|-/\\", "s 0 to 3"), **dict.fromkeys("+X", "s 0 and 1"), "O": " 0 alone"}
CLASSES = {"s": "the stone may be lost", "n": "the enemy's stone there would be safe too"}
STYLE = """
section{content-visibility:auto;contain-intrinsic-size:auto 12em}.index{columns:14em}.index div{break-inside:avoid}
""".strip()


class Place(NamedTuple):
    """A position of a record: the record's name, how many moves were played, and the position."""

    record: str
    moves: int
    position: Position


class Found(NamedTuple):
    """A match, and where it was found: the place, and the colour that moves."""

    match: diagrams.Match
    place: Place
    colour: int


class Catalogue(NamedTuple):
    """A file with its entries, and what was found of each, by its number in the file."""

    file: str
    entries: list[diagrams.Entry]
    found: list[list[Found]]


# What gopat is asked.


def situations(folder: str, moves: list[int]) -> list[tuple[Place, list[str]]]:
    """The positions of the records of a folder, with the lines that set them up."""
    found: list[tuple[Place, list[str]]] = []
    for path in sorted(pathlib.Path(folder).rglob("*.sgf")):
        try:
            nodes = positions.record(path.read_text(encoding="latin-1"))
        except (positions.NotRead, ValueError, KeyError, IndexError) as why:
            print(f"{path}: left out: {why}", file=sys.stderr)
            continue
        wanted = [[node for node in nodes if len(node.moves) <= number] or nodes[:1] for number in moves] or [nodes]
        for part in wanted:
            place = Place(str(path.relative_to(folder)), len(part[-1].moves), part[-1].position)
            found.append((place, part[-1].lines))
    return found


def ask(gopat: str, file: str, entries: list[diagrams.Entry], places: list[tuple[Place, list[str]]]) -> Catalogue:
    """Asks gopat with one file for the matches at all places."""
    asked = [[*lines, "showboard", "match_patterns b", "match_patterns w"] for _, lines in places]
    replies = iter(asking.answers(shlex.join([*shlex.split(gopat), file]), [line for part in asked for line in part]))
    numbers = {id(entry): at for at, entry in enumerate(entries)}
    catalogue = Catalogue(file, entries, [[] for _ in entries])
    for (place, _), part in zip(places, asked):
        told = [next(replies) for _ in part]
        refused = [f"{line}: {reply.text}" for line, reply in zip(part, told) if not reply.ok]
        if refused:
            raise asking.Refused(f"{place.record}: {refused[0]}")
        if asking.cells_of(told[-3].text) != place.position.cells:
            raise diagrams.Differs(f"{place.record}: showboard tells another board")
        for colour, reply in ((BLACK, told[-2]), (WHITE, told[-1])):
            for match in diagrams.matches(reply.text, entries, place.position, colour):
                catalogue.found[numbers[id(match.entry)]].append(Found(match, place, colour))
    return catalogue


# The page.


def chosen(found: list[Found]) -> list[Found]:
    """Matches to be drawn, each from another record as long as there are some."""
    first = {one.place.record: one for one in reversed(found)}
    rest = [one for one in found if first[one.place.record] is not one]
    return [*reversed(first.values()), *rest][:MOST_BOARDS]


def figure(found: Found, grids: board_picture.Grids) -> str:
    """A match on a board."""
    place, match = found.place, found.match
    told = f"{place.record}, move {place.moves}, {positions.NAMES[found.colour]} at "
    told += f"{vertex_of(place.position.size, match.point)}, transformation {match.turn}"
    picture = board_picture.svg(diagrams.on_board(match, place.position), 16, grids)
    return f"<figure>{picture}<figcaption>{html.escape(told)}</figcaption></figure>"


def matched(found: list[Found], grids: board_picture.Grids) -> str:
    """Where an entry matched."""
    if not found:
        return '<p class="no">never matched</p>'
    points = len({(one.place.record, one.place.moves, one.colour, one.match.point) for one in found})
    records = len({one.place.record for one in found})
    head = f"{counted(len(found), 'match')} at {counted(points, 'point')} in {counted(records, 'record')}"
    boards = "".join(figure(one, grids) for one in chosen(found))
    return f'<details><summary>{head}</summary><div class="row">{boards}</div></details>'


def facts(entry: diagrams.Entry) -> str:
    """The mark, the class letters and the value in words."""
    classes = [f"{letter} ({CLASSES[letter]})" if letter in CLASSES else letter for letter in entry.classes]
    parts = [f"mark {entry.mark}: transformation{MARKS[entry.mark]}", f"classes {', '.join(classes) or 'none'}",
             f"value {entry.value}"]
    return html.escape("; ".join(parts))


def section(name: str, entry: diagrams.Entry, shown: str, grids: board_picture.Grids) -> str:
    """An entry, with what is shown of its matches."""
    drawing = board_picture.svg(diagrams.picture(entry.diagram), 22, grids)
    remarks = f"<p>{html.escape(entry.remarks)}</p>" if entry.remarks else ""
    text = f"<pre>{html.escape(diagrams.part_of(entry))}</pre>"
    body = f"<h2>{html.escape(entry.name)}</h2>{remarks}{text}<p>{facts(entry)}</p>{shown}"
    return f'<section id="{name}"><div>{drawing}</div><div>{body}</div></section>'


def links(named: list[tuple[str, diagrams.Entry]]) -> str:
    """Links to entries."""
    return " ".join(f'<a href="#{name}">{html.escape(entry.name)}</a>' for name, entry in named)


def index(title: str, body: str) -> str:
    return f"<details><summary>{title}</summary>{body}</details>"


def indices(named: list[tuple[str, diagrams.Entry]]) -> list[str]:
    """The index by name and the one by value."""
    by_name = sorted(named, key=lambda one: one[1].name.lower())
    values = sorted({entry.value for _, entry in named}, reverse=True)
    lines = [f"<p><b>{value}</b> {links([one for one in named if one[1].value == value])}</p>" for value in values]
    names = "".join(f"<div>{links([one])}</div>" for one in by_name)
    return [index("Index by name", f'<div class="index">{names}</div>'), index("Index by value", "".join(lines))]


def page(catalogues: list[Catalogue], places: list[tuple[Place, list[str]]], is_asked: bool) -> str:
    """The whole page."""
    grids, parts, named, never = board_picture.Grids(), [], [], []
    for number, catalogue in enumerate(catalogues):
        parts.append(f"<h1>{html.escape(pathlib.Path(catalogue.file).name)}</h1>")
        for at, entry in enumerate(catalogue.entries):
            name, found = f"e{number}-{at}", catalogue.found[at]
            named.append((name, entry))
            never += [(name, entry)] if is_asked and not found else []
            parts.append(section(name, entry, matched(found, grids) if is_asked else "", grids))
    told = f"{counted(len(named), 'entry')} of {', '.join(html.escape(pathlib.Path(one.file).name) for one in catalogues)}."
    told += " The side to move is black; the blue square is the move, a faint stone may be there or not, and ? admits "
    head = [f"<p>{told}any point.</p>"]
    if is_asked:
        records = len({place.record for place, _ in places})
        asked = f"Asked in {counted(len(places), 'position')} of {counted(records, 'record')}, for both colours:"
        head.append(f"<p>{asked} {counted(len(named) - len(never), 'entry')} matched, {len(never)} never.</p>")
    head += indices(named)
    head += [index(f"Never matched: {len(never)}", f"<p>{links(never)}</p>")] if is_asked else []
    style = f"{board_picture.STYLE}\n{STYLE}"
    return html_page.page("Patterns", style, [grids.definitions(), *head, *parts])


# The command.


def read_words(given: tuple[str, ...]) -> argparse.Namespace:
    words = argparse.ArgumentParser(usage=__doc__, add_help=False)
    words.add_argument("files", nargs="+")
    words.add_argument("--records")
    words.add_argument("--gopat", default=GOPAT)
    words.add_argument("--moves", default="")
    return words.parse_intermixed_args(given)


def main(*given: str) -> int:
    words = read_words(given)
    try:
        moves = [int(number) for number in words.moves.split(",") if number]
        files = [(file, diagrams.read([file])) for file in words.files]
        places = situations(words.records, moves) if words.records else []
        if words.records and not places:
            raise positions.NotRead(f"{words.records}: no record")
        asked = [ask(words.gopat, file, entries, places) for file, entries in files] if places else None
    except (ValueError, positions.NotRead, diagrams.NotRead, asking.Refused, diagrams.Differs) as why:
        print(why, file=sys.stderr)
        return 1 if isinstance(why, diagrams.Differs) else 2
    catalogues = asked or [Catalogue(file, entries, [[] for _ in entries]) for file, entries in files]
    sys.stdout.write(page(catalogues, places, asked is not None))
    return 0


if __name__ == "__main__":
    command_line.run(main, __doc__)
