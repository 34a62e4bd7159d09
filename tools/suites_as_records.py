"""Writes the `attack` and `defend` questions of GNU Go's regression suites as game records, one for each question.

usage: python3 tools/suites_as_records.py REGRESSION OUT

REGRESSION is the folder regression/ of GNU Go's source; OUT is a folder, which is made, and gets SUITE-NUMBER.sgf for
each question of the suites *.tst whose record can be set up. The position stands in the first node, with PL and the
string asked about marked. If a ko ban stands, the move that made it is played in the first node too. The comment says
where the question comes from, what its authors expect in their own words, and the same in a line `gopat:` without
depths (docs/USING.md, *Problem sets*): `code 0` for a no, else the moves and the code. GNU Go's codes 1, 2 and 3 are 3,
2 and 1 there; if several are allowed none is told. If several moves are, each of them is expected to attain the code.
The comment also says if GNU Go's authors note that their own program fails.

Prints how many records it wrote, how many of them expect a no, and how many have a ban.
"""

import pathlib
import re
import sys
from typing import Iterator, NamedTuple

import command_line
import positions
import run_cases
import sgf
from go_rules import BLACK, Position, other

MOVE = re.compile(r"\b(?:[A-HJ-T]\d+|PASS)\b")


class Asked(NamedTuple):
    """A question of a suite: its number, its kind and vertex, what is expected, and the situations up to it."""

    number: str
    kind: str
    vertex: str
    expected: str
    situations: list[positions.Situation]


def questions(path: pathlib.Path) -> Iterator[Asked]:
    """The questions of a suite."""
    lines = list(run_cases.cut(path))
    situations = [positions.first(19)]
    for line, expected in zip(lines, [*lines[1:], ""]):
        case = run_cases.CASE.fullmatch(line)
        if case:
            yield Asked(case[1], *case[2].split(), expected.removeprefix("#?").strip(), list(situations))
        else:
            situations = positions.after_line(situations, line)


def parts(expected: str) -> str:
    """What the line `gopat:` says of an expected answer."""
    codes = {4 - int(code) if code != "0" else 0 for code in run_cases.codes(expected)}
    if codes == {0}:
        return "code 0"
    moves = list(dict.fromkeys(move.replace("PASS", "pass") for move in MOVE.findall(expected)))
    code = f" code {codes.pop()}" if len(codes) == 1 else ""
    return f"answer {' '.join(moves)}{code}"


def first_node(asked: Asked) -> tuple[Position, positions.Played | None]:
    """The position to be set up, and the move to be played behind it if that makes the ban which stands."""
    now = asked.situations[-1]
    if now.position.ban is None:
        return now.position, None
    return asked.situations[-2].position, now.moves[-1]


def comment(suite: str, asked: Asked) -> str:
    """Where a question comes from, and the line that asks it."""
    note = " GNU Go's authors note that their program fails." if asked.expected.endswith("*") else ""
    expected = asked.expected.rstrip("*").strip()
    return (
        f"GNU Go 3.8, {suite}.tst, {asked.number}: {asked.kind} {asked.vertex}; "
        f"expected, by GNU Go's codes: {expected}.{note}\n"
        f"gopat: {asked.kind} {asked.vertex} {parts(expected)}"
    )


def record(suite: str, asked: Asked) -> str:
    """The record of a question."""
    set_up, played = first_node(asked)
    position = asked.situations[-1].position
    target = positions.point_named(position, asked.vertex)
    mover = other(position.cells[target]) if asked.kind == "attack" else position.cells[target]
    size = position.size
    move = f"{'BW'[played.colour - 1]}[{sgf.point_at(played.point, size)}]" if played else ""
    return (
        f"(;GM[1]FF[4]CA[UTF-8]SZ[{size}]{positions.set_up_sgf(set_up)}{move}PL[{'B' if mover == BLACK else 'W'}]"
        f"TR[{sgf.point_at(target, size)}]\nC[{sgf.escaped(comment(suite, asked))}])\n"
    )


def main(regression: str, out: str) -> int:
    folder, kept = pathlib.Path(regression), pathlib.Path(out)
    count = no = banned = 0
    for path in sorted(folder.glob("*.tst")):
        for asked in questions(path):
            kept.mkdir(parents=True, exist_ok=True)
            text = record(path.stem, asked)
            (kept / f"{path.stem}-{int(asked.number):03}.sgf").write_text(text, encoding="ascii")
            count += 1
            no += text.endswith("code 0])\n")
            banned += asked.situations[-1].position.ban is not None
    if count == 0:
        print(f"{regression}: no question", file=sys.stderr)
        return 2
    print(f"{count} records, {no} of them expect a no, {banned} have a ban")
    return 0


if __name__ == "__main__":
    command_line.run(main, __doc__)
