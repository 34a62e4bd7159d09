"""Cuts GNU Go's regression suites to the `attack` and `defend` cases that gopat can answer, and runs GNU Go's own
driver over them.

usage: python3 tools/run_cases.py GOPAT REGRESSION OUT PLIES WIDE

REGRESSION is the folder regression/ of GNU Go's source. OUT gets a file *.tst for each suite that has such cases:
each record is set up by boardsize and play lines in place of its loadsgf line, trymove and popgo are play and undo,
and the cases stand with their expected answers as they are. Then `sh eval.sh SUITE.tst` runs as GNU Go's authors run
it, with gopat behind tools/as_gnugo.py, and what it printed is left in SUITE.out. Prints a line for each suite: the
cases, how many pass by the driver, how many have the expected code, and how many the expected yes or no. The last line
tells how many cases of each kind expect a no, and to how many of these the answer is a yes.
"""

import pathlib
import re
import subprocess
import sys
from typing import Iterator, NamedTuple

import command_line
import sgf

CASE = re.compile(r"(\d+) ((?:attack|defend) [A-T]\d+)")
TRIED = re.compile(r"(?:\d+ )?(?:trymove|play) (\w+) (\w+)")
PUT = re.compile(r"(?:\d+ )?(black|white) (\w+)")
RESULT = re.compile(r"(\d+) (PASSED|passed|FAILED|failed)(?:: Correct '(.*)', got '(.*)')?")


class Case(NamedTuple):
    """A question and its expected answer, a pattern of the driver."""

    question: str
    expected: str


def plays(path: pathlib.Path, until: str | None) -> list[str]:
    """The lines that set up a record as loadsgf does: before the move of a number, or the first at a vertex."""
    record = sgf.read(str(path))
    moves = record.moves
    if until and until.isdigit():
        moves = before(record, int(until))
    elif until:
        vertices = [move.vertex for move in moves]
        moves = moves[: vertices.index(until.upper())] if until.upper() in vertices else moves
    return [f"boardsize {record.size}", *(f"play {move}" for move in moves)]


def before(record: sgf.Record, number: int) -> list[sgf.Move]:
    """The moves before the move of this number, where stones that are set up have none."""
    left, kept = number - 1, []
    for move in record.moves:
        if not move.is_set_up:
            if left == 0:
                break
            left -= 1
        kept.append(move)
    return kept


def cut(path: pathlib.Path) -> Iterator[str]:
    """The lines of a suite that gopat can answer. What a record that cannot be set up is followed by is left out."""
    known = False
    lines = path.read_text(encoding="latin-1").splitlines()
    for at, line in enumerate(lines):
        words = line.split()
        if words[:1] == ["loadsgf"]:
            try:
                yield from plays(path.parent / words[1], words[2] if len(words) > 2 else None)
                known = True
            except (sgf.NotPlayable, OSError):
                known = False
        elif known and CASE.fullmatch(line.strip()):
            yield line.strip()
            yield next(after for after in lines[at + 1 :] if after.startswith("#?"))
        elif known and TRIED.fullmatch(line.strip()):
            yield "play {} {}".format(*TRIED.fullmatch(line.strip()).groups())
        elif known and PUT.fullmatch(line.strip()):
            yield "play {} {}".format(*PUT.fullmatch(line.strip()).groups())
        elif known and words[-1:] == ["popgo"]:
            yield "undo"


def cases(lines: list[str]) -> dict[str, Case]:
    """The cases by their numbers."""
    return {
        CASE.fullmatch(line)[1]: Case(CASE.fullmatch(line)[2], expected[2:].strip())
        for line, expected in zip(lines, lines[1:])
        if CASE.fullmatch(line)
    }


def codes(expected: str) -> set[str]:
    """The codes that an expected answer allows; an answer that begins otherwise allows any."""
    found = re.match(r"\[?(?:([0123])|\(([0123|]+)\))(?: |\]|$|\|)", expected)
    return set((found[1] or found[2]).split("|")) if found else set("0123")


def agreement(found: dict[str, Case], printed: str) -> tuple[int, int, int]:
    """How many cases pass, how many have the expected code, and how many the expected yes or no."""
    passed = coded = sided = 0
    for line in printed.splitlines():
        result = RESULT.fullmatch(line)
        if not result:
            continue
        allowed = codes(found[result[1]].expected)
        ok = result[2] in ("PASSED", "passed")
        code = None if ok else (result[4] or "?")[0]
        passed += ok
        coded += ok or code in allowed
        sided += ok or (code == "0") in {one == "0" for one in allowed}
    return passed, coded, sided


def false_yeses(kind: str, found: dict[str, Case], printed: str) -> tuple[int, int]:
    """How many questions of a kind expect a no, and to how many of these the answer is a yes."""
    of_kind = [number for number, case in found.items() if case.question.startswith(kind)]
    expect_no = {number for number in of_kind if codes(found[number].expected) == {"0"}}
    failed = [result[1] for result in map(RESULT.fullmatch, printed.splitlines()) if result and result[3]]
    return len(expect_no), len(expect_no.intersection(failed))


def main(gopat: str, regression: str, out: str, plies: str, wide: str):
    folder, kept, tools = pathlib.Path(regression).resolve(), pathlib.Path(out), pathlib.Path(__file__).resolve().parent
    kept.mkdir(parents=True, exist_ok=True)
    client = f"{sys.executable} {tools / 'as_gnugo.py'} {pathlib.Path(gopat).resolve()} {plies} {wide}"
    totals, yeses = [0, 0, 0, 0], [0, 0, 0, 0]
    for path in sorted(folder.glob("*.tst")):
        lines = list(cut(path))
        found = cases(lines)
        if not found:
            continue
        (kept / path.name).write_text("\n".join(lines) + "\n", encoding="ascii")
        environment = {"GNUGO": client, "RD": str(folder), "PATH": "/usr/bin:/bin"}
        command = ["sh", str(folder / "eval.sh"), path.name]
        done = subprocess.run(command, cwd=kept, env=environment, capture_output=True, text=True, check=True)
        (kept / (path.stem + ".out")).write_text(done.stdout, encoding="ascii")
        row = [len(found), *agreement(found, done.stdout)]
        totals = [total + count for total, count in zip(totals, row)]
        row_of_yeses = [*false_yeses("attack", found, done.stdout), *false_yeses("defend", found, done.stdout)]
        yeses = [total + count for total, count in zip(yeses, row_of_yeses)]
        print("{}: {} cases, {} pass, {} have the code, {} the yes or no".format(path.stem, *row))
    print("all: {} cases, {} pass, {} have the code, {} the yes or no".format(*totals))
    print("expected to be no: {} attack, {} of them a yes; {} defend, {} of them a yes".format(*yeses))


if __name__ == "__main__":
    command_line.run(main, __doc__)
