"""Plants bugs in the script of docs/page/gopat.html, one after the other, and looks whether try_page.py sees each.

usage: python3 tools/plant_page_bugs.py CHROMIUM [QUESTIONS]

It runs at the top of a clone and wants `rt` and a C compiler, by which try_doors.py makes the library, unless
GOPAT_LIBRARY names the shared library. Each bug changes one place of a file of tools/page in a copy; the page of the
copy is put together with the module that docs/page/gopat.html has, and what try_page.py does is done with it, until
something differs: it asks about QUESTIONS strings, 20 without a number, and tries the rest. First the page without a
bug is tried whole: nothing may differ. Prints a line for each bug with the first difference. The exit status is 1 if a
bug was not seen, or if the page without one differs.
"""

import os
import pathlib
import shutil
import subprocess
import sys
import tempfile
from typing import NamedTuple

import command_line
import try_page
from browser import Browser, Failed
from try_doors import shared_library


class Bug(NamedTuple):
    """A place of a script, what stands there, and what is planted."""

    name: str
    file: str
    old: str
    new: str


BUGS = [
    Bug("the ban is handed over to the other colour", "worker.js", "memory[at.board + 1] = board.banColour;",
        "memory[at.board + 1] = board.banColour && 3 - board.banColour;"),
    Bug("the ban is not handed over", "worker.js", "setUint16(at.board + 2, board.banPoint, true)",
        "setUint16(at.board + 2, 0, true)"),
    Bug("plies and wide plies are exchanged", "worker.js", "[plies, wide, tree]", "[wide, plies, tree]"),
    Bug("the tree is always the stated one", "worker.js", "[plies, wide, tree]", "[plies, wide, 0]"),
    Bug("the defence calls the attack", "worker.js", "calls.gopat_defend(", "calls.gopat_attack("),
    Bug("the last point of a board is left out", "worker.js", "memory.set(board.cells.subarray(0, MOST_POINTS)",
        "memory.set(board.cells.subarray(0, board.cells.length - 1)"),
    Bug("all moves are told without the pass", "worker.js", "memory[at.reply + 2] === 1 ? [PASS] : []", "[]"),
    Bug("all moves are told one point too far", "worker.js", "memory.subarray(at.reply + 3, at.reply + 3 +",
        "memory.subarray(at.reply + 4, at.reply + 4 +"),
    Bug("the second stone of a connection is the first", "worker.js", "calls.gopat_connect(reply(), put(board), a, b,",
        "calls.gopat_connect(reply(), put(board), a, a,"),
    Bug("the letter I names a column", "rules.js", '"ABCDEFGHJKLMNOPQRSTUVWXYZ"', '"ABCDEFGHIJKLMNOPQRSTUVWXY"'),
    Bug("rows are counted from the top", "rules.js", "(size - Math.floor(point / size))",
        "(1 + Math.floor(point / size))"),
    Bug("captured stones stay in the boards of a proof", "rules.js", "cells[stone] = EMPTY;", "cells[stone] += 0;"),
    Bug("a record's columns and rows are exchanged", "texts.js", "return row * size + column;",
        "return column * size + row;"),
    Bug("black stones of a record are white", "texts.js", "AB: BLACK, AW: WHITE", "AB: WHITE, AW: WHITE"),
    Bug("the last row of a text is the first", "texts.js", "board.cells[row * board.size + column] = {",
        "board.cells[(board.size - 1 - row) * board.size + column] = {"),
    Bug("black and white are drawn in each other's colour", "board.js", '"black" d="${dots[BLACK]}"',
        '"black" d="${dots[WHITE]}"'),
    Bug("a proof is followed without the pass", "proof.js", "(node.isAttackers ? [] : [PASS])", "[]"),
    Bug("a proof is followed without backfilling plays", "proof.js",
        "found.push(...backfilling(board, other(defender), liberties));", ""),
    Bug("a proof is followed without taking back", "proof.js", "return isAlone ? nodeAfter(node, target) : null;",
        "return null;"),
    Bug("the words of a proof are not checked", "worker.js", "getUint16(at.reply + 2, true) === 1 }",
        "getUint16(at.reply + 2, true) === 2 }"),
    Bug("a play that is forbidden changes the board", "page.js",
        "if (status !== 0) tellNote(`${vertexOf(shown.board.size, point)}: ${STATUSES[status]}`);\n  else change(",
        "if (status === 999) tellNote(`${vertexOf(shown.board.size, point)}: ${STATUSES[status]}`);\n  else change("),
]  # fmt: skip


def copied(folder: pathlib.Path) -> pathlib.Path:
    """A copy of what try_page.py reads."""
    copy = folder / "clone"
    for name in ("tools", "python", "docs/page"):
        shutil.copytree(name, copy / name)
    return copy


class Differs(Exception):
    """Something differs; the text says what."""


class Trial(try_page.Trial):
    """What try_page.py tries, until something differs."""

    def compare(self, what: str, got: object, wanted: object):
        super().compare(what, got, wanted)
        if self.wrong:
            raise Differs(self.wrong[0])


def difference(gopat, chromium: str, questions: int) -> str | None:
    """The first difference that try_page.py tells of the page of this folder."""
    with Browser(chromium) as browser:
        browser.screen(1200, 1000)
        try:
            Trial(gopat, try_page.Person(browser), 1).all(questions, [])
        except (Differs, Failed) as why:
            return str(why)
    return None


def planted(bug: Bug) -> None:
    """Puts the page of this folder together with the bug."""
    script = pathlib.Path("tools/page") / bug.file
    whole = script.read_text(encoding="utf-8")
    if whole.count(bug.old) != 1:
        raise ValueError(f"{bug.file} does not have {bug.old!r} once")
    script.write_text(whole.replace(bug.old, bug.new), encoding="utf-8")
    subprocess.run([sys.executable, "tools/make_page.py", "--same-module"], check=True, capture_output=True)
    script.write_text(whole, encoding="utf-8")


def main(chromium: str, questions: str = "20") -> int:
    with tempfile.TemporaryDirectory() as name:
        folder = pathlib.Path(name)
        if "GOPAT_LIBRARY" not in os.environ:
            os.environ["GOPAT_LIBRARY"] = str(shared_library(folder).resolve())
        gopat, here = try_page.library(folder), pathlib.Path.cwd()
        os.chdir(copied(folder))
        sound = difference(gopat, chromium, int(questions))
        print(f"without a bug: {sound or 'nothing differs'}", flush=True)
        unseen = 0
        for bug in BUGS:
            planted(bug)
            told = difference(gopat, chromium, int(questions))
            unseen += told is None
            print(f"{bug.name}: {told[:100] if told else 'NOT SEEN'}", flush=True)
        os.chdir(here)
        print(f"{len(BUGS)} bugs, {unseen} not seen")
        return int(unseen > 0 or sound is not None)


if __name__ == "__main__":
    command_line.run(main, __doc__)
