"""Tries with what exit statuses and notes gopat ends.

usage: python3 tools/try_programs.py GOPAT...

GOPAT is a program that was built proved, gopat or gopat_wide. A stored run of the gate compares standard output and one
exit status. This script runs each program on wrong words, on pattern files that are missing, faulty or too large for
the limit, on standard input that is a directory and on a closed output, and compares the exit status and all that is
written with the tables of docs/FORMATS.md. Prints a line for each run that differs, and then how many runs there were.
The status is 1 if one differs.
"""

import pathlib
import subprocess
import sys
import tempfile
from typing import NamedTuple

import command_line

USAGE = b"usage: gopat [options] [file ...]\n"


class Run(NamedTuple):
    """What a program is run on, and what it has to write and to end with."""

    what: str
    words: list[bytes]
    lines: bytes
    status: int
    output: bytes
    notes: bytes


RUNS = [
    Run("the end of the input", [], b"1 name\n", 0, b"=1 gopat\n\n", b""),
    Run("quit", [], b"quit\n1 name\n", 0, b"=\n\n", b""),
    Run(
        "counts",
        [b"--stats", b"--depth=1"],
        b"play b D4\n1 attack D4\n",
        0,
        b"=\n\n=1 0\n\n",
        b"readings 1 fresh 1 trials 0 refused 0\n",
    ),
    Run("a first fault", [b"faulty.db"], b"1 name\n", 1, b"", b"bad database: line 2 kind 10\n"),
    Run("depth 0", [b"--depth", b"0"], b"1 name\n", 2, b"", USAGE),
    Run("an unknown option", [b"--help"], b"1 name\n", 2, b"", USAGE),
    Run("an option twice", [b"--stats", b"--stats"], b"1 name\n", 2, b"", USAGE),
    Run("a word that is no text", [b"\xff.db"], b"1 name\n", 2, b"", USAGE),
    Run("a missing file", [b"missing.db"], b"1 name\n", 6, b"", b"file failed\n"),
    Run("a missing file behind a good one", [b"star.db", b"missing.db"], b"1 name\n", 6, b"", b"file failed\n"),
    Run("too many states", [b"--states", b"1", b"star.db"], b"1 name\n", 7, b"", b"too many states: limit 1\n"),
    Run(
        "patterns of more than a million states",
        [b"--states", b"1000000", b"squares.db"],
        b"1 name\n",
        7,
        b"",
        b"too many states: limit 1000000\n",
    ),
]


def square(place: int) -> str:
    """An entry of 5 by 5 that asks at this place alone, with its star in the middle."""
    letters = ["*" if at == 12 else "o" if at == place else "?" for at in range(25)]
    rows = ["".join(letters[row : row + 5]) for row in range(0, 25, 5)]
    return "\n".join([f"Pattern M{place}", *rows, ":O,s", ""])


FILES = {
    "star.db": "Pattern Star\n\nO*\n\n:8\n",
    "faulty.db": "Pattern P\n",
    "squares.db": "".join(square(place) for place in range(25) if place != 12),
}


def ran(gopat: str, room: pathlib.Path, words: list[bytes], lines: bytes) -> tuple[int, bytes, bytes]:
    """The exit status, the output and the notes of a run in a folder."""
    done = subprocess.run([gopat.encode(), *words], cwd=room, input=lines, capture_output=True)
    return done.returncode, done.stdout, done.stderr


def without_input(gopat: str, room: pathlib.Path) -> tuple[int, bytes, bytes]:
    """The same for standard input that is a directory."""
    with tempfile.TemporaryDirectory(dir=room) as folder:
        command = ["sh", "-c", '"$0" < "$1"', gopat, folder]
        done = subprocess.run(command, cwd=room, capture_output=True)
    return done.returncode, done.stdout, done.stderr


def without_output(gopat: str, room: pathlib.Path) -> tuple[int, bytes, bytes]:
    """The same for an output that is closed."""
    done = subprocess.run(["sh", "-c", '"$0" >&-', gopat], cwd=room, input=b"1 name\n", capture_output=True)
    return done.returncode, done.stdout, done.stderr


def differences(gopat: str, room: pathlib.Path) -> list[str]:
    """What differs from the tables, a line for each run."""
    got = [(run.what, ran(gopat, room, run.words, run.lines), (run.status, run.output, run.notes)) for run in RUNS]
    got.append(("input that is a directory", without_input(gopat, room), (4, b"", b"input failed\n")))
    got.append(("a closed output", without_output(gopat, room), (5, b"", b"output failed\n")))
    return [f"{gopat}: {what}: {now}, and not {wanted}" for what, now, wanted in got if now != wanted]


def main(gopat: str, *more: str) -> int:
    different = []
    with tempfile.TemporaryDirectory() as folder:
        room = pathlib.Path(folder)
        for name, text in FILES.items():
            (room / name).write_text(text)
        for program in [gopat, *more]:
            different += differences(str(pathlib.Path(program).resolve()), room)
    for line in different:
        print(line)
    print(f"{len(RUNS) + 2} runs of {1 + len(more)} programs, {len(different)} differ")
    return 1 if different else 0


if __name__ == "__main__":
    command_line.run(main, __doc__)
