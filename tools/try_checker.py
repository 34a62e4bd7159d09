"""Runs pattern_check on files of its own and on its standard input, with each option, and compares what it prints, its
notes and its exit status with what docs/AUTHORS.md says.

usage: python3 tools/try_checker.py PATTERN_CHECK

The runs stand below. The exit status is 1 where anything else comes. The stored run of the crate shows `--port`,
`--states` and a file that is missing; here is what it cannot show beside them.
"""

import pathlib
import subprocess
import tempfile
from typing import Iterator, NamedTuple

import command_line

USAGE = "usage: pattern_check [--quiet] [--port] [--states N] FILE... ('-' is standard input)\n"
CLEAN = "Pattern Hane\nOX*\n:-,s\n"
WARNED = "Pattern Hane\nOX*\n:8,s\n"
FAULTY = "Pattern Hane\nO0*\n:-,s\n"
KO = "Pattern Ko\nx*\n:-,s\nA*\n;ko(A)\n"
FILES = {"clean.db": CLEAN, "warned.db": WARNED, "faulty.db": FAULTY, "ko.db": KO}
TAKEN = "clean.db: taken 1, faults 0, warnings 0\n"
QUIET = "warned.db: taken 1, faults 0, warnings 0\n"
WARNING = (
    "warned.db:3:2: warning: the diagram is its own image, and each match comes 2 times; ':-' tells each once "
    "[Pattern Hane]\n     3 | :8,s\n       |  ^\nwarned.db: taken 1, faults 0, warnings 1\n"
)
FAULT = (
    "faulty.db:2:2: error: '0' is no letter of a diagram (O X o x . ? *) [kind 6, Pattern Hane]\n"
    "     2 | O0*\n       |  ^\nfaulty.db: taken 0, faults 1, warnings 0; kind 6: 1\n"
)
NOTE = (
    "ko.db:5:2: note: ko of a stone is 1 in GNU Go where the stone can be retaken; here it is 0\n"
    "     5 | ;ko(A)\n       |  ^\n"
)
NO_FILE = "No such file or directory"


class Run(NamedTuple):
    """What a run shows, its words and its input, and what is wanted: standard output, a part of standard error, and the
    exit status."""

    name: str
    words: list[str]
    typed: str
    printed: str
    noted: str
    status: int


def runs() -> Iterator[Run]:
    """The runs."""
    yield Run("a file without a fault", ["clean.db"], "", TAKEN, "", 0)
    yield Run("a file with a warning", ["warned.db"], "", WARNING, "", 0)
    yield Run("a file with a fault", ["faulty.db"], "", FAULT, "", 1)
    yield Run("--quiet leaves warnings out", ["--quiet", "warned.db"], "", QUIET, "", 0)
    yield Run("--quiet leaves faults in", ["--quiet", "faulty.db"], "", FAULT, "", 1)
    yield Run("an option behind a file", ["warned.db", "--quiet"], "", QUIET, "", 0)
    yield Run("standard input", ["-"], CLEAN, TAKEN.replace("clean.db", "-"), "", 0)
    two = "all files: taken 1, faults 1, warnings 0; kind 6: 1\n"
    yield Run("two files", ["clean.db", "faulty.db"], "", TAKEN + FAULT + two, "", 1)
    yield Run("without --port no note", ["ko.db"], "", "ko.db: taken 1, faults 0, warnings 0\n", "", 0)
    yield Run("--port", ["--port", "ko.db"], "", NOTE + "ko.db: taken 1, faults 0, warnings 0\n", "", 0)
    yield Run("a missing file", ["none.db"], "", "", NO_FILE, 2)
    both = TAKEN + "all files: taken 1, faults 0, warnings 0\n"
    yield Run("a missing file beside another", ["none.db", "clean.db"], "", both, NO_FILE, 2)
    faulty = FAULT + "all files: taken 0, faults 1, warnings 0; kind 6: 1\n"
    yield Run("a missing file beside one with a fault", ["faulty.db", "none.db"], "", faulty, NO_FILE, 2)
    star = "-: taken 1, faults 0, warnings 0\n-: states 3; gopat needs --states 3 or more\n-:1: Star adds 2 states\n"
    yield Run("--states", ["--states", "3", "-"], "Pattern Star\n*\n:O\n", star, "", 0)
    more = "-: taken 1, faults 0, warnings 0\n-: states more than 2\n"
    yield Run("--states that are too few", ["--states", "2", "-"], "Pattern Star\n*\n:O\n", more, "", 0)
    for words in [[], ["--quiet"], ["--no", "clean.db"], ["--states", "clean.db"], ["--states", "0", "clean.db"]]:
        yield Run(" ".join(["the words", *words]), words, "", "", USAGE, 2)
    yield Run("more states than may be asked for", ["--states", "1000001", "clean.db"], "", "", USAGE, 2)


def differs(program: str, folder: str, run: Run) -> bool:
    """Whether anything else comes than is wanted."""
    words = [program, *run.words]
    done = subprocess.run(words, input=run.typed, capture_output=True, text=True, check=False, cwd=folder)
    noted = run.noted in done.stderr if run.noted else not done.stderr
    if done.stdout == run.printed and noted and done.returncode == run.status:
        return False
    print(f"differs: {run.name}: status {done.returncode}\n{done.stdout}{done.stderr}")
    return True


def main(program: str) -> int:
    tried = list(runs())
    with tempfile.TemporaryDirectory() as folder:
        for name, text in FILES.items():
            (pathlib.Path(folder) / name).write_text(text, encoding="utf-8")
        different = sum(differs(str(pathlib.Path(program).resolve()), folder, run) for run in tried)
    print(f"{len(tried)} runs, {different} of them differ")
    return 1 if different else 0


if __name__ == "__main__":
    command_line.run(main, __doc__)
