"""Runs check_problems over the hundred problems and over GNU Go's questions, compares with what is expected, and tells
how many are as expected at three depths, in both trees, and how long a thousand problems take: the processor's seconds.

usage: python3 tools/try_problems.py CHECK_PROBLEMS REGRESSION

REGRESSION is the folder regression/ of GNU Go's source. It runs at the top of a clone. The problems of
docs/examples/problems have to be as expected, each with one answer, in the wider tree at the depths that they name, of
the moves that the tree tries and of all legal moves. Each is then changed in four ways, and its verdict has to change
with it: another answer is expected, a second one, another code, or nothing is asked. GNU Go's questions are asked at
10 2, 16 6 and 20 4 in both trees; a row tells how many have each verdict, and how many have the expected yes or no. For
the time a folder has ten copies of each problem, all at 16 6. Prints what differs; the exit status is then 1.
"""

import json
import os
import pathlib
import re
import subprocess
import sys
import tempfile
from typing import Callable, Iterator, NamedTuple

import command_line
import suites_as_records

PROBLEMS = "docs/examples/problems"
DEPTHS = ["10 2", "16 6", "20 4"]
TREES = ["stated", "wider"]
COPIES = 10
QUESTION = re.compile(r"^gopat: [^\]\n]*", re.MULTILINE)
MARK = re.compile(r"TR\[[^\]]*\]")
NAMED_DEPTHS = re.compile(r" depths \d+ \d+")


class Done(NamedTuple):
    """The objects that came, the exit status, and the processor's seconds."""

    told: list[dict]
    status: int
    seconds: float


def run(program: str, folder: pathlib.Path | str, *options: str) -> Done:
    """Runs the program over a folder."""
    before = os.times()
    done = subprocess.run([program, *options, "--json", str(folder)], capture_output=True, text=True, check=False)
    after = os.times()
    seconds = after.children_user + after.children_system - before.children_user - before.children_system
    return Done([json.loads(line) for line in done.stdout.splitlines()], done.returncode, seconds)


# The hundred problems.


def another_answer(line: str) -> str:
    """The line with the string's own point as the answer, at which nobody can play."""
    found = re.search(r"(?:attack|defend) (\S+)", line)
    return re.sub(r"answer \S+", f"answer {found[1]}", line)


CHANGES: list[tuple[str, Callable[[str], str], str]] = [
    ("another answer", another_answer, "another answer"),
    ("a second answer", lambda line: re.sub(r"answer (\S+)", lambda one: f"{one[0]} {line.split()[2]}", line),
     "another answer"),
    ("another code", lambda line: re.sub(r"code ([123])", lambda one: f"code {int(one[1]) % 3 + 1}", line),
     "another answer"),
    ("no question", lambda line: "", "not told"),
]


def wrong_problems(program: str, *options: str) -> Iterator[str]:
    """What is wrong with the hundred problems."""
    done = run(program, PROBLEMS, "--tree", "wider", *options)
    count = len(list(pathlib.Path(PROBLEMS).glob("*.sgf")))
    if len(done.told) != count or done.status != 0:
        yield f"{PROBLEMS}: {len(done.told)} of {count} problems, status {done.status}"
    for one in done.told:
        if one["verdict"] != "as expected" or len(one["moves"] or []) != 1:
            yield f"{one['record']}: {one['verdict']}, {one['moves']}"


def wrong_changes(program: str) -> Iterator[str]:
    """Which changed problems have another verdict than they should."""
    for name, change, verdict in CHANGES:
        with tempfile.TemporaryDirectory() as room:
            for path in pathlib.Path(PROBLEMS).glob("*.sgf"):
                text = MARK.sub("", path.read_text(encoding="utf-8"))
                changed = QUESTION.sub(lambda line, change=change: change(line[0]), text)
                (pathlib.Path(room) / path.name).write_text(changed, encoding="utf-8")
            done = run(program, room, "--tree", "wider")
            if done.status != 1:
                yield f"{name}: status {done.status}"
            for one in done.told:
                if not one["verdict"].startswith(verdict):
                    yield f"{name}, {one['record']}: {one['verdict']}"


# GNU Go's questions.


def row(program: str, folder: str, depths: str, tree: str) -> str:
    """How many of GNU Go's questions have each verdict."""
    done = run(program, folder, "--depths", *depths.split(), "--tree", tree)
    verdicts: dict[str, int] = {}
    right = 0
    for one in done.told:
        verdicts[one["verdict"]] = verdicts.get(one["verdict"], 0) + 1
        text = pathlib.Path(one["record"]).read_text(encoding="ascii")
        right += (one["code"] == 0) == ("code 0" in QUESTION.search(text)[0])
    told = ", ".join(f"{verdict} {count}" for verdict, count in sorted(verdicts.items()))
    return f"{tree}, {depths}: {told}; the yes or no {right} of {len(done.told)}; {done.seconds:.1f} s"


def thousand(program: str, *options: str) -> str:
    """How long ten copies of each problem take at 16 6, in one process."""
    with tempfile.TemporaryDirectory() as room:
        for number in range(COPIES):
            for path in pathlib.Path(PROBLEMS).glob("*.sgf"):
                text = NAMED_DEPTHS.sub("", path.read_text(encoding="utf-8"))
                (pathlib.Path(room) / f"{number}-{path.name}").write_text(text, encoding="utf-8")
        done = run(program, room, "--tree", "wider", "--depths", "16", "6", *options)
    return f"{len(done.told)} problems: {' '.join([*options, ''])}{done.seconds:.1f} s"


def main(program: str, regression: str) -> int:
    wrong = [*wrong_problems(program), *wrong_problems(program, "--anywhere"), *wrong_changes(program)]
    with tempfile.TemporaryDirectory() as room:
        if suites_as_records.main(regression, room) != 0:
            return 2
        for depths in DEPTHS:
            for tree in TREES:
                print(row(program, room, depths, tree), flush=True)
    print(thousand(program))
    print(thousand(program, "--anywhere"))
    print("\n".join([*wrong, f"{len(wrong)} differ"]))
    return 1 if wrong else 0


if __name__ == "__main__":
    command_line.run(main, __doc__)
