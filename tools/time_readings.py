"""Measures what the readings of GNU Go's questions take: the processor's seconds, and the plays that are tried.

usage: python3 tools/time_readings.py GOPAT REGRESSION PLIES:WIDE..

REGRESSION is the folder regression/ of GNU Go's source. At each of the depths one process is asked all 265 questions
`attack` and `defend`, three times over, of which the least time counts; then each question is asked by a process of its
own. Prints for each of the depths the seconds of all questions and the plays that they try, as `--stats` tells them,
and a line for each of the ten questions that try the most: its plays, its seconds, and its name.
"""

import pathlib
import re
import shlex
import subprocess
import sys
from typing import Iterator, NamedTuple

import command_line
import cost
import suites_as_records

TRIALS = re.compile(r"trials (\d+)")
TIMES, SHOWN = 3, 10


class Question(NamedTuple):
    """A question's suite and number, and the lines that set its position up and ask it, without depths."""

    name: str
    set_up: list[str]
    line: str


class Taken(NamedTuple):
    """The plays that are tried, and the processor's seconds."""

    trials: int
    seconds: float


def questions(regression: str) -> Iterator[Question]:
    """The questions of all suites, in order."""
    for path in sorted(pathlib.Path(regression).glob("*.tst")):
        for asked in suites_as_records.questions(path):
            yield Question(f"{path.stem} {asked.number}", asked.situations[-1].lines, f"{asked.kind} {asked.vertex}")


def lines_of(asked: list[Question], depths: str) -> list[str]:
    """The lines that ask questions."""
    return [f"depths {depths}", *(line for one in asked for line in (*one.set_up, one.line))]


def taken(gopat: str, lines: list[str]) -> Taken:
    """What a process takes for these lines."""
    before = cost.spent()
    command = [*shlex.split(gopat), "--stats"]
    done = subprocess.run(command, input="\n".join(lines) + "\n", capture_output=True, text=True, check=True)
    return Taken(int(TRIALS.search(done.stderr)[1]), cost.spent() - before)


def main(gopat: str, regression: str, *depths: str) -> int:
    asked = list(questions(regression))
    if not asked or not depths:
        print(__doc__, file=sys.stderr)
        return 2
    for one in depths:
        lines = lines_of(asked, one.replace(":", " "))
        whole = min((taken(gopat, lines) for _ in range(TIMES)), key=lambda found: found.seconds)
        print(f"{one}: {len(asked)} questions, {whole.trials} plays, {whole.seconds:.2f} s", flush=True)
        each = [(taken(gopat, lines_of([question], one.replace(":", " "))), question) for question in asked]
        for found, question in sorted(each, key=lambda pair: pair[0].trials, reverse=True)[:SHOWN]:
            print(f"  {found.trials} plays, {found.seconds:.3f} s: {question.name}, {question.line}", flush=True)
    return 0


if __name__ == "__main__":
    command_line.run(main, __doc__)
