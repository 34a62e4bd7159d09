"""Compares what pattern_why --compare prints with two runs of gopat's match_patterns: which matches went and came.

usage: python3 tools/compare_changes.py GOPAT PATTERN_WHY PATTERNS RECORDS [SEED [ENTRIES]]

OLD is some entries of the file PATTERNS, 150 if nothing is said, and NEW is made from it by luck: entries are left out,
stand twice, have another name, another mark or other class letters, or no constraint, and stand in another order. Each
position of the records of the folder RECORDS is set up by plays, and both files' matches for both colours are listed by
gopat. A match went if OLD has it and NEW has none of its name, transformation and vertex for this colour, and came the
other way round; each is a line of pattern_why, in this order, and an object with --json. The lines of the entries are
those of the files, and the exit status is 1 exactly if something changed. The exit status of this script is 1 if
anything differs.
"""

import json
import pathlib
import random
import re
import subprocess
import tempfile
from typing import Iterator, NamedTuple

import command_line
import gtp
import sgf

MARKS = "8|-/\\+XO"
COLOURS = ("black", "white")
LINE = re.compile(r"(.*), move (\d+): (.*)@(\d+), (black|white) at (\S+), transformation (\d): (went|came)")


class Found(NamedTuple):
    """A match of a `match_patterns` reply: the entry's name, the transformation and the vertex."""

    entry: str
    transformation: int
    at: str


class Change(NamedTuple):
    """What a line tells, but for the line of the entry."""

    record: str
    move: int
    change: str
    colour: str
    found: Found


def entries_of(path: str) -> list[str]:
    """The entries of a file, from their names to their expressions."""
    text = pathlib.Path(path).read_text(encoding="latin-1")
    found = re.findall(r"^Pattern .*?(?=^Pattern |\Z)", text, re.DOTALL | re.MULTILINE)
    return [one.rstrip() + "\n" for one in found]


def with_colon(entry: str, luck: random.Random) -> str:
    """The entry with another mark, or with class `s` and no other, or without its constraint."""
    lines = entry.splitlines()
    at = next(number for number, line in enumerate(lines) if line.startswith(":"))
    kind = luck.randrange(3)
    if kind == 0:
        return "\n".join([*lines[:at], ":" + luck.choice(MARKS) + lines[at][2:], *lines[at + 1 :]]) + "\n"
    if kind == 1:
        return "\n".join([*lines[:at], f"{lines[at][:2]},s", *lines[at + 1 :]]) + "\n"
    return "\n".join(lines[: at + 1]) + "\n"


def changed(entry: str, luck: random.Random) -> list[str]:
    """What an entry becomes: mostly it stays."""
    kind = luck.random()
    if kind < 0.1:
        return []
    if kind < 0.2:
        return [entry, with_colon(entry, luck)]
    if kind < 0.25:
        return [re.sub(r"\APattern +(\S+)", r"Pattern \1x", entry)]
    return [with_colon(entry, luck)] if kind < 0.5 else [entry]


def files(patterns: str, luck: random.Random, count: int) -> tuple[str, str]:
    """The text of OLD, and that of NEW."""
    entries = entries_of(patterns)
    old = luck.sample(entries, min(count, len(entries)))
    old += luck.sample(old, len(old) // 20)
    new = [one for entry in old for one in changed(entry, luck)]
    luck.shuffle(new)
    return "\n".join(old), "\n".join(new)


def lines_of(record: sgf.Record) -> Iterator[tuple[str, bool]]:
    """The lines that set up each position, each position followed by its questions, which are marked."""
    yield f"boardsize {record.size}", False
    for move in [*record.moves, None]:
        if move is None or not move.is_set_up:
            yield "match_patterns b", True
            yield "match_patterns w", True
        if move is not None:
            yield f"play {move}", False


def listed(gopat: str, patterns: pathlib.Path, lines: list[tuple[str, bool]]) -> list[list[Found]]:
    """The matches of each question, in order."""
    command = [gopat, "--states", "1000000", str(patterns)]
    replies, _ = gtp.session(command, [line for line, _ in lines])
    found = []
    for (line, asked), reply in zip(lines, replies):
        if not reply.ok:
            raise RuntimeError(f"{line}: {reply.text}")
        if asked:
            words = [match.split() for match in reply.text.splitlines()]
            found.append([Found(name, int(transformation), at) for name, transformation, at in words])
    return found


def wanted(record: str, old: list[list[Found]], new: list[list[Found]]) -> Iterator[Change]:
    """The changes of a record: for each position Black's before White's, what went before what came."""
    for number, (before, after) in enumerate(zip(old, new)):
        move, colour = number // 2, COLOURS[number % 2]
        yield from (Change(record, move, "went", colour, one) for one in before if one not in after)
        yield from (Change(record, move, "came", colour, one) for one in after if one not in before)


def run(program: str, words: list[str], status: int) -> list[str]:
    """The lines that pattern_why prints, which has to end with this status."""
    done = subprocess.run([program, *words], stdin=subprocess.DEVNULL, capture_output=True, text=True, check=False)
    if done.returncode != status:
        raise RuntimeError(f"status {done.returncode} in place of {status}: {done.stderr}")
    return done.stdout.splitlines()


def of_line(line: str) -> tuple[Change, int]:
    """What a line for a person tells, and the line of the entry."""
    told = LINE.fullmatch(line)
    if told is None:
        raise RuntimeError(f"no line of a change: {line}")
    record, move, name, number, colour, at, transformation, change = told.groups()
    return Change(record, int(move), change, colour, Found(name, int(transformation), at)), int(number)


def of_object(line: str) -> tuple[Change, int]:
    """What an object tells, and the line of the entry."""
    one = json.loads(line)
    found = Found(one["entry"], one["transformation"], one["at"])
    return Change(one["record"], one["move"], one["change"], one["colour"], found), one["line"]


def is_named(text: dict[str, list[str]], change: Change, line: int) -> bool:
    """Whether the entry's line is a Pattern line of the file that has the match, with its name."""
    return text[change.change][line - 1].split()[:2] == ["Pattern", change.found.entry]


def main(
    gopat: str, program: str, patterns: str, records: str, seed: str = "1", entries: str = "150"
) -> int:
    luck = random.Random(int(seed))
    gopat, program = (str(pathlib.Path(path).resolve()) for path in (gopat, program))
    names = sorted(str(path) for path in pathlib.Path(records).resolve().glob("*.sgf"))
    with tempfile.TemporaryDirectory() as room:
        old, new = pathlib.Path(room) / "old.db", pathlib.Path(room) / "new.db"
        texts = files(patterns, luck, int(entries))
        for path, text in zip((old, new), texts):
            path.write_text(text, encoding="latin-1")
        text = {way: one.split("\n") for way, one in zip(("went", "came"), texts)}
        want: list[Change] = []
        positions = 0
        for name in names:
            lines = list(lines_of(sgf.read(name)))
            both = [listed(gopat, path, lines) for path in (old, new)]
            positions += len(both[0]) // 2
            want += wanted(name, *both)
        words = ["--compare", str(old), str(new), str(pathlib.Path(records).resolve())]
        status = 1 if want else 0
        told = [of_line(line) for line in run(program, words, status)]
        objects = [of_object(line) for line in run(program, ["--json", *words], status)]
        same = run(program, ["--compare", str(old), str(old), words[-1]], 0)
    got = [change for change, _ in told]
    missing = [one for one in want if one not in set(got)]
    more = [one for one in got if one not in set(want)]
    for one in missing[:20]:
        print(f"not told: {one}")
    for one in more[:20]:
        print(f"told and not so: {one}")
    unnamed = [one for one in told if not is_named(text, *one)]
    for one in unnamed[:20]:
        print(f"no entry of this name at this line: {one}")
    came = sum(one.change == "came" for one in want)
    print(f"{len(names)} records, {positions} positions: {came} matches came, {len(want) - came} went")
    is_same = got == want and objects == told and not unnamed and not same
    print("nothing differs" if is_same else "something differs")
    return 0 if is_same else 1


if __name__ == "__main__":
    command_line.run(main, __doc__)
