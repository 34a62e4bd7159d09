"""Compares the answers of pattern_why with the matches of gopat: a try has no reason exactly if it is a match.

usage: python3 tools/compare_reasons.py GOPAT PATTERN_WHY TRIES [SEED [PATTERNS [RECORDS]]]

Each round takes a dozen entries and a position, and compares each try: each entry, colour, transformation and point.
The entries are random ones of every mark and class, with edges, constraints and helpers; or some of the file PATTERNS,
each with its number in the file behind its name, up to half of them such as match on the position. The position comes
of random plays; or it is one of a game record of the folder RECORDS, after some moves of the main line. Rounds go on
until so many tries were compared. How many of them failed first in each part is told too. The exit status is 1 if a try
differs.
"""

import collections
import json
import pathlib
import random
import re
import subprocess
import tempfile
from typing import NamedTuple

import command_line
import gtp
import sgf

ENTRIES = 12
MOST_STATES = "1000000"
FUNCTIONS = ["lib", "xlib", "olib", "attack", "defend", "ko", "safe_xmove", "safe_omove", "legal_xmove", "legal_omove"]
PAIRS = ["same_worm", "does_attack", "does_defend", "odefend_against", "xdefend_against"]
OPERATORS = ["||", "&&", "==", "!=", "<", "<=", ">", ">=", "+", "-"]


class Try(NamedTuple):
    """What is tried: the entry's name, the colour, the transformation, and the vertex of the star."""

    entry: str
    colour: str
    transformation: int
    at: str


def letters(luck: random.Random) -> list[list[str]]:
    """The letters of a random diagram, with one star."""
    rows, columns = luck.randint(1, 3), luck.randint(1, 3)
    drawn = [luck.choices("?.OXox", [6, 4, 2, 2, 1, 1], k=columns) for _ in range(rows)]
    luck.choice(drawn)[luck.randrange(columns)] = "*"
    return drawn


def with_edges(drawn: list[list[str]], sides: str) -> list[str]:
    """The lines of a diagram with edges at these sides, of `tblr`."""
    left, right = "|" * ("l" in sides), "|" * ("r" in sides)
    edge = "+" * len(left) + "-" * len(drawn[0]) + "+" * len(right)
    rows = [left + "".join(row) + right for row in drawn]
    return [edge] * ("t" in sides) + rows + [edge] * ("b" in sides)


def expression(luck: random.Random, points: list[str], depth: int) -> str:
    """A random expression over these arguments."""
    kind = luck.random()
    if depth == 0 or kind < 0.2:
        if luck.random() < 0.3:
            return str(luck.randint(0, 3))
        if luck.random() < 0.7:
            return f"{luck.choice(FUNCTIONS)}({luck.choice(points)})"
        return f"{luck.choice(PAIRS)}({luck.choice(points)},{luck.choice(points)})"
    if kind < 0.3:
        return f"!({expression(luck, points, depth - 1)})"
    sides = expression(luck, points, depth - 1), expression(luck, points, depth - 1)
    return f"({sides[0]} {luck.choice(OPERATORS)} {sides[1]})"


def entry(luck: random.Random, number: int) -> str:
    """A random entry with this number in its name."""
    drawn = letters(luck)
    sides = "".join(side for side in "tblr" if luck.random() < 0.12)
    classes = "".join(letter for letter in "sn" if luck.random() < (0.6 if letter == "s" else 0.25)) or "-"
    helpers = "".join(f",{name}" for name in ["near_edge", "no_ban"] if luck.random() < 0.15)
    lines = [f"Pattern R{number}", *with_edges(drawn, sides), f":{luck.choice('8|-/' + chr(92) + '+XO')},{classes}{helpers}"]
    if luck.random() < 0.5:
        points = ["*"]
        for row in drawn:
            for at, letter in enumerate(row):
                if letter != "*" and len(points) < 3 and luck.random() < 0.5:
                    row[at] = "ABC"[len(points) - 1]
                    points.append(row[at])
        lines += [*with_edges(drawn, sides), f";{expression(luck, points, 2)}"]
    return "\n".join(lines) + "\n\n"


def entries_of(path: str) -> list[str]:
    """The entries of a file, each with its number behind its name."""
    text = pathlib.Path(path).read_text(encoding="latin-1")
    found = re.findall(r"^Pattern .*?(?=^Pattern |\Z)", text, re.DOTALL | re.MULTILINE)
    return [re.sub(r"\APattern +(\S+)", rf"Pattern \1/{at}", one) for at, one in enumerate(found, 1)]


def random_plays(luck: random.Random) -> list[str]:
    """The lines of a board with random plays."""
    size = luck.choice([3, 5, 5, 7, 9])
    vertices = gtp.vertices(size)
    plays = [f"play {luck.choice('bw')} {luck.choice(vertices)}" for _ in range(luck.randint(0, size * size * 2))]
    return [f"boardsize {size}", *plays]


def recorded_plays(luck: random.Random, records: list[sgf.Record]) -> list[str]:
    """The lines of a board with some of the moves of a record."""
    record = luck.choice(records)
    moves = record.moves[: luck.randint(0, len(record.moves))]
    return [f"boardsize {record.size}", *(f"play {move}" for move in moves)]


def records_of(folder: str) -> list[sgf.Record]:
    """The records of a folder, but for those whose main line is no row of plays."""
    found = []
    for path in sorted(pathlib.Path(folder).glob("*.sgf")):
        try:
            found.append(sgf.read(str(path)))
        except sgf.NotPlayable:
            continue
    return found


def matches(gopat: str, room: pathlib.Path, texts: list[str], lines: list[str]) -> tuple[list[str], set[Try]]:
    """The lines that gopat takes, and the matches of these entries for both colours."""
    path = room / "patterns.db"
    path.write_text("".join(texts), encoding="latin-1")
    command = [gopat, "--states", MOST_STATES, str(path)]
    replies, _ = gtp.session(command, [*lines, "match_patterns b", "match_patterns w"])
    found = set()
    for colour, reply in zip(["black", "white"], replies[-2:]):
        for line in reply.text.splitlines():
            name, transformation, at = line.split()
            found.add(Try(name, colour, int(transformation), at))
    return [line for line, reply in zip(lines, replies) if reply.ok], found


def some_of(luck: random.Random, listed: list[str], matching: set[Try]) -> list[str]:
    """A dozen of these entries, up to half of them such as match."""
    numbers = sorted({int(one.entry.rpartition("/")[2]) - 1 for one in matching})
    numbers = luck.sample(numbers, min(ENTRIES // 2, len(numbers)))
    others = [at for at in range(len(listed)) if at not in numbers]
    numbers += luck.sample(others, min(ENTRIES - len(numbers), len(others)))
    return [listed[at] for at in numbers]


def told(program: str, room: pathlib.Path, lines: list[str]) -> dict[Try, str | None]:
    """The part that fails first of each try of the entries that gopat had last, by pattern_why; `None` for a match."""
    command = [program, "--json", str(room / "patterns.db")]
    done = subprocess.run(command, input="\n".join(lines), capture_output=True, text=True, check=False)
    if done.returncode == 2:
        raise RuntimeError(done.stderr)
    objects = [json.loads(line) for line in done.stdout.splitlines()]
    return {Try(one["entry"], one["colour"], one["transformation"], one["at"]): one["fails"] for one in objects}


def main(
    gopat: str, program: str, tries: str, seed: str = "1", patterns: str | None = None, folder: str | None = None
) -> int:
    luck = random.Random(int(seed))
    listed = entries_of(patterns) if patterns else []
    records = records_of(folder) if folder else []
    parts: collections.Counter[str] = collections.Counter()
    gopat, program = (str(pathlib.Path(path).resolve()) for path in (gopat, program))
    compared = rounds = different = 0
    with tempfile.TemporaryDirectory() as place:
        room = pathlib.Path(place)
        while compared < int(tries):
            texts = [entry(luck, at) for at in range(ENTRIES)]
            board, *plays = recorded_plays(luck, records) if records else random_plays(luck)
            lines = [board, f"depths {luck.randint(1, 8)} {luck.randint(0, 1)}", *plays]
            if listed:
                texts = some_of(luck, listed, matches(gopat, room, listed, lines)[1])
            lines, wanted = matches(gopat, room, texts, lines)
            reasons = told(program, room, lines)
            wrong = wanted ^ {one for one, fails in reasons.items() if fails is None}
            for one in sorted(wrong):
                print(f"differs: {one}, told {reasons.get(one, 'nothing')}: {lines}\n{''.join(texts)}")
            parts.update(fails or "match" for fails in reasons.values())
            compared, rounds, different = compared + len(reasons), rounds + 1, different + len(wrong)
    print(f"{compared} tries in {rounds} rounds, {different} of them differ")
    print(", ".join(f"{part} {count}" for part, count in parts.most_common()))
    return 1 if different else 0


if __name__ == "__main__":
    command_line.run(main, __doc__)
