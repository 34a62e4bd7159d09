"""Asks gopat and a plain reader the same `attack` and `defend` questions on random dense boards, at small depths, and
says how many answers differ. The plain reader is tools/plain_reader.c, a second program that follows the definitions
with no pruning; it is compiled here, by `cc`.

usage: python3 tools/compare_plain.py GOPAT QUESTIONS [SEED [TREE]]

SEED is a number, by itself 1. TREE is what the program reads: `stated`, which is so by itself, for `gopat`, or `wider`
for `gopat_wide`; then more of the depths have wide plies. For `gopat_sure` it is `sure` or `sure-wider`, by the tree of
the attacker's candidates; then every reply of the defender is read, so boards and depths are smaller. The exit status is
1 where a reply differs.
"""

import pathlib
import random
import subprocess
import sys
import tempfile
from typing import Iterator

import command_line
import gtp

# Plies and wide plies, so small that the whole tree is read in a moment. From 12 plies on gopat remembers nodes.
SMALL = [(1, 0), (1, 1), (2, 0), (2, 2), (3, 1), (3, 3), (4, 0), (4, 2), (4, 4), (5, 0), (5, 1), (5, 2)]
DEPTHS = {
    "stated": [*SMALL, (6, 0), (6, 1), (7, 0), (12, 0), (14, 0)],
    "wider": [*SMALL, (6, 0), (6, 2), (7, 2), (7, 3), (8, 3), (9, 3), (12, 0), (12, 1), (12, 2), (14, 1)],
    "sure": [*SMALL, (6, 0), (6, 2)],
    "sure-wider": SMALL,
}
# The rows of boards, of which some come more often.
SIZES = {
    "stated": [3, 4, 4, 5, 5, 6, 7],
    "wider": [3, 4, 4, 5, 5, 6, 7],
    "sure": [3, 4, 5, 5, 5, 6, 7],
    "sure-wider": [3, 4, 5, 5, 5, 6, 7],
}
# The options of gopat_sure for a tree; other programs read one tree alone.
OPTIONS = {"sure": ["--tree", "stated"], "sure-wider": ["--tree", "wider"]}


def compiled(folder: str) -> str:
    """The plain reader, made from its source."""
    source = pathlib.Path(__file__).with_name("plain_reader.c")
    program = f"{folder}/plain_reader"
    subprocess.run(["cc", "-O2", "-o", program, str(source)], check=True)
    return program


def board(choose: random.Random, tree: str) -> Iterator[str]:
    """A position by random plays, the last of which may leave a ban, and questions on some of its points."""
    size = choose.choice(SIZES[tree])
    vertices = gtp.vertices(size)
    yield f"boardsize {size}"
    yield "clear_board"
    for _ in range(choose.randint(size * size // 2, size * size * 2)):
        yield f"play {choose.choice('bw')} {choose.choice(vertices)}"
    plies, wide = choose.choice(DEPTHS[tree])
    yield f"depths {plies} {wide}"
    for vertex in choose.sample(vertices, min(len(vertices), 12)):
        yield f"attack {vertex}"
        yield f"defend {vertex}"


def is_question(line: str) -> bool:
    return line.startswith(("attack", "defend"))


def main(gopat: str, questions: str, seed: str = "1", tree: str = "stated") -> int:
    if not seed.isdigit() or tree not in DEPTHS:
        print(__doc__, file=sys.stderr)
        return 2
    choose = random.Random(int(seed))
    asked = differ = captured = refused = 0
    with tempfile.TemporaryDirectory() as folder:
        plain = compiled(folder)
        while asked < int(questions):
            lines = [line for _ in range(100) for line in board(choose, tree)]
            ours, _ = gtp.session([gopat, *OPTIONS.get(tree, [])], lines)
            theirs, _ = gtp.session([plain, tree], lines)
            for number, (line, one, other) in enumerate(zip(lines, ours, theirs)):
                if one.ok != other.ok or (one.ok and one.text != other.text):
                    differ += 1
                    print(f"line {number + 1}, {line}: {one.text} and {other.text}")
                if is_question(line):
                    asked += one.ok
                    refused += not one.ok
                    captured += one.ok and not one.text.startswith("0")
    print(f"{asked} questions, {captured} with a code above 0, {refused} on empty points; {differ} replies differ")
    return 1 if differ else 0


if __name__ == "__main__":
    command_line.run(main, __doc__)
