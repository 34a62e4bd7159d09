"""Tells for a folder of pattern files which entries gopat accepts, and cuts the accepted ones into files that load.

usage: python3 tools/cut_patterns.py GOPAT FOLDER OUT

Each entry of each *.db file is given to gopat alone. Prints a line for each file, with the states that the accepted
entries take together, then the reasons of refusal with their counts, as the number of gopat's note and a name. OUT
gets a file of the accepted entries for each file, and all.db with the first 4,096 of all of them. An option of GNU
Go's own before the first pattern is left out.
"""

import collections
import pathlib
import subprocess
import tempfile
from typing import Iterator

import command_line

MOST_STATES = 1_000_000
MOST_PATTERNS = 4096
KINDS = (
    "BadByte StrayLine NoName NoDiagram Ragged BadLetter MoveCount EdgePlace TooLarge NoColonLine BadMark BadClass "
    "BadItem ConstraintShape ExprFault UnknownLabel UnknownHelper TooManyPatterns"
).split()


def entries_of(text: bytes) -> Iterator[bytes]:
    """The entries of a file, each from its `Pattern` line to the next."""
    lines = text.split(b"\n")
    starts = [at for at, line in enumerate(lines) if line.split()[:1] == [b"Pattern"]]
    for at, after in zip(starts, starts[1:] + [len(lines)]):
        yield b"\n".join(lines[at:after]) + b"\n"


def refusal(gopat: str, path: pathlib.Path) -> int:
    """The kind of the file's first fault, or 0 where it is accepted."""
    done = subprocess.run([gopat, str(path)], input=b"", capture_output=True, check=False)
    return int(done.stderr.split()[5]) if done.returncode == 1 else 0


def states(gopat: str, path: pathlib.Path) -> str:
    """How many states the patterns of the file take: the least limit under which it is accepted."""
    below, limit = 0, 1
    while takes_more(gopat, path, limit):
        if limit == MOST_STATES:
            return f"more than {MOST_STATES}"
        below, limit = limit, min(4 * limit, MOST_STATES)
    while limit - below > 1:
        middle = (below + limit) // 2
        if takes_more(gopat, path, middle):
            below = middle
        else:
            limit = middle
    return str(limit)


def takes_more(gopat: str, path: pathlib.Path, limit: int) -> bool:
    """Whether the file is refused for its states."""
    done = subprocess.run([gopat, f"--states={limit}", str(path)], input=b"", capture_output=True, check=False)
    return done.returncode == 7


def main(gopat: str, folder: str, out: str):
    kept, reasons = pathlib.Path(out), collections.Counter[int]()
    kept.mkdir(parents=True, exist_ok=True)
    everything: list[bytes] = []
    with tempfile.TemporaryDirectory() as room:
        alone = pathlib.Path(room) / "entry.db"
        for path in sorted(pathlib.Path(folder).glob("*.db")):
            accepted, total = [], 0
            for entry in entries_of(path.read_bytes()):
                alone.write_bytes(entry)
                kind = refusal(gopat, alone)
                total += 1
                reasons[kind] += 1
                if kind == 0:
                    accepted.append(entry)
            (kept / path.name).write_bytes(b"".join(accepted))
            everything += accepted
            print(f"{path.name}: {len(accepted)} of {total} accepted, {states(gopat, kept / path.name)} states")
    (kept / "all.db").write_bytes(b"".join(everything[:MOST_PATTERNS]))
    print(f"all: {len(everything)} accepted, {states(gopat, kept / 'all.db')} states")
    for kind, times in reasons.most_common():
        if kind:
            print(f"refused as kind {kind} ({KINDS[kind - 1]}): {times}")


if __name__ == "__main__":
    command_line.run(main, __doc__)
