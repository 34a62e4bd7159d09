"""Writes random pattern databases, and compares every fault that pattern_check tells with a second reading of the
grammar.

usage: python3 tools/compare_checks.py PATTERN_CHECK COUNT [SEED]

The first fault is that of the whole text, and the others are those of the entries behind it, each read alone. Prints
how many faults of which kind were told, each text on which the two differ, and each message that gives no cause. The
exit status is 1 where there is such a text or such a message.
"""

import collections
import pathlib
import random
import re
import subprocess
import tempfile

import command_line
import compare_databases
import database

ERROR = re.compile(rb"[^:]*:(\d+):(\d+): error: (.*) \[kind (\d+)(?:, Pattern .*)?\]")
TOLD_AT_END = (10, 14)
BATCH = 200


def is_pattern_line(line: bytes) -> bool:
    """Whether a line begins an entry."""
    word = re.match(rb"[^ \t\f\r]*", line.strip(database.BLANKS))[0]
    return word == b"Pattern" and not database.BAD_BYTE.search(line)


def faults_of(text: bytes) -> list[tuple[int, int]]:
    """The first fault of a text, and the faults of the entries behind it."""
    helpers = compare_databases.HELPERS
    first = database.read(text, helpers)
    if not isinstance(first, tuple):
        return []
    lines = text.split(b"\n")
    starts = [at for at, line in enumerate(lines) if is_pattern_line(line)]
    found = [first]
    for start, end in zip(starts, starts[1:] + [len(lines)]):
        if start + 1 > first[0] or (start + 1 == first[0] and first[1] in TOLD_AT_END):
            part = b"\n".join(lines[start:end]) + (b"\n" if end < len(lines) else b"")
            fault = database.read(part, helpers)
            if isinstance(fault, tuple):
                found.append((fault[0] + start, fault[1]))
    return found


def told_of(program: str, paths: list[pathlib.Path]) -> dict[str, list[tuple[int, int, bytes]]]:
    """What the program tells of each file: the line, the kind and the cause of each fault."""
    done = subprocess.run([program, "--quiet", *map(str, paths)], capture_output=True, check=False)
    if done.returncode not in (0, 1):
        raise RuntimeError(f"status {done.returncode}: {done.stderr!r}")
    told: dict[str, list[tuple[int, int, bytes]]] = {str(path): [] for path in paths}
    for line in done.stdout.split(b"\n"):
        if match := ERROR.fullmatch(line):
            told[line.split(b":")[0].decode()].append((int(match[1]), int(match[4]), match[3]))
    return told


def main(program: str, count: str, seed: str = "1") -> int:
    rng = random.Random(int(seed))
    kinds: collections.Counter[int] = collections.Counter()
    different = without = 0
    with tempfile.TemporaryDirectory(dir="/dev/shm") as folder:
        for begun in range(0, int(count), BATCH):
            texts = {}
            for at in range(min(BATCH, int(count) - begun)):
                path = pathlib.Path(folder) / f"{at}.db"
                texts[path] = compare_databases.text_of(rng)
                path.write_bytes(texts[path])
            for name, told in told_of(program, list(texts)).items():
                text = texts[pathlib.Path(name)]
                want, got = faults_of(text), [(line, kind) for line, kind, _ in told]
                kinds.update(kind for _, kind in want)
                if want != got:
                    different += 1
                    print(f"differs: {text!r}: expected {want}, told {got}")
                for line, kind, cause in told:
                    if cause.startswith(b"a fault"):
                        without += 1
                        print(f"no cause: {text!r}: line {line} kind {kind}")
    print(" ".join(f"{kind}:{kinds[kind]}" for kind in sorted(kinds)))
    print(f"{different} of {count} differ, {without} faults without a cause")
    return 1 if different or without else 0


if __name__ == "__main__":
    command_line.run(main, __doc__)
