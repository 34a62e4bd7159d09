"""Writes random pattern databases, faulty and whole, and compares gopat's first fault with a second reading of the
grammar.

usage: python3 tools/compare_databases.py GOPAT COUNT [SEED]

Prints how many texts had which first fault, and each text on which the two differ. The helpers that an entry may name
are gopat's own, `near_edge` and `no_ban`. The exit status is 1 where a text differs.
"""

import collections
import pathlib
import random
import subprocess
import tempfile

import command_line
import database

HELPERS = {b"near_edge", b"no_ban"}
MARKS = "8|-/\\+XO"
FUNCTIONS = [name.decode() for name in database.ARITIES]


def diagram(rng: random.Random) -> list[str]:
    """A diagram, most often with one star and with edges that agree."""
    rows, columns = rng.choice([(1, 2), (2, 2), (2, 3), (3, 3), (4, 5)])
    cells = [[rng.choice("OXox.?") for _ in range(columns)] for _ in range(rows)]
    if rng.random() < 0.97:
        cells[rng.randrange(rows)][rng.randrange(columns)] = "*"
    left, right = (rng.choice(["", "", "|"]) for _ in range(2))
    lines = [left + "".join(row) + right for row in cells]
    edge = left.replace("|", "+") + "-" * columns + right.replace("|", "+")
    return [edge] * (rng.random() < 0.15) + lines + [edge] * (rng.random() < 0.15)


def expression(rng: random.Random, depth: int = 0) -> str:
    """An expression over the labels A to D."""
    pick = rng.random()
    if depth > 4 or pick < 0.2:
        return str(rng.choice([0, 1, 2, 7, 999999]))
    if pick < 0.6:
        name = rng.choice(FUNCTIONS)
        low, high = database.ARITIES[name.encode()]
        arguments = [rng.choice("ABCD*") for _ in range(rng.randint(low, high))]
        if name.endswith(("play_attack", "play_defend")) and rng.random() < 0.3:
            arguments[0] = "?"
        return f"{name}({','.join(arguments)})"
    if pick < 0.7:
        return rng.choice("!-") + expression(rng, depth + 1)
    if pick < 0.8:
        return f"({expression(rng, depth + 1)})"
    operator = rng.choice(["||", "&&", "==", "!=", "<", "<=", ">", ">=", "+", "-"])
    return expression(rng, depth + 1) + rng.choice(["", " "]) + operator + expression(rng, depth + 1)


def labelled(rng: random.Random, lines: list[str]) -> list[str]:
    """The diagram with some labels in place of its letters."""
    labels = list("ABCD")
    out = []
    for line in lines:
        row = [
            labels.pop(0) if labels and c in "OXox.?*" and "-" not in line and rng.random() < 0.7 else c for c in line
        ]
        out.append("".join(row))
    return out


def entry(rng: random.Random) -> list[str]:
    """The lines of one entry."""
    drawn = diagram(rng)
    classes = rng.choice(["s", "s", "sX", "-s", "sn", "D", ""])
    items = rng.choice(["", "", ",value(5)", ",near_edge", ",no_ban,NULL", ",text(a, b)"])
    lines = [f"Pattern P{rng.randrange(100)}", *drawn, f":{rng.choice(MARKS)},{classes}{items}"]
    if rng.random() < 0.5:
        lines += labelled(rng, drawn)
        if rng.random() < 0.8:
            text = expression(rng)
            cut = rng.randrange(len(text) + 1) if rng.random() < 0.2 else len(text)
            lines += [f";{part}" for part in (text[:cut], text[cut:])[: 1 + (cut < len(text))]]
    if rng.random() < 0.2:
        lines.append("> an action")
    return lines


def spoil(rng: random.Random, lines: list[str]) -> list[str]:
    """The lines with a small change at a random place."""
    at = rng.randrange(len(lines))
    line = lines[at]
    where = rng.randrange(len(line) + 1)
    byte = rng.choice("OXox.?*|+-:;>,()!&=<A1b#\t \x07\x0b\xe9n")
    match rng.randrange(12):
        case 0:
            lines[at] = line[:where] + byte + line[where:]
        case 1:
            lines[at] = line[:where] + line[where + 1 :]
        case 2:
            del lines[at]
        case 3:
            lines.insert(at, rng.choice(lines))
        case 4:
            lines.insert(at, rng.choice([":8,s", ";1", "> x", "# \x07", "attribute_map general", "?!*", "", "Pattern"]))
        case 5:
            lines[at] = line[:where] + byte + line[where + 1 :]
        case 6:
            lines[at] = rng.choice(["Pattern " + "a" * rng.choice([80, 81]), "Pattern a\xe9", "O" * 26, "--", "|O*"])
        case 7:
            lines[at] = rng.choice([":7", ":8," + "s" * rng.choice([32, 33]), ":8,s1", ":8,s,value(", ":8,s,far_away"])
        case 8:
            faulty = [";lib(", ";foo(A)", ";lib(Q)", ";1!=2", ";lib(A,B)", ";lib(?)", ";oplay_attack(?,?)"]
            lines[at] = rng.choice(faulty)
        case 9:
            lines[at] = ";" + "(" * 33 + "1" + ")" * rng.choice([32, 33])
        case 10:
            lines[at] = ":8,s" + ",value(1)" * rng.choice([16, 17])
        case 11:
            lines[at : at + 1] = ["."] * rng.choice([25, 26])
    return lines or [""]


def too_many(rng: random.Random) -> list[str]:
    """As many entries as a text may have, and sometimes one more."""
    lines = ["Pattern P", "O*", ":8,s"] * database.MOST_PATTERNS
    return lines + rng.choice([[], ["Pattern P"], ["Pattern P", "O*"], ["> x", "Pattern"]])


def text_of(rng: random.Random) -> bytes:
    """A random text."""
    pick = rng.random()
    if pick < 0.009:
        lines = too_many(rng)
    else:
        lines = ["# a comment", "attribute_map general"] * (rng.random() < 0.1)
        for _ in range(rng.randint(1, 3)):
            lines = lines + entry(rng)
        for _ in range(rng.choice([0, 1, 1, 1, 2])):
            lines = spoil(rng, lines)
    text = "\n".join(lines) + "\n" * rng.choice([1, 1, 1, 0])
    return text.encode("latin-1")


def answer_of(gopat: str, path: pathlib.Path) -> tuple[int, int] | list[str]:
    """What gopat says of the file: the line and kind of its first fault, or its list."""
    done = subprocess.run([gopat, str(path)], input=b"list_patterns\n", capture_output=True, check=False)
    if done.returncode == 1:
        words = done.stderr.split()
        return int(words[3]), int(words[5])
    if done.returncode not in (0, 7):
        raise RuntimeError(f"status {done.returncode}: {done.stderr!r}")
    return done.stdout.decode()[1:].split("\n\n")[0].strip().splitlines() if done.returncode == 0 else []


def main(gopat: str, count: str, seed: str = "1") -> int:
    rng = random.Random(int(seed))
    kinds: collections.Counter[int] = collections.Counter()
    different = 0
    with tempfile.TemporaryDirectory(dir="/dev/shm") as folder:
        path = pathlib.Path(folder) / "patterns.db"
        for _ in range(int(count)):
            text = text_of(rng)
            path.write_bytes(text)
            want, got = database.read(text, HELPERS), answer_of(gopat, path)
            kinds[want[1] if isinstance(want, tuple) else 0] += 1
            same = want == got if isinstance(want, tuple) else got in ([], want)
            if not same:
                different += 1
                print(f"differs: {text!r}: expected {want}, gopat says {got}")
    print(" ".join(f"{kind or 'none'}:{kinds[kind]}" for kind in sorted(kinds)))
    print(f"{different} of {count} differ")
    return 1 if different else 0


if __name__ == "__main__":
    command_line.run(main, __doc__)
