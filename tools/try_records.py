"""Loads faulty, odd and long game records by `loadsgf`, each in a session of its own, and tells the reply, the
processor's seconds and the greatest memory of the program.

usage: python3 tools/try_records.py GOPAT

The records are made here; each stands below with what docs/FORMATS.md says of it, a refusal or the number of stones.
After a refusal the board and the moves have to be as before, and after a record that is loaded `undo` is refused. Two
long records are also given to `wc` and `cp`. The exit status is 1 where anything else comes.
"""

import pathlib
import subprocess
import tempfile
from typing import Iterator, NamedTuple

import command_line
import cost
import gtp

LONG = 10_000_000
MANY = 1_000_000
FIRST = ["boardsize 9", "play b C3"]


class Record(NamedTuple):
    """What a record is called, its bytes, and what it gives: the number of stones, or the refusal."""

    name: str
    text: bytes
    gives: int | str


def kind(number: int) -> str:
    return f"bad sgf kind {number}"


def on_9(nodes: bytes) -> bytes:
    """A record on 9 rows."""
    return b"(;SZ[9]" + nodes + b")"


def long_records() -> Iterator[Record]:
    """Records of some 10,000,000 bytes."""
    for letter in "(;[":
        yield Record(f"10 MB of {letter}", letter.encode() * LONG, kind(1))
    yield Record("10 MB of ( and then )", b"(" * (LONG // 2) + b")" * (LONG // 2), kind(1))
    yield Record("10 MB of (;", b"(;" * (LONG // 2), kind(1))
    yield Record("6.7 MB of (; and 3.3 MB of )", b"(;" * (LONG // 3) + b")" * (LONG // 3), 0)
    yield Record("10 MB of ; in one tree", b"(" + b";" * LONG + b")", 0)
    yield Record("10 MB of [ in one value", b"(;C[" + b"[" * LONG + b"])", 0)
    yield Record("10 MB of \\ in one value", b"(;C[" + b"\\" * LONG + b"])", 0)
    yield Record("a value of 10 MB that does not end", b"(;C[" + b"a" * LONG, kind(1))
    yield Record("10 MB of bytes 0", bytes(LONG), kind(1))
    yield Record("2.5 million nodes ;B[]", b"(" + b";B[]" * (LONG // 4) + b")", 0)
    yield Record("a million nodes ;AB[aa:rs]", b"(" + b";AB[aa:rs]" * MANY + b")", 18 * 19)
    yield Record("a million setups of no stone, 19 rows", b"(" + b";AE[aa]" * MANY + b")", 0)
    full = b"(;SZ[25]AB[ba:ya][ab:yy]" + b";AE[aa]" * (MANY // 10) + b")"
    yield Record("100,000 setups of no stone, 25 rows that are full", full, 624)


def beside_others() -> Iterator[Record]:
    """Long records that `wc` and `cp` are given too."""
    yield Record("a comment of 10 MB", b"(;C[" + b"a" * LONG + b"])", 0)
    yield Record("variations of 10 MB", b"(;" + b"(;B[dd];W[pp]C[no])" * (LONG // 19) + b")", 2)


def short_records() -> Iterator[Record]:
    """Records of a few bytes."""
    yield Record("an empty record", b"", kind(1))
    yield Record("a value that does not end", b"(;C[a", kind(1))
    yield Record("a backslash as the last byte", b"(;C[a\\", kind(1))
    yield Record("a backslash before the last ]", b"(;C[a\\])", kind(1))
    yield Record("CR LF", on_9(b"\r\n;B[cc]\r\n;W[gg]\r\n"), 2)
    yield Record("a byte order mark", b"\xef\xbb\xbf" + on_9(b";B[cc]"), 1)
    for encoding in ("utf-8", "latin-1"):
        yield Record(f"a value in {encoding}", on_9("C[é];B[cc]".encode(encoding)), 1)
    for encoding in ("utf-16-le", "utf-16-be"):
        yield Record(f"a record in {encoding}", "\ufeff(;SZ[9];B[cc])".encode(encoding), kind(1))
    yield Record("a value that ends in byte 92, as in Shift-JIS", on_9(b"C[\x83\x5c]AB[cc];W[gg]"), 1)
    for size in ("26", "1", "0", "-9", "19:19", "", " 9", "9" * 40):
        yield Record(f"the size [{size[:5]}]", f"(;SZ[{size}])".encode(), kind(2))
    yield Record("a point off the board", on_9(b";B[jj]"), kind(3))
    yield Record("corners out of order", on_9(b"AB[cc:bb]"), kind(3))
    yield Record("a setup without liberty", on_9(b"AB[aa]AW[ab][ba]"), kind(4))
    yield Record("a play on a stone", on_9(b";B[dd];W[dd]"), kind(5))
    yield Record("kind 3 behind kind 5", on_9(b";B[dd];W[dd];AB[zz]"), kind(5))


# Names that are no record's, with the refusal.
NAMES = {
    b"/tmp": "cannot load file",
    b"/no/such/file": "cannot load file",
    b"/no/such name": "cannot load file",
    b"/dev/null": kind(1),
    b"/dev/zero": "cannot load file",
    b"\xff": "syntax error",
}


def replies(gopat: str, name: bytes) -> list[gtp.Reply]:
    """The replies to the load, to `showboard` and to `undo` behind it, where a stone stood before."""
    lines = [*(line.encode() for line in FIRST), b"loadsgf " + name, b"showboard", b"undo"]
    done = subprocess.run([gopat], input=b"\n".join(lines), capture_output=True, check=True)
    texts = done.stdout.decode().split("\n\n")[len(FIRST) : -1]
    return [gtp.Reply(text[0] == "=", text[1:].removeprefix(" ")) for text in texts]


def given(found: list[gtp.Reply]) -> int | str:
    """What the load gave, where the board and the moves are as they have to be behind it."""
    load, board, undo = found
    stones = gtp.shown(board.text).stones
    if load.ok:
        return f"{len(stones)} stones, and undo goes back behind them" if undo.ok else len(stones)
    return load.text if list(stones) == ["C3"] and undo.ok else f"{load.text}, and the board is another"


def told(gopat: str, called: str, name: bytes, gives: int | str) -> bool:
    """Prints what loading gives and takes, and says whether it is as it should be."""
    found = given(replies(gopat, name))
    taken = cost.of([gopat], [(b"loadsgf " + name).decode("utf-8", "surrogateescape")])
    is_so = found == gives
    text = f"{found} stones" if isinstance(found, int) else found
    print(f"{called}: {text}, {taken.seconds:.2f} s, {taken.megabytes:.1f} MiB{'' if is_so else f'; not {gives}'}")
    return is_so


def main(gopat: str) -> int:
    wrong = 0
    with tempfile.TemporaryDirectory() as folder:
        path = pathlib.Path(folder) / "record.sgf"
        for record in [*short_records(), *long_records(), *beside_others()]:
            path.write_bytes(record.text)
            wrong += not told(gopat, record.name, str(path).encode(), record.gives)
        for record in beside_others():
            path.write_bytes(record.text)
            by_wc, by_cp = cost.of(["wc", str(path)]), cost.of(["cp", str(path), f"{folder}/copy.sgf"])
            print(f"{record.name}: wc takes {by_wc.seconds:.3f} s, and cp {by_cp.seconds:.3f}")
    for name, refusal in NAMES.items():
        wrong += not told(gopat, f"the name {name.decode('latin-1')}", name, refusal)
    print(f"{wrong} records or names are taken otherwise")
    return 1 if wrong else 0


if __name__ == "__main__":
    command_line.run(main, __doc__)
