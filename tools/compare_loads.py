"""Loads every game record of a folder in gopat and in GNU Go by `loadsgf`, and compares the boards after the main
lines, stone by stone. Then it times both over all records that both answer, in one session each, replies into a pipe.

usage: python3 tools/compare_loads.py GOPAT GNUGO FOLDER [RUNS]

The folder is searched for *.sgf. GNU Go wants no more than the name: without a move number it follows the main line to
its end too. Each record that differs is listed with the reason: what gopat says where it refuses it, what GNU Go says
where that does, or the vertices where the boards differ. GNU Go passes over AE: where gopat has GNU Go's board once AE
is taken out of the record, that is the reason, and such records are told and do not count as different. A record that
ends GNU Go is listed too, and a name with a blank, which is no one word, is passed over. The times are the least of
RUNS runs (five), in turn. The exit status is 1 where a record differs.
"""

import pathlib
import re
import tempfile
from typing import NamedTuple

import command_line
import cost
import gtp

MOST_SHOWN = 12
ENDED = "the program ended"

Stones = dict[str, str]


class Loaded(NamedTuple):
    """What a program makes of a record: its refusal, or the stones by their vertices."""

    refusal: str | None
    stones: Stones


class Program:
    """One of the two, started again where a record ended it."""

    def __init__(self, command: list[str]):
        self.command = command
        self.running = gtp.Running(command)

    def load(self, path: str) -> Loaded:
        try:
            reply = self.running.ask(f"loadsgf {path}")
            return Loaded(None, self.stones()) if reply.ok else Loaded(reply.text, {})
        except gtp.Ended:
            self.running.end()
            self.running = gtp.Running(self.command)
            return Loaded(ENDED, {})

    def stones(self) -> Stones:
        raise NotImplementedError


class Gopat(Program):
    def stones(self) -> Stones:
        return gtp.shown(self.running.ask("showboard").text).stones


class GnuGo(Program):
    def stones(self) -> Stones:
        colours = {"X": "black", "O": "white"}
        return {
            vertex: mark
            for mark, colour in colours.items()
            for vertex in self.running.ask(f"list_stones {colour}").text.split()
        }


def difference(ours: Loaded, theirs: Loaded) -> str | None:
    """The reason why the programs differ on a record, or none."""
    if ours.refusal is not None:
        return f"gopat: {ours.refusal}" + ("" if theirs.refusal is None else f"; GNU Go: {theirs.refusal}")
    if theirs.refusal is not None:
        return f"GNU Go: {theirs.refusal}"
    places = sorted(ours.stones.items() ^ theirs.stones.items())
    vertices = list(dict.fromkeys(vertex for vertex, _ in places))
    if not vertices:
        return None
    pairs = [f"{vertex} {ours.stones.get(vertex, '.')} and {theirs.stones.get(vertex, '.')}" for vertex in vertices]
    return f"{len(vertices)} points: {', '.join(pairs[:MOST_SHOWN])}" + (", ..." if len(pairs) > MOST_SHOWN else "")


def is_by_removal(gopat: Program, path: str, theirs: Loaded) -> bool:
    """Whether gopat has the other board too, once the record takes no stones off."""
    with tempfile.NamedTemporaryFile(suffix=".sgf") as copy:
        copy.write(re.sub(rb"\bAE(?=\s*\[)", b"XE", pathlib.Path(path).read_bytes()))
        copy.flush()
        return gopat.load(copy.name) == theirs


def seconds(command: list[str], lines: list[str]) -> tuple[float, float]:
    """How long a session with the lines took, and how much of it the processor was busy."""
    before = cost.spent()
    _, passed = gtp.session(command, lines)
    return passed, cost.spent() - before


def least(runs: list[tuple[float, float]]) -> tuple[float, float]:
    passed, busy = zip(*runs)
    return min(passed), min(busy)


def time_both(gopat: list[str], gnugo: list[str], paths: list[str], runs: int):
    """Prints the times of both over the records, and of a session that loads none."""
    lines = [f"loadsgf {path}" for path in paths]
    kinds = [(gopat, lines), (gnugo, lines), (gopat, ["name"]), (gnugo, ["name"])]
    taken = [[seconds(*kind) for kind in kinds] for _ in range(runs)]
    ours, theirs, our_start, their_start = (least([row[column] for row in taken]) for column in range(len(kinds)))
    for name, whole, start in (("gopat", ours, our_start), ("GNU Go", theirs, their_start)):
        print(f"{name}: {whole[0]:.3f} seconds, of the processor {whole[1]:.3f}; ", end="")
        print(f"{start[0]:.3f} and {start[1]:.3f} without records")
    passed, busy = theirs[0] / ours[0], theirs[1] / ours[1]
    print(f"{len(paths)} records: gopat is {passed:.1f} times as fast, {busy:.1f} times by the processor's time")


def main(gopat: str, gnugo: str, folder: str, runs: str = "5") -> int:
    ours, theirs = Gopat([gopat]), GnuGo(gtp.gnugo(gnugo))
    found = sorted(str(path.resolve()) for path in pathlib.Path(folder).rglob("*.sgf"))
    paths = [path for path in found if not re.search(r"\s", path)]
    timed, refused, removals, differ = [], 0, 0, 0
    for path in paths:
        our, their = ours.load(path), theirs.load(path)
        reason = difference(our, their)
        removed = reason is not None and is_by_removal(ours, path, their)
        if reason:
            print(f"{path}: {'AE, ' if removed else ''}{reason}")
        removals += removed
        differ += reason is not None and not removed
        refused += our.refusal is not None
        if ENDED not in (our.refusal, their.refusal):
            timed.append(path)
    ours.running.end()
    theirs.running.end()
    print(f"{len(paths)} records, {refused} refused by gopat, {differ} differ, {removals} by AE; ", end="")
    print(f"{len(found) - len(paths)} names with a blank passed over")
    time_both([gopat], gtp.gnugo(gnugo), timed, int(runs))
    return 1 if differ else 0


if __name__ == "__main__":
    command_line.run(main, __doc__)
