"""Changes positions outside the points on which sure captures rest, and asks gopat_sure whether they stay sure.

usage: python3 tools/change_outside_zones.py GOPAT_SURE POSITIONS [SEED [stated | wider]]

On random dense boards gopat_sure is asked for proofs of sure captures, and the second checker of sure_proofs.py tells the
points on which each rests. The cells of other points are then drawn anew, so that each string has a liberty, until so many
positions were asked about: each capture should be as sure there. Prints what differs, and counts. The exit status is 1 if
anything differs, else 0.
"""

import random
import sys
from typing import Iterator, NamedTuple

import command_line
import gtp
import positions
from check_sure_proofs import code_of_capture
from go_rules import BLACK, EMPTY, WHITE, Position, string_at, vertex_of
from sure_proofs import Reading

SIZES = [5, 5, 6, 7]
DEPTHS = [(1, 0), (2, 1), (3, 0), (3, 2), (4, 1), (5, 0), (5, 2), (6, 2), (7, 1)]
BOARDS, CHANGES, TRIES = 40, 6, 40


class Capture(NamedTuple):
    """A sure capture, the lines that ask about it without its position, its code, and the points on which it rests."""

    position: Position
    kind: str
    lines: list[str]
    code: int
    zone: set[int]


def dense(choose: random.Random) -> positions.Situation:
    """A position by random plays."""
    size = choose.choice(SIZES)
    here = positions.first(size)
    for _ in range(choose.randint(size * size // 2, size * size * 2)):
        move = positions.Played(choose.choice(list(positions.LETTERS)), choose.randrange(size * size))
        here = here.after(move) or here
    return here


def questions(choose: random.Random, here: positions.Situation) -> Iterator[tuple[str, int, tuple[int, int]]]:
    """Questions about some of its strings: the kind, the target and the depths."""
    stones = [point for point, cell in enumerate(here.position.cells) if cell != EMPTY]
    for target in choose.sample(stones, min(len(stones), 6)):
        for kind in ("attack", "defend"):
            yield kind, target, choose.choice(DEPTHS)


def zone_of(position: Position, kind: str, target: int, depths: tuple[int, int], code: int, words: list[str],
            is_wider: bool) -> set[int]:
    """The points on which a proof rests."""
    under, attacks = code_of_capture(kind, code), kind == "attack"
    own, others = int(under == 1), int(under == 3)
    ako, dko = (own, others) if attacks else (others, own)
    left, zone = Reading(position, target, is_wider).check(position, attacks, *depths, ako, dko, words)
    assert not left
    return zone


def captures(program: list[str], choose: random.Random, is_wider: bool) -> Iterator[Capture]:
    """Sure captures on some boards."""
    lines, asked = [], []
    for _ in range(BOARDS):
        here = dense(choose)
        lines += here.lines
        for kind, target, depths in questions(choose, here):
            lines += [f"depths {depths[0]} {depths[1]}", f"{kind}_proof {vertex_of(here.position.size, target)}"]
            asked.append((len(lines) - 1, here.position, kind, target, depths))
    replies, _ = gtp.session(program, lines)
    for at, position, kind, target, depths in asked:
        code, *words = replies[at].text.split()
        if words and replies[at].ok:
            zone = zone_of(position, kind, target, depths, int(code), words, is_wider)
            if position.ban is None or position.ban[0] not in zone:
                yield Capture(position, kind, [lines[at - 1], lines[at].replace("_proof", "")], int(code), zone)


def has_liberties(position: Position) -> bool:
    """Whether each string has a liberty."""
    cells = position.cells
    return all(cell == EMPTY or string_at(position.size, cells, point)[1] for point, cell in enumerate(cells))


def changed(choose: random.Random, capture: Capture) -> Position | None:
    """A position that differs outside the zone; none if none was found."""
    outside = [point for point in range(len(capture.position.cells)) if point not in capture.zone]
    for _ in range(TRIES if outside else 0):
        cells = bytearray(capture.position.cells)
        for point in choose.sample(outside, choose.randint(1, len(outside))):
            cells[point] = choose.choice([EMPTY, BLACK, WHITE])
        after = Position(capture.position.size, bytes(cells))
        if after.cells != capture.position.cells and has_liberties(after):
            return after
    return None


def is_as_sure(capture: Capture, code: int) -> bool:
    """Whether a code tells of a capture that is at least as sure."""
    return code >= capture.code if capture.kind == "attack" else code <= capture.code


def main(program: str, count: str, seed: str = "1", tree: str = "stated") -> int:
    command, choose = [program, "--tree", tree], random.Random(int(seed))
    asked = sure = unchanged = differ = 0
    sys.setrecursionlimit(10_000)
    while asked < int(count):
        lines, wanted = [], []
        for capture in captures(command, choose, tree == "wider"):
            sure += 1
            for _ in range(CHANGES):
                after = changed(choose, capture)
                if after is None:
                    unchanged += 1
                    break
                lines += [*positions.set_up(after, []).lines, *capture.lines]
                wanted.append((len(lines) - 1, capture, after))
        replies, _ = gtp.session(command, lines) if lines else ([], 0.0)
        for at, capture, after in wanted:
            asked += 1
            if not replies[at].ok or not is_as_sure(capture, int(replies[at].text.split()[0])):
                differ += 1
                print(f"{capture.position} {capture.lines} {capture.code}, and on {after}: {replies[at].text}")
    print(f"{asked} positions changed outside the points of {sure} captures, {unchanged} of which rest on too many; "
          f"{differ} differ")
    return 1 if differ else 0


if __name__ == "__main__":
    command_line.run(main, __doc__)
