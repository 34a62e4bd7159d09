"""Proofs of sure captures, apart from the proved checker: a writer, a checker, and a drawing of what a proof rests on.

    python3 tools/sure_proofs.py SIZE BLACK WHITE attack|defend TARGET PLIES WIDE [ATTACKER_KO DEFENDER_KO [wider]]

BLACK and WHITE are vertices parted by commas; white's stones are played after black's, so that the last may leave a ban.
It prints the proof, whether its checker accepts it, how many words it has, and the points on which it rests, in brackets.
It reads the stated tree, or the wider one if the last word says so, and is slow.
"""

import sys

import go_rules
import proof_tree
from go_rules import EMPTY, Position, neighbours, other


class Refused(Exception):
    """Why a text is no proof."""


def string(b: Position, q: int) -> tuple[set[int], set[int]]:
    """The stones of the string of q, and its liberties."""
    return go_rules.string_at(b.size, b.cells, q)


def beside(b: Position, q: int) -> tuple[int, ...]:
    """The neighbours of q."""
    return neighbours(b.size)[q]


def close(b: Position, q: int) -> set[int]:
    """The string of q and all its neighbours."""
    stones = string(b, q)[0]
    return stones | {x for s in stones for x in beside(b, s)}


def two_within(zone: set[int], points: set[int]) -> list[int] | None:
    """Two of these points, those in the zone before the others, each in reading order; none if there are no two."""
    ordered = sorted(points & zone) + sorted(points - zone)
    return ordered[:2] if len(ordered) >= 2 else None


def shows_atari(b: Position, zone: set[int], q: int) -> set[int]:
    """What shows whether the string of q is in atari, with liberties in the zone rather than others."""
    if b.cells[q] == EMPTY:
        return {q}
    stones, liberties = string(b, q)
    two = two_within(zone, liberties)
    return stones | set(two) if two else close(b, q)


def play_rests_on(b: Position, colour: int, zone: set[int], p: int) -> set[int]:
    """What a play of the colour at p rests on, if the proof of the position after it rests on the zone."""
    has_room = any(b.cells[q] == EMPTY for q in beside(b, p))
    shown = {p, *beside(b, p)}
    for q in beside(b, p):
        if b.cells[q] == other(colour) or b.cells[q] == colour and not has_room:
            shown |= shows_atari(b, zone | {p}, q)
    return shown


def open_neighbour(b: Position, p: int, colour: int) -> int | None:
    """The first neighbour of p, above, below, left and right of it, that holds no stone of the colour."""
    sides = [p - b.size, p + b.size, p - 1, p + 1]
    return next((q for q in sides if q in beside(b, p) and b.cells[q] != colour), None)


def child(b: Position, colour: int, p: int, allowance: int) -> tuple[Position, int] | None:
    """The position after the play, and what is left of the allowance; none if it cannot be made."""
    new = go_rules.play(b, colour, p)
    if new:
        return new, allowance
    new = go_rules.play_free(b, colour, p)
    return (new, allowance - 1) if new and allowance else None


class Reading:
    """The reading of one string."""

    def __init__(self, b: Position, target: int, is_wider: bool = False) -> None:
        self.target = target
        self.is_wider = is_wider
        self.defender = b.cells[target]
        self.attacker = other(self.defender)

    def is_beside_liberty(self, b: Position, p: int, wide: int) -> bool:
        """Whether p is a wide candidate next to a liberty."""
        liberties = string(b, self.target)[1]
        is_few = len(liberties) <= (3 if self.is_wider else 2)
        return wide > 0 and is_few and b.cells[p] == EMPTY and any(q in liberties for q in beside(b, p))

    def candidates(self, b: Position, wide: int) -> list[int]:
        """The attacker's candidates, in reading order."""
        stones, liberties = string(b, self.target)
        found = set(liberties)
        for q in {x for s in stones for x in beside(b, s) if b.cells[x] == self.attacker}:
            last = string(b, q)[1]
            found |= last if len(last) == 1 else set()
        if wide:
            found |= {p for p in range(len(b.cells)) if self.is_beside_liberty(b, p, wide)}
            for q in liberties:
                new = go_rules.play_free(b, self.attacker, q)
                last = string(new, q)[1] if new else set()
                found |= {p for p in last if len(last) == 1 and b.cells[p] == EMPTY}
        if self.is_wider:
            found |= proof_tree.further(b, self.target, True, wide > 0)
        return sorted(found)

    def candidate_rests_on(self, b: Position, p: int, wide: int) -> set[int]:
        """What shows that p is a candidate, and that the target has not too many liberties."""
        if p in string(b, self.target)[1]:
            return close(b, self.target)
        if self.is_beside_liberty(b, p, wide):
            return close(b, self.target) | {p}
        q = self.weak_enemy_at(b, p)
        if q is None and wide > 0 and self.is_wider:
            q = self.linked_at(b, p)
        return set(range(len(b.cells))) if q is None else close(b, self.target) | close(b, q)

    def weak_enemy_at(self, b: Position, p: int) -> int | None:
        """The first attacker's stone next to the target's string whose string has few liberties, one of which is p."""
        stones, most = string(b, self.target)[0], 2 if self.is_wider else 1
        for q in range(len(b.cells)):
            if b.cells[q] == self.attacker and any(x in stones for x in beside(b, q)):
                liberties = string(b, q)[1]
                if p in liberties and len(liberties) <= most:
                    return q
        return None

    def linked_at(self, b: Position, p: int) -> int | None:
        """The first stone of a string linked to the target that has at most two liberties, one of which is p."""
        stones, liberties = string(b, self.target)
        for q in range(len(b.cells)):
            if b.cells[q] == self.defender and q not in stones and any(x in liberties for x in beside(b, q)):
                its = string(b, q)[1]
                if p in its and len(its) <= 2:
                    return q
        return None

    def has_too_many(self, b: Position, wide: int) -> bool:
        """Whether the target has more liberties than the attacker may play at."""
        liberties = len(string(b, self.target)[1])
        return liberties > 4 or (wide == 0 and liberties > (4 if self.is_wider else 2))

    def taking_back(self, b: Position, attacks: bool, allowance: int) -> tuple[Position, int] | None:
        """The position after the defender takes back the lone stone that was just taken, and what is left of his
        allowance; none if he cannot."""
        if not self.is_wider or attacks or b.cells[self.target] != EMPTY:
            return None
        is_lone = open_neighbour(b, self.target, self.attacker) is None
        return child(b, self.defender, self.target, allowance) if is_lone else None

    def loss_rests_on(self, b: Position, attacks: bool) -> set[int]:
        """What shows whether the defender takes back the target that is taken, and where that leads."""
        if not self.is_wider or attacks:
            return {self.target}
        beyond = open_neighbour(b, self.target, self.attacker)
        if beyond is not None:
            return {self.target, beyond}
        return play_rests_on(b, self.defender, set(), self.target)

    def asked(self, b: Position, zone: set[int]) -> list[int]:
        """The replies that the zone of the pass asks for, in reading order."""
        replies = {q for q in zone if b.cells[q] == EMPTY}
        for q in zone:
            if b.cells[q] == self.attacker and len(string(b, q)[1]) < 2:
                replies |= string(b, q)[1]
        return sorted(replies)

    def guard(self, b: Position, zone: set[int]) -> set[int]:
        """What guards the zone against the other replies."""
        return set().union(*(shows_atari(b, zone, q) for q in zone if b.cells[q] == self.attacker))

    def write(self, b: Position, attacks: bool, plies: int, wide: int, ako: int, dko: int):
        """The first proof and the points on which it rests; none if the string is not surely captured."""
        less = max(0, wide - 1)
        if b.cells[self.target] == EMPTY:
            points = self.loss_rests_on(b, attacks)
            back = self.taking_back(b, attacks, dko)
            if not back:
                return ["."], points
            found = plies and self.write(back[0], True, plies - 1, less, ako, back[1])
            return ([go_rules.vertex_of(b.size, self.target)] + found[0], points | found[1]) if found else None
        if not plies:
            return None
        if attacks:
            if self.has_too_many(b, wide):
                return None
            for p in self.candidates(b, wide):
                new = child(b, self.attacker, p, ako)
                found = new and self.write(new[0], False, plies - 1, less, new[1], dko)
                if found:
                    points = self.candidate_rests_on(b, p, wide) | found[1]
                    points = points | play_rests_on(b, self.attacker, found[1], p)
                    return [go_rules.vertex_of(b.size, p)] + found[0], points
            return None
        found = self.write(go_rules.play(b, self.defender, None), True, plies - 1, less, ako, dko)
        if not found:
            return None
        words, zone = ["*"] + found[0], found[1] | self.guard(b, found[1])
        for p in self.asked(b, found[1]):
            new = child(b, self.defender, p, dko)
            if new:
                reply = self.write(new[0], True, plies - 1, less, ako, new[1])
                if not reply:
                    return None
                words += [go_rules.vertex_of(b.size, p)] + reply[0]
                zone = zone | reply[1]
            zone = zone | play_rests_on(b, self.defender, zone, p)
        return words + [";"], zone

    def check(self, b: Position, attacks: bool, plies: int, wide: int, ako: int, dko: int, words: list[str]):
        """The words behind the proof in front of these, and the points on which it rests."""
        if not words:
            raise Refused("no word")
        word, rest = words[0], words[1:]
        less = max(0, wide - 1)
        back = self.taking_back(b, attacks, dko)
        if word == ".":
            if b.cells[self.target] != EMPTY or back:
                raise Refused("the target stands, or is taken back")
            return rest, self.loss_rests_on(b, attacks)
        if not plies:
            raise Refused("no ply is left")
        if attacks:
            move = go_rules.move_of(b.size, word)
            if b.cells[self.target] == EMPTY or self.has_too_many(b, wide) or not move or move.point is None:
                raise Refused("no play")
            if move.point not in self.candidates(b, wide):
                raise Refused("no candidate")
            new = child(b, self.attacker, move.point, ako)
            if not new:
                raise Refused("the play cannot be made")
            left, zone = self.check(new[0], False, plies - 1, less, new[1], dko, rest)
            played = play_rests_on(b, self.attacker, zone, move.point)
            return left, self.candidate_rests_on(b, move.point, wide) | played | zone
        if word != "*":
            if not back or go_rules.move_of(b.size, word) != go_rules.Move(self.target):
                raise Refused("no *, and the target is not taken back")
            left, zone = self.check(back[0], True, plies - 1, less, ako, back[1], rest)
            return left, self.loss_rests_on(b, attacks) | zone
        left, passed = self.check(go_rules.play(b, self.defender, None), True, plies - 1, less, ako, dko, rest)
        zone = passed | self.guard(b, passed)
        for p in self.asked(b, passed):
            new = child(b, self.defender, p, dko)
            if new:
                if not left or go_rules.move_of(b.size, left[0]) != go_rules.Move(p):
                    raise Refused("a reply is missing")
                left, more = self.check(new[0], True, plies - 1, less, ako, new[1], left[1:])
                zone = zone | more
            zone = zone | play_rests_on(b, self.defender, zone, p)
        if not left or left[0] != ";":
            raise Refused("no ;")
        return left[1:], zone


def draw(b: Position, zone: set[int]) -> str:
    """The board, with the points of a zone in brackets."""
    size = b.size
    rows = []
    for row in range(size):
        points = range(row * size, (row + 1) * size)
        marks = ("[%s]" if p in zone else " %s " for p in points)
        rows.append(f"{size - row:3} " + "".join(m % ".XO"[b.cells[p]] for m, p in zip(marks, points)))
    return "\n".join(rows + ["    " + "".join(f" {go_rules.gtp.COLUMNS[c]} " for c in range(size))])


def main(size: str, black: str, white: str, kind: str, target: str, plies: str, wide: str, *kos: str) -> None:
    b = go_rules.empty(int(size))
    for colour, stones in ((go_rules.BLACK, black), (go_rules.WHITE, white)):
        for word in filter(None, stones.split(",")):
            b = go_rules.play(b, colour, go_rules.move_of(b.size, word).point)
    reading = Reading(b, go_rules.move_of(b.size, target).point, kos[2:] == ("wider",))
    ako, dko = map(int, kos[:2]) if kos else (0, 0)
    question = (b, kind == "attack", int(plies), int(wide), ako, dko)
    found = reading.write(*question)
    if not found:
        print("not surely captured")
        return
    print(" ".join(found[0]))
    left, zone = reading.check(*question, found[0])
    accepted = "accepted" if not left and zone == found[1] else "not accepted"
    print(f"{accepted}, {len(found[0])} words, {len(zone)} points")
    print(draw(b, zone))


if __name__ == "__main__":
    main(*sys.argv[1:])
