"""The tree of a reading, and what the words of a printed proof prove in it: the candidates of docs/DEFINITIONS.md and
the rules of docs/PROOFS_OF_READINGS.md. It asks no program."""

import functools
from typing import Iterable, Iterator, NamedTuple

from go_rules import EMPTY, KEPT, Move, Position, move_of, neighbours, other, play_free, string_at, vertex_of

# The tree.


@functools.lru_cache(KEPT)
def liberties_of(position: Position, point: int) -> int:
    """How many liberties the string at a point has."""
    return len(string_at(position.size, position.cells, point)[1])


class Depths(NamedTuple):
    """Plies, wide plies among them, and whether the tree is the wider one."""

    plies: int
    wide: int
    is_wider: bool = False


class Node(NamedTuple):
    """A position, whose turn it is, the plies and wide plies that are left, the tree, and the ko allowances."""

    position: Position
    target: int
    defender: int
    is_attackers: bool
    plies: int
    wide: int
    is_wider: bool
    attacker_ko: int
    defender_ko: int

    def liberties(self) -> int:
        return liberties_of(self.position, self.target)

    def candidates(self) -> list[int]:
        found = candidates(self.position, self.target, self.wide > 0)
        if not self.is_wider:
            return found
        return sorted({*found, *further(self.position, self.target, self.is_attackers, self.wide > 0)})

    def is_captured(self) -> bool:
        return self.position.cells[self.target] == EMPTY

    def has_lost_one_stone(self) -> bool:
        """Whether the defender is to play in the wider tree and has just lost a lone stone: the target's point is
        empty, and each neighbour of it holds a stone of the attacker."""
        if not self.is_wider or self.is_attackers or not self.is_captured():
            return False
        size, cells, _ = self.position
        return all(cells[near] == other(self.defender) for near in neighbours(size)[self.target])


class String(NamedTuple):
    """The stones of a string, and its liberties."""

    stones: set[int]
    liberties: set[int]


def strings_beside(size: int, cells: bytes, points: set[int], colour: int) -> Iterator[String]:
    """The strings of a colour that are next to these points."""
    beside = {near for point in points for near in neighbours(size)[point] if cells[near] == colour}
    while beside:
        string = String(*string_at(size, cells, min(beside)))
        beside -= string.stones
        yield string


def all_liberties(strings: Iterable[String], most: int, least: int = 0) -> set[int]:
    """The liberties of those of these strings that have at least and at most so many."""
    return {point for string in strings if least <= len(string.liberties) <= most for point in string.liberties}


def last_liberties_of(size: int, cells: bytes, points: set[int], colour: int) -> set[int]:
    """The one liberty of each string of a colour next to these points that has exactly one."""
    return all_liberties(strings_beside(size, cells, points, colour), 1)


def last_liberties(size: int, cells: bytes, stones: set[int]) -> set[int]:
    """The one liberty of each enemy string next to these stones that has exactly one."""
    return last_liberties_of(size, cells, stones, other(cells[min(stones)]))


def empty_beside(size: int, cells: bytes, points: set[int]) -> set[int]:
    return {near for point in points for near in neighbours(size)[point] if cells[near] == EMPTY}


def backfilling(position: Position, attacker: int, liberties: set[int]) -> set[int]:
    """Where the attacker's stone at one of these liberties would have its only liberty, if this was empty before."""
    found: set[int] = set()
    for liberty in liberties:
        after = play_free(position, attacker, liberty)
        left = string_at(after.size, after.cells, liberty)[1] if after else set()
        found |= {point for point in left if len(left) == 1 and position.cells[point] == EMPTY}
    return found


@functools.lru_cache(KEPT)
def candidates(position: Position, target: int, is_wide: bool) -> list[int]:
    """The points that are tried where the target stands and a wide ply is left or not, in reading order."""
    size, cells = position.size, position.cells
    stones, liberties = string_at(size, cells, target)
    found = liberties | last_liberties(size, cells, stones)
    if is_wide:
        found |= backfilling(position, other(cells[target]), liberties)
        if len(liberties) <= 2:
            found |= empty_beside(size, cells, liberties)
    return sorted(found)


@functools.lru_cache(KEPT)
def further(position: Position, target: int, is_attackers: bool, is_wide: bool) -> set[int]:
    """What the wider tree tries besides, where the target stands and a wide ply is left or not."""
    size, cells = position.size, position.cells
    string = String(*string_at(size, cells, target))
    beside = list(enemies_beside(size, cells, string))
    found = rescue(size, cells, string, beside)
    if is_attackers:
        found |= all_liberties(beside, 2)
        if is_wide:
            found |= net(size, cells, string) | all_liberties(linked(size, cells, string), 2)
        return found
    friends = [friend for friend in linked(size, cells, string) if len(friend.liberties) <= 4]
    found |= cut(size, cells, friends)
    if is_wide:
        found |= all_liberties(beside, 4) | all_liberties(friends, 4)
        found |= empty_beside(size, cells, all_liberties(beside, 3, least=2))
        found |= approach(size, cells, cells[target], all_liberties(beside, 2))
    return found


def enemies_beside(size: int, cells: bytes, string: String) -> Iterator[String]:
    """The enemy strings next to a string."""
    return strings_beside(size, cells, string.stones, other(cells[min(string.stones)]))


def net(size: int, cells: bytes, string: String) -> set[int]:
    """The empty neighbours of the liberties of a target that has exactly three."""
    return empty_beside(size, cells, string.liberties) if len(string.liberties) == 3 else set()


def rescue(size: int, cells: bytes, string: String, beside: list[String]) -> set[int]:
    """The last liberties of strings of the target's colour, but for its own, that are next to one of these enemies with
    at most two liberties."""
    weak = [enemy for enemy in beside if len(enemy.liberties) <= 2]
    allies = [ally for enemy in weak for ally in enemies_beside(size, cells, enemy) if ally.stones != string.stones]
    return all_liberties(allies, 1)


def linked(size: int, cells: bytes, string: String) -> Iterator[String]:
    """The strings of the target's colour, but for its own, next to its liberties."""
    for friend in strings_beside(size, cells, string.liberties, cells[min(string.stones)]):
        if friend.stones != string.stones:
            yield friend


def cut(size: int, cells: bytes, friends: list[String]) -> set[int]:
    """The last liberties of enemy strings next to one of these linked strings."""
    return all_liberties((enemy for friend in friends for enemy in enemies_beside(size, cells, friend)), 1)


def is_cramped(size: int, cells: bytes, colour: int, point: int) -> bool:
    """Whether a stone of the colour at an empty point would take nothing and have at most one liberty, or none."""
    if point in last_liberties_of(size, cells, {point}, other(colour)):
        return False
    reached = empty_beside(size, cells, {point})
    reached |= {free for friend in strings_beside(size, cells, {point}, colour) for free in friend.liberties}
    return len(reached - {point}) <= 1


def approach(size: int, cells: bytes, colour: int, liberties: set[int]) -> set[int]:
    """The liberties of enemy strings with at most two next to one of these liberties where a stone would be cramped."""
    found: set[int] = set()
    for liberty in liberties:
        if is_cramped(size, cells, colour, liberty):
            found |= all_liberties(strings_beside(size, cells, {liberty}, other(colour)), 2)
    return found


def next_node(node: Node, position: Position, attacker_ko: int, defender_ko: int) -> Node:
    """The node after a move to this position, with these allowances left."""
    turn, plies, wide = not node.is_attackers, node.plies - 1, max(node.wide - 1, 0)
    return Node(position, node.target, node.defender, turn, plies, wide, node.is_wider, attacker_ko, defender_ko)


def passed(node: Node) -> Node:
    return next_node(node, node.position._replace(ban=None), node.attacker_ko, node.defender_ko)


def mover(node: Node) -> int:
    """The colour of the side to play."""
    return other(node.defender) if node.is_attackers else node.defender


def played(node: Node, point: int) -> Node | None:
    """The node after a play at a candidate; none where it cannot be played."""
    colour = mover(node)
    attacker_ko, defender_ko = node.attacker_ko, node.defender_ko
    if node.position.ban == (point, colour):
        if (attacker_ko if node.is_attackers else defender_ko) == 0:
            return None
        attacker_ko -= node.is_attackers
        defender_ko -= not node.is_attackers
    position = play_free(node.position, colour, point)
    return next_node(node, position, attacker_ko, defender_ko) if position else None


def taking_back(node: Node) -> Node | None:
    """The node after the defender takes back the lone stone that he has just lost; none where he cannot."""
    return played(node, node.target) if node.has_lost_one_stone() else None


def children(node: Node) -> Iterator[tuple[Move, Node]]:
    """Each move that a side has at a node, the pass first, with the node that it leads to."""
    if not node.is_attackers:
        yield Move(None), passed(node)
    for point in node.candidates():
        child = played(node, point)
        if child:
            yield Move(point), child


# What words prove.


# A tab counts as a blank, and other control bytes are dropped.
CLEANED = {**dict.fromkeys([*range(32), 127]), ord("\t"): " "}


def words_of(text: str) -> list[str]:
    return [word for word in text.translate(CLEANED).split(" ") if word]


def has_too_many(node: Node) -> bool:
    """Whether the target has too many liberties for the plies that are left."""
    liberties = node.liberties()
    if node.is_attackers:
        return liberties > (node.plies + 1) // 2 or is_out_of_reach(node, liberties)
    return liberties > node.plies // 2


def is_out_of_reach(node: Node, liberties: int) -> bool:
    """Whether the attacker may not play at a target with so many liberties."""
    return liberties > 4 or (node.wide == 0 and not node.is_wider and liberties > 2)


def is_settled(node: Node, claim: str) -> bool:
    """Whether `.` proves the claim."""
    if node.is_captured():
        if taking_back(node) is None:
            return claim == "W"
        return claim == "N" and node.plies == 0
    return claim == "N" and (node.plies == 0 or has_too_many(node))


def child_by(node: Node, move: Move) -> Node | None:
    """The node after a move that may prove what the side to play wants, or after the only one, by which the defender
    takes back; none where it may not."""
    if node.is_captured():
        return taking_back(node) if move.point == node.target else None
    if move.point is None:
        return None if node.is_attackers else passed(node)
    if node.is_attackers and is_out_of_reach(node, node.liberties()):
        return None
    return played(node, move.point) if move.point in node.candidates() else None


class Step(NamedTuple):
    """A node of a proof: its word, and each move that the word stands for with the step behind it."""

    node: Node
    word: str
    behind: tuple[tuple[Move, "Step"], ...] = ()


def proved(node: Node, claim: str, words: list[str], at: int) -> tuple[Step, int] | None:
    """The proof of the claim that begins at this word, and where the words go on behind it; none where none does."""
    word = words[at] if at < len(words) else ""
    if word == ".":
        return (Step(node, word), at + 1) if is_settled(node, claim) else None
    if node.plies == 0:
        return None
    is_wanted = node.is_captured() or (claim == "W") == node.is_attackers
    if word == "*":
        return None if is_wanted else each_proved(node, claim, words, at + 1)
    move = move_of(node.position.size, word)
    child = child_by(node, move) if move and is_wanted else None
    found = proved(child, claim, words, at + 1) if child else None
    return (Step(node, word, ((move, found[0]),)), found[1]) if found else None


def each_proved(node: Node, claim: str, words: list[str], at: int) -> tuple[Step, int] | None:
    """Proofs of the claim behind each move, and where the words go on behind them; none where one is missing."""
    behind: list[tuple[Move, Step]] = []
    for move, child in children(node):
        found = proved(child, claim, words, at)
        if found is None:
            return None
        behind.append((move, found[0]))
        at = found[1]
    return Step(node, "*", tuple(behind)), at


class Part(NamedTuple):
    """What a proof says under the ko allowances of one code: the claim, and the step at the first node."""

    code: int
    claim: str
    first: Step


def first_node(position: Position, kind: str, target: int, depths: Depths, code: int) -> Node:
    """The node at which the question begins under the allowances of a code."""
    asked, opposed = int(code == 1), int(code == 3)
    attacker_ko, defender_ko = (asked, opposed) if kind == "attack" else (opposed, asked)
    defender = position.cells[target]
    return Node(position, target, defender, kind == "attack", *depths, attacker_ko, defender_ko)


def parts_of(
    position: Position, kind: str, vertex: str, depths: Depths, code: int, tokens: list[str]
) -> list[Part] | None:
    """The parts of a proof of the code of a question about the stone at a vertex, `attack` or `defend`, with these
    plies and wide plies; none where the words are no such proof."""
    move = move_of(position.size, vertex)
    if move is None or move.point is None or position.cells[move.point] == EMPTY:
        raise ValueError(f"no stone stands at {vertex}")
    at, parts = 0, []
    for level in range(3, max(code, 1) - 1, -1):
        claim = "W" if (kind == "attack") == (level == code) else "N"
        if tokens[at : at + 1] != [claim]:
            return None
        found = proved(first_node(position, kind, move.point, depths, level), claim, tokens, at + 1)
        if found is None:
            return None
        parts.append(Part(level, claim, found[0]))
        at = found[1]
    return parts if at == len(tokens) else None


def check(
    position: Position, kind: str, vertex: str, depths: Depths, code: int, tokens: list[str]
) -> bool:
    """Whether the words are a proof of the code of such a question."""
    return parts_of(position, kind, vertex, depths, code, tokens) is not None


# The same in words.


def side_of(node: Node) -> str:
    """The side to play."""
    return "attacker" if node.is_attackers else "defender"


def counted(number: int, noun: str) -> str:
    """A number with its noun, as `1 ply` or `2 plies`."""
    plural = noun[:-1] + "ies" if noun.endswith("y") else noun + ("es" if noun.endswith("h") else "s")
    return f"{number} {noun if number == 1 else plural}"


def reason(node: Node) -> str:
    """Why `.` stands at a node: the first rule of docs/PROOFS_OF_READINGS.md that says so."""
    target = vertex_of(node.position.size, node.target)
    if node.is_captured():
        if taking_back(node):
            return f"{target} is empty, but the defender can take back, and no ply is left."
        return f"{target} is empty: the string is captured."
    if node.plies == 0:
        return f"{target} still stands, and no ply is left."
    liberties, half = node.liberties(), (node.plies + int(node.is_attackers)) // 2
    head = f"The string at {target} has {counted(liberties, 'liberty')}"
    if liberties > half:
        plays = {0: "does not play", 1: "plays once", 2: "plays twice"}.get(half, f"plays {half} times")
        return f"{head}; with {counted(node.plies, 'ply')} left the attacker {plays}."
    if liberties > 4:
        return f"{head}; against more than 4 the attacker tries nothing."
    return f"{head}; with no wide ply left the attacker tries nothing against more than 2."


def claim_in_words(kind: str, part: Part) -> str:
    """What a part claims, as `the attacker captures it, though the defender may ignore a ko ban once`."""
    asked, opposed = ("attacker", "defender") if kind == "attack" else ("defender", "attacker")
    told = "captures it" if part.claim == "W" else "does not capture it"
    ko = {3: f"if the {opposed} may ignore a ko ban once", 1: f"if the {asked} may ignore a ko ban once"}
    return f"the attacker {told} {ko.get(part.code, 'if nobody may ignore a ko ban')}"


def behind_in_words(step: Step) -> str:
    """What stands behind a step: why it is settled, that each move is tried, or that the defender takes back; nothing
    at any other move of the proof."""
    if step.word == ".":
        return reason(step.node)
    if step.node.is_captured():
        return f"{vertex_of(step.node.position.size, step.node.target)} is empty, and the defender takes back:"
    if step.word != "*":
        return ""
    side = side_of(step.node)
    if not step.behind:
        return f"The {side} has no move to try."
    return f"Each move that the {side} tries{'' if step.node.is_attackers else ', and the pass'}:"


# Looking at proofs.


def shape(step: Step) -> tuple:
    """The words and moves of a proof without its nodes."""
    return step.word, tuple((move, shape(behind)) for move, behind in step.behind)


def grouped(parts: list[Part]) -> list[list[Part]]:
    """The parts, where those that follow each other and have the same claim and the same moves stand together."""
    groups: list[list[Part]] = []
    for part in parts:
        last = groups[-1][-1] if groups else None
        if last and last.claim == part.claim and shape(last.first) == shape(part.first):
            groups[-1].append(part)
        else:
            groups.append([part])
    return groups


def shortest(step: Step) -> list[tuple[Move, Step]]:
    """The moves of a shortest line to where a proof ends, the first in order of these, each with the step behind it."""
    lines = [[(move, behind), *shortest(behind)] for move, behind in step.behind]
    return min(lines, key=len, default=[])


def is_against_ban(node: Node, move: Move) -> bool:
    """Whether a move of the side to play uses up its allowance to ignore the ko ban."""
    return move.point is not None and node.position.ban == (move.point, mover(node))


def words_below(step: Step) -> int:
    """How many nodes a proof has from this step on."""
    return 1 + sum(words_below(behind) for _, behind in step.behind)
