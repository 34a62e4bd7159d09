"""Asks gopat `connect` and `disconnect` about two stones on random boards of 5 to 7 lines, at 1 to 4 plies, and says
how many answers and moves differ from those of the plain reader in this file. It follows the definitions of
connections in docs/DEFINITIONS.md: every connecting move is tried in reading order, and nothing is remembered. gopat
may answer from what it has kept, as the same two stones are asked about again after more plays.

usage: python3 tools/compare_links.py GOPAT QUESTIONS [SEED]

The exit status is 1 where a reply differs.
"""

import random
from typing import Iterator, NamedTuple

import command_line
import gtp


class Board:
    """A board whose points are bits of a number, in reading order from the lowest on; a set of them is one too."""

    def __init__(self, size: int):
        self.size = size
        self.points = (1 << size * size) - 1
        self.first_column = sum(1 << row * size for row in range(size))
        self.last_column = self.first_column << size - 1

    def neighbours(self, some: int) -> int:
        """The points beside some point of the set."""
        right, left = (some & ~self.last_column) << 1, (some & ~self.first_column) >> 1
        return (right | left | some << self.size | some >> self.size) & self.points

    def string(self, stones: int, point: int) -> int:
        """The string of the point, among the stones of its colour."""
        string, wider = 0, point
        while wider != string:
            string, wider = wider, (wider | self.neighbours(wider)) & stones
        return string

    def bit(self, vertex: str) -> int:
        return 1 << (self.size - int(vertex[1:])) * self.size + gtp.COLUMNS.index(vertex[0])

    def vertex(self, point: int) -> str:
        row, column = divmod(point.bit_length() - 1, self.size)
        return f"{gtp.COLUMNS[column]}{self.size - row}"


def each(some: int) -> Iterator[int]:
    """The points of a set, in reading order."""
    while some:
        yield some & -some
        some &= some - 1


def is_one(some: int) -> bool:
    """Whether the set has exactly one point."""
    return some != 0 and some & (some - 1) == 0


class Ban(NamedTuple):
    point: int
    colour: str


class Position(NamedTuple):
    """The stones of both colours, and the ban of a ko."""

    board: Board
    black: int
    white: int
    ban: Ban | None = None

    def stones(self, colour: str) -> int:
        return self.black if colour == "b" else self.white

    def liberties(self, string: int) -> int:
        return self.board.neighbours(string) & ~(self.black | self.white)

    def passed(self) -> "Position":
        """The position after a pass, which ends the ban."""
        return self._replace(ban=None)

    def played(self, colour: str, point: int) -> "Position | None":
        """The position after a play, or none where the rules forbid it."""
        if (self.black | self.white) & point or self.ban == Ban(point, colour):
            return None
        put = self.holding(colour, self.stones(colour) | point, self.stones(other(colour)))
        taken = put.taken_beside(point, other(colour))
        after = put.holding(colour, put.stones(colour), put.stones(other(colour)) & ~taken)
        string = self.board.string(after.stones(colour), point)
        left = after.liberties(string)
        if not left:
            return None
        if is_one(taken) and is_one(string) and is_one(left):
            return after._replace(ban=Ban(taken, other(colour)))
        return after

    def holding(self, colour: str, own: int, others: int) -> "Position":
        """The board with these stones of the colour and of the other, without a ban."""
        return Position(self.board, own, others) if colour == "b" else Position(self.board, others, own)

    def taken_beside(self, point: int, colour: str) -> int:
        """The stones of the colour whose strings are beside the point and have no liberty."""
        beside = self.strings(self.board.neighbours(point), colour)
        return sum(string for string in beside if not self.liberties(string))

    def strings(self, some: int, colour: str) -> Iterator[int]:
        """The strings of the colour that have a stone in the set."""
        some &= self.stones(colour)
        while some:
            string = self.board.string(self.stones(colour), some & -some)
            yield string
            some &= ~string


def other(colour: str) -> str:
    return "w" if colour == "b" else "b"


class Link(NamedTuple):
    """Two points that are asked about, and the colour of their stones."""

    colour: str
    a: int
    b: int


def stand(link: Link, position: Position) -> bool:
    """Whether both points hold stones of the colour."""
    return position.stones(link.colour) & (link.a | link.b) == link.a | link.b


def are_one_string(link: Link, position: Position) -> bool:
    return position.board.string(position.stones(link.colour), link.a) & link.b != 0


def connecting_moves(link: Link, position: Position) -> int:
    """The points that a reading of two strings tries."""
    board, own = position.board, position.stones(link.colour)
    strings = board.string(own, link.a), board.string(own, link.b)
    of_a, of_b = map(position.liberties, strings)
    moves = of_a & of_b | of_a & board.neighbours(of_b) | of_b & board.neighbours(of_a)
    for liberties in (of_a, of_b):
        moves |= liberties if is_one(liberties) else 0
    enemies = other(link.colour)
    for string in position.strings(board.neighbours(strings[0] | strings[1]), enemies):
        last = position.liberties(string)
        moves |= last if is_one(last) else 0
    return moves


def plays(link: Link, is_own: bool, position: Position) -> Iterator[tuple[int, Position]]:
    """The legal connecting moves of the side whose turn it is, in reading order, and what each leads to."""
    colour = link.colour if is_own else other(link.colour)
    for point in each(connecting_moves(link, position)):
        new = position.played(colour, point)
        if new:
            yield point, new


def can_join(link: Link, is_own: bool, position: Position, plies: int) -> bool:
    """Whether the two strings can be joined, with so many plies left, at their own turn or the other colour's."""
    if not stand(link, position):
        return False
    if are_one_string(link, position):
        return True
    if plies == 0:
        return False
    if is_own:
        return any(can_join(link, False, new, plies - 1) for _, new in plays(link, True, position))
    return can_join(link, True, position.passed(), plies - 1) and all(
        can_join(link, True, new, plies - 1) for _, new in plays(link, False, position)
    )


def connect(link: Link, position: Position, plies: int) -> str:
    """The reply to `connect`."""
    if are_one_string(link, position):
        return "1 PASS"
    for point, new in plays(link, True, position):
        if can_join(link, False, new, plies - 1):
            return f"1 {position.board.vertex(point)}"
    return "0"


def disconnect(link: Link, position: Position, plies: int) -> str:
    """The reply to `disconnect`."""
    if are_one_string(link, position):
        return "0"
    if not can_join(link, True, position.passed(), plies - 1):
        return "1 PASS"
    for point, new in plays(link, False, position):
        if not can_join(link, True, new, plies - 1):
            return f"1 {position.board.vertex(point)}"
    return "0"


ANSWERS = {"connect": connect, "disconnect": disconnect}


class Asked(NamedTuple):
    """A protocol line and the reply that is right, with the position that it is asked on."""

    line: str
    reply: gtp.Reply
    position: Position | None = None


def question(kind: str, first: str, second: str, position: Position, plies: int) -> Asked:
    a, b = position.board.bit(first), position.board.bit(second)
    colours = ["b" if position.black & point else "w" if position.white & point else "" for point in (a, b)]
    if "" in colours:
        reply = gtp.Reply(False, "vertex must not be empty")
    elif colours[0] != colours[1]:
        reply = gtp.Reply(False, "colours differ")
    else:
        reply = gtp.Reply(True, ANSWERS[kind](Link(colours[0], a, b), position, plies))
    return Asked(f"{kind} {first} {second}", reply, position)


def pairs(choose: random.Random, vertices: list[str], position: Position) -> Iterator[tuple[str, str]]:
    """Some pairs of stones of one colour, a few that are one string already, and now and then any two points."""
    board = position.board
    for _ in range(5):
        stones = position.stones(choose.choice("bw"))
        if choose.random() < 0.03:
            yield choose.choice(vertices), choose.choice(vertices)
        elif stones:
            first, second = (choose.choice(list(each(stones))) for _ in range(2))
            if choose.random() < 0.1 or not board.string(stones, first) & second:
                yield board.vertex(first), board.vertex(second)


def game(choose: random.Random) -> Iterator[Asked]:
    """A position by random plays, the last of which may leave a ban, questions on it, and the same again after more."""
    board = Board(choose.choice([5, 6, 7]))
    vertices = gtp.vertices(board.size)
    position, plies = Position(board, 0, 0), choose.choice([1, 2, 3, 3, 4, 4])
    for line in (f"boardsize {board.size}", "clear_board", f"depths {plies} {choose.randint(0, 3)}"):
        yield Asked(line, gtp.Reply(True, ""))
    asked: list[tuple[str, str]] = []
    plays_before = choose.randint(len(vertices) // 3, len(vertices) * 3 // 2)
    for number in range(plays_before + 2):
        colour, vertex = choose.choice("bw"), choose.choice(vertices)
        new = position.played(colour, board.bit(vertex))
        yield Asked(f"play {colour} {vertex}", gtp.Reply(bool(new), "" if new else "illegal move"))
        position = new or position
        if number >= plays_before - 1:
            asked = asked or list(pairs(choose, vertices, position))
            for pair in asked:
                yield from (question(kind, *pair, position, plies) for kind in ANSWERS)


def drawn(position: Position) -> str:
    """The board in text, with the ban."""
    board = position.board
    marks = ["X" if position.black & point else "O" if position.white & point else "." for point in each(board.points)]
    rows = ["".join(marks[row * board.size : (row + 1) * board.size]) for row in range(board.size)]
    ban = f", {position.ban.colour} may not play {board.vertex(position.ban.point)}" if position.ban else ""
    return " / ".join(rows) + ban


def main(gopat: str, questions: str, seed: str = "1") -> int:
    choose = random.Random(int(seed))
    asked = yes = moves = refused = banned = differ = 0
    while asked < int(questions):
        lines = [line for _ in range(100) for line in game(choose)]
        replies, _ = gtp.session([gopat], [line.line for line in lines])
        depths = ""
        for line, reply in zip(lines, replies):
            depths = line.line if line.line.startswith("depths") else depths
            if reply != line.reply:
                differ += 1
                where = f", {depths}, {drawn(line.position)}" if line.position else ""
                print(f"{line.line}: {reply.text!r} and {line.reply.text!r}{where}")
            if line.position:
                asked += line.reply.ok
                refused += not line.reply.ok
                yes += line.reply.text.startswith("1")
                moves += line.reply.text.startswith("1") and not line.reply.text.endswith("PASS")
                banned += line.reply.ok and line.position.ban is not None
    print(f"{asked} questions, {yes} with yes, {moves} of these by a play, {banned} under a ban; {refused} refused")
    print(f"{differ} replies differ")
    return 1 if differ else 0


if __name__ == "__main__":
    command_line.run(main, __doc__)
