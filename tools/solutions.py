"""The solution of a problem with one answer as a line of play, a wrong move with its refutation, the theme of the line,
and all of it as a game record."""

import textwrap
from typing import NamedTuple

import gtp
import positions
import sgf
from go_rules import BLACK, EMPTY, Move, Position, captures, neighbours, other, string_at, vertex_of
from positions import Played, Situation
from problems import Problem, told

# A line of play is shown up to so many moves; of a defence so many tries of the attacker.
MOST_MOVES, MOST_TRIES = 21, 3
# A comment is broken into lines of so many letters.
COMMENT_COLUMNS = 100
# From so many moves in a row that put the target into atari on, a line is a ladder.
LEAST_ATARIS = 3


class Solution(NamedTuple):
    """The line of play, a wrong move and what refutes it, or nothing, and the theme."""

    line: list[Played]
    wrong: list[Played]
    theme: str


class Asked(NamedTuple):
    """What is asked in a line of play: of which program, the vertex of the string, its colour, and the wide plies."""

    gopat: gtp.Running
    vertex: str
    target: int
    defender: int
    wide: int

    def is_captured(self, position: Position) -> bool:
        return position.cells[self.target] == EMPTY

    def answer(self, kind: str, plies: int) -> tuple[int, str]:
        """The code and the move in the position in which the program is."""
        told(self.gopat, f"depths {plies} {min(self.wide, plies)}")
        words = told(self.gopat, f"{kind} {self.vertex}").split()
        return int(words[0]), words[1] if len(words) > 1 else ""

    def at(self, situation: Situation):
        """Sets up a position, and plays the moves behind it."""
        self.gopat.ask_all(situation.lines)


# The line of play.


def after(situation: Situation, colour: int, point: int | None) -> Situation | None:
    return situation.after(Played(colour, point))


def plies_to_capture(asked: Asked, situation: Situation, most: int, code: int) -> tuple[int, str] | None:
    """The fewest plies with which the attacker, to move, attains the code, and his move."""
    some = range(1, most + 1)
    depths = [f"depths {plies} {min(asked.wide, plies)}" for plies in some]
    questions = [line for depth in depths for line in (depth, f"attack {asked.vertex}")]
    replies = asked.gopat.ask_all([*situation.lines, *questions])[len(situation.lines) + 1 :: 2]
    for plies, reply in zip(some, replies):
        words = reply.text.split()
        if reply.ok and int(words[0]) >= code:
            return plies, words[1]
    return None


def near(asked: Asked, position: Position) -> set[int]:
    """The replies that a line shows: the liberties of the target and the empty points beside them, and where the
    defender takes a string that is next to it."""
    size = position.size
    stones, liberties = string_at(size, position.cells, asked.target)
    beside = {point for one in stones | liberties for point in neighbours(size)[one]}
    enemies = [point for point in beside if position.cells[point] == other(asked.defender)]
    takes = [string_at(size, position.cells, point)[1] for point in enemies]
    found = liberties | {point for point in beside if position.cells[point] == EMPTY}
    return found.union(*(points for points in takes if len(points) == 1))


def longest_reply(asked: Asked, situation: Situation, most: int, code: int) -> tuple[Situation, int, str] | None:
    """The defender's reply after which the attacker needs the most plies, with these and his move. Among equal ones a
    play at a liberty of the target comes first, and of these the one that leaves it the most liberties."""
    size, best, best_worth = situation.position.size, None, (-1, 0, 0)
    liberties = string_at(size, situation.position.cells, asked.target)[1]
    for point in sorted(near(asked, situation.position)):
        reply = after(situation, asked.defender, point)
        found = plies_to_capture(asked, reply, most, code) if reply else None
        if found is None:
            continue
        left = len(string_at(size, reply.position.cells, asked.target)[1])
        worth = found[0], int(point in liberties), left
        if worth > best_worth:
            best, best_worth = (reply, *found), worth
    return best


def captured_by(asked: Asked, situation: Situation, plies: int, code: int) -> list[Played]:
    """The line from a position, with the defender to move, up to the capture."""
    start = len(situation.moves)
    while not asked.is_captured(situation.position) and len(situation.moves) - start < MOST_MOVES and plies > 0:
        found = longest_reply(asked, situation, plies - 1, code)
        if not found:
            break
        situation, plies, move = found
        point = positions.point_named(situation.position, move)
        taken = after(situation, other(asked.defender), point)
        if taken is None:
            break
        situation = taken
    return situation.moves[start:]


def saved_by(asked: Asked, situation: Situation, plies: int) -> list[Played]:
    """Tries of the attacker, who is to move, that the defender has to answer, each with the answer."""
    start, tries = len(situation.moves), 0
    while tries < MOST_TRIES and plies > 2 and not asked.is_captured(situation.position):
        liberties = sorted(string_at(situation.position.size, situation.position.cells, asked.target)[1])
        found = next(filter(None, (forced(asked, situation, point, plies - 1) for point in liberties)), None)
        if not found:
            break
        situation, plies, tries = found, plies - 2, tries + 1
    return situation.moves[start:]


def forced(asked: Asked, situation: Situation, point: int, plies: int) -> Situation | None:
    """The position after the attacker's play and the defender's answer; none if he need not answer."""
    threat = after(situation, other(asked.defender), point)
    if threat is None:
        return None
    asked.at(threat)
    code, move = asked.answer("defend", plies)
    if code == 0 or move == "PASS":
        return None
    return after(threat, asked.defender, positions.point_named(threat.position, move))


def refuted(asked: Asked, problem: Problem, right: Move) -> list[Played]:
    """A wrong move at a liberty of the target, or near one, and what refutes it: a line that ends as the other side
    wants. Nothing if no such move has to be answered."""
    situation, size = problem.situation, problem.situation.position.size
    liberties = string_at(size, situation.position.cells, asked.target)[1]
    kind, plies = problem.question.kind, problem.question.depths.plies
    for point in sorted(near(asked, situation.position), key=lambda point: point not in liberties):
        wrong = after(situation, problem.mover(), point) if point != right.point else None
        if wrong is None or asked.is_captured(wrong.position):
            continue
        asked.at(wrong)
        code, answer = asked.answer("defend" if kind == "attack" else "attack", plies - 1)
        if code == 0 or answer == "PASS":
            continue
        point = positions.point_named(wrong.position, answer)
        refutation = after(wrong, other(problem.mover()), point)
        if refutation is None:
            continue
        rest = [] if kind == "attack" else captured_by(asked, refutation, plies - 2, code)
        return [*refutation.moves[len(situation.moves):], *rest]
    return []


def solve(gopat: gtp.Running, problem: Problem, code: int, move: Move) -> Solution:
    """The solution of a problem with one answer."""
    kind, vertex, depths = problem.question
    target = problem.target()
    asked = Asked(gopat, vertex, target, problem.situation.position.cells[target], depths.wide)
    first = after(problem.situation, problem.mover(), move.point)
    if kind == "attack":
        rest = captured_by(asked, first, depths.plies - 1, code)
    else:
        rest = saved_by(asked, first, depths.plies - 1)
    line = [Played(problem.mover(), move.point), *rest]
    wrong = refuted(asked, problem, move)
    return Solution(line, wrong, theme_of(problem, code, line))


# Themes.


def theme_of(problem: Problem, code: int, line: list[Played]) -> str:
    """The theme of a line, by the first rule that applies."""
    if code < 3:
        return f"ko-{code}"
    return theme_of_attack(problem, line) if problem.question.kind == "attack" else theme_of_defence(problem, line)


def liberties_in(position: Position, point: int) -> set[int]:
    return string_at(position.size, position.cells, point)[1]


def theme_of_attack(problem: Problem, line: list[Played]) -> str:
    """The theme of a capture."""
    before, target, answer = problem.situation, problem.target(), line[0].point
    first = before.after(line[0])
    if first.position.cells[target] == EMPTY:
        return "capture"
    if len(captures_of(before.position, line[0])) > 0:
        return "capture-beside"
    if len(liberties_in(first.position, answer)) == 1:
        return "snapback" if len(line) == 3 else "throw-in"
    ataris, joins, situation = 0, 0, before
    for move in line:
        if move.colour == problem.mover():
            situation = situation.after(move)
            is_there = situation.position.cells[target] != EMPTY
            ataris += is_there and len(liberties_in(situation.position, target)) == 1
        else:
            stones = len(string_at(before.position.size, situation.position.cells, target)[0])
            situation = situation.after(move)
            joins += len(string_at(before.position.size, situation.position.cells, target)[0]) > stones + 1
    is_liberty = answer in liberties_in(before.position, target)
    if is_liberty and joins:
        return "connect-and-die"
    if is_liberty and ataris >= LEAST_ATARIS and ataris >= len(line) // 2:
        return "ladder"
    if is_liberty:
        return "shortage" if len(liberties_in(first.position, target)) > 1 else "atari"
    return "protect" if joins_own(before.position, line[0]) else "net"


def theme_of_defence(problem: Problem, line: list[Played]) -> str:
    """The theme of a rescue."""
    before, target, answer = problem.situation, problem.target(), line[0].point
    if captures_of(before.position, line[0]):
        return "save-by-capture"
    first = before.after(line[0]).position
    stones = string_at(first.size, first.cells, target)[0]
    if answer in stones:
        is_join = len(stones) > len(string_at(first.size, before.position.cells, target)[0]) + 1
        return "save-by-connection" if is_join else "save-by-extension"
    return "save-by-threat"


def captures_of(position: Position, move: Played) -> set[int]:
    """What a move takes."""
    cells = bytearray(position.cells)
    cells[move.point] = move.colour
    return captures(position.size, bytes(cells), move.point)


def joins_own(position: Position, move: Played) -> bool:
    """Whether a move is beside a stone of its own colour that has at most two liberties."""
    cells = bytearray(position.cells)
    cells[move.point] = move.colour
    beside = string_at(position.size, bytes(cells), move.point)[0] - {move.point}
    return any(len(liberties_in(position, stone)) <= 2 for stone in beside)


# As a record.


def move_sgf(size: int, move: Played, comment: str = "") -> str:
    """A node with a move."""
    said = f"C[{sgf.escaped(comment)}]" if comment else ""
    return f";{'BW'[move.colour - BLACK]}[{sgf.point_at(move.point, size)}]{said}"


def line_sgf(size: int, line: list[Played], comment: str) -> str:
    """The nodes of a line, the last with a comment."""
    last = len(line) - 1
    return "".join(move_sgf(size, move, comment if at == last else "") for at, move in enumerate(line))


def question_line(problem: Problem, code: int, move: Move) -> str:
    """The line that asks for exactly this answer."""
    kind, vertex, depths = problem.question
    answer = vertex_of(problem.situation.position.size, move.point)
    return f"gopat: {kind} {vertex} depths {depths.plies} {depths.wide} answer {answer} code {code} only"


def first_words(problem: Problem) -> str:
    """What is to be done."""
    mover, vertex = positions.NAMES[problem.mover()], problem.question.vertex
    return f"{mover} to {'take' if problem.question.kind == 'attack' else 'save'} the string at {vertex}."


def record(problem: Problem, code: int, solution: Solution, words: str = "", chapter: str = "") -> str:
    """The record of a problem, with what it teaches, and the chapter of a set in which it stands."""
    position = problem.situation.position
    said = textwrap.fill(words or first_words(problem), COMMENT_COLUMNS)
    comment = f"{said}\n{question_line(problem, code, Move(solution.line[0].point))}"
    colour = "BW"[problem.mover() - BLACK]
    target = sgf.point_at(problem.target(), position.size)
    named = f"GN[{sgf.escaped(chapter or solution.theme)}]"
    stones = positions.set_up_sgf(position)
    head = f"(;GM[1]FF[4]CA[UTF-8]SZ[{position.size}]{named}{stones}PL[{colour}]TR[{target}]"
    main = line_sgf(position.size, solution.line, "RIGHT")
    wrong = line_sgf(position.size, solution.wrong, "WRONG")
    branches = f"({main})\n({wrong})" if wrong else main
    return f"{head}\nC[{sgf.escaped(comment)}]\n{branches})\n"


def in_words(solution: Solution, size: int) -> str:
    """The line."""
    return " ".join(vertex_of(size, move.point) for move in solution.line)
