"""Searches small random positions for problems with exactly one answer, and writes each that it finds as a game record.

usage: python3 tools/make_problems.py GOPAT OUT [--number N] [--seed N] [--size N] [--stones LEAST:MOST]
           [--depths PLIES:WIDE] [--plies LEAST:MOST] [--kind KIND] [--theme WORD]

GOPAT is the program that is asked, best `gopat_wide`; OUT is a folder, which is made. Random stones (--stones 8:18) are
set in a part of a board (--size 7). About each string with at most three liberties it is asked whether it can be taken,
and whether it can be saved (--kind attack or defend asks one of these alone), at --depths 16:6. Kept is a question

- whose code is above 0, while the other side would have a code above 0 if it moved first, so that a move is needed;
- that takes at least and at most so many plies as --plies says (3:16): those of the capture, in a defence those of the
  one that threatens;
- for which, over every legal move and not only those that the reading tries, exactly one attains the code.

It is asked at no more than 8 plies, 4 of them wide, before it is asked at these depths. Then stones are taken off as
long as code, answer and fewest plies stay and the answer is the only one. A position that is another one turned,
mirrored or with the colours exchanged is left out. The side to move is made Black.

A record has the position, the question as a line `gopat:` (docs/USING.md, *Problem sets*), the solution as its main
line, and a wrong move with what refutes it as a variation. Its name is its theme, told by a few rules from the line of
play, and a number; with --theme only records of this theme are written. It ends after --number records (10). The same
words lead to the same records. What is found is only as true as the program's answers, and as pretty as chance makes
it: look at each record before it goes into a set.
"""

import argparse
import pathlib
import random
import sys
from typing import Iterator, NamedTuple

import asking
import command_line
import gtp
import positions
import solutions
from go_rules import BLACK, EMPTY, WHITE, Move, Position, other, string_at, vertex_of
from problems import Problem, legal_moves, told

# A position is asked at no more than so many plies, and so many wide ones, before it is asked at the depths wanted.
FIRST_PLIES, FIRST_WIDE = 8, 4
# A part of the board in which stones are set has at least so many rows and columns.
LEAST_PART = 4
MOST_LIBERTIES = 3


class Wanted(NamedTuple):
    """What is searched for."""

    size: int
    stones: tuple[int, int]
    depths: asking.Depths
    plies: tuple[int, int]
    kinds: list[str]


class Found(NamedTuple):
    """A problem with the code, the only move that attains it, and the fewest plies of the capture."""

    problem: Problem
    code: int
    move: Move
    plies: int


# Positions.


def random_position(chance: random.Random, wanted: Wanted) -> Position | None:
    """Stones of both colours in a part of an empty board; none if a string would have no liberty."""
    size = wanted.size
    rows, columns = (chance.randint(min(LEAST_PART, size), size) for _ in range(2))
    top, left = chance.randint(0, size - rows), chance.randint(0, size - columns)
    part = [(top + row) * size + left + column for row in range(rows) for column in range(columns)]
    cells = bytearray(size * size)
    for point in chance.sample(part, min(chance.randint(*wanted.stones), len(part) - 1)):
        cells[point] = chance.choice((BLACK, WHITE))
    position = Position(size, bytes(cells))
    return position if all(liberties for _, liberties in strings(position)) else None


def strings(position: Position) -> Iterator[tuple[int, set[int]]]:
    """The first stone of each string, and its liberties."""
    seen: set[int] = set()
    for point, cell in enumerate(position.cells):
        if cell != EMPTY and point not in seen:
            stones, liberties = string_at(position.size, position.cells, point)
            seen |= stones
            yield point, liberties


def turned(size: int, place: tuple[int, int], number: int) -> tuple[int, int]:
    """A place after one of the eight turns and mirror images."""
    row, column = place
    if number & 4:
        row, column = column, row
    return (size - 1 - row if number & 1 else row), (size - 1 - column if number & 2 else column)


def images(position: Position, target: int, is_swapped: bool) -> Iterator[tuple[bytes, int]]:
    """A position and its target after each turn and mirror image, with the colours exchanged if so."""
    size = position.size
    for number in range(8):
        cells, place = bytearray(size * size), 0
        for point, cell in enumerate(position.cells):
            row, column = turned(size, divmod(point, size), number)
            cells[row * size + column] = other(cell) if is_swapped and cell != EMPTY else cell
            place = row * size + column if point == target else place
        yield bytes(cells), place


def with_black_to_move(found: Found) -> Position:
    """The position with the colours exchanged if White is to move."""
    position = found.problem.situation.position
    if found.problem.mover() == BLACK:
        return position
    return position._replace(cells=bytes(other(cell) if cell != EMPTY else EMPTY for cell in position.cells))


# What is asked.


def problem_about(position: Position, kind: str, target: int, depths: asking.Depths) -> Problem:
    """The question about the string of a stone."""
    question = asking.Question(kind, vertex_of(position.size, target), depths)
    return Problem("", "", positions.set_up(position, []), question, [])


def asks_about(problem: Problem, kind: str, plies: int, wide: int) -> list[str]:
    """The lines that ask a question of this kind about a problem's string."""
    return [f"depths {plies} {wide}", f"{kind} {problem.question.vertex}"]


def code_of(reply: gtp.Reply) -> int:
    """The code of an answer."""
    if not reply.ok:
        raise asking.Refused(reply.text)
    return int(reply.text[0])


def codes(gopat: gtp.Running, problem: Problem) -> dict[str, int]:
    """Sets the position up, and asks both questions: the codes by the kind."""
    depths, kinds = problem.question.depths, ("attack", "defend")
    lines = [line for kind in kinds for line in asks_about(problem, kind, *depths[:2])]
    replies = gopat.ask_all([*problem.situation.lines, *lines])
    return dict(zip(kinds, (code_of(replies[-3]), code_of(replies[-1]))))


def capture_plies(gopat: gtp.Running, problem: Problem, code: int, most: int) -> int:
    """The fewest plies with which the attacker attains a code, above `most` if these are too few."""
    depths = problem.question.depths
    for plies in range(1, most + 1, 4):
        some = range(plies, min(plies + 4, most + 1))
        lines = [line for number in some for line in asks_about(problem, "attack", number, depths.wide)]
        for number, reply in zip(some, gopat.ask_all(lines)[1::2]):
            if code_of(reply) >= code:
                return number
    return most + 1


def only_move(gopat: gtp.Running, problem: Problem, code: int) -> Move | None:
    """The only legal move that attains the code; none if several do, or it is the pass."""
    (kind, vertex, depths), size = problem.question, problem.situation.position.size
    against = "defend" if kind == "attack" else "attack"
    moves, colour = list(legal_moves(problem)), positions.LETTERS[problem.mover()]
    told(gopat, f"depths {depths.plies - 1} {max(depths.wide - 1, 0)}")
    lines = [[f"play {colour} {vertex_of(size, move.point)}", f"{against} {vertex}", "undo"] for move in moves]
    replies = gopat.ask_all([line for three in lines for line in three])[1::3]
    found = [move for move, reply in zip(moves, replies) if not reply.ok or code_of(reply) <= 3 - code]
    return found[0] if len(found) == 1 and found[0].point is not None else None


def asked(gopat: gtp.Running, problem: Problem, plies: tuple[int, int]) -> Found | None:
    """The problem with its answer, if it is one that is kept."""
    found = codes(gopat, problem)
    if 0 in found.values():
        return None
    least = capture_plies(gopat, problem, found["attack"], plies[1])
    if not plies[0] <= least <= plies[1]:
        return None
    code = found[problem.question.kind]
    move = only_move(gopat, problem, code)
    return Found(problem, code, move, least) if move else None


def reduced(gopat: gtp.Running, found: Found, chance: random.Random) -> Found:
    """The problem without the stones that it does not need, looked at one after the other by chance."""
    target = found.problem.target()
    left = [point for point, cell in enumerate(found.problem.situation.position.cells) if cell != EMPTY]
    chance.shuffle(left)
    for point in left:
        if point == target:
            continue
        position, question = found.problem.situation.position, found.problem.question
        cells = bytearray(position.cells)
        cells[point] = EMPTY
        fewer = problem_about(position._replace(cells=bytes(cells)), question.kind, target, question.depths)
        again = asked(gopat, fewer, (found.plies, found.plies))
        if again and (again.code, again.move) == (found.code, found.move):
            found = again
    return found


def confirmed(gopat: gtp.Running, found: Found, wanted: Wanted) -> Found | None:
    """The problem asked at the depths wanted, with Black to move; none if its answer is another one there."""
    question = found.problem.question
    problem = problem_about(with_black_to_move(found), question.kind, found.problem.target(), wanted.depths)
    again = asked(gopat, problem, wanted.plies)
    return again if again and (again.code, again.move) == (found.code, found.move) else None


def search(gopat: gtp.Running, chance: random.Random, wanted: Wanted) -> Iterator[Found]:
    """The problems of random positions, without end."""
    seen: set[tuple[bytes, int, str]] = set()
    depths = wanted.depths
    first = depths._replace(plies=min(depths.plies, FIRST_PLIES), wide=min(depths.wide, FIRST_WIDE))
    while True:
        position = random_position(chance, wanted)
        for target, liberties in strings(position) if position else ():
            for kind in wanted.kinds if len(liberties) <= MOST_LIBERTIES else ():
                found = asked(gopat, problem_about(position, kind, target, first), wanted.plies)
                if not found:
                    continue
                found = reduced(gopat, found, chance)
                is_swapped = found.problem.mover() == WHITE
                image = *min(images(found.problem.situation.position, found.problem.target(), is_swapped)), kind
                again = None if image in seen else confirmed(gopat, found, wanted)
                seen.add(image)
                if again:
                    yield again


# The command.


def pair(word: str) -> tuple[int, int]:
    """The two numbers of a word such as `3:16`."""
    least, _, most = word.partition(":")
    return int(least), int(most)


def read_words(given: tuple[str, ...]) -> argparse.Namespace:
    words = argparse.ArgumentParser(usage=__doc__, add_help=False)
    words.add_argument("gopat")
    words.add_argument("out")
    words.add_argument("--number", type=int, default=10)
    words.add_argument("--seed", type=int, default=1)
    words.add_argument("--size", type=int, default=7)
    words.add_argument("--stones", type=pair, default=(8, 18))
    words.add_argument("--depths", default="16:6")
    words.add_argument("--plies", type=pair, default=(3, 16))
    words.add_argument("--kind", choices=("attack", "defend"))
    words.add_argument("--theme")
    return words.parse_args(given)


def main(*given: str) -> int:
    words = read_words(given)
    kinds = [words.kind] if words.kind else ["attack", "defend"]
    out, written = pathlib.Path(words.out), 0
    out.mkdir(parents=True, exist_ok=True)
    try:
        wanted = Wanted(words.size, words.stones, asking.depths_of(words.depths, True), words.plies, kinds)
        gopat = asking.running(words.gopat)
        for found in search(gopat, random.Random(words.seed), wanted):
            solution = solutions.solve(gopat, found.problem, found.code, found.move)
            if words.theme not in (None, solution.theme):
                continue
            written += 1
            path = out / f"{solution.theme}-{words.seed}-{written:03}.sgf"
            path.write_text(solutions.record(found.problem, found.code, solution), encoding="ascii")
            print(f"{path.name}: {found.problem.question.kind} {found.problem.question.vertex}, "
                  f"{solutions.in_words(solution, words.size)}, {found.plies} plies", flush=True)
            if written == words.number:
                break
        gopat.end()
    except (asking.Refused, gtp.Ended) as why:
        print(why or "gopat ended before it had answered", file=sys.stderr)
        return 2
    return 0


if __name__ == "__main__":
    command_line.run(main, __doc__)
