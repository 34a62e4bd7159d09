"""Writes a page of problems: for each the board, the question, what gopat answers, and the proof as a tree that folds.

usage: python3 tools/problem_page.py OBJECTS > OUT.html

OBJECTS is a file with what `check_problems --json` printed (docs/FORMATS.md, *Problem sets*), or `-` for standard
input, so that a page is made by

    check_problems --tree wider --anywhere --proof --json FOLDER | python3 tools/problem_page.py - > OUT.html

The script runs where check_problems did: it reads the records that the objects name, for the position and the comment
of the first node. With --anywhere the moves are all legal moves that attain the code, also those that the reading does
not try, and without it those that it tries. Without --proof there are no proofs.

On the board the string asked about has a triangle. Green is a move that attains the code; red is another one that the
reading tries, or that the record expects. A proof has a board for each move; of a long one only so many moves are shown
as fit into 20,000 bytes, so that the page stays small, and proof_as_sgf.py writes them all.

The page tells each problem's verdict, and the same is printed on standard error. The exit status is 1 if something is
not as expected, or a proof proves nothing, and 2 if the words cannot be taken, or there is no object of a record.
"""

import html
import json
import os
import pathlib
import sys
from typing import NamedTuple

import asking
import board_picture
import command_line
import html_page
import positions
import sgf
from go_rules import EMPTY, Position, vertex_of
from problems import Problem, legal_moves
from proof_tree import (
    Depths, Part, Step, behind_in_words, claim_in_words, counted, first_node, grouped, mover, parts_of, words_below
)

PROOF_BYTES = 20_000
MOST_NAMES, MOST_IN_ROW = 40, 4


# What check_problems told.


class Answer(NamedTuple):
    """What was found of a problem: the code, the moves that attain it, whether every legal move was judged, the fewest
    plies for it, the verdict in words, and the proof: none if it was not asked for, or is too long."""

    code: int
    moves: list[str]
    is_anywhere: bool
    plies: int | None
    verdict: str
    proof: str | None
    is_too_long: bool

    def is_right(self) -> bool:
        return self.verdict == "as expected"


def said(told: dict) -> str:
    """The verdict of an object, in words."""
    return f"{told['verdict']}: {told['why']}" if "why" in told else told["verdict"]


def problem_of(told: dict, name: str) -> Problem:
    """The problem of an object, with the position and the comment of its record."""
    root = sgf.tree(pathlib.Path(told["record"]).read_bytes().decode("utf-8", "replace"))
    situation = positions.after_node(positions.first(positions.size_of(root)), root)
    depths = Depths(told["plies"], told["wide"], told["tree"] == "wider")
    question = asking.Question(told["kind"], told["target"], depths)
    return Problem(name, "\n".join(root.texts("C")).strip(), situation, question, told["expected"] or [])


def answer_of(told: dict) -> Answer:
    """What an object says of the answer."""
    is_anywhere, proof = told["scope"] == "anywhere", told.get("proof")
    is_too_long = "proof" in told and proof is None
    return Answer(told["code"], told["moves"], is_anywhere, told["fewest"], said(told), proof, is_too_long)


def short_names(told: list[dict]) -> list[str]:
    """The names of the records, without the folder in which all of them are."""
    folder = os.path.commonpath([os.path.dirname(one["record"]) or "." for one in told])
    return [os.path.relpath(one["record"], folder) for one in told]


# The page.


STYLE = """
.said{white-space:pre-line}
""".strip()


class Tree:
    """The proof of a problem as HTML that folds."""

    def __init__(self, problem: Problem, grids: board_picture.Grids, name: str):
        position = problem.situation.position
        stones = [point for point, cell in enumerate(position.cells) if cell != EMPTY]
        self.grids, self.name = grids, f"{name}-stones"
        self.frame = board_picture.around(position.size, stones, 2)
        self.before = board_picture.of_position(position, self.frame)

    def ground(self) -> str:
        """The grid with the stones of the problem, which most boards of the proof have below their own."""
        inner = self.grids.use(self.before.grid) + board_picture.inner_svg(self.before)
        return f'<svg width="0" height="0" style="position:absolute"><defs><g id="{self.name}">{inner}</g></defs></svg>'

    def board(self, position: Position, last: int | None) -> str:
        """The board after a move."""
        picture = board_picture.of_position(position, self.frame)
        spot = None if last is None else self.frame.spot(last)
        if spot:
            picture.marks[spot] = "last"
        ground, before = "", self.before.stones
        if all(picture.stones.get(spot) == stone for spot, stone in before.items()):
            ground = f'<use href="#{self.name}"/>'
            picture.stones = {spot: stone for spot, stone in picture.stones.items() if spot not in before}
        return board_picture.svg(picture, 14, self.grids, ground)

    def steps(self, step: Step, levels: int) -> str:
        """The moves behind a step, so many levels of them."""
        if step.behind and levels == 0:
            return f'<div class="leaf">{counted(words_below(step), "word")} of the proof left out here.</div>'
        size, name = step.node.position.size, positions.NAMES[mover(step.node)]
        text = ""
        for move, behind in step.behind:
            board = self.board(behind.node.position, move.point)
            head = f"{name} passes" if move.point is None else f"{name} {vertex_of(size, move.point)}"
            text += f"<details><summary>{head}</summary>{board}{self.below(behind, levels - 1)}</details>"
        return text

    def below(self, step: Step, levels: int) -> str:
        """What stands behind a step in words, and its moves."""
        words = behind_in_words(step)
        return (f'<div class="leaf">{html.escape(words)}</div>' if words else "") + self.steps(step, levels)


def part_html(tree: Tree, kind: str, group: list[Part], levels: int) -> str:
    """The parts of a proof that have the same moves."""
    claims = "".join(f"<p>Code {part.code}: {claim_in_words(kind, part)}.</p>" for part in group)
    return claims + tree.below(group[-1].first, levels)


def proof_html(problem: Problem, answer: Answer, tree: Tree) -> str:
    """The proof as it folds, with as many moves one behind the other as there is room for."""
    words = answer.proof.split()
    kind, vertex, depths = problem.question
    parts = parts_of(problem.situation.position, kind, vertex, depths, answer.code, words)
    if parts is None:
        raise NoProof(f"{problem.name}: the words do not prove code {answer.code}")
    groups, shown = grouped(parts), ""
    for levels in range(depths.plies + 1):
        deeper = "".join(part_html(tree, kind, group, levels) for group in groups)
        if shown and len(deeper) > PROOF_BYTES:
            break
        shown = deeper
    return f"<details><summary>The proof, {counted(len(words), 'word')}</summary>{tree.ground()}{shown}</details>"


class NoProof(Exception):
    """What was printed as a proof proves nothing. The text says of which problem."""


def tried(problem: Problem) -> list[str]:
    """The points that the reading tries first."""
    kind, _, depths = problem.question
    node = first_node(problem.situation.position, kind, problem.target(), depths, 2)
    return [vertex_of(problem.situation.position.size, point) for point in node.candidates()]


def board_html(problem: Problem, answer: Answer, grids: board_picture.Grids) -> str:
    """The board of a problem with its target, and the moves in green and red."""
    position = problem.situation.position
    frame = board_picture.whole(position.size)
    picture = board_picture.of_position(position, frame)
    picture.marks[frame.spot(problem.target())] = "triangle"
    for names, mark in (([*tried(problem), *problem.expected], "bad"), (answer.moves, "good")):
        points = [positions.point_named(position, name) for name in names if name != "PASS"]
        picture.marks.update({frame.spot(point): mark for point in points if position.cells[point] == EMPTY})
    return board_picture.svg(picture, 24 if position.size <= 13 else 17, grids)


def named(moves: list[str], most: int) -> str:
    """So many of some moves, and how many there are besides."""
    rest = f" and {len(moves) - most} more" if len(moves) > most else ""
    return (" ".join(moves[:most]) or "none") + rest


def in_words(problem: Problem, answer: Answer) -> str:
    """The question and what gopat answers."""
    kind, vertex, depths = problem.question
    wide = f"{counted(depths.plies, 'ply')} of which {depths.wide} are wide"
    head = f"{positions.NAMES[problem.mover()]} to move: <b>{kind} {vertex}</b>, {wide}. "
    if answer.code == 0:
        return f"{head}gopat answers <b>0</b>: not at these depths."
    legal = sum(1 for _ in legal_moves(problem))
    each = f"each of the {legal} legal moves" if len(answer.moves) == legal else named(answer.moves, MOST_NAMES)
    return (
        f"{head}gopat answers <b>{answer.code}</b>; fewest plies for this code: {answer.plies}. "
        f"It is attained by {each}{'' if answer.is_anywhere else ', of the moves that the reading tries'}."
    )


def section(problem: Problem, answer: Answer, name: str, grids: board_picture.Grids) -> str:
    """A problem on the page."""
    lines = [
        f"<h2>{html.escape(problem.name)}</h2>",
        f'<p class="said">{html.escape(problem.comment)}</p>' if problem.comment else "",
        f"<p>{in_words(problem, answer)}</p>",
        f'<p class="{"yes" if answer.is_right() else "no"}">{html.escape(answer.verdict)}</p>',
    ]
    proof = "<p>The proof is too long.</p>" if answer.is_too_long else ""
    if answer.proof is not None:
        proof = proof_html(problem, answer, Tree(problem, grids, name))
    board = board_html(problem, answer, grids)
    return f'<section id="{name}"><div>{board}</div><div>{"".join(lines)}{proof}</div></section>'


def table_row(problem: Problem, answer: Answer, name: str) -> str:
    """A problem in the table at the beginning."""
    status = f'<span class="{"yes" if answer.is_right() else "no"}">{html.escape(answer.verdict)}</span>'
    link = f'<a href="#{name}">{html.escape(problem.name)}</a>'
    question = f"{problem.question.kind} {problem.question.vertex}"
    plies = str(answer.plies) if answer.code else ""
    moves = named(answer.moves, MOST_IN_ROW) if answer.code else ""
    return board_picture.row([link, question, str(answer.code), moves, plies, status])


def page(asked: list[tuple[Problem, Answer]], without: list[str]) -> str:
    """The whole page."""
    grids = board_picture.Grids()
    names = [f"p{number}" for number in range(len(asked))]
    sections = [section(*one, name, grids) for one, name in zip(asked, names)]
    rows = "".join(table_row(*one, name) for one, name in zip(asked, names))
    heads = "".join(f"<th>{head}</th>" for head in ("problem", "question", "code", "moves", "plies", "verdict"))
    table = f'<div class="wide"><table><tr>{heads}</tr>{rows}</table></div>'
    told_none = [f"<p>{html.escape(line)}</p>" for line in without]
    legend = '<p class="soft">The triangle is the string asked about; green attains the code, red does not.</p>'
    style = f"{board_picture.STYLE}\n{STYLE}"
    return html_page.page("Problems", style, [grids.definitions(), table, *told_none, legend, *sections])


# The command.


def objects_in(words: str) -> list[dict]:
    """The objects of a file, or of standard input."""
    text = sys.stdin.read() if words == "-" else pathlib.Path(words).read_text(encoding="utf-8")
    told = [json.loads(line) for line in text.splitlines()]
    if not told or any("verdict" not in one for one in told):
        raise ValueError(f"{words}: no objects of check_problems --json")
    return told


def main(words: str) -> int:
    try:
        told = objects_in(words)
        named = list(zip(short_names(told), told))
        asked = [(problem_of(one, name), answer_of(one)) for name, one in named if one["kind"]]
        text = page(asked, [f"{name}: {said(one)}" for name, one in named if not one["kind"]])
    except (OSError, ValueError, KeyError, sgf.NoTree, positions.NotRead, NoProof) as why:
        print(why, file=sys.stderr)
        return 1 if isinstance(why, NoProof) else 2
    sys.stdout.write(text)
    print("\n".join(f"{name}: {said(one)}" for name, one in named), file=sys.stderr)
    return 0 if all(one["verdict"] == "as expected" for one in told) else 1


if __name__ == "__main__":
    command_line.run(main, __doc__)
