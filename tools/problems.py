"""Problems: game records with a question about a string, and what is expected of the answer."""

import pathlib
import re
from typing import Iterator, NamedTuple

import asking
import gtp
import positions
import sgf
from go_rules import EMPTY, Move, other, play, vertex_of
from proof_tree import Depths

LINE = re.compile(r"^gopat:\s*(attack|defend)\s+([A-Za-z]\d+)\b(.*)$", re.MULTILINE)
CLAUSE = re.compile(r"\s+(depths\s+\d+\s+\d+|code\s+[0-3]|answer(?:\s+(?:[A-Za-z]\d+|pass|PASS))+|only)(?=\s|$)")
IS_RIGHT = re.compile(r"\b(RIGHT|CORRECT)\b")


class Problem(NamedTuple):
    """A record with its question, and the moves that are expected to attain the code."""

    name: str
    comment: str
    situation: positions.Situation
    question: asking.Question
    expected: list[str]

    def target(self) -> int:
        return positions.point_named(self.situation.position, self.question.vertex)

    def mover(self) -> int:
        """The colour that moves first."""
        defender = self.situation.position.cells[self.target()]
        return defender if self.question.kind == "defend" else other(defender)


class NoQuestion(Exception):
    """A record has no question. The text says why."""


# Reading problems.


def said(text: str) -> tuple[str, str, dict[str, list[str]]] | None:
    """The kind, the vertex and the clauses of the line `gopat:` of a comment; none where there is none."""
    found = LINE.search(text)
    if not found:
        return None
    clauses = CLAUSE.findall(found[3].rstrip())
    if "".join(clause.replace(" ", "") for clause in clauses) != "".join(found[3].split()):
        raise NoQuestion(f"the line `gopat:` is not understood: {found[0]}")
    words = [clause.split() for clause in clauses]
    return found[1], found[2].upper(), {one[0]: one[1:] for one in words}


def from_line(told: tuple[str, str, dict[str, list[str]]], depths: Depths) -> tuple[asking.Question, list[str]]:
    """The question and the moves that are expected, by a line."""
    kind, vertex, clauses = told
    if "depths" in clauses:
        depths = depths._replace(plies=int(clauses["depths"][0]), wide=int(clauses["depths"][1]))
    return asking.Question(kind, vertex, depths), [move.upper() for move in clauses.get("answer", [])]


def is_right(node: sgf.Node) -> bool:
    """Whether a variation says that it is right."""
    return any(IS_RIGHT.search(text) for text in node.texts("C")) or "TE" in node.properties or any(
        map(is_right, node.children)
    )


def from_marks(root: sgf.Node, situation: positions.Situation, depths: Depths) -> tuple[asking.Question, list[str]]:
    """The question about the one marked stone, and the moves that are said to be right: all of them. If none is, the
    main line is the solution."""
    size, cells = situation.position.size, situation.position.cells
    marked = [positions.point_of(size, value) for value in sgf.listed(root.texts("TR", "SQ", "CR", "MA"))]
    if len(marked) != 1 or cells[marked[0]] == EMPTY or not root.texts("PL"):
        raise NoQuestion("it has no line `gopat:`, and not one marked stone and PL")
    plays = positions.MOVES.get(root.texts("PL")[0][:1].upper())
    kind = "defend" if cells[marked[0]] == plays else "attack"
    right = list(filter(is_right, root.children)) or root.children[:1]
    moves = [sgf.vertex(value, size) for child in right for value in child.texts("B", "W")]
    return asking.Question(kind, vertex_of(size, marked[0]), depths), moves


def problem_of(path: pathlib.Path, name: str, depths: Depths) -> Problem:
    """The problem of a record."""
    try:
        text = path.read_bytes().decode("utf-8", "replace")
        root = sgf.tree(text)
        situation = positions.after_node(positions.first(positions.size_of(root)), root)
        comment = "\n".join(root.texts("C"))
        told = said(comment)
        question, expected = from_line(told, depths) if told else from_marks(root, situation, depths)
        if situation.position.cells[positions.point_named(situation.position, question.vertex)] == EMPTY:
            raise NoQuestion(f"no stone stands at {question.vertex}")
    except (sgf.NoTree, positions.NotRead, ValueError, KeyError, IndexError) as why:
        raise NoQuestion(str(why)) from why
    return Problem(name, comment.strip(), situation, question, expected)


def problems_in(folder: str, depths: Depths) -> tuple[list[Problem], list[str]]:
    """The problems of a folder, and what is told of the records that have no question."""
    found, without = [], []
    for path in sorted(pathlib.Path(folder).rglob("*.sgf")):
        name = str(path.relative_to(folder))
        try:
            found.append(problem_of(path, name, depths))
        except NoQuestion as why:
            without.append(f"{name}: {why}")
    if not found:
        raise positions.NotRead("\n".join([*without, f"{folder}: no problem"]))
    return found, without


# What gopat is asked.


def legal_moves(problem: Problem) -> Iterator[Move]:
    """The moves of the side to move: the pass for a defence, and each legal play."""
    position = problem.situation.position
    if problem.question.kind == "defend":
        yield Move(None)
    for point in range(position.size**2):
        if play(position, problem.mover(), point):
            yield Move(point)


def told(gopat: gtp.Running, line: str) -> str:
    """The text of a reply."""
    reply = gopat.ask(line)
    if not reply.ok:
        raise asking.Refused(f"{line}: {reply.text}")
    return reply.text
