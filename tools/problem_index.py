"""Writes the index of a set of problems, in Markdown: by chapter the boards, drawn in text, and a line for each.

usage: python3 tools/problem_index.py FOLDER > FOLDER/README.md

The problems are the game records `*.sgf` of the folder, in the order of their names. The chapter of a problem is its
GN; its line is its comment without the line `gopat:`. Answers are not shown. If a record has no question, nothing is
written, and the exit status is 2.
"""

import itertools
import pathlib
import sys
import textwrap
from typing import Iterator

import asking
import command_line
import positions
import problems
import sgf
from go_rules import BLACK, Position

# So many columns of text are filled by boards that stand side by side.
MOST_COLUMNS = 100
# And so many letters are in a line of words.
MOST_LETTERS = 120
HEAD = """# Problems

A set of {count} problems of gopat's own, from the first capture to ladders, nets, snapbacks and kos. Black (`X`) is to
move in all of them; `#` is the white string that he is to take, `@` a stone of the black one that he is to save. Each
has exactly one answer by the wider tree, over every legal move, at the depths that its record names. The record
has the solution as its main line, and a wrong move with what refutes it as a variation.

`docs/USING.md`, *Problem sets*, says how such a set is checked and how one is made. This page is written by
`python3 tools/problem_index.py`.
"""


def drawn(position: Position, target: int) -> list[str]:
    """The rows of a board."""
    size, signs = position.size, [".XO"[cell] for cell in position.cells]
    signs[target] = "@" if position.cells[target] == BLACK else "#"
    return [" ".join(signs[row * size : (row + 1) * size]) for row in range(size)]


def side_by_side(boards: list[list[str]]) -> Iterator[str]:
    """The lines of some boards beside one another."""
    widths = [max(map(len, board)) for board in boards]
    for rows in itertools.zip_longest(*boards, fillvalue=""):
        yield "   ".join(row.ljust(width) for row, width in zip(rows, widths)).rstrip()


def rows_of_boards(boards: list[list[str]]) -> Iterator[list[list[str]]]:
    """The boards, as many in a row as there is room for."""
    row: list[list[str]] = []
    for board in boards:
        if sum(max(map(len, one)) + 3 for one in [*row, board]) > MOST_COLUMNS and row:
            yield row
            row = []
        row.append(board)
    yield row


def chapter_of(folder: str, problem: problems.Problem) -> str:
    """The chapter in which a problem stands."""
    text = (pathlib.Path(folder) / problem.name).read_text(encoding="utf-8")
    return " ".join(sgf.tree(text).texts("GN")) or "Problems"


def line_of(problem: problems.Problem) -> str:
    """The number, the name and the comment of a problem."""
    said = " ".join(line for line in problem.comment.splitlines() if not line.strip().startswith("gopat:"))
    number, _, _ = problem.name.partition("-")
    return textwrap.fill(f"- [{number}]({problem.name}) {said}", MOST_LETTERS, subsequent_indent="  ",
                         break_long_words=False, break_on_hyphens=False)


def chapter(name: str, found: list[problems.Problem]) -> Iterator[str]:
    """The lines of a chapter."""
    yield from ["", f"## {name}", "", "```"]
    boards = [[one.name.partition("-")[0], *drawn(one.situation.position, one.target())] for one in found]
    for at, row in enumerate(rows_of_boards(boards)):
        yield from [""] if at else []
        yield from side_by_side(row)
    yield from ["```", "", *map(line_of, found)]


def main(folder: str) -> int:
    try:
        found, without = problems.problems_in(folder, asking.depths_of("16:6", True))
    except positions.NotRead as why:
        print(why, file=sys.stderr)
        return 2
    if without:
        print("\n".join(without), file=sys.stderr)
        return 2
    print(HEAD.format(count=len(found)), end="")
    for name, some in itertools.groupby(found, lambda problem: chapter_of(folder, problem)):
        print("\n".join(chapter(name, list(some))))
    return 0


if __name__ == "__main__":
    command_line.run(main, __doc__)
