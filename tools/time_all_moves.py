"""Measures what all moves of a question cost beside the question itself, over GNU Go's questions, in both trees.

usage: python3 tools/time_all_moves.py LIBRARY REGRESSION [PLIES WIDE [TIMES]]

LIBRARY is gopat's shared library, made of libgopat_c.a as docs/DOORS.md says; REGRESSION is the folder regression/ of
GNU Go's source. It runs at the top of a clone. The depths are 16 6 unless they are told. Each question is asked by
`gopat_attack` or `gopat_defend`, and all its moves by `gopat_all`, each TIMES times (3), of which the least time
counts. It is that of the library's call. The two have to tell the same code. Prints for each tree the processor's
milliseconds of both over all questions, how many times the first the second is, and the same of the question for which
it is greatest, of those that take a millisecond and more.
"""

import os
import pathlib
import sys
import time
from typing import Callable, NamedTuple

import command_line
import suites_as_records
from go_rules import vertex_of

LEAST = 0.001


class Taken(NamedTuple):
    """The seconds of a question and of all its moves, and which question it is."""

    question: float
    moves: float
    name: str

    def times(self) -> float:
        """How many times the question all its moves take."""
        return self.moves / self.question


def seconds(call: Callable[[], object], times: int) -> float:
    """The least of the processor's seconds that a call takes."""
    least = float("inf")
    for _ in range(times):
        start = time.process_time()
        call()
        least = min(least, time.process_time() - start)
    return least


def board_of(gopat, position):
    """The board of a position."""
    ban = position.ban and (position.ban[1], vertex_of(position.size, position.ban[0]))
    return gopat.Board(position.size, bytes(position.cells), ban)


def calls_of(gopat, board, asked, depths) -> tuple[Callable[[], object], Callable[[], object]]:
    """The calls of the library for a question and for all its moves."""
    library, handed, point = gopat._LIBRARY, board._board, board.point(asked.vertex)
    within, ask = gopat._depths(*depths), getattr(library, f"gopat_{asked.kind}")
    kind = gopat.KINDS[asked.kind]
    return lambda: ask(handed, point, within), lambda: library.gopat_all(handed, kind, point, within)


def taken(gopat, regression: str, depths: tuple[int, int], is_wider: bool, times: int) -> list[Taken]:
    """What each question of the suites takes."""
    found = []
    for path in sorted(pathlib.Path(regression).glob("*.tst")):
        for asked in suites_as_records.questions(path):
            board = board_of(gopat, asked.situations[-1].position)
            code = getattr(board, asked.kind)(asked.vertex, *depths, is_wider).code
            if board.all_moves(asked.kind, asked.vertex, *depths, is_wider).code != code:
                raise RuntimeError(f"{path.stem} {asked.number}: two codes")
            question, moves = calls_of(gopat, board, asked, (*depths, is_wider))
            name = f"{path.stem} {asked.number}"
            found.append(Taken(seconds(question, times), seconds(moves, times), name))
    return found


def line(tree: str, found: list[Taken]) -> str:
    """What is told of a tree."""
    question, moves = sum(one.question for one in found), sum(one.moves for one in found)
    worst = max((one for one in found if one.question >= LEAST), key=Taken.times, default=None)
    told = f"{tree}: {len(found)} questions {1000 * question:.0f} ms, all moves {1000 * moves:.0f} ms, "
    told += f"{moves / question:.2f} times"
    return told if worst is None else f"{told}; at most {worst.times():.2f} times ({worst.name})"


def main(library: str, regression: str, plies: str = "16", wide: str = "6", times: str = "3") -> int:
    os.environ["GOPAT_LIBRARY"] = library
    sys.path.insert(0, "python")
    import gopat  # noqa: PLC0415 -- the module loads the library that the line above names

    for tree, is_wider in (("stated", False), ("wider", True)):
        found = taken(gopat, regression, (int(plies), int(wide)), is_wider, int(times))
        if not found:
            print(f"{regression}: no question", file=sys.stderr)
            return 2
        print(line(tree, found), flush=True)
    return 0


if __name__ == "__main__":
    command_line.run(main, __doc__)
