"""Tries the handles of gopat's libraries from outside: builds them, runs the example programs, and compares the matches
that they tell as numbers with those that the program lists.

usage: python3 tools/try_handles.py GOPAT QUESTIONS [SEED]

It runs at the top of a clone and wants `rt`, a C compiler and Python; GOPAT is the path of the program, and `valgrind`
and the sanitizers of the C compiler are used if they are there. The boards are those of random games with the patterns
below, so that bans are those of real kos. A third of the questions have something broken: a byte of the board, the
colour, the depths, or a room that is too short; their status is compared with that of the rules in this file. The same
questions go to a handle once more from C, also with the sanitizers, and a part of them under valgrind, with handles
that are closed and opened between them. The last lines are figures: questions in a second of the processor. The exit
status is 1 where anything differs.
"""

import ctypes
import os
import pathlib
import random
import shutil
import subprocess
import sys
import tempfile
from typing import Iterator

import command_line
import gtp
from try_doors import SANITIZERS, VALGRIND, has_sanitizers, processor, shared_library

EXAMPLES = pathlib.Path("docs/examples/doors")
CRATE = pathlib.Path("crates/gopat_matches_c")
ARCHIVE = CRATE / "out" / "libgopat_matches_c.a"
HEAP = CRATE / "heap.c"
UNDER_VALGRIND = 300
MOST_ROOM = 700
# Patterns of all sorts: a mark, an edge, a class, a constraint that reads, a corner.
PATTERNS = """Pattern Beside
O*
:8,s
Pattern Edge
X*|
:8,n
Pattern Hane
XX.
O*X
:8,-
Pattern Jump
O.
.*
:|,s

a.
.*

;attack(a)==0
Pattern Corner
..|
*.|
--+
:/,s
"""


def made(folder: pathlib.Path) -> None:
    """Makes the shared libraries, each named by its variable."""
    os.environ["GOPAT_LIBRARY"] = str(shared_library(folder))
    subprocess.run(["rt", "lib"], cwd=CRATE, check=True, stdout=subprocess.DEVNULL, stderr=subprocess.DEVNULL)
    library = folder / "libgopat_matches_c.so"
    whole = f"-Wl,--whole-archive,{ARCHIVE},--no-whole-archive"
    subprocess.run(["cc", "-shared", "-fPIC", "-o", str(library), whole, str(HEAP)], check=True)
    os.environ["GOPAT_MATCHES_LIBRARY"] = str(library)


def compiled(folder: pathlib.Path, source: str, *more: str) -> str:
    """The program that a source in C is compiled to, with these flags too."""
    program = folder / (pathlib.Path(source).stem + "_checked" * bool(more))
    flags = ["-O2", "-Wall", "-Wextra", "-Werror", "-Icrates/gopat_c", f"-I{CRATE}", *more]
    subprocess.run(["cc", *flags, "-o", str(program), source, str(HEAP), str(ARCHIVE)], check=True)
    return str(program)


def examples(folder: pathlib.Path) -> Iterator[str]:
    """What each example prints; all have to print the same."""
    environment = os.environ | {"PYTHONPATH": "python"}
    for command in ([compiled(folder, str(EXAMPLES / "matches.c"))], ["python3", str(EXAMPLES / "matches.py")]):
        done = subprocess.run(command, env=environment, capture_output=True, text=True, check=True)
        yield done.stdout.strip()


class Asked:
    """Questions of random games: what the program lists, and what the handle tells."""

    def __init__(self, gopat, program: gtp.Running, choose: random.Random):
        self.gopat, self.program, self.choose = gopat, program, choose
        self.names = [row.split()[1] for row in PATTERNS.splitlines() if row.startswith("Pattern")]
        self.patterns = gopat.Patterns(PATTERNS)

        class Question(ctypes.Structure):
            """What ask_handles.c reads."""

            _fields_ = [
                ("board", gopat._Board),
                ("colour", ctypes.c_uint8),
                ("depths", gopat._Depths),
                ("room", ctypes.c_uint16),
            ]

        self.question, self.questions, self.told = Question, [], []
        self.matches, self.refused, self.wrong, self.size, self.depths = 0, 0, [], 0, (10, 2)

    def go_on(self, at: int) -> None:
        """Plays on, on a new board at times."""
        choose = self.choose
        if at % 30 == 0:
            self.size = choose.choice([3, 5, 7, 9, 13])
            self.program.ask(f"boardsize {self.size}")
        for _ in range(choose.randrange(1, 5)):
            vertex = choose.choice(gtp.vertices(self.size))
            self.program.ask("undo" if choose.random() < 0.05 else f"play {choose.choice('bw')} {vertex}")
        if choose.random() < 0.1:
            self.depths = choose.choice([1, 4, 8]), choose.randrange(3)
            self.program.ask(f"depths {self.depths[0]} {self.depths[1]}")

    def board(self):
        """The board of the program. Where a play is legal on a board without a ban and not there, the ban stands."""
        shown = gtp.shown(self.program.ask("showboard").text)
        rows = [["."] * shown.size for _ in range(shown.size)]
        for vertex, mark in shown.stones.items():
            rows[shown.size - int(vertex[1:])][gtp.COLUMNS.index(vertex[0])] = mark
        board = self.gopat.Board.of_rows(["".join(row) for row in rows])
        for colour in (1, 2):
            legal = set(self.program.ask(f"all_legal {' bw'[colour]}").text.split())
            for vertex in set(gtp.vertices(shown.size)) - set(shown.stones) - legal:
                if is_legal(self.gopat, board, colour, vertex):
                    cells = bytes(board._board.cells[: shown.size**2])
                    return self.gopat.Board(shown.size, cells, (colour, vertex))
        return board

    def tell(self, question) -> list[int]:
        """The status, the number and the matches that the handle tells."""
        found = (self.gopat._Match * MOST_ROOM)()
        patterns = self.patterns
        arguments = question.board, question.colour, question.depths, found, question.room
        reply = patterns._library.gopat_matches(patterns._handle, *arguments)
        shown = found[: reply.number] if reply.status == 0 else []
        told = [reply.status, reply.number, *(n for z in shown for n in (z.pattern, z.transform, z.at))]
        self.questions.append(bytes(question))
        self.told.append(" ".join(map(str, told)))
        return told

    def ask(self) -> None:
        """Asks both for the matches of a colour, and the handle for the same with something broken."""
        board, colour = self.board(), self.choose.choice([1, 2])
        depths = self.gopat._Depths(*self.depths, 0)
        question = self.question(board._board, colour, depths, MOST_ROOM)
        listed = self.program.ask(f"match_patterns {' bw'[colour]}").text
        told = self.tell(question)
        groups = [told[at : at + 3] for at in range(2, len(told), 3)]
        rows = [f"{self.names[pattern]} {turn} {board.vertex(at)}" for pattern, turn, at in groups]
        self.matches += len(rows)
        if told[0] or listed.splitlines() != rows:
            self.wrong.append(f"matches for {colour}: {listed!r}, by numbers {told[0]} {rows}")
        if self.choose.random() < 0.5:
            self.refused += 1
            status, number = broken(self.choose, question, len(rows))
            told = self.tell(question)
            if told[0] != status or told[1] != number:
                self.wrong.append(f"status {told[:2]}, wanted {status} {number}")


def broken(choose: random.Random, question, number: int) -> tuple[int, int]:
    """Breaks one thing of a question that has so many matches; the status and the number that it gets then."""
    way = choose.randrange(7)
    if way == 0:
        question.board.size = choose.choice([0, 1, 26, 255])
        return 1, 0
    if way == 1:
        question.board.cells[choose.randrange(question.board.size ** 2)] = choose.randrange(3, 256)
        return 2, 0
    if way == 2:
        question.board.ban_colour = choose.randrange(3, 256)
        return 4, 0
    if way == 3:
        question.colour = choose.choice([0, 3, 255])
        return 9, 0
    if way == 4:
        question.depths.plies = choose.choice([0, 201, 255])
        return 7, 0
    if way == 5:
        question.depths.tree = choose.randrange(2, 256)
        return 7, 0
    question.room = choose.randrange(number) if number else 0
    return (15, number) if number else (0, 0)


def is_legal(gopat, board, colour: int, vertex: str) -> bool:
    try:
        board.play(colour, vertex)
    except gopat.Refused:
        return False
    return True


def refusals(gopat) -> Iterator[str]:
    """Statuses that are not those of their cause."""
    board, patterns, closed = gopat.Board.of_rows(["...", ".X.", "..."]), gopat.Patterns(PATTERNS), gopat.Patterns("")
    closed.close()
    closed.close()
    for status, call in [
        ("CLOSED", lambda: closed.matches(board, 1)),
        ("BAD_TEXT", lambda: gopat.Patterns("Pattern A\nO*\n:9\n")),
        ("BAD_TEXT", lambda: gopat.Patterns("Pattern A\nO*\n:8,near_edge\n")),
        ("TOO_MANY_STATES", lambda: gopat.Patterns(many_states())),
        (None, lambda: patterns.matches(board, 1)),
    ]:
        try:
            call()
            said = None
        except gopat.Refused as why:
            said = why.status.name
        if said != status:
            yield f"status {said}, wanted {status}"


def many_states() -> str:
    """Patterns with more than 100,000 states: diagrams of any letters."""
    choose, text = random.Random(5), []
    for number in range(900):
        marks = [choose.choice("XO.") for _ in range(49)]
        marks[24] = "*"
        rows = ["".join(marks[at : at + 7]) for at in range(0, 49, 7)]
        text += [f"Pattern P{number}", *rows, ":8,s"]
    return "\n".join(text) + "\n"


def main(gopat_path: str, count: str, seed: str = "1") -> int:
    gopat_path = str(pathlib.Path(gopat_path).resolve())
    with tempfile.TemporaryDirectory() as name:
        folder = pathlib.Path(name)
        made(folder)
        said = list(examples(folder))
        print("\n".join(said))
        sys.path.insert(0, "python")
        import gopat

        kept, records = folder / "patterns", folder / "questions"
        kept.write_text(PATTERNS, encoding="utf-8")
        program = gtp.Running([gopat_path, str(kept)])
        asked = Asked(gopat, program, random.Random(int(seed)))
        while len(asked.questions) < int(count):
            asked.go_on(len(asked.questions))
            asked.ask()
        program.end()
        wrong = [*asked.wrong, *refusals(gopat)]
        for way, some, command in ways_of_c(folder, len(asked.told)):
            records.write_bytes(b"".join(asked.questions[:some]))
            done = subprocess.run([*command, str(kept), str(records)], capture_output=True, text=True, check=False)
            if done.returncode or done.stdout.splitlines() != asked.told[:some]:
                wrong.append(f"{way}: status {done.returncode}, {done.stderr[-300:]}")
            print(f"{min(some, len(asked.told))} questions {way}")
        print(f"{len(asked.told)} questions, {asked.refused} of them with something broken, {asked.matches} matches:")
        print(f"{len(wrong)} differ")
        print("\n".join([*wrong[:20], *figures(gopat)]))
        return int(bool(wrong) or len(set(said)) != 1)


def ways_of_c(folder: pathlib.Path, number: int) -> Iterator[tuple[str, int, list[str]]]:
    """The ways to ask from C: a name, how many questions of this number are asked, and the command."""
    command = compiled(folder, "tools/ask_handles.c")
    yield "from C", number, [command]
    if has_sanitizers(folder):
        yield "from C with the sanitizers", number, [compiled(folder, "tools/ask_handles.c", *SANITIZERS)]
    if shutil.which(VALGRIND[0]):
        yield "from C under valgrind", UNDER_VALGRIND, [*VALGRIND, command]


def figures(gopat) -> Iterator[str]:
    """Questions in a second of the processor."""
    patterns, board = gopat.Patterns(PATTERNS), gopat.Board.of_rows(["." * 9] * 4 + ["...XOX..."] + ["." * 9] * 4)
    start = processor()
    for _ in range(2000):
        patterns.matches(board, 1)
    yield f"matches of {patterns.count} patterns on 9 rows, from Python {2000 / (processor() - start):.0f} a second"


if __name__ == "__main__":
    command_line.run(main, __doc__)
