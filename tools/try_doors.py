"""Tries gopat's library from outside: builds it, runs the programs of docs/examples/doors, and compares its answers on
random boards with those of the program and with plain rules in Python.

usage: python3 tools/try_doors.py GOPAT QUESTIONS [SEED [CHROMIUM]]

It runs at the top of a clone and wants `rt`, a C compiler and Python; GOPAT is the path of the program. `rustc`, `go`,
`valgrind` and the sanitizers of the C compiler are used if they are there. The questions arise in random games on
boards of 2 to 13 rows: the moves go to the program line by line and to the library as boards, so that bans are those of
real kos. A third of the questions have one argument broken, or a ban that no game left: their status is compared with
that of the rules in this file. Each move that the library tells as one that attains a code, and each liberty of the
target, is played in the program too, which then says what the other side attains. Proofs are compared with those that
the program prints. With CHROMIUM the page's module gets the questions too. The same questions go to the library once
more from C, also with the sanitizers, and a part of them under valgrind. The last lines are figures: questions by each
way in a second of the processor, that of both ends of a pipe together. The exit status is 1 where anything differs.
"""

import base64
import ctypes
import json
import os
import pathlib
import random
import resource
import shutil
import subprocess
import sys
import tempfile
from typing import Iterable, Iterator, NamedTuple

import command_line
import gtp
import make_page
from browser import Browser

CRATE = pathlib.Path("crates/gopat_c")
EXAMPLES = pathlib.Path("docs/examples/doors")
CALLS = ["attack", "defend", "connect", "disconnect", "liberties", "check", "play", "all", "proof"]
PLAY, ALL, PROOF = 6, 7, 8
MOST_LIBERTIES = 625
PROBLEMS = 2  # the examples ask about two, and all that ask about one say the same
UNDER_VALGRIND = 500
VALGRIND = ["valgrind", "-q", "--error-exitcode=1", "--leak-check=full"]
SANITIZERS = ["-fsanitize=address,undefined", "-fno-sanitize-recover=all"]
AT_ONCE = 200  # so many questions the page is asked together
# Stones around a ko, each a colour, a row and a column; the last one takes.
KO = [(1, 0, 1), (1, 1, 0), (1, 2, 1), (2, 0, 2), (2, 1, 3), (2, 2, 2), (2, 1, 1), (1, 1, 2)]


def shared_library(folder: pathlib.Path) -> pathlib.Path:
    """The shared library, made from the static one by one line."""
    subprocess.run(["rt", "lib"], cwd=CRATE, check=True, stdout=subprocess.DEVNULL, stderr=subprocess.DEVNULL)
    made = folder / "libgopat_c.so"
    archive = CRATE / "out" / "libgopat_c.a"
    whole = [f"-Wl,--whole-archive,{archive},--no-whole-archive"]
    subprocess.run(["cc", "-shared", "-o", str(made), *whole], check=True)
    return made


def run_examples(folder: pathlib.Path, gopat: str) -> list[str]:
    """What each program of the examples prints, behind its name."""
    out, archive = CRATE / "out", str(CRATE / "out" / "libgopat_c.a")
    environment = os.environ | {
        "PYTHONPATH": "python",
        "GOPAT_LIBRARY": str(folder / "libgopat_c.so"),
        "CGO_CFLAGS": f"-I{CRATE.resolve()}",
        "CGO_LDFLAGS": f"-L{out.resolve()}",
        "GOCACHE": str(folder / "go"),
        "GO111MODULE": "off",
    }
    c_made, why_made, rust_made, go_made = (str(folder / name) for name in ("atari", "why", "rust", "go.out"))
    c_command = ["cc", "-O2", "-Wall", "-Wextra", "-Werror", f"-I{CRATE}"]
    ways = [
        ("cc", [*c_command, "-o", why_made, str(EXAMPLES / "why.c"), archive], [why_made]),
        ("python3", [], ["python3", str(EXAMPLES / "why.py")]),
        ("cc", [*c_command, "-o", c_made, str(EXAMPLES / "atari.c"), archive], [c_made]),
        ("python3", [], ["python3", str(EXAMPLES / "atari.py")]),
        ("rustc", ["rustc", "-O", "-L", str(out), "-o", rust_made, str(EXAMPLES / "atari.rs")], [rust_made]),
        ("go", ["go", "build", "-o", go_made, str(EXAMPLES / "atari.go")], [go_made]),
        ("python3", [], ["python3", str(EXAMPLES / "pipe.py"), gopat]),
    ]
    said = []
    for needed, make, start in ways:
        if not shutil.which(needed):
            said.append(f"{start[-1]}: not run, {needed} is not there")
            continue
        if make:
            subprocess.run(make, env=environment, check=True)
        done = subprocess.run(start, env=environment, capture_output=True, text=True, check=True)
        said.append(f"{pathlib.Path(start[-1] if start[-1] != gopat else start[-2]).name}: {done.stdout.strip()}")
    return said


class Question(ctypes.Structure):
    """A call and its arguments, as ask_door.c reads them."""


def declare(gopat) -> None:
    """The fields of a question, in the types of the module."""
    byte, point = ctypes.c_uint8, ctypes.c_uint16
    Question._fields_ = [
        ("board", gopat._Board), ("a", point), ("b", point), ("depths", gopat._Depths), ("call", byte),
        ("number", byte), ("code", byte), ("length", byte), ("text", ctypes.c_char * 256),
    ]  # fmt: skip


def mixed(values: Iterable[int]) -> int:
    """A number of the bytes, as ask_door.c makes it."""
    number = 0
    for value in values:
        number = (number * 31 + value) % 65536
    return number


def printed(library, question: Question) -> tuple[int, int, int, bytes]:
    """The numbers of the reply to a question for a proof, and its buffer, which has one byte more than is told."""
    room = question.length
    text = ctypes.create_string_buffer(b"\7" * (room + 1), room + 1)
    reply = library.gopat_proof(question.board, question.number, question.a, question.depths, text, room)
    return reply.status, reply.code, reply.length, text.raw


def words(question: Question) -> bytes:
    """The text of a question."""
    return bytes(question)[Question.text.offset :][: question.length]


def ask(library, question: Question) -> tuple[int, int, int]:
    """The numbers of the reply to a question, as ask_door.c prints them."""
    board, name = question.board, CALLS[question.call]
    if name in ("attack", "defend"):
        reply = getattr(library, f"gopat_{name}")(board, question.a, question.depths)
        return reply.status, reply.code, reply.at
    if name in ("connect", "disconnect"):
        reply = getattr(library, f"gopat_{name}")(board, question.a, question.b, question.depths.plies)
        return reply.status, reply.code, reply.at
    if name == "all":
        moves = library.gopat_all(board, question.number, question.a, question.depths)
        return moves.status, moves.code, (mixed(moves.points) * 31 + moves.pass_) % 65536
    if name == "proof":
        status, code, length, text = printed(library, question)
        return status, code, (mixed(text) + length) % 65536
    if name == "liberties":
        reply = library.gopat_liberties(board, question.a)
    elif name == "check":
        arguments = question.number, question.a, question.depths, question.code, words(question), question.length
        reply = library.gopat_check(board, *arguments)
    else:
        played = library.gopat_play(board, question.number, question.a)
        return played.status, 0, mixed(played.board.cells)
    return reply.status, 0, reply.number


class Rules:
    """The board of a question by plain rules."""

    def __init__(self, board):
        self.size, self.cells = board.size, list(board.cells[: board.size**2])

    def beside(self, p: int) -> Iterator[int]:
        row, column = divmod(p, self.size)
        for r, c in ((row - 1, column), (row, column - 1), (row, column + 1), (row + 1, column)):
            if 0 <= r < self.size and 0 <= c < self.size:
                yield r * self.size + c

    def string(self, p: int) -> set[int]:
        found, left = {p}, [p]
        while left:
            for q in self.beside(left.pop()):
                if self.cells[q] == self.cells[p] and q not in found:
                    found.add(q)
                    left.append(q)
        return found

    def liberties(self, p: int) -> set[int]:
        return {q for stone in self.string(p) for q in self.beside(stone) if not self.cells[q]}

    def dead(self, colours: tuple[int, ...]) -> list[int]:
        """The stones of these colours whose strings have no liberty."""
        return [p for p, cell in enumerate(self.cells) if cell in colours and not self.liberties(p)]

    def is_suicide(self, colour: int, p: int) -> bool:
        self.cells[p] = colour
        for taken in self.dead((3 - colour,)):
            self.cells[taken] = 0
        return not self.liberties(p)


def board_fault(board) -> int:
    """The status of the first fault of a board, 0 for none."""
    if not 2 <= board.size <= 25:
        return 1
    rules = Rules(board)
    if any(cell > 2 for cell in rules.cells):
        return 2
    if rules.dead((1, 2)):
        return 3
    if board.ban_colour == 0:
        return 0
    on_empty = board.ban_point < board.size**2 and not rules.cells[board.ban_point]
    return 0 if board.ban_colour < 3 and on_empty else 4


def first_fault(question: Question) -> int:
    """The status of the first fault of a question, 0 for none."""
    board, depths, name = question.board, question.depths, CALLS[question.call]
    rules = Rules(board)

    def stone(p: int) -> int:
        return 5 if p >= board.size**2 else 0 if rules.cells[p] else 6

    def depth() -> int:
        return 0 if 1 <= depths.plies <= 200 and depths.wide <= 12 and depths.tree <= 1 else 7

    if fault := board_fault(board):
        return fault
    if name in ("attack", "defend"):
        return stone(question.a) or depth()
    if name in ("connect", "disconnect"):
        if fault := stone(question.a) or stone(question.b):
            return fault
        if rules.cells[question.a] != rules.cells[question.b]:
            return 8
        return 0 if 1 <= depths.plies <= 200 else 7
    if name == "liberties":
        return stone(question.a)
    if name in ("check", "all", "proof"):
        if question.number not in (1, 2):
            return 10
        return stone(question.a) or depth() or (11 if name == "check" and question.code > 3 else 0)
    return play_fault(question, rules)


def short_buffer(asked: "Asked") -> int:
    """The status of a proof, of which the reply of the program is known, for which there is no room; 0 if there is."""
    known = asked.question.call == PROOF and asked.text
    return 15 if known and len(asked.text) - 2 > asked.question.length else 0


def play_fault(question: Question, rules: Rules) -> int:
    """The status of the first fault of a play on a board that has none."""
    board, colour, p = question.board, question.number, question.a
    if colour not in (1, 2):
        return 9
    if p == 65535:
        return 0
    if p >= board.size**2:
        return 5
    if rules.cells[p]:
        return 12
    if board.ban_colour == colour and board.ban_point == p:
        return 13
    return 14 if rules.is_suicide(colour, p) else 0


class Asked(NamedTuple):
    """A question, what the library says, the protocol lines whose last reply has to say the same, none for a question
    that is not one of the program's, and the text of that reply, if the numbers do not tell it."""

    question: Question
    reply: tuple[int, int, int]
    lines: list[str]
    text: str = ""


class Tried(NamedTuple):
    """A move that the library tells, or not, as one that attains a code, and protocol lines: the move, what the other
    side attains then with one ply less, and the move taken back. The move attains the code if the number of the reply
    to the line before the last is below `below`, or nothing stands on the target any more."""

    move: str
    told: bool
    lines: list[str]
    below: int

    def is_right(self, reply: gtp.Reply) -> bool:
        left = int(reply.text.split()[0]) if reply.ok else 0
        return self.told == (left < self.below)


def vertex(size: int, p: int) -> str:
    return "PASS" if p == 65535 else f"{gtp.COLUMNS[p % size]}{size - p // size}" if p < size**2 else "Z99"


def line_of(question: Question) -> list[str]:
    """The lines of the program that ask the same."""
    size, name = question.board.size, CALLS[question.call]
    a, b = vertex(size, question.a), vertex(size, question.b)
    depths = f"depths {question.depths.plies} {question.depths.wide}"
    if name in ("attack", "defend"):
        return [depths, f"{name} {a}"]
    if name in ("connect", "disconnect"):
        return [f"depths {question.depths.plies} 0", f"{name} {a} {b}"]
    if name == "liberties":
        return [f"countlib {a}"]
    if name == "all":
        return [depths, f"{CALLS[question.number - 1]} {a}"]
    if name == "proof":
        return [depths, f"{CALLS[question.number - 1]}_proof {a}"]
    text = words(question).decode()
    return [depths, f"check_proof {CALLS[question.number - 1]} {a} {question.code} {text}"]


def expected(asked: Asked, shown: str) -> gtp.Reply:
    """The reply of the program that says the same as the library."""
    status, code, at = asked.reply
    name, size = CALLS[asked.question.call], asked.question.board.size
    if asked.text:
        return gtp.Reply(True, asked.text)
    if status:
        texts = {6: "vertex must not be empty", 8: "colours differ", 12: "illegal move", 13: "illegal move"}
        return gtp.Reply(False, texts.get(status, "illegal move" if status == 14 else shown))
    if name == "liberties":
        return gtp.Reply(True, str(at))
    if name == "check":
        return gtp.Reply(True, "true" if at else "false")
    return gtp.Reply(True, f"{code} {vertex(size, at)}" if code else "0")


# The lines of a move of a game and whether it is legal, or the lines of a question or of a move that is tried.
Step = tuple[list[str], Asked | Tried | None, bool]


class Games:
    """Random games, and questions about their positions."""

    def __init__(self, gopat, seed: int):
        self.gopat, self.library, self.choose = gopat, gopat._LIBRARY, random.Random(seed)
        self.bans = 0

    def asked(self, board) -> Asked:
        """A question about a board that a game has led to; a third of them are broken."""
        question = self.question(board)
        if self.choose.random() < 1 / 3:
            self.break_one(question)
            return Asked(question, ask(self.library, question), [], self.text_of(question))
        return Asked(question, ask(self.library, question), line_of(question), self.text_of(question))

    def text_of(self, question: Question) -> str:
        """What the program says to a question for all moves, which is the first of them, or for a proof."""
        arguments = question.board, question.number, question.a, question.depths
        if question.call == ALL:
            moves = self.library.gopat_all(*arguments)
            points = [65535] * moves.pass_ + [p for p, good in enumerate(moves.points) if good]
            told = f"{moves.code} {vertex(question.board.size, points[0])}" if points else "0"
            return told if moves.status == 0 else ""
        if question.call == PROOF:
            text = ctypes.create_string_buffer(60000)
            proof = self.library.gopat_proof(*arguments, text, len(text))
            return f"{proof.code} {text.raw[: proof.length].decode()}" if proof.status == 0 else ""
        return ""

    def tried(self, question: Question) -> Iterator[Tried]:
        """The moves that are told as those that attain the code, and the liberties of the target."""
        board, target, kind = question.board, question.a, question.number
        moves = self.library.gopat_all(board, kind, target, question.depths)
        if moves.status or moves.code == 0:
            return
        points = Rules(board).liberties(target) | {p for p, good in enumerate(moves.points) if good}
        side = board.cells[target] if kind == 2 else 3 - board.cells[target]
        for p in [65535] * (kind == 2) + sorted(points):
            told = bool(moves.pass_ if p == 65535 else moves.points[p])
            if self.library.gopat_play(board, side, p).status == 0:
                yield self.tried_at(question, side, p, told, 4 - moves.code)

    def tried_at(self, question: Question, side: int, p: int, told: bool, below: int) -> Tried:
        """The play at p. Without a ply left the other side attains nothing, so a play saves, and it captures if nothing
        stands on the target."""
        size, plies, wide = question.board.size, question.depths.plies - 1, max(question.depths.wide - 1, 0)
        move, target = vertex(size, p), vertex(size, question.a)
        lines = [f"depths {plies} {wide}", f"{'defend' if question.number == 1 else 'attack'} {target}"]
        if plies == 0:
            lines, below = [f"countlib {target}"], 1 if question.number == 1 else MOST_LIBERTIES
        return Tried(move, told, [f"play {' bw'[side]} {move}", *lines, "undo"], below)

    def question(self, board) -> Question:
        choose, points = self.choose, board.size**2
        stones = [p for p in range(points) if board.cells[p]] or [0]
        near = [p for p in Rules(board).beside(board.ban_point) if board.cells[p]] if board.ban_colour else []
        target = choose.choice(near or stones) if choose.random() < 0.9 else choose.randrange(points + 1)
        number = choose.choice([1, 2])
        text = choose.choice(["W .", "N .", "N . N . N .", "", f"W {vertex(board.size, choose.randrange(points))} ."])
        call, code = choose.choice([0, 1, 2, 3, 4, 5, ALL, PROOF]), choose.randrange(4)
        room = len(text) if call != PROOF else choose.choice([choose.randrange(256), 255, 255])
        plies = choose.choice([1, 2, 3, 4, 5, 6, 7, 10]) if board.size < 7 else choose.choice([1, 2, 3, 5, 8])
        depths = self.gopat._Depths(plies, choose.choice([0, 0, 1, 2]), 0)
        return Question(board, target, choose.choice(stones), depths, call, number, code, room, text.encode())

    def break_one(self, question: Question) -> None:
        """Changes one argument to any number, or the call to a play."""
        choose, board = self.choose, question.board
        way = choose.randrange(9)
        if way == 0:
            board.size = choose.randrange(256)
        elif way == 1:
            board.cells[choose.randrange(board.size**2)] = choose.randrange(256)
        elif way == 2:
            p = choose.randrange(board.size**2)
            board.cells[p] = 1
            for q in Rules(board).beside(p):
                board.cells[q] = 2
        elif way == 3:
            board.ban_colour, board.ban_point = choose.randrange(4), choose.randrange(board.size**2 + 2)
        elif way == 4:
            question.a = choose.choice([choose.randrange(65536), choose.randrange(board.size**2)])
        elif way == 5:
            question.depths.plies = choose.choice([0, 201, 255])
        elif way == 6:
            question.depths.wide, question.depths.tree = choose.choice([(13, 0), (255, 1), (0, 2), (1, 1)])
        elif way == 7:
            question.code, question.number = choose.choice([(4, 1), (255, 2), (0, 0), (3, 3)])
        else:
            question.call, question.number = PLAY, choose.choice([0, 1, 2, 2, 1, 3])

    def moves(self, size: int, turn: int) -> Iterator[tuple[int, int]]:
        """Random plays and passes, or those that make a ko somewhere on the board."""
        choose = self.choose
        if size > 3 and turn % 3 == 0:
            row, column = choose.randrange(size - 2), choose.randrange(size - 3)
            yield from ((colour, (row + r) * size + column + c) for colour, r, c in KO)
            return
        for _ in range(choose.randrange(1, 2 + size // 2)):
            p = choose.randrange(size**2 + 1)
            yield choose.choice([1 + turn % 2, 1, 2]), 65535 if p == size**2 else p

    def game(self, turns: int) -> Iterator[Step]:
        """The steps of a game."""
        size = self.choose.choice([2, 3, 4, 4, 5, 5, 6, 7, 9, 13])
        board = self.gopat._Board(size)
        yield [f"boardsize {size}"], None, True
        for turn in range(turns):
            for colour, p in self.moves(size, turn):
                played = self.library.gopat_play(board, colour, p)
                board = played.board
                yield [f"play {' bw'[colour]} {vertex(size, p)}"], None, played.status == 0
                if board.ban_colour:
                    break
            self.bans += board.ban_colour > 0
            one = self.asked(board)
            yield one.lines, one, True
            if one.lines and one.question.call == ALL:
                for move in self.tried(one.question):
                    yield move.lines, move, True


def differences(gopat_path: str, steps: list[Step]) -> Iterator[str]:
    """What the program says otherwise, and the statuses that are not those of the rules."""
    lines = [line for step in steps for line in step[0]]
    replies, _ = gtp.session([gopat_path], lines)
    at = 0
    for step_lines, asked, legal in steps:
        at += len(step_lines)
        reply = replies[at - 1] if step_lines else None
        if asked is None:
            if reply.ok != legal:
                yield f"{step_lines[-1]}: {reply.text!r}, the library says {legal}"
            continue
        if isinstance(asked, Tried):
            if not asked.is_right(replies[at - 2]):
                yield f"{asked.lines}: {replies[at - 2].text!r}, the library says {asked.told} of {asked.move}"
            continue
        if asked.reply[0] != (first_fault(asked.question) or short_buffer(asked)):
            yield f"{CALLS[asked.question.call]}: status {asked.reply[0]}, by the rules {first_fault(asked.question)}"
        if step_lines and reply != expected(asked, reply.text):
            yield f"{step_lines[-1]}: {reply}, the library says {asked.reply}"


def has_sanitizers(folder: pathlib.Path) -> bool:
    """Whether the C compiler links a program with the sanitizers."""
    source = folder / "nothing.c"
    source.write_text("int main(void) { return 0; }\n", encoding="utf-8")
    command = ["cc", *SANITIZERS, "-o", str(folder / "nothing"), str(source)]
    return subprocess.run(command, capture_output=True, check=False).returncode == 0


def compiled(folder: pathlib.Path, more: list[str]) -> str:
    """The program of ask_door.c, compiled with these flags too."""
    program = str(folder / ("ask_door" + "_checked" * bool(more)))
    flags = ["-O2", "-Wall", "-Wextra", f"-I{CRATE}", *more]
    subprocess.run(["cc", *flags, "-o", program, "tools/ask_door.c", str(CRATE / "out" / "libgopat_c.a")], check=True)
    return program


def ways_of_c(folder: pathlib.Path, number: int) -> Iterator[tuple[str, int, list[str]]]:
    """The ways to ask from C: a name, how many questions of this number are asked, and the command."""
    command = compiled(folder, [])
    yield "from C", number, [command]
    if has_sanitizers(folder):
        yield "from C with the sanitizers", number, [compiled(folder, SANITIZERS)]
    if shutil.which(VALGRIND[0]):
        yield "from C under valgrind", UNDER_VALGRIND, [*VALGRIND, command]


def from_c(folder: pathlib.Path, questions: list[Question], command: list[str], times: int | None = None) -> list[str]:
    """What ask_door.c prints for the questions."""
    kept = folder / "questions"
    kept.write_bytes(b"".join(map(bytes, questions)))
    command = [*command, str(kept), *([str(times)] if times else [])]
    return subprocess.run(command, capture_output=True, text=True, check=True).stdout.splitlines()


def from_page(chromium: str, questions: list[Question]) -> Iterator[str]:
    """What the module of the page says to the questions, as ask_door.c prints it."""
    script = pathlib.Path("tools/page/ask_module.js").read_text(encoding="utf-8")
    function = script[script.index("(questions)") :].strip()
    with Browser(chromium) as browser:
        browser.open(make_page.PAGE)
        browser.wait("!document.getElementById('app').hidden")
        for first in range(0, len(questions), AT_ONCE):
            records = b"".join(map(bytes, questions[first : first + AT_ONCE]))
            words = json.dumps(base64.b64encode(records).decode())
            yield from (" ".join(map(str, reply)) for reply in browser.value(f"({function})({words})"))


class Timed(NamedTuple):
    """A reading that is timed, the lines that put its stones on an empty board, and the line that asks it."""

    question: Question
    plays: list[str]
    line: str


def readings(gopat, choose: random.Random) -> Iterator[Timed]:
    """Attacks and defences at 10 plies, 2 of them wide, of strings with at most 4 liberties, on boards of 19 rows with
    some 110 stones put at random."""
    for _ in range(500):
        board, plays = gopat._Board(19), ["boardsize 19", "depths 10 2"]
        for colour in [1, 2] * 60:
            p = choose.randrange(361)
            played = gopat._LIBRARY.gopat_play(board, colour, p)
            if played.status == 0 and played.board.ban_colour == 0:
                board = played.board
                plays.append(f"play {' bw'[colour]} {vertex(19, p)}")
        stones = [p for p in range(361) if 1 <= gopat._LIBRARY.gopat_liberties(board, p).number <= 4]
        for target in choose.sample(stones, 20):
            call = choose.randrange(2)
            question = Question(board, target, 0, gopat._Depths(10, 2, 0), call)
            yield Timed(question, plays, f"{CALLS[call]} {vertex(19, target)}")
            plays = []


def figures(folder: pathlib.Path, gopat, gopat_path: str, seed: int) -> Iterator[str]:
    """Questions a second by each way."""
    some = list(readings(gopat, random.Random(seed)))
    program = compiled(folder, [])
    seconds = float(from_c(folder, [one.question for one in some], [program], 5)[0].split()[0]) / 5
    yield f"{len(some)} readings: from C {len(some) / seconds:.0f} a second"
    start = processor()
    for one in some:
        ask(gopat._LIBRARY, one.question)
    yield f"from Python {len(some) / (processor() - start):.0f} a second"
    lines = [line for one in some for line in [*one.plays, one.line]]
    yield f"through the pipe, each line after the reply to the one before, {len(some) / waiting(gopat_path, lines):.0f}"
    start = processor()
    gtp.session([gopat_path], lines)
    yield f"through the pipe, all lines at once, {len(some) / (processor() - start):.0f}"
    seconds = waiting(gopat_path, ["name"] * 10000)
    yield f"through the pipe, lines that ask nothing of the board, each after a reply, {10000 / seconds:.0f}"


def waiting(gopat_path: str, lines: list[str]) -> float:
    """The processor's seconds of a session in which each line waits for the reply to the one before."""
    start = processor()
    program = gtp.Running([gopat_path])
    for line in lines:
        program.ask(line)
    program.end()
    return processor() - start


def processor() -> float:
    """The processor's seconds of this script and of the programs that it started and that have ended."""
    parts = [resource.getrusage(who) for who in (resource.RUSAGE_SELF, resource.RUSAGE_CHILDREN)]
    return sum(part.ru_utime + part.ru_stime for part in parts)


def main(gopat_path: str, count: str, seed: str = "1", chromium: str = "") -> int:
    gopat_path = str(pathlib.Path(gopat_path).resolve())
    with tempfile.TemporaryDirectory() as name:
        folder = pathlib.Path(name)
        os.environ["GOPAT_LIBRARY"] = str(shared_library(folder))
        said = run_examples(folder, gopat_path)
        print("\n".join(said))
        sys.path.insert(0, "python")
        import gopat

        declare(gopat)
        games = Games(gopat, int(seed))
        asked, wrong, tried = [], [], 0
        while len(asked) < int(count):
            steps = list(games.game(20))
            asked += [one for _, one, _ in steps if isinstance(one, Asked)]
            tried += sum(isinstance(one, Tried) for _, one, _ in steps)
            wrong += differences(gopat_path, steps)
        questions = [one.question for one in asked]
        told = [" ".join(map(str, one.reply)) for one in asked]
        for way, some, command in ways_of_c(folder, len(questions)):
            replies = from_c(folder, questions[:some], command)
            wrong += [f"{way} {c}, from Python {p}" for c, p in zip(replies, told) if c != p]
            print(f"{len(replies)} questions {way}")
        page = list(from_page(chromium, questions)) if chromium else []
        wrong += [f"from the page {m}, from Python {p}" for m, p in zip(page, told) if m != p]
        with_status = sum(one.reply[0] > 0 for one in asked)
        print(f"{len(asked)} questions, {with_status} with a status, {games.bans} boards with a ban of a ko,", end=" ")
        print(f"{sum(bool(one.lines) for one in asked)} asked of the program too, {tried} moves tried there:", end=" ")
        print(f"{len(page)} asked of the page's module, {len(wrong)} differ")
        print("\n".join([*wrong[:20], *figures(folder, gopat, gopat_path, int(seed))]))
        lines_said = {line.split(": ", 1)[1] for line in said if ": not run" not in line}
        return int(bool(wrong) or len(lines_said) != PROBLEMS)


if __name__ == "__main__":
    command_line.run(main, __doc__)
