"""Tries docs/page/gopat.html in headless Chromium: clicks, presses keys, pastes positions, reads what is shown, and
compares it with what the library answers.

usage: python3 tools/try_page.py CHROMIUM QUESTIONS [SEED [GOPAT GOPAT_WIDE]]
       python3 tools/try_page.py CHROMIUM --picture OUT.png

It runs at the top of a clone and wants `rt` and a C compiler, by which try_doors.py makes the library, unless
GOPAT_LIBRARY names the shared library. The questions are about random boards of 2 to 19 rows, which are set up in turn
by a pasted record, by the pasted text of `showboard`, and by clicks: attack and defence of a string with all moves, in
either tree; of some also the proofs, and of some a connection. With GOPAT and GOPAT_WIDE the same is asked of these
programs. Further it tries: keys; a ko, a pass and Undo; texts that cannot be read; depths that are none; the longest
question, which is stopped, and the deepest; a browser without 64-bit memory, and a module that is damaged; both widths
and screens, on which nothing may lie beside the page; that each control has a name; and that the page asks for no
other file. Prints what differs. The exit status is 1 if something does.

With --picture nothing is tried: the page is written as a picture, with the answer to a question.
"""

import os
import pathlib
import random
import re
import sys
import tempfile
from typing import NamedTuple

import command_line
import gtp
import make_page
import try_doors
from browser import Browser

PAGE = make_page.PAGE
READY = "!document.getElementById('app').hidden && id('size').value === '9' && shown.board.cells.some((cell) => cell)"
READ = """running.then(() => {
  const text = (found) => document.querySelector(found)?.textContent ?? "";
  const all = (found) => [...document.querySelectorAll(found)].map((one) => one.textContent);
  return { attack: text("#attack .reply"), defend: text("#defend .reply"), note: text("#note"), here: text("#here"),
    attackMoves: text("#attack .moves b"), defendMoves: text("#defend .moves b"), heading: text("#answer h2"),
    connect: text("#connect .reply"), disconnect: text("#disconnect .reply"), refused: text("#answer .refused"),
    answer: text("#answer"), words: all(".proof pre"), judged: all(".proof .judged"),
    black: document.querySelector("#board .black").getAttribute("d"), turn: text("#turn"),
    white: document.querySelector("#board .white").getAttribute("d") };
})"""
DOT = re.compile(r"M(\d+) (\d+)h0")
LETTERS = "abcdefghijklmnopqrstuvwxy"


class Setting(NamedTuple):
    """A board of the library, and the moves that led to it: a colour and a vertex each."""

    board: object
    moves: list[tuple[int, str]]


class Person:
    """Someone who uses the page."""

    def __init__(self, browser: Browser):
        self.browser = browser

    def open(self, page: pathlib.Path = PAGE, before: str = "", ready: str = READY):
        self.browser.open(page, before)
        self.browser.wait(ready)

    def read(self) -> dict:
        """What is shown when nothing is under way any longer."""
        return self.browser.value(READ)

    def click_on(self, size: int, vertex: str):
        """Clicks on a point of the board."""
        row, column = size - int(vertex[1:]), gtp.COLUMNS.index(vertex[0])
        place = f"(() => {{ const box = id('board').getBoundingClientRect(), frame = frameOf({size}); return ["
        place += f"box.left + ({column} - frame.left) / frame.width * box.width, "
        place += f"box.top + ({row} - frame.top) / frame.height * box.height]; }})()"
        self.browser.click(*self.browser.value(place))

    def click(self, control: str):
        """Clicks on a control, named by its place in the page."""
        self.browser.value(f"document.querySelector({control!r}).click()")

    def mode(self, name: str):
        self.click(f"input[name=mode][value={name}]")

    def choose(self, name: str, value: object):
        """Gives a control another value."""
        script = f"(() => {{ const one = id({name!r}); one.value = {str(value)!r};"
        self.browser.value(script + " one.dispatchEvent(new Event('change', { bubbles: true })); })()")

    def depths(self, plies: int, wide: int, tree: int):
        for name, value in (("plies", plies), ("wide", wide), ("tree", tree)):
            self.browser.value(f"id({name!r}).value = {str(value)!r}")

    def paste(self, text: str):
        self.browser.value(f"id('text').value = {text!r}")
        self.click("#paste")

    def set_up(self, setting: Setting, way: str):
        """Sets up a board by one of the three ways."""
        size = setting.board.size
        if way == "record":
            self.paste(record(setting))
        elif way == "rows":
            self.paste(rows(setting))
        else:
            self.choose("size", size)
            for colour, vertex in setting.moves:
                if vertex == "PASS":
                    self.browser.value(f"running.then(() => play({colour}, PASS))")
                else:
                    self.mode("black" if colour == 1 else "white")
                    self.click_on(size, vertex)
                    self.read()


def record(setting: Setting) -> str:
    """The moves as a game record."""
    size = setting.board.size
    text = f"(;GM[1]SZ[{size}]C[a \\] in a comment]"
    for colour, vertex in setting.moves:
        point = "" if vertex == "PASS" else LETTERS[gtp.COLUMNS.index(vertex[0])] + LETTERS[size - int(vertex[1:])]
        text += f";{'  BW'[colour + 1]}[{point}]"
    return text + "(;C[the main line])(;B[aa]))"


def rows(setting: Setting) -> str:
    """The board as `showboard` prints it."""
    size, names = setting.board.size, " ".join(gtp.COLUMNS[: setting.board.size])
    shown = [f"{size - row:2} {' '.join(marks)}" for row, marks in enumerate(setting.board.rows())]
    return "\n".join(["= ", *shown, f"   {names}"])


def stones(told: dict, size: int) -> list[str]:
    """The rows of the board that is drawn."""
    cells = [["."] * size for _ in range(size)]
    for name, mark in (("black", "X"), ("white", "O")):
        for column, row in DOT.findall(told[name]):
            cells[int(row)][int(column)] = mark
    return ["".join(row) for row in cells]


def random_setting(gopat, choose: random.Random) -> Setting:
    """A board after random moves."""
    size = choose.choice([2, 3, 4, 5, 5, 6, 7, 7, 9, 9, 13, 19])
    board, moves = gopat.Board(size), []
    for turn in range(choose.randrange(2, 2 + size * size * 2 // 3)):
        vertex = board.vertex(choose.randrange(size * size))
        try:
            board = board.play(1 + turn % 2, vertex)
        except gopat.Refused:
            continue
        moves.append((1 + turn % 2, vertex))
    return Setting(board, moves)


def reply(answer) -> str:
    """An answer as the program prints it."""
    return f"{answer.code} {answer.move}" if answer.code else "0"


class Trial:
    """The questions, and what differs."""

    def __init__(self, gopat, person: Person, seed: int):
        self.gopat, self.person, self.choose = gopat, person, random.Random(seed)
        self.wrong: list[str] = []
        self.counts = {"strings": 0, "proofs": 0, "connections": 0}
        # The lines of a session for each tree, and the replies that are shown to those that ask.
        self.lines: list[list[str]] = [[], []]
        self.expected: list[list[tuple[int, str]]] = [[], []]

    def compare(self, what: str, got: object, wanted: object):
        if got != wanted:
            self.wrong.append(f"{what}: {got!r}, and {wanted!r} is expected")

    def ask_program(self, tree: int, line: str, shown: str):
        self.expected[tree].append((len(self.lines[tree]), shown))
        self.lines[tree].append(line)

    def board(self, number: int) -> None:
        """One board, some questions."""
        setting = random_setting(self.gopat, self.choose)
        way = ["record", "rows", "clicks"][number % 3 if setting.board.size < 8 else number % 2]
        self.person.set_up(setting, way)
        board, size = setting.board, setting.board.size
        if way == "rows":
            board = self.gopat.Board(size, bytes(".XO".index(mark) for row in board.rows() for mark in row))
        self.compare(f"{way} {record(setting)}", stones(self.person.read(), size), board.rows())
        for lines in self.lines:
            lines += [f"boardsize {size}", *(f"play {' bw'[colour]} {vertex}" for colour, vertex in setting.moves)]
            lines += ["play b pass"] if way == "rows" else []
        occupied = [board.vertex(p) for p, mark in enumerate("".join(board.rows())) if mark != "."]
        for vertex in self.choose.sample(occupied, min(len(occupied), 2)):
            self.string(board, vertex)
        if number % 2 == 0 and len(occupied) > 1:
            self.connection(board, *self.choose.sample(occupied, 2))

    def string(self, board, vertex: str) -> None:
        """A question about a string."""
        plies, wide, tree = self.choose.randrange(1, 9), self.choose.randrange(0, 3), self.choose.randrange(2)
        self.person.depths(plies, wide, tree)
        self.person.mode("ask")
        self.person.click_on(board.size, vertex)
        told = self.person.read()
        self.counts["strings"] += 1
        what = f"{record_of(board)} {vertex} {plies} {wide} {tree}"
        self.lines[tree].append(f"depths {plies} {wide}")
        words = vertex, plies, wide, tree == 1
        for kind in ("attack", "defend"):
            self.compare(f"{what} {kind}", told[kind], reply(getattr(board, kind)(*words)))
            moves = board.all_moves(kind, *words)
            self.compare(f"{what} {kind} moves", told[f"{kind}Moves"], " ".join(moves.moves) if moves.code else "")
            self.ask_program(tree, f"{kind} {vertex}", told[kind])
        if self.counts["strings"] % 4 == 0:
            self.proofs(board, what, words, tree)

    def proofs(self, board, what: str, words: tuple, tree: int) -> None:
        """The proofs of both answers that are shown."""
        for number, kind in enumerate(("attack", "defend")):
            self.person.browser.value(f"document.querySelector('#{kind} .proof').open = true")
            self.person.browser.wait(f"document.querySelectorAll('.proof .judged').length > {number}")
            wanted = board.proof(kind, *words)
            told = self.person.read()
            self.compare(f"{what} proof of {kind}", told["words"][number], wanted.text)
            accepts = f"The checker in the module accepts these words as a proof of code {wanted.code}."
            self.compare(f"{what} proof of {kind} is judged", told["judged"][number], accepts)
            self.compare(f"{what} proof of {kind} is followed", "could not follow" in told["answer"], False)
            self.ask_program(tree, f"{kind}_proof {words[0]}", f"{wanted.code} {told['words'][number]}")
            self.counts["proofs"] += 1

    def connection(self, board, a: str, b: str) -> None:
        """A question about two stones."""
        plies = self.choose.randrange(1, 5)
        self.person.depths(plies, 0, 0)
        self.person.mode("connect")
        self.person.click_on(board.size, a)
        self.person.read()
        self.person.click_on(board.size, b)
        told = self.person.read()
        self.counts["connections"] += 1
        self.lines[0].append(f"depths {plies} 0")
        for kind in ("connect", "disconnect"):
            try:
                wanted, refused = reply(getattr(board, kind)(a, b, plies)), ""
                self.ask_program(0, f"{kind} {a} {b}", told[kind])
            except self.gopat.Refused:
                wanted, refused = "", "The two stones have different colours."
            self.compare(f"{record_of(board)} {kind} {a} {b} {plies}", told[kind], wanted)
            self.compare(f"{record_of(board)} {kind} {a} {b}", told["refused"], refused)

    def all(self, questions: int, programs: list[str]) -> int:
        """Asks about so many strings, and then tries what else a person does. Answers the number of boards."""
        self.person.open()
        number = 0
        while self.counts["strings"] < questions:
            self.board(number)
            number += 1
        self.programs(programs)
        for one in (tried_keys, tried_rules, tried_proofs, tried_faults, tried_limits, tried_browsers, tried_looks):
            one(self)
        return number

    def programs(self, paths: list[str]) -> None:
        """What the programs say otherwise."""
        for path, lines, expected in zip(paths, self.lines, self.expected):
            replies, _ = gtp.session([str(pathlib.Path(path).resolve())], lines)
            for at, shown in expected:
                self.compare(f"{path}: {lines[at]}", replies[at].text, shown)


def record_of(board) -> str:
    return "/".join(board.rows())


# What else is tried.


def tried_keys(trial: Trial) -> None:
    """Keys move the cursor, place, ask and undo."""
    person, press = trial.person, trial.person.browser.press
    person.open()
    person.choose("size", 5)
    person.mode("black")
    person.browser.value("id('board').focus()")
    for key in ["ArrowUp"] * 30 + ["ArrowLeft"] * 30 + ["ArrowRight", "ArrowRight", "ArrowDown", " "]:
        press(key)
    told = person.read()
    trial.compare("space places a stone at C4", stones(told, 5), [".....", "..X..", ".....", ".....", "....."])
    trial.compare("the cursor is told", told["here"], "C4: black stone")
    press("Enter")
    trial.compare("Enter asks", person.read()["heading"], "Black's string at C4, with 4 liberties")
    press("u")
    trial.compare("u undoes", stones(person.read(), 5), ["....."] * 5)


def tried_rules(trial: Trial) -> None:
    """A ko, a pass, a capture, suicide, Undo, the eraser, and Clear."""
    person = trial.person
    person.open()
    person.choose("example", "a ko")
    before = stones(person.read(), 5)
    trial.compare("the record of the ko", before, [".....", "..XO.", ".XO.O", "..XO.", "....."])
    person.mode("turn")
    person.click_on(5, "D3")
    told = person.read()
    ban = "D3: The ko ban forbids this play. A pass or a play elsewhere lifts it."
    trial.compare("a banned play is told", told["note"], ban)
    trial.compare("a banned play changes nothing", stones(told, 5), before)
    person.click("#pass")
    trial.compare("after the pass it is White's turn", person.read()["turn"], "White")
    person.mode("black")
    person.click_on(5, "D3")
    taken = [".....", "..XO.", ".X.XO", "..XO.", "....."]
    trial.compare("after the pass the ko is taken", stones(person.read(), 5), taken)
    person.click("#undo")
    trial.compare("Undo", stones(person.read(), 5), before)
    person.mode("erase")
    person.click_on(5, "C3")
    trial.compare("the eraser", stones(person.read(), 5)[2], ".X..O")
    person.click("#clear")
    trial.compare("Clear", stones(person.read(), 5), ["....."] * 5)


def tried_proofs(trial: Trial) -> None:
    """Proofs in which backfilling moves are tried, and one in which a lone stone is taken back."""
    person = trial.person
    for what, drawn, vertex, plies, wide, tree in (
        ("backfilling moves", [".X.X", "....", "....", "X.OO"], "B4", 6, 2, 0),
        ("taking back", ["XX...", "OOX..", "X.X.."], "A1", 3, 0, 1),
    ):
        drawn = ["." * len(drawn[0])] * (len(drawn[0]) - len(drawn)) + drawn
        board = trial.gopat.Board.of_rows(drawn)
        person.open()
        person.paste(rows(Setting(board, [])))
        person.read()
        person.depths(plies, wide, tree)
        person.mode("ask")
        person.click_on(board.size, vertex)
        person.read()
        trial.proofs(board, what, (vertex, plies, wide, tree == 1), tree)


def tried_faults(trial: Trial) -> None:
    """What cannot be read is told, and leaves the board as it is."""
    person = trial.person
    person.open()
    before = stones(person.read(), 9)
    for text, told in [
        ("", "0 rows: a board has 2 to 25"),
        ("(;SZ[26];B[aa])", "26 rows: a board has 2 to 25"),
        ("(;SZ[9x];B[aa])", "9x is no size"),
        ("(;SZ[5];B[aa];W[aa])", "Step 2, A5: A stone stands there."),
        ("(;SZ[5];B[zz])", "zz is no point of a board of 5 rows"),
        ("(;SZ[5];B[aa]", "the record does not end: a closing parenthesis is missing"),
        ("(;SZ[2]AB[aa][ab][ba][bb])", "A string on the board has no liberty."),
        (" 2 . .\n 1 . 3", "row 1 does not have 2 points, each . X or O"),
    ]:
        person.paste(text)
        shown = person.read()
        trial.compare(f"pasting {text}", shown["note"], told)
        trial.compare(f"pasting {text} changes nothing", stones(shown, 9), before)
    person.mode("ask")
    person.click_on(9, "A1")
    trial.compare("asking about an empty point", person.read()["note"], "A1: No stone stands there.")
    for plies, wide in (("0", "0"), (str(make_page.MOST_PLIES + 1), "0"), ("10", "13"), ("", "0"), ("1.5", "0")):
        person.depths(plies, wide, 0)
        person.click_on(9, "D4")
        trial.compare(f"depths {plies} {wide} are not asked", person.read()["heading"], "")


def tried_limits(trial: Trial) -> None:
    """The longest question is stopped while the page goes on, and the deepest is answered."""
    person, value = trial.person, trial.person.browser.value
    person.open()
    person.paste(rows(crowded(trial.gopat, trial.choose)))
    person.read()
    person.depths(make_page.MOST_PLIES, 12, 1)
    person.mode("ask")
    target = value("vertexOf(shown.board.size, shown.board.cells.findIndex((cell, point) => cell !== 0 && "
                   "stringAt(shown.board.size, shown.board.cells, point).liberties.size === 3))")
    person.click_on(19, target)
    person.browser.wait("!id('stop').disabled")
    trial.compare("the page goes on", value("1 + 1"), 2)
    person.click("#stop")
    trial.compare("Stop is told", "Stopped." in person.read()["answer"], True)
    person.paste(long_ladder())
    person.read()
    person.depths(make_page.MOST_PLIES, 0, 0)
    person.click_on(25, "D4")
    told = person.read()
    trial.compare("a ladder over the whole board", (told["attack"], told["defend"]), ("3 E4", "0"))
    person.browser.value("document.querySelector('#defend .proof').open = true")
    person.browser.wait("document.querySelector('#defend .judged')")
    judged = ["The checker in the module accepts these words as a proof of code 0."]
    trial.compare("its proof", person.read()["judged"], judged)


def crowded(gopat, choose: random.Random) -> Setting:
    """A board of 19 rows with many stones."""
    board = gopat.Board(19)
    for turn in range(170):
        try:
            board = board.play(1 + turn % 2, board.vertex(choose.randrange(361)))
        except gopat.Refused:
            continue
    return Setting(board, [])


def long_ladder() -> str:
    """A ladder that goes over a board of 25 rows."""
    stones_at = {"X": ["C3", "D3", "E3", "C4", "D5"], "O": ["D4"]}
    marks = {vertex: mark for mark, vertices in stones_at.items() for vertex in vertices}
    rows_of = ([marks.get(f"{column}{row}", ".") for column in gtp.COLUMNS] for row in range(25, 0, -1))
    return "\n".join(f"{25 - number:2} {' '.join(row)}" for number, row in enumerate(rows_of))


def tried_browsers(trial: Trial) -> None:
    """A browser without 64-bit memory, one without WebAssembly, and damaged modules."""
    person = trial.person
    missing = "!document.getElementById('missing').hidden"
    shown = "[id('missing').textContent, id('app').hidden]"
    for before, told in [
        ("WebAssembly.validate = () => false;", "This browser has no 64-bit memory for WebAssembly."),
        ("delete globalThis.WebAssembly;", "This browser has no WebAssembly."),
    ]:
        person.open(before=before, ready=missing)
        text, is_hidden = person.browser.value(shown)
        trial.compare(before, (text.startswith(told), is_hidden), (True, True))
    page = PAGE.read_text(encoding="utf-8")
    start = page.index('id="module">') + len('id="module">\n')
    with tempfile.TemporaryDirectory() as room:
        for name, damaged in [
            ("cut", page[: start + 4000] + page[page.index("</script>", start):]),
            ("changed", page[:start] + "BBBB" + page[start + 4 :]),
            ("empty", page[:start] + page[page.index("</script>", start):]),
            ("no text", page[:start] + "%" + page[start + 1 :]),
        ]:
            path = pathlib.Path(room) / f"{name.replace(' ', '_')}.html"
            path.write_text(damaged, encoding="utf-8")
            person.open(path, ready=missing)
            text, is_hidden = person.browser.value(shown)
            start_of = "The module in this page cannot be used, so nothing can be asked:"
            trial.compare(f"a module that is {name}", (text.startswith(start_of), is_hidden), (True, True))


UNNAMED = """[...document.querySelectorAll("input, select, textarea, button, summary, svg[role]")].filter((one) =>
  !(one.labels?.length || one.textContent.trim() || one.getAttribute("aria-label"))).map((one) => one.outerHTML)"""


def tried_looks(trial: Trial) -> None:
    """Widths and screens, names of controls, and that no other file is asked for."""
    person, value = trial.person, trial.person.browser.value
    for width in (420, 1200):
        for scheme in ("light", "dark"):
            person.browser.screen(width, 1000, scheme)
            person.open()
            person.choose("size", 25)
            person.mode("ask")
            person.paste(long_ladder())
            person.read()
            person.click_on(25, "D4")
            heading = person.read()["heading"]
            trial.compare(f"a click at {width} points", heading, "White's string at D4, with 1 liberty")
            wide = value("document.documentElement.scrollWidth")
            trial.compare(f"the width at {width} points, {scheme}", wide <= width, True)
    trial.compare("controls without a name", value(UNNAMED), [])
    loaded = value("performance.getEntriesByType('resource').map((one) => one.name)")
    trial.compare("other files", [one for one in loaded if not one.startswith(("blob:", "data:"))], [])
    person.browser.screen(1200, 1000)


def picture(chromium: str, out: str) -> int:
    """Writes the page as a picture."""
    with Browser(chromium) as browser:
        person = Person(browser)
        browser.screen(1000, 765)
        person.open()
        person.choose("example", "four stones in a corner")
        person.read()
        person.depths(20, 4, 0)
        person.click_on(9, "C2")
        person.read()
        pathlib.Path(out).write_bytes(browser.picture(whole=False))
    print(f"{out}: {pathlib.Path(out).stat().st_size:,} bytes")
    return 0


def library(folder: pathlib.Path):
    """The Python door over the library that GOPAT_LIBRARY names, else over the one that is made now."""
    if "GOPAT_LIBRARY" not in os.environ:
        os.environ["GOPAT_LIBRARY"] = str(try_doors.shared_library(folder))
    sys.path.insert(0, "python")
    import gopat

    return gopat


def main(chromium: str, questions: str, seed: str = "1", *programs: str) -> int:
    if questions == "--picture" and not programs:
        return picture(chromium, seed)
    if not (questions.isdigit() and seed.isdigit() and len(programs) in (0, 2)):
        print(__doc__, file=sys.stderr)
        return 2
    with tempfile.TemporaryDirectory() as room, Browser(chromium) as browser:
        browser.screen(1200, 1000)
        trial = Trial(library(pathlib.Path(room)), Person(browser), int(seed))
        number = trial.all(int(questions), list(programs))
    print(f"{number} boards, " + ", ".join(f"{count} {name}" for name, count in trial.counts.items()), end="")
    print(f": {len(trial.wrong)} differ")
    print("\n".join(trial.wrong[:20]))
    return int(bool(trial.wrong))


if __name__ == "__main__":
    command_line.run(main, __doc__)
