"""Runs the scripts that draw, on docs/examples and on the small inputs of tools/expected/inputs, and compares.

usage: python3 tools/try_tools.py [--store] [GOPAT [CHECK_PROBLEMS]]

It runs at the top of a clone. Each run is compared with what is stored in tools/expected: the output, what is said on
standard error, and the exit status. In the place of gopat stands stored_replies.py, with replies that gopat once gave;
with GOPAT this program is asked instead, and has to lead to the same outputs. A page of problems is made of objects
that are stored too; with CHECK_PROBLEMS they come from this program. With --store all outputs are stored anew, and what
the programs said with them.

Besides, these have to be so of all outputs: a page has no script, asks for no other file, closes what it opens, and
each of its links has a target; a board of each size from 2 to 25, and parts of it, are drawn with nothing cut off, and
the picture and the text have the stones of the position; a diagram fits where docs/FORMATS.md says; in a record each
move is one that the rules allow, or breaks nothing but the ko ban and says so; the examples of proofs are judged as
they should be; and the pictures of docs/pictures are those that plot_costs.py draws. Prints what differs. The exit
status is 1 where something does.
"""

import html.parser
import itertools
import pathlib
import re
import shlex
import subprocess
import sys
import tempfile
from typing import Callable, Iterator, NamedTuple

import board_picture
import check_proofs
import command_line
import database
import diagrams
import go_rules
import plot_costs
import positions
import sgf

TOOLS, EXPECTED, INPUTS, EXAMPLES = "tools", "tools/expected", "tools/expected/inputs", "docs/examples"


class Run(NamedTuple):
    """A run of a script: a name, the words of its command line, in which {gopat} stands for the program, {out} for a
    new folder and {objects} for what check_problems printed, the exit status, what comes on standard input, and the
    words behind check_problems."""

    name: str
    words: str
    status: int = 0
    given: str = ""
    checked: str = ""


class Programs(NamedTuple):
    """The programs that are asked, if any are, and whether what they say is stored."""

    gopat: str | None
    check_problems: str | None
    is_stored: bool


# A hundred pages of one problem each, as long as this, have less than 3 MB.
MOST_BYTES = 30_000
# A net on {INPUTS}/net.gtp, which the wider tree has and the stated one has not.
NET = (
    "3 W D3 * E3 * D2 * E1 . C2 * E1 . D2 . E4 * D2 * E1 . C2 * E1 . E5 * D2 . C2 . C2 * E3 * E1 . E4 * E1 . E3 . "
    "E3 * D2 . C2 ."
)
# Both trees have the same answers at these depths.
FIRST_CAPTURES = "--number 2 --size 5 --stones 6:10 --depths 3:0 --plies 1:3 --seed 5"
ATARI = f"{EXAMPLES}/atari.db {EXAMPLES}/hane.db"
PAGE = "problem_page.py {objects}"
RUNS = [
    Run("board.svg", f"board_picture.py {EXAMPLES}/record.sgf --numbers --last --triangle D4 --label D3=A"),
    Run("part.svg", f"board_picture.py {EXAMPLES}/problem.gtp --part A1:E4 --square C2 --cross A1 --circle D2"),
    Run("board.txt", f"board_picture.py {EXAMPLES}/record.sgf --form text --numbers --last --triangle D4 --label D3=A"),
    Run("part.txt", f"board_picture.py {EXAMPLES}/problem.gtp --form text --part A1:E4 --label A1=a --label C2=b"),
    Run("setup.txt", f"board_picture.py {INPUTS}/setup.sgf --form text --numbers"),
    Run("problem.svg", f"board_picture.py {EXAMPLES}/problem.gtp --part A1:J5 --triangle C1"),
    Run("matches.svg", f"show_matches.py {{gopat}} {EXAMPLES}/problem.gtp b {EXAMPLES}/play.db --svg"),
    Run("row.html", f"board_picture.py {INPUTS}/corner.gtp --form row"),
    Run("board.html", f"board_picture.py {INPUTS}/ko.gtp --form page"),
    Run("off_board.txt", f"board_picture.py {INPUTS}/ko.gtp --label F6=A", 2),
    Run("record_proof.sgf", f"proof_as_sgf.py {EXAMPLES}/record.sgf attack D4 3:2", 0, "=1 3 W D3 .\n\n"),
    Run("no_proof.txt", f"proof_as_sgf.py {EXAMPLES}/record.sgf attack D4 3:2", 1, "=1 3 W C3 .\n\n"),
    Run("no_reply.txt", f"proof_as_sgf.py {EXAMPLES}/record.sgf attack D4 3:2", 2, "? proof too long\n\n"),
    Run("no_stone.txt", f"proof_as_sgf.py {EXAMPLES}/record.sgf attack A1 3:2", 2, "=1 3 W D3 .\n\n"),
    Run("ko_proof.sgf", f"proof_as_sgf.py {INPUTS}/ko.gtp attack C3 3:4 --gopat {{gopat}}"),
    Run("corner_proof.sgf", f"proof_as_sgf.py {INPUTS}/corner.gtp defend A1 2:0 --gopat {{gopat}}"),
    Run("ladder_proof.sgf", f"proof_as_sgf.py {EXAMPLES}/ladder.gtp defend D4 20:0 --gopat {{gopat}}"),
    Run("wider_proof.sgf", f"proof_as_sgf.py {INPUTS}/net.gtp attack E2 7:3 --wider", 0, NET),
    Run("not_stated.txt", f"proof_as_sgf.py {INPUTS}/net.gtp attack E2 7:3", 1, NET),
    Run("problem_proof.sgf", f"proof_as_sgf.py {EXAMPLES}/problem.gtp attack C1 20:4 --gopat {{gopat}}"),
    Run("problem_line.sgf", f"proof_as_sgf.py {EXAMPLES}/problem.gtp attack C1 20:4 --shortest --gopat {{gopat}}"),
    Run("ladder_line.sgf", f"proof_as_sgf.py {EXAMPLES}/ladder.gtp defend D4 20:0 --shortest --gopat {{gopat}}"),
    Run("ladder.svg", f"board_picture.py {EXPECTED}/ladder_line.sgf --numbers"),
    Run("alone_proof.sgf", f"proof_as_sgf.py {INPUTS}/alone.gtp attack D4 20:1 --gopat {{gopat}}"),
    Run("two_proof.sgf", f"proof_as_sgf.py {INPUTS}/two.gtp attack D4 20:1 --gopat {{gopat}}"),
    Run("odd.html", f"show_matches.py {{gopat}} {EXAMPLES}/hane.gtp b {INPUTS}/odd.db"),
    Run("odd.sgf", f"show_matches.py {{gopat}} {EXAMPLES}/hane.gtp b {INPUTS}/odd.db --sgf"),
    Run("matches.html", f"show_matches.py {{gopat}} {EXAMPLES}/hane.gtp b {ATARI}"),
    Run("matches.sgf", f"show_matches.py {{gopat}} {EXAMPLES}/hane.gtp b {ATARI} --sgf"),
    Run("functions.sgf", f"show_matches.py {{gopat}} {EXAMPLES}/functions.gtp b {EXAMPLES}/functions.db --sgf"),
    Run("faulty.txt", f"show_matches.py {{gopat}} {EXAMPLES}/hane.gtp b {EXAMPLES}/hane.db {ATARI}", 2),
    Run("catalogue.html", f"pattern_pages.py {INPUTS}/edges.db {INPUTS}/odd.db"),
    Run("found.html", f"pattern_pages.py {EXAMPLES}/hane.db --records {INPUTS}/records --moves 0,2 --gopat {{gopat}}"),
    Run("problems.html", PAGE, checked=f"--depths 3 1 --anywhere --proof --json {INPUTS}/problems"),
    Run("unexpected.html", PAGE, 1, checked=f"--depths 3 1 --json {INPUTS}/unexpected"),
    Run("long.html", PAGE, checked=f"--anywhere --proof --json {INPUTS}/long"),
    Run("random_problems.txt", f"make_problems.py {{gopat}} {{out}} {FIRST_CAPTURES}"),
    Run("no_depths.txt", "make_problems.py {gopat} {out} --depths 6", 2),
    Run("no_suites.txt", f"suites_as_records.py {INPUTS} {{out}}", 2),
    Run("README.md", f"problem_index.py {EXAMPLES}/problems"),
    Run("no_index.txt", f"problem_index.py {INPUTS}/records", 2),
    Run("no_problem.txt", "problem_page.py -", 2),
]
# What stands in the documents, and where.
IN_DOCUMENTS = {
    **dict.fromkeys(("problem.svg", "ladder.svg", "matches.svg"), plot_costs.OUT), "README.md": f"{EXAMPLES}/problems",
}
SCRIPTS = sorted({run.words.split()[0] for run in RUNS} | {"plot_costs.py", "look_at_pages.py", "stored_replies.py"})


# Running.


class Done(NamedTuple):
    """What came of a run."""

    status: int
    out: str
    told: str


def execute(words: list[str], given: str = "") -> Done:
    """Runs a script."""
    command = [sys.executable, f"{TOOLS}/{words[0]}", *words[1:]]
    done = subprocess.run(command, input=given, capture_output=True, text=True, check=False)
    return Done(done.returncode, done.stdout, done.stderr)


def program(run: Run, programs: Programs) -> str:
    """What a run asks in the place of gopat."""
    replies, gopat = f"{EXPECTED}/{run.name}.replies", programs.gopat
    stands_in = f"{sys.executable} {TOOLS}/stored_replies.py"
    if gopat is None:
        return f"{stands_in} {replies}"
    return f"{stands_in} --store {replies} {gopat}" if programs.is_stored else gopat


def objects(run: Run, programs: Programs, room: str) -> str:
    """The file with what check_problems prints, or once printed."""
    stored = f"{EXPECTED}/{run.name}.objects"
    if not run.checked or programs.check_problems is None:
        return stored
    path = stored if programs.is_stored else f"{room}/objects"
    with open(path, "w", encoding="utf-8") as file:
        words = [programs.check_problems, *shlex.split(run.checked)]
        subprocess.run(words, stdout=file, stderr=subprocess.DEVNULL, check=False)
    return path


def done_of(run: Run, programs: Programs) -> Done:
    """Runs a script with its words."""
    with tempfile.TemporaryDirectory() as room:
        stand = {"{gopat}": program(run, programs), "{objects}": objects(run, programs, room), "{out}": room}
        words = shlex.split(run.words)
        for name, value in stand.items():
            words = [word.replace(name, value) for word in words]
        return execute(words, run.given)


def shown(done: Done) -> str:
    """The output of a run as it is stored, with what was said on standard error before it."""
    return "".join(f"! {line}\n" for line in done.told.splitlines()) + done.out


def compare(run: Run, done: Done, is_stored: bool) -> Iterator[str]:
    """What is wrong with a run; with `is_stored` its output is stored instead."""
    path = pathlib.Path(IN_DOCUMENTS.get(run.name, EXPECTED)) / run.name
    if is_stored:
        path.write_text(shown(done), encoding="utf-8")
    if done.status != run.status:
        yield f"{run.name}: status {done.status}, and {run.status} is expected: {done.told}"
    if shown(done) != path.read_text(encoding="utf-8"):
        yield f"{run.name}: another output than {path}"


# What holds of every page.


VOID = {"meta", "link", "br", "hr", "img", "input"}


class Page(html.parser.HTMLParser):
    """A page while it is looked through: what is open, what is wrong, and the targets and the links so far."""

    def __init__(self, name: str):
        super().__init__()
        self.name, self.open, self.wrong = name, [], []
        self.targets: list[str] = []
        self.links: list[str] = []

    def handle_starttag(self, tag: str, attrs: list[tuple[str, str | None]]):
        found = dict(attrs)
        if tag == "script" or "src" in found or any(name.startswith("on") for name in found):
            self.wrong.append(f"{self.name}: <{tag}> with {found}")
        if "href" in found and not (found["href"] or "").startswith("#"):
            self.wrong.append(f"{self.name}: a link to {found['href']}")
        self.links += [found["href"][1:]] if found.get("href", "").startswith("#") else []
        self.targets += [found["id"]] if "id" in found else []
        self.open += [] if tag in VOID else [tag]

    def handle_startendtag(self, tag: str, attrs: list[tuple[str, str | None]]):
        self.handle_starttag(tag, attrs)
        if tag not in VOID:
            self.open.pop()

    def handle_endtag(self, tag: str):
        if not self.open or self.open.pop() != tag:
            self.wrong.append(f"{self.name}: </{tag}> closes nothing")


def look_through(name: str, text: str) -> Iterator[str]:
    """What is wrong with a page or a picture."""
    page = Page(name)
    page.feed(text)
    yield from page.wrong
    yield from (f"{name}: <{tag}> is left open" for tag in page.open)
    yield from (f"{name}: nothing has the name {link}" for link in set(page.links) - set(page.targets))
    if len(set(page.targets)) != len(page.targets):
        yield f"{name}: two things have one name"
    if "@import" in text or "url(" in text:
        yield f"{name}: it asks for another file"


# What holds of every board.


NUMBER = r"(-?[\d.]+)"
FRAME = re.compile(rf'viewBox="{NUMBER} {NUMBER} {NUMBER} {NUMBER}"')
DOTS = re.compile(r'<path class="(b|w)" d="([^"]*)"/>')
DOT = re.compile(rf"M{NUMBER} {NUMBER}h0")
ROUND = re.compile(rf'<circle [^>]*cx="{NUMBER}" cy="{NUMBER}" r="{NUMBER}"')
TEXT = re.compile(rf'<text class="(?:name|text)[^"]*" x="{NUMBER}" y="{NUMBER}"(?: font-size="{NUMBER}")?>([^<]*)<')
STONE = 0.47


def extents(text: str) -> Iterator[tuple[float, float, float, float]]:
    """Left, top, right and bottom of each stone, disc and text of a picture. A letter is at most three quarters of its
    size wide."""
    for dots in DOTS.finditer(text):
        for x, y in (map(float, dot.groups()) for dot in DOT.finditer(dots[2])):
            yield x - STONE, y - STONE, x + STONE, y + STONE
    for x, y, radius in (map(float, one.groups()) for one in ROUND.finditer(text)):
        yield x - radius, y - radius, x + radius, y + radius
    for one in TEXT.finditer(text):
        x, y, size = float(one[1]), float(one[2]), float(one[3] or 0.44)
        half = 0.375 * size * len(one[4])
        yield x - half, y - 0.75 * size, x + half, y + 0.1 * size


def cut_off(name: str, text: str) -> Iterator[str]:
    """What of a picture lies outside its frame."""
    frame = FRAME.search(text)
    if not frame:
        yield f"{name}: no picture"
        return
    left, top, width, height = map(float, frame.groups())
    for extent in extents(text):
        if extent[0] < left or extent[1] < top or extent[2] > left + width or extent[3] > top + height:
            yield f"{name}: {extent} is cut off by the frame {left} {top} {width} {height}"


def stones_of(text: str) -> dict[tuple[int, int], str]:
    """The colour of each stone of a picture, by its row and column."""
    return {
        (int(dot[2]), int(dot[1])): dots[1] for dots in DOTS.finditer(text) for dot in DOT.finditer(dots[2])
    }


def full_position(size: int) -> go_rules.Position:
    """A position with stones in all corners, along the edges and in the middle."""
    cells = bytearray(size * size)
    for point in range(size * size):
        row, column = divmod(point, size)
        if row in (0, size - 1) or column in (0, size - 1) or row == column:
            cells[point] = 1 + (row + column) % 2
    return go_rules.Position(size, bytes(cells))


def boards() -> Iterator[tuple[str, go_rules.Position, board_picture.Frame]]:
    """Each size with its whole board and with parts at two corners, at an edge and in the middle."""
    for size in range(2, 26):
        position, half = full_position(size), size // 2
        whole, first, last, inner = (0, size - 1), (0, half), (half, size - 1), (min(1, half), max(size - 2, half))
        for rows, columns in ((whole, whole), (first, last), (last, first), (inner, whole), (inner, inner)):
            yield f"size {size}, rows {rows}, columns {columns}", position, board_picture.Frame(size, *rows, *columns)


def wrong_boards() -> Iterator[str]:
    """What is wrong with the pictures of boards."""
    for name, position, frame in boards():
        picture = board_picture.of_position(position, frame)
        wanted = {tuple(spot): colour for spot, colour in picture.stones.items()}
        lines = board_picture.text(picture)
        for at, spot in enumerate(picture.spots()):
            picture.labels[spot] = "ABC"[: at % 4]
            picture.marks[spot] = ["last", "circle", "good", "bad"][at % 4]
        drawing = board_picture.svg(picture)
        yield from cut_off(name, drawing)
        yield from look_through(name, drawing)
        if stones_of(drawing) != wanted:
            yield f"{name}: the picture has other stones"
        inside = [position.cells[row * position.size + column] for row in range(frame.top, frame.bottom + 1)
                  for column in range(frame.left, frame.right + 1)]
        signs = [".XO"[cell] for cell in inside]
        if re.findall(r"[.XO]", "".join(rows_of(lines, frame))) != signs:
            yield f"{name}: the text has other stones"


def rows_of(text: str, frame: board_picture.Frame) -> list[str]:
    """The lines of a text that are rows of the board."""
    lines = text.splitlines()
    first = 1 if frame.top == 0 and not lines[0].strip()[0].isdigit() else 0
    return lines[first : first + frame.bottom - frame.top + 1]


# What holds of diagrams. On the boards X is black, the friend, and O is white, as showboard has them.


# The boards on which the diagram `O*`, `.X` fits with its star in the middle, one for each transformation from 0 on.
TURNED = [
    ".../X../.O.", ".X./O../...", ".O./..X/...", ".../..O/.X.",
    ".../..X/.O.", ".../O../.X.", ".O./X../...", ".X./..O/...",
]
# What each letter of a diagram admits, and on which of the points left, top, right and bottom an edge at the left side
# fits after each transformation.
ADMITTED = {"O": "X", "X": "O", "o": "X.", "x": "O.", ".": ".", "?": "XO."}
LEFT_EDGE = ["left", "top", "right", "bottom", "right", "bottom", "left", "top"]
ENDS = {"left": 3, "top": 1, "right": 5, "bottom": 7}


def diagram(rows: str) -> diagrams.Diagram:
    """The diagram of these lines."""
    text = "\n".join(["Pattern A", *rows.split("/"), ":8,s", ""])
    return diagrams.entry_of(database.entries(text.encode(), set())[0]).diagram


def fits(rows: str, turn: int, board: str, star: int) -> bool:
    """Whether a diagram fits for Black on a board of three rows."""
    cells = bytes(".XO".index(letter) for letter in board.replace("/", ""))
    return diagrams.fits(diagrams.turned(diagram(rows), turn), go_rules.Position(3, cells), star, go_rules.BLACK)


def wrong_diagrams() -> Iterator[str]:
    """What is wrong with where diagrams fit."""
    for turn, board in itertools.product(range(8), TURNED):
        if fits("O*/.X", turn, board, 4) != (TURNED[turn] == board):
            yield f"O*/.X at transformation {turn} on {board}"
    for letter, cell in itertools.product(ADMITTED, "XO."):
        if fits(f"{letter}*", 0, f".../{cell}../...", 4) != (cell in ADMITTED[letter]):
            yield f"{letter} on {cell}"
    for turn, end in itertools.product(range(8), ENDS):
        if fits("|*", turn, ".../.../...", ENDS[end]) != (LEFT_EDGE[turn] == end):
            yield f"an edge at transformation {turn} at the {end}"


# What holds of every record.


def wrong_moves(name: str, node: sgf.Node, before: positions.Situation) -> Iterator[str]:
    """What is wrong with the moves of a record from a node on."""
    is_ko = "KO" in node.properties
    position = before.position
    if is_ko and position.ban is None:
        yield f"{name}: KO where there is no ban"
    free = before._replace(position=position._replace(ban=None)) if is_ko else before
    try:
        after = positions.after_node(free, node)
    except positions.NotRead as why:
        yield f"{name}: {why}"
        return
    if not node.children and name.endswith("_proof.sgf") and not node.texts("C"):
        yield f"{name}: a line of play ends without a reason"
    for child in node.children:
        yield from wrong_moves(name, child, after)


def wrong_record(run: Run, text: str) -> Iterator[str]:
    """What is wrong with a record. A ban that stands before its first move is not in it."""
    try:
        root = sgf.tree(text)
    except sgf.NoTree as why:
        yield f"{run.name}: {why}"
        return
    size = positions.size_of(root)
    ko = positions.read(run.words.split()[1]).position.ban if run.words.startswith("proof_as_sgf") else None
    first = positions.after_node(positions.first(size), root)
    for child in root.children:
        yield from wrong_moves(run.name, child, first._replace(position=first.position._replace(ban=ko)))


# The pictures of the documents, and the words of all scripts.


def wrong_pictures() -> Iterator[str]:
    """Which pictures of docs/pictures are other than those drawn now."""
    with tempfile.TemporaryDirectory() as room:
        done = execute(["plot_costs.py", plot_costs.FIGURES, room])
        if done.status:
            yield f"plot_costs.py: {done.told}"
        for path in sorted(pathlib.Path(room).iterdir()):
            kept = pathlib.Path(plot_costs.OUT) / path.name
            drawn = path.read_text(encoding="utf-8")
            yield from look_through(path.name, drawn)
            if not kept.exists() or kept.read_text(encoding="utf-8") != drawn:
                yield f"{kept}: not as it is drawn now"


def wrong_words() -> Iterator[str]:
    """Which script does not tell its usage at --help, or takes words that are none, or too few."""
    for script in SCRIPTS:
        asked, none = execute([script, "--help"]), execute([script, "--no-such-word", "-x", "-y", "-z", "1", "2", "3"])
        if asked.status != 0 or f"usage: python3 tools/{script}" not in asked.out:
            yield f"{script} --help: status {asked.status}"
        if none.status != 2 or none.out:
            yield f"{script} --no-such-word: status {none.status}"
        if script != "plot_costs.py" and execute([script]).status != 2:
            yield f"{script} without words: not status 2"


def wrong_proofs() -> Iterator[str]:
    """Whether examples of proofs are judged otherwise than docs/PROOFS_OF_READINGS.md has them."""
    count = check_proofs.wrong_examples()
    if count:
        yield f"{count} examples of proofs are judged otherwise"


CHECKS: list[Callable[[], Iterator[str]]] = [wrong_boards, wrong_diagrams, wrong_proofs, wrong_pictures, wrong_words]


def check(run: Run, programs: Programs) -> Iterator[str]:
    """What is wrong with a run and its output."""
    done = done_of(run, programs)
    yield from compare(run, done, programs.is_stored)
    if run.name.endswith((".html", ".svg")):
        yield from look_through(run.name, done.out)
    if run.name == "long.html" and (len(done.out) > MOST_BYTES or "left out here" not in done.out):
        yield f"{run.name}: {len(done.out)} bytes, or nothing is left out"
    if run.name.endswith(".svg"):
        yield from cut_off(run.name, done.out)
    if run.name.endswith(".sgf"):
        yield from wrong_record(run, done.out)


def main(*words: str) -> int:
    is_stored = words[:1] == ("--store",)
    named = words[1:] if is_stored else words
    if len(named) > 2 or any(word.startswith("--") for word in named):
        print(__doc__, file=sys.stderr)
        return 2
    gopat, check_problems, *_ = *named, None, None
    programs = Programs(gopat, check_problems, is_stored)
    wrong = [line for run in RUNS for line in check(run, programs)]
    wrong += [line for one in CHECKS for line in one()]
    print("\n".join([*wrong, f"{len(RUNS)} runs and {len(CHECKS)} checks, {len(wrong)} differ"]))
    return 1 if wrong else 0


if __name__ == "__main__":
    command_line.run(main, __doc__)
