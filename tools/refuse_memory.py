"""Refuses gopat's allocations one at a time, and checks what its contracts say of each.

usage: python3 tools/refuse_memory.py GOPAT

The proved program is run over some sessions: lines of the board and of readings with ids, two readings with a distant
move between them, a pattern file with constraints, a record with printed proofs and connections, chosen moves with
commands of helpers, and 200 generated lines. For each number N the Nth allocation is refused by a library that is
loaded before the C library (refusing_malloc.c, built with `cc`). Then one of these has to hold:

- the program ends with status 3 and the note `out of memory`, before the first line;
- one line is answered `out of memory`, or `cannot load file` where it loads a record, and all other replies are those
  of a session without that line;
- all replies are as with ample memory, and one keeping of a reading is counted as refused, or none.

It prints for each session how many allocations there are and what each kind gave. The exit status is 1 where anything
else came.
"""

import os
import subprocess
import tempfile
from collections import Counter
from pathlib import Path
from typing import NamedTuple

import command_line
import gtp

HERE = Path(__file__).resolve().parent
SIZE = 9


class Ran(NamedTuple):
    """What a run wrote, and how it ended."""

    status: int
    replies: list[str]
    notes: list[str]


class Session(NamedTuple):
    """A session with the program: its name, its words, its lines, and a pattern file or nothing."""

    name: str
    words: list[str]
    lines: list[str]
    patterns: str | None


def generated_lines(count: int) -> list[str]:
    """The lines of `--generate` with this number, as docs/FORMATS.md has them."""
    lines = ["boardsize 9", "depths 5 1"]
    x = count
    for i in range(1, count + 1):
        x = (x * 1103515245 + 12345) % 2**31
        row, column = divmod(x // 65536 % (SIZE * SIZE), SIZE)
        vertex = f"{gtp.COLUMNS[column]}{SIZE - row}"
        colour = "b" if i % 2 else "w"
        by_place = {4: "undo", 8: f"attack {vertex}", 12: f"defend {vertex}", 0: f"match_patterns {colour}"}
        lines.append(by_place.get(i % 16, f"play {colour} {vertex}"))
    return lines


GENERATE = ["--generate", "200"]
EXAMPLES = HERE.parent / "docs" / "examples"
HANE = (EXAMPLES / "hane.db").read_text()
NAMED = "Pattern Named\nOX*\n:8,s,value(7),no_ban\n"


def lines(text: str) -> list[str]:
    """The lines of a text, where a semicolon parts them too."""
    return [line.strip() for line in text.strip().replace("\n", ";").split(";")]


def numbered(text: str) -> list[str]:
    """The same with ids."""
    return [f"{number} {line}" for number, line in enumerate(lines(text), start=1)]


BOARD = """
protocol_version; name; version; known_command play; list_commands; boardsize 9; komi 6.5; get_komi
play b D4; play w C4; play w E4; play w D5; showboard; is_legal b D3; all_legal w; countlib D4; findlib D4
captures white; attack D4; defend D4; undo; match_patterns b; list_patterns; depths 5 1; attack D4
clear_board; play b D4; nonsense; quit
"""
READINGS = "play b D4; play w C4; play w E4; play w D5; attack D4; play b Q16; attack D4; undo; attack D4"
PATTERNS = """
list_patterns; boardsize 5; play w D3; play b C4; play b C3; match_patterns w; match_patterns b; undo; match_patterns w
"""
RECORD = f"""
depths 3 2; loadsgf {EXAMPLES / "record.sgf"}; attack_proof D4; defend_proof D4; check_proof attack D4 3 W D3 .
connect C4 D5; disconnect C4 D5; play b D3; undo; loadsgf {EXAMPLES / "hane.db"}; undo; showboard
"""
CHOICES = """
boardsize 5; play w D3; play b C3; reg_genmove w; genmove w; helper_calls no_ban; helper_off no_ban; reg_genmove w
helper_drop near_edge; helper_calls near_edge; helper_calls no_ban; showboard
"""

SESSIONS = [
    Session("the board and readings", ["--stats"], numbered(BOARD), None),
    Session("two readings and a distant move", ["--stats", "--depth", "3"], lines(READINGS), None),
    Session("patterns with a constraint", ["--stats"], lines(PATTERNS), HANE),
    Session("a record, proofs and connections", ["--stats"], numbered(RECORD), None),
    Session("chosen moves and helpers", ["--stats"], numbered(CHOICES), NAMED),
    Session("200 generated lines", ["--stats", *GENERATE], generated_lines(200), HANE),
]


def build_library(folder: Path) -> Path:
    """The library that refuses an allocation."""
    library = folder / "refusing_malloc.so"
    subprocess.run(["cc", "-O2", "-shared", "-fPIC", "-o", library, HERE / "refusing_malloc.c", "-ldl"], check=True)
    return library


def run(gopat: str, session: Session, folder: Path, library: Path | None, refuse: int = 0) -> Ran:
    """Runs the session's lines, with the allocation of that number refused where there is a library."""
    words = list(session.words)
    if session.patterns is not None:
        (folder / "patterns.db").write_text(session.patterns)
        words.append(str(folder / "patterns.db"))
    env = dict(os.environ)
    if library is not None:
        env |= {"LD_PRELOAD": str(library), "REFUSE": str(refuse), "COUNT_FILE": str(folder / "count")}
    text = "".join(line + "\n" for line in session.lines)
    done = subprocess.run([gopat, *words], input=text, capture_output=True, text=True, env=env, check=False, timeout=60)
    replies = done.stdout.split("\n\n")[:-1] if done.stdout else []
    return Ran(done.returncode, replies, done.stderr.splitlines())


def is_excuse(reply: str) -> bool:
    """Whether the reply is a refusal that may come for want of memory, with or without an id."""
    return reply.startswith("?") and reply.endswith((" out of memory", " cannot load file"))


def counts(notes: list[str]) -> dict[str, int]:
    """The numbers of the note that `--stats` gives."""
    words = notes[0].split()
    return {words[i]: int(words[i + 1]) for i in range(0, 8, 2)}


def command_of(line: str) -> str:
    """The command of a line, without its id and its arguments."""
    words = line.split()
    return words[1] if words[0].isdigit() else words[0]


def without(session: Session, place: int) -> Session:
    """The session without the line at a place, with the lines that are left as its input."""
    words = [word for word in session.words if word not in GENERATE]
    return session._replace(words=words, lines=session.lines[:place] + session.lines[place + 1 :])


def told(gopat: str, session: Session, folder: Path, ample: Ran, ran: Ran) -> tuple[str, str | None]:
    """What the refused allocation gave, and what is wrong with it, if anything."""
    if ran.status == 3:
        fits = not ran.replies and ran.notes == ["out of memory"]
        return "status 3", None if fits else f"{ran}"
    refused = [i for i, reply in enumerate(ran.replies) if is_excuse(reply)]
    if ran.status != 0 or len(refused) > 1:
        return "fault", f"status {ran.status}, {len(refused)} lines refused, {ran.notes}"
    if refused:
        wanted = run(gopat, without(session, refused[0]), folder, None)
        others = ran.replies[: refused[0]] + ran.replies[refused[0] + 1 :]
        fits = others == wanted.replies and counts(ran.notes) == counts(wanted.notes)
        return f"`{command_of(session.lines[refused[0]])}` refused", None if fits else f"{ran}"
    before, after = counts(ample.notes), counts(ran.notes)
    kind = "keeping refused" if after["refused"] == 1 else "no effect"
    fits = ran.replies == ample.replies and before["readings"] == after["readings"] and after["refused"] <= 1
    return kind, None if fits else f"{ran}"


def tried(gopat: str, session: Session, folder: Path, library: Path) -> bool:
    """Refuses each allocation of the session in turn, prints what came, and says whether all is as it should be."""
    ample = run(gopat, session, folder, library)
    number = int((folder / "count").read_text())
    kinds: Counter[str] = Counter()
    right = number > 0
    for refuse in range(1, number + 1):
        kind, wrong = told(gopat, session, folder, ample, run(gopat, session, folder, library, refuse))
        kinds[kind] += 1
        if wrong is not None:
            right = False
            print(f"  allocation {refuse}: {wrong[:300]}")
    told_kinds = ", ".join(f"{kind} {count}" for kind, count in kinds.most_common())
    print(f"{session.name}: {number} allocations; {told_kinds}")
    return right


def main(program: str) -> int:
    gopat = str(Path(program).resolve())
    with tempfile.TemporaryDirectory() as name:
        folder = Path(name)
        library = build_library(folder)
        results = [tried(gopat, session, folder, library) for session in SESSIONS]
    return 0 if all(results) else 1


if __name__ == "__main__":
    command_line.run(main, __doc__)
