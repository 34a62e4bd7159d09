"""Tries the session of gopat's libraries from outside: builds it, runs the example programs, and compares what it
answers to lines with what the program writes.

usage: python3 tools/try_sessions.py GOPAT LINES [SEED [GOPAT_WIDE]]

It runs at the top of a clone and wants `rt`, a C compiler and Python; GOPAT is the path of the program, and `valgrind`
and the sanitizers of the C compiler are used if they are there. The lines are those of random games on boards of 2 to
25 rows with the patterns below: plays, questions, matches, proofs and game records, a third of them faulty or no
command at all. Each session of 400 lines, of which the last one ends it, goes to the program and, line by line, to the
handle from Python; all that the program writes has to be what the handle answers, byte by byte. The same lines go to a
handle from C, where most buffers are too short at first, also with the sanitizers, and a part of them under valgrind.
With GOPAT_WIDE every second session is one of the wider tree. Then come options, texts and handles that have no answer,
each of which gets the status of its cause, and the examples in the text of python/gopat.py. The last lines are figures:
readings in a second of the processor, new ones and kept ones. The exit status is 1 where anything differs.
"""

import doctest
import os
import pathlib
import random
import shutil
import subprocess
import sys
import tempfile
from typing import Iterator, NamedTuple

import command_line
import gtp
import try_handles
from try_doors import SANITIZERS, VALGRIND, has_sanitizers, processor
from try_handles import HEAP, PATTERNS, many_states

EXAMPLES = pathlib.Path("docs/examples/doors")
CRATE = pathlib.Path("crates/gopat_session_c")
ARCHIVE = CRATE / "out" / "libgopat_session_c.a"
INCLUDES = ["-Icrates/gopat_c", "-Icrates/gopat_matches_c", f"-I{CRATE}"]
TOGETHER, UNDER_VALGRIND = 400, 200
END = b"quit now"
COMMANDS = ["name", "version", "protocol_version", "list_commands", "list_patterns", "showboard", "get_komi", "komi 6"]
# Lines that are refused, or have no words.
FAULTY = [
    b"", b" \t ", b"# nothing", b"1", b"0001 name", b"7 unknown", b"play", b"play b", b"play g A1", b"play b Z99",
    b"boardsize 1", b"boardsize 26", b"boardsize x", b"komi", b"attack", b"attack A1 A2", b"depths 0 0",
    b"depths 201 1", b"depths 3 13", b"undo 1", b"helper_calls nobody", b"helper_off nobody", b"helper_drop nobody",
    b"\xff\xfe", b"name\r", b"12345678901 name", b"4294967295 name", b"4294967296 name", b"name # told", b"\0\1name",
    b"check_proof attack A1 3 W A2 .", b"check_proof attack A1 4 .", b"known_command", b"loadsgf",
    b"match_patterns", b"genmove x", b"connect A1", b"disconnect A1 A1", b"x" * 70000, b"name " * 13107,
]  # fmt: skip


def made(folder: pathlib.Path) -> None:
    """Makes the shared libraries, each named by its variable."""
    try_handles.made(folder)
    subprocess.run(["rt", "lib"], cwd=CRATE, check=True, stdout=subprocess.DEVNULL, stderr=subprocess.DEVNULL)
    library = folder / "libgopat_session_c.so"
    whole = f"-Wl,--whole-archive,{ARCHIVE},--no-whole-archive"
    subprocess.run(["cc", "-shared", "-fPIC", "-o", str(library), whole, str(HEAP)], check=True)
    os.environ["GOPAT_SESSION_LIBRARY"] = str(library)


def compiled(folder: pathlib.Path, source: str, *more: str) -> str:
    """The program that a source in C is compiled to, with these flags too."""
    program = folder / (pathlib.Path(source).stem + "_checked" * bool(more))
    flags = ["-O2", "-Wall", "-Wextra", "-Werror", *INCLUDES, *more]
    subprocess.run(["cc", *flags, "-o", str(program), source, str(HEAP), str(ARCHIVE)], check=True)
    return str(program)


def examples(folder: pathlib.Path, gopat: str) -> Iterator[str]:
    """What each example prints; all have to print the same."""
    environment = os.environ | {"PYTHONPATH": "python"}
    for command in (
        [compiled(folder, str(EXAMPLES / "session.c"))],
        ["python3", str(EXAMPLES / "session.py")],
        ["python3", str(EXAMPLES / "pipe.py"), gopat],
    ):
        done = subprocess.run(command, env=environment, capture_output=True, text=True, check=True)
        yield done.stdout.strip()


def game(choose: random.Random, files: list[str]) -> Iterator[bytes]:
    """The lines of a random game, in which other lines stand."""
    size = choose.choice([2, 3, 4, 5, 5, 6, 7, 9, 9, 13, 19, 25])
    yield f"boardsize {size}".encode()
    while True:
        vertices = gtp.vertices(size)
        some = [choose.choice(vertices) for _ in range(2)]
        colour, way = choose.choice("bw"), choose.random()
        front = f"{choose.randrange(10**6)} " if choose.random() < 0.1 else ""
        if way < 0.3:
            yield f"{front}play {colour} {some[0] if choose.random() < 0.97 else 'pass'}".encode()
        elif way < 0.5:
            kind = choose.choice(["attack", "defend", "attack_proof", "defend_proof", "countlib", "findlib"])
            yield f"{front}{kind} {some[0]}".encode()
        elif way < 0.56:
            yield f"{front}{choose.choice(['connect', 'disconnect'])} {some[0]} {some[1]}".encode()
        elif way < 0.68:
            kinds = ["match_patterns", "genmove", "reg_genmove", "all_legal", "captures"]
            yield f"{front}{choose.choice(kinds)} {colour}".encode()
        elif way < 0.74:
            yield f"{front}{choose.choice(COMMANDS)}".encode()
        elif way < 0.78:
            yield f"depths {choose.choice([1, 2, 3, 5, 8])} {choose.randrange(3)}".encode()
        elif way < 0.8:
            yield choose.choice([b"undo", b"clear_board", f"boardsize {size}".encode()])
        elif way < 0.81:
            yield f"{front}loadsgf {choose.choice(files)}".encode()
        else:
            yield front.encode() + choose.choice(FAULTY)


class Asked(NamedTuple):
    """The lines of a session, the depths that it begins with, what the handle answers to each line, and at which lines
    it says that the session ends."""

    lines: list[bytes]
    depths: tuple[int, int]
    wider: bool
    replies: list[bytes]
    ends: list[int]


def asked(gopat, choose: random.Random, wider: bool, files: list[str]) -> Asked:
    """A session that is asked from Python."""
    lines = [*(line for line, _ in zip(game(choose, files), range(TOGETHER - 1))), END]
    depths = choose.choice([(3, 0), (5, 1), (8, 2)])
    with gopat.Session(PATTERNS, *depths, wider) as session:
        told = [session.line(line) for line in lines]
    replies = [one.text.encode("utf-8", "surrogateescape") for one in told]
    return Asked(lines, depths, wider, replies, [at for at, one in enumerate(told) if one.ends])


def differences(one: Asked, program: str, patterns: str) -> Iterator[str]:
    """Where the program writes something else, or the handle does not say that the last line alone ends the session."""
    if one.ends != [len(one.lines) - 1]:
        yield f"lines {one.ends} are said to end a session of {len(one.lines)} lines"
    command = [program, f"--depth={one.depths[0]}", f"--branch={one.depths[1]}", patterns]
    done = subprocess.run(command, input=b"".join(line + b"\n" for line in one.lines), capture_output=True, check=False)
    at = 0
    for line, reply in zip(one.lines, one.replies):
        if done.stdout[at : at + len(reply)] != reply:
            yield f"{line[:60]!r}: {reply[:60]!r}, the program writes {done.stdout[at : at + 60]!r}"
            return
        at += len(reply)
    if at != len(done.stdout) or done.returncode:
        yield f"the program writes more: {done.stdout[at : at + 60]!r}, and ends with {done.returncode}"


def from_c(command: list[str], one: Asked, folder: pathlib.Path, number: int) -> Iterator[str]:
    """What is otherwise of the first lines if they are asked from C."""
    kept, lines = folder / "patterns", folder / "lines"
    lines.write_bytes(b"".join(line + b"\n" for line in one.lines[:number]))
    words = [str(kept), str(lines), str(one.depths[0]), str(one.depths[1]), str(int(one.wider))]
    done = subprocess.run([*command, *words], capture_output=True, check=False)
    if done.returncode or done.stdout != b"".join(one.replies[:number]):
        yield f"{command[0]} from C: status {done.returncode}, {done.stderr[-300:]!r}"


def refusals(gopat) -> Iterator[str]:
    """Statuses that are not those of their cause."""
    closed, session = gopat.Session(), gopat.Session()
    closed.close()
    closed.close()
    for status, call in [
        ("CLOSED", lambda: closed.line("name")),
        ("CLOSED", lambda: closed.line("name\n")),
        ("BAD_LINE", lambda: session.line("name\n")),
        ("BAD_LINE", lambda: session.line("\nname")),
        (None, lambda: session.line("name")),
        ("BAD_DEPTHS", lambda: gopat.Session("?", 0, 2, cache=0)),
        ("BAD_DEPTHS", lambda: gopat.Session("", 201, 2)),
        ("BAD_DEPTHS", lambda: gopat.Session("", 10, 13)),
        ("BAD_CACHE", lambda: gopat.Session("?", cache=7, states=0)),
        ("BAD_CACHE", lambda: gopat.Session("", cache=65537)),
        (None, lambda: gopat.Session("", cache=8, states=1)),
        (None, lambda: gopat.Session("", 200, 12, True, 65536, 1000000)),
        ("BAD_STATES", lambda: gopat.Session("?", states=0)),
        ("BAD_STATES", lambda: gopat.Session("", states=1000001)),
        ("BAD_TEXT", lambda: gopat.Session("Pattern A\nO*\n:9\n", states=1)),
        ("BAD_TEXT", lambda: gopat.Session("Pattern A\nO*\n:8,near_edge\n")),
        ("TOO_MANY_STATES", lambda: gopat.Session(PATTERNS, states=3)),
        ("TOO_MANY_STATES", lambda: gopat.Session(many_states())),
    ]:
        try:
            call()
            said = None
        except gopat.Refused as why:
            said = why.status.name
        if said != status:
            yield f"status {said}, wanted {status}"
    ends = [session.line(line) for line in ("quit", "name", "quit")]
    if [one.ends for one in ends] != [True, False, True] or ends[1].text != "= gopat\n\n":
        yield f"after quit {ends}"


def tree_number(gopat) -> Iterator[str]:
    """Whether a tree that is none is refused, which the module's own arguments cannot name."""
    session = gopat.Session()
    for tree in (2, 255):
        options = gopat._Options(gopat._Depths(10, 2, tree), 4096, 100000)
        reply = session._library.gopat_session_open(session._handle, b"", 0, options)
        if reply.status != 7 or session._library.gopat_line(session._handle, b"name", 4, session._room, 0).status != 17:
            yield f"tree {tree}: status {reply.status}"


def figures(gopat, program: str, folder: pathlib.Path, command: str) -> Iterator[str]:
    """Readings in a second of the processor, new ones and kept ones."""
    choose, plays, questions = random.Random(3), [], []
    for _ in range(60):
        plays += [f"play b {choose.choice(gtp.vertices(19))}", f"play w {choose.choice(gtp.vertices(19))}"]
    with gopat.Session() as session:
        for line in plays:
            session.line(line)
        stones = [v for v in gtp.vertices(19) if session.line(f"countlib {v}").text[2:3] in "1234"]
        questions = [f"{kind} {v}" for v in stones for kind in ("attack", "defend")]
    for name, times in [("new", 1), ("kept", 200)]:
        lines = plays + questions * times
        start = processor()
        with gopat.Session() as session:
            for line in lines:
                session.line(line)
        python = processor() - start
        start = processor()
        gtp.session([program], lines)
        together = processor() - start
        (folder / "lines").write_text("\n".join(lines) + "\n", encoding="utf-8")
        (folder / "patterns").write_text("", encoding="utf-8")
        words = [str(folder / "patterns"), str(folder / "lines"), "10", "2", "0", "10"]
        c = float(subprocess.run([command, *words], capture_output=True, text=True, check=True).stdout) / 10
        start = processor()
        running = gtp.Running([program])
        for line in lines:
            running.ask(line)
        running.end()
        waiting = processor() - start
        number = len(questions) * times
        yield (
            f"{name} readings in a second: {number / c:.0f} from C, {number / python:.0f} from Python, through a pipe "
            f"{number / together:.0f} at once, {number / waiting:.0f} each after a reply"
        )


def main(gopat_path: str, count: str, seed: str = "1", wide_path: str = "") -> int:
    programs = [str(pathlib.Path(path).resolve()) for path in (gopat_path, wide_path) if path]
    with tempfile.TemporaryDirectory() as name:
        folder = pathlib.Path(name)
        made(folder)
        said = list(examples(folder, programs[0]))
        print("\n".join(said))
        sys.path.insert(0, "python")
        import gopat

        (folder / "patterns").write_text(PATTERNS, encoding="utf-8")
        (folder / "empty").write_bytes(b"")
        choose, wrong, lines, refused = random.Random(int(seed)), [], 0, 0
        command, checked = compiled(folder, "tools/ask_lines.c"), 0
        sanitized = compiled(folder, "tools/ask_lines.c", *SANITIZERS) if has_sanitizers(folder) else None
        while lines < int(count):
            which = lines // TOGETHER % len(programs)
            one = asked(gopat, choose, which == 1, [str(folder / "empty")])
            lines += len(one.lines)
            refused += sum(reply[:1] == b"?" for reply in one.replies)
            wrong += differences(one, programs[which], str(folder / "patterns"))
            wrong += from_c([command], one, folder, TOGETHER)
            wrong += from_c([sanitized], one, folder, TOGETHER) if sanitized else []
            if shutil.which(VALGRIND[0]) and checked < 5:
                wrong += from_c([*VALGRIND, command], one, folder, UNDER_VALGRIND)
                checked += 1
        wrong += [*refusals(gopat), *tree_number(gopat)]
        documented = doctest.testmod(gopat)
        wrong += ["an example of python/gopat.py"] * documented.failed
        print(f"{lines} lines, {refused} of them refused, from Python, from C and through a pipe,", end=" ")
        print(f"{lines if sanitized else 0} of them with the sanitizers, {checked * UNDER_VALGRIND} under", end=" ")
        print(f"valgrind, and {documented.attempted} examples: {len(wrong)} differ")
        print("\n".join([*wrong[:20], *figures(gopat, programs[0], folder, command)]))
        return int(bool(wrong) or len(set(said)) != 1)


if __name__ == "__main__":
    command_line.run(main, __doc__)
