"""Runs every command of the documents for users, as it stands, and compares what it prints with what stands below it.

usage: python3 tools/check_docs.py [--map | FILE ...]

Without files these are README.md and docs/FORMATS.md, docs/USING.md, docs/AUTHORS.md, docs/LIBRARY.md and
docs/DOORS.md, in this order, and the manual page docs/gopat.1, in which `man` may find nothing to warn of; and the map
of docs/ARCHITECTURE.md is compared with crates.txt, tools/README.md with the scripts, and the tables of messages of
docs/AUTHORS.md with the texts of the checker. It runs at the top of a fresh clone: README's commands prove and build
the program, docs/USING.md says what has to stand beside the clone, and docs/AUTHORS.md wants the programs that `rt run`
makes in crates/pattern_check and crates/pattern_why. `python3 tools/check_docs.py --map` compares the map, the scripts
and the messages alone, and needs no program.

A command is a line `$ ..` of a block that is set off by three backticks; it goes on over lines that end in a backslash.
All commands of a document run in one shell, one after another, with nothing to read. The lines below a command, up to
the next one or the end of the block, are its standard output; blank lines at the end do not count. A line `..` alone
stands for lines that are left out. A block that is named `rust PATH`, or `c`, `python` or `go` and a path, is a part of
the file of this path, with the same use of `..`. In the table of kinds of docs/FORMATS.md each example is a text as
printf takes it, and the program's note has to be the one beside it. A block under a line `<!-- not run: WHY -->` is
passed over and told, and so is one under `<!-- needs: NAME .. -->` if a name is neither a program on the path nor a
file. A cell of messages is texts of the checker, one behind the other with `; ` between them, in which `..` stands for
a value; each text of the checker stands in one of them.

In the map each crate of crates.txt has a row, under the heading under which it stands in crates.txt. Its column
`stands on` names crates that it uses, and each crate that it uses is named or stands below one that is.
"""

import itertools
import os
import pathlib
import re
import shutil
import subprocess
import tempfile
from typing import Iterator, NamedTuple

import command_line

DOCUMENTS = ["README.md", "docs/FORMATS.md", "docs/USING.md", "docs/AUTHORS.md", "docs/LIBRARY.md", "docs/DOORS.md"]
MANUAL_PAGE = "docs/gopat.1"
MAP = "docs/ARCHITECTURE.md"
CRATES = "crates.txt"
SCRIPTS = "tools/README.md"
AUTHORS = "docs/AUTHORS.md"
MESSAGES = [
    "crates/pattern_faults/src/cause.rt",
    "crates/pattern_hints/src/caution.rt",
    "crates/pattern_hints/src/port.rt",
]
NEVER_TOLD = {"a fault", "a fault of kind .."}
MESSAGE = re.compile(r'=>\s*(?:\{\s*)?"((?:[^"\\]|\\.)*)"', re.DOTALL)
GOPAT = "crates/gopat/out/gopat"
USES = re.compile(r"(\w+)(?: staticlib)?:(.*)")
ROW = re.compile(r"\| `(\w+)` \|[^|]*\|([^|]*)\|[^|]*\|[^|]*\|")
COMMENT = re.compile(r"# (.*)")
HEADING = re.compile(r"\| \*\*(.*)\*\* \|[^|]*\|[^|]*\|[^|]*\|[^|]*\|")
END = "the end of what a command prints"
KIND = re.compile(r"\| (\d+) \| [^|]+ \| `([^`]+)` \| `(line \d+ kind \d+)` \|.*")


class Block(NamedTuple):
    """A block of a document: where it begins, what stands behind its backticks, why it is not run, and its lines."""

    place: str
    name: str
    not_run: str | None
    lines: list[str]


def blocks(document: str) -> Iterator[Block]:
    """The blocks that are set off by backticks."""
    lines = pathlib.Path(document).read_text(encoding="utf-8").splitlines()
    at = 0
    while at < len(lines):
        if lines[at].startswith("```"):
            end = lines.index("```", at + 1)
            above = next((line for line in reversed(lines[:at]) if line.strip()), "")
            yield Block(f"{document}:{at + 1}", lines[at][3:].strip(), why_not(above), lines[at + 1 : end])
            at = end
        at += 1


def why_not(above: str) -> str | None:
    """Why the block under a line is not run: the line says so, or something that it needs is not there."""
    told = re.fullmatch(r"<!-- not run: (.*) -->", above)
    needed = re.fullmatch(r"<!-- needs: (.*) -->", above)
    missing = [one for one in needed[1].split() if not (shutil.which(one) or os.path.exists(one))] if needed else []
    return told[1] if told else f"there is no {' and no '.join(missing)}" if missing else None


def commands(block: Block) -> Iterator[tuple[str, list[str]]]:
    """Each command of a block with the lines below it."""
    at = 0
    while at < len(block.lines):
        command = block.lines[at][2:]
        while command.endswith("\\"):
            at += 1
            command += "\n" + block.lines[at]
        after = next((i for i in range(at + 1, len(block.lines)) if block.lines[i].startswith("$ ")), len(block.lines))
        yield command, block.lines[at + 1 : after]
        at = after


class Shell:
    """A shell that runs the commands of a document one after another, so that what one sets the next one has."""

    def __init__(self):
        self.errors = tempfile.NamedTemporaryFile("r")
        with open(self.errors.name, "w") as errors:
            pipe = subprocess.PIPE
            self.bash = subprocess.Popen(["bash"], stdin=pipe, stdout=pipe, stderr=errors, text=True)

    def run(self, command: str) -> list[str]:
        """The lines that a command prints."""
        self.bash.stdin.write(f"{{ {command}\n}} < /dev/null\nprintf '\\n%s\\n' '{END}'\n")
        self.bash.stdin.flush()
        return list(itertools.takewhile(lambda line: line != END, (line.rstrip("\n") for line in self.bash.stdout)))

    def told(self) -> str:
        """What came on standard error since this was asked last."""
        return self.errors.read()

    def end(self):
        self.bash.stdin.close()
        self.bash.wait()


def agrees(wanted: list[str], got: list[str]) -> bool:
    """Whether the lines are these, where a line `..` stands for any lines."""
    pattern = "".join("(?:.*\n)*?" if line.strip() == ".." else re.escape(line.rstrip()) + "\n" for line in wanted)
    return re.fullmatch(pattern.rstrip("\n") + "\n*", "".join(line.rstrip() + "\n" for line in got)) is not None


def check_block(block: Block, shell: Shell) -> Iterator[str | None]:
    """For each command of a block, or for what it quotes, None or what is wrong."""
    source = re.fullmatch(r"(?:rust|c|python|go) (\S+)", block.name)
    if source:
        text = pathlib.Path(source[1]).read_text(encoding="utf-8").splitlines()
        yield None if agrees(["..", *block.lines, ".."], text) else f"{block.place}: not so in {source[1]}"
    for command, wanted in commands(block) if block.lines and block.lines[0].startswith("$ ") else []:
        got = shell.run(command)
        yield None if agrees(wanted, got) else "\n".join([f"{block.place}: $ {command}", *got, shell.told()])


def check_kinds(document: str) -> Iterator[str | None]:
    """For each row of the table of kinds None or what is wrong."""
    rows = filter(None, map(KIND.fullmatch, pathlib.Path(document).read_text(encoding="utf-8").splitlines()))
    for number, text, note in (row.groups() for row in rows):
        with tempfile.NamedTemporaryFile(suffix=".db") as file:
            file.write(subprocess.run(["printf", text.replace("\\|", "|")], capture_output=True, check=True).stdout)
            file.flush()
            done = subprocess.run([GOPAT, file.name], input="", capture_output=True, text=True, check=False)
        yield None if done.stderr == f"bad database: {note}\n" else f"{document}: kind {number}: {done.stderr}"


def check_manual_page() -> Iterator[str | None]:
    """None, or what `man` warns of in the manual page."""
    command = ["man", "--warnings", "-E", "UTF-8", "-l", "-Tutf8", "-Z", MANUAL_PAGE]
    done = subprocess.run(command, capture_output=True, text=True, check=False)
    yield None if done.returncode == 0 and not done.stderr else f"{MANUAL_PAGE}: {done.stderr}"


def below(name: str, uses: dict[str, list[str]]) -> set[str]:
    """The crates that a crate stands on, and all below these."""
    found: set[str] = set()
    waiting = list(uses.get(name, []))
    while waiting:
        crate = waiting.pop()
        if crate not in found:
            found.add(crate)
            waiting += uses.get(crate, [])
    return found


def check_row(name: str, named: set[str] | None, uses: dict[str, list[str]]) -> str | None:
    """None, or what is wrong of the row of a crate, by the crates that its column `stands on` names."""
    if named is None:
        return f"{MAP}: no row for {name}"
    reached = named.union(*(below(crate, uses) for crate in named))
    unused = sorted(named - set(uses[name]))
    unnamed = sorted({crate for crate in uses[name] if crate in uses} - reached)
    if unused or unnamed:
        return f"{MAP}: {name}: named and not used: {unused}, used and not named: {unnamed}"
    return None


def headings(lines: list[str], heading: re.Pattern, row: re.Pattern) -> dict[str, str]:
    """The heading under which each crate stands: the last one above its row."""
    last, found = "", {}
    for line in lines:
        if above := heading.fullmatch(line):
            last = above[1]
        elif match := row.fullmatch(line):
            found[match[1]] = last
    return found


def check_map() -> Iterator[str | None]:
    """For each crate of crates.txt, and each row of the map, None or what is wrong."""
    lines, rows = (pathlib.Path(path).read_text(encoding="utf-8").splitlines() for path in (CRATES, MAP))
    uses = {row[1]: row[2].split() for row in filter(None, map(USES.fullmatch, lines))}
    named = {row[1]: set(re.findall(r"`(\w+)`", row[2])) for row in filter(None, map(ROW.fullmatch, rows))}
    here, there = headings(lines, COMMENT, USES), headings(rows, HEADING, ROW)
    for name in uses:
        yield check_row(name, named.get(name), uses)
        if name in named and here[name] != there[name]:
            yield f"{name}: under {here[name]} in {CRATES}, and under {there[name]} in {MAP}"
    for name in sorted(set(named) - set(uses)):
        yield f"{MAP}: {name} is no crate of {CRATES}"


def check_scripts() -> Iterator[str | None]:
    """For each script of tools/ None, or that their table does not name it."""
    table = pathlib.Path(SCRIPTS).read_text(encoding="utf-8")
    for path in sorted(pathlib.Path(SCRIPTS).parent.glob("*.py")):
        yield None if f"`{path.name}`" in table else f"{SCRIPTS}: nothing of {path.name}"


def messages() -> set[str]:
    """The texts that the checker of pattern files may print, with `..` in the place of each value."""
    literals = [text for path in MESSAGES for text in MESSAGE.findall(pathlib.Path(path).read_text(encoding="utf-8"))]
    texts = (re.sub(r"\\\n\s*", "", text).replace("\\\\", "\\").replace("{}", "..") for text in literals)
    return set(texts) - NEVER_TOLD


def cells_of_messages() -> Iterator[str]:
    """The cells below `what is told` of the tables for authors."""
    column = None
    for line in pathlib.Path(AUTHORS).read_text(encoding="utf-8").splitlines():
        cells = [cell.strip().replace("\\|", "|") for cell in re.split(r"(?<!\\)\|", line)[1:-1]]
        if "what is told" in cells:
            column = cells.index("what is told")
        elif not cells:
            column = None
        elif column is not None and set(cells[column]) != {"-"}:
            yield cells[column]


def check_messages() -> Iterator[str | None]:
    """For each text of the checker, and for each cell of the tables for authors, None or what is wrong."""
    texts = sorted(messages(), key=len, reverse=True)
    missing = set(texts)
    for cell in cells_of_messages():
        rest = f"; {cell}"
        while found := next((text for text in texts if rest.startswith(f"; {text}")), None):
            missing.discard(found)
            rest = rest[len(found) + 2 :]
        yield f"{AUTHORS}: not told: {rest[2:]}" if rest else None
    for text in sorted(missing):
        yield f"{AUTHORS}: nothing of: {text}"


def main(*words: str) -> int:
    documents, found = list(words) or DOCUMENTS, []
    if documents in (DOCUMENTS, ["--map"]):
        found += [*check_map(), *check_scripts(), *check_messages()]
    for document in documents if documents != ["--map"] else []:
        shell = Shell()
        for block in blocks(document):
            if block.not_run is None:
                found += check_block(block, shell)
            else:
                print(f"{block.place}: not run: {block.not_run}")
        shell.end()
        found += check_kinds(document)
    if documents == DOCUMENTS:
        found += check_manual_page()
    wrong = [one for one in found if one]
    print("\n".join([*wrong, f"{len(found)} commands, quotes, examples and rows, {len(wrong)} of them differ"]))
    return 1 if wrong else 0


if __name__ == "__main__":
    command_line.run(main, __doc__)
