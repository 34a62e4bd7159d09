"""Builds crates as plain Rust, without their contracts: seconds, counts and answers of a change before it is proved.

usage: python3 tools/plain_rust.py OUT DRIVER.rs NAME..

It runs at the top of a clone. Of each crate NAME and of each crate that it uses, OUT/NAME gets the source without
clauses, ghost items and attributes of the prover, and OUT/libNAME.rlib what `rustc` makes of it. Then DRIVER.rs, a
program with `fn main` that calls these crates, is built over them, optimised as a whole: OUT/DRIVER. In place of the
kit's crates there are the small ones of tools/plain_rust, whose lists never want for memory.

What it builds is not proved, and indexing is checked, which proved code does not need: compare two plain builds with
each other, or with the answers of a proved program. Instructions of such a build say little (`docs/MEASURED.md` counts
those of proved programs). Crates with options of the command line (`clap`) cannot be built so.
"""

import pathlib
import re
import subprocess
import sys

import command_line

STAND_INS = pathlib.Path(__file__).with_name("plain_rust")
# Crates of the kit that only derive what plain Rust does not need here.
LEFT_OUT = {"thiserror", "core", "std_alloc", "std_heap"}
CLAUSE = re.compile(r"^[ \t]*(requires|ensures|decreases|invariant)\b[^\n{]*\{", re.M)
MODEL = re.compile(r"^impl(<[^\n]*?>)? Model for [^\n]*\{", re.M)
GHOST = re.compile(r"^[ \t]*(pub )?ghost\b", re.M)
# What else is left out or said otherwise, in this order.
REWRITES = [
    (re.compile(r"^[ \t]*#!?\[(tactic|cycle)\((?:[^()]|\([^()]*\))*\)\]\n", re.M), ""),
    (re.compile(r"^[ \t]*#\[error\(.*\)\]\n", re.M), ""),
    (re.compile(r"\bDrop, |, Drop\b|#\[derive\(Drop\)\]\n"), ""),
    (re.compile(r", Error\b(?=[^\n]*\)\])|(?<=derive\()Error, "), ""),
    (re.compile(r"^use (std::marker::Model|thiserror::Error);\n|^#!\[.*\]\n", re.M), ""),
    (re.compile(r"std::alloc::"), "kit::alloc::"),
    (re.compile(r"<T: Drop>"), "<T>"),
    (re.compile(r"trait Helper: Drop"), "trait Helper"),
    (re.compile(r"Box::new\(alloc, (\w+)\)\?"), r"Box::new(\1)"),
    (re.compile(r"fn fmt<W: Write>\(&self, f: &mut Formatter<W>\)"), "fn fmt(&self, f: &mut Formatter)"),
    # a comment that stood over a ghost item
    (re.compile(r"(^[ \t]*///[^\n]*\n)+(?=\s*\}|[ \t]*\n)", re.M), ""),
]


def closed(text: str, at: int) -> int:
    """The place behind the brace that closes the one at `at`."""
    depth = 0
    for place in range(at, len(text)):
        depth += (text[place] == "{") - (text[place] == "}")
        if not depth:
            return place + 1
    raise ValueError("a brace is not closed")


def ended(text: str, at: int) -> int:
    """The place behind the `;` or `,` that ends the item in which `at` stands."""
    depth = 0
    for place in range(at, len(text)):
        depth += (text[place] in "{([") - (text[place] in "})]")
        if not depth and text[place] in ";,":
            return place + 1
    raise ValueError("a ghost item has no end")


def without(text: str, start: re.Pattern[str], end_of) -> str:
    """The text without the parts that begin so."""
    while found := start.search(text):
        text = text[:found.start()] + text[end_of(text, found):]
    return text


def stripped(text: str) -> str:
    """A source file as plain Rust."""
    for block in (MODEL, CLAUSE):
        text = without(text, block, lambda whole, found: closed(whole, found.end() - 1))
    text = without(text, GHOST, lambda whole, found: ended(whole, found.end()))
    for pattern, put in REWRITES:
        text = pattern.sub(put, text)
    if re.search(r"\bVec\b", text):
        head = re.match(r"(//![^\n]*\n)*", text)
        text = text[:head.end()] + "use kit::Vec;\n" + text[head.end():]
    return text


def uses() -> dict[str, list[str]]:
    """The libraries of each crate, by crates.txt."""
    rows = re.findall(r"^(\w+)(?: staticlib)?:(.*)$", pathlib.Path("crates.txt").read_text(), re.M)
    return {name: used.split() for name, used in rows}


class Builder:
    """Builds each crate once, those that it uses before it."""

    def __init__(self, out: pathlib.Path):
        self.out, self.uses, self.built = out, uses(), {}

    def externs(self, names: list[str]) -> list[str]:
        """The words by which rustc finds these crates."""
        return [word for name in names for word in ("--extern", f"{name}={self.out}/lib{name}.rlib")]

    def rustc(self, source: pathlib.Path, names: list[str], *words: str):
        """Compiles a file over these crates; a failure ends the script."""
        command = ["rustc", "-A", "warnings", "--edition", "2021", "-C", "opt-level=3", "-L", str(self.out)]
        done = subprocess.run([*command, *self.externs(names), *words, str(source)])
        if done.returncode:
            sys.exit(f"{source} is not built")

    def build(self, name: str):
        """Builds a crate, and what it uses."""
        if name in self.built or name in LEFT_OUT:
            return
        stand_in = STAND_INS / f"{name}.rs"
        used = [] if name == "kit" else ["kit", *self.uses.get(name, [])]
        used = [one for one in used if one not in LEFT_OUT]
        for one in used:
            self.build(one)
        self.built[name] = True
        source = stand_in if stand_in.exists() else self.written(name)
        self.rustc(source, used, "--crate-type", "rlib", "--crate-name", name, "--out-dir", str(self.out))

    def written(self, name: str) -> pathlib.Path:
        """Writes a crate's source as plain Rust; the file of its root."""
        source = pathlib.Path("crates", name, "src")
        for file in sorted(source.rglob("*.rt")):
            target = (self.out / name / file.relative_to(source)).with_suffix(".rs")
            target.parent.mkdir(parents=True, exist_ok=True)
            target.write_text(stripped(file.read_text()))
        return self.out / name / "lib.rs"


def main(out: str, driver: str, *names: str) -> int:
    builder = Builder(pathlib.Path(out))
    builder.out.mkdir(parents=True, exist_ok=True)
    for name in names:
        builder.build(name)
    program = builder.out / pathlib.Path(driver).stem
    builder.rustc(pathlib.Path(driver), list(builder.built), "-C", "lto=fat", "-o", str(program))
    return 0


if __name__ == "__main__":
    command_line.run(main, __doc__)
