"""Makes docs/page/gopat.html: a page that reads attacks, defences and connections in a browser, by the proved source.

usage: python3 tools/make_page.py [--in FOLDER | --same-module | --check | --module FILE OUT]

It runs at the top of a clone. The page's module is made from the crate gopat_c and the crates that it stands on, as
HEAD has them: in a temporary copy, in whose crates.txt the crate has a line `gopat_c wasm64 memory=.. stack=..` in the
place of its own, `rt lib` proves it and leaves the module. So what answers in the page is proved by this command, and
not by the gate, which takes no crate for wasm64. The page is then put together from tools/page and the module, and has
the commit and the checksum of the module.

With --in the copy stands in this folder and stays there, so that the next run begins with what this one proved. With
--same-module the module stays the one of the page, for a change of the scripts alone. With --check nothing is
written: the page has to be what tools/page and its module give, and the crates that the module was made from have to be
as they were then. With --module the page is made in the file OUT with a module of one's own, to try the scripts.

The exit status is 1 if the check fails, if `rt lib` does, or if the crates are not those of HEAD; and 2 if the words
cannot be taken.
"""

import base64
import hashlib
import pathlib
import re
import shutil
import subprocess
import sys
import tempfile
import textwrap
from typing import NamedTuple

import command_line

CRATE = "gopat_c"
PAGE = pathlib.Path("docs/page/gopat.html")
PARTS = pathlib.Path("tools/page")
# The scripts of the page and of its worker, in the order in which they stand in the page.
PAGE_SCRIPTS = ["rules.js", "texts.js", "board.js", "page.js"]
WORKER_SCRIPTS = ["rules.js", "proof.js", "worker.js"]
# The greatest number of plies that the page takes, and the bytes of the module's stack and of its whole memory, which
# come in pages of 65536. docs/DOORS.md says how much of the stack was seen in use.
MOST_PLIES = 200
STACK = 32 * 65536
MEMORY = STACK + 4 * 65536
LINE = re.compile(rf"(?m)^{CRATE} staticlib:(.*)$")
MODULE = re.compile(r'<script type="text/plain" id="module">([^<]*)</script>')
COMMIT = re.compile(r"made from commit ([0-9a-f]{40}|no commit)")


class Module(NamedTuple):
    """The page's module, and the commit of its source."""

    code: bytes
    commit: str


def git(*words: str) -> str:
    return subprocess.run(["git", *words], capture_output=True, text=True, check=True).stdout.strip()


def sources() -> list[str]:
    """The folders that the module is made from: those of its crates but for wrong bodies."""
    line = LINE.search(pathlib.Path("crates.txt").read_text(encoding="utf-8"))
    return [f"crates/{name}/{part}" for name in [CRATE, *line[1].split()] for part in ("src", "specs", "proofs")]


def made(room: pathlib.Path) -> Module:
    """The module of the crates as HEAD has them, proved in a copy of them in this folder."""
    for old in room.glob("crates/*/*"):
        if old.name != "out":
            shutil.rmtree(old) if old.is_dir() else old.unlink()
    archive = subprocess.run(["git", "archive", "HEAD"], capture_output=True, check=True).stdout
    subprocess.run(["tar", "-x", "-C", str(room)], input=archive, check=True)
    crates = room / "crates.txt"
    ours = rf"{CRATE} wasm64 memory={MEMORY} stack={STACK}:\1"
    crates.write_text(LINE.sub(ours, crates.read_text(encoding="utf-8")), encoding="utf-8")
    folder = room / "crates" / CRATE
    subprocess.run(["rt", "lib"], cwd=folder, stdout=sys.stderr, check=True)
    return Module((folder / "out" / f"{CRATE}.wasm").read_bytes(), git("rev-parse", "HEAD"))


def made_in(folder: str | None) -> Module | None:
    """The same in a folder that stays, or in a temporary one; none if a command failed, which is told."""
    if git("status", "--porcelain", "--", "crates.txt", *sources()):
        print("the crates are not those of HEAD: commit them first", file=sys.stderr)
        return None
    try:
        if folder:
            pathlib.Path(folder).mkdir(parents=True, exist_ok=True)
            return made(pathlib.Path(folder))
        with tempfile.TemporaryDirectory() as room:
            return made(pathlib.Path(room))
    except subprocess.CalledProcessError as why:
        print(f"{' '.join(why.cmd)}: status {why.returncode}", file=sys.stderr)
        return None


def module_in(page: str) -> Module:
    """The module that a page has."""
    return Module(base64.b64decode(MODULE.search(page)[1]), COMMIT.search(page)[1])


def scripts(names: list[str]) -> str:
    return "\n".join((PARTS / name).read_text(encoding="utf-8").strip() for name in names)


def put_together(module: Module) -> str:
    """The page with this module."""
    code = base64.b64encode(module.code).decode()
    parts = {
        "style": (PARTS / "page.css").read_text(encoding="utf-8").strip(),
        "most_plies": str(MOST_PLIES),
        "module": "\n" + textwrap.fill(code, 120) + "\n",
        "module_bytes": f"{len(module.code):,}",
        "module_sum": hashlib.sha256(module.code).hexdigest(),
        "commit": module.commit,
        "worker": scripts(WORKER_SCRIPTS),
        "script": scripts(PAGE_SCRIPTS),
    }
    template = (PARTS / "page.html").read_text(encoding="utf-8")
    return re.sub(r"\{\{(\w+)\}\}", lambda part: parts[part[1]], template)


def faults() -> list[str]:
    """What is wrong with the page as it stands."""
    page = PAGE.read_text(encoding="utf-8")
    module, wrong = module_in(page), []
    if page != put_together(module):
        wrong.append(f"{PAGE} is not what tools/page and its module give")
    changed = subprocess.run(["git", "diff", "--name-only", module.commit, "--", *sources()],
                             capture_output=True, text=True, check=False)
    if changed.returncode:
        wrong.append(f"the module's commit {module.commit} is not in this clone")
    elif changed.stdout:
        wrong.append(f"changed since the module was made: {' '.join(changed.stdout.split())}")
    return wrong


def main(*words: str) -> int:
    match words:
        case ["--check"]:
            wrong = faults()
            print("\n".join(wrong) or f"{PAGE} is what tools/page and the crates give")
            return int(bool(wrong))
        case ["--module", file, out]:
            module = Module(pathlib.Path(file).read_bytes(), "no commit")
            pathlib.Path(out).write_text(put_together(module), encoding="utf-8")
            return 0
        case ["--same-module"]:
            module = module_in(PAGE.read_text(encoding="utf-8"))
        case [] | ["--in", _]:
            module = made_in(words[1] if words else None)
            if module is None:
                return 1
        case _:
            print(__doc__, file=sys.stderr)
            return 2
    PAGE.parent.mkdir(exist_ok=True)
    PAGE.write_text(put_together(module), encoding="utf-8")
    print(f"{PAGE}: {PAGE.stat().st_size:,} bytes, with a module of {len(module.code):,}")
    return 0


if __name__ == "__main__":
    command_line.run(main, __doc__)
