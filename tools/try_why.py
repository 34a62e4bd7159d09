"""Runs pattern_why on files of its own, with each option and each exit status, and compares what it prints, its notes
and its status with what docs/FORMATS.md says.

usage: python3 tools/try_why.py PATTERN_WHY

The runs stand below. The exit status is 1 if anything else comes. The stored run of the crate has an entry for each
part of a match that may fail.
"""

import pathlib
import subprocess
import tempfile
from typing import Iterator, NamedTuple

import command_line

USAGE = "usage: pattern_why "
SQUEEZE = "Pattern Squeeze\n?O?\nOX*\n?.?\n:8,sX\n?O?\nOA*\n?.?\n;lib(A)=={}\n"
PLAYS = "boardsize 9\nplay b D5\nplay w E5\nplay b E6\n"
RECORD = "(;SZ[9];B[de];W[ee];B[ed])"
FILES = {
    "silent.db": SQUEEZE.format(1),
    "mended.db": SQUEEZE.format(2),
    "faulty.db": "Pattern P\nO*\n:7,s\n",
    "two.db": "Pattern P\nO*\n:O,s\n\nPattern P\nX*\n:O,s\n",
    "game.sgf": RECORD,
    "bad.sgf": "(;SZ[9]",
    "renamed.db": "# Another name.\n\n" + SQUEEZE.format(2).replace("Squeeze", "Press"),
    "never.db": SQUEEZE.format(2) + "\nPattern Row\nXXX*\n:8,s\n",
    "records/game.sgf": RECORD,
    "faulty/a.sgf": "(;SZ[9]",
    "faulty/b.sgf": RECORD,
}
COLUMNS = "entry\tline\tfits\tmove\tstone\tclass n\tconstraint\thelper\tmatch\n"
COUNTS = "Squeeze@1, black: 648 tries, diagram 646, move 0, stone 0, class n 0, constraint {}, helper 0, match {}\n"
DRAWN = "    ? O ?    |   . O .\n    O X *    |   O X .\n    ? . ?    |   . . .\n    A is E5\n"
MIRRORED = DRAWN.replace("X *", "X .").replace("? . ?", "? * ?")
HEAD = "Squeeze@1, black at {}, transformation {}: {}\n"
VALUES = "        {}  lib(A) == {}\n        2    lib(A)\n        {}    {}\n"
NO = "the constraint is 0"


def told(words: str, drawn: int, value: int) -> str:
    """What is told of the two places at which the diagram fits."""
    values = VALUES.format(value, drawn, drawn, drawn)
    first = HEAD.format("F5", 0, words) + DRAWN + values
    return first + HEAD.format("E4", 7, words) + MIRRORED + values


SILENT = told(NO, 1, 0) + COUNTS.format(2, 0)
MENDED = told("matches", 2, 1) + COUNTS.format(0, 2)
MISFIT = (
    '{"entry":"Squeeze","line":1,"colour":"black","at":"F5","transformation":1,"held":0,"fails":"diagram",'
    '"row":1,"column":2,"drawn":"O","point":"G6","there":"."}\n'
)
PARTS = (
    '{"entry":"Squeeze","line":1,"colour":"black","at":"F5","transformation":0,"held":4,"fails":"constraint",'
    '"parts":[{"part":"lib(A)","value":2},{"part":"1","value":1},{"part":"lib(A) == 1","value":0}]}\n'
)
CHANGES = "{0}, move 3: {1}, black at F5, transformation 0: {2}\n{0}, move 3: {1}, black at E4, transformation 7: {2}\n"
CHANGED = (
    '{"record":"records/game.sgf","move":3,"change":"came","entry":"Squeeze","line":1,"colour":"black","at":"F5",'
    '"transformation":0}\n'
)
SHORT = "{} of 6: P@{}, {} at E4, transformation 0: {}\n"
OTHER = "the diagram does not fit: row 1, column 1 is '{}' and D4 holds a stone of the {}"
ALL = (
    SHORT.format(6, 1, "white", "matches")
    + SHORT.format(6, 5, "black", "matches")
    + SHORT.format(0, 1, "black", OTHER.format("O", "enemy"))
    + SHORT.format(0, 5, "white", OTHER.format("X", "friend"))
)


class Run(NamedTuple):
    """What a run shows, its words and its input, and what is wanted: standard output or a part of it, a part of
    standard error, and the exit status."""

    name: str
    words: list[str]
    typed: str
    printed: str
    noted: str
    status: int


def runs() -> Iterator[Run]:
    """The runs."""
    black = ["--colour", "b"]
    yield Run("nothing matches", [*black, "silent.db"], PLAYS, SILENT, "", 1)
    yield Run("the mended entry", [*black, "mended.db"], PLAYS, MENDED, "", 0)
    yield Run("an entry by its name", [*black, "mended.db", "Squeeze"], PLAYS, MENDED, "", 0)
    yield Run("an entry by its line", [*black, "mended.db", "Squeeze@1"], PLAYS, MENDED, "", 0)
    yield Run("no such entry", ["mended.db", "Squeeze@2"], PLAYS, "", "no entry is named Squeeze@2", 2)
    record = ["--sgf", "game.sgf"]
    yield Run("a record", [*black, *record, "mended.db"], "", MENDED, "", 0)
    yield Run("all moves of a record", [*black, *record, "--move", "3", "mended.db"], "", MENDED, "", 0)
    none = COUNTS.format(0, 0).replace("646", "648")
    yield Run("two moves of a record", [*black, *record, "--move", "2", "mended.db"], "", none, "", 1)
    yield Run("too many moves", [*record, "--move", "4", "mended.db"], "", "", "the main line has 3 moves", 2)
    yield Run("a faulty record", ["--sgf", "bad.sgf", "mended.db"], "", "", "bad.sgf: bad sgf kind 1", 2)
    at = ["--at", "F5", *black]
    yield Run("--json", [*at, "--json", "silent.db"], PLAYS, PARTS + MISFIT, "", 1)
    yield Run("no vertex", ["--at", "K1", "silent.db"], PLAYS, "", "K1 is no vertex of this board", 2)
    fitting = PLAYS + "play w D4\n"
    yield Run("--all", ["--all", "--at", "E4", "two.db"], fitting, ALL, "", 0)
    yield Run("a faulty file", ["faulty.db"], PLAYS, "", "faulty.db: line 3 kind 11", 2)
    yield Run("a missing file", ["none.db"], PLAYS, "", "none.db: ", 2)
    yield Run("another command", ["silent.db"], "attack E5\n", "", "input line 1: only boardsize", 2)
    yield Run("a refused line", ["silent.db"], PLAYS + "play w E5\n", "", "input line 5: illegal move", 2)
    row = COLUMNS + "Squeeze\t1\t2\t0\t0\t0\t{}\t0\t{}\n"
    summary = "1 records, 4 positions, 1 entries, 0 of them never fit"
    yield Run("--coverage", ["--coverage", "records", "silent.db"], "", row.format(2, 0), summary, 0)
    never = row.format(0, 2) + "Row\t11\t0\t0\t0\t0\t0\t0\t0\n"
    yield Run("an entry that never fits", ["--coverage", "records", "never.db"], "", never, "1 of them never fit", 1)
    among = ["--coverage", "faulty", "mended.db"]
    yield Run("a faulty record among others", among, "", row.format(0, 2), "faulty/a.sgf: bad sgf", 1)
    yield Run("no folder", ["--coverage", "none", "silent.db"], "", "", "none: ", 2)
    alone = [["--coverage", "records", *words, "silent.db"] for words in [["--json"], ["--at", "E5"]]]
    yield from comparisons()
    wrong = [[], ["--no", "silent.db"], ["--move", "1", "silent.db"], ["--all", "silent.db"], ["a", "b", "c"]]
    for words in [*alone, *wrong, ["--colour", "x", "silent.db"]]:
        yield Run(" ".join(["the words", *words]), words, "", "", USAGE, 2)


def comparisons() -> Iterator[Run]:
    """The runs of --compare."""
    game = "records/game.sgf"
    mended = ["--compare", "silent.db", "mended.db"]
    came = CHANGES.format(game, "Squeeze@1", "came")
    yield Run("what came", [*mended, "records"], "", came, "2 matches came, 0 went", 1)
    back = ["--compare", "mended.db", "silent.db", "records"]
    went = CHANGES.format(game, "Squeeze@1", "went")
    yield Run("what went", back, "", went, "1 records, 4 positions, 0 matches came, 2 went", 1)
    yield Run("the same", ["--compare", "mended.db", "mended.db", "records"], "", "", "0 matches came, 0 went", 0)
    yield Run("the other colour", ["--colour", "w", *mended, "records"], "", "", "0 matches came, 0 went", 0)
    yield Run("objects of changes", ["--json", *mended, "records"], "", CHANGED, "2 matches came", 1)
    renamed = ["--compare", "mended.db", "renamed.db", "records"]
    both = went + CHANGES.format(game, "Press@3", "came")
    yield Run("another name, and its line", renamed, "", both, "2 matches came, 2 went", 1)
    among = CHANGES.format("faulty/b.sgf", "Squeeze@1", "came")
    yield Run("a faulty record, compared", [*mended, "faulty"], "", among, "faulty/a.sgf: bad sgf", 2)
    for pair in [["faulty.db", "mended.db"], ["mended.db", "faulty.db"]]:
        yield Run(" ".join(["files", *pair]), ["--compare", *pair, "records"], "", "", "faulty.db: line 3 kind 11", 2)
    yield Run("no folder to compare over", [*mended, "none"], "", "", "none: ", 2)
    more = [["--at", "E5"], ["--sgf", "game.sgf"], ["--all"], ["--coverage", "records"]]
    wrong = [[*mended], [*mended, "records", "Squeeze"], *([*words, *mended, "records"] for words in more)]
    for words in wrong:
        yield Run(" ".join(["the words", *words]), words, "", "", USAGE, 2)


def is_printed(run: Run, printed: str) -> bool:
    """Whether the lines that are wanted come, in their order, and no others unless objects are told."""
    if "--json" not in run.words:
        return printed == run.printed
    lines = iter(printed.splitlines())
    return all(line in lines for line in run.printed.splitlines())


def differs(program: str, folder: str, run: Run) -> bool:
    """Whether anything else comes than is wanted."""
    words = [program, *run.words]
    done = subprocess.run(words, input=run.typed, capture_output=True, text=True, check=False, cwd=folder)
    noted = run.noted in done.stderr if run.noted else not done.stderr
    if is_printed(run, done.stdout) and noted and done.returncode == run.status:
        return False
    print(f"differs: {run.name}: status {done.returncode}\n{done.stdout}{done.stderr}")
    return True


def main(program: str) -> int:
    tried = list(runs())
    with tempfile.TemporaryDirectory() as folder:
        for name, text in FILES.items():
            path = pathlib.Path(folder) / name
            path.parent.mkdir(exist_ok=True)
            path.write_text(text, encoding="utf-8")
        different = sum(differs(str(pathlib.Path(program).resolve()), folder, run) for run in tried)
    print(f"{len(tried)} runs, {different} of them differ")
    return 1 if different else 0


if __name__ == "__main__":
    command_line.run(main, __doc__)
