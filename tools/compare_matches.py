"""Compares the matches of a folder of pattern files with those of GNU Go's own matcher, over the positions of its game
records.

usage: python3 tools/compare_matches.py GOPAT BUILD PATTERNS RECORDS [POSITIONS [SEED]]

BUILD is GNU Go's source after ./configure and make; PATTERNS a folder that tools/cut_patterns.py made; RECORDS a
folder that is searched for *.sgf. A file's entries are compared as diagrams alone: an entry with a constraint diagram
is left out, and so is one with the mark O, which GNU Go takes in another sense, and one without a stone, which its
matcher cannot anchor. The class letters become `s`, so that neither program asks for a reading. On each position the
two lists of (name, move) are compared as multisets, for both colours. Before that each file is loaded as it is,
listed, and matched on the same positions by gopat alone, with its classes and constraints. The exit status is 1 where
a list differs.
"""

import collections
import pathlib
import random
import re
import subprocess
import tempfile
from typing import Iterator, NamedTuple

import command_line
import cut_patterns
import gtp
import sgf

# Answers lines `size N`, `put b D4` and `match b`: the matches, one a line as a name and a vertex, and then a line `.`.
DRIVER = r"""
#include <stdio.h>
#include <string.h>
#include "liberty.h"
#include "patterns.h"
extern struct pattern_db compared_db;
static const char letters[] = "ABCDEFGHJKLMNOPQRST";
static void found(int anchor, int color, struct pattern *p, int ll, void *data) {
  int move = AFFINE_TRANSFORM(p->move_offset, ll, anchor);
  if (is_legal(move, color))
    printf("%s %c%d\n", p->name, letters[J(move)], board_size - I(move));
}
int main(void) {
  char line[80], colour, column;
  int number;
  init_gnugo(8, 1);
  while (fgets(line, sizeof line, stdin)) {
    if (sscanf(line, "size %d", &number) == 1) {
      gnugo_clear_board(number);
    } else if (sscanf(line, "put %c %c%d", &colour, &column, &number) == 3) {
      int at = POS(board_size - number, (int) (strchr(letters, column) - letters));
      add_stone(at, colour == 'b' ? BLACK : WHITE);
    } else if (sscanf(line, "match %c", &colour) == 1) {
      matchpat(found, colour == 'b' ? BLACK : WHITE, &compared_db, NULL, NULL);
      puts(".");
    }
  }
  return 0;
}
"""


class Position(NamedTuple):
    """Stones by colour, in vertices."""

    size: int
    stones: list[sgf.Move]


class Drawn(NamedTuple):
    """An entry as its diagram alone, with the class letter `s`; and whether it has a constraint diagram."""

    entry: bytes
    is_constrained: bool


def drawn_entries(path: pathlib.Path) -> Iterator[Drawn]:
    """The entries that both programs can take in one sense, as diagrams alone: none with the mark O, which GNU Go takes
    in another, and none without a stone, which its matcher cannot anchor."""
    for entry in cut_patterns.entries_of(path.read_bytes()):
        lines = [line.rstrip() for line in entry.split(b"\n")]
        colon = next(at for at, line in enumerate(lines) if line.startswith(b":"))
        words = [line.split()[0] for line in lines[1:colon] if line.strip() and not line.startswith(b"#")]
        rest = [line for line in lines[colon + 1 :] if line.strip() and not line.startswith((b"#", b">", b";"))]
        mark = lines[colon][1:2]
        if mark != b"O" and any(letter in word for word in words for letter in (b"O", b"X")):
            alone = [b" ".join(lines[0].split()[:2]), b"", *words, b"", b":" + mark + b",s", b"", b""]
            yield Drawn(b"\n".join(alone), bool(rest))


def numbered(entries: Iterator[bytes]) -> list[bytes]:
    """The entries with names that differ."""
    return [re.sub(rb"^Pattern (\S+)", rb"Pattern \1_%d" % at, entry, count=1) for at, entry in enumerate(entries)]


def positions(folder: pathlib.Path, wanted: int, luck: random.Random) -> Iterator[Position]:
    """Positions out of the records, by gopat's own board: each the plays of a record up to some move."""
    paths = sorted(folder.rglob("*.sgf"))
    luck.shuffle(paths)
    for path in paths:
        try:
            record = sgf.read(str(path))
        except sgf.NotPlayable:
            continue
        if wanted and 9 <= record.size <= 19 and len(record.moves) > 20:
            wanted -= 1
            yield Position(record.size, record.moves[: luck.randint(4, len(record.moves))])


def stones_left(gopat: str, position: Position) -> list[sgf.Move]:
    """The stones that stand after the plays."""
    lines = [f"boardsize {position.size}", *(f"play {move}" for move in position.stones), "showboard"]
    replies, _ = gtp.session([gopat], lines)
    stones = gtp.shown(replies[-1].text).stones
    return [sgf.Move("b" if mark == "X" else "w", vertex) for vertex, mark in stones.items()]


# GNU Go's libraries, in its source after make.
LIBRARIES = ["engine/libengine.a", "patterns/libpatterns.a", "engine/libboard.a", "sgf/libsgf.a", "utils/libutils.a"]


class Build(NamedTuple):
    """GNU Go's source after make, and a room whose headers come before its own."""

    folder: pathlib.Path
    room: pathlib.Path

    def compile(self, files: list[pathlib.Path], made: pathlib.Path, names: list[str] = LIBRARIES):
        """Compiles files and links GNU Go's libraries of these names."""
        places = [self.room, *(self.folder / name for name in ("", "engine", "patterns", "utils", "sgf"))]
        includes = [f"-I{place}" for place in places]
        libraries = ["-Wl,--start-group", *(self.folder / name for name in names), "-Wl,--end-group"]
        found = re.search(r"^LIBS = (.*)$", (self.folder / "Makefile").read_text(encoding="latin-1"), re.MULTILINE)
        libraries += found[1].split() if found else ["-lm"]
        options = ["-O2", "-w", "-fcommon", "-DHAVE_CONFIG_H"]
        subprocess.run(["cc", *options, *includes, *files, "-o", made, *libraries], check=True)


def matcher_of(folder: pathlib.Path, room: pathlib.Path, database: pathlib.Path) -> pathlib.Path | None:
    """GNU Go's matcher over a database, where its compiler of patterns takes it."""
    made, driver, matcher = room / "compared.c", room / "driver.c", room / "matcher"
    driver.write_text(DRIVER, encoding="ascii")
    command = [folder / "patterns/mkpat", "-b", "-i", database, "-o", made, "compared"]
    if subprocess.run(command, capture_output=True, check=False).returncode:
        return None
    Build(folder, room).compile([driver, made], matcher)
    return matcher


class Matched(NamedTuple):
    """What gopat answers for a file: how many patterns it lists, and the matches on each position, black's and
    white's."""

    listed: int
    lists: list[collections.Counter[str]]
    seconds: float


def by_gopat(gopat: str, database: pathlib.Path, asked: list[Position]) -> Matched:
    """The list and the matches of a file. Readings go three plies deep, one of them wide."""
    lines, places = ["depths 3 1", "list_patterns"], []
    for position in asked:
        lines += [f"boardsize {position.size}", *(f"play {stone}" for stone in position.stones)]
        lines += ["play b pass", "match_patterns b", "match_patterns w"]
        places += [len(lines) - 2, len(lines) - 1]
    replies, seconds = gtp.session([gopat, "--states", "1000000", str(database)], lines)
    rows = [[row.split() for row in replies[place].text.splitlines()] for place in places]
    lists = [collections.Counter(f"{name} {vertex}" for name, _, vertex in found) for found in rows]
    return Matched(len(replies[1].text.splitlines()), lists, seconds)


def by_gnugo(matcher: pathlib.Path, asked: list[Position]) -> list[collections.Counter[str]]:
    """The same by GNU Go's matcher."""
    lines = []
    for position in asked:
        lines += [f"size {position.size}", *(f"put {stone}" for stone in position.stones), "match b", "match w"]
    done = subprocess.run([matcher], input="\n".join(lines) + "\n", capture_output=True, text=True, check=True)
    lists = done.stdout.split(".\n")[:-1]
    return [collections.Counter(found.splitlines()) for found in lists]


def count(lists: list[collections.Counter[str]]) -> int:
    """How many matches there are."""
    return sum(sum(found.values()) for found in lists)


def main(gopat: str, folder: str, patterns: str, records: str, wanted: str = "100", seed: str = "1") -> int:
    luck = random.Random(int(seed))
    asked = [Position(one.size, stones_left(gopat, one)) for one in positions(pathlib.Path(records), int(wanted), luck)]
    totals = collections.Counter[str]()
    with tempfile.TemporaryDirectory() as name:
        room = pathlib.Path(name)
        for path in sorted(pathlib.Path(patterns).glob("*.db")):
            if path.name == "all.db":
                continue
            whole = by_gopat(gopat, path, asked)
            print(f"{path.name}: {whole.listed} listed, {count(whole.lists)} matches in {whole.seconds:.1f} s", end="")
            entries = numbered(drawn.entry for drawn in drawn_entries(path) if not drawn.is_constrained)
            totals += collections.Counter(listed=whole.listed, whole=count(whole.lists), files=1)
            database = room / path.name
            database.write_bytes(b"".join(entries))
            matcher = matcher_of(pathlib.Path(folder).resolve(), room, database) if entries else None
            if not matcher:
                print("; none compared")
                continue
            ours, theirs = by_gopat(gopat, database, asked).lists, by_gnugo(matcher, asked)
            differ = [(our, their) for our, their in zip(ours, theirs) if our != their]
            print(f"; {len(entries)} compared, {count(ours)} matches, {len(differ)} of {len(ours)} lists differ")
            for our, their in differ[:1]:
                alone, missed = (sorted(some.elements())[:3] for some in (our - their, their - our))
                print(f"  gopat alone {alone}, GNU Go alone {missed}")
            totals += collections.Counter(compared=len(entries), matches=count(ours), differ=len(differ))
    patterns_and_matches = f"{totals['listed']} patterns listed, {totals['whole']} matches"
    print(f"{totals['files']} files, {patterns_and_matches} on {len(asked)} positions")
    compared, matches, differ = (totals[key] for key in ("compared", "matches", "differ"))
    print(f"{compared} patterns compared as diagrams, {matches} matches, {differ} lists differ")
    return 1 if differ else 0


if __name__ == "__main__":
    command_line.run(main, __doc__)
