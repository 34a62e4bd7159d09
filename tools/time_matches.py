"""Times gopat's matches and those of GNU Go's own automaton over the same patterns, in one run, and what both compilers
take.

usage: python3 tools/time_matches.py GOPAT TIMER BUILD PATTERNS.db RECORDS [POSITIONS [REPEATS [SEED]]]

TIMER is the program of crates/matcher_timer, which calls `matches` as GNU Go's matcher is called here; BUILD is GNU
Go's source after ./configure and make; RECORDS a folder that is searched for *.sgf. The entries are taken as diagrams
alone with the class letter `s`, without their constraints, so that neither program reads; one with the mark O or
without a stone is left out, as by tools/compare_matches.py. GNU Go's matcher is linked with a callback that only
counts: it tests no legality and sorts nothing. gopat's time is that of its whole reply, without what a session takes
that sets the positions up and asks nothing; and once more with the constraint `0` at each entry, which is false, so
that the same matches are found, tried and sorted, and none is written. A call is one position and one colour; all times
are the processor's, and of nine runs of each in turn the shortest and the middle one are told.
"""

import collections
import pathlib
import random
import statistics
import subprocess
import tempfile

import command_line
import compare_matches
import cost
import gtp

# Answers lines `size N`, `put b D4` and `match b N`, and at its end prints how many matches a call gives, and its
# microseconds.
DRIVER = r"""
#include <stdio.h>
#include <string.h>
#include <time.h>
#include "liberty.h"
#include "patterns.h"
extern struct pattern_db timed_db;
static const char letters[] = "ABCDEFGHJKLMNOPQRST";
static long matches, calls;
static void found(int anchor, int color, struct pattern *p, int ll, void *data) { matches++; }
static double now(void) {
  struct timespec at;
  clock_gettime(CLOCK_PROCESS_CPUTIME_ID, &at);
  return at.tv_sec * 1e6 + at.tv_nsec / 1e3;
}
int main(void) {
  char line[80], colour, column;
  int number;
  double spent = 0;
  init_gnugo(8, 1);
  while (fgets(line, sizeof line, stdin)) {
    if (sscanf(line, "size %d", &number) == 1) {
      gnugo_clear_board(number);
    } else if (sscanf(line, "put %c %c%d", &colour, &column, &number) == 3) {
      int at = POS(board_size - number, (int) (strchr(letters, column) - letters));
      add_stone(at, colour == 'b' ? BLACK : WHITE);
    } else if (sscanf(line, "match %c %d", &colour, &number) == 2) {
      double start = now();
      for (calls += number; number > 0; number--)
        matchpat(found, colour == 'b' ? BLACK : WHITE, &timed_db, NULL, NULL);
      spent += now() - start;
    }
  }
  printf("%ld %f\n", matches / (calls ? calls : 1), spent / (calls ? calls : 1));
  return 0;
}
"""


# How often each program is run, in turn.
RUNS = 9

# GNU Go's compiler of patterns.
COMPILER = ["mkpat.c", "transform.c", "dfa.c"]


def unlisted(entry: bytes) -> bytes:
    """The entry with a constraint that is false."""
    diagram = entry.split(b"\n\n")[1]
    return entry + b"\n\n".join([diagram, b";0", b""]) + b"\n"


def widened(folder: pathlib.Path, room: pathlib.Path):
    """Copies what GNU Go's automata are made and read by, with numbers of 32 bits: 16 are too few for so many
    patterns."""
    for path in (*(folder / "patterns").glob("*.h"), *(folder / "patterns" / name for name in COMPILER)):
        text = path.read_text(encoding="latin-1")
        if path.name == "dfa.h":
            text = text.replace("  short ", "  int ").replace("(8 * 24)", "(8 * 1024)")
        if path.name == "dfa.c":
            text = text.replace("32768", "2000000000").replace("65535", "2000000000")
        (room / path.name).write_text(text, encoding="latin-1")


def compiled_by_gnugo(folder: pathlib.Path, room: pathlib.Path, database: pathlib.Path) -> cost.Cost:
    """Makes GNU Go's automaton of the entries, as C, and says what its compiler of patterns took."""
    widened(folder, room)
    build = compare_matches.Build(folder, room)
    build.compile([room / name for name in COMPILER], room / "mkpat", ["utils/libutils.a"])
    command = [room / "mkpat", "-D", "-m", "-b", "-i", database, "-o", room / "timed.c", "timed"]
    return cost.of([str(word) for word in command])


def matcher_of(folder: pathlib.Path, room: pathlib.Path) -> pathlib.Path:
    """GNU Go's matcher over that automaton."""
    (room / "driver.c").write_text(DRIVER, encoding="ascii")
    files = [room / "driver.c", room / "timed.c", folder / "engine/matchpat.c"]
    compare_matches.Build(folder, room).compile(files, room / "matcher")
    return room / "matcher"


def microseconds_of_gnugo(
    matcher: pathlib.Path, asked: list[compare_matches.Position], repeats: int
) -> tuple[int, float]:
    """How many matches a call gives, and its microseconds."""
    lines = []
    for position in asked:
        lines += [f"size {position.size}", *(f"put {stone}" for stone in position.stones)]
        lines += [f"match {colour} {repeats}" for colour in "bw"]
    done = subprocess.run([matcher], input="\n".join(lines) + "\n", capture_output=True, text=True, check=True)
    matches, microseconds = done.stdout.split()[-2:]
    return int(matches), float(microseconds)


def microseconds_of_gopat(command: list[str], asked: list[compare_matches.Position], repeats: int) -> float:
    """The microseconds of a call. The shortest of three sessions counts."""
    without, lines = [], []
    for position in asked:
        there = [f"boardsize {position.size}", *(f"play {stone}" for stone in position.stones), "play b pass"]
        without += there
        lines += there + ["match_patterns b", "match_patterns w"] * repeats
    spent, plain = (min(cost.of(command, some).seconds for _ in range(3)) for some in (lines, without))
    return (spent - plain) * 1e6 / (2 * repeats * len(asked))


def drawing(one: compare_matches.Position) -> str:
    """The marks of a board in reading order."""
    marks = ["."] * (one.size * one.size)
    for stone in one.stones:
        colour, vertex = str(stone).split()
        row, column = one.size - int(vertex[1:]), gtp.COLUMNS.index(vertex[0].upper())
        marks[row * one.size + column] = "X" if colour == "b" else "O"
    return "".join(marks)


def microseconds_of_matches(timer: str, room: pathlib.Path, database: pathlib.Path, repeats: int, calls: int) -> float:
    """The microseconds of a call of `matches` over the boards of the room."""
    spent, plain = (cost.of([timer, str(database), str(room / "boards"), str(some)]).seconds for some in (repeats, 0))
    return (spent - plain) * 1e6 / (repeats * calls)


def told(found: list[float], theirs: list[float]) -> str:
    """The shortest and the middle time, and what they are of the other program's."""
    least, middle = min(found), statistics.median(found)
    of_theirs = f"{least / min(theirs):.2f} and {middle / statistics.median(theirs):.2f} times"
    return f"{least:.1f} us, {middle:.1f} in the middle: {of_theirs}"


def matches_of_gopat(command: list[str], asked: list[compare_matches.Position]) -> int:
    """How many matches a call gives."""
    found = compare_matches.by_gopat(command[0], pathlib.Path(command[-1]), asked).lists
    return compare_matches.count(found) // len(found)


def main(
    gopat: str,
    timer: str,
    build: str,
    patterns: str,
    records: str,
    wanted: str = "120",
    repeats: str = "20",
    seed: str = "1",
):
    luck, folder = random.Random(int(seed)), pathlib.Path(build).resolve()
    places = compare_matches.positions(pathlib.Path(records), int(wanted), luck)
    asked = [compare_matches.Position(one.size, compare_matches.stones_left(gopat, one)) for one in places]
    drawn = compare_matches.drawn_entries(pathlib.Path(patterns))
    entries = compare_matches.numbered(one.entry for one in drawn)
    sizes = collections.Counter(one.size for one in asked)
    print(f"{len(entries)} patterns on {len(asked)} positions, {sizes[19]} of them 19 by 19")
    with tempfile.TemporaryDirectory() as name:
        room = pathlib.Path(name)
        database = room / "timed.db"
        database.write_bytes(b"".join(entries))
        silent = room / "silent.db"
        silent.write_bytes(b"".join(map(unlisted, entries)))
        command = [gopat, "--states", "1000000", str(database)]
        theirs = compiled_by_gnugo(folder, room, database)
        ours, empty = cost.of(command), cost.of([gopat])
        without = f"{empty.megabytes:.1f} MB without patterns"
        print(f"compiled by gopat   {ours.seconds:.2f} s, {ours.megabytes:.1f} MB ({without})")
        print(f"compiled by GNU Go  {theirs.seconds:.2f} s, {theirs.megabytes:.1f} MB")
        (room / "boards").write_text("".join(drawing(one) + "\n" for one in asked), encoding="ascii")
        matcher, many = matcher_of(folder, room), 4 * int(repeats)
        matches, times, inner, listed, unlisted_ones = 0, [], [], [], []
        for _ in range(RUNS):
            matches, microseconds = microseconds_of_gnugo(matcher, asked, many)
            times.append(microseconds)
            inner.append(microseconds_of_matches(timer, room, database, many, 2 * len(asked)))
            listed.append(microseconds_of_gopat(command, asked, int(repeats)))
            unlisted_ones.append(microseconds_of_gopat([*command[:-1], str(silent)], asked, int(repeats)))
        alone = microseconds_of_gopat([gopat], asked, int(repeats))
        middle = statistics.median(times)
        print(f"a call of GNU Go    {min(times):.1f} us, {middle:.1f} in the middle, {matches} matches")
        print(f"a call of `matches` {told(inner, times)}, {matches_of_gopat(command, asked)} matches")
        print(f"a line, listed      {told(listed, times)}")
        print(f"a line, none listed {told(unlisted_ones, times)}")
        print(f"without patterns    {alone:.1f} us")


if __name__ == "__main__":
    command_line.run(main, __doc__)
