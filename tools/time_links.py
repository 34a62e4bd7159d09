"""Times the `connect` and `disconnect` questions of GNU Go's own regression suite by gopat, in the positions of its
game records, and the same questions again beside kept `attack` questions; and says how often gopat's answer is that of
the suite.

usage: python3 tools/time_links.py GOPAT GNUGO REGRESSION [PLIES ..]

REGRESSION is the folder with *.tst in GNU Go's source; GNUGO sets the positions up. The plies are 6, 10, 20 and 200 if
none are given. A question's time is that of its line's way to gopat and back, on the clock, and the shortest of three
counts. That of a kept one is the processor's, over 10,000 repeats of each question, without the session that asks once.
"""

import pathlib
import re
import sys
import time
from typing import Iterator, NamedTuple

import compare_readings
import cost
import gtp

PLIES = ["6", "10", "20", "200"]

REPEATS = 10_000


class Asked(NamedTuple):
    """The lines that set a position up, a question, and whether the suite wants a yes, where it says."""

    there: list[str]
    question: str
    wanted: bool | None


def wanted(comment: str) -> bool | None:
    """Whether an answer that is wanted, as `#? [1 (C5|D6)]*`, is a yes; one behind a `!` is not wanted."""
    parts = re.match(r"#\?\s*\[(!?)([0-9])", comment)
    return None if parts is None else (parts[2] != "0") != (parts[1] == "!")


def suite(folder: pathlib.Path) -> Iterator[tuple[str, str, bool | None]]:
    """The lines that load a record, each with a question that follows it and what is wanted of that."""
    for path in sorted(folder.glob("*.tst")):
        load, lines = None, path.read_text(encoding="latin-1").splitlines()
        for line, after in zip(lines, lines[1:] + [""]):
            if line.startswith("loadsgf "):
                load = line.strip()
            question = re.fullmatch(r"\d+ ((?:dis)?connect [A-T]\d+ [A-T]\d+)", line.strip())
            if load and question:
                yield load, question[1], wanted(after)


def questions_of(gnugo: str, folder: pathlib.Path) -> Iterator[Asked]:
    """The questions of the suite, with the position by GNU Go's reading of the record."""
    for load, question, yes in suite(folder):
        lines = [load, "query_boardsize", "list_stones black", "list_stones white"]
        (loaded, size, black, white), _ = gtp.session([gnugo, "--mode", "gtp", "--quiet"], lines, str(folder))
        if loaded.ok:
            stones = compare_readings.Asked(int(size.text), black.text.split(), white.text.split(), question, loaded)
            yield Asked(compare_readings.set_up(stones), question, yes)


def timed(gopat: str, plies: str, questions: list[Asked]) -> list[tuple[float, gtp.Reply]]:
    """The seconds that each question takes the first time, and its answer."""
    running = gtp.Running([gopat])
    running.ask(f"depths {plies} 0")
    times = []
    for asked in questions:
        for line in asked.there:
            running.ask(line)
        start = time.perf_counter()
        reply = running.ask(asked.question)
        times.append((time.perf_counter() - start, reply))
    running.end()
    return times


def of_plies(gopat: str, plies: str, questions: list[Asked]):
    """Says what the questions take at so many plies, and how often gopat's answer is wanted."""
    runs = [timed(gopat, plies, questions) for _ in range(3)]
    seconds = [min(run[number][0] for run in runs) for number in range(len(questions))]
    answers = [(reply, asked.wanted) for (_, reply), asked in zip(runs[0], questions)]
    answered = [(reply, yes) for reply, yes in answers if reply.ok and yes is not None]
    alike = sum((reply.text[0] == "1") == yes for reply, yes in answered)
    print(
        f"{plies:>3} plies: {len(questions)} questions in {sum(seconds) * 1e3:.2f} ms, the slowest {max(seconds) * 1e3:.3f} ms; "
        f"{alike} of {len(answered)} as the suite wants"
    )


def kept_microseconds(gopat: str, asking: list[tuple[list[str], str]]) -> float:
    """The microseconds of a question that is asked again."""
    once = [line for there, text in asking for line in [*there, text]]
    again = [line for there, text in asking for line in [*there, *[text] * (1 + REPEATS)]]
    many, one = (min(cost.of([gopat], lines).seconds for _ in range(3)) for lines in (again, once))
    return (many - one) * 1e6 / (len(asking) * REPEATS)


def main(gopat: str, gnugo: str, regression: str, *plies: str):
    questions = list(questions_of(gnugo, pathlib.Path(regression)))
    for some in plies or PLIES:
        of_plies(gopat, some, questions)
    links = kept_microseconds(gopat, [(asked.there, asked.question) for asked in questions])
    attacks = kept_microseconds(gopat, [(asked.there, f"attack {asked.question.split()[1]}") for asked in questions])
    print(f"the same again: {links:.2f} us, a kept attack {attacks:.2f} us: {links / attacks:.2f} times")


if __name__ == "__main__":
    if len(sys.argv) < 4:
        sys.exit(__doc__)
    main(*sys.argv[1:])
