"""Asks gopat the `attack` and `defend` questions of GNU Go's own regression suite, in the positions of its game
records, and says how long that takes, how often both programs say that it can or cannot be done, and of either
question how often one of them alone says that it can.

usage: python3 tools/compare_readings.py GOPAT GNUGO REGRESSION PLIES WIDE [suite | strings [FILE]]

REGRESSION is the folder with *.tst in GNU Go's source. With the word `strings` both questions are asked about every
string of these positions, in place of those of the suite. With a file's name, gopat's lines are left there too.
"""

import pathlib
import sys
from typing import Iterator, NamedTuple

import ask_records
import command_line
import gtp
import run_cases


class Asked(NamedTuple):
    """A question on a position, and what GNU Go answers."""

    size: int
    black: list[str]
    white: list[str]
    question: str
    theirs: gtp.Reply


def suite(folder: pathlib.Path) -> Iterator[tuple[str, str]]:
    """The lines that load a record, each with a question that follows it."""
    for path in sorted(folder.glob("*.tst")):
        load = None
        for line in path.read_text(encoding="latin-1").splitlines():
            if line.startswith("loadsgf "):
                load = line.strip()
            question = run_cases.CASE.fullmatch(line.strip())
            if load and question:
                yield load, question[2]


def asked_of_gnugo(gnugo: str, folder: pathlib.Path) -> Iterator[Asked]:
    """The questions of the suite, with the position by GNU Go's reading of the record, and its answer."""
    for load, question in suite(folder):
        lines = [load, "query_boardsize", "list_stones black", "list_stones white", question]
        replies, _ = gtp.session(gtp.gnugo(gnugo), lines, str(folder))
        loaded, size, black, white, answer = replies
        if loaded.ok:
            yield Asked(int(size.text), black.text.split(), white.text.split(), question, answer)


def asked_about_strings(gnugo: str, folder: pathlib.Path) -> Iterator[Asked]:
    """Both questions about every string of the positions of the suite, and GNU Go's answers."""
    for load in dict.fromkeys(load for load, _ in suite(folder)):
        (loaded, shown), _ = gtp.session(gtp.gnugo(gnugo), [load, "showboard"], str(folder))
        if not loaded.ok:
            continue
        board = gtp.shown(shown.text)
        questions = list(ask_records.questions_on(board, ["attack STRINGS", "defend STRINGS"]))
        (_, *answers), _ = gtp.session(gtp.gnugo(gnugo), [load, *questions], str(folder))
        for question, answer in zip(questions, answers):
            yield Asked(board.size, board.of("X"), board.of("O"), question, answer)


ASKED = {"suite": asked_of_gnugo, "strings": asked_about_strings}


def set_up(asked: Asked) -> list[str]:
    """The lines that give the position."""
    plays = [f"play b {vertex}" for vertex in asked.black] + [f"play w {vertex}" for vertex in asked.white]
    return [f"boardsize {asked.size}", *plays]


def can(reply: gtp.Reply) -> bool:
    """Whether the answer says that it can be done."""
    return not reply.text.startswith("0")


class Session(NamedTuple):
    """The lines that ask questions, the numbers of those that do, and the lines that set the positions up alone."""

    lines: list[str]
    places: list[int]
    plain: list[str]


def session_of(questions: list[Asked], plies: str, wide: str) -> Session:
    """The session that asks these questions; a position is set up once for the questions on it."""
    session = Session([f"depths {plies} {wide}"], [], [])
    on_board: list[str] = []
    for asked in questions:
        if set_up(asked) != on_board:
            on_board = set_up(asked)
            session.lines.extend(on_board)
            session.plain.extend(on_board)
        session.places.append(len(session.lines))
        session.lines.append(asked.question)
    return session


def tell(answers: list[tuple[Asked, gtp.Reply]]):
    """Prints how often both programs say the same, and of either question how often one alone says that it can."""
    both = [(asked, ours) for asked, ours in answers if ours.ok and asked.theirs.ok]
    answered = [(asked.question, can(ours), can(asked.theirs)) for asked, ours in both]
    alone = sum(ours.ok != asked.theirs.ok for asked, ours in answers)
    print(f"{len(answers)} questions, {len(answered)} of them answered by both, {alone} refused by one alone")
    print(f"{sum(ours == theirs for _, ours, theirs in answered)} times both say the same of whether it can be done")
    for kind in ("attack", "defend"):
        said = [(ours, theirs) for question, ours, theirs in answered if question.startswith(kind)]
        only_ours, only_theirs = said.count((True, False)), said.count((False, True))
        print(f"{kind}: {len(said)} questions, {only_ours} times gopat alone says yes, {only_theirs} GNU Go alone")


def main(
    gopat: str, gnugo: str, regression: str, plies: str, wide: str, about: str = "suite", kept: str | None = None
) -> int:
    if about not in ASKED:
        print(__doc__, file=sys.stderr)
        return 2
    questions = list(ASKED[about](gnugo, pathlib.Path(regression)))
    session = session_of(questions, plies, wide)
    if kept:
        pathlib.Path(kept).write_text("\n".join(session.lines) + "\n", encoding="ascii")

    _, seconds_without = gtp.session([gopat], session.plain)
    replies, seconds = gtp.session([gopat], session.lines)
    print(f"{seconds:.3f} s; without the questions {seconds_without:.3f} s, for {len(session.plain)} lines")
    tell([(asked, replies[place]) for asked, place in zip(questions, session.places)])
    return 0


if __name__ == "__main__":
    command_line.run(main, __doc__)
