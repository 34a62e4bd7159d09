"""A second checker of proofs of readings, and what it says beside gopat. `check` of proof_tree.py knows the rules of
Go, the candidates of docs/DEFINITIONS.md and the rules of docs/PROOFS_OF_READINGS.md, and asks no program.

usage: python3 tools/check_proofs.py GOPAT REGRESSION [CHANGES [SEED [stated | wider] [PLIES:WIDE ...]]]

REGRESSION is the folder regression/ of GNU Go's source. The program reads the stated tree, or with the word `wider` the
wider one, as `gopat_wide` does. At each of the depths (5:2, 10:2 and 15:5 where none is named) gopat is asked for the
proofs of all `attack` and `defend` questions of the suites; `check` and `check_proof` should accept each. Then so many
proofs (1,000 where no number stands) are changed at random, each in a word, the code, the depths or a stone, and the
verdict of `check` on each is compared with gopat's. Prints what differs, counts, the longest proofs and times. The exit
status is 1 where anything differs, or an example of the page is judged otherwise, else 0.
"""

import functools
import pathlib
import random
import time
from collections import Counter
from typing import Callable, Iterator, NamedTuple

import command_line
import gtp
import run_cases
from go_rules import COLOURS, EMPTY, Position, empty, move_of, play
from proof_tree import Depths, candidates, check, words_of

# The examples of the page: size, plays, kind, vertex, depths, code, words, and whether they are a proof.

ATARI = (9, "b D4 w C4 w E4 w D5")
CORNER = (5, "b A1 w B1 w B2")
KO = (5, "b B3 b C4 b C2 b D3 w D4 w E3 w D2 w C3")
BACKFILLED = (5, "b A2 b B2 b B3 b B4 b A4 w A5 w B5 w C5 w C4 w C3 w C2 w B1")
SNAPBACK = (5, "b A3 b B3 b C2 b C1 w A2 w B2 b A1")
TAKEN_TWICE = (3, "b C3 b B2 w A2 w C2 w C1 b A1")
EXAMPLES = [
    (*ATARI, "attack D4", (3, 2), 3, "W D3 .", True),
    (*ATARI, "attack D4", (3, 2), 3, "W d03 .", True),
    (*ATARI, "attack D4", (3, 2), 3, "W C3 .", False),
    (*ATARI, "attack D4", (3, 2), 3, "N D3 .", False),
    (*ATARI, "attack D4", (3, 2), 3, "w D3 .", False),
    (*ATARI, "attack D4", (3, 2), 3, "W D3 . .", False),
    (*ATARI, "attack D4", (3, 2), 3, "W D3", False),
    (*ATARI, "attack D4", (3, 2), 3, "W PASS .", False),
    (*ATARI, "attack D4", (3, 2), 3, "", False),
    (*ATARI, "attack D4", (3, 2), 2, "W D3 .", False),
    (*ATARI, "defend D4", (3, 2), 3, "N D3 .", True),
    (*ATARI, "defend D4", (1, 0), 3, "N PASS .", True),
    (9, "b D4", "attack D4", (3, 2), 0, "N . N . N .", True),
    (9, "b D4", "attack D4", (3, 2), 0, "N . N .", False),
    (9, "b D4 w C4 w E4", "defend D4", (4, 0), 3, "N PASS * D3 . D5 .", True),
    (9, "b D4 w C4 w E4", "defend D4", (4, 0), 3, "N PASS * D5 . D3 .", False),
    (*CORNER, "defend A1", (2, 0), 0, "W * A2 . A3 . W * A2 . A3 . W * A2 . A3 .", True),
    (*CORNER, "defend A1", (2, 0), 0, "W * A2 . W * A2 . A3 . W * A2 . A3 .", False),
    (*CORNER, "defend A1", (2, 0), 0, "W * A3 . A2 . W * A2 . A3 . W * A2 . A3 .", False),
    (*KO, "attack C3", (3, 4), 1, "N * N * W D3 .", True),
    (*KO, "attack C3", (3, 4), 1, "N . N * W D3 .", False),
    (*KO, "attack C3", (3, 4), 2, "N * W D3 .", False),
    (*SNAPBACK, "attack A1", (3, 0), 3, "W B1 .", True),
    (*SNAPBACK, "attack A1", (3, 0, True), 3, "W B1 .", False),
    (*SNAPBACK, "attack A1", (3, 0, True), 0, "N * A1 . N * A1 . N * A1 .", True),
    (*SNAPBACK, "attack A1", (3, 0, True), 0, "N * * . N * * . N * * .", False),
    (*SNAPBACK, "attack A1", (3, 0, True), 0, "N * . N * . N * .", False),
    (*SNAPBACK, "attack A1", (1, 0, True), 0, "N * . N * . N * .", True),
    (*SNAPBACK, "attack A1", (1, 0, True), 0, "N * A1 . N * A1 . N * A1 .", False),
    (*TAKEN_TWICE, "attack A1", (3, 0, True), 3, "W B1 A1 B1 .", True),
    (*TAKEN_TWICE, "attack A1", (3, 0, True), 3, "W B1 PASS B1 .", False),
    (*TAKEN_TWICE, "attack A1", (3, 0, True), 3, "W B1 * B1 .", False),
    (*TAKEN_TWICE, "attack A1", (3, 0, True), 3, "W B1 .", False),
]


def words_after(position: Position, moves: str) -> Position:
    """The position after plays that stand as a colour and a vertex, each of them legal."""
    words = moves.split()
    for colour, vertex in zip(words[::2], words[1::2]):
        position = after_play(position, f"play {colour} {vertex}")[0]
    return position


def wrong_examples() -> int:
    """How many examples are judged otherwise than on the page."""
    wrong = 0
    for size, moves, question, depths, code, text, verdict in EXAMPLES:
        kind, vertex = question.split()
        found = check(words_after(empty(size), moves), kind, vertex, Depths(*depths), code, text.split())
        if found != verdict:
            print(f"example {question}, {code} {text}: {found}")
            wrong += 1
    position, c1 = words_after(empty(5), BACKFILLED[1]), 22
    found = [c1 in candidates(position, 15, is_wide) for is_wide in (False, True)]
    return wrong + (found != [False, True])


# The questions of the suites.


class Question(NamedTuple):
    """The lines that set a position up, the position, and a question about a point of it."""

    set_up: list[str]
    position: Position
    kind: str
    vertex: str


class Proof(NamedTuple):
    """A question with its depths, and the proof of its code that gopat prints."""

    question: Question
    depths: Depths
    code: int
    words: list[str]


def after_play(position: Position, line: str) -> tuple[Position, bool]:
    """The position after a line `play`, and whether the play is legal; an illegal one changes nothing."""
    _, colour, vertex = line.split()
    after = play(position, COLOURS[colour.lower()], move_of(position.size, vertex).point)
    return after or position, after is not None


@functools.cache
def position_of(set_up: tuple[str, ...]) -> Position:
    """The position after a line `boardsize` and lines `play`."""
    position = empty(int(set_up[0].split()[1]))
    for line in set_up[1:]:
        position = after_play(position, line)[0]
    return position


def line_of(line: str, set_up: list[str]) -> list[str]:
    """The lines that set the position up after one more line, with each play that was taken back left out."""
    if line.startswith("boardsize"):
        return [line]
    return set_up[:-1] if line == "undo" else [*set_up, line]


def has_cases(path: pathlib.Path) -> bool:
    return any(run_cases.CASE.fullmatch(line.strip()) for line in path.read_text(encoding="latin-1").splitlines())


def questions(regression: str) -> Iterator[Question]:
    """The questions of all suites, in order."""
    for path in filter(has_cases, sorted(pathlib.Path(regression).glob("*.tst"))):
        set_up: list[str] = []
        for line in run_cases.cut(path):
            case = run_cases.CASE.fullmatch(line)
            if case:
                kind, vertex = case[2].split()
                yield Question(set_up, position_of(tuple(set_up)), kind, vertex)
            elif not line.startswith("#"):
                set_up = line_of(line, set_up)


class Gopat(gtp.Running):
    """The running program, and the seconds of the processor that it took for each sort of line."""

    def __init__(self, program: str):
        super().__init__([program])
        self.seconds: Counter[str] = Counter()
        self.slowest: Counter[str] = Counter()

    def processor(self) -> float:
        """The seconds that the program has run."""
        return int(pathlib.Path(f"/proc/{self.process.pid}/schedstat").read_text(encoding="ascii").split()[0]) / 1e9

    def timed(self, line: str) -> str:
        """The text of a reply, that of a refusal behind `? `."""
        start = self.processor()
        reply = text_of(self.pass_on(line.encode()))
        seconds, sort = self.processor() - start, line.split()[0]
        self.seconds[sort] += seconds
        self.slowest[sort] = max(self.slowest[sort], seconds)
        return reply

    def replies(self, lines: list[str]) -> list[str]:
        """The replies to lines that are sent together. They must be so few and short that a pipe holds them."""
        self.process.stdin.write("".join(line + "\n" for line in lines).encode())
        self.process.stdin.flush()
        return [text_of(self.process.stdout.readline() + self.process.stdout.readline()) for _ in lines]

    def depths(self, depths: Depths):
        self.replies([depths_line(depths)])


def text_of(reply: bytes) -> str:
    """The text of a reply of one line; that of a refusal begins with `?`."""
    return reply.decode().strip().removeprefix("=").strip()


def depths_line(depths: Depths) -> str:
    return f"depths {depths.plies} {depths.wide}"


def check_line(question: Question, code: int, text: str) -> str:
    return f"check_proof {question.kind} {question.vertex} {code} {text}"


def verdict(position: Position, kind: str, vertex: str, depths: Depths, code: int, text: str) -> str:
    """What gopat should answer to `check_proof`."""
    if position.cells[move_of(position.size, vertex).point] == EMPTY:
        return "? vertex must not be empty"
    return "true" if check(position, kind, vertex, depths, code, words_of(text)) else "false"


# What gopat prints, and random changes of it.


class Told(NamedTuple):
    """The proofs at some depths, and counts of the questions that have none."""

    proofs: list[Proof]
    refused: Counter[str]


def printed(gopat: Gopat, asked: list[Question], depths: Depths) -> Told:
    """The proofs of the questions that have one."""
    told = Told([], Counter())
    gopat.depths(depths)
    for question in asked:
        gopat.replies(question.set_up)
        answer = gopat.timed(f"{question.kind} {question.vertex}")
        text = gopat.timed(f"{question.kind}_proof {question.vertex}")
        if text.startswith("?"):
            told.refused[text[2:]] += 1
            continue
        code, *words = text.split()
        told.refused["another code than that of the reading"] += answer.split()[0] != code
        told.proofs.append(Proof(question, depths, int(code), words))
    return told


def refusals(gopat: Gopat, proof: Proof) -> int:
    """How many of the two checkers do not accept a proof."""
    question, text = proof.question, " ".join(proof.words)
    gopat.replies(question.set_up)
    ours = verdict(question.position, question.kind, question.vertex, proof.depths, proof.code, text)
    theirs = gopat.timed(check_line(question, proof.code, text))
    if (ours, theirs) != ("true", "true"):
        print(f"{question.kind} {question.vertex} at {proof.depths}: {ours} and {theirs}: {proof.code} {text[:200]}")
    return (ours != "true") + (theirs != "true")


def longest(proofs: list[Proof]) -> int:
    """The bytes of the longest proof, without its code."""
    return max((len(" ".join(proof.words)) for proof in proofs), default=0)


def both_accept(gopat: Gopat, asked: list[Question], depths: Depths) -> tuple[list[Proof], int]:
    """The proofs at these depths, and how much differs about them."""
    gopat.seconds.clear()
    gopat.slowest.clear()
    told = printed(gopat, asked, depths)
    start = time.process_time()
    differ = sum(refusals(gopat, proof) for proof in told.proofs)
    seconds = time.process_time() - start
    codes = Counter(proof.code for proof in told.proofs)
    words = sum(len(proof.words) for proof in told.proofs)
    print(f"{depths.plies} {depths.wide}:", f"{len(told.proofs)} proofs, {words} words,",
          f"the longest {longest(told.proofs)} bytes;",
          f"codes 3 to 0: {', '.join(str(codes[code]) for code in (3, 2, 1, 0))};",
          ", ".join(f"{count} {text}" for text, count in sorted(told.refused.items()) if count) or "none refused")
    for name, sorts in SORTS.items():
        slowest = max(gopat.slowest[sort] for sort in sorts)
        print(f"  {name}: {sum(gopat.seconds[sort] for sort in sorts):.4f} seconds, at most {slowest:.5f}")
    print(f"  checking here: {seconds:.1f} seconds")
    return told.proofs, differ + told.refused["another code than that of the reading"]


SORTS = {"reading": ("attack", "defend"), "printing": ("attack_proof", "defend_proof"), "checking": ("check_proof",)}


def random_vertex(choose: random.Random, position: Position, near: str | None = None) -> str:
    """A vertex of the board; where one is named, mostly one near it."""
    size = position.size
    column, row = choose.randrange(size), choose.randrange(size)
    if near and choose.random() < 0.75:
        point = move_of(size, near).point
        column = min(max(point % size + choose.randint(-2, 2), 0), size - 1)
        row = min(max(size - 1 - point // size + choose.randint(-2, 2), 0), size - 1)
    return f"{gtp.COLUMNS[column]}{row + 1}"


# Words that are none of a proof, or are written otherwise than gopat prints them.
ODD = ["I3", "**", "..", "w", "n", "A0", "A100", "a1", "A01", "pass", "Pass", "PASS1", "D", "4", "Z25", "W."]


def random_word(choose: random.Random, proof: Proof) -> str:
    """A word that may stand in a proof, or an odd one."""
    vertex = random_vertex(choose, proof.question.position, proof.question.vertex)
    of_proof = choose.choice(proof.words)
    return choose.choice([".", "*", "W", "N", "PASS", vertex, vertex, of_proof, of_proof, choose.choice(ODD)])


def with_another_word(choose: random.Random, proof: Proof) -> list[str]:
    """The words with one of them another one, left out, doubled, exchanged with the next or in the other case."""
    words, at = list(proof.words), choose.randrange(len(proof.words))
    word = words[at]
    changed = [[random_word(choose, proof)], [], [word, word], [word, random_word(choose, proof)], [word.swapcase()]]
    sort = choose.randrange(len(changed) + 1)
    if sort == len(changed):
        return [*words[:at], *reversed(words[at : at + 2]), *words[at + 2 :]]
    return [*words[:at], *changed[sort], *words[at + 1 :]]


def with_another_move(choose: random.Random, proof: Proof) -> list[str]:
    """The words with a move another one near it; the words as they are where there is no move."""
    size = proof.question.position.size
    moves = [at for at, word in enumerate(proof.words) if move_of(size, word)]
    if not moves:
        return proof.words
    at = choose.choice(moves)
    near = proof.words[at] if proof.words[at] != "PASS" else proof.question.vertex
    move = "PASS" if choose.random() < 0.2 else random_vertex(choose, proof.question.position, near)
    return [*proof.words[:at], move, *proof.words[at + 1 :]]


def with_a_part_undone(choose: random.Random, proof: Proof) -> list[str]:
    """The words with a `.` another proof that may do: each move and as many `.`, or a move and a `.`."""
    words, at = proof.words, choose.choice([at for at, word in enumerate(proof.words) if word == "."] or [0])
    size = proof.question.position.size
    moves = [word for word in words if move_of(size, word)] or [proof.question.vertex]
    each = ["*"] + ["."] * choose.randint(0, 6)
    return [*words[:at], *choose.choice([each, each, [choose.choice(moves), "."]]), *words[at + 1 :]]


def with_more_blanks(choose: random.Random, proof: Proof) -> list[str]:
    """The words with more blanks, tabs or control bytes between them, or at an end."""
    words = list(proof.words)
    for _ in range(choose.randint(1, 4)):
        words.insert(choose.randint(0, len(words)), choose.choice(["", " ", "\t", "\x01", "\x0b\x1f", "\t\x7f "]))
    at = choose.randrange(len(words))
    words[at] += choose.choice(["", "\x02", "\t", "\x0c"])
    return words


def with_many_words(choose: random.Random, proof: Proof) -> list[str]:
    """Some 60,000 bytes of `*` or `.`, as one word or as many, behind words that stand first."""
    many = choose.choice([["*" * 60_000], ["*"] * 30_000, ["."] * 30_000, ["*", "."] * 15_000])
    return [*proof.words[: choose.randint(0, min(len(proof.words), 100))], *many]


# How a word is changed, and how often.
WORDS: dict[Callable[[random.Random, Proof], list[str]], int] = {
    with_another_word: 300,
    with_another_move: 300,
    with_a_part_undone: 300,
    with_more_blanks: 99,
    with_many_words: 1,
}


# The most wide plies that gopat takes.
MOST_WIDE = 12


def other_depths(choose: random.Random, depths: Depths) -> Depths:
    """Depths near these, or far from them, in the same tree."""
    if choose.random() < 0.2:
        return depths._replace(plies=choose.randint(1, 30), wide=choose.randint(0, MOST_WIDE))
    plies, wide = depths.plies + choose.choice([-2, -1, 0, 1, 2]), depths.wide + choose.choice([-1, 0, 0, 1])
    return depths._replace(plies=max(plies, 1), wide=min(max(wide, 0), MOST_WIDE))


class Change(NamedTuple):
    """A proof that was changed: its question's lines, and what else is asked about it."""

    sort: str
    set_up: list[str]
    question: Question
    depths: Depths
    code: int
    words: list[str]


def with_another_stone(choose: random.Random, question: Question) -> list[str]:
    """The lines with one more play, or with one left out."""
    if choose.random() < 0.1 and len(question.set_up) > 1:
        at = choose.randrange(1, len(question.set_up))
        return [*question.set_up[:at], *question.set_up[at + 1 :]]
    return [*question.set_up, f"play {choose.choice('bw')} {random_vertex(choose, question.position, question.vertex)}"]


def changed(choose: random.Random, proof: Proof) -> Change:
    """A random change of a proof."""
    question, depths, code, words = proof
    sort = choose.choices(["word", "code", "depths", "stone"], [60, 5, 15, 20])[0]
    set_up = question.set_up
    if sort == "word":
        words = choose.choices(list(WORDS), list(WORDS.values()))[0](choose, proof)
    elif sort == "code":
        code = choose.choice([one for one in range(4) if one != code])
    elif sort == "depths":
        depths = other_depths(choose, depths)
    else:
        set_up = with_another_stone(choose, question)
    return Change(sort, set_up, question, depths, code, words)


class Line(NamedTuple):
    """A line, and the reply that is right; none where it does not matter."""

    text: str
    reply: str | None = None


def lines_of(change: Change) -> list[Line]:
    """The lines that ask about a change of a proof, where the question's position is set up before and behind."""
    question, text, before = change.question, " ".join(change.words), change.question.set_up
    position, first, last = question.position, [], []
    if change.set_up[:-1] == before:
        position, is_legal = after_play(position, change.set_up[-1])
        first, last = [Line(change.set_up[-1], "" if is_legal else "? illegal move")], [Line("undo", "")] * is_legal
    elif change.set_up != before:
        position = position_of(tuple(change.set_up))
        first, last = list(map(Line, change.set_up)), list(map(Line, before))
    ours = verdict(position, question.kind, question.vertex, change.depths, change.code, text)
    asked = Line(check_line(question, change.code, text), ours)
    return [*first, Line(depths_line(change.depths), ""), asked, *last]


def wrong_replies(gopat: Gopat, changes: list[Change], counts: Counter[tuple[str, str]]) -> int:
    """How many replies about changes of one question's proofs differ; counts our verdicts."""
    lines = list(map(Line, changes[0].question.set_up))
    for change in changes:
        lines += lines_of(change)
        ours = next(line.reply for line in reversed(lines) if line.text.startswith("check_proof"))
        counts[change.sort, ours] += 1
    replies = gopat.replies([line.text for line in lines])
    wrong = [(line, reply) for line, reply in zip(lines, replies) if line.reply not in (None, reply)]
    for line, reply in wrong:
        print(f"behind {changes[0].question.set_up[-1]}, {line.text[:500]!r}: {line.reply} and {reply}")
    return len(wrong)


# So many changes of one proof are asked about together, and behind so many the count so far is told.
TOGETHER = 40
TOLD = 5_000


def is_short(proof: Proof) -> bool:
    """Whether a proof has nothing but settled nodes."""
    return len(proof.words) <= 6


def counts_of(counts: Counter[tuple[str, str]], ours: str) -> int:
    """How many changes have this verdict."""
    return sum(count for (_, one), count in counts.items() if one == ours)


def compare_changes(gopat: Gopat, proofs: list[Proof], changes: int, choose: random.Random) -> int:
    """How many of so many random changes are judged otherwise. Of proofs with no moves only every fifth is taken."""
    counts: Counter[tuple[str, str]] = Counter()
    differ, start = 0, time.perf_counter()
    while counts.total() < changes:
        proof = choose.choice(proofs)
        if is_short(proof) and choose.random() < 0.8:
            continue
        more = [changed(choose, proof) for _ in range(min(TOGETHER, changes - counts.total()))]
        differ += wrong_replies(gopat, more, counts)
        if counts.total() % TOLD < len(more):
            accepted = counts_of(counts, "true")
            print(f"  {counts.total()} changed, {accepted} of them accepted: {differ} differ", flush=True)
    for sort in sorted({sort for sort, _ in counts}):
        told = {text: count for (one, text), count in counts.items() if one == sort}
        print(f"another {sort}: " + ", ".join(f"{count} {text}" for text, count in sorted(told.items())))
    print(f"{changes} changed proofs in {time.perf_counter() - start:.0f} seconds: {differ} differ")
    return differ


def main(gopat: str, regression: str, changes: str = "1000", seed: str = "1", *words: str) -> int:
    tree, depths = (words[0], words[1:]) if words[:1] in (("stated",), ("wider",)) else ("stated", words)
    differ = wrong_examples()
    program = Gopat(gopat)
    asked = list(questions(regression))
    proofs: list[Proof] = []
    for text in depths or ("5:2", "10:2", "15:5"):
        plies, wide = text.split(":")
        more, wrong = both_accept(program, asked, Depths(int(plies), int(wide), tree == "wider"))
        proofs += more
        differ += wrong
    differ += compare_changes(program, proofs, int(changes), random.Random(int(seed)))
    print(f"gopat ended with status {program.end()}; {differ} differ in all")
    return int(differ > 0)


if __name__ == "__main__":
    command_line.run(main, __doc__)
