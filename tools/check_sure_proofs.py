"""Proofs of sure captures that gopat_sure prints, and what the second checker of sure_proofs.py says of them.

usage: python3 tools/check_sure_proofs.py GOPAT_SURE REGRESSION [CHANGES [SEED [PLIES:WIDE]]]

REGRESSION is the folder regression/ of GNU Go's source. In the stated and in the wider tree, at these depths (15:4 if
none are named), gopat_sure is asked for the proofs of all sure captures of the suites' `attack` and `defend` questions;
`check_proof` and the second checker should accept each. A proof of more than 65,000 bytes is given to `check_proof` in
a file, since a line of the protocol has at most 65,536. Then so many proofs (1,000 if no number stands) are changed at
random, each in a word, the code, the depths or a stone, and both are asked about each. Prints what differs, counts and
the longest proof. The exit status is 1 if anything differs, else 0.
"""

import pathlib
import random
import sys
import tempfile
import time
from collections import Counter
from typing import NamedTuple

import check_proofs
import command_line
import gtp
from check_proofs import Change, Proof, Question, check_line, depths_line, position_of, questions
from go_rules import EMPTY, Position, move_of
from proof_tree import Depths, words_of
from sure_proofs import Reading, Refused

# A proof is changed only if it has at most so many words, since the second checker is slow.
MOST_WORDS = 400
# A proof with more bytes is given to `check_proof` in a file.
MOST_BYTES = 65_000


class GopatSure(check_proofs.Gopat):
    """The running program, which reads this tree."""

    def __init__(self, program: str, tree: str):
        gtp.Running.__init__(self, [program, "--tree", tree])
        self.seconds: Counter[str] = Counter()
        self.slowest: Counter[str] = Counter()


def code_of_capture(kind: str, code: int) -> int:
    """The code under whose ko allowances the capture is sure of which a code tells."""
    return code if kind == "attack" else code + 1


def proves(position: Position, kind: str, target: int, depths: Depths, code: int, words: list[str]) -> bool:
    """Whether the words are a proof of the sure capture of which the code tells."""
    under, attacks = code_of_capture(kind, code), kind == "attack"
    if under not in (1, 2, 3):
        return False
    own, others = int(under == 1), int(under == 3)
    ako, dko = (own, others) if attacks else (others, own)
    reading = Reading(position, target, depths.is_wider)
    try:
        return not reading.check(position, attacks, depths.plies, depths.wide, ako, dko, words)[0]
    except Refused:
        return False


def verdict(position: Position, kind: str, vertex: str, depths: Depths, code: int, text: str) -> str:
    """What gopat_sure should answer to `check_proof`."""
    target = move_of(position.size, vertex).point
    if position.cells[target] == EMPTY:
        return "? vertex must not be empty"
    return "true" if proves(position, kind, target, depths, code, words_of(text)) else "false"


class Told(NamedTuple):
    """The proofs in a tree, how many captures are sure, and what is told of those that have no proof."""

    proofs: list[Proof]
    sure: int
    lacking: Counter[str]


def printed(gopat: GopatSure, asked: list[Question], depths: Depths) -> Told:
    """The proofs of all sure captures."""
    proofs: list[Proof] = []
    sure, lacking = 0, Counter()
    for question in asked:
        gopat.replies([*question.set_up, depths_line(depths)])
        answer = int(gopat.timed(f"{question.kind} {question.vertex}").split()[0])
        code, *words = gopat.timed(f"{question.kind}_proof {question.vertex}").split()
        is_sure = code_of_capture(question.kind, answer) in (1, 2, 3)
        sure += is_sure
        if words and code == str(answer):
            proofs.append(Proof(question, depths, answer, words))
        elif is_sure or [code] != [str(answer)]:
            lacking[" ".join([code, *words])] += 1
    return Told(proofs, sure, lacking)


def given(words: list[str], folder: str) -> str:
    """The words as `check_proof` takes them: in its line, or if they are too long for it in a file of the folder, each
    on a line."""
    text = " ".join(words)
    if len(text) <= MOST_BYTES:
        return text
    file = pathlib.Path(folder, "proof")
    file.write_text("".join(f"{word}\n" for word in words), encoding="ascii")
    return f"@{file}"


def asked_again(gopat: GopatSure, change: Change, folder: str) -> bool:
    """Whether both say the same of a proof, or of a change of one."""
    question, text = change.question, " ".join(change.words)
    position = position_of(tuple(change.set_up))
    ours = verdict(position, question.kind, question.vertex, change.depths, change.code, text)
    gopat.replies([*change.set_up, depths_line(change.depths)])
    theirs = gopat.timed(check_line(question, change.code, given(change.words, folder)))
    if ours != theirs:
        print(f"{change.set_up} {change.depths} {question.kind} {question.vertex}: {ours}, {theirs}: {text[:200]}")
    COUNTS[change.sort, theirs] += 1
    return ours == theirs


COUNTS: Counter[tuple[str, str]] = Counter()


def in_tree(
    program: str, asked: list[Question], depths: Depths, changes: int, choose: random.Random, folder: str
) -> int:
    """How much differs in a tree."""
    tree = "wider" if depths.is_wider else "stated"
    gopat, start = GopatSure(program, tree), time.perf_counter()
    COUNTS.clear()
    told = printed(gopat, asked, depths)
    differ = sum(not asked_again(gopat, Change("proof", one.question.set_up, *one), folder) for one in told.proofs)
    refused = COUNTS["proof", "false"]
    print(f"{tree} {depths.plies} {depths.wide}: {told.sure} sure captures, {len(told.proofs)} proofs,",
          f"{sum(len(one.words) for one in told.proofs)} words, the longest {check_proofs.longest(told.proofs)} bytes;",
          ", ".join(f"{count} {text}" for text, count in told.lacking.items()) or "none without a proof",
          f"and {refused} refused", flush=True)
    short = [one for one in told.proofs if len(one.words) <= MOST_WORDS and not check_proofs.is_short(one)]
    for _ in range(changes if short else 0):
        differ += not asked_again(gopat, check_proofs.changed(choose, choose.choice(short)), folder)
    for sort in sorted({sort for sort, _ in COUNTS} - {"proof"}):
        told_of = [f"{count} {text}" for (one, text), count in sorted(COUNTS.items()) if one == sort]
        print(f"another {sort}: " + ", ".join(told_of))
    print(f"{time.perf_counter() - start:.0f} seconds; gopat_sure ended with status {gopat.end()}; {differ} differ")
    wrong = [text for text in told.lacking if text != "? proof too long"]
    return differ + refused + len(wrong)


def main(program: str, regression: str, changes: str = "1000", seed: str = "1", depths: str = "15:4") -> int:
    plies, wide = map(int, depths.split(":"))
    asked, choose = list(questions(regression)), random.Random(int(seed))
    sys.setrecursionlimit(10_000)
    with tempfile.TemporaryDirectory() as folder:
        return int(sum([
            in_tree(program, asked, Depths(plies, wide, is_wider), (int(changes) + 1 - is_wider) // 2, choose, folder)
            for is_wider in (False, True)
        ]) > 0)


if __name__ == "__main__":
    command_line.run(main, __doc__)
