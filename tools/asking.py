"""What the scripts that draw ask gopat, and how its replies are read."""

import re
import shlex
from typing import NamedTuple

import gtp
import positions
from go_rules import BLACK, WHITE, move_of
from proof_tree import Depths


class Question(NamedTuple):
    """A question about the string at a vertex, `attack` or `defend`, and the depths at which it is asked."""

    kind: str
    vertex: str
    depths: Depths


class Refused(Exception):
    """A line was refused, or a reply has another form. The text says which."""


def depths_of(word: str, is_wider: bool) -> Depths:
    """The depths that a word such as `10:2` says."""
    found = re.fullmatch(r"(\d+):(\d+)", word)
    if not found:
        raise Refused(f"{word} is no depth, such as 10:2")
    return Depths(int(found[1]), int(found[2]), is_wider)


def answers(program: str, lines: list[str]) -> list[gtp.Reply]:
    """The replies to lines, where no line may have an id. A program that is not there, or answers too little, is told
    as a refusal."""
    try:
        return gtp.session(shlex.split(program), lines)[0]
    except (OSError, RuntimeError) as why:
        raise Refused(str(why)) from why


def running(program: str) -> gtp.Running:
    """The program, to be asked line by line."""
    try:
        return gtp.Running(shlex.split(program))
    except OSError as why:
        raise Refused(str(why)) from why


def proof_lines(situation: positions.Situation, question: Question) -> list[str]:
    """The lines that ask for a proof in a position; the last of them is the question."""
    depths = f"depths {question.depths.plies} {question.depths.wide}"
    return [*situation.lines, depths, f"{question.kind}_proof {question.vertex}"]


def code_and_words(text: str) -> tuple[int, list[str]]:
    """The code and the words of a proof as gopat prints it, with or without the `=` and the id of the reply."""
    found = re.fullmatch(r"\s*(?:=\d*\s+)?([0-3])((?:\s+\S+)*)\s*", text)
    if not found:
        raise Refused(f"no printed proof: {text.strip()[:80]}")
    return int(found[1]), found[2].split()


def cells_of(text: str) -> bytes:
    """The cells of a `showboard` reply."""
    shown = gtp.shown(text)
    cells = bytearray(shown.size * shown.size)
    for vertex, mark in shown.stones.items():
        cells[move_of(shown.size, vertex).point] = BLACK if mark == "X" else WHITE
    return bytes(cells)
