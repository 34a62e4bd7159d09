"""Writes a printed proof as a game record, in which an editor shows each move that the proof answers as a variation.

usage: python3 tools/proof_as_sgf.py POSITION KIND VERTEX PLIES:WIDE [--gopat GOPAT] [--wider] [--shortest] > OUT.sgf

POSITION is a game record `*.sgf`, of which the end of the main line counts, or a file of protocol lines, of which
`boardsize`, `clear_board`, `play`, `undo` and `loadsgf` count. KIND is `attack` or `defend`, VERTEX the string, and
PLIES:WIDE the depths at which the proof was printed, as in `10:2`. The proof is read from standard input, as the reply
to `attack_proof` or `defend_proof` has it; with --gopat this program is asked for it. With --wider it is one of the
wider tree, of `gopat_wide`.

The first node has the position, with the target marked, the code, and what the proof claims. Where the proof differs
from one ko allowance to another, the moves of each part are variations of their own, which begin with its claim. A `*`
of the proof is spread into all moves that it stands for, in the order of the checker, and where `.` stands the comment
says why nothing more has to be tried. With --shortest the record has one line of play alone: the shortest one to such
an end, in the part of the code that is told.

The words are checked on the way by the second checker (proof_tree.py). The exit status is 1 where they are no proof, or
gopat prints none, and 2 where the words of the command line cannot be taken or POSITION cannot be read.
"""

import argparse
import sys

import asking
import command_line
import positions
import sgf
from go_rules import BLACK, EMPTY, WHITE, Move, Position, vertex_of
from proof_tree import (
    Part, Step, behind_in_words, claim_in_words, grouped, is_against_ban, mover, parts_of, shortest, side_of
)

LETTERS = {BLACK: "B", WHITE: "W"}


def value(name: str, text: str) -> str:
    """A property with one value; nothing where the text is empty."""
    return f"{name}[{sgf.escaped(text)}]" if text else ""


def move_sgf(step: Step, move: Move) -> str:
    """The node of a move that is played at a step."""
    point = sgf.point_at(move.point, step.node.position.size)
    ko = "KO[]" if is_against_ban(step.node, move) else ""
    return f";{LETTERS[mover(step.node)]}[{point}]{ko}"


def comment(step: Step, before: Step, move: Move, told: str = "") -> str:
    """What is said of a move: a text, that it ignores the ban, and what stands behind it."""
    ban = f"The {side_of(before.node)} ignores the ko ban." if is_against_ban(before.node, move) else ""
    return value("C", "\n".join(filter(None, [told, " ".join(filter(None, [ban, behind_in_words(step)]))])))


def variations(step: Step, told: str = "") -> list[str]:
    """The moves of a proof from a step on; before what is said of the first ones stands another text."""
    found = []
    for move, behind in step.behind:
        rest = variations(behind)
        below = rest[0] if len(rest) == 1 else "".join(f"\n({one})" for one in rest)
        found.append(move_sgf(step, move) + comment(behind, step, move, told) + below)
    return found


def line_of_play(step: Step) -> list[str]:
    """The shortest line of play alone."""
    text = ""
    for move, behind in shortest(step):
        text += move_sgf(step, move) + comment(behind, step, move)
        step = behind
    return [text]


def claims(kind: str, group: list[Part]) -> str:
    """What a group of parts claims, a line for each."""
    return "\n".join(f"Code {part.code}: {claim_in_words(kind, part)}." for part in group)


def with_ending(kind: str, group: list[Part]) -> str:
    """The claims, with what stands behind the first node."""
    return "\n".join(filter(None, [claims(kind, group), behind_in_words(group[-1].first)]))


def root(position: Position, question: asking.Question, code: int, told: str) -> str:
    """The first node."""
    size, target = position.size, positions.point_named(position, question.vertex)
    plays = position.cells[target] if question.kind == "defend" else BLACK + WHITE - position.cells[target]
    plies, wide, is_wider = question.depths
    tree = "wider" if is_wider else "stated"
    head = f"{question.kind} {question.vertex}: code {code}, at {plies} plies of which {wide} are wide, {tree} tree."
    ban = position.ban and f"{positions.NAMES[position.ban[1]]} may not play at {vertex_of(size, position.ban[0])}: ko."
    text = value("C", "\n".join(filter(None, [head, ban, told])))
    marks = f"PL[{LETTERS[plays]}]TR[{sgf.point_at(target, size)}]"
    return f";FF[4]GM[1]CA[UTF-8]AP[gopat]SZ[{size}]\n{positions.set_up_sgf(position)}\n{marks}\n{text}"


def record(position: Position, question: asking.Question, code: int, parts: list[Part], is_short: bool) -> str:
    """The whole record. Of several parts with other moves each says of its first moves what it claims."""
    groups = grouped(parts)[-1:] if is_short else grouped(parts)
    told = "\n".join(with_ending(question.kind, group) for group in groups)
    found: list[str] = []
    for group in groups:
        claim = claims(question.kind, group) if len(groups) > 1 else ""
        found += line_of_play(group[-1].first) if is_short else variations(group[-1].first, claim)
    body = "".join(found) if len(found) == 1 else "\n".join(f"({one})" for one in found)
    return f"({root(position, question, code, told)}\n{body})\n"


# The command.


def read_words(given: tuple[str, ...]) -> argparse.Namespace:
    words = argparse.ArgumentParser(usage=__doc__, add_help=False)
    words.add_argument("position")
    words.add_argument("kind", choices=("attack", "defend"))
    words.add_argument("vertex")
    words.add_argument("depths")
    words.add_argument("--gopat")
    words.add_argument("--wider", action="store_true")
    words.add_argument("--shortest", action="store_true")
    return words.parse_args(given)


def printed(words: argparse.Namespace, situation: positions.Situation, question: asking.Question) -> str:
    """The proof as it was printed: the reply of the program, or standard input."""
    if words.gopat is None:
        return sys.stdin.read()
    reply = asking.answers(words.gopat, asking.proof_lines(situation, question))[-1]
    if not reply.ok:
        raise NoProof(reply.text)
    return reply.text


class NoProof(Exception):
    """There is no proof to be written. The text says why."""


def main(*given: str) -> int:
    words = read_words(given)
    try:
        situation = positions.read(words.position)
        question = asking.Question(words.kind, words.vertex.upper(), asking.depths_of(words.depths, words.wider))
        if situation.position.cells[positions.point_named(situation.position, question.vertex)] == EMPTY:
            raise positions.NotRead(f"no stone stands at {question.vertex}")
        code, tokens = asking.code_and_words(printed(words, situation, question))
        parts = parts_of(situation.position, question.kind, question.vertex, question.depths, code, tokens)
        if parts is None:
            raise NoProof(f"these words do not prove code {code} of {question.kind} {question.vertex}")
    except (positions.NotRead, asking.Refused, NoProof) as why:
        print(why, file=sys.stderr)
        return 1 if isinstance(why, NoProof) else 2
    sys.stdout.write(record(situation.position, question, code, parts, words.shortest))
    return 0


if __name__ == "__main__":
    command_line.run(main, __doc__)
