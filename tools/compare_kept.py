"""Plays random games with `attack` and `defend` between the moves, taking moves back too, and compares each answer with
that of a program that was started for this question alone, which has kept nothing.

usage: python3 tools/compare_kept.py GOPAT GAMES MOVES

The exit status is 1 where an answer differs.
"""

import random

import command_line
import gtp


def game(chance: random.Random, size: int, moves: int) -> list[str]:
    """The lines of a random game: plays near one corner, so that strings meet, some undos, and a question after most of
    them."""
    lines = [f"boardsize {size}", f"depths {chance.choice([3, 5, 8])} {chance.choice([0, 1, 2])}"]
    vertices = gtp.vertices(size)
    for _ in range(moves):
        lines.append("undo" if chance.random() < 0.2 else f"play {chance.choice('bw')} {chance.choice(vertices)}")
        for _ in range(chance.randrange(4)):
            lines.append(f"{chance.choice(['attack', 'defend'])} {chance.choice(vertices)}")
    return lines


def is_question(line: str) -> bool:
    """Whether the line asks for a reading."""
    return line.startswith(("attack", "defend"))


def main(gopat: str, games: str, moves: str) -> int:
    chance = random.Random(1)
    asked = different = 0
    for number in range(int(games)):
        lines = game(chance, chance.choice([5, 6, 7, 9]), int(moves))
        kept, _ = gtp.session([gopat, "--cache", "8" if number % 2 else "4096"], lines)
        front: list[str] = []
        for line, reply in zip(lines, kept):
            if is_question(line):
                afresh, _ = gtp.session([gopat], [*front, line])
                asked += 1
                if afresh[-1] != reply:
                    different += 1
                    print(f"game {number}: {line} is {reply.text!r} and afresh {afresh[-1].text!r}")
            else:
                front.append(line)
    print(f"{asked} questions in {games} games, {different} answered otherwise than afresh")
    return 1 if different else 0


if __name__ == "__main__":
    command_line.run(main, __doc__)
