"""Stands in for gopat with replies that were stored, or stores them.

usage: python3 tools/stored_replies.py TRANSCRIPT [FILE ..] < LINES
       python3 tools/stored_replies.py --store TRANSCRIPT GOPAT [WORD ..] < LINES

TRANSCRIPT has lines `> LINE`, each with the reply to it below. Without --store each line that comes has to be the next
one of the transcript, and gets its reply; at another line it ends with status 1. Words behind the transcript, such as
pattern files, are passed over. With --store the lines are passed on to GOPAT with its words, one by one, and they are
written to the transcript with the replies. The exit status is 2 where the words cannot be taken.
"""

import pathlib
import sys

import command_line
import gtp


def stored(text: str) -> list[tuple[str, str]]:
    """The lines of a transcript with their replies."""
    parts = [part.partition("\n") for part in f"\n{text}".split("\n> ")[1:]]
    return [(line, reply.rstrip("\n")) for line, _, reply in parts]


def answer(transcript: str) -> int:
    """Answers lines out of a transcript."""
    for line, reply in stored(pathlib.Path(transcript).read_text(encoding="utf-8")):
        came = sys.stdin.readline().rstrip("\n")
        if came != line:
            if came:
                print(f"{transcript}: {line!r} is stored, and {came!r} came", file=sys.stderr)
            return 1 if came else 0
        print(reply + "\n", flush=True)
    return 1 if sys.stdin.readline() else 0


def store(transcript: str, program: list[str]) -> int:
    """Passes lines on, and stores them with the replies."""
    running = gtp.Running(program)
    with open(transcript, "w", encoding="utf-8") as file:
        for line in sys.stdin:
            reply = running.pass_on(line.encode()).decode()
            file.write(f"> {line.rstrip()}\n{reply.rstrip()}\n")
            sys.stdout.write(reply)
            sys.stdout.flush()
    return running.end()


def main(transcript: str, *words: str) -> int:
    if transcript == "--store" and len(words) >= 2:
        return store(words[0], list(words[1:]))
    if transcript.startswith("--"):
        print(__doc__, file=sys.stderr)
        return 2
    return answer(transcript)


if __name__ == "__main__":
    command_line.run(main, __doc__)
