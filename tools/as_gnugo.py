"""Runs gopat where GNU Go is expected: options of GNU Go's own are passed over, and the codes of attack and defend
answers are GNU Go's.

usage: python3 tools/as_gnugo.py GOPAT PLIES WIDE [option of GNU Go ...]

Both programs answer 0 where it cannot be done. GNU Go prints 1 where it can be done whatever the other side does, 2
for the better kind of ko and 3 for the worse; gopat prints 3, 2 and 1 for these. Only replies with an id are changed,
as GNU Go's regression driver reads no others.
"""

import re
import subprocess
import sys

import command_line


def with_their_codes(replies: str) -> str:
    """The replies with 4 less the code in place of each code above 0."""
    answer = r"(?m)^(=\d+ )([123])(?= (?:[A-Z]\d+|PASS)$)"
    return re.sub(answer, lambda found: found[1] + str(4 - int(found[2])), replies)


def main(gopat: str, plies: str, wide: str, *_options: str) -> int:
    command = [gopat, f"--depth={plies}", f"--branch={wide}"]
    done = subprocess.run(command, stdin=sys.stdin, capture_output=True, text=True, check=False)
    sys.stdout.write(with_their_codes(done.stdout))
    sys.stderr.write(done.stderr)
    return done.returncode


if __name__ == "__main__":
    command_line.run(main, __doc__)
