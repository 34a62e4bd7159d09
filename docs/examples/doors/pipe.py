"""The same by the program: it runs beside this one, and each line gets a reply that ends with an empty line."""

import subprocess
import sys


def ask(line: str) -> str:
    """The reply to a line, without its mark."""
    gopat.stdin.write(line + "\n")
    gopat.stdin.flush()
    reply = "".join(iter(gopat.stdout.readline, "\n"))
    if not reply.startswith("="):
        raise ValueError(f"{line}: {reply}")
    return reply[1:].strip()


with subprocess.Popen(sys.argv[1:], stdin=subprocess.PIPE, stdout=subprocess.PIPE, text=True) as gopat:
    for line in ["boardsize 9", "depths 10 2", "play b E6", "play b D5", "play w E5", "play b F5"]:
        ask(line)
    attack, defend = ask("attack E5"), ask("defend E5")
    move = attack.split()[1]
    ask(f"play b {move}")
    print(f"attack {attack}, defend {defend}, liberties {ask(f'countlib {move}')}")
    gopat.stdin.close()
