"""How a script here is started: with `--help` it prints what it is, and with words that it cannot take too."""

import inspect
import os
import sys
from typing import Callable


def run(main: Callable[..., int | None], usage: str):
    """Calls a script's main with the words behind its name, and ends with the status that it answers: 0 where it
    answers nothing. `--help` alone prints the usage. Too few words or too many have it printed on standard error, with
    status 2. Where nobody reads standard output any longer, as under `head`, the script ends with status 1 and says
    nothing."""
    words = sys.argv[1:]
    if words != ["--help"]:
        try:
            inspect.signature(main).bind(*words)
        except TypeError:
            print(usage, file=sys.stderr)
            sys.exit(2)
    try:
        if words == ["--help"]:
            print(usage)
            status = 0
        else:
            status = main(*words)
        sys.stdout.flush()
    except BrokenPipeError:
        os.dup2(os.open(os.devnull, os.O_WRONLY), sys.stdout.fileno())
        status = 1
    sys.exit(status)
