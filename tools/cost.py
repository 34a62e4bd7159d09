"""What a program takes: the processor's seconds, which other programs disturb less than those of the clock, and
memory."""

import resource
import subprocess
import tempfile
from typing import Iterable, NamedTuple


class Cost(NamedTuple):
    """The processor's seconds and the peak of memory."""

    seconds: float
    megabytes: float


def spent() -> float:
    """The processor's seconds of all programs that have ended."""
    usage = resource.getrusage(resource.RUSAGE_CHILDREN)
    return usage.ru_utime + usage.ru_stime


def of(command: list[str], lines: Iterable[str] = ()) -> Cost:
    """What a program takes that is given these lines. GNU time starts it, since the peak of Python's child is never
    below its own. A byte that is no text stands in a line as Python's `surrogateescape` has it."""
    with tempfile.NamedTemporaryFile("r") as kept, tempfile.TemporaryFile("w+", errors="surrogateescape") as given:
        given.writelines(f"{line}\n" for line in lines)
        given.seek(0)
        timed = ["/usr/bin/time", "-o", kept.name, "-f", "%M", *command]
        before = spent()
        subprocess.run(timed, stdin=given, stdout=subprocess.DEVNULL, stderr=subprocess.DEVNULL, check=True)
        return Cost(spent() - before, int(kept.read()) / 1024)
