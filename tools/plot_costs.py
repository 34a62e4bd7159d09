"""Draws the figures of docs/MEASURED.md that are lines, each as an SVG picture; or measures them.

usage: python3 tools/plot_costs.py [FIGURES OUT]
       python3 tools/plot_costs.py --plays GOPAT REGRESSION WIDE PLIES,PLIES..
       python3 tools/plot_costs.py --states GOPAT PATTERNS.db COUNT,COUNT..
       python3 tools/plot_costs.py --processors GOPAT STREAM COUNT,COUNT..

Without an option it draws each figure of the file FIGURES (docs/pictures/costs.txt) into the folder OUT
(docs/pictures), as NAME.svg. A figure is a block of lines, each with a word and its text:

    figure NAME, title TEXT, across TEXT, up TEXT, scale plain|log, from TEXT, and series LABEL: X=Y X=Y ..

The options measure, and print a line `series` for such a block:

  --plays       the moves that the readings of GNU Go's questions try, as `--stats` tells them, at some numbers of plies
                with so many of them wide. REGRESSION is the folder of GNU Go's suites
  --states      how many states the first entries of a file take together, for some numbers of entries
  --processors  the seconds by the clock in which a stream of ask_records.py is answered by some numbers of processes at
                once, the stream cut where a record begins. GOPAT may have options and files

The exit status is 2 where the words cannot be taken or FIGURES is none.
"""

import concurrent.futures
import html
import math
import pathlib
import re
import shlex
import subprocess
import sys
import tempfile
import time
from typing import NamedTuple

import check_proofs
import command_line
import cut_patterns

FIGURES, OUT = "docs/pictures/costs.txt", "docs/pictures"
TRIALS = re.compile(r"trials (\d+)")
WORDS = ("title", "across", "up", "scale", "from")


class Series(NamedTuple):
    """A line of a figure: its label, and its points from left to right."""

    label: str
    points: list[tuple[float, float]]


class Figure(NamedTuple):
    """A figure: its name, the texts of its words, and its lines."""

    name: str
    texts: dict[str, str]
    series: list[Series]


class NoFigures(Exception):
    """The text has another form. The text says where."""


# Reading.


def series_of(text: str) -> Series:
    """A line `LABEL: X=Y X=Y ..`."""
    label, _, points = text.rpartition(":")
    pairs = [tuple(float(number) for number in point.split("=")) for point in points.split()]
    if not label or not pairs or any(len(pair) != 2 for pair in pairs):
        raise NoFigures(f"no series: {text}")
    return Series(label, sorted(pairs))


def read(text: str) -> list[Figure]:
    """The figures of a text."""
    figures: list[Figure] = []
    for line in text.splitlines():
        word, _, rest = line.strip().partition(" ")
        if word == "figure":
            figures.append(Figure(rest, {}, []))
        elif word == "series" and figures:
            figures[-1].series.append(series_of(rest))
        elif word in WORDS and figures:
            figures[-1].texts[word] = rest
        elif word and not word.startswith("#"):
            raise NoFigures(f"not understood: {line}")
    for figure in figures:
        missing = [word for word in WORDS if word not in figure.texts]
        if missing or not figure.series:
            raise NoFigures(f"{figure.name} lacks {', '.join(missing) or 'a series'}")
    return figures


# Drawing. The plane is 640 by 400, and the lines stand in a frame within it.


LEFT, RIGHT, TOP, BOTTOM = 90, 450, 68, 340
STYLE = """
text{font:13px sans-serif;fill:#222}.head{font-size:15px;font-weight:bold}.ground{fill:#fff}
.rule{stroke:#ddd;stroke-width:1}.frame{stroke:#888;stroke-width:1;fill:none}.line{fill:none;stroke-width:2}
.c0{stroke:#1e6fd0;fill:#1e6fd0}.c1{stroke:#c5221f;fill:#c5221f}.c2{stroke:#1e8e3e;fill:#1e8e3e}
.c3{stroke:#9334e6;fill:#9334e6}.line{fill:none}.named{stroke:none}
@media(prefers-color-scheme:dark){text{fill:#ddd}.ground{fill:#181818}.rule{stroke:#3a3a3a}
.c0{stroke:#8ab4f8;fill:#8ab4f8}.c1{stroke:#f28b82;fill:#f28b82}.c2{stroke:#81c995;fill:#81c995}
.c3{stroke:#c58af9;fill:#c58af9}.line{fill:none}.named{stroke:none}}
""".strip()


class Scale(NamedTuple):
    """How numbers lie along an axis: from which to which number, between which places, and whether by their
    logarithms."""

    low: float
    high: float
    first: float
    last: float
    is_log: bool

    def place(self, number: float) -> float:
        low, high, at = (math.log10(one) if self.is_log else one for one in (self.low, self.high, number))
        return self.first + (self.last - self.first) * (at - low) / (high - low)


def steps(low: float, high: float) -> list[float]:
    """Round numbers from the first to behind the second, at most seven."""
    rough = max(high - low, 1e-9) / 5
    power = 10 ** math.floor(math.log10(rough))
    step = next(one * power for one in (1, 2, 5, 10) if one * power >= rough)
    first = math.floor(low / step)
    return [step * at for at in range(first, first + 8) if step * (at - 1) < high]


def powers(low: float, high: float) -> list[float]:
    """The powers of ten around two numbers."""
    first, last = math.floor(math.log10(low)), math.ceil(math.log10(high))
    return [10.0**power for power in range(first, max(last, first + 1) + 1)]


def scales(figure: Figure) -> tuple[Scale, Scale, list[float], list[float]]:
    """The two scales, and the numbers that are named on each."""
    across = [point[0] for one in figure.series for point in one.points]
    up = [point[1] for one in figure.series for point in one.points]
    is_log = figure.texts["scale"] == "log"
    named_across = steps(min(0, *across) if min(across) > 0 else min(across), max(across))
    named_up = powers(min(up), max(up)) if is_log else steps(0, max(up))
    x = Scale(named_across[0], named_across[-1], LEFT, RIGHT, False)
    y = Scale(named_up[0], named_up[-1], BOTTOM, TOP, is_log)
    return x, y, named_across, named_up


def number(value: float) -> str:
    """A number as it is named: with commas, and no more places than it has."""
    return f"{value:,.0f}" if value == round(value) else f"{value:,.6g}"


def line_svg(at: int, one: Series, x: Scale, y: Scale, name_at: float) -> str:
    """A line with its points; behind its end stands its label."""
    places = [(x.place(across), y.place(up)) for across, up in one.points]
    path = "L".join(f"{left:.1f} {top:.1f}" for left, top in places)
    dots = "".join(
        f'<circle class="c{at}" cx="{left:.1f}" cy="{top:.1f}" r="3"><title>{number(a)}: {number(u)}</title></circle>'
        for (left, top), (a, u) in zip(places, one.points)
    )
    label = f'<text class="c{at} named" x="{RIGHT + 12}" y="{name_at:.1f}">{html.escape(one.label)}</text>'
    return f'<path class="line c{at}" d="M{path}"/>{dots}{label}'


def label_places(figure: Figure, y: Scale) -> list[float]:
    """Where the labels stand: at the ends of their lines, and never closer than 17 to each other."""
    ends = [y.place(one.points[-1][1]) + 4 for one in figure.series]
    order, places = sorted(range(len(ends)), key=lambda at: ends[at]), list(ends)
    for before, after in zip(order, order[1:]):
        places[after] = max(places[after], places[before] + 17)
    return places


def text(x: float, y: float, anchor: str, told: str) -> str:
    """A text whose start, middle or end stands at a place."""
    return f'<text x="{x:.1f}" y="{y:.1f}" text-anchor="{anchor}">{html.escape(told)}</text>'


def svg(figure: Figure) -> str:
    """The picture of a figure."""
    x, y, named_across, named_up = scales(figure)
    parts = ['<rect class="ground" width="640" height="400" rx="6"/>']
    parts.append(f'<text class="head" x="20" y="28">{html.escape(figure.texts["title"])}</text>')
    for value in named_up:
        at = y.place(value)
        parts.append(f'<path class="rule" d="M{LEFT} {at:.1f}H{RIGHT}"/>')
        parts.append(text(LEFT - 8, at + 4, "end", number(value)))
    for value in named_across:
        at = x.place(value)
        parts.append(f'<path class="rule" d="M{at:.1f} {TOP}V{BOTTOM}"/>')
        parts.append(text(at, BOTTOM + 19, "middle", number(value)))
    parts.append(f'<path class="frame" d="M{LEFT} {TOP}V{BOTTOM}H{RIGHT}"/>')
    for at, (one, name) in enumerate(zip(figure.series, label_places(figure, y))):
        parts.append(line_svg(at, one, x, y, name))
    parts.append(text((LEFT + RIGHT) / 2, BOTTOM + 42, "middle", figure.texts["across"]))
    parts.append(text(20, TOP - 15, "start", figure.texts["up"]))
    head = '<svg xmlns="http://www.w3.org/2000/svg" width="640" height="400" viewBox="0 0 640 400">'
    return f"{head}<desc>{html.escape(figure.texts['from'])}</desc><style>{STYLE}</style>{''.join(parts)}</svg>\n"


def draw(figures: str = FIGURES, out: str = OUT) -> int:
    """Draws all figures of a file."""
    try:
        found = read(pathlib.Path(figures).read_text(encoding="utf-8"))
    except (OSError, ValueError, NoFigures) as why:
        print(why, file=sys.stderr)
        return 2
    pathlib.Path(out).mkdir(parents=True, exist_ok=True)
    for figure in found:
        (pathlib.Path(out) / f"{figure.name}.svg").write_text(svg(figure), encoding="utf-8")
        print(f"{figure.name}.svg: {len(figure.series)} lines")
    return 0


# Measuring.


def plays(gopat: str, regression: str, wide: str, counts: str) -> str:
    """The trial plays of all questions, by plies."""
    questions = list(check_proofs.questions(regression))
    found = []
    for count in counts.split(","):
        depths = f"depths {count} {wide}"
        lines = [line for one in questions for line in (*one.set_up, depths, f"{one.kind} {one.vertex}")]
        command = [*shlex.split(gopat), "--stats"]
        done = subprocess.run(command, input="\n".join(lines) + "\n", capture_output=True, text=True, check=True)
        found.append(f"{count}={TRIALS.search(done.stderr)[1]}")
    return f"series {pathlib.Path(shlex.split(gopat)[0]).name}, {wide} wide: {' '.join(found)}"


def states(gopat: str, patterns: str, counts: str) -> str:
    """The states of the first entries of a file, by their number."""
    path, found = pathlib.Path(patterns), []
    entries = list(cut_patterns.entries_of(path.read_bytes()))
    with tempfile.TemporaryDirectory() as room:
        part = pathlib.Path(room) / "part.db"
        for count in counts.split(","):
            part.write_bytes(b"".join(entries[: int(count)]))
            found.append(f"{count}={cut_patterns.states(gopat, part)}")
    return f"series {path.name}: {' '.join(found)}"


def processors(gopat: str, stream: str, counts: str) -> str:
    """The seconds of a stream, by the number of processes at once."""
    parts = re.split(r"^(?=# record )", pathlib.Path(stream).read_text(encoding="utf-8"), flags=re.MULTILINE)
    blocks = ["".join(parts[at::16]) for at in range(16)]
    found = []
    for count in counts.split(","):
        start = time.perf_counter()
        with concurrent.futures.ThreadPoolExecutor(int(count)) as pool:
            list(pool.map(lambda block: answered(gopat, block), blocks))
        found.append(f"{count}={time.perf_counter() - start:.2f}")
    return f"series {pathlib.Path(shlex.split(gopat)[0]).name}: {' '.join(found)}"


def answered(gopat: str, block: str):
    """Has a block of lines answered."""
    subprocess.run(shlex.split(gopat), input=block, capture_output=True, text=True, check=True)


def main(*words: str) -> int:
    measures = {"--plays": (plays, 4), "--states": (states, 3), "--processors": (processors, 3)}
    if words and words[0] in measures and len(words) == measures[words[0]][1] + 1:
        print(measures[words[0]][0](*words[1:]))
        return 0
    if len(words) in (0, 2) and not any(word.startswith("--") for word in words):
        return draw(*words)
    print(__doc__, file=sys.stderr)
    return 2


if __name__ == "__main__":
    command_line.run(main, __doc__)
