"""Plays whole games of gopat, with a pattern file, under GNU Go's three match programs: against GNU Go and against
itself, on 9, 13 and 19 rows, and on the smallest of them with handicap stones. At the end the boards of both sides have
to be the same, stone by stone.

usage: python3 tools/play_games.py GOPAT PATTERNS GNUGO EXAMPLES [LEVEL [SIZE ...]]

EXAMPLES is the folder interface/gtp_examples of GNU Go's source, which has twogtp (Perl), twogtp.py (Python 2.7) and
twogtp.pike (pike 8.0). A program that is missing is told and passed over. LEVEL is GNU Go's, by itself 1, with a fixed
seed, so that each run plays the same games. gopat stands behind tools/as_player.py, and each side behind this file's
own `--side`, which keeps what was said:

       python3 tools/play_games.py --side NOTES COMMAND ..

passes lines on to the command; before its end it asks for the board, and writes into NOTES the stones, the plies, the
last score, and each refused line. The exit status is 1 where a game did not end or the boards differ.
"""

import contextlib
import json
import os
import pathlib
import shlex
import shutil
import subprocess
import sys
import tempfile
import time
from typing import Iterator, NamedTuple

import as_player
import command_line
import gtp

CLIENTS = {"twogtp": "perl", "twogtp.py": "python2", "twogtp.pike": "pike"}
SECONDS = 3600


class Notes(NamedTuple):
    """What one side saw of a game."""

    black: list[str]
    white: list[str]
    plies: int
    score: str
    refused: list[str]


class Game(NamedTuple):
    """A game as it is given to a client."""

    client: str
    size: int
    black: str
    white: str
    handicap: int


def stand_between(path: str, *command: str) -> int:
    """Passes lines on and keeps the notes of the last game."""
    engine = gtp.Running(list(command))
    plies, score, refused = 0, "", []
    for raw in iter(sys.stdin.buffer.readline, b""):
        line = as_player.read_line(raw)
        if line is None:
            continue
        if line.command == "quit":
            break
        reply = engine.pass_on(raw).decode()
        sys.stdout.write(reply)
        sys.stdout.flush()
        plies += line.command in ("play", "genmove")
        plies *= line.command != "clear_board"
        score = reply[1:].strip() if line.command == "final_score" else score
        refused += [] if reply[0] == "=" else [" ".join([line.command, *line.words])]
    board = gtp.shown(engine.ask("showboard").text)
    notes = Notes(board.of("X"), board.of("O"), plies, score, refused)
    pathlib.Path(path).write_text(json.dumps(notes._asdict()), encoding="ascii")
    with contextlib.suppress(BrokenPipeError):
        os.write(sys.stdout.fileno(), engine.pass_on(b"quit\n"))
    return engine.end()


def is_there(program: str) -> bool:
    """Whether a program can be started."""
    path = shutil.which(program)
    return path is not None and subprocess.run([path, "--version"], capture_output=True, check=False).returncode == 0


def command_of(game: Game, examples: pathlib.Path, sides: dict[str, str], folder: str) -> list[str]:
    """The command line of a match of one game."""
    words = [shutil.which(CLIENTS[game.client]), str(examples / game.client)]
    words += [f"--white={sides['white']}", f"--black={sides['black']}", "--komi=5.5"]
    words += [f"--handicap={game.handicap}"] if game.handicap else []
    size, record = {
        "twogtp": ("--size", "--sgffile"),
        "twogtp.py": ("--size", "--sgfbase"),
        "twogtp.pike": ("--board-size", "--sgf-base"),
    }[game.client]
    return [*words, f"{size}={game.size}", f"{record}={folder}/game"]


def play(game: Game, players: dict[str, str], examples: pathlib.Path) -> dict[str, Notes]:
    """What both sides noted of a game."""
    with tempfile.TemporaryDirectory() as folder:
        wrap = f"{sys.executable} {pathlib.Path(__file__).resolve()} --side {folder}"
        sides = {
            colour: f"{wrap}/{colour} {players[player]}"
            for colour, player in (("black", game.black), ("white", game.white))
        }
        command = command_of(game, examples, sides, folder)
        with open(os.devnull, "wb") as nothing:
            subprocess.run(command, cwd=folder, stdout=nothing, stderr=nothing, timeout=SECONDS, check=True)
        return {colour: read_notes(f"{folder}/{colour}") for colour in sides}


def read_notes(path: str) -> Notes:
    """The notes of a side, which may still be about its end when the client has ended."""
    for _ in range(100):
        text = pathlib.Path(path).read_text(encoding="ascii") if os.path.exists(path) else ""
        if text:
            return Notes(**json.loads(text))
        time.sleep(0.1)
    raise RuntimeError(f"{path}: no notes")


def games(clients: list[str], sizes: list[int]) -> Iterator[Game]:
    for client in clients:
        for size in sizes:
            for black, white in (("gopat", "gnugo"), ("gnugo", "gopat"), ("gopat", "gopat")):
                yield Game(client, size, black, white, 0)
        for black, white in (("gopat", "gnugo"), ("gnugo", "gopat")):
            yield Game(client, min(sizes), black, white, 4)


def called(game: Game) -> str:
    """The game in words."""
    return f"{game.client} {game.size}: {game.black} {game.white}" + (", handicap 4" if game.handicap else "")


def told(game: Game, notes: dict[str, Notes]) -> tuple[str, bool]:
    """A line on a game, and whether its boards are the same."""
    black, white = notes["black"], notes["white"]
    same = (black.black, black.white) == (white.black, white.white)
    score = next((side.score for side in (black, white) if side.score and side.score[0] in "BW0"), "no score")
    count = len(black.black) + len(black.white)
    text = f"{called(game)}, {max(black.plies, white.plies)} moves, {count} stones"
    return f"{text}, boards {'equal' if same else 'DIFFER'}, {score}", same


def refusals(all_notes: list[Notes]) -> str:
    """The commands that some engine refused, each once."""
    return ", ".join(sorted({line.split(" ")[0] for notes in all_notes for line in notes.refused})) or "none"


def main(gopat: str, patterns: str, gnugo: str, examples: str, level: str = "1", *sizes: str) -> int:
    tools = pathlib.Path(__file__).resolve().parent
    words = [sys.executable, str(tools / "as_player.py"), os.path.abspath(gopat), os.path.abspath(patterns)]
    theirs = [*gtp.gnugo(os.path.abspath(shutil.which(gnugo) or gnugo)), "--level", level, "--seed", "1"]
    players = {"gopat": shlex.join(words), "gnugo": shlex.join(theirs)}
    for command in (words, theirs):
        gtp.session(command, ["protocol_version"])
    found = [client for client in CLIENTS if is_there(CLIENTS[client])]
    for client in CLIENTS:
        if client not in found:
            print(f"{client}: passed over, there is no {CLIENTS[client]}")
    wrong, kept = 0, []
    for game in games(found, [int(size) for size in sizes] or [9, 13, 19]):
        try:
            notes = play(game, players, pathlib.Path(examples).resolve())
        except (subprocess.SubprocessError, RuntimeError) as why:
            print(f"{called(game)}, did not end: {why}", flush=True)
            wrong += 1
            continue
        kept += notes.values()
        line, same = told(game, notes)
        print(line, flush=True)
        wrong += not same
    print(f"refused: {refusals(kept)}")
    return 1 if wrong else 0


if __name__ == "__main__":
    if len(sys.argv) >= 4 and sys.argv[1] == "--side":
        sys.exit(stand_between(*sys.argv[2:]))
    command_line.run(main, __doc__)
