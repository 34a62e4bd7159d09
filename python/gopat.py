"""Questions about a position of Go, answered by gopat's library in this process.

    >>> board = Board.of_rows(["...", ".X.", "..."])
    >>> board.liberties("B2")
    4
    >>> board.play(WHITE, "A1").attack("A1", plies=4)
    Answer(code=3, move='A2')
    >>> board.play(WHITE, "A1").all_moves("attack", "A1", plies=4)
    Moves(code=3, moves=['A2', 'B1'])
    >>> board.play(WHITE, "A1").proof("attack", "A1", plies=4)
    Proof(code=3, text='W A2 * B1 . C1 . B1 .')

The module wants the shared library of the crate `gopat_c`: `GOPAT_LIBRARY` names its file, else `libgopat_c.so` stands
beside this one. What has no answer raises `Refused`. Boards never change: `play` gives a new one.

`Patterns` holds the patterns of a pattern file until `close` or the end of a `with`, and tells their matches on a
board. It wants the shared library of the crate `gopat_matches_c`: `GOPAT_MATCHES_LIBRARY` names its file, else
`libgopat_matches_c.so` stands beside this one.

    >>> with Patterns("Pattern Edge\\nO*|\\n:8,s\\n") as patterns:
    ...     patterns.matches(Board.of_rows(["...", ".X.", "..."]), BLACK)[:2]
    [Match(pattern=0, move='C2', transform=0), Match(pattern=0, move='B1', transform=1)]

`Session` answers lines of the protocol as the program does, without a pipe, also until `close`. It wants the shared
library of the crate `gopat_session_c`: `GOPAT_SESSION_LIBRARY` names its file, else `libgopat_session_c.so` stands
beside this one.

    >>> with Session() as session:
    ...     session.line("boardsize 9"), session.result("genmove b"), session.line("9 quit")
    (Reply(text='=\\n\\n', ends=False), 'PASS', Reply(text='=9\\n\\n', ends=True))
"""

import ctypes
import enum
import os
import pathlib
from typing import NamedTuple

BLACK, WHITE = 1, 2
COLUMNS = "ABCDEFGHJKLMNOPQRSTUVWXYZ"
MOST_POINTS = 625
MOST_TEXT = 60000
NO_MOVE, PASS = 65534, 65535
KINDS = {"attack": 1, "defend": 2}


class Status(enum.IntEnum):
    """Why a question has no answer."""

    BAD_SIZE = 1
    BAD_CELL = 2
    NO_LIBERTY = 3
    BAD_BAN = 4
    OFF_BOARD = 5
    NO_STONE = 6
    BAD_DEPTHS = 7
    TWO_COLOURS = 8
    BAD_COLOUR = 9
    BAD_KIND = 10
    BAD_CODE = 11
    OCCUPIED = 12
    KO = 13
    SUICIDE = 14
    SHORT_BUFFER = 15
    TOO_LONG = 16
    CLOSED = 17
    NO_MEMORY = 18
    BAD_TEXT = 19
    TOO_MANY_STATES = 20
    BAD_CACHE = 21
    BAD_STATES = 22
    BAD_LINE = 23


class Refused(ValueError):
    """A question that has no answer; `status` says why."""

    def __init__(self, status: Status, fault: str = ""):
        super().__init__(status.name.lower().replace("_", " ") + fault)
        self.status = status


class Answer(NamedTuple):
    """The code of a reading (0 to 3) or of a connection (0 or 1), and the first move that attains it: a vertex, `PASS`,
    or None with code 0."""

    code: int
    move: str | None


class Moves(NamedTuple):
    """The code of a reading (0 to 3), and all moves that attain it, of those that the reader tries: `PASS` before all
    vertices, and these row by row from the top. There are none with code 0."""

    code: int
    moves: list[str]


class Proof(NamedTuple):
    """The code of a reading (0 to 3), and the words of its first proof."""

    code: int
    text: str


class Match(NamedTuple):
    """A match: the place of its pattern in the text, counted from 0, the vertex of its move, and the transformation of
    its diagram, 0 to 7."""

    pattern: int
    move: str
    transform: int


class Reply(NamedTuple):
    """The reply to a line, as the program writes it, and whether the line ends the session."""

    text: str
    ends: bool


class _Board(ctypes.Structure):
    _fields_ = [
        ("size", ctypes.c_uint8),
        ("ban_colour", ctypes.c_uint8),
        ("ban_point", ctypes.c_uint16),
        ("cells", ctypes.c_uint8 * MOST_POINTS),
    ]


class _Depths(ctypes.Structure):
    _fields_ = [("plies", ctypes.c_uint8), ("wide", ctypes.c_uint8), ("tree", ctypes.c_uint8)]


class _Answer(ctypes.Structure):
    _fields_ = [("status", ctypes.c_uint8), ("code", ctypes.c_uint8), ("at", ctypes.c_uint16)]


class _Moves(ctypes.Structure):
    _fields_ = [
        ("status", ctypes.c_uint8),
        ("code", ctypes.c_uint8),
        ("pass_", ctypes.c_uint8),
        ("points", ctypes.c_uint8 * MOST_POINTS),
    ]


class _Proof(ctypes.Structure):
    _fields_ = [("status", ctypes.c_uint8), ("code", ctypes.c_uint8), ("length", ctypes.c_uint16)]


class _Number(ctypes.Structure):
    _fields_ = [("status", ctypes.c_uint8), ("number", ctypes.c_uint16)]


class _Played(ctypes.Structure):
    _fields_ = [("status", ctypes.c_uint8), ("board", _Board)]


class _Handle(ctypes.Structure):
    _fields_ = [("is_open", ctypes.c_bool), ("at", ctypes.c_void_p)]


class _Opened(ctypes.Structure):
    _fields_ = [
        ("status", ctypes.c_uint8),
        ("kind", ctypes.c_uint8),
        ("line", ctypes.c_uint64),
        ("patterns", ctypes.c_size_t),
    ]


class _Match(ctypes.Structure):
    _fields_ = [("pattern", ctypes.c_uint16), ("at", ctypes.c_uint16), ("transform", ctypes.c_uint8)]


class _Found(ctypes.Structure):
    _fields_ = [("status", ctypes.c_uint8), ("number", ctypes.c_size_t)]


class _Options(ctypes.Structure):
    _fields_ = [("depths", _Depths), ("cache", ctypes.c_uint32), ("states", ctypes.c_uint32)]


class _Reply(ctypes.Structure):
    _fields_ = [("status", ctypes.c_uint8), ("ends", ctypes.c_uint8), ("length", ctypes.c_size_t)]


def _opened_library(variable: str, name: str) -> ctypes.CDLL:
    """A shared library: the one that the variable names, else the one of this name beside this file."""
    return ctypes.CDLL(os.environ.get(variable, str(pathlib.Path(__file__).with_name(name))))


def _library() -> ctypes.CDLL:
    """The shared library, with the types of its functions."""
    library = _opened_library("GOPAT_LIBRARY", "libgopat_c.so")
    byte, point = ctypes.c_uint8, ctypes.c_uint16
    for name, result, arguments in [
        ("attack", _Answer, [point, _Depths]),
        ("defend", _Answer, [point, _Depths]),
        ("all", _Moves, [byte, point, _Depths]),
        ("proof", _Proof, [byte, point, _Depths, ctypes.c_char_p, ctypes.c_size_t]),
        ("connect", _Answer, [point, point, byte]),
        ("disconnect", _Answer, [point, point, byte]),
        ("play", _Played, [byte, point]),
        ("liberties", _Number, [point]),
        ("check", _Number, [byte, point, _Depths, byte, ctypes.c_char_p, ctypes.c_size_t]),
    ]:
        function = getattr(library, f"gopat_{name}")
        function.restype, function.argtypes = result, [_Board, *arguments]
    return library


_LIBRARY = _library()


def _fitting(number: int, most: int) -> int:
    """The number, or the greatest one of its type where it would not fit, which no question takes for another."""
    return number if 0 <= number <= most else most


def _told(reply):
    """The reply, if it is an answer."""
    if reply.status:
        raise Refused(Status(reply.status))
    return reply


class Board:
    """A position: the size, a byte for each point (0 empty, 1 black, 2 white) row by row from the top, and the play
    that the ko ban forbids, a colour and a vertex. Whether it is a position is said by the first question about it."""

    def __init__(self, size: int, cells: bytes = b"", ban: tuple[int, str] | None = None):
        self._board = _Board(_fitting(size, 255))
        ctypes.memmove(self._board.cells, cells, min(len(cells), MOST_POINTS))
        if ban:
            self._board.ban_colour, self._board.ban_point = ban[0], self.point(ban[1])

    @classmethod
    def of_rows(cls, rows: list[str]) -> "Board":
        """The board of these rows from the top, X for black, O for white, and any other mark for an empty point."""
        return cls(len(rows), bytes({"X": BLACK, "O": WHITE}.get(mark, 0) for row in rows for mark in row))

    @property
    def size(self) -> int:
        return self._board.size

    def rows(self) -> list[str]:
        """The rows from the top, as `of_rows` takes them."""
        marks = "".join(".XO"[byte] for byte in self._board.cells[: self.size**2])
        return [marks[at : at + self.size] for at in range(0, len(marks), self.size)]

    def point(self, vertex: str) -> int:
        """The number of a vertex such as E5, or of PASS."""
        if vertex.upper() == "PASS":
            return PASS
        row, column = self.size - int(vertex[1:]), COLUMNS.index(vertex[0].upper())
        return row * self.size + column if 0 <= row and column < self.size else NO_MOVE

    def vertex(self, point: int) -> str | None:
        """The vertex of a number, PASS for a pass, and None for no move."""
        if point in (PASS, NO_MOVE):
            return "PASS" if point == PASS else None
        return f"{COLUMNS[point % self.size]}{self.size - point // self.size}"

    def _answer(self, reply: _Answer) -> Answer:
        return Answer(_told(reply).code, self.vertex(reply.at))

    def attack(self, vertex: str, plies: int = 10, wide: int = 2, wider: bool = False) -> Answer:
        """Whether the string can be captured when the attacker plays first."""
        return self._answer(_LIBRARY.gopat_attack(self._board, self.point(vertex), _depths(plies, wide, wider)))

    def defend(self, vertex: str, plies: int = 10, wide: int = 2, wider: bool = False) -> Answer:
        """Whether the string can be saved when the defender plays first."""
        return self._answer(_LIBRARY.gopat_defend(self._board, self.point(vertex), _depths(plies, wide, wider)))

    def all_moves(self, kind: str, vertex: str, plies: int = 10, wide: int = 2, wider: bool = False) -> Moves:
        """Every move that attains the code of `attack` or `defend`, of those that the reader tries."""
        arguments = KINDS.get(kind, 0), self.point(vertex), _depths(plies, wide, wider)
        reply = _told(_LIBRARY.gopat_all(self._board, *arguments))
        points = [self.vertex(point) for point, good in enumerate(reply.points) if good]
        return Moves(reply.code, ["PASS"] * reply.pass_ + points)

    def proof(self, kind: str, vertex: str, plies: int = 10, wide: int = 2, wider: bool = False) -> Proof:
        """The code of `attack` or `defend`, and the words of its first proof, which `proves` accepts."""
        room = ctypes.create_string_buffer(MOST_TEXT)
        arguments = KINDS.get(kind, 0), self.point(vertex), _depths(plies, wide, wider), room, MOST_TEXT
        reply = _told(_LIBRARY.gopat_proof(self._board, *arguments))
        return Proof(reply.code, room.raw[: reply.length].decode())

    def connect(self, a: str, b: str, plies: int = 4) -> Answer:
        """Whether the two strings can be joined when their own colour plays first."""
        return self._answer(_LIBRARY.gopat_connect(self._board, self.point(a), self.point(b), _fitting(plies, 255)))

    def disconnect(self, a: str, b: str, plies: int = 4) -> Answer:
        """Whether the two strings can be kept apart when the other colour plays first."""
        return self._answer(_LIBRARY.gopat_disconnect(self._board, self.point(a), self.point(b), _fitting(plies, 255)))

    def play(self, colour: int, vertex: str) -> "Board":
        """The board after the colour plays at the vertex, or passes at PASS."""
        next_board = Board(self.size)
        next_board._board = _told(_LIBRARY.gopat_play(self._board, _fitting(colour, 255), self.point(vertex))).board
        return next_board

    def liberties(self, vertex: str) -> int:
        """How many liberties the string has."""
        return _told(_LIBRARY.gopat_liberties(self._board, self.point(vertex))).number

    def proves(
        self, kind: str, vertex: str, code: int, text: str, plies: int = 10, wide: int = 2, wider: bool = False
    ) -> bool:
        """Whether the text proves that `attack` or `defend` has this code."""
        words, depths = text.encode(), _depths(plies, wide, wider)
        arguments = KINDS.get(kind, 0), self.point(vertex), depths, _fitting(code, 255), words, len(words)
        return _told(_LIBRARY.gopat_check(self._board, *arguments)).number == 1


def _depths(plies: int, wide: int, wider: bool) -> _Depths:
    return _Depths(_fitting(plies, 255), _fitting(wide, 255), wider)


class _Held:
    """What a handle holds, until it is closed."""

    _ends: str

    def _begin(self, library: ctypes.CDLL, functions: list[tuple]):
        self._handle = _Handle()
        for name, result, arguments in functions:
            function = getattr(library, name)
            function.restype, function.argtypes = result, [ctypes.POINTER(_Handle), *arguments]
        self._library = library

    def _opened(self, reply: _Opened) -> int:
        """How many patterns there are."""
        if reply.status:
            fault = f": line {reply.line} kind {reply.kind}" if reply.line else ""
            raise Refused(Status(reply.status), fault)
        return reply.patterns

    def close(self) -> None:
        """Frees what is held. Afterwards each question is refused."""
        getattr(self._library, self._ends)(self._handle)

    def __enter__(self):
        return self

    def __exit__(self, *_):
        self.close()


def _bytes(text: str | bytes) -> bytes:
    return text.encode() if isinstance(text, str) else text


class Patterns(_Held):
    """The patterns of a pattern file, which name no helper; `count` is their number."""

    _ends = "gopat_patterns_close"

    def __init__(self, text: str | bytes):
        size = ctypes.c_size_t
        self._begin(
            _opened_library("GOPAT_MATCHES_LIBRARY", "libgopat_matches_c.so"),
            [
                ("gopat_patterns_open", _Opened, [ctypes.c_char_p, size]),
                ("gopat_matches", _Found, [_Board, ctypes.c_uint8, _Depths, ctypes.POINTER(_Match), size]),
                ("gopat_patterns_close", None, []),
            ],
        )
        data = _bytes(text)
        self.count = self._opened(self._library.gopat_patterns_open(self._handle, data, len(data)))

    def matches(
        self, board: Board, colour: int, plies: int = 10, wide: int = 2, wider: bool = False
    ) -> list[Match]:
        """The matches on the board for a colour, in order: by the pattern, the transformation and the point."""
        asked, depths = _fitting(colour, 255), _depths(plies, wide, wider)
        room = 256
        while True:
            found = (_Match * room)()
            reply = self._library.gopat_matches(self._handle, board._board, asked, depths, found, room)
            if reply.status != Status.SHORT_BUFFER:
                break
            room = reply.number
        return [Match(z.pattern, board.vertex(z.at), z.transform) for z in found[: _told(reply).number]]



class Session(_Held):
    """A session of the protocol, with the patterns of a pattern file, which name no helper; `count` is their number.

    There are no helpers, and each file that a line names counts as empty."""

    _ends = "gopat_session_close"

    def __init__(
        self,
        text: str | bytes = "",
        plies: int = 10,
        wide: int = 2,
        wider: bool = False,
        cache: int = 4096,
        states: int = 100_000,
    ):
        size = ctypes.c_size_t
        self._begin(
            _opened_library("GOPAT_SESSION_LIBRARY", "libgopat_session_c.so"),
            [
                ("gopat_session_open", _Opened, [ctypes.c_char_p, size, _Options]),
                ("gopat_line", _Reply, [ctypes.c_char_p, size, ctypes.c_char_p, size]),
                ("gopat_last_reply", _Reply, [ctypes.c_char_p, size]),
                ("gopat_session_close", None, []),
            ],
        )
        data, most = _bytes(text), 2**32 - 1
        options = _Options(_depths(plies, wide, wider), _fitting(cache, most), _fitting(states, most))
        self.count = self._opened(self._library.gopat_session_open(self._handle, data, len(data), options))
        self._room = ctypes.create_string_buffer(4096)

    def line(self, line: str | bytes) -> Reply:
        """The reply to a line, which stands without its line feed."""
        data = _bytes(line)
        reply = self._library.gopat_line(self._handle, data, len(data), self._room, len(self._room))
        if reply.status == Status.SHORT_BUFFER:
            self._room = ctypes.create_string_buffer(reply.length)
            reply = self._library.gopat_last_reply(self._handle, self._room, len(self._room))
        return Reply(self._room.raw[: _told(reply).length].decode("utf-8", "surrogateescape"), bool(reply.ends))

    def result(self, line: str | bytes) -> str:
        """The result of a line, without its mark and its id; a line that the session refuses raises `ValueError`."""
        text = self.line(line).text
        if not text.startswith("="):
            raise ValueError(f"{line!r}: {text.strip()}")
        return text.partition(" ")[2].strip()
