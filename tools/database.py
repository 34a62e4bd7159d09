"""A second reading of the text of pattern databases, apart from the proved one: its first fault, or its entries.

The rules are those of docs/FORMATS.md. A fault is the number of its line and its kind, as gopat's note tells it.
"""

import re
import sys
from typing import NamedTuple

BLANKS = b" \t\f\r"
BAD_BYTE = re.compile(rb"[\x00-\x08\x0b\x0e-\x1f\x7f]")
EDGE = re.compile(rb"(\+?)(-+)(\+?)")
ROW = re.compile(rb"(\|?)([OXox.?*]+)(\|?)")
LETTER = re.compile(rb"[A-Za-z]")
ITEM = re.compile(rb"([A-Za-z][A-Za-z0-9_]{0,63})(\([^()\x80-\xff]*\))?")
TOKEN = re.compile(rb"[0-9]+|[A-Za-z][A-Za-z0-9_]*|\|\||&&|==|!=|<=|>=|[<>+\-!(),*?]")
MOST_ROWS = 25
MOST_PATTERNS = 4096
MOST_TEXT = 4096
MOST_LEVELS = 32
PLAYS = {b"oplay_attack", b"oplay_defend", b"xplay_attack", b"xplay_defend"}
ARITIES = {
    **dict.fromkeys([b"lib", b"xlib", b"olib", b"attack", b"defend", b"ko"], (1, 1)),
    **dict.fromkeys([b"safe_xmove", b"safe_omove", b"legal_xmove", b"legal_omove"], (1, 1)),
    **dict.fromkeys([b"o_somewhere", b"x_somewhere"], (1, 8)),
    **dict.fromkeys([b"same_worm", b"does_attack", b"does_defend"], (2, 2)),
    **dict.fromkeys([b"odefend_against", b"xdefend_against"], (2, 2)),
    **dict.fromkeys(PLAYS, (2, 9)),
}


class Fault(Exception):
    """The kind of a fault, and its line where it is not the line that is read."""

    def __init__(self, kind: int, line: int | None = None):
        super().__init__(kind)
        self.kind = kind
        self.line = line


class Entry:
    """An entry while it is read."""

    def __init__(self, name: bytes):
        self.name = name
        self.words: list[bytes] = []
        self.rows: list[bytes] = []
        self.sides = (False, False)
        self.top: re.Match[bytes] | None = None
        self.bottom = False
        self.mark = b""
        self.classes = b""
        self.labelled = 0
        self.labels: set[int] = set()
        self.expression: list[bytes] = []
        self.expression_line = 0
        self.items: list[bytes] = []
        self.constraint: list[bytes] = []
        self.remarks: list[bytes] = []

    def listed(self) -> str:
        """The entry's line in the reply to `list_patterns`."""
        size = f"{len(self.rows)}x{len(self.rows[0])}"
        return f"{self.name.decode()} {size} {self.mark.decode()} {self.classes.decode() or '-'}"


def add_edge(entry: Entry, edge: re.Match[bytes]):
    """Takes an edge line into the diagram."""
    corners = (edge[1] != b"", edge[3] != b"")
    if entry.bottom or (not entry.rows and entry.top) or (entry.rows and corners != entry.sides):
        raise Fault(8)
    if entry.rows and len(edge[2]) != len(entry.rows[0]):
        raise Fault(5)
    if entry.rows:
        entry.bottom = True
    else:
        entry.top = edge


def add_row(entry: Entry, row: re.Match[bytes]):
    """Takes a row into the diagram."""
    sides = (row[1] != b"", row[3] != b"")
    if entry.bottom:
        raise Fault(8)
    if entry.rows and sides != entry.sides:
        raise Fault(8)
    if not entry.rows and entry.top and sides != (entry.top[1] != b"", entry.top[3] != b""):
        raise Fault(8)
    width = len(entry.rows[0]) if entry.rows else len(entry.top[2]) if entry.top else len(row[2])
    if len(row[2]) != width:
        raise Fault(5)
    entry.rows.append(row[2])
    entry.sides = sides


def diagram_line(entry: Entry, word: bytes):
    """Takes the word of a main diagram line."""
    edge, row = EDGE.fullmatch(word), ROW.fullmatch(word)
    if edge:
        add_edge(entry, edge)
    elif row:
        add_row(entry, row)
    else:
        raise Fault(6)
    entry.words.append(word)
    if len(word) > MOST_ROWS or len(entry.words) > MOST_ROWS:
        raise Fault(9)


def fields_of(text: bytes) -> list[bytes]:
    """The fields of a colon line, cut at the commas outside parentheses."""
    fields, depth = [bytearray()], 0
    for byte in text:
        depth = max(0, depth + {ord("("): 1, ord(")"): -1}.get(byte, 0))
        if byte == ord(",") and depth == 0:
            fields.append(bytearray())
        else:
            fields[-1].append(byte)
    return [bytes(field).strip(BLANKS) for field in fields]


def colon_line(entry: Entry, text: bytes, helpers: set[bytes]):
    """Takes the text after the colon."""
    if not entry.rows:
        raise Fault(4)
    if sum(row.count(b"*") for row in entry.rows) != 1:
        raise Fault(7)
    mark, *rest = fields_of(text)
    if mark not in (b"8", b"|", b"-", b"/", b"\\", b"+", b"X", b"O"):
        raise Fault(11)
    classes, items = (rest[0], rest[1:]) if rest else (b"", [])
    if len(classes) > 32 or not re.fullmatch(rb"[A-Za-z-]*", classes):
        raise Fault(12)
    entry.mark, entry.classes, entry.items = mark, classes.replace(b"-", b""), items
    matched = [ITEM.fullmatch(item) for item in items]
    if len(items) > 16 or not all(matched):
        raise Fault(13)
    if any(item[2] is None and item[1] != b"NULL" and item[1] not in helpers for item in matched):
        raise Fault(17)


def constraint_line(entry: Entry, word: bytes):
    """Takes the word of a constraint line."""
    if entry.labelled == len(entry.words) or len(word) != len(entry.words[entry.labelled]):
        raise Fault(14)
    for byte, main in zip(word, entry.words[entry.labelled]):
        is_label = LETTER.fullmatch(bytes([byte])) and byte not in b"OXox"
        if byte != main:
            if not is_label or byte in entry.labels or main not in b"OXox.?*":
                raise Fault(14)
            entry.labels.add(byte)
    entry.constraint.append(word)
    entry.labelled += 1


class Call(NamedTuple):
    """A call in an expression."""

    name: bytes
    arguments: list[bytes]


class Parser:
    """Reads an expression by the rules of the grammar, one method a rule."""

    LEVELS = [{b"||"}, {b"&&"}, {b"==", b"!="}, {b"<", b"<=", b">", b">="}, {b"+", b"-"}]

    def __init__(self, text: bytes):
        self.tokens = self.tokens_of(text)
        self.at = 0
        self.deepest = 0
        self.calls: list[Call] = []

    @staticmethod
    def tokens_of(text: bytes) -> list[bytes]:
        tokens, at = [], 0
        while True:
            while at < len(text) and text[at] in BLANKS:
                at += 1
            if at == len(text):
                return tokens + [b""]
            token = TOKEN.match(text, at)
            if not token or (token[0].isdigit() and len(token[0]) > 6):
                raise Fault(15)
            tokens.append(token[0])
            at = token.end()

    def take(self) -> bytes:
        token = self.tokens[self.at]
        self.at += token != b""
        return token

    def expect(self, token: bytes):
        if self.take() != token:
            raise Fault(15)

    def rule(self, level: int, depth: int):
        """A row of operators of the level, with the next level between them."""
        if level == len(self.LEVELS):
            return self.unary(depth)
        self.rule(level + 1, depth)
        while self.tokens[self.at] in self.LEVELS[level]:
            self.at += 1
            self.rule(level + 1, depth)

    def unary(self, depth: int):
        while self.tokens[self.at] in (b"!", b"-"):
            self.at += 1
            depth += 1
        self.primary(depth)

    def primary(self, depth: int):
        token = self.take()
        if token == b"(":
            self.rule(0, depth + 1)
            self.expect(b")")
        elif token.isdigit():
            self.deepest = max(self.deepest, depth)
        elif LETTER.match(token):
            self.deepest = max(self.deepest, depth)
            self.call(token)
        else:
            raise Fault(15)

    def call(self, name: bytes):
        self.expect(b"(")
        arguments = []
        if self.tokens[self.at] != b")":
            arguments.append(self.argument())
            while self.tokens[self.at] == b",":
                self.at += 1
                arguments.append(self.argument())
        self.expect(b")")
        self.calls.append(Call(name, arguments))

    def argument(self) -> bytes:
        token = self.take()
        if token not in (b"*", b"?") and not LETTER.fullmatch(token):
            raise Fault(15)
        return token


def is_miscalled(call: Call) -> bool:
    """Whether the number of arguments is wrong, or a pass stands where no move may."""
    low, high = ARITIES[call.name]
    no_moves = call.arguments[-1:] if call.name in PLAYS else call.arguments
    return not low <= len(call.arguments) <= high or b"?" in no_moves


def judge(text: bytes, labels: set[int]):
    """Raises the first fault of an expression."""
    if len(text) > MOST_TEXT:
        raise Fault(15)
    parser = Parser(text)
    parser.rule(0, 0)
    if parser.tokens[parser.at] or parser.deepest > MOST_LEVELS:
        raise Fault(15)
    if any(call.name not in ARITIES for call in parser.calls) or any(map(is_miscalled, parser.calls)):
        raise Fault(15)
    if any(a not in (b"*", b"?") and a[0] not in labels for call in parser.calls for a in call.arguments):
        raise Fault(16)


class Reader:
    """Reads the lines of a text, with the stage in which the last one left it."""

    def __init__(self, helpers: set[bytes]):
        self.helpers = helpers
        self.stage = "Start"
        self.entries: list[Entry] = []

    def close(self, kind: str):
        """Raises the fault of the constraint diagram or the expression that a line of this kind closes."""
        if self.stage == "Labels" and kind != "other":
            entry = self.entries[-1]
            if 0 < entry.labelled < len(entry.words):
                raise Fault(14)
        if self.stage == "Expression" and kind != ";":
            entry = self.entries[-1]
            try:
                judge(b" ".join(entry.expression), entry.labels)
            except Fault as fault:
                raise Fault(fault.kind, entry.expression_line) from None

    def line(self, number: int, line: bytes):
        word = re.match(rb"[^ \t\f\r]*", line)[0]
        kind = "Pattern" if word == b"Pattern" else chr(line[0]) if line[:1] in (b":", b";", b">") else "other"
        self.close(kind)
        match self.stage, kind:
            case ("Diagram", "Pattern" | ";" | ">"):
                raise Fault(10)
            case (_, "Pattern"):
                self.pattern_line(line[len(word) :])
                self.stage = "Diagram"
            case ("Start", "other"):
                if not LETTER.match(line):
                    raise Fault(2)
            case ("Diagram", ":"):
                colon_line(self.entries[-1], line[1:], self.helpers)
                self.stage = "Labels"
            case ("Diagram", "other"):
                diagram_line(self.entries[-1], word)
            case ("Labels", "other"):
                constraint_line(self.entries[-1], word)
            case ("Labels" | "Expression", ";"):
                self.entries[-1].expression.append(line[1:])
                self.entries[-1].expression_line = self.entries[-1].expression_line or number
                self.stage = "Expression"
            case ("Labels" | "Expression" | "Actions", ">"):
                self.stage = "Actions"
            case _:
                raise Fault(2)

    def pattern_line(self, rest: bytes):
        if len(self.entries) == MOST_PATTERNS:
            raise Fault(18)
        name = re.match(rb"[^ \t\f\r]*", rest.lstrip(BLANKS))[0]
        if not re.fullmatch(rb"[!-~]{1,80}", name):
            raise Fault(3)
        self.entries.append(Entry(name))

    def end(self):
        self.close("end")
        if self.stage == "Diagram":
            raise Fault(10)


def entries(text: bytes, helpers: set[bytes]) -> list[Entry]:
    """The entries of the text; raises its first fault, with the line."""
    sys.setrecursionlimit(200_000)
    lines = text.split(b"\n")
    if lines[-1] == b"":
        lines.pop()
    reader = Reader(helpers)
    number = 0
    try:
        for number, line in enumerate(lines, 1):
            if BAD_BYTE.search(line):
                raise Fault(1)
            line = line.strip(BLANKS)
            if line and not line.startswith(b"#"):
                reader.line(number, line)
            elif line and reader.stage == "Diagram":
                reader.entries[-1].remarks.append(line[1:].strip(BLANKS))
        number = len(lines) + 1
        reader.end()
    except Fault as fault:
        raise Fault(fault.kind, fault.line or number) from None
    return reader.entries


def read(text: bytes, helpers: set[bytes]) -> tuple[int, int] | list[str]:
    """The first fault of the text, its line and kind, or the lines of `list_patterns`."""
    try:
        return [entry.listed() for entry in entries(text, helpers)]
    except Fault as fault:
        return fault.line or 0, fault.kind
