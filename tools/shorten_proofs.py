"""Shortens the proofs of a crate: bodies in whose place one call of `grind` over the lemmas that they cite will do.

usage: python3 tools/shorten_proofs.py NAME [LINES]

Run it at the top of a clone whose files are committed, for one crate NAME at a time. Each body, and each case of a body
by cases, that takes LINES lines or more (3 if nothing is said) is tried as `grind (arith, lemmas)`, once with the bare
names of the lemmas that it cites, and once with the arguments that it gives them. All tries of a crate stand beside
what they might replace in one check, which tells by its errors which of them prove nothing; so a crate takes two or
three checks, the first of them some times as long as a check from nothing. What proves and saves a line is kept,
imports and local lemmas that nothing uses any longer go, and the crate is checked again: what then fails is put back.
Nothing is committed; run `rt fmt` in the crate afterwards.

Left as they are: declarations that give a value and no proof, invariants, proofs by hand (`Proof.antt`), and answers of
cycles of functions, whose goals are so large that a try takes minutes.
"""

import pathlib
import re
import subprocess
import sys
from typing import Iterator, NamedTuple

import command_line

WIDTH = 120
COMMON = "use Rattle.std.proofs.Common.{"
SKIPPED = {"Invariants.antt", "Proof.antt", "Lib.antt"}
# Names that a body cites and that are no lemmas.
NO_LEMMAS = set(
    "arith common_steps rules refl sym ap subst cond not true false zero suc pred min max length take drop map set"
    " get_or replicate reverse absurd inl inr tt eqb ltb leb T is_some is_none fold filter zip position pos neg_ℤ negsuc"
    " nat_lt nat_le nat_eq nat_abs is_ok is_err slice_get codes option_map count_by find remove decimal unwrap_or to_z"
    " of_z w64 bit_or bit_and vec_len lit< lit≤ ⊎_elim slice_index".split()
)
NAME = r"[^\s:(){}\[\],=]+"
WORD = re.compile(r"[\w][\w\-'’]*")
TOKEN = re.compile(r"[()\[\]{},;λ]|[^\s()\[\]{},;λ]+")
# A token that ends the arguments of a lemma.
ENDS = set(
    "in let where = ∙ ↦ | elim × → < ≤ ≡ + - * && || ++ ∷ λ as if then else rw simp cc omega grind search".split()
)
ERROR = re.compile(r"^(?:\./)?(\S+?):\d+:\d+: error: `([^`]+)`", re.M)
LIST = re.compile(r"^use ([^\s{]+)\.\{([^}]*)\}$")


class Lemma(NamedTuple):
    """A declaration with a signature: the rows of its signature and of the lines between it and its cases, and the rows
    of each case."""

    name: str
    indent: int
    start: int
    signed: int
    cases: tuple[tuple[int, int], ...]
    end: int


class Try(NamedTuple):
    """A body that may take the place of some rows of a lemma."""

    name: str
    rows: tuple[int, int]
    head: str
    body: str


def belongs(row: str, indent: int) -> bool:
    """Whether the row goes on with an item that begins at this indent."""
    return row.startswith(" " * (indent + 1)) or (row[:indent].strip() == "" and row[indent:indent + 1] in tuple(")]}"))


def lemmas_of(rows: list[str], indent: int = 0, at: int = 0, end: int | None = None) -> Iterator[Lemma]:
    """The lemmas of a file, those in its modules among them."""
    end = len(rows) if end is None else end
    while at < end:
        row = rows[at][indent:] if rows[at].startswith(" " * indent) else ""
        behind = at + 1
        if row.startswith("module _"):
            while not rows[behind - 1].rstrip().endswith("where"):
                behind += 1
            inner = behind
            while behind < end and (not rows[behind].strip() or belongs(rows[behind], indent)):
                behind += 1
            yield from lemmas_of(rows, indent + 2, inner, behind)
        elif (found := re.match(rf"(?:pub )?({NAME}) :(?: |$)", row)) and found[1] not in ("abbrev", "record", "data"):
            while behind < end and belongs(rows[behind], indent):
                behind += 1
            signed, cases = behind, []
            while behind < end and rows[behind].startswith(" " * indent):
                first = behind
                word = re.split(r"[ =]", rows[first][indent:])[0]
                if word not in (found[1], "unfolding"):
                    break
                behind += 1
                while behind < end and belongs(rows[behind], indent):
                    behind += 1
                if word == found[1]:
                    cases.append((first, behind))
            if cases:
                yield Lemma(found[1], indent, at, signed, tuple(cases), behind)
        at = behind


def gives_a_value(signature: str) -> bool:
    """Whether the declaration gives a value, as a number or a list, and no proof."""
    result = re.split(r"→(?![^(]*\))", " ".join(signature.split()).split(" : ", 1)[-1])[-1].strip()
    if re.search(r"[≡<≤↔⊎⊥≢×]", result) or "goal." in result:
        return False
    return result.split()[0] in ("ℕ", "Bool", "List", "Option", "Result", "Type") or len(result.split()) == 1


def imported_lemmas(text: str) -> set[str]:
    """The lemmas that a file imports: names from proofs that begin with a small letter and are no operators."""
    found = set()
    for path, names in re.findall(r"^use ([^\s{]+)\.\{([^}]*)\}", text, re.M):
        if ".specs" not in path:
            found |= {name.split(" as ")[-1].strip() for name in names.split(",")}
    return {name for name in found if re.match(r"[a-z]", name)} - NO_LEMMAS


def local_names(body: str) -> set[str]:
    """The names that a body binds."""
    found = re.findall(r"\blet \(?([^\s:=(,]+)", body)
    for bound in re.findall(r"λ ([^.]*?)\. |[\[|]\s*([^\[\]|↦]*?)↦", body):
        found += WORD.findall(" ".join(bound))
    found += re.findall(r"^\s+([^\s:(){}\[\]]+) :(?: |$)", body, re.M)
    return set(found)


def cited(body: str, lemmas: set[str]) -> list[tuple[str, str]]:
    """The lemmas that a body cites, each with the arguments in front of the first that the body itself binds."""
    bound, tokens, found = local_names(body), TOKEN.findall(body), []
    for at, token in enumerate(tokens):
        if token not in lemmas - bound:
            continue
        words, place = [token], at + 1
        while place < len(tokens) and tokens[place] not in ENDS | set(")]}[,;_"):
            last, depth = place, 0
            while tokens[place] in "({":
                depth += (tokens[last] in "({[") - (tokens[last] in ")}]")
                if depth == 0:
                    break
                last += 1
            part = tokens[place:last + 1]
            no_argument = bound | set("λ let _ elim rw omega grind record { [ , ;".split())
            if any(word.split(".")[0] in no_argument or word in no_argument for word in part):
                break
            joined = " ".join(part)
            joined = re.sub(r" (?=[)},])|(?<=[({]) |(?<=\)) (?=\.)", "", joined)
            if joined.startswith("."):
                words[-1] += joined
            else:
                words.append(joined)
            place = last + 1
        if (token, " ".join(words)) not in found:
            found.append((token, " ".join(words)))
    return found


def calls(found: list[tuple[str, str]], itself: str) -> list[str]:
    """The calls to try: with bare names, and with the arguments. A lemma cites itself with arguments alone."""
    bare = [term if name == itself else name for name, term in found if name != itself or term != name]
    terms = [term for name, term in found if name != itself or term != name]
    tries = [", ".join(["arith", *dict.fromkeys(words)]) for words in (bare, terms)]
    return [f"grind ({words})" if "," in words else f"grind {words}" for words in dict.fromkeys(tries)]


def laid_out(head: str, body: str, indent: int) -> list[str]:
    """The rows of a case, as rt fmt lays them out."""
    pad = " " * indent
    if len(pad + head + body) + 3 <= WIDTH:
        return [f"{pad}{head} = {body}"]
    if len(pad + body) + 4 <= WIDTH:
        return [f"{pad}{head} =", f"{pad}    {body}"]
    parts = re.split(r", (?![^(]*\))", body.removeprefix("grind (").removesuffix(")"))
    return [f"{pad}{head} =", f"{pad}    grind (", *(f"{pad}      {part}," for part in parts), f"{pad}    )"]


def renamed(rows: list[str], old: str, new: str) -> list[str]:
    """The rows with another name in place of a lemma's."""
    return [re.sub(rf"(?<![^\s(,]){re.escape(old)}(?![^\s),;])", new, row) for row in rows]


def tries_of(rows: list[str], lemma: Lemma, known: set[str], least: int) -> Iterator[Try]:
    """What is tried for a lemma: each of its cases that takes so many rows."""
    count = 0
    for first, end in lemma.cases:
        head, _, body = "\n".join(rows[first:end]).partition(" =")
        if end - first < least or not body or "\n" in head:
            continue
        lemmas = known | {lemma.name} if len(lemma.cases) > 1 else known - {lemma.name}
        for call in calls(cited(body, lemmas), lemma.name):
            count += 1
            yield Try(f"{lemma.name}-try{count}", (first, end), head.strip(), call)


def with_tries(rows: list[str], tries: dict[Lemma, list[Try]]) -> list[str]:
    """The rows of a file with all tries behind the lemmas whose bodies they might be."""
    out, behind = [], {lemma.end: lemma for lemma in tries}
    for at, row in enumerate([*rows, ""]):
        lemma = behind.get(at)
        for one in tries[lemma] if lemma else ():
            start, new = one.rows[0], laid_out(one.head, one.body, lemma.indent)
            text = [*rows[lemma.start:start], *new, *rows[one.rows[1]:lemma.end]]
            out += ["", *renamed([text[0].replace("pub ", "", 1), *text[1:]], lemma.name, one.name)]
        out.append(row)
    return out[:-1]


def with_arith(text: str) -> str:
    """The text with `arith` among its imports."""
    if re.search(r"^use [^\n]*[{ ]arith[,}]", text, re.M):
        return text
    rows = text.split("\n")
    at = max((place for place, row in enumerate(rows) if row.startswith(COMMON)), default=None)
    if at is not None and len(rows[at]) + 7 <= WIDTH:
        rows[at] = rows[at].removesuffix("}") + ", arith}"
    else:
        uses = (place for place, row in enumerate(rows) if row.startswith(("use ", "pub use ")))
        rows.insert(next(uses, 0), COMMON + "arith}")
    return "\n".join(rows)


def is_used(name: str, text: str) -> bool:
    """Whether a name, or a part of an operator, stands in a text outside its imports and comments."""
    code = "\n".join(row for row in text.split("\n") if not re.match(r"\s*--|(pub )?use ", row))
    if "◌" in name:
        return any(part in code for part in name.split("◌") if part)
    return re.search(rf"(?<![\w\-'’]){re.escape(name)}(?![\w\-'’])", code) is not None


def without_unused(new: str, old: str) -> str:
    """The new text without the imports, and the lemmas that are not `pub`, of which the old one made use and it does
    not."""
    while True:
        rows = new.split("\n")
        for lemma in lemmas_of(rows):
            rest = "\n".join(rows[:lemma.start] + rows[lemma.end:])
            if rows[lemma.start].lstrip().startswith("pub ") or is_used(lemma.name, rest):
                continue
            before, start = old.split("\n"), lemma.start
            own = [one for one in lemmas_of(before) if one.name == lemma.name]
            if len(own) != 1 or not is_used(lemma.name, "\n".join(before[:own[0].start] + before[own[0].end:])):
                continue
            while rows[start - 1].lstrip().startswith("--"):
                start -= 1
            new = re.sub(r"\n{3,}", "\n\n", "\n".join(rows[:start] + rows[lemma.end:])).rstrip("\n") + "\n"
            break
        else:
            break
    out = []
    for row in new.split("\n"):
        if listed := LIST.match(row):
            names = [name.strip() for name in listed[2].split(",")]
            kept = [name for name in names if is_used(own := name.split(" as ")[-1], new) or not is_used(own, old)]
            if not kept:
                continue
            row = f"use {listed[1]}.{{{', '.join(kept)}}}"
        out.append(row)
    return "\n".join(out)


def refused_by_check(crate: pathlib.Path) -> set[tuple[str, str]]:
    """The declarations that a check of the crate refuses, by file and name."""
    said = subprocess.run(["rt", "check", "--allow-holes"], cwd=crate, capture_output=True, text=True, check=False)
    text = said.stdout + said.stderr
    if f"crate {crate.name}: modules loaded" not in text:
        sys.exit(f"shorten_proofs.py: the check gives no verdict:\n{text[-2000:]}")
    return {(file, name.split(".")[0]) for file, name in ERROR.findall(text)}


def chosen(rows: list[str], tries: dict[Lemma, list[Try]], refused: set[str], kept: set[str]) -> list[str]:
    """The rows of a file, with the shortest tries that prove in place of what they replace; the lemmas `kept` stay."""
    best: dict[tuple[int, int], list[str]] = {}
    for lemma, all_tries in tries.items():
        for one in all_tries:
            new = laid_out(one.head, one.body, lemma.indent)
            if one.name in refused or lemma.name in kept or len(new) >= one.rows[1] - one.rows[0]:
                continue
            if one.rows not in best or len(new) < len(best[one.rows]):
                best[one.rows] = new
    out = list(rows)
    for (first, end), new in sorted(best.items(), reverse=True):
        out[first:end] = new
    return out


def main(name: str, lines: str = "3") -> int:
    crate = pathlib.Path("crates") / name
    files = [
        file
        for file in sorted(crate.glob("proofs/**/*.antt"))
        if file.name not in SKIPPED and "/+" not in str(file)
    ]
    texts = {file: file.read_text(encoding="utf-8") for file in files}
    plan = {}
    for file, text in texts.items():
        rows, known = text.split("\n"), imported_lemmas(text)
        plan[file] = {}
        for lemma in lemmas_of(rows):
            if not gives_a_value("\n".join(rows[lemma.start:lemma.signed])):
                plan[file][lemma.name] = (lemma, list(tries_of(rows, lemma, known, int(lines))))
            known = known | {lemma.name}
        plan[file] = dict(plan[file].values())
    print(f"{sum(len(one) for tries in plan.values() for one in tries.values())} tries", flush=True)
    kept: set[tuple[str, str]] = set()
    try:
        for file, text in texts.items():
            file.write_text(with_arith("\n".join(with_tries(text.split("\n"), plan[file]))), encoding="utf-8")
        refused = refused_by_check(crate)
    finally:
        for file, text in texts.items():
            file.write_text(text, encoding="utf-8")
    while True:
        saved = 0
        for file, text in texts.items():
            at = str(file.relative_to(crate))
            names = ({name for where, name in which if where == at} for which in (refused, kept))
            new = "\n".join(chosen(text.split("\n"), plan[file], *names))
            new = text if new == text else without_unused(with_arith(new), text)
            saved += text.count("\n") - new.count("\n")
            file.write_text(new, encoding="utf-8")
        failed = refused_by_check(crate) - kept
        print(f"{saved} lines saved, {len(failed)} declarations fail", flush=True)
        if not failed:
            return 0
        kept |= failed


if __name__ == "__main__":
    command_line.run(main, __doc__)
