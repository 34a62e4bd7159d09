"""Tries the wrong bodies that stand outside the gate, crates/NAME/more-edits/*.edit: the prover has to refuse each.

usage: python3 tools/try_edits.py [--apply | CRATE...]

Without a name the edits of all crates are tried, which takes an hour or more. Run it at the top of a clone. It works on
a copy beside the clone, in which the edits of more-edits/ stand in place of those of must-fail/, and runs
`rt must-fail` there for one crate after the other. What is proved in the clone is taken along, so it pays to have
proved the crate before. Prints a line for each edit. The status is 1 if an edit was not refused, or only for a name
that it took away.

With `--apply` nothing is proved and nothing changed: it tells which edits of must-fail/ and more-edits/ can be applied
to the clone as it stands. Each text behind `old: ` has to stand in its file once, and the edit has to change something.
The status is 1 if one cannot be applied.
"""

import pathlib
import re
import shutil
import subprocess
import sys
import tempfile

import command_line

REFUSED = re.compile(r"rt: must-fail (\S+): refused, as it must be(.*)")
TRIED = re.compile(r"rt: must-fail (\S+): ")
FOLDERS = ("must-fail", "more-edits")
LOST_NAME = "only because a proof file names what the edit took away"


def crates_with_edits(root: pathlib.Path, names: tuple[str, ...]) -> list[str]:
    """The crates that have edits outside the gate, or those of them that are named. A name without any ends the run."""
    found = sorted(folder.parent.name for folder in root.glob("crates/*/more-edits"))
    for name in names:
        if name not in found:
            print(f"try_edits.py: {name} has no crates/{name}/more-edits", file=sys.stderr)
            sys.exit(2)
    return [name for name in found if not names or name in names]


def why_not_applied(edit: pathlib.Path) -> str | None:
    """Why an edit cannot be applied to its crate, or None. The pairs of an edit apply one after another."""
    crate = edit.parent.parent
    file, old, texts = None, None, {}
    for line in edit.read_text(encoding="utf-8").splitlines():
        if line.startswith("file: "):
            file = crate / line.removeprefix("file: ")
            if not file.is_file():
                return f"there is no file {file}"
            texts.setdefault(file, file.read_text(encoding="utf-8"))
        elif line.startswith("old: ") and file:
            old = line.removeprefix("old: ")
            if (count := texts[file].count(old)) != 1:
                return f"this stands {count} times in {file}: {old}"
        elif line.startswith("new:") and old is not None:
            texts[file], old = texts[file].replace(old, line.removeprefix("new:").removeprefix(" ")), None
        else:
            return f"this line is not read: {line}"
    changed = any(file.read_text(encoding="utf-8") != text for file, text in texts.items())
    return None if changed else "it changes nothing"


def apply_all() -> int:
    """Tells which edits of the gate and outside it cannot be applied. The status is 1 if there is one."""
    edits = sorted(edit for folder in FOLDERS for edit in pathlib.Path().glob(f"crates/*/{folder}/*.edit"))
    faults = [(edit, why) for edit in edits if (why := why_not_applied(edit))]
    for edit, why in faults:
        print(f"{edit}: {why}")
    print(f"{len(edits)} edits, {len(faults)} of them cannot be applied")
    return 1 if faults else 0


def put_in_place(copy: pathlib.Path, name: str):
    """Makes the edits outside the gate those that `rt must-fail` tries."""
    crate = copy / "crates" / name
    shutil.rmtree(crate / "must-fail", ignore_errors=True)
    (crate / "more-edits").rename(crate / "must-fail")


def are_refused(copy: pathlib.Path, name: str) -> bool:
    """Tries the edits of a crate, and prints what `rt` says of each. Whether a contract refused every one."""
    ran = subprocess.run(["rt", "must-fail", name], cwd=copy, stdout=subprocess.PIPE, text=True, errors="replace")
    said = [line for line in ran.stdout.splitlines() if TRIED.match(line)]
    print("\n".join(said), flush=True)
    refused = [match for match in map(REFUSED.match, said) if match and LOST_NAME not in match[2]]
    wanted = len(list((copy / "crates" / name / "must-fail").glob("*.edit")))
    return ran.returncode == 0 and len(refused) == wanted


def main(*names: str) -> int:
    root = pathlib.Path.cwd()
    if not (root / "crates.txt").is_file():
        print("try_edits.py: run it at the top of a clone, where crates.txt stands", file=sys.stderr)
        return 2
    if names == ("--apply",):
        return apply_all()
    crates = crates_with_edits(root, names)
    with tempfile.TemporaryDirectory(prefix="edits-", dir=root.parent) as room:
        copy = pathlib.Path(room) / "clone"
        shutil.copytree(root, copy, ignore=shutil.ignore_patterns(".git"))
        subprocess.run(["git", "init", "-q", str(copy)], check=True)
        for name in crates:
            put_in_place(copy, name)
        failed = [name for name in crates if not are_refused(copy, name)]
    if failed:
        print(f"not all were refused by a contract: {' '.join(failed)}")
    return 1 if failed else 0


if __name__ == "__main__":
    command_line.run(main, __doc__.strip())
