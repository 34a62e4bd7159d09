"""Takes pictures of pages with Chromium: each at two widths, on a light and on a dark screen.

usage: python3 tools/look_at_pages.py CHROMIUM OUT PAGE ..

A PAGE is an HTML or SVG file. OUT is a folder, which gets a file NAME-WIDTH-light.png and NAME-WIDTH-dark.png for each
page and width, 1200 and 420 points, of the first 1600 points from the top. Says which file was made. The exit status is
1 where a page is missing or Chromium made none, and 2 where the words cannot be taken.
"""

import pathlib
import subprocess
import sys
import tempfile

import command_line

WIDTHS = (1200, 420)
HEIGHT = 1600
SCHEMES = {"light": "1", "dark": "0"}


def look(chromium: str, page: pathlib.Path, out: pathlib.Path, width: int, scheme: str) -> bool:
    """Takes one picture, and answers whether there is one. Chromium draws no window that is narrower than 500 points,
    so the page stands in a frame of the wanted width."""
    picture = out / f"{page.stem}-{width}-{scheme}.png"
    picture.unlink(missing_ok=True)
    with tempfile.TemporaryDirectory() as room:
        frame = pathlib.Path(room) / "frame.html"
        frame.write_text(
            f"<!doctype html><meta name=color-scheme content='light dark'><style>body{{margin:0}}</style>"
            f"<iframe src='{page.resolve().as_uri()}' width={width} height={HEIGHT} style='border:0'></iframe>",
            encoding="utf-8",
        )
        options = ["--headless=new", "--no-sandbox", "--disable-gpu", "--hide-scrollbars"]
        options += [f"--user-data-dir={room}/user"]
        options += [f"--window-size={max(width, 500)},{HEIGHT + 100}", f"--screenshot={picture.resolve()}"]
        options += [f"--blink-settings=preferredColorScheme={SCHEMES[scheme]}"]
        subprocess.run([chromium, *options, frame.as_uri()], capture_output=True, check=False, timeout=120)
    return picture.exists()


def main(chromium: str, folder: str, *pages: str) -> int:
    if not pages or any(word.startswith("-") for word in (chromium, folder, *pages)):
        print(__doc__, file=sys.stderr)
        return 2
    out, missing = pathlib.Path(folder), 0
    out.mkdir(parents=True, exist_ok=True)
    for page in map(pathlib.Path, pages):
        for width in WIDTHS:
            for scheme in SCHEMES:
                made = page.is_file() and look(chromium, page, out, width, scheme)
                missing += not made
                print(f"{page}: {width} {scheme}: {'made' if made else 'nothing'}")
    return 1 if missing else 0


if __name__ == "__main__":
    command_line.run(main, __doc__)
