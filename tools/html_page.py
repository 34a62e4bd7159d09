"""A page that needs no other file and has no script, for light and dark screens of any width."""

import html

STYLE = """
:root{color-scheme:light dark;--ink:#222;--paper:#fff;--soft:#666;--line:#ccc;--good:#176b2c;--bad:#b3261e}
:root{--link:#0b57d0}
@media(prefers-color-scheme:dark){:root{--ink:#ddd;--paper:#181818;--soft:#a0a0a0;--line:#444;--good:#6fcf86}
:root{--bad:#ff8a80;--link:#8ab4f8}}
body{font:15px/1.5 sans-serif;max-width:72em;margin:1em auto;padding:0 1em}
body{color:var(--ink);background:var(--paper)}
a{color:var(--link)}h1{font-size:1.5em}h2{font-size:1.15em;margin:.2em 0}
table{border-collapse:collapse}.wide{overflow-x:auto}
td,th{padding:.2em .7em;border-bottom:1px solid var(--line);text-align:left;vertical-align:top}
section{border-top:1px solid var(--line);padding:1em 0;display:grid;gap:1.2em;align-items:start}
section{grid-template-columns:minmax(0,max-content) minmax(0,1fr)}
@media(max-width:45em){section{grid-template-columns:minmax(0,1fr)}}
pre,code{font:13px/1.4 monospace;white-space:pre-wrap;overflow-wrap:anywhere}pre{margin:.3em 0}
summary{cursor:pointer}
details details,details .leaf{margin-left:.4em;border-left:2px solid var(--line);padding-left:.7em}
.soft,.leaf{color:var(--soft)}.yes{color:var(--good)}.no{color:var(--bad)}
.row{display:flex;flex-wrap:wrap;gap:1em}
figure{margin:0}figcaption{font-size:12px;color:var(--soft)}.board{max-width:100%;height:auto;display:block}
""".strip()


def page(title: str, style: str, parts: list[str]) -> str:
    """A page with a title, which is also its first heading; the parts are HTML already."""
    name, body = html.escape(title), "\n".join(parts)
    head = f'<meta charset="utf-8"><meta name="viewport" content="width=device-width"><title>{name}</title>'
    styles = f"<style>{STYLE}\n{style}</style>"
    return (
        f'<!doctype html>\n<html lang="en"><head>{head}\n{styles}</head>\n'
        f"<body><h1>{name}</h1>\n{body}\n</body></html>\n"
    )
