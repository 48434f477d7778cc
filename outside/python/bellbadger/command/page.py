"""A page to look at: one file, which needs nothing else, of a tin's record. It says what the record says, and decides
nothing."""

import html
import re

from . import drawing
from .errors import listed
from .words import arcs_of

_STYLE = """
:root { color-scheme: light; --ink: #1c2126; --soft: #5b6670; --line: #cfd6dc; --good: #14692f; --bad: #a3161a; }
* { box-sizing: border-box; }
body { margin: 0 auto; padding: 1.25rem 1rem 3rem; max-width: 56rem; background: #fff; color: var(--ink);
  font: 16px/1.5 system-ui, "DejaVu Sans", sans-serif; }
h1 { font-size: 1.35rem; margin: 0 0 .75rem; overflow-wrap: anywhere; }
h2 { font-size: 1.05rem; margin: 2rem 0 .6rem; padding-bottom: .2rem; border-bottom: 1px solid var(--line); }
.verdict { display: flex; flex-wrap: wrap; gap: .4rem 1rem; align-items: baseline; padding: .8rem 1rem;
  border: 2px solid; border-radius: .5rem; }
.verdict strong { font-size: 1.6rem; line-height: 1.1; text-transform: uppercase; letter-spacing: .04em; }
.yes { color: var(--good); } .no { color: var(--bad); }
.verdict span { color: var(--ink); overflow-wrap: anywhere; }
dl { display: grid; grid-template-columns: max-content minmax(0, 1fr); gap: .25rem 1rem; margin: 0; }
dt { color: var(--soft); } dd { margin: 0; overflow-wrap: anywhere; }
.strip { display: flex; flex-wrap: wrap; gap: .55rem .3rem; margin: 0; padding: 0; list-style: none; }
.strip li { border: 1px solid var(--line); border-radius: .3rem; padding: .1rem .5rem; background: #f6f8f9;
  text-align: center; overflow-wrap: anywhere; }
.strip small { display: block; color: var(--soft); font-size: .7rem; line-height: 1.1; }
.strip .gap { border: 0; background: none; color: var(--soft); align-self: center; }
.strip .after { color: var(--soft); background: #fff; border-style: dashed; }
.strip .lost { border: 2px solid var(--bad); background: #fdecec; color: var(--bad); font-weight: 700; }
.strip .lost small { color: var(--bad); font-weight: 400; }
.strip .end { border: 2px dashed var(--bad); background: #fff; color: var(--bad); }
.picture { overflow-x: auto; } .picture svg { max-width: 100%; height: auto; display: block; margin: 0 auto; }
table { border-collapse: collapse; width: 100%; }
th, td { text-align: left; padding: .3rem .6rem .3rem 0; border-bottom: 1px solid var(--line); vertical-align: top;
  overflow-wrap: anywhere; }
th { color: var(--soft); font-weight: 400; }
th:first-child { min-width: 5rem; width: 10rem; }
th:nth-child(2) { min-width: 3.5rem; width: 8rem; }
.arrow { white-space: nowrap; }
pre { white-space: pre-wrap; overflow-wrap: anywhere; font-size: .85rem; background: #f6f8f9; padding: .7rem;
  border-radius: .4rem; }
@media screen and (max-width: 40rem) {
  .picture svg { max-width: 36rem; }
  th:first-child, th:nth-child(2) { width: auto; }
}
.hash { font-family: ui-monospace, "DejaVu Sans Mono", monospace; font-size: .8rem; }
@media print {
  body { max-width: none; padding: 0; font-size: 11pt; }
  h2 { break-after: avoid; }
  .verdict, .strip li, tr, .picture { break-inside: avoid; }
  * { print-color-adjust: exact; -webkit-print-color-adjust: exact; }
}
"""

_PAGE = """<!DOCTYPE html>
<html lang="en">
<head>
<meta charset="utf-8">
<meta name="viewport" content="width=device-width, initial-scale=1">
<title>{title}</title>
<style>{style}</style>
</head>
<body>
{body}
</body>
</html>
"""


def made(named, judged, record):
    """The page of a record."""
    names = ", ".join(file["name"] for file in record["trace"]["files"])
    body = [
        f"<h1>{_safe(names)}</h1>",
        _verdict(record),
        _section("Trace", _strip(named, judged)),
        _section("Counts", _facts(_counts(judged))),
        _section("Rule", _rule(named)),
        _section("Record", _facts(_record(record))),
    ]
    return _PAGE.format(title=f"{_safe(names)}: {record['verdict']}", style=_STYLE, body="\n".join(body))


def _safe(text):
    """A text for the page. What is not seen, and what turns the order of letters around, is shown as its number."""
    hidden = lambda char: char.encode("unicode_escape").decode("ascii")
    return html.escape("".join(char if char.isprintable() or char == "\n" else hidden(char) for char in str(text)))


def _section(title, inside):
    return f"<section>\n<h2>{title}</h2>\n{inside}\n</section>"


def _facts(pairs):
    rows = (f"<dt>{_safe(name)}</dt><dd{kind}>{_safe(value)}</dd>\n" for name, value, kind in pairs)
    return "<dl>\n" + "".join(rows) + "</dl>"


def _verdict(record):
    verdict, place = record["verdict"], record["where"] or {}
    why = "The trace keeps to the rule." if verdict == "yes" else f"{_where(place)}{record['reason']}"
    return f'<p class="verdict {verdict}"><strong>{verdict}</strong> <span>{_safe(why)}</span></p>'


def _where(place):
    if "line" in place:
        return f"Line {place['line']}, event {place['number']}: "
    return f"Byte {place['byte']}, event {place['number']}: " if "byte" in place else ""


def _strip(named, judged):
    lost = judged.lost.number if judged.lost and judged.lost.place else None
    cells, before = [], 0
    for number, symbol in judged.strip.events():
        if number > before + 1:
            cells.append(_gap(number - before - 1))
        kind = "" if lost is None or number < lost else ' class="lost"' if number == lost else ' class="after"'
        cells.append(f"<li{kind}>{_safe(named.events[symbol])}<small>{number}</small></li>")
        before = number
    if judged.events > before:
        cells.append(_gap(judged.events - before))
    if not judged.is_yes and judged.lost is None:
        cells.append('<li class="end">ends here<small>too early</small></li>')
    if not cells:
        return "<p>The trace has no events.</p>"
    expected = "" if judged.is_yes else f"<p>Expected: <strong>{_safe(_expected(named, judged))}</strong></p>"
    return f'<ol class="strip">\n{"".join(cell + chr(10) for cell in cells)}</ol>\n{expected}'


def _gap(events):
    return f'<li class="gap">… {events} more …</li>'


def _expected(named, judged):
    names = [named.events[symbol] for symbol in judged.expected] + (["the end"] if judged.could_end else [])
    return listed(names) or "nothing: the rule accepts no trace at all"


def _counts(judged):
    yield "events", judged.events, ""
    if judged.counted is not None:
        rate = f", {judged.counted.count / judged.events:.2f} a byte" if judged.events else ""
        yield "transitions", f"{judged.counted.count}{rate}", ""
    else:
        yield "transitions", "not counted: the rule has over 512 sets", ""


def _rule(named):
    picture = drawing.svg(named)
    inside = f'<div class="picture">{_inline(picture)}</div>' if picture else ""
    words = _safe(named.words()).replace("-&gt;", '<span class="arrow">-&gt;</span>')
    return f"{inside}\n{_arc_table(named)}\n<pre>{words}</pre>"


def _inline(picture):
    """The picture without what stands before it, to stand within a page, and as wide as it was drawn at most."""
    svg = picture[picture.index("<svg") :]
    return re.sub(r"<!--.*?-->", "", svg, flags=re.DOTALL)


def _arc_table(named):
    rows = (_arc_row(named, state, name) for state, name in enumerate(named.states))
    return "<table>\n<tr><th>state</th><th></th><th>arcs</th></tr>\n" + "\n".join(rows) + "\n</table>"


def _arc_row(named, state, name):
    masks = ("initial", named.rule.initials), ("final", named.rule.finals)
    marks = ", ".join(mark for mark, mask in masks if mask >> state & 1)
    arcs = (_arc(named, symbols, targets) for symbols, targets in arcs_of(named.rule, state))
    return f"<tr><td>{_safe(name)}</td><td>{marks}</td><td>{'<br>'.join(map(_safe, arcs))}</td></tr>"


def _arc(named, symbols, targets):
    return f"{', '.join(named.events[s] for s in symbols)} → {', '.join(named.states[q] for q in targets)}"


def _record(record):
    yield "rule", record["rule"]["name"], ""
    yield "its SHA-256", record["rule"]["sha256"], ' class="hash"'
    for file in record["trace"]["files"]:
        yield "trace", f"{file['name']}, {file['length']} bytes", ""
        yield "its SHA-256", file["sha256"], ' class="hash"'
    yield "library", record["library"], ""
    yield "time", record["time"], ""
