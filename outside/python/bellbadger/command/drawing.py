"""A rule's picture with its names: for Graphviz, and by it where it is there."""

import shutil
import subprocess
import textwrap

from .errors import Failed, reason
from .words import arcs_of


_HEAD = (
    "digraph rule {",
    "rankdir=LR;",
    'node [shape=circle, fontname="sans-serif"];',
    'edge [fontname="sans-serif"];',
)


def dot(named):
    """The automaton in Graphviz's words. Names have letters, digits, _ and - alone, and need no escape."""
    rule, lines = named.rule, list(_HEAD)
    for state, name in enumerate(named.states):
        lines.append(f'"{name}"' + (" [shape=doublecircle];" if rule.finals >> state & 1 else ";"))
    for state, name in enumerate(named.states):
        if rule.initials >> state & 1:
            lines += [f'"initial {name}" [shape=point];', f'"initial {name}" -> "{name}";']
    lines += _arrows(named)
    return "".join(line + "\n" for line in lines + ["}"])


def _arrows(named):
    for state, name in enumerate(named.states):
        together = {}
        for symbols, targets in arcs_of(named.rule, state):
            for target in targets:
                together.setdefault(target, []).extend(symbols)
        for target in sorted(together):
            label = _label([named.events[symbol] for symbol in sorted(together[target])])
            yield f'"{name}" -> "{named.states[target]}" [label="{label}"];'


def _label(names):
    """Names with commas, in lines of some 30 characters, since a label is as wide as its longest line."""
    return "\\n".join(textwrap.wrap(", ".join(names), 30, break_long_words=False, break_on_hyphens=False))


def svg(named):
    """The picture, or None where there is no Graphviz."""
    program = shutil.which("dot")
    if program is None:
        return None
    try:
        words = dot(named).encode("utf-8")
        done = subprocess.run([program, "-Tsvg"], input=words, capture_output=True, timeout=60, check=False)
    except (OSError, subprocess.TimeoutExpired) as error:
        raise Failed(f"dot: {reason(error) if isinstance(error, OSError) else 'it takes over a minute'}") from None
    text = done.stdout.decode("utf-8", "replace")
    if done.returncode or "<svg" not in text or not text.rstrip().endswith("</svg>"):
        raise Failed(f"dot: it drew nothing ({done.stderr.decode('utf-8', 'replace').strip()[:200]})")
    return text
