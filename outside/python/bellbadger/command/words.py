"""Rules in words, read and written back.

    events red blue purge                      # up to 16 names; their order is the symbols'
    pattern (purge | (red | blue) purge)*

or by states:

    events red blue purge
    state clean initial final: purge -> clean; red, blue -> dirty
    state dirty: purge -> clean

# begins a comment. A line begins with events, pattern or state; one that begins with a space and another word continues
the line before. Every error has its line and column, counted from 1.
"""

import re
from dataclasses import dataclass

from ..patterns import rule_file
from ..rules import CheckedRule, read
from . import wordpatterns
from .errors import Failed, shown

MOST_EVENTS, MOST_STATES, LONGEST_NAME = 16, 32, 64
STATEMENTS = ("events", "pattern", "state")
# what is no name, since it means something
KEPT = STATEMENTS + ("initial", "final", "idle")

LONE_RETURN = "a carriage return stands without a line feed, and ends no line"
ZERO_BYTE = "a zero byte: this is no text"

NAME = r"\w+(?:-+\w+)*"
_TOKEN = re.compile(rf"(?P<name>{NAME})|->|[^\s\w]")


@dataclass(frozen=True)
class Token:
    text: str
    line: int
    column: int
    is_name: bool = False

    def place(self):
        return f"{self.line}:{self.column}"

    def failed(self, message):
        return Failed(message, None, self.line, self.column)


@dataclass(frozen=True)
class Words:
    """What words come to: the rule, the events' names and the states'."""

    rule: CheckedRule
    events: tuple
    states: tuple


def parse(text):
    """The Words of a text; Failed, with a place, where it is none."""
    statements = _statements(lines_of(text))
    if not statements:
        raise Failed("there is no rule: the first line is `events` and names", None, 1, 1)
    first_line = statements[0]
    if first_line[0].text != "events":
        raise first_line[0].failed("a rule begins with `events` and names")
    events = _names(first_line, "event", MOST_EVENTS)
    if len(statements) == 1:
        raise _end(first_line).failed("a pattern or states are missing behind the events")
    by = _by_states if statements[1][0].text == "state" else _by_pattern
    return by(events, statements[1:])


def lines_of(text):
    """The lines of a text, which end in a line feed, or a carriage return and one. Failed where a return is alone, and
    where there is a zero byte."""
    text = text.replace("\r\n", "\n")
    for sign, why in (("\r", LONE_RETURN), ("\0", ZERO_BYTE)):
        if sign in text:
            raise Failed(why, None, text.count("\n", 0, text.index(sign)) + 1)
    return text.split("\n")


def _statements(lines):
    """Each statement as its tokens, the word that it begins with the first."""
    statements = []
    for number, line in enumerate(lines, 1):
        tokens = _tokens(number, line.partition("#")[0])
        if not tokens:
            continue
        if tokens[0].text in STATEMENTS:
            statements.append(tokens)
        elif statements and line[0].isspace():
            statements[-1].extend(tokens)
        else:
            raise tokens[0].failed(f'a line begins with events, pattern or state, and not with "{tokens[0].text}"')
    return statements


def _tokens(number, line):
    tokens = []
    for found in _TOKEN.finditer(line):
        name = found["name"]
        token = Token(name or shown(found[0]), number, found.start() + 1, name is not None)
        if len(found[0]) > LONGEST_NAME:
            raise token.failed(f"a name has at most {LONGEST_NAME} characters")
        tokens.append(token)
    return tokens


def _end(tokens):
    """The place behind the last token."""
    last = tokens[-1]
    return Token("", last.line, last.column + len(last.text))


def _names(statement, kind, most):
    names = []
    for token in statement[1:]:
        _new_name(token, kind, names)
        names.append(token.text)
        if len(names) > most:
            raise token.failed(f"a rule has at most {most} {kind}s, and this is number {len(names)}")
    if not names:
        raise _end(statement).failed(f"an {kind}'s name is missing")
    return tuple(names)


def _new_name(token, kind, names):
    if not token.is_name:
        raise token.failed(f'"{token.text}" is no name of a{"n" if kind == "event" else ""} {kind}')
    if token.text in KEPT:
        raise token.failed(f'"{token.text}" has a meaning of its own, and is no name')
    if token.text in names:
        raise token.failed(f'the {kind} "{token.text}" is there already')


def _symbol_of(events):
    numbers = {name: number for number, name in enumerate(events)}

    def symbol_of(token):
        if token.text not in numbers:
            raise token.failed(no_event(token.text, events))
        return numbers[token.text]

    return symbol_of


def no_event(word, events):
    return f'no event "{shown(word)}" ({", ".join(events)})'


def _by_pattern(events, statements):
    if len(statements) > 1:
        raise statements[1][0].failed("nothing may follow the pattern")
    return Words(*_pattern_rule(events, statements[0]))


def _pattern_rule(events, statement):
    first = statement[0]
    if first.text != "pattern":
        raise first.failed("the events are there already")
    pattern = wordpatterns.Reader(statement[1:], _end(statement), _symbol_of(events), len(events)).whole()
    text = wordpatterns.written_out(pattern, first)
    letters = [char for char in text if char.isalpha()]
    states = ("start",) + tuple(_letter_name(events[ord(char) - ord("a")], at) for at, char in enumerate(letters, 1))
    return narrowed(read(rule_file(text)), len(events)), events, states


def _letter_name(event, at):
    """The state of a pattern's letter: red-2. A long name is cut, so that what is written can be read again."""
    end = f"-{at}"
    return event[: LONGEST_NAME - len(end)] + end


def narrowed(rule, symbols):
    """A pattern's rule, which has 16 symbols, with those alone that there are names for."""
    if any(rule.target_mask(q, s) for q in range(rule.n) for s in range(symbols, 16)):
        raise Failed("internal error: a pattern has an event that there is no name for")
    return read(file_of(CheckedRule(rule.n, symbols, rule.initials, rule.finals, rule.targets)))


def _by_states(events, statements):
    states = _state_names(statements)
    symbol_of, numbers = _symbol_of(events), {name: number for number, name in enumerate(states)}
    marks, targets = {"initial": 0, "final": 0}, [0] * 512
    for state, statement in enumerate(statements):
        arcs = _marked(statement, marks, state)
        for symbols, heads in _arcs(arcs, symbol_of, numbers, states):
            for symbol, head in ((symbol, head) for symbol in symbols for head in heads):
                _put(targets, 16 * state + symbol[0], head)
    rule = CheckedRule(len(states), len(events), marks["initial"], marks["final"], targets)
    return Words(read(file_of(rule)), events, states)


def _state_names(statements):
    names = []
    for statement in statements:
        if statement[0].text != "state":
            raise statement[0].failed("behind the first state there are states alone")
        if len(statement) < 2:
            raise _end(statement).failed("a state's name is missing")
        _new_name(statement[1], "state", names)
        names.append(statement[1].text)
        if len(names) > MOST_STATES:
            raise statement[1].failed(f"a rule has at most {MOST_STATES} states, and this is number {len(names)}")
    return tuple(names)


def _marked(statement, marks, state):
    """Notes whether the state is initial and final; what follows the colon."""
    at = 2
    while at < len(statement) and statement[at].text in marks:
        if marks[statement[at].text] >> state & 1:
            raise statement[at].failed(f"{statement[at].text} is there already")
        marks[statement[at].text] |= 1 << state
        at += 1
    if at < len(statement) and statement[at].text != ":":
        raise statement[at].failed(f'initial, final or a colon is due here, and not "{statement[at].text}"')
    return statement[at:]


def _arcs(tokens, symbol_of, numbers, states):
    """For each part between semicolons the events, and the states that they lead to, each with its token."""
    for part in _parts(tokens[1:]) if tokens else ():
        arrow = next((at for at, token in enumerate(part) if token.text == "->"), None)
        if arrow is None:
            raise _end(part).failed("an arrow -> and a state are missing")
        events = [(symbol_of(token), token) for token in _listed(part[:arrow], part[arrow], "an event")]
        yield events, [_state(token, numbers, states) for token in _listed(part[arrow + 1 :], _end(part), "a state")]


def _parts(tokens):
    """What stands between semicolons; behind the last one nothing need stand."""
    parts = [[]]
    for token in tokens:
        if token.text != ";":
            parts[-1].append(token)
        elif not parts[-1]:
            raise token.failed("events and an arrow are missing before the semicolon")
        else:
            parts.append([])
    return parts if parts[-1] else parts[:-1]


def _listed(tokens, end, due):
    """Names with a comma between any two."""
    for at, token in enumerate(tokens):
        if at % 2 == 0 and not token.is_name:
            raise token.failed(f'{due} is due here, and not "{token.text}"')
        if at % 2 == 1 and token.text != ",":
            raise token.failed(f'a comma, a semicolon or an arrow is due here, and not "{token.text}"')
    if len(tokens) % 2 == 0:
        raise end.failed(f"{due} is missing here")
    return tokens[::2]


def _state(token, numbers, states):
    if token.text not in numbers:
        raise token.failed(f'no state "{token.text}" ({", ".join(states)})')
    return numbers[token.text], token


def _put(targets, cell, head):
    state, token = head
    if targets[cell] >> state & 1:
        raise token.failed(f'this arc to "{token.text}" is there already')
    targets[cell] |= 1 << state


def file_of(rule):
    """The rule file of a rule by value, as document 01 has it; who uses it reads it with the proved reader."""
    sections = [_section(rule, state) for state in range(rule.n)]
    head = bytes([rule.n, rule.k]) + rule.initials.to_bytes(4, "little") + rule.finals.to_bytes(4, "little")
    offset, pairs = 10 + 4 * rule.n, b""
    for section in sections:
        pairs += offset.to_bytes(2, "little") + len(section).to_bytes(2, "little")
        offset += len(section)
    return head + pairs + b"".join(sections)


def _section(rule, state):
    masks = ((symbol, rule.target_mask(state, symbol)) for symbol in range(rule.k))
    return bytes(byte for symbol, mask in masks for target in members(mask) for byte in (symbol, target))


def members(mask):
    return [state for state in range(32) if mask >> state & 1]


def written(rule, events, states):
    """The words by states of a rule. Read again they are the same rule, with the same names."""
    lines = [f"events {' '.join(events)}"]
    for state, name in enumerate(states):
        marks = [mark for mark, mask in (("initial", rule.initials), ("final", rule.finals)) if mask >> state & 1]
        head, arcs = " ".join(["state", name, *marks]), "; ".join(_written_arcs(rule, events, states, state))
        lines.append(f"{head}: {arcs}" if arcs else head)
    return "".join(line + "\n" for line in lines)


def arcs_of(rule, state):
    """The state's arcs: symbols that lead to the same states, together, and these states."""
    together = {}
    for symbol in range(rule.k):
        if rule.target_mask(state, symbol):
            together.setdefault(rule.target_mask(state, symbol), []).append(symbol)
    return [(symbols, members(mask)) for mask, symbols in together.items()]


def _written_arcs(rule, events, states, state):
    for symbols, targets in arcs_of(rule, state):
        yield f"{', '.join(events[s] for s in symbols)} -> {', '.join(states[q] for q in targets)}"
