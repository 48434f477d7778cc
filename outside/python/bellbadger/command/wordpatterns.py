"""Patterns with names, written out for the proved reader of patterns.

A pattern has names of events, side by side, | between alternatives, * + ? behind what is repeated, . for any event,
[red blue] for one of several, and brackets; () is no event at all. The proved reader knows letters, | * and
brackets: +, ?, . and [..] are written out before it sees them, and it decides what the pattern means.
"""

from dataclasses import dataclass

from .errors import listed

MOST_LETTERS, MOST_BYTES = 31, 128
_DEEPEST = 100
_SIGNS = ("*", "+", "?")


@dataclass(frozen=True)
class Event:
    """One of some events, by their numbers: a name has one, . all, [..] several."""

    symbols: tuple
    form: str
    token: object

    @property
    def letters(self):
        return len(self.symbols)

    nullable = False

    def written(self):
        return "|".join(letter(symbol) for symbol in self.symbols), _ALTERNATIVES if self.letters > 1 else _ONE

    def forms(self):
        return [(self.letters, f"{self.form} at {self.token.place()} takes {self.letters}")] if self.letters > 1 else []


@dataclass(frozen=True)
class Either:
    parts: tuple

    @property
    def letters(self):
        return sum(part.letters for part in self.parts)

    @property
    def nullable(self):
        return any(part.nullable for part in self.parts)

    def written(self):
        if len(self.parts) == 1:
            return self.parts[0].written()
        return "|".join(part.written()[0] for part in self.parts), _ALTERNATIVES

    def forms(self):
        return [form for part in self.parts for form in part.forms()]


@dataclass(frozen=True)
class Row:
    """One behind the other; with no parts, no event at all."""

    parts: tuple

    @property
    def letters(self):
        return sum(part.letters for part in self.parts)

    @property
    def nullable(self):
        return all(part.nullable for part in self.parts)

    def written(self):
        if len(self.parts) == 1:
            return self.parts[0].written()
        return "".join(bracketed(part, _ALTERNATIVES) for part in self.parts), _ROW

    def forms(self):
        return [form for part in self.parts for form in part.forms()]


@dataclass(frozen=True)
class Star:
    part: object

    nullable = True

    @property
    def letters(self):
        return self.part.letters

    def written(self):
        return bracketed(self.part, _ROW, _ALTERNATIVES) + "*", _ONE

    def forms(self):
        return self.part.forms()


@dataclass(frozen=True)
class Plus:
    """The part, and then any number of times the part: written twice."""

    part: object
    token: object

    nullable = False

    @property
    def letters(self):
        return 2 * self.part.letters

    def written(self):
        return bracketed(self.part, _ALTERNATIVES) + Star(self.part).written()[0], _ROW

    def forms(self):
        return self.part.forms() + [(self.part.letters, f"+ at {self.token.place()} takes {self.part.letters} more")]


@dataclass(frozen=True)
class Maybe:
    """The part or nothing."""

    part: object

    nullable = True

    @property
    def letters(self):
        return self.part.letters

    def written(self):
        return self.part.written()[0] + "|", _ALTERNATIVES

    def forms(self):
        return self.part.forms()


# how what is written holds together: as one letter does, side by side, or by |
_ONE, _ROW, _ALTERNATIVES = range(3)


def letter(symbol):
    """The letter that stands for an event in a written pattern."""
    return chr(ord("a") + symbol)


def bracketed(part, *looser):
    text, kind = part.written()
    return f"({text})" if kind in looser else text


def repeated(part, token):
    """What is repeated by *, + or ?. What can be empty already needs no + and no ?: so no letters are taken for what
    they would not change."""
    if token.text == "*" or (token.text == "+" and part.nullable):
        return Star(part)
    if token.text == "+":
        return Plus(part, token)
    return part if part.nullable else Maybe(part)


class Reader:
    """Reads the words of a pattern. Tokens have text and place, and fail there."""

    def __init__(self, tokens, end, symbol_of, symbols):
        self.tokens, self.end, self.at, self.depth = tokens, end, 0, 0
        self.symbol_of, self.symbols = symbol_of, symbols

    def whole(self):
        """The pattern of all tokens."""
        pattern = self.either()
        if self.peek():
            raise self.token().failed("a bracket is closed that was not opened")
        return pattern

    def peek(self):
        return self.tokens[self.at].text if self.at < len(self.tokens) else ""

    def token(self):
        return self.tokens[self.at] if self.at < len(self.tokens) else self.end

    def take(self):
        self.at += 1
        return self.tokens[self.at - 1]

    def either(self):
        parts = [self.row()]
        while self.peek() == "|":
            self.take()
            parts.append(self.row())
        return Either(tuple(parts))

    def row(self):
        parts = []
        while self.peek() not in ("", "|", ")"):
            parts.append(self.item())
        if not parts:
            raise self.token().failed("an event is missing here; () is no event at all")
        return Row(tuple(parts))

    def item(self):
        part = self.atom()
        if self.peek() in _SIGNS:
            part = repeated(part, self.take())
        if self.peek() in _SIGNS:
            # red+? is red once or more to who knows other patterns, and may be none to who does not
            raise self.token().failed(f"{self.peek()} follows another sign: brackets say what it repeats")
        return part

    def atom(self):
        token = self.take()
        if token.is_name:
            return Event((self.symbol_of(token),), "the name", token)
        if token.text == ".":
            return Event(tuple(range(self.symbols)), ".", token)
        if token.text == "[":
            return self.one_of(token)
        if token.text == "(":
            return self.bracket(token)
        if token.text in _SIGNS:
            raise token.failed(f"nothing stands before {token.text} that it could repeat")
        raise token.failed(f'"{token.text}" means nothing in a pattern')

    def one_of(self, opened):
        symbols = []
        while self.peek() and self.peek() != "]":
            token = self.take()
            if not token.is_name:
                raise token.failed(f'"{token.text}" means nothing between [ and ]: names stand there')
            symbols.append(self.symbol_of(token))
        if not self.peek():
            raise opened.failed("a bracket is not closed")
        self.take()
        if not symbols:
            raise opened.failed("an event is missing between [ and ]")
        return Event(tuple(sorted(set(symbols))), "[ ]", opened)

    def bracket(self, opened):
        self.depth += 1
        if self.depth > _DEEPEST:
            raise opened.failed(f"brackets stand over {_DEEPEST} deep")
        if self.peek() == ")":
            self.take()
            self.depth -= 1
            return Row(())
        within = self.either()
        if self.peek() != ")":
            raise opened.failed("a bracket is not closed")
        self.take()
        self.depth -= 1
        return within


def written_out(pattern, token):
    """The pattern for the proved reader, in the letters a to p. Where it has not the room, the message says what
    there is, and which forms took it."""
    if pattern.letters > MOST_LETTERS:
        raise token.failed(_too_many("letters", pattern.letters, MOST_LETTERS, pattern))
    text = pattern.written()[0]
    if len(text) > MOST_BYTES:
        raise token.failed(_too_many("bytes", len(text), MOST_BYTES, pattern) + f": {text}")
    return text


def _too_many(unit, there_are, most, pattern):
    forms = sorted(pattern.forms(), key=lambda form: -form[0])[:3]
    took = f" ({listed((form[1] for form in forms), 'and')})" if forms else ""
    return f"written out the pattern has {there_are} {unit}, and {most} are the most{took}"
