"""A rule from a file: as words, as a rule file, or as the hex digits of one, told apart by content."""

import hashlib
import re
import sys
from dataclasses import dataclass, field

from ..judge import Judge
from ..refusals import Refused
from ..rules import CheckedRule, read
from . import words
from .errors import Failed, called, reason

# more than the longest rule has, in any form
_LONGEST = 1 << 20
_CONTROL = re.compile(rb"[\x00-\x08\x0b\x0c\x0e-\x1f\x7f]")
_HEX = re.compile(rb"[0-9A-Fa-f\s]+")
IDLE = 255


@dataclass(frozen=True)
class NamedRule:
    """A rule that the proved reader took, with names for its events and its states.

    name: the file that it came from. named: whether the events have names of their own; a rule file has none, and its
    events are 0, 1 and so on.
    """

    name: str
    rule: CheckedRule
    events: tuple
    states: tuple
    named: bool
    # how the board builds it: a Loaded, or the number with which it is refused
    _built: list = field(default_factory=list, compare=False, repr=False)

    @property
    def file(self):
        """The rule file."""
        return checked_file(self.rule)

    @property
    def sha256(self):
        return hashlib.sha256(self.file).hexdigest()

    def words(self):
        """The rule by states; read again it is the same."""
        return words.written(self.rule, self.events, self.states)

    def judge(self):
        """A fresh judge with the rule, or None where it has over 512 sets and no board takes it."""
        judge = Judge()
        try:
            judge.install(self.rule)
        except Refused as refused:
            if refused.number != 9:
                raise
            return None
        return judge

    def symbols(self):
        """The word for each event in a trace: its name; and its number, where no name is one."""
        table = {name: number for number, name in enumerate(self.events)}
        # in any script: a 1 of another one looks the same
        if not any(name.isnumeric() for name in self.events):
            table.update((str(number), number) for number in range(self.rule.k))
        return table


def checked_file(rule):
    """The rule file of a rule by value, once the proved reader has read it as the same rule."""
    data = words.file_of(rule)
    if read(data) != rule:
        raise Failed("internal error: a rule file was written that is read as another rule")
    return data


def from_rule(name, rule, events, named):
    """A rule that a proved function made."""
    checked_file(rule)
    return NamedRule(name, rule, events, tuple(map(str, range(rule.n))), named)


def load(path):
    """The NamedRule in a file; - is standard input. Failed, with a place where there is one."""
    try:
        return from_bytes(path, _content(path))
    except Failed as failed:
        raise failed.at(called(path)) from None
    except OSError as error:
        raise Failed(reason(error), called(path)) from None


def _content(path):
    if path == "-":
        data = sys.stdin.buffer.read(_LONGEST + 1)
    else:
        with open(path, "rb") as file:
            data = file.read(_LONGEST + 1)
    if len(data) > _LONGEST:
        raise Failed(f"a file of over {_LONGEST} bytes is no rule")
    return data


def from_bytes(name, data):
    """The rule in bytes. A rule file has a zero byte, the high one of its first offset; words and digits have none."""
    if not data.strip():
        raise Failed("the file is empty, and no rule")
    if _CONTROL.search(data):
        return _unnamed(name, data)
    if _HEX.fullmatch(data):
        return _unnamed(name, _digits(data))
    made = words.parse(_text(data))
    return NamedRule(name, made.rule, made.events, made.states, True)


def _text(data):
    try:
        return data.decode("utf-8-sig")
    except UnicodeDecodeError as error:
        raise Failed("the text is not in UTF-8", None, data[: error.start].count(b"\n") + 1) from None


def _digits(data):
    digits = b"".join(data.split())
    if len(digits) % 2:
        raise Failed("the hex digits are odd in number: one is missing")
    return bytes.fromhex(digits.decode("ascii"))


def _unnamed(name, data):
    try:
        rule = read(data)
    except Refused as refused:
        raise Failed(f"neither a rule in words nor a rule file ({refused})") from None
    return from_rule(name, rule, tuple(map(str, range(rule.k))), False)


def common_events(rules):
    """The names that rules have in common. A rule without names goes with any that has as many events."""
    named = [each for each in rules if each.named]
    for each in named[1:]:
        if each.events != named[0].events:
            raise Failed(
                f"{called(named[0].name)} and {called(each.name)} have different events "
                f"({', '.join(named[0].events)}; {', '.join(each.events)}): write the same line into both"
            )
    for each in rules[1:]:
        if each.rule.k != rules[0].rule.k:
            counts = f"{rules[0].rule.k} and {each.rule.k}"
            raise Failed(f"{called(rules[0].name)} and {called(each.name)} have different numbers of events, {counts}")
    return named[0].events if named else rules[0].events
