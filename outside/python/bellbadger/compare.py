"""Two rules compared: whether they accept the same texts, or the first on which they differ.

    >>> from bellbadger import read
    >>> from bellbadger.patterns import rule_file
    >>> rule = read(rule_file("(ab)*c"))
    >>> compare(rule, read(rule_file("c|ab(ab)*c")))  # the same, put in another way
    Same()
    >>> compare(rule, read(rule_file("ab(ab)*c")))  # it may close at once no longer
    FirstAlone(text=b'\\x02')
    >>> compare(rule, read(rule_file("(ab|b)*c")))
    SecondAlone(text=b'\\x01\\x02')

Two of the three say that the rules differ, so that none has a truth value:

    >>> if compare(rule, rule):
    ...     print("replace it")
    Traceback (most recent call last):
    ...
    TypeError: a comparison, here Same, is no truth value: write .is_same behind it
    >>> compare(rule, rule).is_same
    True
"""

import ctypes
from dataclasses import dataclass
from typing import NoReturn, Union

from ._library import declare, lib
from .refusals import Refused
from .rules import CheckedRule, RawRule, raw

__all__ = ["FirstAlone", "SecondAlone", "Same", "compare"]

_REFUSED, _FIRST_ALONE, _SECOND_ALONE, _SAME = 0, 10, 11, 12


class _Comparison:
    @property
    def is_same(self) -> bool:
        """Whether the two rules accept the same texts."""
        return False

    def __bool__(self) -> NoReturn:
        raise TypeError(f"a comparison, here {type(self).__name__}, is no truth value: write .is_same behind it")


@dataclass(frozen=True)
class FirstAlone(_Comparison):
    """The two differ: the first rule accepts this text, and the second does not. It may be empty."""

    text: bytes


@dataclass(frozen=True)
class SecondAlone(_Comparison):
    """The two differ: the second rule accepts this text, and the first does not. It may be empty."""

    text: bytes


@dataclass(frozen=True)
class Same(_Comparison):
    """The two accept the same texts."""

    @property
    def is_same(self) -> bool:
        return True


class _Result(ctypes.Structure):
    _fields_ = [
        ("kind", ctypes.c_uint8),
        ("refused", ctypes.c_uint8),
        ("length", ctypes.c_uint16),
        ("text", ctypes.c_uint8 * 511),
    ]


declare("compare", _Result, RawRule, RawRule)


def compare(one: CheckedRule, two: CheckedRule) -> Union[FirstAlone, SecondAlone, Same]:
    """The shortest text that exactly one of two rules accepts, and among the shortest the first by symbols: a
    FirstAlone or a SecondAlone that has it; Same where there is none. The text has at most 511 bytes.

    Refused with 3, 4, 6, 8 for the first rule, then for the second, then 36 (different numbers of symbols), 45
    (too many pairs: there are 513 texts of which no two lead to the same pair of sets, one set of each rule, and
    none is later than a text that exactly one rule accepts; so a difference that shows soon is reported however many
    pairs there are).
    """
    result = lib.bellbadger_compare(raw("compare", "one", one), raw("compare", "two", two))
    if result.kind == _REFUSED:
        raise Refused(result.refused)
    if result.kind == _SAME:
        return Same()
    alone = {_FIRST_ALONE: FirstAlone, _SECOND_ALONE: SecondAlone}[result.kind]
    return alone(bytes(result.text[: result.length]))
