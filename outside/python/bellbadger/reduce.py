"""A rule reduced: the same texts, and no state that is unreachable, dead or alike to another.

    >>> from bellbadger import read
    >>> from bellbadger.compare import compare
    >>> from bellbadger.patterns import rule_file
    >>> rule = read(rule_file("(a|a)b|ab"))
    >>> reduced = reduce(rule)
    >>> reduced
    Reduced(rule=<CheckedRule: states 3, symbols 16, initial 1, final 1, arcs 2>, installs=True)
    >>> compare(rule, reduced.rule)
    Same()

Six states by six are too many to be merged, and three by three are not:

    >>> from bellbadger.merge import BOTH, merge
    >>> merge(BOTH, rule, rule)
    Traceback (most recent call last):
    ...
    bellbadger.refusals.Refused: refused 37: the two rules made one take more than 32 states
    >>> merge(BOTH, reduced.rule, reduced.rule)
    <CheckedRule: states 9, symbols 16, initial 1, final 1, arcs 2>
"""

import ctypes
from dataclasses import dataclass
from typing import NoReturn

from ._library import declare, lib
from .refusals import Refused
from .rules import CheckedRule, RawRule, raw

__all__ = ["Reduced", "reduce"]


@dataclass(frozen=True)
class Reduced:
    """What comes of reducing a rule.

    rule: a CheckedRule that accepts the same texts, with as many symbols and no more states.
    installs: whether it can be installed. It may have over 512 sets though the rule that it came from has not: keep
    that one then.
    """

    rule: CheckedRule
    installs: bool

    def __bool__(self) -> NoReturn:
        raise TypeError("a reduced rule is no truth value: write .installs behind it")


class _Reduced(ctypes.Structure):
    _fields_ = [
        ("accepted", ctypes.c_uint8),
        ("refused", ctypes.c_uint8),
        ("installs", ctypes.c_uint8),
        ("rule", RawRule),
    ]


declare("reduce", _Reduced, RawRule)


def reduce(rule: CheckedRule) -> Reduced:
    """A Reduced: a rule that accepts the same texts, and whether it can be installed.

    States go that are unreachable, from the initial ones, or dead: no final state can be reached from them. Each
    other state is represented by the lowest reachable state alike to it, which accepts the same texts as it does;
    what is not reached any more then goes too. States keep their order, and are numbered from 0. A rule that accepts
    no text becomes one state with all masks 0; one that has nothing to take out comes back as it is. It is not the
    smallest rule that accepts these texts.

    Refused with 3, 4, 6, 8, 9 as Judge.install is.
    """
    result = lib.bellbadger_reduce(raw("reduce", "rule", rule))
    if not result.accepted:
        raise Refused(result.refused)
    made = result.rule
    return Reduced(CheckedRule(made.n, made.k, made.initials, made.finals, tuple(made.targets)), result.installs == 1)
