"""Two rules made one, for a machine with two heads.

    >>> from bellbadger import Judge, read
    >>> ends_in_0_1 = read(bytes.fromhex("03020100000004000000160006001C0002001E0000000000000101000102"))
    >>> even_0s = read(bytes.fromhex("0202010000000100000012000400160004000001010000000101"))
    >>> rule = merge(BOTH, even_0s, ends_in_0_1)
    >>> rule
    <CheckedRule: states 6, symbols 2, initial 1, final 1, arcs 8>
    >>> judge = Judge()
    >>> judge.install(rule)
    Loaded(sets=10, starts=4)
    >>> judge.open(1)
    >>> judge.deliver(0, 0, bytes([0, 0, 1]))
    Looked(bytes=3)
    >>> judge.verdict()
    Yes(count=3, bytes=3, quotient=1, remainder=0)
    >>> merge(BOTH, rule, rule)
    Traceback (most recent call last):
    ...
    bellbadger.refusals.Refused: refused 37: the two rules made one take more than 32 states

Most of these pairs are unreachable, dead or alike to others; without them:

    >>> merge_reduced(BOTH, rule, rule)
    <CheckedRule: states 4, symbols 2, initial 1, final 1, arcs 6>
"""

import ctypes

from ._arguments import one_of
from ._library import declare, lib
from .rules import CheckedRule, RawRule, RawRuleResult, raw

__all__ = ["BOTH", "EITHER", "INTERLEAVING", "merge", "merge_reduced"]

# which texts the result accepts: those that both rules accept, those that either accepts, the
# interleavings of one from each
BOTH, EITHER, INTERLEAVING = 0, 1, 2


declare("merge", RawRuleResult, ctypes.c_uint8, RawRule, RawRule)
declare("merge_reduced", RawRuleResult, ctypes.c_uint8, RawRule, RawRule)


def _merged(function, way, one, two):
    one_of(function, "way", way, "BOTH, EITHER or INTERLEAVING", (BOTH, EITHER, INTERLEAVING))
    rules = raw(function, "one", one), raw(function, "two", two)
    return getattr(lib, "bellbadger_" + function)(way, *rules).checked_rule()


def merge(way: int, one: CheckedRule, two: CheckedRule) -> CheckedRule:
    """The rule that two rules, with n1 and n2 states, come to: way is BOTH, EITHER or INTERLEAVING.

    For BOTH and INTERLEAVING the pair (q1, q2) is state q1 * n2 + q2, initial or final where both its
    members are; an arc moves both, or for INTERLEAVING one alone. For EITHER the second rule's states
    follow the first's, and each is what it was, arcs included. A result with more than 512 sets is
    refused where it is installed, with 9. Where 37 is in the way, merge_reduced needs fewer states.

    Refused with 3, 4, 6, 8 for the first rule, then for the second, then 36 (different numbers of
    symbols), 37 (more than 32 states in the result). Another way raises ValueError.
    """
    return _merged("merge", way, one, two)


def merge_reduced(way: int, one: CheckedRule, two: CheckedRule) -> CheckedRule:
    """The rule that two rules come to, as merge has it, with few states: it accepts the same texts.

    Both rules are reduced (bellbadger.reduce), of their pairs, or for EITHER of the states of both,
    only those are built that are reachable and live, and the result is reduced. States keep their
    order, and are numbered from 0. Where reducing a rule or the result would be refused with 9, that
    step is left out, and the rule as it is is used: so nothing is refused that merge takes. The
    result may have more sets than that of merge, though, as a reduced rule may: where it cannot be
    installed, and that one can, take that one.

    Refused with 3, 4, 6, 8 for the first rule, then for the second, then 36 (different numbers of
    symbols), 37 (more than 32 pairs, or for EITHER states, are reachable and live). Another way
    raises ValueError.
    """
    return _merged("merge_reduced", way, one, two)
