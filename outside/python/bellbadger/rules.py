"""Rules by value: what a rule file is read to, and what a judge installs."""

import ctypes
from dataclasses import dataclass
from typing import Tuple

from ._arguments import Bytes, all_fitting, as_bytes, expect, fitting, whole
from ._library import DATA, declare, lib
from .refusals import Refused

__all__ = ["CheckedRule", "read"]


def members(mask: int) -> int:
    """How many states a mask names."""
    return bin(mask).count("1")


@dataclass(frozen=True, repr=False)
class CheckedRule:
    """A rule by value: what read answers and Judge.install takes.

    n states and k symbols; the masks of initial and final states, bit q for state q; and the mask of
    the targets of state q and symbol s at targets[q * 16 + s], 0 for a state or a symbol that there is
    not. Any numbers that fit 8 and 32 bits may stand in a rule that is made by hand: it is checked
    again where it is installed.
    """

    n: int
    k: int
    initials: int
    finals: int
    targets: Tuple[int, ...] = (0,) * 512

    def __post_init__(self) -> None:
        for name, bits in (("n", 8), ("k", 8), ("initials", 32), ("finals", 32)):
            object.__setattr__(self, name, fitting("CheckedRule", name, getattr(self, name), bits))
        object.__setattr__(self, "targets", all_fitting("CheckedRule", "targets", self.targets, 32))
        if len(self.targets) != 512:
            raise ValueError(f"CheckedRule: targets must be 512 masks, not {len(self.targets)}")

    def __repr__(self) -> str:
        initial, final, arcs = members(self.initials), members(self.finals), sum(map(members, self.targets))
        return f"<CheckedRule: states {self.n}, symbols {self.k}, initial {initial}, final {final}, arcs {arcs}>"

    def target_mask(self, state: int, symbol: int) -> int:
        """The mask of the states that a symbol leads to from a state; 0 for one that does not exist."""
        state, symbol = whole("target_mask", "state", state), whole("target_mask", "symbol", symbol)
        return self.targets[state * 16 + symbol] if 0 <= state < 32 and 0 <= symbol < 16 else 0


class RawRule(ctypes.Structure):
    """A checked rule as C has it."""

    _fields_ = [
        ("n", ctypes.c_uint8),
        ("k", ctypes.c_uint8),
        ("initials", ctypes.c_uint32),
        ("finals", ctypes.c_uint32),
        ("targets", ctypes.c_uint32 * 512),
    ]


class RawRuleResult(ctypes.Structure):
    """Of reading and of merging."""

    _fields_ = [("accepted", ctypes.c_uint8), ("refused", ctypes.c_uint8), ("rule", RawRule)]

    def checked_rule(self) -> CheckedRule:
        if not self.accepted:
            raise Refused(self.refused)
        rule = self.rule
        return CheckedRule(rule.n, rule.k, rule.initials, rule.finals, tuple(rule.targets))


declare("read", RawRuleResult, *DATA)


def raw(call, name, rule):
    """A checked rule for C."""
    expect(call, name, rule, CheckedRule)
    return RawRule(rule.n, rule.k, rule.initials, rule.finals, (ctypes.c_uint32 * 512)(*rule.targets))


def read(file: Bytes) -> CheckedRule:
    """The rule in a rule file. Refused with 1 to 8."""
    data = as_bytes("read", "file", file)
    return lib.bellbadger_read(data, len(data)).checked_rule()
