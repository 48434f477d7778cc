"""The failure form of a rule's next-set table: a smaller table for a nozzle board.

    >>> from bellbadger import Judge
    >>> judge = Judge()
    >>> judge.load(bytes.fromhex("03020100000004000000160006001C0002001E0000000000000101000102"))
    Loaded(sets=5, starts=3)
    >>> made = form(judge)
    >>> made
    Form(symbols=2, failure=(0, 0, 0, 0, 3), kept=(3, 2, 0, 3, 2), cells=(1, 0, 2, None, 4, None))
    >>> table(made)
    ((1, 0), (1, 2), (1, 0), (None, 4), (None, None))
    >>> table(Form(2, (0, 1), (3, 0), (0, 0)))
    Traceback (most recent call last):
    ...
    bellbadger.refusals.Refused: refused 40: not a valid form
"""

import ctypes
from dataclasses import dataclass
from typing import Optional, Tuple

from ._arguments import all_fitting, expect, fitting
from ._library import declare, lib
from .judge import Judge, RawState
from .refusals import Refused
from .rules import members

__all__ = ["Form", "form", "table"]

_SETS, _CELLS, _EMPTY = 512, 8192, 512


class _Form(ctypes.Structure):
    _fields_ = [
        ("sets", ctypes.c_uint16),
        ("symbols", ctypes.c_uint8),
        ("failure", ctypes.c_uint16 * _SETS),
        ("kept", ctypes.c_uint16 * _SETS),
        ("cells", ctypes.c_uint16 * _CELLS),
    ]


class _Table(ctypes.Structure):
    _fields_ = [("sets", ctypes.c_uint16), ("symbols", ctypes.c_uint8), ("next", ctypes.c_uint16 * _CELLS)]


class _FormResult(ctypes.Structure):
    _fields_ = [("accepted", ctypes.c_uint8), ("refused", ctypes.c_uint8), ("form", _Form)]


class _TableResult(ctypes.Structure):
    _fields_ = [("accepted", ctypes.c_uint8), ("refused", ctypes.c_uint8), ("table", _Table)]


declare("form", _FormResult, RawState)
declare("form_back", _TableResult, _Form)


@dataclass(frozen=True)
class Form:
    """A next-set table in which a cell that is equal to that of the failure set is left out.

    For each set its failure set and the mask of its kept cells, bit s for symbol s; then the kept cells,
    packed by set and symbol: a set, or None for the empty one. One that is made by hand may have any
    numbers that fit 16 bits, and 8 for the symbols; there is a failure set and a mask for each set.
    """

    symbols: int
    failure: Tuple[int, ...]
    kept: Tuple[int, ...]
    cells: Tuple[Optional[int], ...]

    def __post_init__(self) -> None:
        object.__setattr__(self, "symbols", fitting("Form", "symbols", self.symbols, 8))
        for name in ("failure", "kept", "cells"):
            object.__setattr__(self, name, all_fitting("Form", name, getattr(self, name), 16, or_none=name == "cells"))
        failure, kept, cells = map(len, (self.failure, self.kept, self.cells))
        if failure != kept:
            raise ValueError(f"Form: failure and kept must be as long as each other, not {failure} and {kept}")
        if kept > _SETS:
            raise ValueError(f"Form: kept must be at most {_SETS} masks, not {kept}")
        if not sum(map(members, self.kept)) <= cells <= _CELLS:
            raise ValueError(f"Form: cells must be the kept ones, {sum(map(members, self.kept))}, and at most {_CELLS}, not {cells}")


def form(judge: Judge) -> Form:
    """The failure form of a judge's table. Refused with 20 where it has no rule.

    The failure set of a set above 0 is, of the lower-numbered sets, the one with most equal cells, empty
    ones too, and of several the lowest; exactly the equal cells are left out. Set 0 keeps all.
    """
    result = lib.bellbadger_form(expect("form", "judge", judge, Judge)._state)
    if not result.accepted:
        raise Refused(result.refused)
    made = result.form
    kept = made.kept[: made.sets]
    cells = made.cells[: sum(map(members, kept))]
    return Form(made.symbols, made.failure[: made.sets], kept, (None if cell == _EMPTY else cell for cell in cells))


def table(form: Form) -> Tuple[Tuple[Optional[int], ...], ...]:
    """The table of a form: for each set a tuple of its cells, a set or None for the empty one.

    Refused with 40: there are not 1 to 512 sets and 1 to 16 symbols, a set above 0 has a failure set that
    is not below it, a cell of set 0 is left out, a mask has a bit for no symbol, or a kept cell names a set
    that does not exist.
    """
    expect("table", "form", form, Form)
    value = _Form(len(form.kept), form.symbols)
    value.failure[: len(form.failure)] = form.failure
    value.kept[: len(form.kept)] = form.kept
    value.cells[: len(form.cells)] = [_EMPTY if cell is None else cell for cell in form.cells]
    result = lib.bellbadger_form_back(value)
    if not result.accepted:
        raise Refused(result.refused)
    rows = (result.table.next[16 * t : 16 * t + form.symbols] for t in range(result.table.sets))
    return tuple(tuple(None if cell == _EMPTY else cell for cell in row) for row in rows)
