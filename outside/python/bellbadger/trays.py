"""A tray: rows of 1 to 16 events, each judged by one rule, and each column of them by another.

    >>> from bellbadger import read
    >>> ends_in_0_1 = read(bytes.fromhex("03020100000004000000160006001C0002001E0000000000000101000102"))
    >>> even_0s = read(bytes.fromhex("0202010000000100000012000400160004000001010000000101"))
    >>> tray = Tray()
    >>> tray.install_row(ends_in_0_1)
    Loaded(sets=5, starts=3)
    >>> tray.install_column(even_0s)
    Loaded(sets=2, starts=2)

Rows of two events, in two bands, which come in any order:

    >>> tray.open(2, 2)
    >>> tray.deliver(1, bytes([0, 1, 1, 1]))
    >>> tray.verdict()
    TrayWaiting(bands=1)
    >>> tray.deliver(0, bytes([0, 1]))
    >>> tray.verdict()
    TrayNo()
    >>> tray.deliver(1, bytes([0, 1]))
    Traceback (most recent call last):
    ...
    bellbadger.trays.TrayRefused: refused 22: the band is filled
    >>> tray.withdraw(1)
    >>> tray.deliver(1, bytes([0, 1]))
    >>> tray.verdict()
    TrayYes()

The columns are 0 0 and 1 1. With no rows at all each column is the empty text. A refused call raises
TrayRefused, which is a Refused with the words for a tray, and leaves the tray as it was.

Where a tray goes wrong is reported while bands are still missing too:

    >>> tray.fault()
    Open(bands=2)
    >>> tray.open(2, 3)
    >>> tray.deliver(2, bytes([0, 1, 1, 1]))
    >>> tray.verdict()
    TrayWaiting(bands=2)
    >>> tray.fault()
    Row(band=2, row=1)
    >>> tray.fault().is_fault
    True
    >>> tray.withdraw(2)
    >>> tray.fault()
    Open(bands=0)
    >>> for band in range(3):
    ...     tray.deliver(band, bytes([0, 1]))
    >>> tray.fault()  # the first column is 0 0 0, and would be right with one 0 more
    Short(column=0)

None is a yes, so that none has a truth value:

    >>> if tray.fault():
    ...     print("wrong")
    Traceback (most recent call last):
    ...
    TypeError: a fault, here Short, is no truth value: write .is_fault behind it
"""

import ctypes
from dataclasses import dataclass
from typing import NoReturn, Union

from ._arguments import Bytes, as_bytes, size
from ._library import DATA, declare, expect_size, lib
from ._verdicts import Verdict
from .judge import Loaded
from .refusals import Refused
from .rules import CheckedRule, RawRule, raw

__all__ = ["Tray", "TrayWaiting", "TrayYes", "TrayNo", "TrayRefused", "Row", "Column", "Short", "Open"]

# as outside/c/bellbadger_trays.h has it
_TRAY_SIZE = 12332
_WAITING, _YES, _NO = 1, 2, 3
_OPEN, _FAULT_ROW, _FAULT_COLUMN, _FAULT_SHORT = 6, 7, 8, 9

# where a tray has other words than a judge
_REASONS = {
    10: "the number of bands is not in 1..8",
    11: "the board has no such band",
    13: "a byte is no symbol of the row rule, or none of the column rule",
    20: "the row rule or the column rule is not there",
    22: "the band is filled",
    23: "the band is empty",
}


class TrayRefused(Refused):
    """A call of a tray was refused; the tray is as it was."""

    def __str__(self) -> str:
        reason = _REASONS.get(self.number)
        return f"refused {self.number}: {reason}" if reason else super().__str__()


@dataclass(frozen=True)
class TrayWaiting(Verdict):
    """A verdict: so many bands are empty."""

    bands: int


@dataclass(frozen=True)
class TrayYes(Verdict):
    """A verdict: every row and every column is accepted."""

    @property
    def is_yes(self) -> bool:
        return True


@dataclass(frozen=True)
class TrayNo(Verdict):
    """A verdict: some row or some column is not accepted."""


class _Fault:
    @property
    def is_fault(self) -> bool:
        """Whether something is wrong already. That it is not says nothing of a yes while bands are missing:
        whether to ship is for Tray.verdict to say."""
        return True

    def __bool__(self) -> NoReturn:
        raise TypeError(f"a fault, here {type(self).__name__}, is no truth value: write .is_fault behind it")


@dataclass(frozen=True)
class Row(_Fault):
    """A fault: the first standing row that the row rule does not accept, also behind an empty band. The rows of
    a band are counted from 0. No band that is delivered later mends it."""

    band: int
    row: int


@dataclass(frozen=True)
class Column(_Fault):
    """A fault: no row is wrong, and this is the first column that is lost over the bands before the first empty
    one, with the row by which it is: its events up to there cannot be continued by any others to a text that the
    column rule accepts. Of a column rule that accepts nothing all three are 0, whatever stands. No band that is
    delivered later mends it."""

    column: int
    band: int
    row: int


@dataclass(frozen=True)
class Short(_Fault):
    """A fault: all bands stand, no row is wrong and no column lost, and this is the first column that stopped
    too early: it is not accepted, though it could go on."""

    column: int


@dataclass(frozen=True)
class Open(_Fault):
    """No fault so far; so many bands stand before the first empty one. The tray may go wrong by the next band;
    where all bands stand the verdict is yes."""

    bands: int

    @property
    def is_fault(self) -> bool:
        return False


class _Board(ctypes.Structure):
    _fields_ = [
        ("width", ctypes.c_uint8),
        ("bands", ctypes.c_uint8),
        ("filled", ctypes.c_uint8 * 8),
        ("rows", ctypes.c_uint8 * 8),
        ("cells", ctypes.c_uint8 * 8192),
    ]


class _Tray(ctypes.Structure):
    _fields_ = [("row", RawRule), ("column", RawRule), ("board", _Board)]


class _Install(ctypes.Structure):
    _fields_ = [
        ("accepted", ctypes.c_uint8),
        ("refused", ctypes.c_uint8),
        ("sets", ctypes.c_uint16),
        ("starts", ctypes.c_uint8),
        ("tray", _Tray),
    ]


class _Change(ctypes.Structure):
    _fields_ = [("accepted", ctypes.c_uint8), ("refused", ctypes.c_uint8), ("tray", _Tray)]


class _Verdict(ctypes.Structure):
    _fields_ = [("kind", ctypes.c_uint8), ("number", ctypes.c_uint8)]


class _RawFault(ctypes.Structure):
    _fields_ = [(name, ctypes.c_uint8) for name in ("kind", "number", "column", "band", "row")]


expect_size("tray_size", _Tray, _TRAY_SIZE)
declare("tray_new", _Tray)
declare("tray_install_row", _Install, _Tray, RawRule)
declare("tray_install_column", _Install, _Tray, RawRule)
declare("tray_open", _Change, _Tray, ctypes.c_size_t, ctypes.c_size_t)
declare("tray_deliver", _Change, _Tray, ctypes.c_size_t, *DATA)
declare("tray_withdraw", _Change, _Tray, ctypes.c_size_t)
declare("tray_verdict", _Verdict, _Tray)
declare("tray_fault", _RawFault, _Tray)


class Tray:
    """A row rule, a column rule and a board of bands; at first none of them."""

    def __init__(self) -> None:
        self._tray = lib.bellbadger_tray_new()

    def __repr__(self) -> str:
        tray, board = self._tray, self._tray.board
        filled = sum(1 for mark in board.filled if mark)
        return (
            f"<Tray: row states {tray.row.n}, column states {tray.column.n}, width {board.width}, "
            f"bands {board.bands}, filled {filled}>"
        )

    def install_row(self, rule: CheckedRule) -> Loaded:
        """Checks and builds a rule for the rows; accepted, it replaces the former one and removes the
        board. Refused with 3, 4, 6, 8, 9."""
        return self._loaded(lib.bellbadger_tray_install_row(self._tray, raw("install_row", "rule", rule)))

    def install_column(self, rule: CheckedRule) -> Loaded:
        """The same for the columns."""
        return self._loaded(lib.bellbadger_tray_install_column(self._tray, raw("install_column", "rule", rule)))

    def open(self, width: int, bands: int) -> None:
        """A board of that many empty bands, for rows of that width; an earlier one is dropped. Refused
        with 20 (either rule is absent), 38, 10."""
        width, bands = size("open", "width", width), size("open", "bands", bands)
        self._change(lib.bellbadger_tray_open(self._tray, width, bands))

    def deliver(self, band: int, rows: Bytes) -> None:
        """Keeps rows, one behind the other, as a band, counted from 0; there may be none, and at most 64.
        There are no idle marks. Refused with 21, 11, 39, 13, 22."""
        data = as_bytes("deliver", "rows", rows)
        self._change(lib.bellbadger_tray_deliver(self._tray, size("deliver", "band", band), data, len(data)))

    def withdraw(self, band: int) -> None:
        """Empties a band. Refused with 21, 11, 23."""
        self._change(lib.bellbadger_tray_withdraw(self._tray, size("withdraw", "band", band)))

    def verdict(self) -> Union[TrayWaiting, TrayYes, TrayNo]:
        """TrayWaiting, TrayYes or TrayNo; changes nothing. Refused with 21. In an `if` write
        verdict().is_yes."""
        result = lib.bellbadger_tray_verdict(self._tray)
        if result.kind == _WAITING:
            return TrayWaiting(result.number)
        said = {_YES: TrayYes, _NO: TrayNo}
        if result.kind not in said:
            raise TrayRefused(result.number)
        return said[result.kind]()

    def fault(self) -> Union[Row, Column, Short, Open]:
        """Row, Column, Short or Open: where the tray goes wrong, while bands are still missing too; changes
        nothing. Refused with 21. In an `if` write fault().is_fault."""
        result = lib.bellbadger_tray_fault(self._tray)
        if result.kind == _FAULT_ROW:
            return Row(result.band, result.row)
        if result.kind == _FAULT_COLUMN:
            return Column(result.column, result.band, result.row)
        if result.kind == _FAULT_SHORT:
            return Short(result.column)
        if result.kind == _OPEN:
            return Open(result.number)
        raise TrayRefused(result.number)

    def _loaded(self, result):
        self._change(result)
        return Loaded(result.sets, result.starts)

    def _change(self, result):
        if not result.accepted:
            raise TrayRefused(result.refused)
        self._tray = result.tray
