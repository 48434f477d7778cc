"""Where a trace went wrong, while chunks are still missing too: what Judge.diagnose and Judge.locate answer.

A trace is lost at a place when all places up to it have chunks and their texts, one behind the other, cannot
be continued by any text to one that the rule accepts; at the first such place. No chunk at a later place can
mend it: no verdict is yes until a chunk at that place or before it is withdrawn or superseded, or a board is
opened or a rule installed anew.

    >>> from bellbadger import Judge
    >>> judge = Judge()
    >>> judge.load(bytes.fromhex("03020100000002000000160004001A0004001E000400000101020002010000020102"))
    Loaded(sets=3, starts=2)
    >>> judge.open(3)  # the rule accepts 0, 0 1 0, 0 1 0 1 0 and so on
    >>> chunk = bytes([255, 1, 0, 0])  # an idle mark, and then 0 twice in a row
    >>> judge.deliver(1, 0, chunk)
    Looked(bytes=3)
    >>> judge.diagnose()
    Open(places=0)
    >>> judge.deliver(0, 0, bytes([0]))
    Looked(bytes=1)

Place 2 is empty still, and it is known already that there will be no yes:

    >>> judge.verdict()
    Waiting(places=1)
    >>> judge.diagnose()
    Lost(place=1)
    >>> judge.diagnose().is_lost
    True
    >>> judge.locate(1, chunk)
    4
    >>> judge.locate(1, bytes([1, 0])) is None
    True

Neither is a yes, so that neither has a truth value:

    >>> if judge.diagnose():
    ...     print("ship")
    Traceback (most recent call last):
    ...
    TypeError: a diagnosis, here Lost, is no truth value: write .is_lost behind it
"""

import ctypes
from dataclasses import dataclass
from typing import NoReturn, Optional, Union

from .refusals import Refused

__all__ = ["Lost", "Open"]

_REFUSED, _LOST = 0, 5


class _Diagnosis:
    @property
    def is_lost(self) -> bool:
        """Whether no chunk at a later place can make the verdict a yes. That it is not says nothing of a
        yes: whether to ship is for Judge.verdict to say."""
        return False

    def __bool__(self) -> NoReturn:
        raise TypeError(f"a diagnosis, here {type(self).__name__}, is no truth value: write .is_lost behind it")


@dataclass(frozen=True)
class Lost(_Diagnosis):
    """A diagnosis: the trace is lost at that place, counted from 0."""

    place: int

    @property
    def is_lost(self) -> bool:
        return True


@dataclass(frozen=True)
class Open(_Diagnosis):
    """A diagnosis: the trace is not lost so far; so many places have chunks before the first that has none.

    It may be lost by the next chunk, and one that is open with all its places may have stopped too early.
    """

    places: int


class RawDiagnosis(ctypes.Structure):
    _fields_ = [("kind", ctypes.c_uint8), ("number", ctypes.c_uint8)]


class RawSpot(ctypes.Structure):
    _fields_ = [("kind", ctypes.c_uint8), ("number", ctypes.c_uint32)]


def _answered(result):
    if result.kind == _REFUSED:
        raise Refused(result.number)
    return result.kind == _LOST


def diagnosis(result: RawDiagnosis) -> Union[Lost, Open]:
    return Lost(result.number) if _answered(result) else Open(result.number)


def spot(result: RawSpot) -> Optional[int]:
    return result.number if _answered(result) else None
