"""A judge: one rule and one board."""

import ctypes
from dataclasses import dataclass
from typing import Optional, Union

from ._arguments import Bytes, as_bytes, fitting, size, whole
from ._library import DATA, declare, expect_size, lib
from ._verdicts import Verdict
from .losses import Lost, Open, RawDiagnosis, RawSpot, diagnosis, spot
from .refusals import Malformed, Refused
from .rules import CheckedRule, RawRule, raw
from .saved import RawSaved
from .summaries import RawSummarized, RawSummary, Summary, raw_summary, summarized

__all__ = ["Judge", "Loaded", "Looked", "Waiting", "Yes", "No", "replay"]

# as outside/c/bellbadger.h has it
_STATE_SIZE = 27832
_WAITING, _YES, _NO, _MALFORMED = 1, 2, 3, 4


@dataclass(frozen=True)
class Loaded:
    """What an accepted load or installation tells of the rule: how many sets and starts (M) there are.

    Of the states from which a final state can be reached, those that accept the same texts have one
    start together. M is 0 where the rule has no final state.
    """

    sets: int
    starts: int


@dataclass(frozen=True)
class Looked:
    """What an accepted delivery tells of the run: for how many bytes of the text any successor was
    looked up, the least number of them after which every run has died, else all; 0 where nothing is
    run."""

    bytes: int


@dataclass(frozen=True)
class Waiting(Verdict):
    """A verdict: so many places are empty."""

    places: int


@dataclass(frozen=True)
class _Counted(Verdict):
    count: int
    bytes: int
    quotient: int
    remainder: int


class Yes(_Counted):
    """A verdict: the trace keeps to the rule.

    count == quotient * bytes + remainder, where bytes is the length of the text and the remainder is
    below it; quotient and remainder are 0 for a text of 0 bytes.
    """

    @property
    def is_yes(self) -> bool:
        return True


class No(_Counted):
    """A verdict: the trace does not keep to the rule; the numbers are as for Yes."""


class _BuiltRule(ctypes.Structure):
    _fields_ = [
        ("n", ctypes.c_uint8),
        ("k", ctypes.c_uint8),
        ("starts", ctypes.c_uint8),
        ("count", ctypes.c_uint16),
        ("initials", ctypes.c_uint32),
        ("finals", ctypes.c_uint32),
        ("delegates", ctypes.c_uint8 * 32),
        ("singles", ctypes.c_uint16 * 32),
        ("sets", ctypes.c_uint32 * 512),
        ("next", ctypes.c_uint16 * 8192),
    ]


class _Board(ctypes.Structure):
    _fields_ = [
        ("places", ctypes.c_uint8),
        ("filled", ctypes.c_uint8 * 64),
        ("counts", ctypes.c_uint32 * 64),
        ("lengths", ctypes.c_uint32 * 64),
        ("revisions", ctypes.c_uint64 * 64),
        ("ends", ctypes.c_uint32 * 2048),
    ]


class RawState(ctypes.Structure):
    _fields_ = [("rule", _BuiltRule), ("board", _Board)]


class _Install(ctypes.Structure):
    _fields_ = [
        ("accepted", ctypes.c_uint8),
        ("refused", ctypes.c_uint8),
        ("sets", ctypes.c_uint16),
        ("starts", ctypes.c_uint8),
        ("state", RawState),
    ]


class _Change(ctypes.Structure):
    _fields_ = [("accepted", ctypes.c_uint8), ("refused", ctypes.c_uint8), ("state", RawState)]


class _Delivery(ctypes.Structure):
    _fields_ = [
        ("accepted", ctypes.c_uint8),
        ("refused", ctypes.c_uint8),
        ("looked", ctypes.c_uint32),
        ("state", RawState),
    ]


class _Verdict(ctypes.Structure):
    _fields_ = [
        ("kind", ctypes.c_uint8),
        ("number", ctypes.c_uint64),
        ("bytes", ctypes.c_uint64),
        ("quotient", ctypes.c_uint64),
        ("remainder", ctypes.c_uint64),
    ]


expect_size("state_size", RawState, _STATE_SIZE)
declare("new", RawState)
declare("install", _Install, RawState, RawRule)
declare("load", _Install, RawState, *DATA)
declare("open", _Change, RawState, ctypes.c_size_t)
declare("deliver", _Delivery, RawState, ctypes.c_size_t, ctypes.c_uint32, *DATA)
declare("withdraw", _Change, RawState, ctypes.c_size_t)
declare("verdict", _Verdict, RawState)
declare("save", RawSaved, RawState)
declare("restore", _Change, *DATA)
declare("diagnose", RawDiagnosis, RawState)
declare("locate", RawSpot, RawState, ctypes.c_size_t, *DATA)
declare("summarize", RawSummarized, RawState, ctypes.c_uint64, *DATA)
declare("summary_conclude", _Verdict, RawState, RawSummary, ctypes.c_uint64)
declare("replay", _Verdict, *DATA)


def _verdict(result):
    if result.kind == _WAITING:
        return Waiting(result.number)
    counted = {_YES: Yes, _NO: No}
    if result.kind not in counted:
        raise Refused(result.number)
    return counted[result.kind](result.number, result.bytes, result.quotient, result.remainder)


class Judge:
    """One rule and one board; at first none."""

    def __init__(self) -> None:
        self._state = lib.bellbadger_new()

    def __repr__(self) -> str:
        rule, board = self._state.rule, self._state.board
        filled = sum(1 for mark in board.filled if mark)
        return (
            f"<Judge: states {rule.n}, symbols {rule.k}, sets {rule.count}, starts {rule.starts}, "
            f"places {board.places}, filled {filled}>"
        )

    def install(self, rule: CheckedRule) -> Loaded:
        """Checks and builds a rule; accepted, it replaces the former one and removes the board.

        Refused with 3, 4, 6, 8, 9.
        """
        return self._loaded(lib.bellbadger_install(self._state, raw("install", "rule", rule)))

    def load(self, file: Bytes) -> Loaded:
        """Reads a rule file and installs the rule in it. Refused with 1 to 8, then with 9."""
        data = as_bytes("load", "file", file)
        return self._loaded(lib.bellbadger_load(self._state, data, len(data)))

    def open(self, places: int) -> None:
        """A board of that many empty places; an earlier one is dropped. Refused with 20, 10."""
        self._change(lib.bellbadger_open(self._state, size("open", "places", places)))

    def deliver(self, place: int, revision: int, chunk: Bytes) -> Looked:
        """Runs a chunk and keeps its end sets, count, length and revision at the place, counted from 0.

        The revision is a number below 2**32, else ValueError is raised. A greater one than the last
        accepted at the place replaces what stands there; any other is refused with 22, even after a
        withdrawal. A place that had none since the opening takes any.

        Byte 255 is an idle mark: it is skipped and is no part of the text, but counts in the
        limit of 65,536 bytes. Refused with 21, 11, 12, 13, 22.
        """
        data = as_bytes("deliver", "chunk", chunk)
        place, revision = size("deliver", "place", place), fitting("deliver", "revision", revision, 32)
        result = lib.bellbadger_deliver(self._state, place, revision, data, len(data))
        self._change(result)
        return Looked(result.looked)

    def withdraw(self, place: int) -> None:
        """Empties a place. Refused with 21, 11, 23."""
        self._change(lib.bellbadger_withdraw(self._state, size("withdraw", "place", place)))

    def verdict(self) -> Union[Waiting, Yes, No]:
        """Waiting, Yes or No; changes nothing. Refused with 21. In an `if` write verdict().is_yes."""
        return _verdict(lib.bellbadger_verdict(self._state))

    def diagnose(self) -> Union[Lost, Open]:
        """losses.Lost with the place at which the trace is lost, or losses.Open with how many places have
        chunks before the first that has none; changes nothing. Refused with 21."""
        return diagnosis(lib.bellbadger_diagnose(self._state))

    def locate(self, place: int, chunk: Bytes) -> Optional[int]:
        """The least number of the chunk's bytes after which the trace is lost, were this the chunk at the
        place; None, which is no yes, where it is lost after none of them. Changes nothing.

        Idle marks are counted: a position is one of the bytes that are handed in. A number b above 0 says
        that by chunk[b - 1], an event and no idle mark, the trace was lost; 0 that it is lost before the
        chunk begins, at an earlier place or because the rule accepts nothing. 0 is false in an `if`, as
        None is: ask `is None`.

        Refused with 21, 11, 12, 13, and 23 where a place before it has no chunk.
        """
        data = as_bytes("locate", "chunk", chunk)
        return spot(lib.bellbadger_locate(self._state, size("locate", "place", place), data, len(data)))

    def save(self) -> bytes:
        """The judge as bytes, saved.SAVED_SIZE of them, whatever stands in it; changes nothing."""
        return bytes(lib.bellbadger_save(self._state).bytes)

    @classmethod
    def restore(cls, data: Bytes) -> "Judge":
        """The judge that was saved as the bytes, which may be any: calls on it are answered as on the one that was
        saved. Refused with 46 where they are cut, altered or of another version."""
        given = as_bytes("restore", "data", data)
        result = lib.bellbadger_restore(given, len(given))
        if not result.accepted:
            raise Refused(result.refused)
        judge = cls()
        judge._state = result.state
        return judge

    def summarize(self, number: int, chunk: Bytes) -> Summary:
        """The summaries.Summary of the chunk with that number, below 2**64: chunks of a trace are numbered from 0 on.
        No board is needed, and nothing changes.

        Chunk 0 is run as at place 0 of a board, every other as at another place. Byte 255 is an idle mark, as in a
        delivery. No chunk can follow number 2**64 - 1, whose summary is broken. Refused with 20, 12, 13.
        """
        data = as_bytes("summarize", "chunk", chunk)
        number = fitting("summarize", "number", number, 64)
        return summarized(lib.bellbadger_summarize(self._state, number, data, len(data)))

    def conclude(self, summary: Summary, chunks: int) -> Union[Waiting, Yes, No]:
        """The verdict on a trace of so many chunks, of which this is the summary: Yes or No, as a filled board with
        these chunks has it. No board is needed, and nothing changes. In an `if` write conclude(..).is_yes.

        Refused with 20; 42, where the summary is broken or does not begin with chunk 0; 43, where it is by another
        rule; 44, where it does not end with the last chunk, or there is none. An empty trace has one empty chunk.
        """
        summary, chunks = raw_summary("conclude", "summary", summary), whole("conclude", "chunks", chunks)
        # what C has no number for is as many chunks as none: 44
        return _verdict(lib.bellbadger_summary_conclude(self._state, summary, chunks if 0 <= chunks < 2**64 else 0))

    def _loaded(self, result):
        self._change(result)
        return Loaded(result.sets, result.starts)

    def _change(self, result):
        if not result.accepted:
            raise Refused(result.refused)
        self._state = result.state


def replay(text: Bytes) -> Union[Waiting, Yes, No]:
    """Runs the calls that a text of bytes records on a fresh judge: the verdict after them.

    A line is `load HEX`, `install HEX`, `open N`, `deliver P REVISION HEX`, `withdraw P` or
    `verdict`, with exactly one space between fields; an empty line begins a fresh judge. HEX of an installation is
    the 2,058 bytes of a rule by value. A recorded call that is refused changes nothing, and the next
    line is run. Raises Malformed for the first line that is no call,
    Refused with 21 where no board is open at the end. In an `if` write replay(text).is_yes.
    """
    data = as_bytes("replay", "text", text)
    result = lib.bellbadger_replay(data, len(data))
    if result.kind == _MALFORMED:
        raise Malformed(result.number)
    return _verdict(result)
