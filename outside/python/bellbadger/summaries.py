"""Summaries: chunks run one by one, on whatever machines, and put together afterwards, for every rule that a judge
takes and traces of any length.

Each chunk of a trace has a number, from 0 on. Judge.summarize makes its summary where the chunk is, by a judge with
the rule and no board; a summary is a value of 169 bytes, and the chunk need not travel. Summaries of neighbours
combine to that of both, in any bracketing, without a rule. Judge.conclude says of the last one what a filled board
with these chunks would say, every field, also of more chunks than a board takes.

    >>> from bellbadger import Judge
    >>> from bellbadger.summaries import combine
    >>> judge = Judge()
    >>> judge.load(bytes.fromhex("03020100000004000000160006001C0002001E0000000000000101000102"))
    Loaded(sets=5, starts=3)
    >>> later = judge.summarize(1, bytes([1]))  # chunks come out of order
    >>> earlier = judge.summarize(0, bytes([0, 255]))  # 255 is an idle mark
    >>> whole = combine(earlier, later)
    >>> whole
    <Summary: chunks 0 to 1, count 3, bytes 2>
    >>> judge.conclude(whole, 2)
    Yes(count=3, bytes=2, quotient=1, remainder=1)
    >>> judge.conclude(whole, 2).is_yes
    True

A chunk that is lost, doubled or out of its order ends in a refusal and never in a wrong yes, where the number of
chunks is said from what is known of the trace, and not from the summary. A summary by another rule is recognised by the
rule's digest, and refused; two rules that differ have the same digest only by chance.

    >>> judge.conclude(combine(later, earlier), 2)
    Traceback (most recent call last):
    ...
    bellbadger.refusals.Refused: refused 42: the summary is broken, or does not begin with chunk 0
    >>> judge.conclude(whole, 3)
    Traceback (most recent call last):
    ...
    bellbadger.refusals.Refused: refused 44: the summary does not end with the last chunk, or there is none

As bytes it can be sent or kept, and pickling does so too, with the name of what reads them:

    >>> len(whole.to_bytes())
    169
    >>> Summary.from_bytes(whole.to_bytes()) == whole
    True
    >>> import pickle
    >>> len(pickle.dumps(whole, protocol=5))
    263

All this is a guard against mistakes and not against attackers: whoever makes up the numbers of a summary can have any
verdict.
"""

import builtins
import ctypes
import struct
from dataclasses import dataclass
from typing import NoReturn, Tuple

from ._arguments import Bytes, all_fitting, as_bytes, expect, fitting
from ._library import declare, expect_size, lib
from .refusals import Refused

__all__ = ["Summary", "combine"]

# as outside/c/bellbadger_summaries.h has it; without the gap at the end, as bytes that travel
_SUMMARY_SIZE = 176
_LAYOUT = struct.Struct("<32I5QB")
_NUMBERS = ("count", "bytes", "rule", "first", "end")


@dataclass(frozen=True, repr=False)
class Summary:
    """What chunks that follow one another come to: what Judge.summarize and combine answer.

    leads[q], of 32: the mask of the delegates of the members of state q's end set, 0 where q was not run. count and
    bytes: those of a verdict; 2**64 - 1 says that many or more. rule: a digest of the rule as it was built, a guard
    against mistakes and not against attackers. first: the number of the first chunk; end: the number behind the last.
    broken: 0, or any other number where the chunks are not neighbours in their order, not of one rule, or one was
    refused.
    """

    leads: Tuple[int, ...]
    count: int
    bytes: int
    rule: int
    first: int
    end: int
    broken: int = 0

    def __post_init__(self) -> None:
        object.__setattr__(self, "leads", all_fitting("Summary", "leads", self.leads, 32))
        if len(self.leads) != 32:
            raise ValueError(f"Summary: leads must be 32 masks, not {len(self.leads)}")
        for name in _NUMBERS:
            object.__setattr__(self, name, fitting("Summary", name, getattr(self, name), 64))
        object.__setattr__(self, "broken", fitting("Summary", "broken", self.broken, 8))

    def __repr__(self) -> str:
        chunks = f"chunks {self.first} to {self.end - 1}" if self.end > self.first else f"first {self.first}, end {self.end}"
        return f"<Summary: {chunks}, count {self.count}, bytes {self.bytes}{', broken' if self.is_broken else ''}>"

    def __bool__(self) -> NoReturn:
        raise TypeError("a summary is no truth value: what Judge.conclude says of it has .is_yes")

    @property
    def is_broken(self) -> bool:
        """Whether it will not be concluded, whatever it is combined with."""
        return self.broken != 0

    def to_bytes(self) -> builtins.bytes:
        """The summary as 169 bytes, little-endian and without gaps: the 32 masks of leads, of 4 bytes each; count,
        bytes, rule, first and end, of 8 each; broken, 1 byte."""
        return _LAYOUT.pack(*self.leads, *(getattr(self, name) for name in _NUMBERS), self.broken)

    @classmethod
    def from_bytes(cls, data: Bytes) -> "Summary":
        """The summary that to_bytes made the bytes of; any 169 bytes are one."""
        data = as_bytes("from_bytes", "data", data)
        if len(data) != _LAYOUT.size:
            raise ValueError(f"from_bytes: data must be {_LAYOUT.size} bytes, not {len(data)}")
        numbers = _LAYOUT.unpack(data)
        return cls(numbers[:32], *numbers[32:])

    def __reduce__(self):
        return Summary.from_bytes, (self.to_bytes(),)


class RawSummary(ctypes.Structure):
    _fields_ = [("leads", ctypes.c_uint32 * 32), *((name, ctypes.c_uint64) for name in _NUMBERS), ("broken", ctypes.c_uint8)]


class RawSummarized(ctypes.Structure):
    _fields_ = [("accepted", ctypes.c_uint8), ("refused", ctypes.c_uint8), ("summary", RawSummary)]


expect_size("summary_size", RawSummary, _SUMMARY_SIZE)
declare("summary_combine", RawSummary, RawSummary, RawSummary)


def raw_summary(call, name, summary):
    """A summary for C."""
    return RawSummary.from_buffer_copy(expect(call, name, summary, Summary).to_bytes().ljust(_SUMMARY_SIZE, b"\0"))


def _summary(result):
    return Summary.from_bytes(bytes(result)[: _LAYOUT.size])


def summarized(result):
    if not result.accepted:
        raise Refused(result.refused)
    return _summary(result.summary)


def combine(earlier: Summary, later: Summary) -> Summary:
    """The summary of chunks, and of those that follow them. Any two combine, in any bracketing; the order matters. It
    is broken where one of the two is, where the later does not begin where the earlier ends, and where they are by
    two rules."""
    earlier, later = raw_summary("combine", "earlier", earlier), raw_summary("combine", "later", later)
    return _summary(lib.bellbadger_summary_combine(earlier, later))
