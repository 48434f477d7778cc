"""A trace that comes in order, of any length, followed chunk by chunk: whether it keeps to the rule so far,
where it was lost, and what could come next.

    >>> from bellbadger import read
    >>> from bellbadger.patterns import rule_file
    >>> rule = read(rule_file("ab*c"))
    >>> follower = Follower(rule)
    >>> follower.follow(bytes([0, 255, 1]))  # 255 is an idle mark
    Followed(is_accepted_so_far=False, lost_at=None, expected=(1, 2), complete=False)
    >>> follower.follow(bytes([2])).is_accepted_so_far
    True

What comes behind the end loses the trace, and whatever follows then, it stays so:

    >>> lost = follower.follow(bytes([255, 1, 2]))
    >>> lost.is_lost, lost.lost_at, lost.expected, lost.complete
    (True, 2, (), True)
    >>> follower.follow(bytes([2])).lost_at
    0

A chunk that is refused leaves a hole, and what comes behind a hole may well look good. So a refusal stands: every
later chunk is refused with the same number, until the chunk is dropped, or another trace begun.

    >>> follower.begin()
    >>> follower.follow(bytes([0])).is_accepted_so_far
    False
    >>> follower.follow(bytes([1, 16]))
    Traceback (most recent call last):
    ...
    bellbadger.refusals.Refused: refused 13: a byte is no symbol of the rule and no idle mark
    >>> follower.follow(bytes([2]))
    Traceback (most recent call last):
    ...
    bellbadger.refusals.Refused: refused 13: a byte is no symbol of the rule and no idle mark
    >>> follower.refused
    13
    >>> follower.drop_refused()
    >>> follower.follow(bytes([1, 2])).is_accepted_so_far  # the chunk as it was meant
    True

Every other exception leaves a hole too, and stands likewise:

    >>> follower.begin()
    >>> follower.follow("0")
    Traceback (most recent call last):
    ...
    TypeError: follow: chunk must be bytes, not str
    >>> follower.follow(bytes([0]))
    Traceback (most recent call last):
    ...
    RuntimeError: follow: an earlier call ended in TypeError: first drop_refused() or begin()
    >>> follower.refused
    'TypeError'
    >>> follower.drop_refused()
    >>> follower.follow(bytes([0, 2])).is_accepted_so_far
    True

A trace is good exactly where no call of follow ended in an exception and the last answer says is_accepted_so_far. That a
chunk was taken says nothing of that, so an answer is no truth value:

    >>> if follower.follow(b""):
    ...     print("ship")
    Traceback (most recent call last):
    ...
    TypeError: a followed chunk is no truth value: write .is_accepted_so_far behind it
"""

import ctypes
from dataclasses import dataclass
from typing import NoReturn, Optional, Tuple, Union

from ._arguments import Bytes, as_bytes
from ._library import DATA, declare, expect_size, lib
from .refusals import Refused
from .rules import CheckedRule, RawRule, members, raw

__all__ = ["Followed", "Follower"]

# as outside/c/bellbadger_follow.h has it
_FOLLOWER_SIZE = 2064


class _Follower(ctypes.Structure):
    _fields_ = [("rule", RawRule), ("live", ctypes.c_uint32)]


class _Prepared(ctypes.Structure):
    _fields_ = [("accepted", ctypes.c_uint8), ("refused", ctypes.c_uint8), ("follower", _Follower)]


class _Followed(ctypes.Structure):
    _fields_ = [
        ("accepted", ctypes.c_uint8),
        ("refused", ctypes.c_uint8),
        ("ends", ctypes.c_uint8),
        ("lost", ctypes.c_uint8),
        ("at", ctypes.c_uint32),
        ("set", ctypes.c_uint32),
        ("expected", ctypes.c_uint16),
        ("complete", ctypes.c_uint8),
    ]


expect_size("follower_size", _Follower, _FOLLOWER_SIZE)
declare("follower_prepare", _Prepared, RawRule)
declare("follow_by", _Followed, _Follower, ctypes.c_uint32, *DATA)


@dataclass(frozen=True)
class Followed:
    """What a chunk that was taken tells of the trace.

    is_accepted_so_far: whether the rule accepts all that came, up to the end of this chunk; the yes or no of a
    filled board with the same chunks. Chunks that were refused and dropped are no part of it.
    lost_at: None, or the least number of bytes of this chunk, idle marks counted, after which the rule will not
    accept the trace whatever comes. It is 0, which is false in an `if`, where that was so before the chunk: ask
    is_lost.
    expected: the symbols that could come next, the lowest first; of a lost trace those that could have stood in
    the place of the byte by which it was lost.
    complete: whether the trace could have ended before that byte, or can end here where it is not lost. It is no
    verdict: a lost trace has it too.
    """

    is_accepted_so_far: bool
    lost_at: Optional[int]
    expected: Tuple[int, ...]
    complete: bool

    @property
    def is_lost(self) -> bool:
        """Whether the rule will not accept the trace, whatever comes."""
        return self.lost_at is not None

    def __bool__(self) -> NoReturn:
        raise TypeError("a followed chunk is no truth value: write .is_accepted_so_far behind it")


class Follower:
    """A rule that is checked once, and the states that the trace has led to, first the initial ones. Refused with
    3, 4, 6, 8. A rule of over 512 sets is taken. Each trace has a follower of its own, or begins it anew."""

    def __init__(self, rule: CheckedRule) -> None:
        prepared = lib.bellbadger_follower_prepare(raw("Follower", "rule", rule))
        if not prepared.accepted:
            raise Refused(prepared.refused)
        self._follower = prepared.follower
        self.begin()

    def __repr__(self) -> str:
        rule = self._follower.rule
        refused = "" if self._refused is None else f", refused {self._refused}"
        return f"<Follower: states {rule.n}, symbols {rule.k}, reached {members(self._set)}{refused}>"

    def begin(self) -> None:
        """Begins another trace, with the initial states; no refusal and no other exception stands any more."""
        self._set, self._refused = self._follower.rule.initials, None

    @property
    def refused(self) -> Union[int, str, None]:
        """The number with which a chunk was refused, and with it each later one; or the name of another exception in
        which follow ended; None where neither was."""
        return self._refused

    def drop_refused(self) -> None:
        """Leaves out the chunk that was refused, or by which follow ended in another exception, so that the trace goes
        on behind the last one that was taken. Where the chunk was a part of the trace, hand it in as it was meant, or
        the trace has a hole that nobody sees."""
        self._refused = None

    def follow(self, chunk: Bytes) -> Followed:
        """Follows the next chunk: a Followed. Byte 255 is an idle mark, as in a delivery. An empty chunk changes
        nothing, and is answered too. Refused with 12, 13: the chunk is then no part of the trace, and every later
        one is refused with the same number, until drop_refused or begin.

        So it is with every exception, as TypeError where the chunk is no bytes: the chunk is no part of the trace, and
        every later call raises, RuntimeError where the first one was no refusal, until drop_refused or begin."""
        try:
            return self._followed(as_bytes("follow", "chunk", chunk))
        except BaseException as raised:
            # what stands is the first one
            if self._refused is None:
                self._refused = raised.number if isinstance(raised, Refused) else type(raised).__name__
            raise

    def _followed(self, data):
        if isinstance(self._refused, str):
            raise RuntimeError(f"follow: an earlier call ended in {self._refused}: first drop_refused() or begin()")
        if self._refused is not None:
            raise Refused(self._refused)
        result = lib.bellbadger_follow_by(self._follower, self._set, data, len(data))
        if not result.accepted:
            raise Refused(result.refused)
        expected = tuple(symbol for symbol in range(16) if result.expected >> symbol & 1)
        followed = Followed(result.ends == 1, result.at if result.lost else None, expected, result.complete == 1)
        self._set = result.set
        return followed
