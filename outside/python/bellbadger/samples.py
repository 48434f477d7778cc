"""A sample trace of a rule, for its owner to look at.

    >>> from bellbadger import read
    >>> rule = read(bytes.fromhex("03020100000004000000160006001C0002001E0000000000000101000102"))
    >>> sample(ACCEPTED, rule)  # it accepts what ends in 0 1
    b'\\x00\\x01'
    >>> sample(REJECTED, rule)
    b''
"""

import ctypes
from typing import Optional

from ._arguments import one_of
from ._library import declare, lib
from .refusals import Refused
from .rules import CheckedRule, RawRule, raw

__all__ = ["ACCEPTED", "REJECTED", "sample"]

# what the text is to be: one that the rule accepts, or one of its symbols that it does not accept
ACCEPTED, REJECTED = 0, 1

_REFUSED, _TEXT = 0, 1


class _Sample(ctypes.Structure):
    _fields_ = [
        ("kind", ctypes.c_uint8),
        ("refused", ctypes.c_uint8),
        ("length", ctypes.c_uint16),
        ("text", ctypes.c_uint8 * 511),
    ]


declare("sample", _Sample, ctypes.c_uint8, RawRule)


def sample(wish: int, rule: CheckedRule) -> Optional[bytes]:
    """The shortest text that is as it is wished, and among the shortest the first by symbols; None where
    there is none. The empty text is one, and false in an `if`: ask `is None`. wish is ACCEPTED or REJECTED. The text has at most 511 bytes.

    Refused with 3, 4, 6, 8 as Judge.install is, then 35 (texts lead to more than 512 sets from the set of
    initial states, the empty set counted if reached). Another wish raises ValueError.
    """
    one_of("sample", "wish", wish, "ACCEPTED or REJECTED", (ACCEPTED, REJECTED))
    result = lib.bellbadger_sample(wish, raw("sample", "rule", rule))
    if result.kind == _REFUSED:
        raise Refused(result.refused)
    return bytes(result.text[: result.length]) if result.kind == _TEXT else None
