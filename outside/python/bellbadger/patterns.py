"""Patterns for shop owners: a pattern becomes a rule file.

    >>> from bellbadger import Judge
    >>> judge = Judge()
    >>> judge.load(rule_file("(ab)*c"))
    Loaded(sets=4, starts=3)
    >>> judge.open(1)
    >>> judge.deliver(0, 0, bytes([0, 1, 0, 1, 2]))
    Looked(bytes=5)
    >>> judge.verdict()
    Yes(count=5, bytes=5, quotient=1, remainder=0)
    >>> rule_file("*c")
    Traceback (most recent call last):
    ...
    bellbadger.refusals.Refused: refused 31: the bytes are no pattern

A letter a to p is the symbol 0 to 15; what stands side by side follows each other; x|y is x or y; x*
is x any number of times; brackets join. `|` binds loosest and `*` tightest. An empty alternative,
pattern or bracket is the empty text.
"""

import ctypes
from typing import Union

from ._arguments import Bytes, as_bytes
from ._library import DATA, declare, lib
from .refusals import Refused

__all__ = ["LONGEST_FILE", "rule_file"]

# the most bytes of a pattern's rule file
LONGEST_FILE = 2122


class _Pattern(ctypes.Structure):
    _fields_ = [
        ("accepted", ctypes.c_uint8),
        ("refused", ctypes.c_uint8),
        ("length", ctypes.c_uint16),
        ("bytes", ctypes.c_uint8 * LONGEST_FILE),
    ]


declare("pattern", _Pattern, *DATA)


def rule_file(pattern: Union[str, Bytes]) -> bytes:
    """The rule file of a pattern, a str or bytes, for bellbadger.read and Judge.load.

    The rule accepts exactly the pattern's texts: state 0 is its start, state i the i-th letter from
    the left, and it has 16 symbols. Refused with 30 (over 128 bytes; those of a str are of its UTF-8),
    31 (no pattern), 32 (more than 31 letters).
    """
    text = pattern.encode("utf-8", "surrogatepass") if isinstance(pattern, str) else pattern
    data = as_bytes("rule_file", "pattern", text, "str or bytes")
    result = lib.bellbadger_pattern(data, len(data))
    if not result.accepted:
        raise Refused(result.refused)
    return bytes(result.bytes[: result.length])
