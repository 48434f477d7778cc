"""Made test texts: the same k, seed and length make the same text everywhere.

    >>> make_text(16, 1, 8)
    b'\\x01\\x01\\t\\x05\\x05\\x01\\x01\\r'
    >>> make_text(16, 0, 8)
    Traceback (most recent call last):
    ...
    bellbadger.refusals.Refused: refused 41: the seed is 0
"""

import ctypes

from ._arguments import fitting, size
from ._library import DATA, declare, lib
from .refusals import Refused

__all__ = ["make_text"]


class _Made(ctypes.Structure):
    _fields_ = [("accepted", ctypes.c_uint8), ("refused", ctypes.c_uint8)]


declare("make_text", _Made, ctypes.c_size_t, ctypes.c_uint64, *DATA)


def make_text(k: int, seed: int, length: int) -> bytes:
    """A text of so many symbols below k, by Marsaglia's 64-bit xorshift with shifts 13 left, 7 right, 17
    left from the seed; each new value modulo k is a symbol.

    Refused with 4 (k is not 1 to 16), then with 41 (the seed is 0). A seed over 64 bits and a length
    below 0 or over 63 bits are a ValueError.
    """
    k, seed = size("make_text", "k", k), fitting("make_text", "seed", seed, 64)
    text = ctypes.create_string_buffer(fitting("make_text", "length", length, 63))
    result = lib.bellbadger_make_text(k, seed, text, len(text))
    if not result.accepted:
        raise Refused(result.refused)
    return text.raw
