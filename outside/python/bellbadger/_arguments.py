"""What a caller hands in, made ready for C. Each error names the function that was called and the
argument."""

import operator
from typing import Union

# what a file, a chunk or a text may be
Bytes = Union[bytes, bytearray, memoryview]

_LARGEST_SIZE = 2**64 - 1


def _wrong_type(call, name, due, value):
    return TypeError(f"{call}: {name} must be {due}, not {type(value).__name__}")


def _shown(number):
    return str(number) if number.bit_length() <= 128 else f"a number of {number.bit_length()} bits"


def whole(call, name, value):
    """Any whole number."""
    try:
        return int(operator.index(value))
    except TypeError:
        raise _wrong_type(call, name, "a whole number", value) from None


def fitting(call, name, value, bits):
    """A whole number that C does not cut."""
    number = whole(call, name, value)
    if not 0 <= number < 2**bits:
        raise ValueError(f"{call}: {name} must be 0 to {2**bits - 1}, not {_shown(number)}")
    return number


def all_fitting(call, name, values, bits, or_none=False):
    """A tuple of such numbers; None may stand among them where that is said."""
    try:
        values = tuple(values)
    except TypeError:
        raise _wrong_type(call, name, "a sequence", values) from None
    absent = lambda value: or_none and value is None
    return tuple(value if absent(value) else fitting(call, f"{name}[{at}]", value, bits) for at, value in enumerate(values))


def one_of(call, name, value, words, numbers):
    """One of a few numbers, which have names."""
    if not isinstance(value, int) or isinstance(value, bool) or value not in numbers:
        raise ValueError(f"{call}: {name} must be {words}, not {value!r:.40}")
    return value


def size(call, name, value):
    """A number for C. One that C has no size for fits no board: nor does what stands for it."""
    number = whole(call, name, value)
    return number if 0 <= number <= _LARGEST_SIZE else _LARGEST_SIZE


def as_bytes(call, name, value, due="bytes"):
    """The bytes of anything that is made of bytes; a str, a number and a list are none."""
    try:
        view = memoryview(value)
    except TypeError:
        raise _wrong_type(call, name, due, value) from None
    if view.itemsize != 1:
        raise TypeError(f"{call}: {name} must be {due}, not items of {view.itemsize} bytes")
    return view.tobytes()


def expect(call, name, value, kind):
    """Sees to it that the value is one of this package's."""
    if not isinstance(value, kind):
        raise _wrong_type(call, name, f"a {kind.__name__}", value)
    return value
