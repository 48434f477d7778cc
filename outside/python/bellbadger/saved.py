"""A judge as bytes, and back: what Judge.save and Judge.restore answer.

    >>> from bellbadger import Judge
    >>> judge = Judge()
    >>> judge.load(bytes.fromhex("03020100000004000000160006001C0002001E0000000000000101000102"))
    Loaded(sets=5, starts=3)
    >>> judge.open(2)
    >>> judge.deliver(0, 0, bytes([0]))
    Looked(bytes=1)
    >>> saved = judge.save()
    >>> len(saved) == SAVED_SIZE, saved[:3]
    (True, b'BBJ')

Later, elsewhere, calls on the judge that is had back are answered as they would have been:

    >>> judge = Judge.restore(saved)
    >>> judge.deliver(1, 0, bytes([1]))
    Looked(bytes=1)
    >>> judge.verdict().is_yes
    True

Bytes that were cut or altered are told by their length and by the digest at their end, which is no seal: whoever
wants to can make bytes that are accepted.

    >>> Judge.restore(saved[:-1])
    Traceback (most recent call last):
    ...
    bellbadger.refusals.Refused: refused 46: the saved judge is cut, altered or of another version
"""

import ctypes

__all__ = ["SAVED_SIZE"]

# how many bytes a saved judge has
SAVED_SIZE = 27838


class RawSaved(ctypes.Structure):
    _fields_ = [("bytes", ctypes.c_uint8 * SAVED_SIZE)]
