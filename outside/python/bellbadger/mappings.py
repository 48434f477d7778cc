"""The mapping machine: chunks run one by one, on whatever machines, and put together afterwards.

It is for rules of at most eight states with at most 512 mappings. A profile is built once from a rule that
bellbadger.read answers; a run answers the chunk's mapping, eight bytes, the set of states to which the
chunk's text leads from each state; mappings compose in order of the chunks, in any bracketing; and the
last one has the yes or no that a filled board with these chunks has.

    >>> from bellbadger import read
    >>> rule = read(bytes.fromhex("03020100000004000000160006001C0002001E0000000000000101000102"))
    >>> profile = Profile(rule)
    >>> profile
    <Profile: states 3, symbols 2, mappings 5>
    >>> later = profile.run(bytes([1]))
    >>> earlier = profile.run(bytes([0, 255]))
    >>> compose(earlier, later).hex()
    '0500000000000000'
    >>> profile.accepts(compose(earlier, later))
    True
    >>> profile.accepts(compose(later, earlier))
    False
    >>> profile.run(bytes([2]))
    Traceback (most recent call last):
    ...
    bellbadger.refusals.Refused: refused 13: a byte is no symbol of the rule and no idle mark

A mapping is eight bytes, and any eight bytes are one: byte q is the mask of the states that state q is
mapped to. That of a chunk is 0 from the rule's n on.
"""

import ctypes

from ._arguments import Bytes, as_bytes
from ._library import DATA, declare, expect_size, lib
from .refusals import Refused
from .rules import CheckedRule, RawRule, raw

__all__ = ["Profile", "compose"]

# as outside/c/bellbadger_mappings.h has it
_PROFILE_SIZE = 20488


class _Mapping(ctypes.Structure):
    _fields_ = [("masks", ctypes.c_uint8 * 8)]


class _Profile(ctypes.Structure):
    _fields_ = [
        ("n", ctypes.c_uint8),
        ("k", ctypes.c_uint8),
        ("initials", ctypes.c_uint8),
        ("finals", ctypes.c_uint8),
        ("count", ctypes.c_uint16),
        ("mappings", ctypes.c_uint64 * 512),
        ("next", ctypes.c_uint16 * 8192),
    ]


class _Build(ctypes.Structure):
    _fields_ = [("accepted", ctypes.c_uint8), ("refused", ctypes.c_uint8), ("profile", _Profile)]


class _Run(ctypes.Structure):
    _fields_ = [("accepted", ctypes.c_uint8), ("refused", ctypes.c_uint8), ("mapping", _Mapping)]


expect_size("profile_size", _Profile, _PROFILE_SIZE)
declare("profile_build", _Build, RawRule)
declare("profile_run", _Run, _Profile, *DATA)
declare("compose", _Mapping, _Mapping, _Mapping)
declare("profile_verdict", ctypes.c_uint8, _Profile, _Mapping)


def _mapping(call, name, value):
    masks = as_bytes(call, name, value)
    if len(masks) != 8:
        raise ValueError(f"{call}: {name} must be eight bytes, not {len(masks)}")
    return _Mapping((ctypes.c_uint8 * 8)(*masks))


def compose(earlier: Bytes, later: Bytes) -> bytes:
    """The mapping of two chunks, one behind the other, from those of each. Any two values compose."""
    earlier, later = _mapping("compose", "earlier", earlier), _mapping("compose", "later", later)
    return bytes(lib.bellbadger_compose(earlier, later).masks)


class Profile:
    """The mapping machine of a rule, which is checked and built. Refused with 3, 4, 6, 8, 33, 34."""

    def __init__(self, rule: CheckedRule) -> None:
        built = lib.bellbadger_profile_build(raw("Profile", "rule", rule))
        if not built.accepted:
            raise Refused(built.refused)
        self._profile = built.profile

    def __repr__(self) -> str:
        profile = self._profile
        return f"<Profile: states {profile.n}, symbols {profile.k}, mappings {profile.count}>"

    def __len__(self) -> int:
        """How many mappings the texts of the rule have, 1 to 512."""
        return self._profile.count

    def run(self, chunk: Bytes) -> bytes:
        """The mapping of a chunk. Byte 255 is an idle mark, as in a delivery. Refused with 12, 13."""
        data = as_bytes("run", "chunk", chunk)
        ran = lib.bellbadger_profile_run(self._profile, data, len(data))
        if not ran.accepted:
            raise Refused(ran.refused)
        return bytes(ran.mapping.masks)

    def accepts(self, mapping: Bytes) -> bool:
        """The verdict: whether the mapping leads from an initial state to a final one. Bits for states
        that there are not mean nothing."""
        return lib.bellbadger_profile_verdict(self._profile, _mapping("accepts", "mapping", mapping)) == 1
