"""The valve trace judge: a rule, a board and five calls.

    >>> judge = Judge()
    >>> judge.load(bytes.fromhex("03020100000004000000160006001C0002001E0000000000000101000102"))
    Loaded(sets=5, starts=3)
    >>> judge.open(2)
    >>> judge.deliver(1, 0, bytes([1]))
    Looked(bytes=1)
    >>> judge.verdict()
    Waiting(places=1)
    >>> judge.deliver(0, 0, bytes([0]))
    Looked(bytes=1)
    >>> judge.verdict()
    Yes(count=3, bytes=2, quotient=1, remainder=1)
    >>> judge.verdict().is_yes
    True
    >>> judge.deliver(0, 0, bytes([1]))
    Traceback (most recent call last):
    ...
    bellbadger.refusals.Refused: refused 22: the revision is not greater than the last one accepted at the place

A later recording, with a greater revision, supersedes what stands:

    >>> judge.deliver(0, 1, bytes([1]))
    Looked(bytes=1)
    >>> judge.verdict()
    No(count=3, bytes=2, quotient=1, remainder=1)

A verdict is no truth value, so that a No or a Waiting cannot pass for a yes:

    >>> if judge.verdict():
    ...     print("ship")
    Traceback (most recent call last):
    ...
    TypeError: a verdict, here No, is no truth value: write .is_yes behind it

A rule file can be read without a judge, and the rule that comes of it installed:

    >>> rule = read(bytes.fromhex("03020100000004000000160006001C0002001E0000000000000101000102"))
    >>> rule
    <CheckedRule: states 3, symbols 2, initial 1, final 1, arcs 4>
    >>> rule.target_mask(0, 0)
    3
    >>> Judge().install(rule)
    Loaded(sets=5, starts=3)

A refused call raises Refused, which has the number, and leaves the judge as it was. Any number of
threads may call at once, each with a judge of its own. A thread that calls should have a stack of
1 MB (threading.stack_size).

Each further subject is a module: losses, saved, follow, summaries, mappings, samples, patterns, merge, compare, reduce,
trays, form, texts; and cluster, for a client of Dask's distributed. The command for people, python3 -m bellbadger,
is the package command.

An installed package has the library in it. In the repository it needs target/lib/libbellbadger.so, which
outside/build makes, on x86-64. The variable BELLBADGER_LIB of the environment names another folder for either.
"""

from . import cluster, compare, follow, form, losses, mappings, merge, patterns, reduce, samples, saved, summaries, texts, trays
from ._library import VERSION as __version__
from ._library import version
from .judge import Judge, Loaded, Looked, No, Waiting, Yes, replay
from .refusals import Malformed, Refused
from .rules import CheckedRule, read

__all__ = ["CheckedRule", "Judge", "Loaded", "Looked", "Waiting", "Yes", "No", "Refused", "Malformed", "read", "replay", "version"]
