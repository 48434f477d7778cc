"""A trace judged by the machines of a cluster: summaries on Dask's distributed scheduler (Debian's
python3-distributed).

    from distributed import Client
    from bellbadger import cluster, read

    rule = read(open("samples/a.rule", "rb").read())
    count = 5000  # as the recorder says, and not as many as there are files
    chunks = {number: f"/shared/trace/chunk.{number:05}" for number in range(count)}
    with Client("tcp://scheduler:8786") as client:
        verdict = cluster.judge(client, rule, chunks, count)
    if verdict.is_yes: ..

The workers need this package and its library, and where chunks are paths they must all see the same files by them. A
chunk is summarized where a worker is free, neighbours are combined on the workers, and the client concludes. What a
worker that died had done is done again by another: the scheduler sees to that, and it is harmless, since a summary is
a value and each has the numbers of its chunks.
"""

import functools
import os
import sys
from collections.abc import Iterable, Mapping, MappingView, Set
from pathlib import Path
from typing import Any, Union

from ._arguments import as_bytes, expect, whole
from .judge import Judge, No, Waiting, Yes
from .refusals import Refused
from .rules import CheckedRule
from .summaries import combine

__all__ = ["RefusedChunk", "judge"]

# Neighbours make one task, so that the scheduler has less to do than the workers: as many as leave some 256 tasks, and
# 32 at most. So many summaries are combined by one.
_TASKS, _NEIGHBOURS, _SUMMARIES = 256, 32, 8


class RefusedChunk(Refused):
    """A chunk was refused: number says why, chunk which it is, counted from 0. There is no verdict."""

    def __init__(self, number: int, chunk: int) -> None:
        super().__init__(number)
        self.chunk = chunk

    def __str__(self) -> str:
        return f"chunk {self.chunk}: {super().__str__()}"

    def __reduce__(self):
        return RefusedChunk, (self.number, self.chunk)


@functools.lru_cache(maxsize=8)
def _judge_by(rule):
    """A judge of this process that has the rule."""
    judge_ = Judge()
    judge_.install(rule)
    return judge_


def _ready(number, chunk):
    """A chunk for a worker: an absolute path, something to be called, or bytes."""
    if isinstance(chunk, (str, os.PathLike)):
        return os.path.abspath(os.fsdecode(chunk))
    due = "a path, bytes or something to be called"
    if isinstance(chunk, type):
        # bytes() would be an empty chunk
        raise TypeError(f"judge: chunk {number} must be {due}, not the class {chunk.__name__}")
    return chunk if callable(chunk) else as_bytes("judge", f"chunk {number}", chunk, due)


def _loaded(number, chunk):
    if callable(chunk):
        return as_bytes("judge", f"what is called for chunk {number}", chunk(), "something that answers bytes")
    return Path(chunk).read_bytes() if isinstance(chunk, str) else chunk


def _summary(rule, number, chunk):
    # what a callable of the caller raises is its own
    judge_, data = _judge_by(rule), _loaded(number, chunk)
    try:
        return judge_.summarize(number, data)
    except Refused as refused:
        raise RefusedChunk(refused.number, number) from None


def summarize(rule, numbered):
    """The summary of neighbours, pairs of a number and a chunk: what a worker does."""
    return functools.reduce(combine, (_summary(rule, number, chunk) for number, chunk in numbered))


def _combine(*some):
    return functools.reduce(combine, some)


def _parts(items, size):
    return [items[at : at + size] for at in range(0, len(items), size)]


def summaries(client, rule, numbered):
    """Futures of the summaries of neighbours, in order, of a list of pairs of a number and a chunk."""
    numbered = [(number, _ready(number, chunk)) for number, chunk in numbered]
    # the rule is a task, so that it is made again where the worker that has it dies
    rule = client.submit(CheckedRule, rule.n, rule.k, rule.initials, rule.finals, rule.targets, pure=False)
    neighbours = min(1 + len(numbered) // _TASKS, _NEIGHBOURS)
    return [client.submit(summarize, rule, part, pure=False) for part in _parts(numbered, neighbours)]


def combined(client, futures):
    """The future of all of them, which are at least one, combined as a tree, in order."""
    while len(futures) > 1:
        futures = [client.submit(_combine, *part, pure=False) for part in _parts(futures, _SUMMARIES)]
    return futures[0]


def _numbered(chunks):
    """Pairs of a number and a chunk, in the order of the numbers."""
    if isinstance(chunks, Mapping):
        pairs = [(whole("judge", "a key of chunks", number), chunk) for number, chunk in chunks.items()]
        numbered = sorted(pairs, key=lambda pair: pair[0])
        if any(not 0 <= number < 2**64 for number, _ in numbered):
            raise Refused(42)
        return numbered
    # a set has no order, a view is a part of a mapping, and one path or one chunk is no list of them
    if isinstance(chunks, (str, bytes, bytearray, memoryview, Set, MappingView)) or not isinstance(chunks, Iterable):
        kind = type(chunks).__name__
        raise TypeError(f"judge: chunks must be a mapping from numbers to chunks, or chunks in order, not {kind}")
    return list(enumerate(chunks))


def judge(client: Any, rule: CheckedRule, chunks: Union[Mapping, Iterable], count: int) -> Union[Waiting, Yes, No]:
    """The verdict on a trace of so many chunks, Yes or No as a filled board with them has it: client is a
    distributed.Client, rule a CheckedRule.

    chunks is a mapping from the numbers of the chunks, which are 0 up to count - 1, to the chunks, in any order; or a
    sequence or an iterator that gives them in order: then the place of a chunk is its number, and that two are
    exchanged nobody can tell. Say count from what is known of the trace, and not from the chunks that are there: one
    that never came is noticed by it.

    A chunk is a path, which a worker opens; or something to be called without arguments, on a worker, which answers
    bytes; or bytes, which travel through the scheduler and stay there until the end: for short traces. A path is made
    absolute here, by the folder of this process, and all workers must see the same file by it. On a terminal a bar
    shows how far it is.

    Raises RefusedChunk where a chunk is refused with 12 or 13; Refused with 3, 4, 6, 8 or 9 where the rule is; with 42
    where a number is missing, doubled or foreign; with 44 where there are more or fewer chunks than count, or none (an
    empty trace has one empty chunk); TypeError where something is no chunk or has no order, as a set; and whatever a
    worker raises, as where a path leads to no file, or what something that is called does.
    """
    here = _judge_by(expect("judge", "rule", rule, CheckedRule))
    numbered, count = _numbered(chunks), whole("judge", "count", count)
    if not numbered:
        raise Refused(44)
    all_of_them = combined(client, summaries(client, rule, numbered))
    if sys.stdout.isatty():
        from distributed import progress

        progress(all_of_them, notebook=False)
    return here.conclude(all_of_them.result(), count)
