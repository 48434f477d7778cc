"""How fast a trace is judged: no verdict rests on it."""

import time

from ..follow import Follower
from .judging import judge
from .traces import BLOCK, File, pieces

_SAMPLE, _SECONDS = 64 * BLOCK, 0.5


def measure(named, path, binary, progress):
    """What was judged, and the lines that say how fast."""
    start = time.perf_counter()
    judged = judge(named, [path], binary, progress)
    took = time.perf_counter() - start
    read = f"judged, read from its file: {judged.files[0].length / took / 1e6:.3g} MB/s"
    lines = [_built(named), _work(judged), read]
    chunks = _chunks(named, path, binary)
    if chunks:
        lines.append(f"followed: {_speed(chunks, lambda: _follow(named, chunks)):.3g} MB/s")
        if judged.counted is not None:
            lines.append(f"on a board: {_speed(chunks, lambda: _deliver(named, chunks)):.3g} MB/s")
    return judged, lines


def _built(named):
    judge_of = named.judge()
    if judge_of is None:
        return "over 512 sets: no board takes the rule"
    loaded = judge_of.install(named.rule)
    return f"{loaded.sets} sets, {loaded.starts} starts"


def _work(judged):
    if judged.counted is None:
        return f"{judged.events} events"
    rate = judged.counted.count / judged.events if judged.events else 0
    return f"{judged.events} events, {judged.counted.count} transitions, {rate:.2f} a byte"


def _chunks(named, path, binary):
    """The first bytes of the trace, as many as a board has room for."""
    text = bytearray()
    for piece in pieces(File(path), named.symbols(), named.events, binary, lambda *_: None):
        text += piece.codes
        if len(text) >= _SAMPLE:
            break
    text = bytes(text[:_SAMPLE])
    return [text[at : at + BLOCK] for at in range(0, len(text), BLOCK)]


def _follow(named, chunks):
    follower = Follower(named.rule)
    return lambda: [follower.follow(chunk) for chunk in chunks]


def _deliver(named, chunks):
    board = named.judge()

    def deliver():
        board.open(len(chunks))
        for place, chunk in enumerate(chunks):
            board.deliver(place, 0, chunk)

    return deliver


def _speed(chunks, prepare):
    run, rounds, start = prepare(), 0, time.perf_counter()
    while time.perf_counter() - start < _SECONDS:
        run()
        rounds += 1
    return rounds * sum(map(len, chunks)) / (time.perf_counter() - start) / 1e6
