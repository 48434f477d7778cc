"""A trace judged by the proved functions: followed in order, and asked of a board too.

The follower tells where a trace is lost and what could have come. Where the rule installs, the same bytes are
delivered to a board, or summarized where they are more than a board has room for; that answer has to be the
same, and has to be of as many events as were read. A difference is an internal error, and never a yes.
"""

import collections
from dataclasses import dataclass, field

from ..follow import Follower
from ..judge import No, Yes
from ..summaries import combine
from .errors import Differs
from .rules import IDLE
from .traces import BLOCK, File, pieces

PLACES = 64
# how many events are kept for a page: of the beginning, of the end, and on either side of the place
KEPT = 24


@dataclass(frozen=True)
class Lost:
    """Where a trace is lost. place: that of the event, None where the rule accepts nothing at all. symbol: the event.
    number: which event of the trace it is, counted from 1, without idle marks."""

    place: object
    symbol: object
    number: int


@dataclass
class Strip:
    """Some of the trace's events to look at: the first, those around the place where it is lost, and the last, each
    with its number."""

    first: list = field(default_factory=list)
    around: list = field(default_factory=list)
    last: collections.deque = field(default_factory=lambda: collections.deque(maxlen=KEPT))
    until: int = 0

    def add(self, start, text):
        """Events of which the first has that number."""
        self.first += list(enumerate(text[: max(0, KEPT - len(self.first))], start))
        if self.until:
            self.around += [(at, symbol) for at, symbol in enumerate(text[: max(0, self.until - start + 1)], start)]
        self.last.extend(enumerate(text[-KEPT:], start + max(0, len(text) - KEPT)))

    def lose(self, number):
        """The event with that number, which was not added yet, is the one by which the trace is lost."""
        self.around, self.until = list(self.last), number + KEPT

    def events(self):
        """All that is kept, each once, in order."""
        return sorted(dict(self.first + self.around + list(self.last)).items())


@dataclass(frozen=True)
class Judged:
    """What was judged of a trace. is_yes is the proved functions' answer on every byte.

    expected, could_end: what could have come at the place where it is lost, or at the end. events: how many events it
    has, idle marks not counted. counted: the Yes or No of a board, or None where the rule has over 512 sets.
    """

    files: tuple
    is_yes: bool
    lost: object
    expected: tuple
    could_end: bool
    events: int
    counted: object
    strip: Strip


class Trace:
    """One trace that is being judged."""

    def __init__(self, named):
        self.follower = Follower(named.rule)
        self.board = Board(named)
        self.events, self.lost, self.strip = 0, None, Strip()
        # no bytes are answered too: where nothing comes, the empty text is judged
        self.answer = self.told = self.follower.follow(b"")
        if self.answer.is_lost:
            self.lost = Lost(None, None, 0)

    def take(self, piece):
        """The next bytes."""
        self.answer = self.follower.follow(piece.codes)
        self.board.take(piece.codes)
        if self.lost is None:
            self.told = self.answer
            if self.answer.is_lost:
                self._lose(piece)
                return
        self._add(piece.codes)

    def _lose(self, piece):
        at = self.answer.lost_at - 1
        self._add(piece.codes[:at])
        self.lost = Lost(piece.place(at), piece.codes[at], self.events + 1)
        self.strip.lose(self.events + 1)
        self._add(piece.codes[at:])

    def _add(self, codes):
        text = codes.replace(bytes([IDLE]), b"")
        self.strip.add(self.events + 1, text)
        self.events += len(text)

    def judged(self, files):
        """What came of it, once every file was read to its end."""
        if not all(file.sha256 for file in files):
            raise Differs("a file was not read to its end")
        counted, is_yes = self.board.verdict(), self.answer.is_accepted_so_far
        if counted is not None:
            if not isinstance(counted, (Yes, No)) or counted.is_yes != is_yes:
                raise Differs("the board and the follower have two answers")
            if counted.bytes != self.events:
                raise Differs(f"{self.events} events were read, and the board judged {counted.bytes}")
        if is_yes and self.lost:
            raise Differs("a lost trace was accepted")
        told = self.told
        return Judged(tuple(files), is_yes, self.lost, told.expected, told.complete, self.events, counted, self.strip)


class Board:
    """The same bytes in chunks of 65,536: on a board where there are at most 64 of them, else as summaries."""

    def __init__(self, named):
        self.judge, self.rest, self.chunks = named.judge(), bytearray(), []
        self.summary, self.number = None, 0

    def take(self, codes):
        if self.judge is None:
            return
        self.rest += codes
        while len(self.rest) >= BLOCK:
            self._chunk(bytes(self.rest[:BLOCK]))
            del self.rest[:BLOCK]

    def _chunk(self, chunk):
        self.number += 1
        if self.summary is None:
            self.chunks.append(chunk)
            if self.number > PLACES:
                self._summarize_all()
        else:
            self.summary = combine(self.summary, self.judge.summarize(self.number - 1, chunk))

    def _summarize_all(self):
        for number, chunk in enumerate(self.chunks):
            summary = self.judge.summarize(number, chunk)
            self.summary = summary if number == 0 else combine(self.summary, summary)
        self.chunks = []

    def verdict(self):
        """The Yes or No, or None where the rule does not install."""
        if self.judge is None:
            return None
        if self.rest or self.number == 0:
            self._chunk(bytes(self.rest))
            self.rest = bytearray()
        if self.summary is not None:
            return self.judge.conclude(self.summary, self.number)
        self.judge.open(self.number)
        for place, chunk in enumerate(self.chunks):
            self.judge.deliver(place, 0, chunk)
        return self.judge.verdict()


def judge(named, paths, binary, progress):
    """What is judged of the files of one trace, one behind the other."""
    trace, files = Trace(named), [File(path) for path in paths]
    table = named.symbols()
    for number, file in enumerate(files, 1):
        before = trace.events
        for piece in pieces(file, table, named.events, binary, progress, number < len(files)):
            trace.take(piece)
        file.events = trace.events - before
    return trace.judged(files)
