"""A list of calls on one board, a line each, with names:

    open 2
    deliver 1 0 purge red     # place, revision, events; - for no events, @FILE for those of a file
    withdraw 1
    verdict

It stops at the first line that is no call or is refused. Its status is that of the verdict with which it ends."""

import re
import sys

from ..judge import Judge, Waiting
from ..refusals import Refused
from .errors import Failed, called, reason, shown
from .rules import IDLE
from .traces import BLOCK, File, Kinds, pieces, words_of
from .words import LONE_RETURN, ZERO_BYTE, no_event

_LONGEST_LINE = 1 << 22
_NUMBER = re.compile("[0-9]{1,20}")


class Board:
    """A judge with the rule of a list, and the chunks that stand."""

    def __init__(self, named):
        self.named, self.judge, self.chunks = named, Judge(), {}
        self.table = dict(named.symbols(), idle=IDLE)
        try:
            self.judge.install(named.rule)
        except Refused as refused:
            raise Failed(f"no board takes the rule ({refused})", named.name) from None

    def answer(self, line):
        """The answer to a line without its comment, and the verdict where it is one. Failed where it is no call,
        Refused where the call is refused."""
        word, *fields = line.split(None, 3)
        if word not in _DUE:
            raise Failed(f'no call "{shown(word)}" ({", ".join(_DUE)})')
        number, due = _DUE[word]
        if len(fields) != number:
            raise Failed(f"{word} takes {due}")
        return getattr(self, word)(*fields)

    def open(self, places):
        self.judge.open(_number(places, "places"))
        self.chunks = {}
        return "accepted", None

    def deliver(self, place, revision, events):
        place, revision, chunk = _number(place, "place"), _number(revision, "revision", 2**32), self.chunk(events)
        self.judge.deliver(place, revision, chunk)
        self.chunks[place] = chunk
        events = len(chunk.replace(bytes([IDLE]), b""))
        return f"accepted: {events} event{'s' * (events != 1)}", None

    def chunk(self, events):
        """The bytes of a chunk: those of events, or of the file that is named."""
        if events == "-":
            return b""
        if events == "@-":
            raise Failed("a delivery is read from a file, and not from standard input")
        if events.startswith("@"):
            read = pieces(File(events[1:].strip()), self.named.symbols(), self.named.events, False, lambda *_: None)
            return self.joined(read)
        words = words_of(events)
        unknown = next((word for word in words if word not in self.table), None)
        if unknown is not None:
            raise Failed(no_event(unknown, self.named.events))
        kinds = Kinds.of(self.named.symbols(), self.named.events)
        at = kinds.stray(words)
        if at is not None:
            raise Failed(kinds.why(words[at]))
        return bytes(self.table[word] for word in words)

    @staticmethod
    def joined(read):
        """The bytes of all pieces; of more than a chunk may have as many as are refused. All are read."""
        codes = bytearray()
        for piece in read:
            codes += piece.codes[: BLOCK + 1 - len(codes)]
        return bytes(codes)

    def withdraw(self, place):
        self.judge.withdraw(_number(place, "place"))
        self.chunks.pop(_number(place, "place"), None)
        return "accepted", None

    def verdict(self):
        verdict, lost = self.judge.verdict(), self.lost()
        if isinstance(verdict, Waiting):
            return f"waiting for {verdict.places} place{'s' * (verdict.places != 1)}{lost}", verdict
        word = "yes" if verdict.is_yes else "no"
        return f"{word}: {verdict.count} transitions, {verdict.bytes} events{lost}", verdict

    def lost(self):
        """Where the trace is lost, in words."""
        found = self.judge.diagnose()
        if not found.is_lost:
            return ""
        at = self.judge.locate(found.place, self.chunks[found.place]) if found.place in self.chunks else 0
        if not at:
            return "; the rule accepts no trace at all"
        event = self.named.events[self.chunks[found.place][at - 1]]
        return f"; lost at place {found.place}, byte {at} of its chunk: {event}"


# how many fields each call has, and what they are
_DUE = {
    "open": (1, "a number of places"),
    "deliver": (3, "a place, a revision and events, - for none or @FILE for those of a file"),
    "withdraw": (1, "a place"),
    "verdict": (0, "nothing"),
}


def _number(word, what, below=2**64):
    if not _NUMBER.fullmatch(word) or int(word) >= below:
        raise Failed(f'"{shown(word)}" is no number for {what}')
    return int(word)


def _call(line, name, number):
    """A line without its comment. A file's name is not cut by one in silence: the rest may be another file's."""
    call, sign, _ = line.partition("#")
    if sign and "@" in call and not call[-1].isspace():
        raise Failed("a comment begins within the name of a file: a space stands before it", name, number)
    return call.strip()


def lines(path):
    """The lines of a list with their numbers, - for standard input, as they come."""
    try:
        with open(sys.stdin.fileno() if path == "-" else path, "rb", closefd=path != "-") as source:
            for number, line in enumerate(iter(lambda: source.readline(_LONGEST_LINE + 1), b""), 1):
                if len(line) > _LONGEST_LINE:
                    raise Failed(f"a line has over {_LONGEST_LINE} bytes", called(path), number)
                for sign, why in ((b"\r", LONE_RETURN), (b"\0", ZERO_BYTE)):
                    if sign in line.replace(b"\r\n", b""):
                        raise Failed(why, called(path), number)
                yield number, _call(line.decode("utf-8", "backslashreplace"), called(path), number)
    except OSError as error:
        raise Failed(reason(error), called(path)) from None


def run(named, path, output):
    """Runs a list; the verdict with which it ends. Each answer is written before the next line is read."""
    board, last, name = Board(named), None, called(path)
    for number, line in lines(path):
        if not line:
            continue
        try:
            said, last = board.answer(line)
        except Refused as refused:
            raise Failed(str(refused), name, number) from None
        except Failed as failed:
            raise Failed(str(failed), name, number) from None
        output.line(said)
    if last is None:
        raise Failed("the list does not end with a verdict", name)
    return last
