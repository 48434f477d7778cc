"""Traces from files of any length, in blocks: every byte is read, and every word is an event, an idle mark or an error.

A text has one event a line, or events with white space or commas between them, by name or by number; `idle` is an
idle mark, and # begins a comment. A binary trace has a byte for each event, and 255 for an idle mark.
"""

import hashlib
import itertools
import os
import re
import stat
import sys
from contextlib import contextmanager
from dataclasses import dataclass

from .errors import Failed, called, reason
from .rules import IDLE
from .words import LONE_RETURN, LONGEST_NAME, ZERO_BYTE, no_event

BLOCK = 65536
_LONGEST_WORD = 4 * LONGEST_NAME
_COMMENT = re.compile(rb"#[^\n]*")
_WORD = re.compile(rb"[^\s,]+")
_TAIL = re.compile(rb"[^\s,]*\Z")
_GAP = re.compile(rb",\s*,")
_BARE_COMMA = re.compile(r"^\s*,|,\s*,|,\s*$")
_NO_TEXT = re.compile(rb"\r(?!\n)|\0")
_BYTE_ORDER_MARK = b"\xef\xbb\xbf"


@dataclass(frozen=True)
class Place:
    """Where something stands in a trace: line and column of a text, counted from 1, or the byte of a binary trace.
    first: whether it is the first word of its line, so that the line says where."""

    name: str
    line: object = None
    column: object = None
    first: bool = True
    byte: object = None

    def shown(self):
        if self.byte is not None:
            return f"{self.name}: byte {self.byte}"
        return f"{self.name}:{self.line}" + ("" if self.first else f":{self.column}")

    def failed(self, message):
        return Failed(message, self.name, self.line, None if self.first else self.column, self.byte)


@dataclass(frozen=True)
class Piece:
    """Some bytes of a trace, at most 65,536, as the proved functions take them, and where each of them stands."""

    codes: bytes
    place: object


class Kinds:
    """Whether a text has its events by name or by number, as the first of them has. A number among names is more
    likely an amount, a time or the number of a line than an event."""

    def __init__(self, numbers, idle):
        self.numbers, self.idle, self.by_number = numbers, idle, None

    @classmethod
    def of(cls, table, events):
        """For words of a table that has names and, where they are not names themselves, numbers."""
        return cls(frozenset(table).difference(events), "idle")

    def encoded(self):
        """The same for words in bytes."""
        return Kinds(frozenset(word.encode("ascii") for word in self.numbers), b"idle")

    def stray(self, words):
        """Which of the next words is the first that is of the other kind, or None."""
        kinds = {word in self.numbers for word in set(words) if word != self.idle} if self.numbers else ()
        if self.by_number is None and kinds:
            self.by_number = next(word in self.numbers for word in words if word != self.idle)
        if (not self.by_number) not in kinds:
            return None
        others = (at for at, word in enumerate(words) if (word in self.numbers) != self.by_number and word != self.idle)
        return next(others)

    def why(self, word):
        """What is wrong with such a word."""
        this, others = ("the name", "numbers") if self.by_number else ("the number", "names")
        return f'{this} "{word}" among {others}: events are by name, or all by number'


@dataclass
class File:
    """What was read of a file; it is known whole once its last piece was taken. events: how many were judged."""

    path: str
    length: int = 0
    sha256: str = ""
    events: int = 0


@contextmanager
def opened(path):
    """The file of a trace, - for standard input; an error of the system is Failed, with the name."""
    try:
        if path == "-":
            yield _no_output(sys.stdin.buffer, path)
        else:
            with _open(path) as file:
                yield _no_output(file, path)
    except OSError as error:
        raise Failed(reason(error), called(path)) from None


def _open(path):
    try:
        return open(path, "rb")
    except ValueError:
        # a zero byte, or what no system can name; a record may have it
        raise Failed("no file can have that name", called(path)) from None


def _no_output(file, path):
    """The file. Failed where answers go to it, and it is on a disk: a shell has emptied it before we begin."""
    status = os.fstat(file.fileno())
    if stat.S_ISREG(status.st_mode) and any(_is_same(status, stream) for stream in (sys.stdout, sys.stderr)):
        raise Failed("it is the output too, and was emptied for it or will be written to", called(path))
    return file


def _is_same(status, stream):
    try:
        return os.path.samestat(status, os.fstat(stream.fileno()))
    except (AttributeError, OSError, ValueError):
        return False


def pieces(file, table, events, binary, progress, goes_on=False):
    """The pieces of one file. Failed where a byte or a word is no event, and where the file was changed meanwhile.
    goes_on: another file follows, so that a text may not end within a word or a comment."""
    name = called(file.path)
    with opened(file.path) as source:
        before = _stamp(source)
        blocks = _blocks(source, file, before, progress)
        yield from _binary(blocks, name, table, events) if binary else _text(blocks, name, table, events, goes_on)
        if before != _stamp(source) or (before and before[0] != file.length):
            raise Failed("the file was changed while it was read", name)


def _stamp(source):
    """Size and time of change of a file on a disk; None of a pipe or an empty file."""
    status = os.fstat(source.fileno())
    return (status.st_size, status.st_mtime_ns) if stat.S_ISREG(status.st_mode) and status.st_size else None


def _blocks(source, file, stamp, progress):
    digest = hashlib.sha256()
    for block in iter(lambda: source.read(BLOCK), b""):
        digest.update(block)
        file.length += len(block)
        progress(called(file.path), file.length, stamp[0] if stamp else None)
        yield block
    file.sha256 = digest.hexdigest()


def words_of(line):
    """The words of one line. Failed where an event is missing beside a comma."""
    if _BARE_COMMA.search(line):
        raise Failed("an event is missing beside a comma")
    return line.replace(",", " ").split()


def _binary(blocks, name, table, events):
    known, start = bytes(set(table.values()) | {IDLE}), 0
    for block in blocks:
        foreign = block.translate(None, known)
        if foreign:
            at = start + block.index(foreign[:1]) + 1
            raise Place(name, byte=at).failed(f"no event {foreign[0]} ({', '.join(events)})")
        yield Piece(block, _byte_places(name, start))
        start += len(block)


def _byte_places(name, start):
    return lambda at: Place(name, byte=start + at + 1)


def _text(blocks, name, table, events, goes_on):
    codes = {word.encode("utf-8"): code for word, code in table.items()}
    codes[b"idle"] = IDLE
    kinds = Kinds.of(table, events).encoded()
    for text, cursor in _whole_words(blocks, name, goes_on):
        words, places = text.replace(b",", b" ").split(), _word_places(text, cursor)
        try:
            found = bytes(map(codes.__getitem__, words))
        except KeyError:
            at = next(at for at, word in enumerate(words) if word not in codes)
            unknown = words[at].decode("utf-8", "backslashreplace")
            raise places(at).failed(no_event(unknown, events)) from None
        at = kinds.stray(words)
        if at is not None:
            raise places(at).failed(kinds.why(words[at].decode("utf-8")))
        yield Piece(found, places)


@dataclass(frozen=True)
class Cursor:
    """Where a part of a text begins: its line, how many characters of it were before, and whether a word was."""

    name: str
    line: int = 1
    before: int = 0
    word: bool = False

    def behind(self, text):
        """Where the part begins that follows this one."""
        lines, last = text.count(b"\n"), text[text.rfind(b"\n") + 1 :]
        begun, word = (0, False) if lines else (self.before, self.word)
        return Cursor(self.name, self.line + lines, begun + _characters(last), word or bool(_WORD.search(last)))

    def place(self):
        """That of the word which begins here."""
        return Place(self.name, self.line, self.before + 1, not self.word)


def _characters(text):
    return len(text.decode("utf-8", "replace"))


def _word_places(text, cursor):
    def place(at):
        found = next(itertools.islice(_WORD.finditer(text), at, None))
        return cursor.behind(text[: found.start()]).place()

    return place


def _whole_words(blocks, name, goes_on):
    """The text without its comments, cut between words; each part with the place where it begins."""
    cursor, carried, comment, last = Cursor(name), b"", False, b""
    for block in itertools.chain(_with_line_ends(_unmarked(blocks), name), [None]):
        if block is None and goes_on and (carried or comment):
            why = "a chunk that others follow ends in a line's end, and not within a word or a comment"
            raise cursor.place().failed(why)
        text, comment = _uncommented(block or b"", comment)
        text = carried + text
        cut = len(text) if block is None else _TAIL.search(text, max(0, len(text) - _LONGEST_WORD)).start()
        text, carried = text[:cut], text[cut:]
        if len(carried) >= _LONGEST_WORD:
            begin = _TAIL.search(text + carried).start()
            raise cursor.behind(text[:begin]).place().failed("a word is longer than any name")
        last = _last_sign(text, last, cursor)
        yield text, cursor
        cursor = cursor.behind(text)
    if last == b",":
        raise cursor.place().failed("an event is missing behind the last comma")


def _unmarked(blocks):
    """The blocks without the mark with which some editors begin a text."""
    for number, block in enumerate(blocks):
        yield block[3:] if number == 0 and block.startswith(_BYTE_ORDER_MARK) else block


def _with_line_ends(blocks, name):
    """The blocks, none of which ends between a return and its line feed. Failed where a return is alone; and at a zero
    byte, in a comment too: it is left of a disk that failed, or the text is no UTF-8."""
    line, held = 1, b""
    for block in itertools.chain(blocks, [None]):
        text = held + (block or b"")
        held = b"\r" if block is not None and text.endswith(b"\r") else b""
        text = text[: len(text) - len(held)]
        found = (b"\r" in text or b"\0" in text) and _NO_TEXT.search(text)
        if found:
            why = LONE_RETURN if found[0] == b"\r" else ZERO_BYTE
            raise Failed(why, name, line + text.count(b"\n", 0, found.start()))
        line += text.count(b"\n")
        yield text


def _uncommented(block, comment):
    """The block without comments, and whether it ends within one; comment says whether it begins within one."""
    if comment:
        end = block.find(b"\n")
        if end < 0:
            return b"", True
        block = block[end:]
    if b"#" not in block:
        return block, False
    return _COMMENT.sub(b"", block), block.rfind(b"#") > block.rfind(b"\n")


def _last_sign(text, last, cursor):
    """The last byte so far that is no space. Before a comma there is an event: one that is missing may be lost."""
    signs = text.strip()
    if b"," in signs:
        gap = _GAP.search(text)
        early = text.index(b",") if signs.startswith(b",") and last in (b"", b",") else gap and gap.end() - 1
        if early is not None:
            raise cursor.behind(text[:early]).place().failed("an event is missing before the comma")
    return signs[-1:] or last
