"""Rows and columns of events: a file for each band, a line for each row."""

import dataclasses
from dataclasses import dataclass

from ..follow import Follower
from ..refusals import Refused
from ..trays import Column, Open, Row, Tray
from .errors import Differs, Failed, called, listed
from .rules import common_events
from .said import without
from .traces import Kinds, Place, opened, words_of
from .words import lines_of, no_event

_LONGEST = 1 << 20


@dataclass(frozen=True)
class Line:
    """A row: its events, and where each of them stands."""

    codes: bytes
    places: tuple


@dataclass(frozen=True)
class Answer:
    """Whether a tray is right, and which bands have no rows; else where it is not, if that is a place, and why."""

    title: str
    is_yes: bool
    place: object = None
    reason: object = None

    def line(self):
        place = self.place.shown() if self.place else self.title
        return f"{place}: yes{self.reason or ''}" if self.is_yes else f"{place}: no: {self.reason}"


def read_band(path, table, events):
    """The rows of a band."""
    name = called(path)
    with opened(path) as source:
        data = source.read(_LONGEST + 1)
    if len(data) > _LONGEST:
        raise Failed(f"a file of over {_LONGEST} bytes is no band", name)
    rows, kinds = [], Kinds.of(table, events)
    try:
        lines = lines_of(data.decode("utf-8-sig", "backslashreplace"))
    except Failed as failed:
        raise failed.at(name) from None
    for number, line in enumerate(lines, 1):
        row = _row(line.partition("#")[0], name, number, table, events, kinds)
        if row.codes:
            rows.append(row)
    return rows


def _row(line, name, number, table, events, kinds):
    codes, places, at = [], [], 0
    try:
        words = words_of(line)
    except Failed as failed:
        raise Place(name, number).failed(failed.message) from None
    for word in words:
        at = line.index(word, at)
        place = Place(name, number, at + 1, not codes)
        if word not in table:
            raise place.failed(no_event(word, events))
        codes.append(table[word])
        places.append(place)
        at += len(word)
    at = kinds.stray(words)
    if at is not None:
        raise places[at].failed(kinds.why(words[at]))
    return Line(bytes(codes), tuple(places))


class Judged:
    """A tray of bands, and what is said of it."""

    def __init__(self, row, column, paths, width=None):
        self.events = common_events([row, column])
        self.row, self.column, self.paths = row, column, paths
        table = (row if row.named else column).symbols()
        self.bands = [read_band(path, table, self.events) for path in paths]
        self.width = self._width(width)
        self.tray = Tray()
        try:
            self._fill()
        except Refused as refused:
            raise Failed(str(refused)) from None

    def _width(self, width):
        rows = [row for band in self.bands for row in band]
        if not rows and width is None:
            raise Failed("no band has a row: say how wide rows are with --width")
        width = len(rows[0].codes) if width is None else width
        for row in rows:
            if len(row.codes) != width:
                raise row.places[0].failed(f"the row has {len(row.codes)} events, and not {width}")
        return width

    def _fill(self):
        for install, named in ((self.tray.install_row, self.row), (self.tray.install_column, self.column)):
            try:
                install(named.rule)
            except Refused as refused:
                raise Failed(str(refused), called(named.name)) from None
        self.tray.open(self.width, len(self.bands))
        for number, band in enumerate(self.bands):
            try:
                self.tray.deliver(number, b"".join(row.codes for row in band))
            except Refused as refused:
                raise Failed(str(refused), called(self.paths[number])) from None

    def _title(self):
        return f"tray of {len(self.bands)} band{'s' * (len(self.bands) != 1)}"

    def answer(self):
        """An Answer. The verdict and the fault have to agree."""
        verdict, fault = self.tray.verdict(), self.tray.fault()
        if verdict.is_yes == fault.is_fault or (isinstance(fault, Open) and fault.bands != len(self.bands)):
            raise Differs("the tray's verdict and its fault have two answers")
        if verdict.is_yes:
            empty = [path for path, band in zip(self.paths, self.bands) if not band]
            return Answer(self._title(), True, None, without(empty, "rows"))
        if isinstance(fault, Row):
            row = self.bands[fault.band][fault.row]
            return self._no(self.row, row.codes, row.places, "the row")
        rows = [row for band in self.bands for row in band]
        codes, places = bytes(row.codes[fault.column] for row in rows), [row.places[fault.column] for row in rows]
        answer = self._no(self.column, codes, places, f"column {fault.column + 1}")
        if isinstance(fault, Column) and answer.place and answer.place.line != self._line(fault):
            raise Differs("the tray and the follower lose a column at two places")
        return answer

    def _line(self, fault):
        return self.bands[fault.band][fault.row].places[0].line

    def _no(self, named, codes, places, what):
        """Where a row or a column is lost, as its follower has it."""
        followed = Follower(named.rule).follow(codes)
        expected = listed([self.events[s] for s in followed.expected] + (["the end"] if followed.complete else []))
        if followed.is_accepted_so_far:
            raise Differs(f"the tray and the follower have two answers on {what}")
        if not followed.is_lost:
            place = Place(places[0].name, places[0].line) if what == "the row" else None
            return Answer(self._title(), False, place, f"{what} ends too early; expected {expected}")
        if followed.lost_at == 0:
            return Answer(self._title(), False, None, f"the rule of {what} accepts no text at all")
        at = followed.lost_at - 1
        reason = f"{self.events[codes[at]]} cannot come here in {what}; expected {expected}"
        return Answer(self._title(), False, dataclasses.replace(places[at], first=False), reason)
