"""Where a tray goes wrong, from Python: worked by hand, refusals, and small random trays beside the words: all
texts that might follow are tried."""

import itertools
import random
import unittest

from bellbadger import CheckedRule, Refused
from bellbadger.trays import Column, Open, Row, Short, Tray


def rule(initials, finals, *rows):
    """A rule over 0 and 1, with the targets of each state by both."""
    targets = [mask for row in rows for mask in (*row, *[0] * 14)]
    return CheckedRule(len(rows), 2, initials, finals, targets + [0] * (512 - len(targets)))


ENDS_IN_0_1 = rule(1, 4, (3, 1), (0, 4), (0, 0))
# 0, 0 1 0, 0 1 0 1 0 and so on; what comes out of order leads to state 2 and stays there
IN_TURN = rule(1, 2, (2, 4), (4, 1), (4, 4))
ALL = rule(1, 1, (1, 1))
NOTHING = rule(1, 0, (1, 1))


def opened(row, column, width, *bands):
    """A tray with these bands, None for an empty one; the last is delivered first."""
    tray = Tray()
    tray.install_row(row)
    tray.install_column(column)
    tray.open(width, len(bands))
    for band, events in reversed(list(enumerate(bands))):
        if events is not None:
            tray.deliver(band, bytes(events))
    return tray


def accepts(r, text):
    states = {q for q in range(r.n) if r.initials >> q & 1}
    for s in text:
        states = {t for q in states for t in range(r.n) if r.target_mask(q, s) >> t & 1}
    return any(r.finals >> q & 1 for q in states)


def continued(r, text):
    """Whether a text can follow so that the rule accepts both: one that is shorter than there are states."""
    rests = (rest for length in range(r.n) for rest in itertools.product((0, 1), repeat=length))
    return any(accepts(r, [*text, *rest]) for rest in rests)


def rows_of(width, events):
    return [events[at : at + width] for at in range(0, len(events), width)]


def due(row, column, width, bands):
    """The words, one after the other."""
    for band, events in enumerate(bands):
        for i, text in enumerate(rows_of(width, events or b"")):
            if not accepts(row, text):
                return Row(band, i)
    if not continued(column, ()):
        return Column(0, 0, 0)
    standing = list(itertools.takewhile(lambda events: events is not None, bands))
    rows = [(band, i, text) for band, events in enumerate(standing) for i, text in enumerate(rows_of(width, events))]
    columns = [[text[c] for _, _, text in rows] for c in range(width)]
    for c, text in enumerate(columns):
        for at, (band, i, _) in enumerate(rows):
            if not continued(column, text[: at + 1]):
                return Column(c, band, i)
    if len(standing) == len(bands):
        return next((Short(c) for c, text in enumerate(columns) if not accepts(column, text)), Open(len(bands)))
    return Open(len(standing))


class Faults(unittest.TestCase):
    def refused(self, number, function):
        with self.assertRaises(Refused) as caught:
            function()
        self.assertEqual(caught.exception.number, number)

    def test_worked_by_hand(self):
        for row, column, bands, found in (
            (ENDS_IN_0_1, ALL, (None, None), Open(0)),
            (ENDS_IN_0_1, ALL, ((0, 1), None, (0, 1, 1, 1)), Row(2, 1)),
            (ENDS_IN_0_1, ALL, ((0, 1, 0, 0), None, (1, 1)), Row(0, 1)),
            (ENDS_IN_0_1, ALL, ((0, 1), (), None), Open(2)),
            (ENDS_IN_0_1, IN_TURN, ((0, 1), (0, 0)), Row(1, 0)),  # the second column is lost before
            (ENDS_IN_0_1, IN_TURN, ((0, 1), (0, 1)), Column(0, 1, 0)),
            (ALL, IN_TURN, (None, (1, 1)), Open(0)),  # it is not known what comes before
            (ALL, IN_TURN, ((0, 0), (), (1, 0), None), Column(1, 2, 0)),
            (ALL, IN_TURN, ((0, 0, 1, 1), ()), Short(0)),
            (ALL, IN_TURN, ((0, 0, 1, 1), (), None), Open(2)),
            (ALL, IN_TURN, ((0, 0), (1, 1, 0, 0)), Open(2)),
            (ALL, ENDS_IN_0_1, ((0, 0, 1, 0),), Short(1)),
            (ALL, ENDS_IN_0_1, ((), ()), Short(0)),  # no rows at all: each column is the empty text
        ):
            self.assertEqual(opened(row, column, 2, *bands).fault(), found, bands)

    def test_a_column_rule_that_accepts_nothing(self):
        for bands in ((None, None), (None, (0, 1)), ((), None), ((0, 1), (0, 1))):
            self.assertEqual(opened(ENDS_IN_0_1, NOTHING, 2, *bands).fault(), Column(0, 0, 0))
        self.assertEqual(opened(ENDS_IN_0_1, NOTHING, 2, None, (1, 1)).fault(), Row(1, 0))

    def test_changes_nothing(self):
        tray = opened(ALL, IN_TURN, 2, (1, 1), None)
        before = bytes(tray._tray)
        self.assertEqual(tray.fault(), Column(0, 0, 0))
        self.assertEqual(bytes(tray._tray), before)
        tray.deliver(1, bytes([0, 0]))
        self.assertEqual(tray.fault(), Column(0, 0, 0))
        tray.withdraw(0)
        self.assertEqual(tray.fault(), Open(0))

    def test_refused_without_a_board(self):
        tray = Tray()
        self.refused(21, tray.fault)
        tray.install_row(ALL)
        tray.install_column(ALL)
        self.refused(21, tray.fault)
        tray.open(1, 1)
        self.assertEqual(tray.fault(), Open(0))
        tray.install_column(ALL)
        self.refused(21, tray.fault)

    def test_no_truth_value(self):
        """A program that ships on `if not tray.fault()` would ship while bands are missing."""
        for found in (Row(0, 0), Column(0, 0, 0), Short(0), Open(0)):
            self.assertIs(found.is_fault, not isinstance(found, Open))
            for asked in (lambda: bool(found), lambda: not found, lambda: found or None):
                with self.assertRaisesRegex(TypeError, f"a fault, here {type(found).__name__}, is no truth value"):
                    asked()
        self.assertNotEqual(Short(1), Open(1))

    def test_beside_the_words(self):
        r = random.Random(13)
        seen = {Row: 0, Column: 0, Short: 0, Open: 0}
        for _ in range(500):

            def some(finals):
                n = r.randint(1, 3)
                mask = lambda: r.randrange(8) and r.randint(1, 2**n - 1)
                return rule(1, 2**n - 1 if finals else r.randrange(2**n), *((mask(), mask()) for _ in range(n)))

            row, column, width = some(True), some(False), r.randint(1, 3)
            bands = [None] * r.randint(1, 4)
            tray = opened(row, column, width, *bands)
            for _ in range(3 * len(bands)):
                band = r.randrange(len(bands))
                if bands[band] is None:
                    bands[band] = bytes(r.choices((0, 1), k=width * r.randrange(3)))
                    tray.deliver(band, bands[band])
                elif r.randrange(4) == 0:
                    bands[band] = None
                    tray.withdraw(band)
                found = due(row, column, width, bands)
                self.assertEqual(tray.fault(), found, (row, column, width, bands))
                if None not in bands:
                    self.assertIs(tray.verdict().is_yes, not found.is_fault)
                seen[type(found)] += 1
        self.assertGreater(min(seen.values()), 60)


if __name__ == "__main__":
    unittest.main()
