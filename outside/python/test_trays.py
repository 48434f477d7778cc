"""Trays from Python: worked by hand, refusals in their order, arguments that C would misread, and random
trays beside a plain search."""

import dataclasses
import doctest
import random
import unittest

import bellbadger.trays
from bellbadger import CheckedRule, Refused
from bellbadger.trays import Tray, TrayNo, TrayWaiting, TrayYes


def rule(k, initials, finals, *rows):
    """A rule over k symbols, with the targets of each state by each."""
    targets = [mask for row in rows for mask in (*row, *[0] * (16 - len(row)))]
    return CheckedRule(len(rows), k, initials, finals, targets + [0] * (512 - len(targets)))


A = rule(2, 1, 4, (3, 1), (0, 4), (0, 0))  # what ends in 0 1
E = rule(2, 1, 1, (2, 1), (1, 2))  # what has an even number of 0s


def every(k):
    """Every text over k symbols."""
    return rule(k, 1, 1, [1] * k)


def tray_with(row, column, width, bands):
    tray = Tray()
    tray.install_row(row)
    tray.install_column(column)
    tray.open(width, bands)
    return tray


def any_rule(chance):
    """Most say yes to a text unless they die in it."""
    n = chance.randint(1, 4)
    target = lambda: chance.randrange(12) and (1 << chance.randrange(n) | chance.getrandbits(n))
    finals = chance.choice((chance.getrandbits(n), 2**n - 1, 2**n - 1))
    return rule(2, 1, finals, *((target(), target()) for _ in range(n)))


def accepts(rule, text):
    reached = rule.initials
    for symbol in text:
        states = [q for q in range(rule.n) if reached >> q & 1]
        reached = 0
        for q in states:
            reached |= rule.target_mask(q, symbol)
    return reached & rule.finals != 0


class Trays(unittest.TestCase):
    def refused(self, number, call, *arguments):
        """The call is refused, and the tray is as it was."""
        before = bytes(call.__self__._tray)
        with self.assertRaises(Refused) as caught:
            call(*arguments)
        self.assertEqual(caught.exception.number, number)
        self.assertEqual(bytes(call.__self__._tray), before)

    def test_bands_in_any_order(self):
        tray = tray_with(A, E, 2, 2)
        self.assertEqual(tray.verdict(), TrayWaiting(2))
        tray.deliver(1, bytes([0, 1]))
        self.assertEqual(tray.verdict(), TrayWaiting(1))
        tray.deliver(0, bytes([0, 1]))
        self.assertEqual(tray.verdict(), TrayYes())
        tray.withdraw(1)
        tray.deliver(1, bytes([0, 1, 0, 1]))  # one 0 too many in the first column
        self.assertEqual(tray.verdict(), TrayNo())
        tray.withdraw(0)
        tray.deliver(0, b"")  # a band of no rows
        self.assertEqual(tray.verdict(), TrayYes())
        self.assertEqual(repr(tray), "<Tray: row states 3, column states 2, width 2, bands 2, filled 2>")

    def test_only_is_yes_is_a_truth_value(self):
        """A program that ships on `if tray.verdict()` would ship on a no and on an empty board."""
        tray = tray_with(A, E, 2, 1)
        for rows, yes in ((None, False), ([0, 1], False), ([0, 1, 0, 1], True)):
            if rows:
                tray.open(2, 1)
                tray.deliver(0, bytes(rows))
            said = tray.verdict()
            self.assertIs(said.is_yes, yes)
            for asked in (bool, lambda v: not v, lambda v: v or 1):
                with self.assertRaisesRegex(TypeError, rf"\b{type(said).__name__}\b.*\.is_yes"):
                    asked(said)
            with self.assertRaises(AttributeError):
                said.is_yes = True
        self.assertEqual(said, TrayYes())

    def test_no_rows_at_all(self):
        for column, due in ((E, TrayYes()), (A, TrayNo())):
            tray = tray_with(A, column, 16, 8)
            for band in range(8):
                tray.deliver(band, b"")
            self.assertEqual(tray.verdict(), due)

    def test_rules(self):
        tray = tray_with(A, E, 2, 1)
        tray.deliver(0, bytes([0, 1, 0, 1]))
        self.assertEqual(tray.verdict(), TrayYes())
        change = dataclasses.replace
        many = rule(2, 1, 1 << 10, (1, 3), *((2 << q, 2 << q) for q in range(1, 10)), ())
        target = change(A, targets=(3, 1, 1) + A.targets[3:])
        no_rules = ((3, change(A, n=33, k=0)), (4, change(A, k=17)), (6, change(A, finals=8)), (8, target), (9, many))
        for number, no_rule in no_rules:
            self.refused(number, tray.install_row, no_rule)
            self.refused(number, tray.install_column, no_rule)
        self.assertEqual(tray.verdict(), TrayYes())
        for install in (tray.install_row, tray.install_column):  # either removes the board
            tray.open(2, 1)
            install(A)
            self.refused(21, tray.verdict)

    def test_refusals_in_their_order(self):
        tray = Tray()
        for install in (lambda: tray.install_column(E), lambda: tray.install_row(A)):
            self.refused(20, tray.open, 0, 0)
            self.refused(21, tray.deliver, 9, b"\xff" * 3)
            self.refused(21, tray.withdraw, 9)
            self.refused(21, tray.verdict)
            install()
        for outside in (0, 17, 257, 2**32 + 1, 2**64 + 1, -1):
            self.refused(38, tray.open, outside, 0)
        for outside in (0, 9, 257, 2**32 + 1, 2**64 + 1, -1):
            self.refused(10, tray.open, 16, outside)
        tray.open(2, 2)
        for band in (2, 256, 2**32, 2**64, -1):
            self.refused(11, tray.deliver, band, b"\xff" * 3)
            self.refused(11, tray.withdraw, band)
        self.refused(23, tray.withdraw, 0)
        tray.deliver(0, b"\1" * 128)  # 64 rows
        for length in (1, 3, 130):
            self.refused(39, tray.deliver, 0, b"\xff" * length)
        self.refused(13, tray.deliver, 0, b"\xff" * 128)
        self.refused(22, tray.deliver, 0, b"\1" * 128)
        self.refused(22, tray.deliver, 0, b"")

    def test_foreign_bytes(self):
        """13 is a byte at or above either rule's k; 255 is no idle mark."""
        for row, column in ((2, 16), (16, 2)):
            tray = tray_with(every(row), every(column), 1, 1)
            for byte in range(2, 256):
                self.refused(13, tray.deliver, 0, bytes([byte]))
            tray.deliver(0, bytes([1]))

    def test_words(self):
        tray = tray_with(A, E, 2, 1)
        words = {
            38: (tray.open, 0, 1),
            39: (tray.deliver, 0, b"\0"),
            10: (tray.open, 1, 9),
            23: (tray.withdraw, 0),
        }
        due = {
            38: "the width is not in 1..16",
            39: "the band is not whole rows, or has over 64",
            10: "the number of bands is not in 1..8",
            23: "the band is empty",
        }
        for number, (call, *arguments) in words.items():
            with self.assertRaises(Refused) as caught:
                call(*arguments)
            self.assertEqual(str(caught.exception), f"refused {number}: {due[number]}")

    def test_arguments(self):
        tray = tray_with(A, E, 2, 1)
        for wrong in ("01", 2, [0, 1]):
            self.assertRaises(TypeError, tray.deliver, 0, wrong)
        for wrong in ("0", 1.0, None):
            self.assertRaises(TypeError, tray.deliver, wrong, b"")
            self.assertRaises(TypeError, tray.withdraw, wrong)
            self.assertRaises(TypeError, tray.open, wrong, 1)
            self.assertRaises(TypeError, tray.open, 1, wrong)
        self.assertRaises(TypeError, tray.install_row, b"")
        self.assertRaises(TypeError, tray.install_column, None)
        self.assertEqual(tray.verdict(), TrayWaiting(1))

    def test_as_a_plain_search(self):
        chance, said = random.Random(13), [0, 0]
        for _ in range(400):
            row, column, width = any_rule(chance), any_rule(chance), chance.randint(1, 5)
            bands = [bytes(chance.choices((0, 1), k=width * chance.randrange(4))) for _ in range(chance.randint(1, 8))]
            tray = tray_with(row, column, width, len(bands))
            for band in chance.sample(range(len(bands)), len(bands)):
                tray.deliver(band, bands[band])
            events = b"".join(bands)
            rows = [events[at : at + width] for at in range(0, len(events), width)]
            columns = [events[c::width] for c in range(width)]
            yes = all(accepts(row, text) for text in rows) and all(accepts(column, text) for text in columns)
            self.assertEqual(tray.verdict(), TrayYes() if yes else TrayNo())
            said[yes] += 1
        self.assertGreater(min(said), 40)

    def test_examples(self):
        found = doctest.testmod(bellbadger.trays)
        self.assertGreater(found.attempted, 0)
        self.assertEqual(found.failed, 0)


if __name__ == "__main__":
    unittest.main()
