"""Where a trace is lost, from Python: worked by hand, refusals in their order, and small random boards beside
the words: all texts that might follow are tried."""

import dataclasses
import doctest
import itertools
import random
import unittest

import bellbadger.losses
from bellbadger import CheckedRule, Judge, Refused
from bellbadger.losses import Lost, Open

IDLE = 255


def rule(initials, finals, *rows):
    """A rule over 0 and 1, with the targets of each state by both."""
    targets = [mask for row in rows for mask in (*row, *[0] * 14)]
    return CheckedRule(len(rows), 2, initials, finals, targets + [0] * (512 - len(targets)))


# 0, 0 1 0, 0 1 0 1 0 and so on; what comes out of order leads to state 2 and stays there
IN_TURN = rule(1, 2, (2, 4), (4, 1), (4, 4))
ENDS_IN_0_1 = rule(1, 4, (3, 1), (0, 4), (0, 0))


def opened(r, *chunks):
    """A judge with a board of these chunks, None for an empty place; the last is delivered first."""
    judge = Judge()
    judge.install(r)
    judge.open(len(chunks))
    for place, chunk in reversed(list(enumerate(chunks))):
        if chunk is not None:
            judge.deliver(place, 0, bytes(chunk))
    return judge


def accepts(r, text):
    states = {q for q in range(r.n) if r.initials >> q & 1}
    for s in text:
        states = {t for q in states for t in range(r.n) if r.target_mask(q, s) >> t & 1}
    return any(r.finals >> q & 1 for q in states)


def continued(r, chunk):
    """Whether a text can follow so that the rule accepts both: one that is shorter than there are states."""
    text = [byte for byte in chunk if byte != IDLE]
    rests = (rest for length in range(r.n) for rest in itertools.product((0, 1), repeat=length))
    return any(accepts(r, [*text, *rest]) for rest in rests)


class Losses(unittest.TestCase):
    def refused(self, number, function, *arguments):
        with self.assertRaises(Refused) as caught:
            function(*arguments)
        self.assertEqual(caught.exception.number, number)

    def test_worked_by_hand(self):
        self.assertEqual(opened(IN_TURN, None, (1, 1), None).diagnose(), Open(0))
        judge = opened(IN_TURN, (0,), (1, 1), None)
        self.assertEqual(judge.diagnose(), Lost(1))
        for chunk, due in (
            ((1, 1), 2),
            ((IDLE, 1, IDLE, IDLE, 1, IDLE), 5),
            ((0, IDLE), 1),
            ((1, IDLE, 0), None),
            ((IDLE, IDLE), None),
            ((), None),
        ):
            self.assertEqual(judge.locate(1, bytes(chunk)), due, chunk)
        self.assertEqual(judge.locate(2, b""), 0)
        judge.deliver(2, 0, bytes([0]))
        self.assertEqual(judge.diagnose(), Lost(1))
        self.assertFalse(judge.verdict().is_yes)
        judge.deliver(1, 1, bytes([1]))
        self.assertEqual(judge.diagnose(), Open(3))
        self.assertTrue(judge.verdict().is_yes)

    def test_stopped_too_early(self):
        judge = opened(ENDS_IN_0_1, (0,), (1, 0))
        self.assertEqual((judge.diagnose(), judge.verdict().is_yes), (Open(2), False))

    def test_a_rule_that_accepts_nothing(self):
        nothing = dataclasses.replace(IN_TURN, finals=0)
        self.assertEqual(opened(nothing, None).diagnose(), Open(0))
        self.assertEqual(opened(nothing, None).locate(0, bytes([0])), 0)
        self.assertEqual(opened(nothing, ()).diagnose(), Lost(0))

    def test_refusals(self):
        judge, foreign = Judge(), bytes([2]) * 65537
        self.refused(21, judge.diagnose)
        self.refused(21, judge.locate, 2, foreign)
        judge.install(IN_TURN)
        self.refused(21, judge.diagnose)
        judge.open(2)
        self.refused(11, judge.locate, 2, foreign)
        self.refused(12, judge.locate, 1, foreign)
        self.refused(13, judge.locate, 1, foreign[1:])
        self.refused(23, judge.locate, 1, bytes([IDLE]))
        self.assertIn("one before it, has no chunk", str(Refused(23)))
        self.assertIsNone(judge.locate(0, bytes([IDLE]) * 65536))

    def test_no_truth_value(self):
        for found in (Lost(0), Open(1)):
            self.assertEqual(found.is_lost, isinstance(found, Lost))
            for asked in (lambda: bool(found), lambda: not found, lambda: found or None):
                with self.assertRaisesRegex(TypeError, f"a diagnosis, here {type(found).__name__}, is no truth value"):
                    asked()
        self.assertNotEqual(Lost(1), Open(1))

    def test_beside_the_words(self):
        r = random.Random(9)
        seen = {Lost: 0, Open: 0, int: 0, type(None): 0}
        for _ in range(600):
            n = r.randrange(1, 4)
            mask = lambda: r.randrange(2**n) & (r.randrange(2**n) | r.randrange(2**n))
            some = rule(mask() | 1, mask(), *((mask(), mask()) for _ in range(n)))
            chunk = lambda: bytes(r.choices((0, 1, IDLE), k=r.randrange(4)))
            chunks = [chunk() if r.randrange(6) else None for _ in range(r.randrange(1, 4))]
            judge = opened(some, *chunks)
            filled = list(itertools.takewhile(lambda c: c is not None, chunks))
            lost = (p for p in range(len(filled)) if not continued(some, b"".join(filled[: p + 1])))
            due = next(map(Lost, lost), Open(len(filled)))
            self.assertEqual(judge.diagnose(), due, (some, chunks))
            seen[type(due)] += 1
            for place, chunk in enumerate(filled):
                with_bytes = lambda b: b"".join(filled[:place]) + chunk[:b]
                due = next((b for b in range(len(chunk) + 1) if not continued(some, with_bytes(b))), None)
                self.assertEqual(judge.locate(place, chunk), due, (some, chunks))
                seen[type(due)] += 1
        self.assertGreater(min(seen.values()), 60)

    def test_examples(self):
        found = doctest.testmod(bellbadger.losses)
        self.assertGreater(found.attempted, 0)
        self.assertEqual(found.failed, 0)


if __name__ == "__main__":
    unittest.main()
