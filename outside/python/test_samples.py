"""A sample trace of a rule from Python: texts worked by hand, the shortest by trying all texts in order,
refusals in their order, and what the judge says of a sample."""

import dataclasses
import doctest
import itertools
import random
import unittest

import bellbadger.samples
from bellbadger import CheckedRule, Judge, Refused
from bellbadger.samples import ACCEPTED, REJECTED, sample


def rule(initials, finals, *rows, k=2):
    """A rule with the targets of each state by its first symbols."""
    targets = [mask for row in rows for mask in (*row, *[0] * (16 - len(row)))]
    return CheckedRule(len(rows), k, initials, finals, targets + [0] * (512 - len(targets)))


def from_the_end(n, k=2):
    """The symbol 1 is the n-th from the end: texts lead to 2 ** n sets from {0}."""
    return rule(1, 1 << n, (1, 3), *((2 << q, 2 << q) for q in range(1, n)), (0, 0), k=k)


A = rule(1, 4, (3, 1), (0, 4), (0, 0))  # what ends in 0 1
EVERY = rule(1, 1, (1, 1))


def accepts(r, text):
    states = {q for q in range(r.n) if r.initials >> q & 1}
    for s in text:
        states = {t for q in states for t in range(r.n) if r.target_mask(q, s) >> t & 1}
    return any(r.finals >> q & 1 for q in states)


def first(wish, r):
    """Texts of the rule's symbols in their order; a sample is shorter than the number of sets of states."""
    for length in range(2**r.n):
        for text in itertools.product(range(r.k), repeat=length):
            if accepts(r, text) == (wish == ACCEPTED):
                return bytes(text)
    return None


class Samples(unittest.TestCase):
    def refused(self, number, r):
        for wish in (ACCEPTED, REJECTED):
            with self.assertRaises(Refused) as caught:
                sample(wish, r)
            self.assertEqual(caught.exception.number, number)

    def test_worked_by_hand(self):
        self.assertEqual((sample(ACCEPTED, A), sample(REJECTED, A)), (bytes([0, 1]), b""))
        self.assertEqual((sample(ACCEPTED, EVERY), sample(REJECTED, EVERY)), (b"", None))
        nothing = dataclasses.replace(EVERY, initials=0)
        self.assertEqual((sample(ACCEPTED, nothing), sample(REJECTED, nothing)), (None, b""))
        self.assertEqual(sample(ACCEPTED, from_the_end(9)), bytes([1] + 8 * [0]))

    def test_first_of_all(self):
        r = random.Random(9)
        for _ in range(300):
            n, k = r.randrange(1, 4), r.randrange(1, 3)
            mask = lambda: r.randrange(2**n) & (r.randrange(2**n) | r.randrange(2**n))
            some = rule(r.randrange(2**n), r.randrange(2**n), *([mask() for _ in range(k)] for _ in range(n)), k=k)
            for wish in (ACCEPTED, REJECTED):
                self.assertEqual(sample(wish, some), first(wish, some), some)

    def test_the_judge_agrees(self):
        for r in (A, from_the_end(3), rule(1, 2, (2, 1), (1, 3))):
            for wish in (ACCEPTED, REJECTED):
                judge = Judge()
                judge.install(r)
                judge.open(1)
                judge.deliver(0, 0, sample(wish, r))
                self.assertEqual(judge.verdict().is_yes, wish == ACCEPTED)

    def test_refusals(self):
        self.refused(35, from_the_end(10))
        self.refused(35, from_the_end(9, k=3))  # the empty set is the 513th
        self.refused(3, CheckedRule(33, 17, 1, 1))
        self.refused(4, CheckedRule(32, 17, 1, 1))
        self.refused(6, dataclasses.replace(from_the_end(10), finals=1 << 11))
        self.refused(8, CheckedRule(1, 1, 1, 1, [0, 1] + [0] * 510))

    def test_arguments(self):
        for wish in (-1, 2, 256, None, "accepted"):
            self.assertRaises(ValueError, sample, wish, A)
        self.assertRaises(TypeError, sample, ACCEPTED, b"")

    def test_examples(self):
        found = doctest.testmod(bellbadger.samples)
        self.assertGreater(found.attempted, 0)
        self.assertEqual(found.failed, 0)


if __name__ == "__main__":
    unittest.main()
