"""A rule reduced from Python: worked by hand, random rules of which every state is looked at, a reduction that cannot
be installed, and refusals in their order."""

import dataclasses
import doctest
import itertools
import random
import unittest

import bellbadger.reduce
from bellbadger import CheckedRule, Judge, Refused
from bellbadger.compare import compare
from bellbadger.reduce import Reduced, reduce


def rule(initials, finals, *rows, k=2):
    """A rule with the targets of each state by its first symbols."""
    targets = [mask for row in rows for mask in (*row, *[0] * (16 - len(row)))]
    return CheckedRule(len(rows), k, initials, finals, targets + [0] * (512 - len(targets)))


def by_one(initials, finals, *targets):
    """A rule over 0 alone, with the targets of each state."""
    return rule(initials, finals, *((mask,) for mask in targets), k=1)


def from_the_end(n):
    """The symbol 1 is the n-th from the end: 2 ** n sets, and more."""
    return rule(1, 1 << n, (1, 3), *((2 << q, 2 << q) for q in range(1, n)), (0, 0))


A = rule(1, 4, (3, 1), (0, 4), (0, 0))  # what ends in 0 1
NOTHING = by_one(0, 0, 0)

# State 0 accepts all texts, and by 1 begins a row of seven states; the last state of all, to which a ring of three
# leads, accepts all texts too. It has 142 sets, and its reduction over 512.
ROW = [(1, 3), *((2 << q, 2 << q) for q in range(1, 7)), (0, 0)]
RING = [(1 << 9, 1 << 9 | 1 << 11), (1 << 10, 1 << 10), (1 << 8, 1 << 8), (1 << 11, 1 << 11)]
GROWS = rule(1 | 1 << 8, 1 | 1 << 7 | 1 << 11, *ROW, *RING)


def onward(r, states):
    """The states that can be reached from these."""
    while True:
        more = states | {t for q in states for s in range(r.k) for t in range(r.n) if r.target_mask(q, s) >> t & 1}
        if more == states:
            return states
        states = more


def members(mask):
    return {q for q in range(32) if mask >> q & 1}


class Reducing(unittest.TestCase):
    def refused(self, number, r):
        with self.assertRaises(Refused) as caught:
            reduce(r)
        self.assertEqual(caught.exception.number, number)

    def lean(self, r, made):
        """The same texts; every state is reached, every state is live, and no two accept the same."""
        self.assertTrue(compare(r, made).is_same)
        if not made.finals:
            self.assertEqual(made, dataclasses.replace(NOTHING, k=r.k))
            return
        self.assertEqual(onward(made, members(made.initials)), set(range(made.n)))
        for q in range(made.n):
            self.assertTrue(onward(made, {q}) & members(made.finals))
        starting = [dataclasses.replace(made, initials=1 << q) for q in range(made.n)]
        for one, two in itertools.combinations(starting, 2):
            self.assertFalse(compare(one, two).is_same)

    def test_worked_by_hand(self):
        for r, due in (
            (A, A),
            (by_one(1, 2, 2, 0, 1), by_one(1, 2, 2, 0)),  # state 2 is not reached
            (by_one(1, 2, 6, 0, 4), by_one(1, 2, 2, 0)),  # state 2 leads nowhere
            (by_one(1, 24, 4, 8, 16, 0, 0), by_one(1, 4, 2, 4, 0)),  # 1 and 3 are alike to others, and not reached
            (by_one(2, 4, 2, 4, 0), by_one(1, 2, 2, 0)),  # the initial state 1 becomes state 0
            (by_one(7, 8, 8, 2, 8, 4), by_one(1, 2, 2, 1)),  # 0 stands for 2, and 1 leads nowhere
            (by_one(1, 4, 3, 1, 4), NOTHING),
            (by_one(0, 1, 1), NOTHING),
        ):
            self.assertEqual(reduce(r), Reduced(due, True))
            self.assertEqual(reduce(due), Reduced(due, True))

    def test_random_rules(self):
        r, fewer = random.Random(9), 0
        for _ in range(200):
            n = r.randrange(1, 7)
            mask = lambda: r.randrange(2**n) & r.randrange(2**n)
            some = rule(mask() | 1, mask(), *((mask(), mask()) for _ in range(n)))
            reduced = reduce(some)
            self.assertTrue(reduced.installs)
            self.lean(some, reduced.rule)
            fewer += reduced.rule.n < n
        self.assertGreater(fewer, 80)

    def test_the_result_may_have_too_many_sets(self):
        judge = Judge()
        self.assertEqual(judge.install(GROWS).sets, 142)
        reduced = reduce(GROWS)
        self.assertEqual((reduced.rule.n, reduced.installs), (11, False))
        self.lean(GROWS, reduced.rule)
        with self.assertRaises(Refused) as caught:
            judge.install(reduced.rule)
        self.assertEqual(caught.exception.number, 9)
        self.refused(9, reduced.rule)

    def test_refusals(self):
        self.refused(3, CheckedRule(33, 17, 1, 1))
        self.refused(4, CheckedRule(32, 17, 1, 1))
        self.refused(6, dataclasses.replace(from_the_end(10), finals=1 << 11))
        self.refused(8, CheckedRule(1, 1, 1, 1, [0, 1] + [0] * 510))
        self.refused(9, from_the_end(10))

    def test_no_truth_value(self):
        for r in (A, GROWS):
            with self.assertRaises(TypeError) as caught:
                bool(reduce(r))
            self.assertEqual(str(caught.exception), "a reduced rule is no truth value: write .installs behind it")

    def test_examples(self):
        found = doctest.testmod(bellbadger.reduce)
        self.assertGreater(found.attempted, 0)
        self.assertEqual(found.failed, 0)


if __name__ == "__main__":
    unittest.main()
