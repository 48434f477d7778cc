"""Two rules compared from Python: worked by hand, the first of all texts by trying them in their order, 512 and
513 pairs, refusals in their order, and what the judge says of a text."""

import dataclasses
import doctest
import itertools
import random
import unittest

import bellbadger.compare
from bellbadger import CheckedRule, Judge, Refused
from bellbadger.compare import FirstAlone, Same, SecondAlone, compare


def rule(initials, finals, *rows, k=2):
    """A rule with the targets of each state by its first symbols."""
    targets = [mask for row in rows for mask in (*row, *[0] * (16 - len(row)))]
    return CheckedRule(len(rows), k, initials, finals, targets + [0] * (512 - len(targets)))


def plain(n, k):
    return CheckedRule(n, k, 1, 1)


def from_the_end(n, k=2):
    """The symbol 1 is the n-th from the end: texts lead to 2 ** n sets from {0}."""
    return rule(1, 1 << n, (1, 3), *((2 << q, 2 << q) for q in range(1, n)), (0, 0), k=k)


def cycles(spared=None):
    """By 0 alone: cycles of 7, 8 and 9 states, all final but those that so many symbols lead to."""
    initials = finals = at = 0
    rows = []
    for size in (7, 8, 9):
        initials |= 1 << at
        finals |= sum(1 << at + i for i in range(size) if spared is None or i != spared % size)
        rows += [(1 << at + (i + 1) % size,) for i in range(size)]
        at += size
    return rule(initials, finals, *rows, k=1)


def in_a_row(n, spared=None):
    """By 0 alone: n states, of which the last stays, all final but the one that is spared."""
    finals = sum(1 << q for q in range(n) if q != spared)
    return rule(1, finals, *((1 << min(q + 1, n - 1),) for q in range(n)), k=1)


A = rule(1, 4, (3, 1), (0, 4), (0, 0))  # what ends in 0 1
E = rule(1, 1, (2, 1), (1, 2))  # what has an even number of 0s
EVERY = rule(1, 1, (1, 1))
NOTHING = dataclasses.replace(EVERY, finals=0)


def accepts(r, text):
    states = {q for q in range(r.n) if r.initials >> q & 1}
    for s in text:
        states = {t for q in states for t in range(r.n) if r.target_mask(q, s) >> t & 1}
    return any(r.finals >> q & 1 for q in states)


def first(one, two):
    """Texts in their order: two deterministic automata, of the sets of states, are told apart by a text shorter
    than their numbers of states together."""
    for length in range(2**one.n + 2**two.n):
        for text in itertools.product(range(one.k), repeat=length):
            if accepts(one, text) != accepts(two, text):
                return FirstAlone(bytes(text)) if accepts(one, text) else SecondAlone(bytes(text))
    return Same()


def judged(r, text):
    judge = Judge()
    judge.install(r)
    judge.open(1)
    judge.deliver(0, 0, text)
    return judge.verdict().is_yes


class Comparing(unittest.TestCase):
    def refused(self, number, one, two):
        with self.assertRaises(Refused) as caught:
            compare(one, two)
        self.assertEqual(caught.exception.number, number)

    def apart(self, one, two, *text):
        self.assertEqual(compare(one, two), FirstAlone(bytes(text)))
        self.assertEqual(compare(two, one), SecondAlone(bytes(text)))

    def test_worked_by_hand(self):
        self.assertEqual(compare(A, A), Same())
        self.assertEqual(compare(A, rule(4, 1, (0, 0), (0, 1), (6, 4))), Same())
        self.assertEqual(compare(NOTHING, dataclasses.replace(EVERY, initials=0)), Same())
        self.apart(EVERY, NOTHING)
        self.apart(EVERY, A)
        self.apart(A, NOTHING, 0, 1)
        self.apart(rule(1, 4, (3, 1), (0, 4), (0, 4)), A, 0, 1, 1)

    def test_up_to_512_pairs(self):
        self.assertEqual(compare(cycles(), in_a_row(9)), Same())
        self.refused(45, cycles(), in_a_row(10))
        self.apart(in_a_row(9, 7), cycles(7), *[0] * 511)
        self.refused(45, in_a_row(10, 8), cycles(8))
        self.apart(from_the_end(9), from_the_end(20), 1, *[0] * 8)
        self.refused(45, from_the_end(10), from_the_end(20))
        with self.assertRaises(Refused) as caught:
            compare(from_the_end(10), from_the_end(10))
        self.assertEqual(str(caught.exception), "refused 45: within 512 pairs of sets the rules do not differ, and there are more")

    def test_first_of_all(self):
        r, seen = random.Random(9), set()
        for _ in range(300):
            k = r.randrange(1, 3)
            mask = lambda n: r.randrange(2**n) & (r.randrange(2**n) | r.randrange(2**n))
            some = lambda n: rule(r.randrange(2**n), r.randrange(2**n), *([mask(n) for _ in range(k)] for _ in range(n)), k=k)
            one, two = some(r.randrange(1, 3)), some(r.randrange(1, 3))
            self.assertEqual(compare(one, two), first(one, two), (one, two))
            seen.add(type(compare(one, two)))
        self.assertEqual(seen, {FirstAlone, SecondAlone, Same})

    def test_the_judge_agrees(self):
        for one, two in itertools.permutations((A, E, EVERY, NOTHING, from_the_end(3)), 2):
            compared = compare(one, two)
            said = judged(one, compared.text), judged(two, compared.text)
            self.assertEqual(said, (True, False) if isinstance(compared, FirstAlone) else (False, True))

    def test_refusals(self):
        mask = dataclasses.replace(plain(2, 2), finals=4)
        target = dataclasses.replace(plain(2, 2), targets=[0, 0, 1] + [0] * 509)
        self.refused(3, plain(33, 17), mask)
        self.refused(4, plain(32, 17), plain(33, 2))
        self.refused(6, mask, plain(0, 0))
        self.refused(8, target, mask)
        self.refused(3, from_the_end(10), plain(0, 1))
        self.refused(4, from_the_end(10), plain(1, 0))
        self.refused(6, plain(32, 1), mask)
        self.refused(8, plain(32, 1), target)
        self.refused(36, from_the_end(10), from_the_end(10, k=3))
        self.refused(45, from_the_end(10), from_the_end(10))

    def test_no_truth_value(self):
        for compared, same in ((compare(A, A), True), (compare(A, E), False), (compare(E, A), False)):
            self.assertIs(compared.is_same, same)
            with self.assertRaises(TypeError) as caught:
                bool(compared)
            said = f"a comparison, here {type(compared).__name__}, is no truth value: write .is_same behind it"
            self.assertEqual(str(caught.exception), said)

    def test_examples(self):
        found = doctest.testmod(bellbadger.compare)
        self.assertGreater(found.attempted, 0)
        self.assertEqual(found.failed, 0)


if __name__ == "__main__":
    unittest.main()
