"""Two rules made one from Python, as they are and reduced: the results worked by hand, refusals in
their order, and what the judge says with the result installed; random rules reduced, whose texts
and states are looked at."""

import dataclasses
import doctest
import itertools
import random
import unittest

import bellbadger.merge
from bellbadger import CheckedRule, Judge, Refused, read
from bellbadger.compare import compare
from bellbadger.merge import BOTH, EITHER, INTERLEAVING, merge, merge_reduced
from bellbadger.patterns import rule_file
from bellbadger.reduce import reduce

WAYS = (BOTH, EITHER, INTERLEAVING)


def rule(initials, finals, *rows):
    """A rule over 0 and 1, with the targets of each state by both."""
    targets = [mask for by_0, by_1 in rows for mask in (by_0, by_1, *[0] * 14)]
    return CheckedRule(len(rows), 2, initials, finals, targets + [0] * (512 - len(targets)))


def plain(n, k):
    return CheckedRule(n, k, 1, 1)


A = rule(1, 4, (3, 1), (0, 4), (0, 0))  # what ends in 0 1
E = rule(1, 1, (2, 1), (1, 2))  # what has an even number of 0s
EVERY, NONE, NOTHING = rule(1, 1, (1, 1)), rule(1, 0, (1, 1)), rule(0, 0, (0, 0))


def cycle(n):
    """By one symbol round so many states."""
    return dataclasses.replace(rule(1, 1, *((1 << (q + 1) % n, 0) for q in range(n))), k=1)


def answer(function, *arguments):
    """What comes of a call, or the number with which it is refused."""
    try:
        return function(*arguments)
    except Refused as refused:
        return refused.number


def ends_in_0_1(text):
    return text[-2:] == (0, 1)


def even_0s(text):
    return text.count(0) % 2 == 0


def due(way, text):
    if way == BOTH:
        return even_0s(text) and ends_in_0_1(text)
    if way == EITHER:
        return even_0s(text) or ends_in_0_1(text)
    return any(
        even_0s(tuple(itertools.compress(text, marks))) and ends_in_0_1(tuple(s for s, mark in zip(text, marks) if not mark))
        for marks in itertools.product((0, 1), repeat=len(text))
    )


def accepts(judge, text):
    judge.open(1)
    judge.deliver(0, 0, bytes(text))
    return judge.verdict().is_yes


class Merging(unittest.TestCase):
    def refused(self, number, way, one, two, functions=(merge, merge_reduced)):
        for function in functions:
            self.assertEqual(answer(function, way, one, two), number)

    def test_worked_by_hand(self):
        self.assertEqual(merge(BOTH, E, A), rule(1, 4, (24, 1), (0, 4), (0, 0), (3, 8), (0, 32), (0, 0)))
        self.assertEqual(merge(EITHER, E, A), rule(5, 17, (2, 1), (1, 2), (12, 4), (0, 16), (0, 0)))
        self.assertEqual(merge(INTERLEAVING, E, A), rule(1, 4, (11, 1), (16, 6), (32, 4), (25, 8), (2, 48), (4, 32)))

    def test_reduced_by_hand(self):
        # an odd number of 0s, and 1 or nothing to come: these two pairs go
        self.assertEqual(merge_reduced(BOTH, E, A), rule(1, 4, (8, 1), (0, 4), (0, 0), (3, 8)))
        for way in (EITHER, INTERLEAVING):
            self.assertEqual(merge_reduced(way, E, A), merge(way, E, A))
        for way in (BOTH, INTERLEAVING):
            self.assertEqual(merge_reduced(way, NONE, A), NOTHING)
        self.assertEqual(merge_reduced(EITHER, NONE, A), A)

    def test_five_states_by_nine(self):
        one, two = read(rule_file("(ab)*cd")), read(rule_file("(ab|ab|ab)*cd"))
        self.assertEqual((one.n, two.n, answer(merge, BOTH, one, two)), (5, 9, 37))
        made = merge_reduced(BOTH, one, two)
        self.assertEqual(made, merge_reduced(EITHER, one, two))
        self.assertEqual((made.n, made.k, made.initials, made.finals), (4, 16, 1, 8))
        arcs = {(q, s): made.target_mask(q, s) for q in range(4) for s in range(16) if made.target_mask(q, s)}
        self.assertEqual(arcs, {(0, 0): 2, (0, 2): 4, (1, 1): 1, (2, 3): 8})

    def test_thirty_seven(self):
        """It is due to pairs that are reachable and live, be they alike or not, and of no others."""
        self.assertEqual(merge_reduced(BOTH, cycle(32), cycle(32)), cycle(32))
        self.assertEqual(merge_reduced(EITHER, cycle(15), cycle(17)).n, 32)
        self.assertLess(merge_reduced(INTERLEAVING, cycle(4), cycle(8)).n, 32)
        self.refused(37, BOTH, cycle(5), cycle(7))
        self.refused(37, EITHER, cycle(16), cycle(17))
        self.refused(37, INTERLEAVING, cycle(3), cycle(11))

    def test_a_step_that_is_left_out(self):
        """The symbol 1 is the tenth from the end: over 512 sets. Such a rule is taken as it is."""
        many = rule(1, 1 << 10, (1, 3), *((2 << q, 2 << q) for q in range(1, 10)), (0, 0))
        self.assertEqual(answer(reduce, many), 9)
        self.assertEqual(merge_reduced(BOTH, many, EVERY), many)
        self.assertEqual(merge_reduced(BOTH, EVERY, many), many)

    def test_random_rules(self):
        """The texts of merging, and nothing that reducing would take out."""
        r, smaller, beyond = random.Random(10), 0, 0

        def any_rule():
            n = r.randrange(1, 8)
            mask = lambda: r.randrange(2**n) & r.randrange(2**n)
            return rule(mask() | 1, mask(), *((mask(), mask()) for _ in range(n)))

        for _ in range(100):
            one, two = any_rule(), any_rule()
            for way in WAYS:
                made, whole = answer(merge_reduced, way, one, two), answer(merge, way, one, two)
                if made == 37:
                    self.assertEqual(whole, 37)
                    continue
                reduced = answer(reduce, made)
                self.assertTrue(reduced == 9 or reduced.rule == made)
                if whole == 37:
                    beyond += 1
                    continue
                smaller += made.n < whole.n
                told = answer(compare, whole, made)
                self.assertTrue(told == 45 or told.is_same)
        self.assertGreater(smaller, 50)
        self.assertGreater(beyond, 10)

    def test_texts(self):
        for way, function in itertools.product(WAYS, (merge, merge_reduced)):
            judge = Judge()
            judge.install(function(way, E, A))
            for length in range(6):
                for text in itertools.product((0, 1), repeat=length):
                    self.assertEqual(accepts(judge, text), due(way, text), (function, way, text))

    def test_refusals(self):
        mask = dataclasses.replace(plain(2, 2), finals=4)
        target = dataclasses.replace(plain(2, 2), targets=[0, 0, 1] + [0] * 509)
        for way in WAYS:
            self.refused(3, way, plain(33, 17), mask)
            self.refused(4, way, plain(32, 17), plain(33, 2))
            self.refused(6, way, mask, plain(0, 0))
            self.refused(8, way, target, mask)
            self.refused(3, way, plain(32, 1), plain(0, 1))
            self.refused(8, way, plain(32, 1), target)
            self.refused(4, way, plain(32, 2), plain(32, 0))
            self.refused(6, way, plain(32, 1), mask)
            self.refused(36, way, plain(32, 1), plain(32, 2))
            self.refused(37, way, plain(32, 2), plain(32, 2), [merge])
            self.assertEqual(merge_reduced(way, plain(32, 2), plain(32, 2)).n, 1)  # its states are alike
        self.refused(37, BOTH, plain(16, 1), plain(16, 1), [merge])
        self.assertEqual(merge(BOTH, plain(4, 1), plain(8, 1)).n, 32)

    def test_arguments(self):
        for function in (merge, merge_reduced):
            for way in (-1, 3, 256, None, "both"):
                self.assertRaises(ValueError, function, way, A, A)
            self.assertRaises(TypeError, function, BOTH, A, b"")

    def test_examples(self):
        found = doctest.testmod(bellbadger.merge)
        self.assertGreater(found.attempted, 0)
        self.assertEqual(found.failed, 0)


if __name__ == "__main__":
    unittest.main()
