"""The mapping machine from Python: chunks, refusals, arguments that C would misread, and the same yes or
no as a filled board on random rules, cuts and bracketings."""

import dataclasses
import doctest
import random
import unittest

import bellbadger.mappings
from bellbadger import CheckedRule, Judge, Refused, read
from bellbadger.mappings import Profile, compose

A = bytes.fromhex("03020100000004000000160006001C0002001E0000000000000101000102")


def of(*masks):
    """The mapping whose first masks are these."""
    return bytes(masks).ljust(8, b"\0")


def any_rule(chance):
    n, k = chance.randint(1, 5), chance.randint(1, 2)
    some = lambda: chance.getrandbits(n)
    targets = [some() & some() if q < n and s < k else 0 for q in range(32) for s in range(16)]
    return CheckedRule(n, k, some(), some(), targets)


def in_any_bracketing(chance, mappings):
    while len(mappings) > 1:
        at = chance.randrange(len(mappings) - 1)
        mappings[at : at + 2] = [compose(mappings[at], mappings[at + 1])]
    return mappings[0]


class Mappings(unittest.TestCase):
    def refused(self, number, call, *arguments):
        with self.assertRaises(Refused) as caught:
            call(*arguments)
        self.assertEqual(caught.exception.number, number)

    def test_chunks(self):
        profile = Profile(read(A))
        self.assertEqual(len(profile), 5)
        zero, one = profile.run(b"\0"), profile.run(b"\1")
        self.assertEqual((zero, one), (of(3), of(1, 4)))
        for nothing in (b"", b"\xff", bytes([255]) * 65536):
            self.assertEqual(profile.run(nothing), of(1, 2, 4))
        self.assertEqual(profile.run(bytes([255, 0, 255, 1])), compose(zero, one))
        self.assertEqual(compose(zero, one), of(5))
        self.assertTrue(profile.accepts(of(5)))
        for mapping in (of(3), of(0, 4, 4), of(0xF8, 0xFF, 0xFF), of(0, *[255] * 7)):
            self.assertFalse(profile.accepts(mapping))

    def test_refused(self):
        rule = read(A)
        profile, change = Profile(rule), dataclasses.replace
        self.refused(13, profile.run, bytes([0, 2]))
        self.refused(13, profile.run, bytes([254]))
        self.refused(12, profile.run, bytes([255]) * 65537)
        self.refused(3, Profile, change(rule, n=33, k=0))
        self.refused(4, Profile, change(rule, k=17, finals=8))
        self.refused(6, Profile, change(rule, initials=8))
        self.refused(8, Profile, change(rule, targets=(8,) + rule.targets[1:]))
        self.refused(33, Profile, change(rule, n=9))
        self.assertEqual(len(Profile(change(rule, n=8))), 5)

    def test_as_many_mappings_as_there_may_be(self):
        # each symbol leads each state to itself, and one of the first three to one of the next three too
        cells = {16 * q + s: 1 << q | (8 << s % 3 if s // 3 == q else 0) for q in range(8) for s in range(9)}
        rule = CheckedRule(8, 9, 1, 1, (cells.get(cell, 0) for cell in range(512)))
        self.assertEqual(len(Profile(rule)), 512)
        rule = dataclasses.replace(rule, k=10)
        self.refused(34, Profile, rule)
        self.refused(33, Profile, dataclasses.replace(rule, n=9))

    def test_arguments(self):
        profile = Profile(read(A))
        for mapping in (bytes(7), bytes(9), b""):
            self.assertRaises(ValueError, compose, mapping, bytes(8))
            self.assertRaises(ValueError, profile.accepts, mapping)
        for wrong in ("00000000", 8, [0] * 8):
            self.assertRaises(TypeError, compose, bytes(8), wrong)
        self.assertRaises(TypeError, Profile, A)

    def test_as_a_filled_board(self):
        chance, said = random.Random(8), [0, 0]
        for _ in range(300):
            rule = any_rule(chance)
            try:
                profile = Profile(rule)
            except Refused as refused:
                self.assertEqual(refused.number, 34)
                continue
            some_byte = lambda: chance.choice((255, *range(rule.k)))
            chunks = [bytes(some_byte() for _ in range(chance.randrange(5))) for _ in range(chance.randint(1, 8))]
            judge = Judge()
            judge.install(rule)
            judge.open(len(chunks))
            for place, chunk in enumerate(chunks):
                judge.deliver(place, 0, chunk)
            yes = profile.accepts(in_any_bracketing(chance, [profile.run(chunk) for chunk in chunks]))
            self.assertIs(yes, judge.verdict().is_yes)
            said[yes] += 1
        self.assertGreater(min(said), 30)

    def test_examples(self):
        found = doctest.testmod(bellbadger.mappings)
        self.assertGreater(found.attempted, 0)
        self.assertEqual(found.failed, 0)


if __name__ == "__main__":
    unittest.main()
