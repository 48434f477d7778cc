"""Summaries from Python: worked by hand, refusals, bytes and pickles that travel, and random rules, cuts and
bracketings beside a filled board; and lists of chunks in which something went wrong, none of which is a yes."""

import copy
import dataclasses
import doctest
import functools
import pickle
import random
import unittest

import bellbadger.summaries
from bellbadger import CheckedRule, Judge, No, Refused, Yes, read
from bellbadger.follow import Follower
from bellbadger.summaries import Summary, combine

A = read(bytes.fromhex("03020100000004000000160006001C0002001E0000000000000101000102"))
# states 1 and 2 are alike
B = CheckedRule(3, 1, 1, 6, [{0: 6, 16: 1, 32: 1}.get(cell, 0) for cell in range(512)])
LARGEST = 2**64 - 1


def by(rule):
    judge = Judge()
    judge.install(rule)
    return judge


def any_rule(chance):
    n, k = chance.randint(1, 6), chance.randint(1, 3)
    some = lambda: chance.getrandbits(n) & chance.getrandbits(n)
    targets = [some() if q < n and s < k else 0 for q in range(32) for s in range(16)]
    return CheckedRule(n, k, some() | 1, some() | some(), targets)


def any_chunks(chance, k, most):
    some_byte = lambda: chance.choice((255, *range(k)))
    return [bytes(some_byte() for _ in range(chance.randrange(6))) for _ in range(chance.randint(1, most))]


def any_summary(chance):
    fields = chance.getrandbits(64), chance.getrandbits(64), chance.randrange(2), chance.randrange(3), chance.randrange(3)
    leads = [chance.getrandbits(32) & chance.getrandbits(32) & chance.getrandbits(32) for _ in range(32)]
    return Summary(leads, *fields, chance.choice((0, 0, 0, 1, 255)))


def in_any_bracketing(chance, summaries):
    summaries = list(summaries)
    while len(summaries) > 1:
        at = chance.randrange(len(summaries) - 1)
        summaries[at : at + 2] = [combine(summaries[at], summaries[at + 1])]
    return summaries[0]


def board(judge, chunks):
    judge.open(len(chunks))
    for place, chunk in enumerate(chunks):
        judge.deliver(place, 0, chunk)
    return judge.verdict()


class Summaries(unittest.TestCase):
    def refused(self, number, call, *arguments):
        with self.assertRaises(Refused) as caught:
            call(*arguments)
        self.assertEqual(caught.exception.number, number)

    def test_by_hand(self):
        judge = by(A)
        zero, one = judge.summarize(0, bytes([0, 255])), judge.summarize(1, bytes([255, 1]))
        self.assertEqual(zero, Summary((3,) + (0,) * 31, 1, 1, zero.rule, 0, 1, 0))
        self.assertEqual(one, Summary((1, 4) + (0,) * 30, 2, 1, zero.rule, 1, 2, 0))
        whole = combine(zero, one)
        self.assertEqual(whole, Summary((5,) + (0,) * 31, 3, 2, zero.rule, 0, 2, 0))
        self.assertEqual(judge.conclude(whole, 2), Yes(3, 2, 1, 1))
        self.assertEqual(judge.conclude(zero, 1), No(1, 1, 1, 0))
        self.assertEqual(judge.conclude(judge.summarize(0, b""), 1), No(0, 0, 0, 0))
        self.assertEqual(by(B).summarize(7, b"\0").leads[:3], (2, 1, 0))
        self.assertTrue(judge.summarize(LARGEST, b"").is_broken)
        self.assertFalse(judge.summarize(LARGEST - 1, b"").is_broken)
        self.assertEqual(repr(combine(one, zero)), "<Summary: first 1, end 1, count 3, bytes 2, broken>")

    def test_refused(self):
        judge, fresh = by(A), Judge()
        self.refused(20, fresh.summarize, 0, bytes([2]) * 65537)
        self.refused(12, judge.summarize, 0, bytes([2]) * 65537)
        self.refused(13, judge.summarize, 9, bytes([2]) * 65536)
        self.refused(13, judge.summarize, 9, bytes([254]))
        whole, change = judge.summarize(0, b"\0"), dataclasses.replace
        wrong = change(whole, broken=1, rule=whole.rule ^ 1, end=5)
        self.refused(20, fresh.conclude, wrong, 1)
        self.refused(42, judge.conclude, wrong, 1)
        self.refused(42, judge.conclude, change(wrong, broken=0, first=1), 1)
        self.refused(43, judge.conclude, change(wrong, broken=0), 1)
        self.refused(43, by(B).conclude, whole, 1)
        for chunks in (0, 2, LARGEST, -1, 2**64, 2**64 + 1):
            self.refused(44, judge.conclude, whole, chunks)
        self.refused(42, judge.conclude, change(whole, broken=1), -1)
        self.refused(44, judge.conclude, change(whole, end=LARGEST), -1)

    def test_no_wrong_yes(self):
        """0 and then 1, which the rule rejects. By another rule's delegates, 0 1 1, it would be a yes."""
        rule = CheckedRule(3, 2, 1, 2, [{0: 4, 17: 2, 32: 2}.get(cell, 0) for cell in range(512)])
        judge, other = by(rule), by(B)
        whole = combine(judge.summarize(0, b"\0"), judge.summarize(1, b"\1"))
        self.assertFalse(judge.conclude(whole, 2).is_yes)
        self.refused(43, other.conclude, whole, 2)
        mixed = combine(judge.summarize(0, b"\0"), other.summarize(1, b"\0"))
        self.refused(42, judge.conclude, mixed, 2)
        self.refused(42, other.conclude, mixed, 2)

    def test_no_truth_value(self):
        for ask in (bool, lambda summary: summary and 1, lambda summary: not summary):
            with self.assertRaisesRegex(TypeError, r"^a summary is no truth value: .*\.is_yes$"):
                ask(by(A).summarize(0, b""))

    def test_any_values_combine_and_travel(self):
        chance = random.Random(1)
        for _ in range(300):
            a, b, c = any_summary(chance), any_summary(chance), any_summary(chance)
            self.assertEqual(combine(combine(a, b), c), combine(a, combine(b, c)))
            for protocol in range(pickle.HIGHEST_PROTOCOL + 1):
                self.assertEqual(pickle.loads(pickle.dumps(a, protocol)), a)
            for same in (Summary.from_bytes(a.to_bytes()), copy.copy(a), copy.deepcopy(a)):
                self.assertEqual((same, hash(same)), (a, hash(a)))
        with self.assertRaises(dataclasses.FrozenInstanceError):
            a.count = 0

    def test_layout(self):
        data = Summary([0x04030201] + [0] * 30 + [1 << 31], 5, 6 << 8, 7 << 56, 8, 9, 10).to_bytes()
        self.assertEqual(data[:4] + data[127:129] + data[137:138] + data[151:153], bytes([1, 2, 3, 4, 128, 5, 6, 7, 8]))
        self.assertEqual((data[160], data[168], len(data), sum(map(bool, data))), (9, 10, 169, 11))
        self.assertLess(len(pickle.dumps(Summary.from_bytes(data))), 280)

    def test_as_a_filled_board(self):
        chance, said = random.Random(8), [0, 0]
        for _ in range(300):
            rule = any_rule(chance)
            judge, chunks = by(rule), any_chunks(chance, rule.k, 12)
            summaries = [judge.summarize(number, chunk) for number, chunk in enumerate(chunks)]
            verdict = judge.conclude(in_any_bracketing(chance, summaries), len(chunks))
            self.assertEqual(verdict, board(by(rule), chunks))
            said[verdict.is_yes] += 1
        self.assertGreater(min(said), 30)

    def test_more_chunks_than_a_board_takes(self):
        chance, follower, judge = random.Random(2), Follower(A), by(A)
        chunks = any_chunks(chance, 2, 2) * 500
        for chunk in chunks:
            followed = follower.follow(chunk)
        whole = functools.reduce(combine, (judge.summarize(number, chunk) for number, chunk in enumerate(chunks)))
        self.assertIs(judge.conclude(whole, len(chunks)).is_yes, followed.is_accepted_so_far)

    def test_gone_wrong(self):
        chance, judge = random.Random(5), by(A)
        other = by(dataclasses.replace(A, finals=2))
        for _ in range(100):
            chunks = any_chunks(chance, 2, 6) + [bytes([0, 1])]
            n, at = len(chunks), chance.randrange(len(chunks))
            right, others = ([j.summarize(number, chunk) for number, chunk in enumerate(chunks)] for j in (judge, other))
            self.assertTrue(judge.conclude(in_any_bracketing(chance, right), n).is_yes)
            wrong = [
                (42 if at < n - 1 else 44, right[:at] + right[at + 1 :]),
                (42, right[:at] + right[at : at + 1] + right[at:]),
                (42, right[:at] + others[at : at + 1] + right[at + 1 :]),
                (43, others),
            ]
            if at:
                wrong.append((42, [right[at], *right[1:at], right[0], *right[at + 1 :]]))
            for due, summaries in wrong:
                self.refused(due, judge.conclude, in_any_bracketing(chance, summaries), n)

    def test_examples(self):
        found = doctest.testmod(bellbadger.summaries)
        self.assertGreater(found.attempted, 0)
        self.assertEqual(found.failed, 0)


if __name__ == "__main__":
    unittest.main()
