"""Following a trace from Python: chunks worked by hand, refusals and other exceptions that stand until they are
dropped, answers that are no truth value, and random rules of up to 32 states against plain runs and against a filled
board."""

import array
import dataclasses
import doctest
import random
import unittest
import unittest.mock

import bellbadger.follow
from bellbadger import CheckedRule, Judge, Refused, read
from bellbadger.follow import Followed, Follower

A = read(bytes.fromhex("03020100000004000000160006001C0002001E0000000000000101000102"))
# 0 and then 1, and nothing else
ONCE = CheckedRule(3, 2, 1, 4, [{0: 2, 17: 4}.get(cell, 0) for cell in range(512)])


class Plain:
    """Runs of the automaton, state by state: sets of numbers, and no masks."""

    def __init__(self, rule):
        self.symbols = range(rule.k)
        states = range(rule.n)
        self.arcs = {(q, s): {p for p in states if rule.targets[16 * q + s] >> p & 1} for q in states for s in self.symbols}
        self.finals = {q for q in states if rule.finals >> q & 1}
        self.reached = {q for q in states if rule.initials >> q & 1}

    def step(self, states, symbol):
        return set().union(*(self.arcs[q, symbol] for q in states))

    def can_end(self, states):
        """A final state can be reached: by every symbol, until nothing new is."""
        seen, fresh = set(), set(states)
        while fresh:
            seen |= fresh
            fresh = set().union(*(self.step(fresh, s) for s in self.symbols)) - seen
        return bool(seen & self.finals)

    def follow(self, chunk):
        before, lost = self.reached, None if self.can_end(self.reached) else 0
        for at, byte in enumerate(chunk, 1):
            if byte != 255:
                self.reached = self.step(self.reached, byte)
            if lost is None and not self.can_end(self.reached):
                lost = at
            if lost is None:
                before = self.reached
        expected = tuple(s for s in self.symbols if self.can_end(self.step(before, s)))
        return Followed(bool(self.reached & self.finals), lost, expected, bool(before & self.finals))


def any_rule(chance):
    """Few arcs, so that most rules have few sets; from some state on no arc leads back."""
    n, k = chance.randint(1, 32), chance.randint(1, 4)
    fence = chance.randint(1, n)
    targets = [0] * 512
    for q in range(n):
        for s in range(k):
            for some in (0.9, 0.05):
                if chance.random() < some:
                    targets[16 * q + s] |= 1 << chance.randrange(0 if q < fence else fence, n)
    return CheckedRule(n, k, 1 << chance.randrange(fence), 1 << chance.randrange(n) | 1 << chance.randrange(fence), targets)


class Follow(unittest.TestCase):
    def refused(self, number, call, *arguments):
        with self.assertRaises(Refused) as caught:
            call(*arguments)
        self.assertEqual(caught.exception.number, number)

    def test_by_hand(self):
        follower = Follower(A)
        self.assertEqual(follower.follow(b"\0"), Followed(False, None, (0, 1), False))
        for chunk in (b"\xff\1", b""):
            self.assertEqual(follower.follow(chunk), Followed(True, None, (0, 1), True))
        self.assertEqual(repr(follower), "<Follower: states 3, symbols 2, reached 2>")
        follower = Follower(ONCE)
        self.assertEqual(follower.follow(bytes([255, 0, 255, 0, 1])), Followed(False, 4, (1,), False))
        for chunk in (b"", b"\0\1"):
            self.assertEqual(follower.follow(chunk), Followed(False, 0, (), False))
        self.assertEqual(Follower(ONCE).follow(bytes([0, 1, 1])), Followed(False, 3, (), True))

    def test_every_symbol_and_state(self):
        # from each state any symbol leads to the next one, and from the last nowhere
        rule = CheckedRule(32, 16, 1, 1 << 31, [2 << q if q < 31 else 0 for q in range(32) for s in range(16)])
        follower = Follower(rule)
        self.assertEqual(follower.follow(bytes(30)), Followed(False, None, tuple(range(16)), False))
        self.assertEqual(follower.follow(bytes([15])), Followed(True, None, (), True))
        self.assertEqual(follower.follow(bytes([15])), Followed(False, 1, (), True))

    def test_lost(self):
        for lost_at in (None, 0, 1):
            self.assertIs(Followed(False, lost_at, (), False).is_lost, lost_at is not None)

    def test_no_truth_value(self):
        for answer in (Follower(A).follow(b"\0\1"), Follower(A).follow(b"")):
            for ask in (bool, lambda answer: answer and 1, lambda answer: not answer):
                with self.assertRaisesRegex(TypeError, r"write \.is_accepted_so_far behind it$"):
                    ask(answer)

    def test_refused(self):
        change = dataclasses.replace
        self.refused(3, Follower, change(A, n=33, k=0))
        self.refused(4, Follower, change(A, k=17, finals=8))
        self.refused(6, Follower, change(A, initials=8))
        self.refused(8, Follower, change(A, targets=(8,) + A.targets[1:]))

    def test_a_refusal_stands(self):
        # without the refused chunk 0 and 1 came, which would be accepted
        follower = Follower(ONCE)
        for number, chunk in ((13, bytes([1, 2])), (13, bytes([254])), (12, bytes([255]) * 65537)):
            follower.begin()
            self.assertIsNone(follower.refused)
            self.assertFalse(follower.follow(b"\0").is_accepted_so_far)
            self.refused(number, follower.follow, chunk)
            for later in (b"\1", b"", bytes([254])):
                self.refused(number, follower.follow, later)
            self.assertEqual(follower.refused, number)
            self.assertEqual(repr(follower), f"<Follower: states 3, symbols 2, reached 1, refused {number}>")
        follower.drop_refused()
        self.assertIsNone(follower.refused)
        self.assertFalse(follower.follow(bytes([255]) * 65536).is_lost)
        self.assertTrue(follower.follow(b"\1").is_accepted_so_far)
        follower.drop_refused()
        self.assertTrue(follower.follow(b"").is_accepted_so_far)

    def test_every_exception_stands(self):
        """Without the chunk that was no bytes 0 and 1 came, which would be accepted."""
        follower, wide = Follower(ONCE), array.array("H", [1, 1])

        words = r"in TypeError: first drop_refused\(\) or begin\(\)$"
        for wrong in ("0", None, 5, [0, 0], wide):
            for go_on in (follower.drop_refused, follower.begin):
                follower.begin()
                self.assertFalse(follower.follow(b"\0").is_accepted_so_far)
                self.assertRaises(TypeError, follower.follow, wrong)
                for later in (b"\1", b"", bytes([254])):
                    self.assertRaisesRegex(RuntimeError, words, follower.follow, later)
                self.assertRaises(TypeError, follower.follow, wrong)
                self.assertEqual(follower.refused, "TypeError")
                self.assertEqual(repr(follower), "<Follower: states 3, symbols 2, reached 1, refused TypeError>")
                go_on()
                self.assertIsNone(follower.refused)
                self.assertIs(follower.follow(b"\1").is_accepted_so_far, go_on == follower.drop_refused)
        # the first one stands
        follower.begin()
        self.refused(13, follower.follow, bytes([2]))
        self.assertRaises(TypeError, follower.follow, "0")
        self.refused(13, follower.follow, b"\0")

    def test_an_interruption_stands(self):
        follower = Follower(ONCE)
        for wrong in (KeyboardInterrupt, MemoryError):
            follower.begin()
            self.assertFalse(follower.follow(b"\0").is_accepted_so_far)
            with unittest.mock.patch("bellbadger.follow.lib.bellbadger_follow_by", side_effect=wrong):
                self.assertRaises(wrong, follower.follow, b"\0")
            self.assertRaisesRegex(RuntimeError, f"in {wrong.__name__}: ", follower.follow, b"\1")
            follower.drop_refused()
            self.assertTrue(follower.follow(b"\1").is_accepted_so_far)

    def test_begun_anew(self):
        follower = Follower(ONCE)
        for lost in (b"\1", b"\0\0"):
            self.assertTrue(follower.follow(lost).is_lost)
            follower.begin()
            self.assertEqual(repr(follower), repr(Follower(ONCE)))
            self.assertTrue(follower.follow(b"\0\1").is_accepted_so_far)
            follower.begin()

    def test_as_plain_runs_and_a_filled_board(self):
        chance, said, lost_later = random.Random(5), [0, 0], 0
        for _ in range(300):
            rule = any_rule(chance)
            some_byte = lambda: chance.choice((255, *range(rule.k)))
            chunks = [bytes(some_byte() for _ in range(chance.randrange(8))) for _ in range(chance.randint(1, 6))]
            follower, plain = Follower(rule), Plain(rule)
            for chunk in chunks:
                answer = follower.follow(chunk)
                self.assertEqual(answer, plain.follow(chunk), (rule, chunks))
                lost_later += chunk is not chunks[0] and (answer.lost_at or 0) > 0
            judge = Judge()
            try:
                judge.install(rule)
            except Refused as refused:
                self.assertEqual(refused.number, 9)
                continue
            judge.open(len(chunks))
            for place, chunk in enumerate(chunks):
                judge.deliver(place, 0, chunk)
            self.assertIs(answer.is_accepted_so_far, judge.verdict().is_yes)
            said[answer.is_accepted_so_far] += 1
        self.assertGreater(min(*said, lost_later), 20)

    def test_examples(self):
        found = doctest.testmod(bellbadger.follow)
        self.assertGreater(found.attempted, 0)
        self.assertEqual(found.failed, 0)


if __name__ == "__main__":
    unittest.main()
