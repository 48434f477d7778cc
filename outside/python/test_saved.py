"""A judge as bytes from Python: the bytes as a plain reading of the format writes them, every number had back, cut,
altered and longer bytes, and calls that go on as they would have."""

import doctest
import random
import struct
import unittest

import bellbadger.saved
from bellbadger import Judge, Refused
from bellbadger.saved import SAVED_SIZE

A = bytes.fromhex("03020100000004000000160006001C0002001E0000000000000101000102")


def digest(data):
    h = 0
    for byte in data:
        upper, lower = divmod((h * 131073 + byte + 1) % 2**64, 2**32)
        h = (lower + upper * upper) % 2**32 * 2**32 + upper
    return h


def sealed(content):
    return content + struct.pack("<Q", digest(content))


def written(judge):
    """The saved form, from the words of the format."""
    rule, board = judge._state.rule, judge._state.board
    numbers = [rule.n, rule.k, rule.starts, rule.count, rule.initials, rule.finals]
    arrays = [*rule.delegates, *rule.singles, *rule.sets, *rule.next]
    places = [board.places, *board.filled, *board.counts, *board.lengths, *board.revisions, *board.ends]
    layout = "<BBBHII32B32H512I8192HB64B64I64I64Q2048I"
    return sealed(b"BBJ\1" + struct.pack("<I", 27838) + struct.pack(layout, *numbers, *arrays, *places))


def opened(places=3):
    judge = Judge()
    judge.load(A)
    judge.open(places)
    return judge


class Saved(unittest.TestCase):
    def refused(self, data):
        with self.assertRaises(Refused) as caught:
            Judge.restore(data)
        self.assertEqual(caught.exception.number, 46)

    def test_the_format(self):
        judge = opened()
        judge.deliver(1, 4, bytes([0, 1, 255]))
        for each in (Judge(), judge):
            self.assertEqual(each.save(), written(each))
            self.assertEqual(len(each.save()), SAVED_SIZE)
        self.assertEqual(Judge().save()[-8:], bytes([60, 45, 45, 236, 48, 133, 245, 115]))

    def test_any_numbers(self):
        chance = random.Random(1)
        for _ in range(20):
            data = sealed(b"BBJ\1" + struct.pack("<I", 27838) + chance.randbytes(27822))
            judge = Judge.restore(data)
            self.assertEqual((judge.save(), written(judge)), (data, data))

    def test_calls_go_on(self):
        chance = random.Random(2)
        for _ in range(20):
            judge, plain = opened(), opened()
            for revision in range(20):
                judge = Judge.restore(judge.save())
                place, chunk = chance.randrange(3), bytes(chance.choices((0, 1, 255), k=3))
                for each in (judge, plain):
                    each.deliver(place, revision, chunk)
                self.assertEqual((judge.save(), judge.verdict()), (plain.save(), plain.verdict()))

    def test_refusals(self):
        judge = opened()
        judge.deliver(0, 0, b"\0")
        saved = judge.save()
        for length in (0, 7, 8, SAVED_SIZE - 8, SAVED_SIZE - 1):
            self.refused(saved[:length])
        self.refused(saved + b"\0")
        for at in range(0, SAVED_SIZE, 97):
            self.refused(saved[:at] + bytes([saved[at] ^ 1 << at % 8]) + saved[at + 1 :])
        # mark, version and length, with the digest right
        for at in range(8):
            self.refused(sealed(saved[:at] + bytes([saved[at] ^ 3]) + saved[at + 1 : -8]))
        self.assertEqual(Judge.restore(memoryview(saved)).save(), saved)

    def test_examples(self):
        self.assertEqual(doctest.testmod(bellbadger.saved).failed, 0)


if __name__ == "__main__":
    unittest.main()
