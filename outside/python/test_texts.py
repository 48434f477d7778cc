"""Made texts from Python: symbols, refusals, arguments that C would misread."""

import doctest
import unittest

import bellbadger.texts
from bellbadger import CheckedRule, Judge, Refused, Yes
from bellbadger.texts import make_text


class Texts(unittest.TestCase):
    def refused(self, number, k, seed, length):
        with self.assertRaises(Refused) as caught:
            make_text(k, seed, length)
        self.assertEqual(caught.exception.number, number)

    def test_symbols(self):
        self.assertEqual(list(make_text(10, 2, 6)), [2, 9, 6, 8, 8, 9])
        self.assertEqual(list(make_text(3, 7, 6)), [0, 0, 0, 1, 1, 1])
        self.assertEqual(list(make_text(2, 2**63, 16)), [0, 0, 0, 0, 0, 0, 0, 0, 1, 0, 1, 0, 1, 0, 1, 0])
        self.assertEqual(make_text(5, 1, 0), b"")
        self.assertEqual(make_text(13, 99, 100), make_text(13, 99, 4000)[:100])

    def test_refusals(self):
        for length in (0, 1, 100):
            # 257 and 2**64 + 1 are 1 where k is cut to fewer bits
            for k in (0, 17, 255, 256, 257, 2**32 + 1, 2**64 - 1, 2**64, 2**64 + 1, -1):
                for seed in (0, 1):
                    self.refused(4, k, seed, length)
            for k in (1, 16):
                self.refused(41, k, 0, length)

    def test_numbers_that_do_not_fit(self):
        for k, seed, length in ((1, 2**64, 1), (1, -1, 1), (1, 1, -1)):
            with self.assertRaises(ValueError):
                make_text(k, seed, length)
        for k, seed, length in (("1", 1, 1), (1, 1.0, 1), (1, 1, None)):
            with self.assertRaises(TypeError):
                make_text(k, seed, length)

    def test_a_rule_takes_them(self):
        judge = Judge()
        judge.install(CheckedRule(1, 16, 1, 1, [1] * 16 + [0] * 496))
        judge.open(1)
        judge.deliver(0, 0, make_text(16, 41, 65536))
        self.assertIsInstance(judge.verdict(), Yes)


def load_tests(loader, tests, pattern):
    tests.addTests(doctest.DocTestSuite(bellbadger.texts))
    return tests


if __name__ == "__main__":
    unittest.main()
