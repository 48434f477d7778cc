"""Patterns from Python: files, texts, refusals."""

import doctest
import unittest

import bellbadger.patterns
from bellbadger import Judge, Refused, read
from bellbadger.patterns import LONGEST_FILE, rule_file


def accepts(pattern, text):
    """Whether a pattern's rule accepts a text of letters."""
    judge = Judge()
    judge.load(rule_file(pattern))
    judge.open(1)
    judge.deliver(0, 0, bytes(ord(letter) - ord("a") for letter in text))
    return judge.verdict().is_yes


class Patterns(unittest.TestCase):
    def refused(self, number, pattern):
        with self.assertRaises(Refused) as caught:
            rule_file(pattern)
        self.assertEqual(caught.exception.number, number)

    def test_a_file(self):
        file = "041001000000" "0E000000" "1A0004001E0000001E00020020000200" "00010102" "0203" "0203"
        self.assertEqual(rule_file("a|bc*").hex().upper(), file)
        self.assertEqual(rule_file(b"a|bc*"), rule_file("a|bc*"))

    def test_texts(self):
        for pattern, yes, no in (
            ("", [""], ["a"]),
            ("a|bc*", ["a", "bcc"], ["ac", ""]),
            ("(a|b)c", ["ac", "bc"], ["a"]),
            ("(a*b*)*", ["", "abba"], ["c"]),
            ("a()*(|p)", ["a", "ap"], ["p"]),
        ):
            self.assertEqual([accepts(pattern, text) for text in yes], [True] * len(yes), pattern)
            self.assertEqual([accepts(pattern, text) for text in no], [False] * len(no), pattern)

    def test_refusals(self):
        for pattern in ("a" * 129, "*" * 129, "é" * 65):
            self.refused(30, pattern)
        for pattern in ("*", "a|*", "(*)", "(a", "a)", "q", "A", "a b", "a\n", "é", "a" * 40 + "(", b"a\0"):
            self.refused(31, pattern)
        self.refused(32, "a" * 32)
        self.refused(32, "a" * 128)
        for pattern in (None, 97, ["a"]):
            self.assertRaises(TypeError, rule_file, pattern)

    def test_the_largest_file(self):
        file = rule_file("(" + "|".join("abcdefghijklmnop"[i % 16] for i in range(31)) + ")*")
        self.assertEqual(len(file), LONGEST_FILE)
        self.assertEqual((read(file).n, read(file).k), (32, 16))

    def test_examples(self):
        found = doctest.testmod(bellbadger.patterns)
        self.assertGreater(found.attempted, 0)
        self.assertEqual(found.failed, 0)


if __name__ == "__main__":
    unittest.main()
