"""Rules in words: thousands of random rules written and read back, random patterns against Python's re, every message
with its place, and how words, rule files and hex digits are told apart."""

import itertools
import random
import re
import tempfile
import unittest
from pathlib import Path

from bellbadger import CheckedRule, Refused, read
from bellbadger.command import rules, wordpatterns, words
from bellbadger.command.errors import Failed
from bellbadger.command.rules import from_bytes
from bellbadger.follow import Follower
from bellbadger.patterns import rule_file

A = bytes.fromhex("03020100000004000000160006001C0002001E0000000000000101000102")
LETTERS = "abcdefghijklmnopqrstuvwxyzäöüßéñABC0123456789_"


def any_name(chance):
    name = "".join(chance.choice(LETTERS) for _ in range(chance.randint(1, 12)))
    return name + chance.choice(("", "", "-", "--")) + chance.choice(LETTERS)


def any_names(chance, number):
    names = set()
    while len(names) < number:
        names.add(any_name(chance))
    names = sorted(names - set(words.KEPT))
    chance.shuffle(names)
    return tuple(names) if len(names) == number else any_names(chance, number)


def any_rule(chance):
    """Any number of states, symbols and arcs, none and all too."""
    n, k, density = min(chance.randint(1, 32) for _ in range(4)), chance.randint(1, 16), chance.choice((0, 1, 1, 2, 2, 3, 4))
    some = lambda: chance.getrandbits(n)
    masks = (lambda: 0, lambda: some() & some() & some() & some(), lambda: some() & some(), some, lambda: (1 << n) - 1)
    targets = [0] * 512
    for q, s in itertools.product(range(n), range(k)):
        targets[16 * q + s] = masks[density]()
    return CheckedRule(n, k, chance.choice(masks)(), chance.choice(masks)(), targets)


class RoundTrips(unittest.TestCase):
    def test_rules(self):
        chance = random.Random(1)
        for _ in range(1500):
            rule = any_rule(chance)
            events, states = any_names(chance, rule.k), any_names(chance, rule.n)
            text = words.written(rule, events, states)
            self.assertEqual(words.parse(text), words.Words(rule, events, states))
            self.assertEqual(read(words.file_of(rule)), rule)

    def test_other_words(self):
        """The same rule with comments, continued lines, ends of lines as on other systems, and arcs one by one."""
        chance = random.Random(2)
        for _ in range(300):
            rule = any_rule(chance)
            events, states = any_names(chance, rule.k), any_names(chance, rule.n)
            text = "\ufeff" * chance.randrange(2) + self.spread(chance, rule, events, states)
            made = from_bytes("x", text.encode())
            self.assertEqual((made.rule, made.events, made.states, made.named), (rule, events, states, True))

    def spread(self, chance, rule, events, states):
        gap = lambda: chance.choice((" ", "  ", "\t", " # (red | \r\n  ", "\n \n\t"))
        end = lambda: chance.choice(("\n", "\r\n", " # purge -> clean; [\n", "\n\n"))
        text = "events" + "".join(gap() + name for name in events) + end()
        for q, name in enumerate(states):
            marks = [mark for mark, mask in (("initial", rule.initials), ("final", rule.finals)) if mask >> q & 1]
            chance.shuffle(marks)
            arcs = [(s, t) for s in range(rule.k) for t in range(rule.n) if rule.target_mask(q, s) >> t & 1]
            chance.shuffle(arcs)
            line = "".join(f"{gap()}{events[s]}{gap()}->{gap()}{states[t]};" for s, t in arcs)
            text += "state" + gap() + gap().join([name, *marks]) + ":" + (line[:-1] if chance.random() < 0.5 else line) + end()
        return text

    def test_every_form(self):
        """As words, as a rule file and as hex digits of either case, told apart by content."""
        chance = random.Random(3)
        for _ in range(300):
            rule = any_rule(chance)
            file = words.file_of(rule)
            digits = chance.choice((file.hex(), file.hex().upper(), file.hex(" "), re.sub("(.{60})", "\\1\n", file.hex()) + "\n"))
            for content in (file, digits.encode()):
                made = from_bytes("x", content)
                self.assertEqual((made.rule, made.named, made.file), (rule, False, file))
                self.assertEqual(made.events, tuple(map(str, range(rule.k))))
                self.assertEqual(from_bytes("x", made.words().encode()).rule, rule)


def any_pattern(chance, depth):
    """A pattern in words and for Python's re, over the events a, b and c."""
    kind = chance.randrange(8) if depth else 0
    if kind == 7:
        return "()", ""
    if kind >= 5:
        word, plain = any_pattern(chance, depth - 1)
        sign = chance.choice("*+?")
        more = chance.choice(("", "", chance.choice("*+?")))
        return f"(({word}){sign}){more}", f"(?:(?:{plain}){sign}){more}"
    if kind >= 3:
        pairs = [any_pattern(chance, depth - 1) for _ in range(chance.randint(2, 3))]
        return "(" + " | ".join(word for word, _ in pairs) + ")", "(?:" + "|".join(plain for _, plain in pairs) + ")"
    if kind >= 1:
        pairs = [any_pattern(chance, depth - 1) for _ in range(chance.randint(1, 3))]
        return " ".join(word for word, _ in pairs), "".join(plain for _, plain in pairs)
    if chance.random() < 0.2:
        return ".", "[abc]"
    some = "".join(sorted(chance.sample("abc", chance.randint(1, 3))))
    return (f"[{' '.join(some)}]", f"[{some}]") if chance.random() < 0.3 else (some[0], some[0])


class Patterns(unittest.TestCase):
    def test_against_re(self):
        """Every text of up to five events, for each of 2,000 patterns that have the room."""
        chance, compared, too_long = random.Random(4), 0, 0
        texts = [bytes(text) for length in range(6) for text in itertools.product(range(3), repeat=length)]
        while compared < 2000:
            word, plain = any_pattern(chance, 2)
            if chance.random() < 0.1:
                more, plainer = any_pattern(chance, 2)
                word, plain = f"(({word} {more})+ .)+", f"(?:(?:{plain}{plainer})+[abc])+"
            try:
                rule = words.parse(f"events a b c\npattern {word}\n").rule
            except Failed as failed:
                self.assertRegex(str(failed), "written out the pattern has [0-9]+ (letters, and 31|bytes, and 128) are the most")
                too_long += 1
                continue
            due, compared = re.compile(plain), compared + 1
            for text in chance.sample(texts, 25):
                is_yes = Follower(rule).follow(text).is_accepted_so_far
                self.assertEqual(is_yes, bool(due.fullmatch("".join("abc"[s] for s in text))), (word, plain, text))
        self.assertGreater(too_long, 5)

    def test_narrowed(self):
        """A pattern's rule has as many symbols as there are events: an unknown event is refused, and no no."""
        made = words.parse("events red blue purge\npattern (purge | (red | blue) purge)*\n")
        self.assertEqual((made.rule.k, made.rule.n), (3, 5))
        with self.assertRaises(Refused) as caught:
            Follower(made.rule).follow(bytes([3]))
        self.assertEqual(caught.exception.number, 13)
        whole = read(rule_file("(c|(a|b)c)*"))
        self.assertEqual(made.rule, CheckedRule(whole.n, 3, whole.initials, whole.finals, whole.targets))
        with self.assertRaisesRegex(Failed, "internal error: a pattern has an event"):
            words.narrowed(whole, 2)

    def test_written_out(self):
        """What the proved reader of patterns sees."""
        for word, due in (
            ("a b", "ab"),
            ("a | b c*", "a|bc*"),
            ("(a b)+", "ab(ab)*"),
            ("a+ b", "aa*b"),
            ("a? b", "(a|)b"),
            ("(a b)?", "ab|"),
            (". a", "(a|b|c)a"),
            ("[c a]*", "(a|c)*"),
            ("[a]", "a"),
            ("()", ""),
            ("(a*)*", "a**"),
            ("(a+)?", "aa*|"),
            ("(a*)+", "a**"),
            ("(() | a) b", "(|a)b"),
            ("(a|b)+", "(a|b)(a|b)*"),
        ):
            statements = words._statements(["events a b c", f"pattern {word}"])
            reader = wordpatterns.Reader(statements[1][1:], None, lambda token: "abc".index(token.text), 3)
            self.assertEqual(wordpatterns.written_out(reader.whole(), None), due)


class Messages(unittest.TestCase):
    def said(self, text):
        with self.assertRaises(Failed) as caught:
            words.parse(text)
        failed = caught.exception
        return f"{failed.line}:{failed.column}: {failed.message}"

    def test_places(self):
        three = "events red blue purge\n"
        sixteen = " ".join(f"e{number}" for number in range(16))
        states = "".join(f"state s{number}\n" for number in range(32))
        for text, due in (
            ("", "1:1: there is no rule: the first line is `events` and names"),
            ("# nothing\n\n", "1:1: there is no rule: the first line is `events` and names"),
            ("pattern a\n", "1:1: a rule begins with `events` and names"),
            ("evnts red\n", '1:1: a line begins with events, pattern or state, and not with "evnts"'),
            ("events\n", "1:7: an event's name is missing"),
            ("events red, blue\n", '1:11: "," is no name of an event'),
            ("events red blue red\n", '1:17: the event "red" is there already'),
            ("events red idle\n", '1:12: "idle" has a meaning of its own, and is no name'),
            (f"events {sixteen} more\n", f"1:{len(sixteen) + 9}: a rule has at most 16 events, and this is number 17"),
            (f"events {'x' * 65}\n", "1:8: a name has at most 64 characters"),
            ("events red\n", "1:11: a pattern or states are missing behind the events"),
            (three + "events red\n", "2:1: the events are there already"),
            (three + "patern red\n", '2:1: a line begins with events, pattern or state, and not with "patern"'),
            (three + "pattern (purge | red\n", "2:9: a bracket is not closed"),
            (three + "pattern [purge red\n", "2:9: a bracket is not closed"),
            (three + "pattern purge)\n", "2:14: a bracket is closed that was not opened"),
            (three + "pattern (purge | (red | blu) purge)*\n", '2:25: no event "blu" (red, blue, purge)'),
            (three + "pattern (purge |\n  (red | blu) purge)*\n", '3:10: no event "blu" (red, blue, purge)'),
            (three + "pattern\n", "2:8: an event is missing here; () is no event at all"),
            (three + "pattern red |\n", "2:14: an event is missing here; () is no event at all"),
            (three + "pattern (red | ) purge\n", "2:16: an event is missing here; () is no event at all"),
            (three + "pattern *red\n", "2:9: nothing stands before * that it could repeat"),
            (three + "pattern red | + blue\n", "2:15: nothing stands before + that it could repeat"),
            (three + "pattern red+? blue\n", "2:13: ? follows another sign: brackets say what it repeats"),
            (three + "pattern (red blue)* *\n", "2:21: * follows another sign: brackets say what it repeats"),
            (three + "pattern red & blue\n", '2:13: "&" means nothing in a pattern'),
            (three + "pattern red ] blue\n", '2:13: "]" means nothing in a pattern'),
            (three + "pattern []\n", "2:9: an event is missing between [ and ]"),
            (three + "pattern [red | blue]\n", '2:14: "|" means nothing between [ and ]: names stand there'),
            (three + "pattern red\npattern blue\n", "3:1: nothing may follow the pattern"),
            (three + "pattern red\nstate a\n", "3:1: nothing may follow the pattern"),
            (three + "pattern " + "(" * 101 + ")" * 101, "2:109: brackets stand over 100 deep"),
            (three + "pattern red" + " red" * 31, "2:1: written out the pattern has 32 letters, and 31 are the most"),
            (
                three + "pattern (.+ red)+ [red blue]*" + " blue" * 20,
                "2:1: written out the pattern has 36 letters, and 31 are the most (+ at 2:17 takes 7 more, "
                ". at 2:10 takes 3 and + at 2:11 takes 3 more)",
            ),
            (three + "state\n", "2:6: a state's name is missing"),
            (three + "state ->\n", '2:7: "->" is no name of a state'),
            (three + "state final\n", '2:7: "final" has a meaning of its own, and is no name'),
            (three + "state a\nstate a\n", '3:7: the state "a" is there already'),
            (three + "state a\npattern red\n", "3:1: behind the first state there are states alone"),
            (three + "state a initial initial\n", "2:17: initial is there already"),
            (three + "state a red -> a\n", '2:9: initial, final or a colon is due here, and not "red"'),
            (three + "state a: red\n", "2:13: an arrow -> and a state are missing"),
            (three + "state a: red ->\n", "2:16: a state is missing here"),
            (three + "state a: -> a\n", "2:10: an event is missing here"),
            (three + "state a: red blue -> a\n", '2:14: a comma, a semicolon or an arrow is due here, and not "blue"'),
            (three + "state a: red, -> a\n", "2:15: an event is missing here"),
            (three + "state a: red -> a;; blue -> a\n", "2:19: events and an arrow are missing before the semicolon"),
            (three + "state a: blu -> a\n", '2:10: no event "blu" (red, blue, purge)'),
            (three + "state a: red -> b\n", '2:17: no state "b" (a)'),
            (three + "state a: red -> a; red -> a\n", '2:27: this arc to "a" is there already'),
            (three + "state a: red -> a -> a\n", '2:19: a comma, a semicolon or an arrow is due here, and not "->"'),
            (three + states + "state more\n", "34:7: a rule has at most 32 states, and this is number 33"),
        ):
            with self.subTest(text=text):
                self.assertEqual(self.said(text), due)

    def test_bytes(self):
        """128 bytes are the most too; the message has the pattern as it was written out."""
        message = self.said("events a b\npattern " + " ".join("(a?)?" for _ in range(5)) + " (((a? b?)* a?)* b?)*" * 5)
        self.assertRegex(message, r"^2:1: written out the pattern has 1[0-9]+ bytes, and 128 are the most: [ab()|*]+$")

    def test_contents(self):
        for content, due in (
            (b"", "the file is empty, and no rule"),
            (b" \n\t", "the file is empty, and no rule"),
            (b"030", "the hex digits are odd in number: one is missing"),
            (b"03 02", "neither a rule in words nor a rule file (refused 1: the file is too short for a head of 10 bytes)"),
            (A[:-1], "neither a rule in words nor a rule file (refused 7: a pair has a wrong offset"),
            (A[:5], "neither a rule in words nor a rule file (refused 1: "),
            (b"\xff\xfe" + "events a".encode("utf-16-le"), "neither a rule in words nor a rule file"),
            ("events a\npattern \xe4".encode("latin-1"), "the text is not in UTF-8"),
            (b"\x20" + bytes(40000), "neither a rule in words nor a rule file (refused 2: "),
        ):
            with self.assertRaises(Failed) as caught:
                from_bytes("x", content)
            self.assertTrue(str(caught.exception).startswith(due), caught.exception)

    def test_files(self):
        """The name of the file stands before the place."""
        with tempfile.TemporaryDirectory() as folder:
            file = Path(folder) / "purge.txt"
            file.write_text("events red blue purge\npattern (purge | red\n")
            for path, due in ((file, "2:9: a bracket is not closed"), (Path(folder), " Is a directory"), (Path(folder) / "no", " No such file or directory")):
                with self.assertRaises(Failed) as caught:
                    rules.load(str(path))
                self.assertEqual(str(caught.exception), f"{path}:{due}")
            file.write_bytes("events a\npattern \xe4".encode("latin-1"))
            with self.assertRaisesRegex(Failed, "purge.txt:2: the text is not in UTF-8"):
                rules.load(str(file))
            file.write_bytes(b"events a\n" + b"# long\n" * 200000)
            with self.assertRaisesRegex(Failed, "over 1048576 bytes is no rule"):
                rules.load(str(file))


class Symbols(unittest.TestCase):
    def test_numbers(self):
        """A number in a trace is an event's number only where no name is a number: else it would be another event."""
        plain = from_bytes("x", b"events red blue\npattern red\n")
        self.assertEqual(plain.symbols(), {"red": 0, "blue": 1, "0": 0, "1": 1})
        mixed = from_bytes("x", b"events 1 blue 0\npattern 1\n")
        self.assertEqual(mixed.symbols(), {"1": 0, "blue": 1, "0": 2})

    def test_common(self):
        one, two = from_bytes("one", b"events a b\npattern a\n"), from_bytes("two", b"events b a\npattern a\n")
        bare, small = from_bytes("bare", A), from_bytes("small", bytes.fromhex("01010100000001000000 0e000000"))
        self.assertEqual(rules.common_events([bare, one]), ("a", "b"))
        self.assertEqual(rules.common_events([bare, bare]), ("0", "1"))
        with self.assertRaisesRegex(Failed, r"one and two have different events \(a, b; b, a\)"):
            rules.common_events([one, two])
        with self.assertRaisesRegex(Failed, "one and small have different numbers of events, 2 and 1"):
            rules.common_events([one, small])


if __name__ == "__main__":
    unittest.main()
