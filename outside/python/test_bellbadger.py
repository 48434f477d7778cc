"""The judge from Python: table P, rules by value, refusals, arguments that C would misread, recorded
lists."""

import array
import dataclasses
import doctest
import itertools
import os
import subprocess
import sys
import tempfile
import threading
import unittest

import bellbadger
from bellbadger import CheckedRule, Judge, Loaded, Looked, Malformed, No, Refused, Waiting, Yes, read, replay

A = bytes.fromhex("03020100000004000000160006001C0002001E0000000000000101000102")
B = bytes.fromhex("03010100000006000000160004001A0002001C0002000001000200000000")
# by 0 from 0 to 1, which is final and has no arcs; by 1 from 0 to 2; 2 and 3 lead only to each other
ASTRAY = bytes.fromhex("040201000000020000001A0004001E0000001E0004002200020000010102000301020002")


def judged(rule, *chunks):
    """The verdict on a rule and the chunks of its places, delivered the last first."""
    judge = Judge()
    judge.load(rule)
    judge.open(len(chunks))
    for place in reversed(range(len(chunks))):
        assert judge.verdict() == Waiting(place + 1)
        judge.deliver(place, 0, bytes(chunks[place]))
    return judge.verdict()


class Case(unittest.TestCase):
    def refused(self, number, call, *arguments):
        with self.assertRaises(Refused) as caught:
            call(*arguments)
        self.assertEqual(caught.exception.number, number)


def with_target(rule, cell, mask):
    """The rule with another target mask in a cell."""
    return dataclasses.replace(rule, targets=rule.targets[:cell] + (mask,) + rule.targets[cell + 1 :])


class Rules(Case):
    def test_reading(self):
        rule = read(A)
        targets = {0: 3, 1: 1, 17: 4}
        self.assertEqual(rule, CheckedRule(3, 2, 1, 4, (targets.get(cell, 0) for cell in range(512))))
        self.assertEqual([rule.target_mask(*at) for at in ((1, 1), (1, 0), (32, 0), (0, 16), (-1, 17))], [4, 0, 0, 0, 0])
        for at, byte, number in ((0, 33, 3), (1, 17, 4), (6, 8, 6), (10, 24, 7), (29, 3, 8)):
            self.refused(number, read, A[:at] + bytes([byte]) + A[at + 1 :])
        for length, number in ((9, 1), (21, 5), (29, 7)):
            self.refused(number, read, A[:length])
        self.refused(2, read, bytes(32907))

    def test_installing(self):
        rule, judge = read(A), Judge()
        self.refused(20, judge.open, 1)
        self.assertEqual(judge.install(rule), Loaded(5, 3))
        judge.open(1)
        judge.deliver(0, 0, bytes([0, 1]))
        change = dataclasses.replace
        for n in (0, 33, 40, 255):
            self.refused(3, judge.install, change(rule, n=n, k=0))
        for k in (0, 17, 255):
            self.refused(4, judge.install, change(rule, k=k, finals=8))
        self.refused(6, judge.install, change(rule, initials=8))
        self.refused(6, judge.install, change(rule, finals=2**31))
        for cell, mask in ((17, 8), (2, 1), (48, 1), (511, 1)):
            self.refused(8, judge.install, with_target(rule, cell, mask))
        late = {0: 1, 1: 3, **{16 * q + s: 2 << q for q in range(1, 10) for s in (0, 1)}}
        self.refused(9, judge.install, CheckedRule(11, 2, 1, 1 << 10, (late.get(cell, 0) for cell in range(512))))
        self.assertEqual(judge.verdict(), Yes(2, 2, 1, 0))
        full = CheckedRule(32, 16, 2**32 - 1, 2**32 - 1, (2**32 - 1,) * 512)
        self.assertEqual(judge.install(full), Loaded(33, 1))
        self.refused(21, judge.verdict)
        self.refused(8, judge.install, change(full, k=15))

    def test_numbers_that_c_would_cut(self):
        for numbers in ((256, 1, 0, 0), (-1, 1, 0, 0), (1, 257, 0, 0), (1, 1, 2**32, 0), (1, 1, 0, -1)):
            self.assertRaises(ValueError, CheckedRule, *numbers)
        for targets in ((), (0,) * 511, (0,) * 513, (2**32,) * 512):
            self.assertRaises(ValueError, CheckedRule, 1, 1, 0, 0, targets)
        self.assertRaises(TypeError, CheckedRule, 1.0, 1, 0, 0)
        self.assertEqual(Judge().install(CheckedRule(1, 1, 0, 0)), Loaded(1, 0))

    def test_a_recorded_installation(self):
        rule = read(A)
        masks = (rule.initials, rule.finals, *rule.targets)
        value = bytes([rule.n, rule.k]) + b"".join(mask.to_bytes(4, "little") for mask in masks)
        rest = b"\nopen 2\ndeliver 1 0 01\ndeliver 0 0 00\n"
        self.assertEqual(replay(b"install " + value.hex().encode() + rest), Yes(3, 2, 1, 1))
        for other in (value[:-1], value + b"\0", A):
            self.assertRaises(Malformed, replay, b"install " + other.hex().encode() + rest)


class Calls(Case):
    def opened(self, places):
        judge = Judge()
        judge.load(A)
        judge.open(places)
        return judge

    def test_table_p(self):
        self.assertEqual(Judge().load(A), Loaded(5, 3))
        self.assertEqual(Judge().load(B), Loaded(4, 2))
        self.assertEqual(judged(A, [0], [1]), Yes(3, 2, 1, 1))
        self.assertEqual(judged(A, [1], [0]), No(2, 2, 1, 0))
        self.assertEqual(judged(A, []), No(0, 0, 0, 0))
        self.assertEqual(judged(B, [0], [0, 0]), Yes(5, 3, 1, 2))
        self.assertEqual(judged(B, [0, 0], [0]), Yes(4, 3, 1, 1))
        self.assertEqual(judged(B, [0, 0, 0]), Yes(3, 3, 1, 0))
        self.assertEqual(judged(B, [], [], []), No(0, 0, 0, 0))
        self.refused(6, Judge().load, A[:6] + bytes([8]) + A[7:])

    def test_refusals(self):
        judge = Judge()
        self.refused(21, judge.verdict)
        self.refused(20, judge.open, 1)
        self.refused(21, judge.deliver, 0, 0, b"")
        self.refused(21, judge.withdraw, 0)
        judge = self.opened(64)
        self.refused(10, judge.open, 65)
        self.refused(11, judge.deliver, 64, 0, b"")
        self.refused(12, judge.deliver, 63, 0, bytes(65537))
        self.refused(13, judge.deliver, 63, 0, bytes([0, 2]))
        self.refused(23, judge.withdraw, 63)
        self.assertEqual(judge.deliver(63, 0, bytes(65536)), Looked(65536))
        self.refused(22, judge.deliver, 63, 0, b"")
        self.refused(1, judge.load, A[:9])
        self.refused(2, judge.load, bytes(32907))
        self.assertEqual(judge.verdict(), Waiting(63))
        judge.withdraw(63)
        self.assertEqual(judge.verdict(), Waiting(64))

    def test_the_largest_count(self):
        states = range(32)
        pairs = b"".join((138 + 2 * q).to_bytes(2, "little") + b"\2\0" for q in states)
        arcs = bytes(b for q in states for b in (0, (q + 1) % 32))
        judge = Judge()
        ring = bytes([32, 1]) + b"\xff" * 4 + bytes([1, 0, 0, 0]) + pairs + arcs
        self.assertEqual(judge.load(ring), Loaded(32, 32))
        judge.open(64)
        for place in range(64):
            judge.deliver(place, 0, bytes(65536))
        self.assertEqual(judge.verdict(), Yes(64 * 65536 * 32, 64 * 65536, 32, 0))

    def test_bytes_looked_up(self):
        dies = bytes([2, 2, 1, 0, 0, 0, 1, 0, 0, 0, 18, 0, 2, 0, 20, 0, 2, 0, 0, 1, 0, 0])
        judge = Judge()
        judge.load(dies)
        judge.open(5)
        for place, (chunk, looked) in enumerate([("10", 1), ("010", 2), ("001", 3), ("000", 3), ("", 0)]):
            self.assertEqual(judge.deliver(place, 0, bytes(int(s) for s in chunk)), Looked(looked))

    def test_states_that_lead_nowhere(self):
        self.assertEqual(Judge().load(ASTRAY), Loaded(4, 2))
        self.assertEqual(judged(ASTRAY, [0]), Yes(1, 1, 1, 0))
        self.assertEqual(judged(ASTRAY, [], [0], []), Yes(1, 1, 1, 0))
        # the run from 0 goes on among them; the next place is not run from them, nor from 0 in their place
        self.assertEqual(judged(ASTRAY, [1, 1], [0]), No(3, 3, 1, 0))
        # an initial state among them is not run, alone or beside another
        self.assertEqual(judged(ASTRAY[:2] + bytes([4]) + ASTRAY[3:], [0, 1]), No(0, 2, 0, 0))
        self.assertEqual(judged(ASTRAY[:2] + bytes([13]) + ASTRAY[3:], [0]), Yes(1, 1, 1, 0))

    def test_no_final_state(self):
        judge = Judge()
        self.assertEqual(judge.install(dataclasses.replace(read(ASTRAY), initials=15, finals=0)), Loaded(4, 0))
        judge.open(2)
        self.refused(13, judge.deliver, 0, 0, bytes([0, 2]))
        self.assertEqual(judge.deliver(0, 0, bytes([0, 1])), Looked(0))
        self.assertEqual(judge.deliver(1, 0, bytes(65536)), Looked(0))
        self.assertEqual(judge.verdict(), No(0, 65538, 0, 0))

    def test_idle_marks(self):
        self.assertEqual(judged(A, [255, 0, 255], [255] * 9, [1, 255]), Yes(3, 2, 1, 1))
        judge = self.opened(1)
        self.refused(12, judge.deliver, 0, 0, b"\xff" * 65537)
        self.refused(13, judge.deliver, 0, 0, b"\xff\xfe")
        self.refused(13, judge.deliver, 0, 0, b"\xff\2")
        self.assertEqual(judge.deliver(0, 0, b"\xff" * 65536), Looked(0))
        self.refused(22, judge.deliver, 0, 0, b"\xff")

    def test_a_later_recording_supersedes(self):
        judge = self.opened(1)
        self.assertEqual(judge.deliver(0, 5, bytes([0])), Looked(1))
        self.refused(22, judge.deliver, 0, 5, bytes([0, 1]))
        self.refused(13, judge.deliver, 0, 9, bytes([2]))
        self.assertEqual(judge.deliver(0, 6, bytes([0, 1])), Looked(2))
        self.assertEqual(judge.verdict(), Yes(2, 2, 1, 0))
        judge.withdraw(0)
        self.refused(22, judge.deliver, 0, 6, bytes([0, 1]))
        self.assertEqual(judge.verdict(), Waiting(1))
        self.assertEqual(judge.deliver(0, 2**32 - 1, bytes([0, 1])), Looked(2))
        self.refused(22, judge.deliver, 0, 2**32 - 1, b"")
        judge.open(1)
        self.assertEqual(judge.deliver(0, 0, b""), Looked(0))

    def test_two_orders_of_deliveries(self):
        given = [(0, 3, b"\1\1"), (1, 0, b""), (0, 7, b"\0"), (1, 9, b"\1")]
        for order in itertools.permutations(given):
            judge = self.opened(2)
            for delivery in order:
                try:
                    judge.deliver(*delivery)
                except Refused as refused:
                    self.assertEqual(refused.number, 22)
            self.assertEqual(judge.verdict(), Yes(3, 2, 1, 1))

    def test_revisions_that_c_would_cut(self):
        judge = self.opened(1)
        for revision in (2**32, 2**32 + 1, 2**64, -1):
            self.assertRaises(ValueError, judge.deliver, 0, revision, b"")
        self.assertRaises(TypeError, judge.deliver, 0, 0.0, b"")
        self.assertEqual(judge.verdict(), Waiting(1))

    def test_words_of_a_refusal(self):
        with self.assertRaisesRegex(Refused, "^refused 20: no rule is there$"):
            Judge().open(1)

    def test_answers_of_other_kinds_differ(self):
        self.assertNotEqual(Yes(3, 2, 1, 1), No(3, 2, 1, 1))
        self.assertNotEqual(No(0, 0, 0, 0), Waiting(0))

    def test_only_is_yes_is_a_truth_value(self):
        """A program that ships on `if judge.verdict()` would ship on a no and on an empty board."""
        for said, yes in ((Waiting(1), False), (No(3, 2, 1, 1), False), (Yes(3, 2, 1, 1), True)):
            self.assertIs(said.is_yes, yes)
            for asked in (bool, lambda v: not v, lambda v: v and 1, lambda v: 1 if v else 0, lambda v: any([v])):
                with self.assertRaisesRegex(TypeError, rf"\b{type(said).__name__}\b.*\.is_yes"):
                    asked(said)
            with self.assertRaises(AttributeError):
                said.is_yes = True
        self.assertEqual([judged(A, *chunks).is_yes for chunks in ([[0, 1]], [[1, 0]])], [True, False])
        self.assertIs(self.opened(1).verdict().is_yes, False)
        begin = b"load " + A.hex().encode() + b"\nopen 1\n"
        self.assertEqual([replay(begin + rest).is_yes for rest in (b"deliver 0 0 0001", b"deliver 0 0 01", b"")], [True, False, False])
        self.assertRaises(TypeError, bool, replay(begin))

    def test_numbers_that_c_would_cut(self):
        judge = self.opened(2)
        for number in (2**64, 2**64 + 1, 2**65, -1, -(2**64)):
            self.refused(11, judge.deliver, number, 0, b"")
            self.refused(11, judge.withdraw, number)
            self.refused(10, judge.open, number)
        self.assertEqual(judge.verdict(), Waiting(2))

    def test_arguments_that_are_no_bytes(self):
        judge = self.opened(1)
        for chunk in (5, "01", [0, 1], None, array.array("H", [0, 1])):
            self.assertRaises(TypeError, judge.deliver, 0, 0, chunk)
        self.assertRaises(TypeError, judge.deliver, 0.0, 0, b"")
        judge.deliver(0, 0, bytearray([0, 1]))
        self.assertEqual(judge.verdict(), Yes(2, 2, 1, 0))

    def test_a_judge_shows_its_sizes(self):
        judge = self.opened(2)
        judge.deliver(1, 0, b"")
        self.assertEqual(repr(judge), "<Judge: states 3, symbols 2, sets 5, starts 3, places 2, filled 1>")

    def test_a_small_stack(self):
        """Every call on the stack that is asked for: on too small a one Python ends by a signal."""
        verdicts = []
        record = b"load " + A.hex().encode() + b"\nopen 1\ndeliver 0 0 FF\n"

        def calls():
            judge, rule, tray = self.opened(1), read(A), bellbadger.trays.Tray()
            judge.deliver(0, 0, b"\xff\0\1" * 9)
            verdicts.extend([judge.verdict(), replay(record), judge.install(rule)])
            profile = bellbadger.mappings.Profile(rule)
            verdicts.append(profile.accepts(bellbadger.mappings.compose(profile.run(b"\xff\0"), profile.run(b"\1"))))
            verdicts.append(bellbadger.samples.sample(bellbadger.samples.ACCEPTED, rule))
            verdicts.append(len(bellbadger.patterns.rule_file("(a|b)*ab")))
            verdicts.append(bellbadger.merge.merge(bellbadger.merge.EITHER, rule, rule).n)
            verdicts.append(bellbadger.merge.merge_reduced(bellbadger.merge.EITHER, rule, rule).n)
            verdicts.append(len(bellbadger.form.table(bellbadger.form.form(judge))))
            tray.install_row(rule)
            tray.install_column(rule)
            tray.open(2, 1)
            tray.deliver(0, bytes([0, 1]))
            verdicts.append(tray.verdict())
            tray.withdraw(0)

        before = threading.stack_size(1024 * 1024)
        try:
            thread = threading.Thread(target=calls)
            thread.start()
            thread.join()
        finally:
            threading.stack_size(before)
        due = [Yes(18, 18, 1, 0), No(0, 0, 0, 0), Loaded(5, 3), True, bytes([0, 1]), 50, 6, 3, 5, bellbadger.trays.TrayNo()]
        self.assertEqual(verdicts, due)


class Records(unittest.TestCase):
    def test_replay(self):
        load = b"load " + A.hex().encode() + b"\n"
        self.assertEqual(replay(load + b"open 2\n"), Waiting(2))
        self.assertEqual(replay(load + b"open 2\ndeliver 1 0 01\ndeliver 0 0 00\n"), Yes(3, 2, 1, 1))
        self.assertEqual(replay(load + b"open 2\ndeliver 1 0 00\ndeliver 0 0 01"), No(2, 2, 1, 0))

    def test_revisions(self):
        begin = b"load " + A.hex().encode() + b"\nopen 1\n"
        self.assertEqual(replay(begin + b"deliver 0 7 00\ndeliver 0 8 0001\ndeliver 0 8 -"), Yes(2, 2, 1, 0))
        for line in (b"deliver 0 0001", b"deliver 0 4294967296 0001"):
            self.assertRaises(Malformed, replay, begin + line)

    def test_malformed(self):
        with self.assertRaisesRegex(Malformed, "^line 2 is malformed$") as caught:
            replay(b"verdict\nverdict \n")
        self.assertEqual(caught.exception.line, 2)

    def test_refused(self):
        with self.assertRaises(Refused) as caught:
            replay(b"")
        self.assertEqual(caught.exception.number, 21)


class Module(unittest.TestCase):
    def test_examples(self):
        found = doctest.testmod(bellbadger)
        self.assertGreater(found.attempted, 0)
        self.assertEqual(found.failed, 0)

    def test_one_package(self):
        """What `import bellbadger` gives, and a module for each subject."""
        names = "CheckedRule Judge Loaded Looked Malformed No Refused Waiting Yes read replay version".split()
        self.assertEqual(sorted(bellbadger.__all__), names)
        self.assertTrue(all(hasattr(bellbadger, name) for name in names))
        for subject in "judge rules losses follow summaries cluster mappings samples patterns merge trays form texts".split():
            module = getattr(bellbadger, subject)
            self.assertEqual(module.__name__, "bellbadger." + subject)
            self.assertTrue(module.__doc__ and module.__all__)

    def test_version(self):
        self.assertEqual(bellbadger.version(), (5, 8))

    def imported_from(self, folder):
        run = subprocess.run(
            [sys.executable, "-c", "import bellbadger"],
            cwd=os.path.dirname(os.path.abspath(__file__)),
            env={**os.environ, "BELLBADGER_LIB": folder},
            capture_output=True,
            text=True,
        )
        self.assertNotEqual(run.returncode, 0)
        return run.stderr.splitlines()[-1]

    def test_a_missing_library(self):
        """What is said names the file that was tried, the command that makes it, and the variable."""
        help = "Make it, at the top of the repository, with: outside/build, or name the folder that has it in BELLBADGER_LIB."
        said = self.imported_from("/nonexistent")
        self.assertEqual(said, f"ImportError: /nonexistent/libbellbadger.so is not there. {help}")
        with tempfile.TemporaryDirectory() as folder:
            path = os.path.join(folder, "libbellbadger.so")
            with open(path, "w", encoding="ascii") as file:
                file.write("no library\n")
            said = self.imported_from(folder)
            self.assertTrue(said.startswith(f"ImportError: {path} cannot be loaded (") and said.endswith(help), said)


if __name__ == "__main__":
    unittest.main()
