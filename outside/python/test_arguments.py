"""Arguments that are none, of every public function: what is raised names the function that was called
and the argument. This would catch an error that names something within the package, a number that C would
cut, and a function that nobody tried."""

import array
import inspect
import unittest

import bellbadger
from bellbadger import CheckedRule, Judge, Refused, cluster, read, replay
from bellbadger.compare import compare
from bellbadger.follow import Follower
from bellbadger.form import Form, form, table
from bellbadger.mappings import Profile, compose
from bellbadger.merge import BOTH, merge, merge_reduced
from bellbadger.patterns import rule_file
from bellbadger.reduce import reduce
from bellbadger.samples import ACCEPTED, sample
from bellbadger.summaries import Summary
from bellbadger.summaries import combine as combine_summaries
from bellbadger.texts import make_text
from bellbadger.trays import Tray

A = read(bytes.fromhex("03020100000004000000160006001C0002001E0000000000000101000102"))
SUBJECTS = ("judge", "rules", "losses", "saved", "follow", "summaries", "cluster", "mappings", "samples", "patterns", "merge", "compare", "reduce", "trays", "form", "texts")
WIDE = array.array("H", [0, 1])


def opened():
    judge = Judge()
    judge.install(A)
    judge.open(2)
    return judge


def opened_tray():
    tray = Tray()
    tray.install_row(A)
    tray.install_column(A)
    tray.open(2, 2)
    return tray


JUDGE, TRAY, PROFILE, FORM = opened(), opened_tray(), Profile(A), Form(1, (0,), (1,), (0,))
FOLLOWER = Follower(A)
SUMMARY, MASKS_32 = JUDGE.summarize(0, b""), [0] * 32

NO_BYTES = ((5, "int"), ("01", "str"), ([0, 2], "list"), (None, "NoneType"), (WIDE, "items of 2 bytes"))
NO_NUMBER = ((0.0, "float"), ("0", "str"), (None, "NoneType"), (b"\0", "bytes"))
NO_RULE = ((b"", "bytes"), (None, "NoneType"), (JUDGE, "Judge"))
NO_SUMMARY = ((SUMMARY.to_bytes(), "bytes"), (None, "NoneType"), (JUDGE, "Judge"))

# a function, the arguments that are right, and the place and name of the one that is wrong; then what it
# must be and what is handed in
WRONG_TYPES = [
    (function, arguments, at, name, due, wrong)
    for function, arguments, at, name, due, all_wrong in (
        (read, [b""], 0, "file", "bytes", NO_BYTES),
        (replay, [b""], 0, "text", "bytes", NO_BYTES),
        (JUDGE.load, [b""], 0, "file", "bytes", NO_BYTES),
        (JUDGE.install, [A], 0, "rule", "a CheckedRule", NO_RULE),
        (JUDGE.open, [1], 0, "places", "a whole number", NO_NUMBER),
        (JUDGE.deliver, [0, 0, b""], 0, "place", "a whole number", NO_NUMBER),
        (JUDGE.deliver, [0, 0, b""], 1, "revision", "a whole number", NO_NUMBER),
        (JUDGE.deliver, [0, 0, b""], 2, "chunk", "bytes", NO_BYTES),
        (JUDGE.withdraw, [0], 0, "place", "a whole number", NO_NUMBER),
        (JUDGE.locate, [0, b""], 0, "place", "a whole number", NO_NUMBER),
        (JUDGE.locate, [0, b""], 1, "chunk", "bytes", NO_BYTES),
        (Judge.restore, [b""], 0, "data", "bytes", NO_BYTES),
        (JUDGE.summarize, [0, b""], 0, "number", "a whole number", NO_NUMBER),
        (JUDGE.summarize, [0, b""], 1, "chunk", "bytes", NO_BYTES),
        (JUDGE.conclude, [SUMMARY, 1], 0, "summary", "a Summary", NO_SUMMARY),
        (JUDGE.conclude, [SUMMARY, 1], 1, "chunks", "a whole number", NO_NUMBER),
        (combine_summaries, [SUMMARY, SUMMARY], 0, "earlier", "a Summary", NO_SUMMARY),
        (combine_summaries, [SUMMARY, SUMMARY], 1, "later", "a Summary", NO_SUMMARY),
        (Summary, [MASKS_32, 0, 0, 0, 0, 0], 0, "leads", "a sequence", ((0, "int"), (None, "NoneType"))),
        (Summary, [MASKS_32, 0, 0, 0, 0, 0], 1, "count", "a whole number", NO_NUMBER),
        (Summary, [MASKS_32, 0, 0, 0, 0, 0, 0], 6, "broken", "a whole number", NO_NUMBER),
        (cluster.judge, [None, A, [], 0], 1, "rule", "a CheckedRule", NO_RULE),
        (cluster.judge, [None, A, [], 0], 3, "count", "a whole number", NO_NUMBER),
        (Summary.from_bytes, [bytes(169)], 0, "data", "bytes", NO_BYTES),
        (CheckedRule, [1, 1, 0, 0], 0, "n", "a whole number", NO_NUMBER),
        (CheckedRule, [1, 1, 0, 0], 1, "k", "a whole number", NO_NUMBER),
        (CheckedRule, [1, 1, 0, 0], 2, "initials", "a whole number", NO_NUMBER),
        (CheckedRule, [1, 1, 0, 0], 3, "finals", "a whole number", NO_NUMBER),
        (CheckedRule, [1, 1, 0, 0, ()], 4, "targets", "a sequence", ((0, "int"), (None, "NoneType"))),
        (A.target_mask, [0, 0], 0, "state", "a whole number", NO_NUMBER),
        (A.target_mask, [0, 0], 1, "symbol", "a whole number", NO_NUMBER),
        (Profile, [A], 0, "rule", "a CheckedRule", NO_RULE),
        (PROFILE.run, [b""], 0, "chunk", "bytes", NO_BYTES),
        (PROFILE.accepts, [bytes(8)], 0, "mapping", "bytes", NO_BYTES),
        (Follower, [A], 0, "rule", "a CheckedRule", NO_RULE),
        (FOLLOWER.follow, [b""], 0, "chunk", "bytes", NO_BYTES),
        (compose, [bytes(8), bytes(8)], 0, "earlier", "bytes", NO_BYTES),
        (compose, [bytes(8), bytes(8)], 1, "later", "bytes", NO_BYTES),
        (sample, [ACCEPTED, A], 1, "rule", "a CheckedRule", NO_RULE),
        (rule_file, ["a"], 0, "pattern", "str or bytes", [wrong for wrong in NO_BYTES if wrong[1] != "str"]),
        (merge, [BOTH, A, A], 1, "one", "a CheckedRule", NO_RULE),
        (merge, [BOTH, A, A], 2, "two", "a CheckedRule", NO_RULE),
        (merge_reduced, [BOTH, A, A], 1, "one", "a CheckedRule", NO_RULE),
        (merge_reduced, [BOTH, A, A], 2, "two", "a CheckedRule", NO_RULE),
        (compare, [A, A], 0, "one", "a CheckedRule", NO_RULE),
        (compare, [A, A], 1, "two", "a CheckedRule", NO_RULE),
        (reduce, [A], 0, "rule", "a CheckedRule", NO_RULE),
        (make_text, [1, 1, 1], 0, "k", "a whole number", NO_NUMBER),
        (make_text, [1, 1, 1], 1, "seed", "a whole number", NO_NUMBER),
        (make_text, [1, 1, 1], 2, "length", "a whole number", NO_NUMBER),
        (form, [JUDGE], 0, "judge", "a Judge", ((A, "CheckedRule"), (None, "NoneType"))),
        (table, [FORM], 0, "form", "a Form", ((A, "CheckedRule"), (None, "NoneType"))),
        (Form, [1, (0,), (1,), (0,)], 0, "symbols", "a whole number", NO_NUMBER),
        (Form, [1, (0,), (1,), (0,)], 1, "failure", "a sequence", ((0, "int"), (None, "NoneType"))),
        (Form, [1, (0,), (1,), (0,)], 2, "kept", "a sequence", ((0, "int"), (None, "NoneType"))),
        (Form, [1, (0,), (1,), (0,)], 3, "cells", "a sequence", ((0, "int"), (None, "NoneType"))),
        (TRAY.install_row, [A], 0, "rule", "a CheckedRule", NO_RULE),
        (TRAY.install_column, [A], 0, "rule", "a CheckedRule", NO_RULE),
        (TRAY.open, [1, 1], 0, "width", "a whole number", NO_NUMBER),
        (TRAY.open, [1, 1], 1, "bands", "a whole number", NO_NUMBER),
        (TRAY.deliver, [0, b""], 0, "band", "a whole number", NO_NUMBER),
        (TRAY.deliver, [0, b""], 1, "rows", "bytes", NO_BYTES),
        (TRAY.withdraw, [0], 0, "band", "a whole number", NO_NUMBER),
    )
    for wrong in all_wrong
]

MASKS = [0] * 512
OVER_32 = "0 to 4294967295, not 4294967296"
WRONG_VALUES = (
    (JUDGE.deliver, [0, 2**32, b""], f"deliver: revision must be {OVER_32}"),
    (JUDGE.deliver, [0, -1, b""], "deliver: revision must be 0 to 4294967295, not -1"),
    (JUDGE.deliver, [0, 10**5000, b""], "deliver: revision must be 0 to 4294967295, not a number of 16610 bits"),
    (CheckedRule, [256, 1, 0, 0], "CheckedRule: n must be 0 to 255, not 256"),
    (CheckedRule, [1, -1, 0, 0], "CheckedRule: k must be 0 to 255, not -1"),
    (CheckedRule, [1, 1, 2**32, 0], f"CheckedRule: initials must be {OVER_32}"),
    (CheckedRule, [1, 1, 0, 2**32], f"CheckedRule: finals must be {OVER_32}"),
    (CheckedRule, [1, 1, 0, 0, MASKS[:511]], "CheckedRule: targets must be 512 masks, not 511"),
    (CheckedRule, [1, 1, 0, 0, MASKS + [0]], "CheckedRule: targets must be 512 masks, not 513"),
    (CheckedRule, [1, 1, 0, 0, MASKS[:511] + [2**32]], f"CheckedRule: targets[511] must be {OVER_32}"),
    (JUDGE.summarize, [2**64, b""], f"summarize: number must be 0 to {2**64 - 1}, not {2**64}"),
    (JUDGE.summarize, [-1, b""], f"summarize: number must be 0 to {2**64 - 1}, not -1"),
    (Summary, [[0] * 31, 0, 0, 0, 0, 0], "Summary: leads must be 32 masks, not 31"),
    (Summary, [[0] * 31 + [2**32], 0, 0, 0, 0, 0], f"Summary: leads[31] must be {OVER_32}"),
    (Summary, [MASKS_32, 0, 0, 0, 0, -1], f"Summary: end must be 0 to {2**64 - 1}, not -1"),
    (Summary, [MASKS_32, 0, 0, 0, 0, 0, 256], "Summary: broken must be 0 to 255, not 256"),
    (Summary.from_bytes, [bytes(168)], "from_bytes: data must be 169 bytes, not 168"),
    (Summary.from_bytes, [b""], "from_bytes: data must be 169 bytes, not 0"),
    (PROFILE.accepts, [bytes(7)], "accepts: mapping must be eight bytes, not 7"),
    (compose, [bytes(9), bytes(8)], "compose: earlier must be eight bytes, not 9"),
    (compose, [bytes(8), b""], "compose: later must be eight bytes, not 0"),
    (sample, [2, A], "sample: wish must be ACCEPTED or REJECTED, not 2"),
    (sample, [0.0, A], "sample: wish must be ACCEPTED or REJECTED, not 0.0"),
    (merge, [3, A, A], "merge: way must be BOTH, EITHER or INTERLEAVING, not 3"),
    (merge, [1.0, A, A], "merge: way must be BOTH, EITHER or INTERLEAVING, not 1.0"),
    (merge, [True, A, A], "merge: way must be BOTH, EITHER or INTERLEAVING, not True"),
    (merge_reduced, [3, A, A], "merge_reduced: way must be BOTH, EITHER or INTERLEAVING, not 3"),
    (merge_reduced, [1.0, A, A], "merge_reduced: way must be BOTH, EITHER or INTERLEAVING, not 1.0"),
    (make_text, [1, 2**64, 1], "make_text: seed must be 0 to 18446744073709551615, not 18446744073709551616"),
    (make_text, [1, 1, -1], "make_text: length must be 0 to 9223372036854775807, not -1"),
    (Form, [256, (0,), (1,), (0,)], "Form: symbols must be 0 to 255, not 256"),
    (Form, [1, (-1,), (1,), (0,)], "Form: failure[0] must be 0 to 65535, not -1"),
    (Form, [1, (0,), (65536,), (0,)], "Form: kept[0] must be 0 to 65535, not 65536"),
    (Form, [1, (0,), (1,), (None, 65536)], "Form: cells[1] must be 0 to 65535, not 65536"),
    (Form, [1, (0, 0), (1,), (0,)], "Form: failure and kept must be as long as each other, not 2 and 1"),
    (Form, [1, [0] * 513, [0] * 513, ()], "Form: kept must be at most 512 masks, not 513"),
    (Form, [1, (0,), (3,), (0,)], "Form: cells must be the kept ones, 2, and at most 8192, not 1"),
    (Form, [1, (0,), (1,), [0] * 8193], "Form: cells must be the kept ones, 1, and at most 8192, not 8193"),
)

# what C has no size for is refused as any place, width or number of places is that fits no board
NO_SIZES = (
    (JUDGE.open, [None], 10),
    (JUDGE.deliver, [None, 0, b""], 11),
    (JUDGE.withdraw, [None], 11),
    (JUDGE.locate, [None, b""], 11),
    (JUDGE.conclude, [SUMMARY, None], 44),
    (TRAY.open, [None, 1], 38),
    (TRAY.open, [1, None], 10),
    (TRAY.deliver, [None, b""], 11),
    (TRAY.withdraw, [None], 11),
)

# what takes no arguments, and what the package alone makes
WITHOUT = {"version", "Judge", "Tray", "Judge.verdict", "Judge.diagnose", "Judge.save", "Tray.verdict", "Tray.fault", "Follower.begin", "Follower.drop_refused", "Summary.to_bytes"}
ANSWERS = {"Loaded", "Looked", "Waiting", "Yes", "No", "TrayWaiting", "TrayYes", "TrayNo", "TrayRefused", "Row", "Column", "Short", "Lost", "Open", "Followed", "Refused", "RefusedChunk", "Malformed"} | {"FirstAlone", "SecondAlone", "Same", "Reduced"}


def public_functions():
    """The names of all functions, classes and methods that a caller can call."""
    for module in [bellbadger] + [getattr(bellbadger, subject) for subject in SUBJECTS]:
        for name in module.__all__:
            value = getattr(module, name)
            if name in ANSWERS or not callable(value):
                continue
            yield name
            if inspect.isclass(value):
                ours = lambda member: inspect.isfunction(member) or inspect.ismethod(member)
                yield from (f"{name}.{at}" for at, _ in inspect.getmembers(value, ours) if not at.startswith("_"))


class Arguments(unittest.TestCase):
    def raised(self, kind, function, arguments):
        with self.assertRaises(kind) as caught:
            function(*arguments)
        return caught.exception

    def test_wrong_types(self):
        for function, arguments, at, name, due, (wrong, kind) in WRONG_TYPES:
            said = self.raised(TypeError, function, arguments[:at] + [wrong] + arguments[at + 1 :])
            self.assertEqual(str(said), f"{function.__name__}: {name} must be {due}, not {kind}")

    def test_wrong_values(self):
        for function, arguments, due in WRONG_VALUES:
            self.assertEqual(str(self.raised(ValueError, function, arguments)), due)
        for targets in (["0"] * 512, [0] * 511 + [None]):
            said = str(self.raised(TypeError, CheckedRule, [1, 1, 0, 0, targets]))
            self.assertRegex(said, r"^CheckedRule: targets\[(0|511)\] must be a whole number, not (str|NoneType)$")

    def test_numbers_that_are_no_size(self):
        for function, arguments, number in NO_SIZES:
            for outside in (-1, -(2**64), 2**64, 2**64 + 1, 2**70):
                said = self.raised(Refused, function, [outside if x is None else x for x in arguments])
                self.assertEqual(said.number, number)

    def test_nothing_changed(self):
        self.assertEqual(JUDGE.verdict(), bellbadger.Waiting(2))
        self.assertEqual(TRAY.verdict(), bellbadger.trays.TrayWaiting(2))
        self.assertEqual(FOLLOWER.follow(b""), Follower(A).follow(b""))

    def test_a_pattern_that_has_no_utf_8(self):
        self.assertEqual(self.raised(Refused, rule_file, ["\ud800"]).number, 31)

    def test_every_function_is_tried(self):
        tried = {function.__qualname__ for function, *_ in WRONG_TYPES}
        self.assertEqual(set(public_functions()) - WITHOUT, tried)


if __name__ == "__main__":
    unittest.main()
