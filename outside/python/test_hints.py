"""Every public function, method and property of the package says the types of what it takes and
answers, as py.typed promises to those who check theirs; the names in the hints are there; and what
the worked calls answer is of the type that is said. This would catch a function without hints, and a
hint that names another answer."""
import dataclasses
import inspect
import typing
import unittest

import bellbadger
from bellbadger import compare, follow, form, mappings, merge, patterns, reduce, samples, summaries, texts, trays

MODULES = (bellbadger, bellbadger.cluster, compare, follow, form, bellbadger.losses, mappings, merge, patterns, reduce,
           bellbadger.judge, bellbadger.refusals, bellbadger.rules, samples, bellbadger.saved, summaries, texts, trays)


def own(kind):
    """The public functions of a class, and those of the package's classes behind it."""
    for base in kind.__mro__:
        if base.__module__.startswith("bellbadger"):
            for name, member in vars(base).items():
                function = member.fget if isinstance(member, property) else getattr(member, "__func__", member)
                hidden = name.startswith("_") and name != "__init__"
                if inspect.isfunction(function) and not hidden and function.__module__.startswith("bellbadger"):
                    yield f"{base.__name__}.{name}", function


def public():
    """Every public function and method, once, by its name."""
    found = {}
    for module in MODULES:
        for name in module.__all__:
            value = getattr(module, name)
            if inspect.isclass(value):
                found.update(own(value))
            elif inspect.isfunction(value):
                found[f"{value.__module__}.{name}"] = value
    return found


class Hints(unittest.TestCase):
    def test_every_function_has_hints(self):
        functions = public()
        self.assertGreater(len(functions), 50)
        for name, function in functions.items():
            hints = typing.get_type_hints(function)
            taken = [p for p in inspect.signature(function).parameters if p not in ("self", "cls")]
            self.assertEqual(sorted({*taken, "return"} - set(hints)), [], name)

    def test_fields_say_what_stands_in_them(self):
        for module in MODULES:
            for name in module.__all__:
                value = getattr(module, name)
                if dataclasses.is_dataclass(value):
                    for field, hint in typing.get_type_hints(value).items():
                        self.assertNotIn(hint, (object, tuple, typing.Any), f"{name}.{field}")

    def fits(self, function, *arguments):
        """The answer, which is of the type that is said."""
        answer = function(*arguments)
        said = typing.get_type_hints(function)["return"]
        several = typing.get_args(said) if typing.get_origin(said) is typing.Union else (said,)
        self.assertIsInstance(answer, tuple(typing.get_origin(kind) or kind for kind in several), function.__qualname__)
        return answer

    def test_answers_are_of_the_types(self):
        rule = self.fits(bellbadger.read, self.fits(patterns.rule_file, "(a|b)*ab"))
        judge = bellbadger.Judge()
        self.fits(judge.install, rule)
        self.fits(judge.open, 2)
        self.fits(judge.verdict)
        self.fits(judge.deliver, 0, 0, b"\0")
        self.fits(judge.diagnose)
        self.fits(judge.locate, 1, b"\1")
        self.fits(judge.deliver, 1, 0, bytearray(b"\1"))
        self.fits(bellbadger.Judge.restore, self.fits(judge.save))
        self.fits(judge.verdict)
        whole = self.fits(summaries.combine, self.fits(judge.summarize, 0, b"\0"), self.fits(judge.summarize, 1, b"\1"))
        self.fits(judge.conclude, self.fits(summaries.Summary.from_bytes, self.fits(whole.to_bytes)), 2)
        self.fits(form.table, self.fits(form.form, judge))
        self.fits(compare.compare, rule, rule)
        self.fits(merge.merge_reduced, merge.BOTH, rule, rule)
        self.fits(reduce.reduce, rule)
        self.fits(samples.sample, samples.ACCEPTED, rule)
        self.fits(texts.make_text, 2, 1, 3)
        self.fits(follow.Follower(rule).follow, memoryview(b"\0"))
        self.fits(bellbadger.replay, b"load 03020100000004000000160006001C0002001E0000000000000101000102\nopen 1\n")
        self.fits(bellbadger.version)
        profile = mappings.Profile(bellbadger.read(bytes.fromhex("03020100000004000000160006001C0002001E0000000000000101000102")))
        self.fits(profile.accepts, self.fits(profile.run, b"\0\1"))
        tray = trays.Tray()
        self.fits(tray.install_row, rule)
        self.fits(tray.install_column, rule)
        self.fits(tray.open, 2, 1)
        self.fits(tray.verdict)
        self.fits(tray.fault)

    def test_version(self):
        self.assertEqual(bellbadger.__version__, "{}.{}".format(*bellbadger.version()))


if __name__ == "__main__":
    unittest.main()
