"""The failure form from Python: rule A's worked by hand, other rules there and back, the reasons for 40,
and what may stand in a form."""

import dataclasses
import doctest
import random
import unittest

import bellbadger.form
from bellbadger import CheckedRule, Judge, Refused
from bellbadger.form import Form, form, table

A = bytes.fromhex("03020100000004000000160006001C0002001E0000000000000101000102")


def judge_of(symbols, rows):
    targets = [mask for row in rows for mask in (*row, *[0] * (16 - symbols))]
    judge = Judge()
    judge.install(CheckedRule(len(rows), symbols, 1, 1, targets + [0] * (512 - len(targets))))
    return judge


def sets_of(rows):
    """The next-set table, from the masks: each state in turn, then what is new, set by set."""
    sets, cells = [], []

    def successor(mask, s):
        return sum({1 << q for row in [r for p, r in enumerate(rows) if mask >> p & 1] for q in range(32) if row[s] >> q & 1})

    for q in range(len(rows)):
        if 1 << q not in sets:
            sets.append(1 << q)
        while len(cells) < len(sets):
            nexts = [successor(sets[len(cells)], s) for s in range(len(rows[0]))]
            for mask in nexts:
                if mask and mask not in sets:
                    sets.append(mask)
            cells.append(nexts)
    return tuple(tuple(sets.index(mask) if mask else None for mask in nexts) for nexts in cells)


class Forms(unittest.TestCase):
    def refused(self, number, call, argument):
        with self.assertRaises(Refused) as caught:
            call(argument)
        self.assertEqual(caught.exception.number, number)

    def test_worked_by_hand(self):
        judge = Judge()
        self.refused(20, form, judge)
        judge.load(A)
        self.assertEqual(form(judge), Form(2, (0, 0, 0, 0, 3), (3, 2, 0, 3, 2), (1, 0, 2, None, 4, None)))

    def test_random_rules(self):
        for seed in range(60):
            chance = random.Random(seed)
            n, k = chance.randint(1, 5), chance.randint(1, 16)
            rows = [[chance.getrandbits(n) & chance.getrandbits(n) for _ in range(k)] for _ in range(n)]
            made, due = form(judge_of(k, rows)), sets_of(rows)
            self.assertEqual(table(made), due)
            cells = []
            for t, row in enumerate(due):
                equal = [sum(x == y for x, y in zip(row, due[u])) for u in range(t)]
                failure = equal.index(max(equal)) if t else 0
                kept = [s for s in range(k) if t == 0 or row[s] != due[failure][s]]
                self.assertEqual((made.failure[t], made.kept[t]), (failure, sum(1 << s for s in kept)))
                cells += [row[s] for s in kept]
            self.assertEqual(made.cells, tuple(cells))

    def test_reasons_for_40(self):
        good = Form(2, (0, 0), (3, 1), (1, None, 0))
        self.assertEqual(table(good), ((1, None), (0, None)))
        for change in (
            {"symbols": 0},
            {"symbols": 17},
            {"failure": (), "kept": ()},
            {"failure": (0, 1)},
            {"kept": (1, 1)},
            {"kept": (3, 4)},
            {"cells": (1, 2, 0)},
            {"cells": (1, 0, 513)},
        ):
            self.refused(40, table, dataclasses.replace(good, **change))

    def test_not_read(self):
        self.assertEqual(table(Form(1, (7, 0), (1, 0), (1, 600))), ((1,), (1,)))

    def test_arguments(self):
        for wrong in ((256, (), (), ()), (1, (0,), (65536,), (0,)), (1, (0,), (), ()), (1, (0,), (1,), ()), (1, (0,) * 513, (0,) * 513, ())):
            self.assertRaises(ValueError, Form, *wrong)
        self.assertRaises(TypeError, table, b"")

    def test_examples(self):
        found = doctest.testmod(bellbadger.form)
        self.assertGreater(found.attempted, 0)
        self.assertEqual(found.failed, 0)


if __name__ == "__main__":
    unittest.main()
