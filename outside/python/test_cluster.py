"""The adapter for a cluster without one: a stand-in for distributed's client runs the tasks in an order of its own, some
of them twice, and sends what they are given and answer as pickles. tests/cluster has the real one, with workers that
are killed."""

import functools
import os
import pickle
import random
import tempfile
import unittest
from pathlib import Path

from bellbadger import CheckedRule, Judge, Refused, cluster, read
from bellbadger.follow import Follower

A = read(bytes.fromhex("03020100000004000000160006001C0002001E0000000000000101000102"))
OTHER = CheckedRule(A.n, A.k, A.initials, 2, A.targets)


class Future:
    def __init__(self, run):
        self.run = run

    def result(self):
        return self.run()


class Client:
    """Each task is run when something needs it, sometimes again, and its arguments backwards."""

    def __init__(self):
        self.chance, self.tasks = random.Random(4), 0

    def submit(self, function, *arguments, pure):
        assert pure is False
        sent = pickle.dumps((function, [None if isinstance(argument, Future) else argument for argument in arguments]))
        self.tasks += 1

        @functools.lru_cache
        def run():
            there = {at: argument.result() for at, argument in reversed(list(enumerate(arguments))) if isinstance(argument, Future)}
            for _ in range(self.chance.choice((1, 1, 2))):
                worker_function, worker_arguments = pickle.loads(sent)
                answer = worker_function(*(there.get(at, argument) for at, argument in enumerate(worker_arguments)))
            return pickle.loads(pickle.dumps(answer))

        return Future(run)


def any_chunks(chance, count):
    return [bytes(chance.choices((0, 1, 255), k=chance.randrange(6))) for _ in range(count)]


def due(chunks):
    judge = Judge()
    judge.install(A)
    judge.open(len(chunks))
    for place, chunk in enumerate(chunks):
        judge.deliver(place, 0, chunk)
    return judge.verdict()


def refuse(number):
    raise Refused(number)


class Cluster(unittest.TestCase):
    def refused(self, number, call, *arguments):
        with self.assertRaises(Refused) as caught:
            call(*arguments)
        self.assertEqual(caught.exception.number, number)
        return caught.exception

    def test_as_a_filled_board(self):
        chance, said = random.Random(1), [0, 0]
        for count in [1, 1, 2, 7, 8, 9, 16, 63, 64] * 4:
            chunks = any_chunks(chance, count)
            verdict = cluster.judge(Client(), A, iter(chunks), count)
            self.assertEqual(verdict, due(chunks))
            said[verdict.is_yes] += 1
        self.assertGreater(min(said), 3)

    def test_more_chunks_than_a_board_takes(self):
        for last in (b"\0\1", b"\1\0"):
            client, follower, chunks = Client(), Follower(A), any_chunks(random.Random(2), 2000) + [last]
            for chunk in chunks:
                followed = follower.follow(chunk)
            self.assertIs(cluster.judge(client, A, chunks, 2001).is_yes, followed.is_accepted_so_far)
            self.assertLess(client.tasks, 300)

    def test_what_a_worker_loads(self):
        chunks = any_chunks(random.Random(3), 20) + [b"\0\1"]
        with tempfile.TemporaryDirectory() as folder:
            paths = [Path(folder, f"{number:03}") for number in range(len(chunks))]
            for path, chunk in zip(paths, chunks):
                path.write_bytes(chunk)
            for kinds in (paths, [str(path) for path in paths], [path.read_bytes for path in paths], map(bytearray, chunks)):
                self.assertEqual(cluster.judge(Client(), A, kinds, 21), due(chunks))
            paths[7].unlink()
            self.assertRaises(FileNotFoundError, cluster.judge, Client(), A, paths, 21)

    def test_a_path_is_of_the_client(self):
        """The file that the client means, wherever a worker stands; a file's name is none of its bytes."""
        with tempfile.TemporaryDirectory() as folder, tempfile.TemporaryDirectory() as elsewhere:
            Path(folder, "0").write_bytes(b"\0\1")
            Path(elsewhere, "0").write_bytes(b"\1\0")
            before = os.getcwd()
            with os.scandir(os.fsencode(folder)) as entries:
                entry = next(entries)
            for path in ("0", Path("0"), entry):
                os.chdir(folder)
                try:
                    future = cluster.summaries(Client(), A, [(0, path)])[0]
                    os.chdir(elsewhere)
                    summary = future.result()
                finally:
                    os.chdir(before)
                judge = Judge()
                judge.install(A)
                self.assertTrue(judge.conclude(summary, 1).is_yes)

    def test_no_chunk(self):
        classes = (bytes, "the class bytes"), (Client, "the class Client")
        for wrong, name in ((None, "NoneType"), (5, "int"), (["\0"], "list"), *classes):
            words = f"^judge: chunk 1 must be a path, bytes or something to be called, not {name}$"
            self.assertRaisesRegex(TypeError, words, cluster.judge, Client(), A, [b"", wrong], 2)
            self.assertRaisesRegex(TypeError, words, cluster.judge, Client(), A, {1: wrong, 0: b""}, 2)
        for wrong in (str, dict, int):
            words = f"^judge: what is called for chunk 1 must be something that answers bytes, not {wrong.__name__}$"
            self.assertRaisesRegex(TypeError, words, cluster.judge, Client(), A, [b"", functools.partial(wrong)], 2)

    def test_no_list_of_chunks(self):
        some = {0: b"\0", 1: b"\1"}
        views = some.keys(), some.values(), some.items()
        for wrong in (set(some.values()), frozenset(some.values()), "01", b"\0\1", bytearray(2), *views, 5, None):
            words = f"^judge: chunks must be a mapping from numbers to chunks, or chunks in order, not {type(wrong).__name__}$"
            self.assertRaisesRegex(TypeError, words, cluster.judge, Client(), A, wrong, 2)
        for wrong in ({"0": b""}, {0: b"", 1.5: b""}, {None: b""}):
            words = "^judge: a key of chunks must be a whole number, not"
            self.assertRaisesRegex(TypeError, words, cluster.judge, Client(), A, wrong, len(wrong))
        self.assertRaises(TypeError, cluster.judge, Client(), A, [b""])

    def test_not_so_many(self):
        """Whatever came is a yes: the rule accepts what ends in 0 1."""
        for count in (2, 40, 300):
            chunks = [b"\0\1"] * count
            named = dict(enumerate(chunks))
            for right in (chunks, iter(chunks), named, dict(reversed(named.items()))):
                self.assertTrue(cluster.judge(Client(), A, right, count).is_yes)
            for wrong in (chunks[:-1], iter(chunks[:-1]), chunks + chunks[-1:], [], iter(()), {}):
                self.refused(44, cluster.judge, Client(), A, wrong, count)
            for wrong in (0, -1, count - 1, count + 1, 2**64, 2**64 + count):
                for some in (chunks, named):
                    self.refused(44, cluster.judge, Client(), A, some, wrong)
            without = lambda *gone: {number: chunk for number, chunk in named.items() if number not in gone}
            self.refused(42, cluster.judge, Client(), A, without(0), count)
            self.refused(44, cluster.judge, Client(), A, without(count - 1), count)
            self.refused(44, cluster.judge, Client(), A, {**named, count: b""}, count)
            for foreign in (-1, count + 1, 2**64 - 1, 2**64):
                self.refused(42, cluster.judge, Client(), A, {**named, foreign: b""}, count)
                self.refused(42, cluster.judge, Client(), A, {**without(0), foreign: b""}, count)
            if count > 2:
                self.refused(42, cluster.judge, Client(), A, without(count // 2), count)
                self.refused(42, cluster.judge, Client(), A, without(count // 2), count - 1)
                self.refused(42, cluster.judge, Client(), A, {**without(count // 2), count: b""}, count)

    def test_a_number_doubled(self):
        class Number:
            def __index__(self):
                return 1

        self.refused(42, cluster.judge, Client(), A, {0: b"\0", 1: b"\1", Number(): b"\1"}, 3)
        self.refused(42, cluster.judge, Client(), A, {0: b"\0", 1: b"\1", Number(): b"\1"}, 2)

    def test_exchanged_names(self):
        """A mapping's order does not matter, its numbers do."""
        named = {0: b"\1", 1: b"\0", 2: b"\1"}
        for order in ((0, 1, 2), (2, 1, 0), (1, 0, 2), (2, 0, 1)):
            verdict = cluster.judge(Client(), A, {number: named[number] for number in order}, 3)
            self.assertEqual(verdict, due([b"\1", b"\0", b"\1"]))
        self.assertFalse(cluster.judge(Client(), A, {0: b"\1", 1: b"\1", 2: b"\0"}, 3).is_yes)

    def test_what_a_callable_raises(self):
        for number in (12, 13, 44):
            refused = self.refused(number, cluster.judge, Client(), A, [b"", functools.partial(refuse, number)], 2)
            self.assertIs(type(refused), Refused)

    def test_refused(self):
        for number, wrong in ((13, b"\2"), (12, bytes(65537))):
            chunks = [b"\0\1"] * 30
            chunks[17] = wrong
            refused = self.refused(number, cluster.judge, Client(), A, chunks, 30)
            self.assertEqual((refused.chunk, pickle.loads(pickle.dumps(refused)).chunk), (17, 17))
            self.assertRegex(str(refused), f"^chunk 17: refused {number}: ")
        self.refused(44, cluster.judge, Client(), A, [], 0)
        self.refused(6, cluster.judge, Client(), CheckedRule(1, 1, 2, 0), [b""], 1)
        self.assertEqual(cluster.judge(Client(), A, [b""], 1), due([b""]))

    def test_gone_wrong(self):
        """Chunks, and summaries of neighbours, that are lost, doubled, exchanged or by another rule."""
        numbered = list(enumerate([b"\0\1"] * 40))
        client, judge = Client(), Judge()
        judge.install(A)
        conclude = lambda futures: judge.conclude(cluster.combined(client, futures).result(), 40)
        right, others = cluster.summaries(client, A, numbered), cluster.summaries(client, OTHER, numbered)
        self.assertTrue(conclude(right).is_yes)
        self.refused(42, conclude, right[:2] + right[3:])
        self.refused(42, conclude, right[1:])
        self.refused(44, conclude, right[:-1])
        self.refused(42, conclude, right[:2] + right[1:])
        self.refused(42, conclude, [right[1], right[0], *right[2:]])
        self.refused(42, conclude, right[:2] + others[2:3] + right[3:])
        self.refused(43, conclude, others)
        for at in (0, 13, 38):
            some, rest = numbered[:at], numbered[at + 1 :]
            self.refused(42, conclude, cluster.summaries(client, A, some + rest))
            self.refused(42, conclude, cluster.summaries(client, A, some + numbered[at : at + 1] * 2 + rest))
            self.refused(42, conclude, cluster.summaries(client, A, some + rest[:1] + numbered[at : at + 1] + rest[1:]))
        self.refused(44, conclude, cluster.summaries(client, A, numbered[:-1]))


if __name__ == "__main__":
    unittest.main()
