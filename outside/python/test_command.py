"""The command for people, as a program: every message, every status, files that are none, outputs that cannot be
written, boards, trays, records and their pages. That it never says yes where something was not read, judged or written
is what most of it is about. tests/command compares lines with the other implementation."""

import hashlib
import html.parser
import itertools
import json
import os
import pty
import select
import signal
import subprocess
import sys
import tempfile
import time
import unittest
from pathlib import Path
from unittest import mock

from bellbadger import Refused, read, trays
from bellbadger.command import cli, commands, drawing, judging, output, traces
from bellbadger.command.errors import Differs, Failed
from bellbadger.command.rules import from_bytes
from bellbadger.judge import Judge, No, Yes

HERE = Path(__file__).resolve().parent
A = bytes.fromhex("03020100000004000000160006001C0002001E0000000000000101000102")
PURGE = "events red blue purge\npattern (purge | (red | blue) purge)*\n"
STATES = "events red blue purge\nstate clean initial final: purge -> clean; red, blue -> dirty\nstate dirty: purge -> clean\n"
# the tenth event from the end is a: over 512 sets
MANY = "events a b\npattern (a | b)* a" + " (a | b)" * 9 + "\n"
FILES = {
    "purge.txt": PURGE,
    "states.txt": STATES,
    "many.txt": MANY,
    "good.txt": "red\npurge\nblue\npurge\n",
    "bad.txt": "red\npurge\nblue\nred\npurge\n",
    "short.txt": "red\npurge\nblue\n",
    "typo.txt": "red\npurge\nblu\npurge\n",
    "empty.txt": "",
    "comment.txt": "# nothing came\n",
}


class Case(unittest.TestCase):
    def setUp(self):
        folder = tempfile.TemporaryDirectory()
        self.addCleanup(folder.cleanup)
        self.folder = Path(folder.name)
        for name, text in FILES.items():
            self.put(name, text)

    def put(self, name, content):
        (self.folder / name).write_bytes(content if isinstance(content, bytes) else content.encode())
        return name

    def run_it(self, *words, **more):
        """Runs the command as a program: what it prints, what it says beside, its status."""
        environment = dict(os.environ, PYTHONDONTWRITEBYTECODE="1", PYTHONPATH=str(HERE), **more.pop("env", {}))
        program = more.pop("program", [sys.executable, "-m", "bellbadger"])
        pipes = {"stdout": subprocess.PIPE, "stderr": subprocess.PIPE, "stdin": subprocess.DEVNULL}
        if "input" in more:
            pipes.pop("stdin")
        pipes.update(more)
        done = subprocess.run([*program, *map(str, words)], cwd=self.folder, env=environment, timeout=60, check=False, **pipes)
        text = lambda data: None if data is None else data.decode("utf-8", "surrogateescape")
        return text(done.stdout), text(done.stderr), done.returncode

    def quickly(self, *words):
        """The same within this process: what it prints, what it says beside, its status."""
        here = os.getcwd()
        os.chdir(self.folder)
        try:
            with tempfile.TemporaryFile("w+", encoding="utf-8") as said, tempfile.TemporaryFile("w+", encoding="utf-8") as beside:
                with mock.patch.object(sys, "stdout", said), mock.patch.object(sys, "stderr", beside):
                    status = cli.main([str(word) for word in words])
                texts = []
                for file in (said, beside):
                    file.seek(0)
                    texts.append(file.read())
            return texts[0], texts[1], status
        finally:
            os.chdir(here)

    def says(self, words, printed, status, beside=""):
        self.assertEqual(self.quickly(*words), (printed, beside, status))


class Judging(Case):
    def test_as_a_program(self):
        due = (
            "good.txt: yes\n"
            "bad.txt:4: no: red cannot come here; expected purge\n"
            "short.txt: no: the trace ends too early; expected purge\n"
            'typo.txt:3: error: no event "blu" (red, blue, purge)\n'
        )
        words = ["judge", "purge.txt", "good.txt", "bad.txt", "short.txt", "typo.txt"]
        self.assertEqual(self.run_it(*words), (due, "", 2))
        script = [sys.executable, HERE.parent / "bellbadger"]
        self.assertEqual(self.run_it(*words, program=script), (due, "", 2))
        self.assertEqual(self.run_it("judge", "purge.txt", "good.txt"), ("good.txt: yes\n", "", 0))
        self.assertEqual(self.run_it("judge", "purge.txt", "bad.txt")[2], 1)
        self.assertEqual(self.run_it("judge", "purge.txt", "-", input=b"red purge"), ("(standard input): yes\n", "", 0))

    def test_statuses(self):
        """2 wins over 1, and 1 over 0, in any order."""
        for traces_, status in (
            (["good.txt"], 0),
            (["good.txt", "good.txt"], 0),
            (["bad.txt", "good.txt"], 1),
            (["good.txt", "short.txt"], 1),
            (["typo.txt", "bad.txt", "good.txt"], 2),
            (["good.txt", "bad.txt", "typo.txt"], 2),
            (["good.txt", "gone.txt"], 2),
        ):
            self.assertEqual(self.quickly("judge", "purge.txt", *traces_)[2], status, traces_)
            self.assertEqual(self.quickly("judge", "--quiet", "purge.txt", *traces_)[::2], ("", status), traces_)

    def test_empty(self):
        for name in ("empty.txt", "comment.txt"):
            self.says(["judge", "purge.txt", name], f"{name}: yes (the trace has no events)\n", 0)
        self.put("some.txt", "events red\npattern red\n")
        self.says(["judge", "some.txt", "empty.txt"], "empty.txt: no: the trace ends too early; expected red\n", 1)
        self.put("none.txt", "events red\nstate a initial: red -> a\n")
        self.says(["judge", "none.txt", "empty.txt"], "empty.txt: no: the rule accepts no trace at all\n", 1)
        self.says(["judge", "none.txt", "good.txt"], 'good.txt:2: error: no event "purge" (red)\n', 2)

    def test_words_of_a_trace(self):
        """Names and numbers, white space and commas, idle marks and comments; what is none of it is an error."""
        for text, due, status in (
            ("red purge", "yes", 0),
            ("red, purge", "yes", 0),
            ("0\n2\r\n1 2\r\n", "yes", 0),
            ("\ufeffred purge", "yes", 0),
            ("idle red idle\nidle purge idle", "yes", 0),
            ("red # blu\npurge # the end", "yes", 0),
            ("red#purge\n", "no: the trace ends too early; expected purge", 1),
            ("red\x0bpurge\x0c\t", "yes", 0),
            ("red 3", 'error: no event "3" (red, blue, purge)', 2),
            ("red 00", 'error: no event "00" (red, blue, purge)', 2),
            ("red purge\0", "error: a zero byte: this is no text", 2),
            ("red purge # \0\0\0", "error: a zero byte: this is no text", 2),
            ("red purge\x01", 'error: no event "purge\\x01" (red, blue, purge)', 2),
            ("Red purge", 'error: no event "Red" (red, blue, purge)', 2),
            ("red;purge", 'error: no event "red;purge" (red, blue, purge)', 2),
            ("\u00a0red purge", 'error: no event "\\xa0red" (red, blue, purge)', 2),
            ("red \x1b[2Jpurge", 'error: no event "\\x1b[2Jpurge" (red, blue, purge)', 2),
            ("red,, purge", "error: an event is missing before the comma", 2),
            (", red purge", "error: an event is missing before the comma", 2),
            ("red purge,\n", "error: an event is missing behind the last comma", 2),
            ("red purge" + "x" * 100000, 'error: a word is longer than any name', 2),
            ("red pur", 'error: no event "pur" (red, blue, purge)', 2),
        ):
            self.put("trace.txt", text)
            said, _, found = self.quickly("judge", "purge.txt", "trace.txt")
            self.assertEqual((said.partition(": ")[2], found), (due + "\n", status), text[:20])

    def test_places(self):
        """The line; and the column, in characters, where the word is not the first of its line."""
        for text, due in (
            ("red purge\nblue purge red\nred", "trace.txt:3: no: red cannot come here; expected purge"),
            ("red purge\nidle blue  red", "trace.txt:2:12: no: red cannot come here; expected purge"),
            ("# ä\nred, red", "trace.txt:2:6: no: red cannot come here; expected purge"),
            ("red\n\n\n  blu", 'trace.txt:4: error: no event "blu" (red, blue, purge)'),
            ("red ä blu", 'trace.txt:1:5: error: no event "ä" (red, blue, purge)'),
            ("red\npurge " + "x" * 999, "trace.txt:2:7: error: a word is longer than any name"),
            ("red,\n,", "trace.txt:2: error: an event is missing before the comma"),
        ):
            self.put("trace.txt", text)
            for block in (1, 2, 5, 65536):
                with mock.patch.object(traces, "BLOCK", block):
                    self.assertEqual(self.quickly("judge", "purge.txt", "trace.txt")[0], due + "\n", (text, block))

    def test_binary(self):
        self.put("good.bin", bytes([0, 2, 255, 1, 2]))
        self.put("bad.bin", bytes([0, 255, 1, 2]))
        self.put("typo.bin", bytes([0, 2, 3, 2]))
        for words, due, status in (
            (["good.bin"], "good.bin: yes", 0),
            (["bad.bin"], "bad.bin: byte 3: no: blue cannot come here; expected purge", 1),
            (["typo.bin"], "typo.bin: byte 3: error: no event 3 (red, blue, purge)", 2),
        ):
            self.says(["judge", "--binary", "purge.txt", *words], due + "\n", status)

    def test_chunks(self):
        for name, text in (("a", "red\n"), ("b", "# nothing\n"), ("c", "purge blue ")):
            self.put(name, text)
        self.says(["judge", "--chunks", "purge.txt", "a", "b", "c"], "trace of 3 chunks: no: the trace ends too early; expected purge\n", 1)
        self.says(["judge", "--chunks", "purge.txt", "a", "c", "a"], "a:1: no: red cannot come here; expected purge\n", 1)
        self.put("d", "purge")
        self.says(["judge", "--chunks", "purge.txt", "a", "c", "d"], "trace of 3 chunks: yes\n", 0)
        self.says(["judge", "--chunks", "purge.txt", "a", "gone", "d"], "gone: error: No such file or directory\n", 2)

    def test_chunks_cut_within_a_word(self):
        """By bytes, as split -b does: what is left of a word may be another one, and of a comment too."""
        self.put("rule.txt", "events v1 v10 v2\npattern (v1 | v10 v2)*\n")
        why = "a chunk that others follow ends in a line's end, and not within a word or a comment"
        for first, place, second in (("v1", "a:1", "0\n"), ("v1\nv1 # once v", "a:2:4", "1\n"), ("v1 v1", "a:1:4", "\n"), ("# v1 ", "a:1", "v1")):
            self.put("a", first)
            self.put("b", second)
            for block in (1, 2, 5, 65536):
                with mock.patch.object(traces, "BLOCK", block):
                    self.says(["judge", "--chunks", "rule.txt", "a", "b"], f"{place}: error: {why}\n", 2)
        self.put("a", "v1")
        self.put("a.txt", "v1 ")
        self.says(["judge", "--chunks", "rule.txt", "a.txt", "a"], "trace of 2 chunks: yes\n", 0)

    def test_chunks_without_events(self):
        """A recording that failed looks like that: the line says so."""
        self.put("idle.txt", "idle\n")
        for words, more in (
            (["good.txt", "empty.txt"], " (empty.txt has no events)"),
            (["idle.txt", "good.txt", "comment.txt", "empty.txt"], " (idle.txt and 2 more have no events)"),
            (["idle.txt", "empty.txt"], " (the trace has no events)"),
            (["good.txt", "good.txt"], ""),
        ):
            self.says(["judge", "--chunks", "purge.txt", *words], f"trace of {len(words)} chunks: yes{more}\n", 0)

    def test_names_and_numbers(self):
        """16 events; names that are numbers; a rule without names."""
        names = " ".join(f"e{number}" for number in range(16))
        self.put("sixteen.txt", f"events {names}\npattern .*\n")
        self.put("trace.txt", names)
        self.says(["judge", "sixteen.txt", "trace.txt"], "trace.txt: yes\n", 0)
        self.put("seventeen.txt", f"events {names} e16\npattern .*\n")
        beside = f"seventeen.txt:1:{len(names) + 9}: a rule has at most 16 events, and this is number 17\n"
        self.says(["judge", "seventeen.txt", "trace.txt"], "", 2, beside)
        # the event called 1 comes first: it is no event number 1
        self.put("numbers.txt", "events 1 0\npattern 1 0\n")
        self.put("trace.txt", "1 0")
        self.says(["judge", "numbers.txt", "trace.txt"], "trace.txt: yes\n", 0)
        self.put("other.txt", "events red 0\npattern red 0\n")
        self.says(["judge", "other.txt", "trace.txt"], 'trace.txt:1: error: no event "1" (red, 0)\n', 2)
        self.put("a.rule", A)
        self.put("a.hex", A.hex() + "\n")
        self.put("trace.txt", "1 0 1")
        for rule in ("a.rule", "a.hex"):
            self.says(["judge", rule, "trace.txt"], "trace.txt: yes\n", 0)

    def test_names_or_numbers(self):
        """A number among names is none of the events: it may be an amount, a time, or the number of a line."""
        for text, place, stray in (
            ("red 2\nblue 2\n", ":1:5", 'number "2" among names'),
            ("idle purge\n2 purge\n", ":2", 'number "2" among names'),
            ("2\nidle 2 purge\n", ":2:8", 'name "purge" among numbers'),
        ):
            self.put("trace.txt", text)
            for block in (1, 2, 5, 65536):
                with mock.patch.object(traces, "BLOCK", block):
                    due = f"trace.txt{place}: error: the {stray}: events are by name, or all by number\n"
                    self.says(["judge", "purge.txt", "trace.txt"], due, 2)
        # two of another script, which looks the same: the events have numbers for names
        self.put("wide.txt", "events \uff11 \uff10\npattern \uff10*\n")
        self.put("trace.txt", "1")
        self.says(["judge", "wide.txt", "trace.txt"], 'trace.txt:1: error: no event "1" (\uff11, \uff10)\n', 2)

    def test_json(self):
        said, _, status = self.quickly("judge", "--json", "purge.txt", "good.txt", "bad.txt", "typo.txt", "gone.txt")
        good, bad, typo, gone = map(json.loads, said.splitlines())
        self.assertEqual(good, {"trace": "good.txt", "verdict": "yes", "count": 4, "bytes": 4})
        where = {"lost": True, "file": "bad.txt", "line": 4, "column": 1, "number": 4, "event": "red", "expected": ["purge"], "could_end": False}
        self.assertEqual((bad["verdict"], bad["where"], bad["reason"]), ("no", where, "red cannot come here; expected purge"))
        self.assertEqual((typo["verdict"], typo["line"], gone["verdict"], status), ("error", 3, "error", 2))

    def test_rules_of_many_sets(self):
        """A rule that no board takes is followed all the same."""
        self.put("trace.txt", "a" + " b" * 9)
        self.says(["judge", "many.txt", "trace.txt"], "trace.txt: yes\n", 0)
        self.assertIsNone(json.loads(self.quickly("judge", "--json", "many.txt", "trace.txt")[0])["count"])


class NoWrongYes(Case):
    """Where something goes wrong, the status is 2."""

    def test_files(self):
        (self.folder / "folder").mkdir()
        for name, why in (("gone.txt", "No such file or directory"), ("folder", "Is a directory")):
            self.says(["judge", "purge.txt", name], f"{name}: error: {why}\n", 2)
            self.says(["judge", name, "good.txt"], "", 2, f"{name}: {why}\n")
            self.says(["verify", name], "", 2, f"{name}: {why}\n")
            self.says(["board", "purge.txt", name], "", 2, f"{name}: {why}\n")
        # a file that can be opened, and not be read
        said, _, status = self.quickly("judge", "purge.txt", "/proc/self/mem")
        self.assertEqual((said, status), ("/proc/self/mem: error: Input/output error\n", 2))
        self.says(["judge", "empty.txt", "good.txt"], "", 2, "empty.txt: the file is empty, and no rule\n")

    @unittest.skipIf(os.geteuid() == 0, "root may read everything")
    def test_unreadable(self):
        (self.folder / "good.txt").chmod(0)
        self.says(["judge", "purge.txt", "good.txt"], "good.txt: error: Permission denied\n", 2)

    def test_files_that_change(self):
        """One that is cut, grows or is written anew while it is read."""
        name = self.folder / "long.txt"
        for change in (lambda: os.truncate(name, 131070), lambda: self.more(name), lambda: os.utime(name)):
            name.write_bytes(b"red purge\n" * 20000)
            done = []

            def progress(*_, change=change, done=done):
                if not done:
                    done.append(change())

            with self.assertRaisesRegex(Failed, "the file was changed while it was read"):
                judging.judge(from_bytes("purge", PURGE.encode()), [str(name)], False, progress)

    def test_carriage_returns(self):
        """One that stands alone ends a line for who wrote it, and no comment here: what follows would not be read."""
        why = "a carriage return stands without a line feed, and ends no line"
        for text, line in (("# tin 12\rred\rred\r", 1), ("red\r\npurge # ok\rred\r\n", 2), ("red\npurge\r", 2)):
            self.put("trace.txt", text)
            for block in (1, 2, 5, 65536):
                with mock.patch.object(traces, "BLOCK", block):
                    self.says(["judge", "purge.txt", "trace.txt"], f"trace.txt:{line}: error: {why}\n", 2)
        self.put("rule.txt", "events red\r\npattern red # once\r | red red\r\n")
        self.says(["show", "rule.txt"], "", 2, f"rule.txt:2: {why}\n")
        self.put("calls.txt", "open 1\r\nverdict # no\rdeliver 0 0 red\r\n")
        self.says(["board", "purge.txt", "calls.txt"], "accepted\n", 2, f"calls.txt:2: {why}\n")
        self.put("band.txt", "purge\n# none\rred\n")
        self.says(["tray", "purge.txt", "purge.txt", "band.txt"], "", 2, f"band.txt:2: {why}\n")

    def test_zero_bytes(self):
        """In a comment too: they are left of a disk that failed, and something else may have stood there."""
        self.put("calls.txt", "open 1\nverdict # \0\n")
        self.says(["board", "purge.txt", "calls.txt"], "accepted\n", 2, "calls.txt:2: a zero byte: this is no text\n")
        self.put("band.txt", "purge\n# \0\n")
        self.says(["tray", "purge.txt", "purge.txt", "band.txt"], "", 2, "band.txt:2: a zero byte: this is no text\n")

    @staticmethod
    def more(name):
        with open(name, "ab") as file:
            file.write(b"red")

    def test_arguments(self):
        for words in ([], ["judge"], ["judge", "purge.txt"], ["judgement", "purge.txt", "good.txt"], ["judge", "--jsn", "purge.txt", "good.txt"], ["judge", "-", "-"], ["--version", "judge", "purge.txt", "good.txt"]):
            said, beside, status = self.quickly(*words)
            self.assertEqual((said, status), ("", 2), words)
            self.assertTrue(beside)

    def test_pipes_are_read_once(self):
        """By whatever name: the second time nothing comes, which is no trace without events."""
        os.mkfifo(self.folder / "pipe")
        os.symlink("pipe", self.folder / "other")
        for words, name in (
            (["judge", "purge.txt", "/dev/stdin", "/dev/stdin"], "/dev/stdin"),
            (["judge", "purge.txt", "-", "/dev/stdin"], "standard input"),
            (["judge", "-", "/dev/fd/0"], "standard input"),
            (["judge", "--chunks", "purge.txt", "pipe", "other"], "pipe"),
            (["tray", "purge.txt", "purge.txt", "-", "/dev/stdin"], "standard input"),
            (["board", "/dev/stdin"], "/dev/stdin"),
            (["verify", "good.txt", "-", "-"], "standard input"),
        ):
            self.assertEqual(self.run_it(*words, input=PURGE.encode()), ("", f"bellbadger: {name} can be read once\n", 2), words)
        for name in ("/dev/stdin", "pipe"):
            said = self.run_it("bench", "purge.txt", name, input=b"red purge")
            self.assertEqual(said, ("", f"bellbadger: a trace is read more than once here: {name} cannot be\n", 2))

    def test_a_trace_that_is_the_output(self):
        """A shell empties it before the command begins, and what is left is a trace without events."""
        why = "it is the output too, and was emptied for it or will be written to"
        for end in ("> bad.txt", ">> good.txt", "2> bad.txt", "> bad.txt < bad.txt"):
            name = end.split()[1]
            shell = ["sh", "-c", f'"$@" {end}', "sh", sys.executable, "-m", "bellbadger"]
            for words in (["judge", "purge.txt"], ["tray", "purge.txt", "purge.txt"]):
                said, beside, status = self.run_it(*words, "-" if "<" in end else name, program=shell)
                text = (self.folder / name).read_text() + said + beside
                self.assertEqual((why in text, status), (True, 2), (end, words))

    def test_outputs(self):
        """A full disk, a pipe that nobody reads, no output at all: 2, and not what Python itself would say."""
        commands_ = ["judge", "purge.txt", "good.txt"], ["show", "purge.txt"], ["judge", "--help"], ["--version"]
        for words, unbuffered in itertools.product(commands_, ("", "1")):
            buffered = {"env": {"PYTHONUNBUFFERED": unbuffered}}
            with open("/dev/full", "wb") as full:
                self.assertEqual(self.run_it(*words, stdout=full, **buffered)[2], 2, words)
            reader, writer = os.pipe()
            os.close(reader)
            self.assertEqual(self.run_it(*words, stdout=writer, **buffered)[2], 2, words)
            os.close(writer)
        closed = ["sh", "-c", 'exec "$@" >&-', "sh", sys.executable, "-m", "bellbadger"]
        said, beside, status = self.run_it("judge", "purge.txt", "good.txt", program=closed)
        self.assertEqual((said, beside, status), ("", "bellbadger: standard output is closed\n", 2))
        with open("/dev/full", "wb") as full:
            self.assertEqual(self.run_it("judge", "purge.txt", "good.txt", "typo.txt", stderr=full)[2], 2)
            # nothing is to be written here, and nothing is lost
            self.assertEqual(self.run_it("judge", "--quiet", "purge.txt", "good.txt", stdout=full)[2], 0)

    def test_no_library(self):
        # what an installer makes of pyproject.toml's line
        installed = [sys.executable, "-c", "import sys; from bellbadger_command import console; sys.exit(console())"]
        self.assertIn('bellbadger = "bellbadger_command:console"\n', (HERE / "pyproject.toml").read_text())
        self.assertEqual(self.run_it("judge", "purge.txt", "good.txt", program=installed), ("good.txt: yes\n", "", 0))
        for program in ([sys.executable, "-m", "bellbadger"], [sys.executable, HERE.parent / "bellbadger"], installed):
            said, beside, status = self.run_it("judge", "purge.txt", "good.txt", program=program, env={"BELLBADGER_LIB": "/nowhere"})
            self.assertEqual((said, status), ("", 2))
            self.assertIn("/nowhere/libbellbadger.so is not there", beside)
            # nor is it 1 where that cannot be said
            for end in ("2>&-", "2>/dev/full"):
                shell = ["sh", "-c", f'"$@" {end}', "sh", *map(str, program)]
                said = self.run_it("judge", "purge.txt", "good.txt", program=shell, env={"BELLBADGER_LIB": "/nowhere"})
                self.assertEqual(said, ("", "", 2), (program, end))

    def test_half_a_library(self):
        """One that has the version and not the functions: the status is 2 too."""
        made = self.folder / "libbellbadger.so"
        for code, why in (("unsigned bellbadger_version(void) { return 5 << 16 | 9; }\n", "the library has no "), ("int x;\n", "bellbadger_version")):
            self.put("half.c", code)
            subprocess.run(["gcc", "-shared", "-fPIC", "-o", made, self.folder / "half.c"], check=True)
            for program in ([sys.executable, "-m", "bellbadger"], [sys.executable, HERE.parent / "bellbadger"]):
                said, beside, status = self.run_it("judge", "purge.txt", "good.txt", program=program, env={"BELLBADGER_LIB": str(self.folder)})
                self.assertEqual((said, status, beside.count("\n")), ("", 2, 1))
                self.assertIn(why, beside)

    def started(self, *words):
        environment = dict(os.environ, PYTHONDONTWRITEBYTECODE="1", PYTHONPATH=str(HERE))
        program = [sys.executable, "-m", "bellbadger", *words]
        pipes = {"stdin": subprocess.PIPE, "stdout": subprocess.PIPE, "stderr": subprocess.PIPE}
        # a gate that runs in the background has its children pass an interrupt over
        heed = lambda: signal.signal(signal.SIGINT, signal.SIG_DFL)
        return subprocess.Popen(program, cwd=self.folder, env=environment, preexec_fn=heed, **pipes)

    def test_killed(self):
        """By a signal it says nothing, and its status is no 0 and no 1."""
        for number in (signal.SIGKILL, signal.SIGTERM, signal.SIGINT):
            with self.started("judge", "purge.txt", "-") as process:
                process.stdin.write(b"red purge\n" * 20000)
                process.stdin.flush()
                time.sleep(0.5)
                process.send_signal(number)
                said, _ = process.communicate(timeout=30)
            self.assertEqual(said, b"")
            self.assertNotIn(process.returncode, (0, 1))

    def test_two_answers(self):
        """A board that answers otherwise than the follower, or judged fewer events, is an internal error."""
        for wrong in (No(4, 4, 1, 0), Yes(4, 3, 1, 1)):
            with mock.patch.object(Judge, "verdict", return_value=wrong):
                said, _, status = self.quickly("judge", "purge.txt", "good.txt")
            self.assertEqual((status, said.startswith("good.txt: error: internal error: ")), (2, True), said)
        with mock.patch.object(Judge, "verdict", return_value=Yes(3, 5, 0, 3)):
            self.assertEqual(self.quickly("judge", "purge.txt", "bad.txt")[2], 2)
        with mock.patch.object(judging, "pieces", return_value=[]):
            self.assertIn("a file was not read to its end", self.quickly("judge", "purge.txt", "good.txt")[0])
        with mock.patch.object(Judge, "deliver", side_effect=Refused(13)):
            said, beside, status = self.quickly("judge", "purge.txt", "good.txt")
            self.assertEqual((said, status, "internal error" in beside), ("", 2, True))

    def test_long_traces_are_asked_of_both(self):
        """Beyond a board's room the chunks are summarized, and the conclusion has to be the same."""
        self.put("long.txt", "red purge\n" * 100)
        named = from_bytes("purge", PURGE.encode())
        with mock.patch.object(judging, "BLOCK", 3), mock.patch.object(judging, "PLACES", 4):
            judged = judging.judge(named, [str(self.folder / "long.txt")], False, lambda *_: None)
            self.assertEqual((judged.is_yes, judged.counted.is_yes, judged.counted.bytes), (True, True, 200))
            with mock.patch.object(Judge, "conclude", return_value=No(4, 200, 0, 4)), self.assertRaises(Differs):
                judging.judge(named, [str(self.folder / "long.txt")], False, lambda *_: None)

    def test_a_hundred_megabytes(self):
        """In blocks: it takes some seconds, and little memory."""
        line = b"red\npurge\nblue # a comment\npurge\n" * 2000
        with open(self.folder / "large.txt", "wb") as file:
            for _ in range(100_000_000 // len(line) + 1):
                file.write(line)
            file.write(b"blue\n")
        limited = ["bash", "-c", 'ulimit -v 400000; exec "$@"', "bash", sys.executable, "-m", "bellbadger"]
        said, beside, status = self.run_it("judge", "purge.txt", "large.txt", program=limited)
        self.assertEqual((said, beside, status), ("large.txt: no: the trace ends too early; expected purge\n", "", 1))


    def test_short_writes(self):
        """A stream that takes a few bytes at a time gets all of them; one that takes none is an error."""

        class Slow:
            def __init__(self, *takes):
                self.takes, self.got = list(takes), b""

            def write(self, data):
                taken = self.takes.pop(0) if self.takes else 7
                self.got += bytes(data[:taken])
                return min(taken, len(data))

        slow = Slow(1, 2, 3)
        output._write_all(slow, b"x" * 50)
        self.assertEqual(slow.got, b"x" * 50)
        with self.assertRaises(OSError):
            output._write_all(Slow(1, 0), b"xyz")


class Terminal(Case):
    def on_terminal(self, *words, env=()):
        """What the command writes to a terminal."""
        master, slave = pty.openpty()
        environment = dict(os.environ, PYTHONDONTWRITEBYTECODE="1", PYTHONPATH=str(HERE), TERM="xterm")
        environment.pop("NO_COLOR", None)
        environment.update(env)
        program = [sys.executable, "-m", "bellbadger", *words]
        process = subprocess.Popen(program, cwd=self.folder, env=environment, stdout=slave, stderr=slave)
        os.close(slave)
        said = b""
        while True:
            ready, _, _ = select.select([master], [], [], 30)
            try:
                data = os.read(master, 65536) if ready else b""
            except OSError:
                break
            if not data:
                break
            said += data
        os.close(master)
        return said.decode().replace("\r\n", "\n"), process.wait(30)

    def test_colour(self):
        said, status = self.on_terminal("judge", "purge.txt", "good.txt", "bad.txt")
        self.assertEqual((said.splitlines()[0], status), ("good.txt: \033[32myes\033[0m", 1))
        self.assertIn("bad.txt:4: \033[31mno\033[0m: red", said)
        said, _ = self.on_terminal("judge", "purge.txt", "good.txt", env={"NO_COLOR": "1"})
        self.assertEqual(said, "good.txt: yes\n")
        said, _ = self.on_terminal("judge", "purge.txt", "good.txt", env={"TERM": "dumb"})
        self.assertEqual(said, "good.txt: yes\n")

    def test_progress_on_a_terminal(self):
        """A trace that takes over a second, with standard error on a terminal, and on none."""
        master, slave = pty.openpty()
        environment = dict(os.environ, PYTHONDONTWRITEBYTECODE="1", PYTHONPATH=str(HERE), TERM="xterm")
        program = [sys.executable, "-m", "bellbadger", "judge", "purge.txt", "-"]
        pipes = {"stdin": subprocess.PIPE, "stdout": subprocess.PIPE}
        with open(self.folder / "beside", "w+b") as file:
            processes = [subprocess.Popen(program, cwd=self.folder, env=environment, stderr=to, **pipes) for to in (slave, file)]
            for pause in (1.5, 0):
                for process in processes:
                    process.stdin.write(b"red purge\n" * 14000)
                    process.stdin.flush()
                time.sleep(pause)
            for process in processes:
                self.assertEqual(process.communicate(timeout=30)[0], b"(standard input): yes\n")
            os.close(slave)
            self.assertTrue(os.read(master, 65536).startswith(b"\r\x1b[K(standard input): 0 MB"))
            os.close(master)
            file.seek(0)
            self.assertEqual(file.read(), b"")

    def test_progress(self):
        """Over a second, on a terminal alone; it is gone before the answer comes."""
        with mock.patch.object(output, "_on_terminal", return_value=True), tempfile.TemporaryFile("w+", newline="") as beside:
            with mock.patch.object(sys, "stderr", beside):
                progress = output.Progress()
                progress("long.txt", 10, 100)
                progress.start -= 2
                progress.last -= 2
                progress("long.txt", 45_000_000, 100_000_000)
                progress.clear()
            beside.seek(0)
            self.assertEqual(beside.read(), "\r\033[Klong.txt: 45 of 100 MB (45 %)\r\033[K")


class Rules(Case):
    def test_show(self):
        due = STATES.replace("purge -> clean; red, blue -> dirty", "red, blue -> dirty; purge -> clean")
        due += "# 2 states, 4 arcs, 3 events\n# 2 sets, 2 starts\n# accepts: the empty trace\n# accepts: purge\n# rejects: red\n"
        self.says(["show", "states.txt"], due, 0)
        self.put("again.txt", due)
        self.says(["show", "again.txt"], due, 0)
        said = self.quickly("show", "many.txt")[0]
        self.assertIn("# over 512 sets: it can be followed, and no board takes it\n", said)
        self.assertIn("# accepts: not known (refused 35: ", said)
        self.put("all.txt", "events a\npattern a*\n")
        self.assertIn("# rejects: no trace at all\n", self.quickly("show", "all.txt")[0])
        self.put("none.txt", "events a\nstate q\n")
        self.assertIn("# accepts: no trace at all\n", self.quickly("show", "none.txt")[0])
        self.says(["show", "purge.txt", "gone.txt"], "", 2, "gone.txt: No such file or directory\n")

    def test_sample(self):
        self.says(["sample", "purge.txt"], "accepts: the empty trace\naccepts: purge\nrejects: red\n", 0)
        self.says(["sample", "--rejected", "purge.txt"], "red\n", 0)
        self.says(["sample", "--accepted", "many.txt"], "", 2, "many.txt: refused 35: more than 512 sets are reached from the set of initial states\n")
        self.put("all.txt", "events a\npattern a*\n")
        self.says(["sample", "--rejected", "all.txt"], "", 2, "all.txt: the rule rejects no trace at all\n")

    def test_draw(self):
        said, _, status = self.quickly("draw", "states.txt")
        self.assertEqual(status, 0)
        for line in ('"clean" [shape=doublecircle];', '"initial clean" -> "clean";', '"clean" -> "dirty" [label="red, blue"];'):
            self.assertIn(line + "\n", said)
        names = [f"valve-{number}" for number in range(16)]
        self.put("wide.txt", f"events {' '.join(names)}\nstate q initial: {', '.join(names)} -> q\n")
        label = self.quickly("draw", "wide.txt")[0].partition('label="')[2].partition('"')[0]
        self.assertEqual(label.replace("\\n", " "), ", ".join(names))
        self.assertLess(max(map(len, label.split("\\n"))), 31)
        with mock.patch("shutil.which", return_value=None):
            self.assertEqual(self.quickly("draw", "--svg", "states.txt")[2], 2)
        with mock.patch("shutil.which", return_value="/bin/false"), self.assertRaisesRegex(Failed, "dot: it drew nothing"):
            drawing.svg(from_bytes("x", PURGE.encode()))

    def test_compare(self):
        self.says(["compare", "purge.txt", "states.txt"], "the same: both accept the same traces\n", 0)
        self.put("strict.txt", PURGE.replace("(purge |", "(").replace("( (red", "((red"))
        self.says(["compare", "purge.txt", "strict.txt"], "different: only purge.txt accepts: purge\n", 1)
        self.says(["compare", "strict.txt", "purge.txt"], "different: only purge.txt accepts: purge\n", 1)
        self.put("other.txt", "events blue red purge\npattern red\n")
        beside = "bellbadger: purge.txt and other.txt have different events (red, blue, purge; blue, red, purge): write the same line into both\n"
        self.says(["compare", "purge.txt", "other.txt"], "", 2, beside)

    def test_merge_and_reduce(self):
        self.put("even.txt", "events red blue purge\nstate a initial final: . -> b\nstate b: red, blue, purge -> a\n".replace(".", "red, blue, purge"))
        said, _, status = self.quickly("merge", "purge.txt", "even.txt")
        self.assertEqual(status, 0)
        self.put("merged.txt", said)
        self.put("two.txt", "red purge")
        self.put("three.txt", "purge red purge")
        self.assertEqual([self.quickly("judge", "merged.txt", name)[2] for name in ("two.txt", "three.txt")], [0, 1])
        self.put("either.txt", self.quickly("merge", "--way", "either", "purge.txt", "even.txt")[0])
        self.put("odd.txt", "red red")
        self.assertEqual([self.quickly("judge", "either.txt", name)[2] for name in ("two.txt", "three.txt", "odd.txt")], [0, 0, 0])
        beside = "even.txt: refused 37: the two rules made one take more than 32 states\n"
        self.says(["merge", "--pairs", *["even.txt"] * 7], "", 2, beside)
        self.says(["merge", "even.txt"], "", 2, "bellbadger: merging takes two rules or more\n")
        self.says(["reduce", "purge.txt"], self.quickly("reduce", "states.txt")[0], 0)
        digits, _, _ = self.quickly("reduce", "--hex", "purge.txt")
        self.put("reduced", digits)
        self.says(["compare", "reduced", "purge.txt"], "the same: both accept the same traces\n", 0)
        done = self.run_it("reduce", "--file", "states.txt")
        self.assertEqual(read(done[0].encode("utf-8", "surrogateescape")).k, 3)
        self.says(["reduce", "many.txt"], "", 2, "many.txt: refused 9: the rule has over 512 sets\n")


class Boards(Case):
    def listed(self, text, status, said, beside="", rule="purge.txt"):
        self.put("calls.txt", text)
        self.says(["board", rule, "calls.txt"], said, status, beside)

    def test_lists(self):
        self.listed("open 2\n# out of order\ndeliver 1 0 purge # second\nverdict\ndeliver 0 0 red\nverdict\n", 0,
                    "accepted\naccepted: 1 event\nwaiting for 1 place\naccepted: 1 event\nyes: 3 transitions, 2 events\n")
        self.listed("open 1\ndeliver 0 0 red\nverdict\n", 1, "accepted\naccepted: 1 event\nno: 1 transitions, 1 events\n")
        self.listed("open 1\ndeliver 0 0 -\nverdict\n", 0, "accepted\naccepted: 0 events\nyes: 0 transitions, 0 events\n")
        self.listed("open 1\ndeliver 0 0 @good.txt\nverdict\n", 0, "accepted\naccepted: 4 events\nyes: 4 transitions, 4 events\n")
        self.listed("open 2\ndeliver 0 0 idle, red red\nverdict\n", 2,
                    "accepted\naccepted: 2 events\nwaiting for 1 place; lost at place 0, byte 3 of its chunk: red\n")

    def test_bad_lines(self):
        """It stops at the first line that is no call or refused, with its number."""
        self.put("long.txt", "red purge\n" * 200000)
        for line, why in (
            ("deliver 0 0", "deliver takes a place, a revision and events, - for none or @FILE for those of a file"),
            ("deliver 0 0 blu", 'no event "blu" (red, blue, purge)'),
            ("deliver 0 0 red, , purge", "an event is missing beside a comma"),
            ("deliver 0 0 red 2", 'the number "2" among names: events are by name, or all by number'),
            ("deliver 0 0 red,", "an event is missing beside a comma"),
            ("deliver 0 0 @typo.txt", 'typo.txt:3: no event "blu" (red, blue, purge)'),
            ("deliver 0 0 @long.txt", "refused 12: the chunk has over 65,536 bytes"),
            ("deliver 0 0 @-", "a delivery is read from a file, and not from standard input"),
            ("deliver 0 0 @good.txt#2", "a comment begins within the name of a file: a space stands before it"),
            ("deliver 0 0 @gone.txt # x", "gone.txt: No such file or directory"),
            ("deliver 9 0 red", "refused 11: the board has no such place"),
            ("deliver 0 4294967296 red", '"4294967296" is no number for revision'),
            ("withdraw", "withdraw takes a place"),
            ("withdraw 1", "refused 23: the place, or to locate a loss one before it, has no chunk"),
            ("verdict now", "verdict takes nothing"),
            ("open x", '"x" is no number for places'),
            ("load 0302", 'no call "load" (open, deliver, withdraw, verdict)'),
        ):
            self.listed(f"open 2\n\n{line}\nverdict\n", 2, "accepted\n", f"calls.txt:3: {why}\n")
        self.listed("verdict\n", 2, "", "calls.txt:1: refused 21: no board is open\n")
        self.listed("open 1\ndeliver 0 0 purge\n", 2, "accepted\naccepted: 1 event\n", "calls.txt: the list does not end with a verdict\n")
        self.listed("open 1\ndeliver 0 0 purge\nverdict\nwithdraw 0\n", 2,
                    "accepted\naccepted: 1 event\nyes: 1 transitions, 1 events\naccepted\n", "calls.txt: the list does not end with a verdict\n")
        self.listed("", 2, "", "calls.txt: the list does not end with a verdict\n")
        self.listed("open 1\n", 2, "", "many.txt: no board takes the rule (refused 9: the rule has over 512 sets)\n", "many.txt")

    def test_an_input_that_does_not_wait(self):
        """Where more is to come, what came is no list, and no trace."""
        for words in (["board", "purge.txt"], ["judge", "purge.txt", "-"]):
            there, put = os.pipe()
            with open(there, "rb") as input_, open(put, "wb", 0) as other_end:
                other_end.write(b"open 1\ndeliver 0 0 purge\nverdict\n")
                os.set_blocking(there, False)
                said = self.run_it(*words, stdin=input_)
            why = "standard input is set not to wait for what comes (O_NONBLOCK): put cat | before it"
            self.assertEqual(said, ("", f"bellbadger: {why}\n", 2))

    def test_line_by_line(self):
        """On standard input each answer comes before the next line is there."""
        environment = dict(os.environ, PYTHONDONTWRITEBYTECODE="1", PYTHONPATH=str(HERE))
        pipes = {"stdin": subprocess.PIPE, "stdout": subprocess.PIPE, "stderr": subprocess.PIPE}
        with subprocess.Popen([sys.executable, "-m", "bellbadger", "board", "purge.txt"], cwd=self.folder, env=environment, **pipes) as process:
            for line, due in (("open 1", "accepted"), ("deliver 0 0 purge", "accepted: 1 event"), ("verdict", "yes: 1 transitions, 1 events")):
                process.stdin.write(line.encode() + b"\n")
                process.stdin.flush()
                self.assertEqual(process.stdout.readline().decode(), due + "\n")
            process.stdin.close()
            self.assertEqual(process.wait(30), 0)


class Trays(Case):
    def setUp(self):
        super().setUp()
        self.put("row.txt", "events off on\npattern off* (on off*)?\n")
        self.put("column.txt", "events off on\npattern off* on* off+\n")
        for name, text in (("b0", "on off off\noff on off\n"), ("b1", "off, off, off # the end\n"), ("b2", "\n\noff on on\n"), ("b3", "off off on\n"),
                           ("b4", "off off\n"), ("b5", "off of off\n"), ("b6", "# none\n"), ("b7", "off idle off\n"), ("b8", "\noff,,off\n"), ("b9", "off on on\n0 1 0\n")):
            self.put(name, text)

    def test_answers(self):
        for bands, due, status in (
            (["b0", "b1"], "tray of 2 bands: yes", 0),
            (["b0", "b2"], "b2:3:8: no: on cannot come here in the row; expected off or the end", 1),
            (["b0", "b3"], "tray of 2 bands: no: column 3 ends too early; expected off or on", 1),
            (["b0", "b1", "b3", "b1"], "tray of 4 bands: yes", 0),
            (["b0", "b1", "b6", "b0"], "b0:1:1: no: on cannot come here in column 1; expected off or the end", 1),
        ):
            self.says(["tray", "row.txt", "column.txt", *bands], due + "\n", status)
        said = json.loads(self.quickly("tray", "--json", "row.txt", "column.txt", "b0", "b2")[0])
        due = {"bands": ["b0", "b2"], "verdict": "no", "reason": "on cannot come here in the row; expected off or the end", "file": "b2", "line": 3, "column": 8}
        self.assertEqual(said, due)
        self.says(["tray", "--json", "row.txt", "column.txt", "b0", "b1"], '{"bands": ["b0", "b1"], "verdict": "yes"}\n', 0)
        self.put("some.txt", "events off on\npattern on off\n")
        self.put("r0", "on\n")
        self.says(["tray", "some.txt", "column.txt", "r0"], "r0:1: no: the row ends too early; expected off\n", 1)
        self.says(["tray", "--width", "2", "row.txt", "row.txt", "b6"], "tray of 1 band: yes (b6 has no rows)\n", 0)

    def test_two_answers(self):
        """A verdict and a fault that do not go together, or a row that the follower has otherwise, are no answer."""
        for name, value, bands in (
            ("verdict", trays.TrayYes(), ["b0", "b2"]),
            ("verdict", trays.TrayNo(), ["b0", "b1"]),
            ("fault", trays.Row(0, 0), ["b0", "b2"]),
            ("fault", trays.Column(0, 1, 0), ["b0", "b2"]),
            ("fault", trays.Column(0, 0, 1), ["b0", "b1", "b0"]),
        ):
            with mock.patch.object(trays.Tray, name, return_value=value):
                said, beside, status = self.quickly("tray", "row.txt", "column.txt", *bands)
            self.assertEqual((said, status, "internal error" in beside), ("", 2, True), (name, value))

    def test_errors(self):
        for bands, due in (
            (["b0", "b4"], "b4:1: the row has 2 events, and not 3"),
            (["b0", "b5"], 'b5:1:5: no event "of" (off, on)'),
            (["b0", "b7"], 'b7:1:5: no event "idle" (off, on)'),
            (["b0", "b9"], 'b9:2: the number "0" among names: events are by name, or all by number'),
            (["b0", "b8"], "b8:2: an event is missing beside a comma"),
            (["b6"], "bellbadger: no band has a row: say how wide rows are with --width"),
            (["b0", "gone"], "gone: No such file or directory"),
            (["b1"] * 9, "bellbadger: refused 10: the number of bands is not in 1..8"),
        ):
            self.says(["tray", "row.txt", "column.txt", *bands], "", 2, due + "\n")
        self.put("many", "off\n" * 65)
        self.says(["tray", "row.txt", "row.txt", "many"], "", 2, "many: refused 39: the band is not whole rows, or has over 64\n")
        self.put("wide", "off " * 17 + "\n")
        self.says(["tray", "row.txt", "row.txt", "wide"], "", 2, "bellbadger: refused 38: the width is not in 1..16\n")
        self.put("bw.txt", "events black white\npattern black*\n")
        self.assertEqual(self.quickly("tray", "row.txt", "bw.txt", "b0")[2], 2)


class Page(html.parser.HTMLParser):
    """What stands on a page, once every tag was seen to be closed in its order."""

    EMPTY = ("meta", "br", "polygon", "ellipse", "path")

    def __init__(self, text):
        super().__init__()
        self.open, self.text, self.marked, self.asks = [], "", {}, []
        self.feed(text)
        self.close()

    def handle_starttag(self, tag, attributes):
        attributes = dict(attributes)
        self.asks += [value for key, value in attributes.items() if key in ("src", "href", "srcset", "action")]
        if tag not in self.EMPTY:
            self.open.append((tag, attributes.get("class", "")))

    def handle_startendtag(self, tag, attributes):
        pass

    def handle_endtag(self, tag):
        assert self.open and self.open[-1][0] == tag, f"</{tag}> closes {self.open[-1:]}"
        self.open.pop()

    def handle_data(self, data):
        if self.open and self.open[-1][0] not in ("style", "title"):
            self.text += data
            for _, kind in self.open:
                self.marked[kind] = self.marked.get(kind, "") + data


class Records(Case):
    def record(self, *words, status=0):
        said = self.quickly("record", *words)
        self.assertEqual(said[2], status, said)
        return said

    def kept(self, name):
        return json.loads((self.folder / name).read_text())

    def test_fields(self):
        self.record("purge.txt", "good.txt", "bad.txt", "short.txt", status=1)
        good, bad, short = (self.kept(f"{name}.txt.record.json") for name in ("good", "bad", "short"))
        named = from_bytes("purge.txt", PURGE.encode())
        self.assertEqual(good["rule"]["sha256"], hashlib.sha256(bytes.fromhex(good["rule"]["file"])).hexdigest())
        self.assertEqual(read(bytes.fromhex(good["rule"]["file"])), named.rule)
        self.assertEqual(from_bytes("x", good["rule"]["words"].encode()).rule, named.rule)
        data = FILES["good.txt"].encode()
        files = [{"name": "good.txt", "sha256": hashlib.sha256(data).hexdigest(), "length": len(data)}]
        self.assertEqual((good["trace"], good["verdict"], good["count"], good["bytes"]), ({"form": "text", "files": files}, "yes", 4, 4))
        self.assertEqual((good["where"], good["events"], good["library"]), (None, ["red", "blue", "purge"], "5.8"))
        self.assertRegex(good["time"], r"^20\d\d-\d\d-\d\dT\d\d:\d\d:\d\d\+00:00$")
        self.assertEqual((bad["verdict"], bad["where"]["line"], bad["where"]["expected"]), ("no", 4, ["purge"]))
        self.assertEqual((short["verdict"], short["where"]), ("no", {"lost": False, "expected": ["purge"], "could_end": False}))

    def test_none_for_what_was_not_judged(self):
        self.record("purge.txt", "typo.txt", status=2)
        self.assertFalse((self.folder / "typo.txt.record.json").exists())
        self.record("purge.txt", "good.txt")
        before = (self.folder / "good.txt.record.json").read_bytes()
        said = self.record("purge.txt", "good.txt", status=2)[0]
        self.assertEqual(said, "good.txt.record.json: error: it is there already; --replace writes it anew\n")
        self.assertEqual((self.folder / "good.txt.record.json").read_bytes(), before)
        self.record("--replace", "purge.txt", "good.txt")
        self.put("bad.txt.record.html", "")
        self.record("--html", "purge.txt", "bad.txt", status=2)
        self.assertFalse((self.folder / "bad.txt.record.json").exists())
        self.record("--into", "nowhere", "purge.txt", "good.txt", status=2)
        self.record("--into", "/dev", "--replace", "purge.txt", "gone.txt", status=2)
        self.assertEqual(self.quickly("record", "purge.txt", "-")[2], 2)

    def test_two_traces_of_one_name(self):
        """In one folder the second record would stand in the place of the first."""
        (self.folder / "other").mkdir()
        self.put("other/good.txt", "red\n")
        beside = "out/good.txt.record.json: two traces would have this record\n"
        self.says(["record", "--replace", "--into", "out", "purge.txt", "good.txt", "other/good.txt"], "", 2, beside)
        self.record("purge.txt", "good.txt", "other/good.txt", status=1)

    def test_full_disk(self):
        """A record that cannot be written whole is none, and leaves nothing."""
        with mock.patch("os.fsync", side_effect=OSError(28, "No space left on device")):
            said = self.record("purge.txt", "good.txt", status=2)[0]
        self.assertEqual(said, "good.txt.record.json: error: No space left on device\n")
        with mock.patch("os.fsync", side_effect=KeyboardInterrupt):
            self.record("purge.txt", "good.txt", status=2)
        self.assertEqual([name for name in os.listdir(self.folder) if "record" in name], [])

    def test_verify(self):
        self.record("purge.txt", "good.txt", "bad.txt", status=1)
        self.says(["verify", "good.txt.record.json"], "good.txt.record.json: yes, as recorded\n", 0)
        self.says(["verify", "bad.txt.record.json"], "bad.txt.record.json: no, as recorded\n", 1)
        due = '{"record": "bad.txt.record.json", "verdict": "no", "as_recorded": true}\n'
        self.says(["verify", "--json", "bad.txt.record.json"], due, 1)
        self.put("copy.txt", FILES["good.txt"])
        self.says(["verify", "good.txt.record.json", "copy.txt"], "good.txt.record.json: yes, as recorded\n", 0)
        (self.folder / "moved").mkdir()
        for name in ("good.txt", "good.txt.record.json"):
            (self.folder / name).rename(self.folder / "moved" / name)
        self.says(["verify", "moved/good.txt.record.json"], "moved/good.txt.record.json: yes, as recorded\n", 0)
        self.put("moved/good.txt", FILES["good.txt"] + "# more\n")
        said, beside, status = self.quickly("verify", "moved/good.txt.record.json")
        self.assertEqual((said, status), ("", 2))
        self.assertTrue(beside.startswith("moved/good.txt.record.json: trace.files[0].sha256 differs: "), beside)
        self.put("moved/good.txt", "blu\n")
        self.assertEqual(self.quickly("verify", "moved/good.txt.record.json")[2], 2)
        (self.folder / "moved/good.txt").unlink()
        self.assertEqual(self.quickly("verify", "moved/good.txt.record.json")[1:], ("moved/good.txt: No such file or directory\n", 2))

    def test_the_rule_that_is_meant(self):
        """A record is judged again by its own rule, which may be another than it is called."""
        self.put("lax.txt", "events red blue purge\npattern .*\n")
        self.record("lax.txt", "bad.txt", status=0)
        record = self.kept("bad.txt.record.json")
        record["rule"]["name"] = "purge.txt"
        self.put("bad.txt.record.json", json.dumps(record))
        self.says(["verify", "--rule", "lax.txt", "bad.txt.record.json"], "bad.txt.record.json: yes, as recorded\n", 0)
        beside = "bad.txt.record.json: rule differs: it is not that of purge.txt\n"
        self.says(["verify", "--rule", "purge.txt", "bad.txt.record.json"], "", 2, beside)
        self.put("names.txt", "events red blue Purge\npattern .*\n")
        self.assertEqual(self.quickly("verify", "bad.txt.record.json", "--rule", "names.txt")[2], 2)

    def test_long_names(self):
        """The states of a pattern have names that can be read again, however long those of its events are."""
        name = "x" * 64
        self.put("rule.txt", f"events {name}\npattern {name}* {name}\n")
        self.put("trace.txt", name)
        self.record("rule.txt", "trace.txt", status=0)
        self.says(["verify", "trace.txt.record.json"], "trace.txt.record.json: yes, as recorded\n", 0)
        self.put("shown.txt", self.quickly("show", "rule.txt")[0])
        self.says(["compare", "rule.txt", "shown.txt"], "the same: both accept the same traces\n", 0)

    def test_links_to_folders(self):
        """A record that is written through a link finds its trace again."""
        (self.folder / "some" / "where").mkdir(parents=True)
        os.symlink("some/where", self.folder / "link")
        self.record("--into", "link", "purge.txt", "good.txt", status=0)
        for name in ("link", "some/where"):
            path = f"{name}/good.txt.record.json"
            self.says(["verify", path], f"{path}: yes, as recorded\n", 0)

    def test_names_of_no_file(self):
        self.record("purge.txt", "good.txt", status=0)
        path = self.folder / "good.txt.record.json"
        record = json.loads(path.read_text())
        for name, shown in (("a\0b", "./a\\x00b"), ("\ud800", "./\\ud800")):
            record["trace"]["files"][0]["name"] = name
            path.write_text(json.dumps(record))
            self.says(["verify", "good.txt.record.json"], "", 2, f"{shown}: no file can have that name\n")

    def test_every_changed_field(self):
        """Each field that is changed is the one that is named; time and version are free."""
        self.record("purge.txt", "bad.txt", status=1)
        kept = self.kept("bad.txt.record.json")

        def changed(path, value):
            copy = json.loads(json.dumps(kept))
            inner = copy
            for key in path[:-1]:
                inner = inner[key]
            inner[path[-1]] = value
            self.put("changed.json", json.dumps(copy))
            return self.quickly("verify", "changed.json", "bad.txt")

        for path, value, name in (
            (["verdict"], "yes", "verdict"),
            (["count"], 4, "count"),
            (["count"], 3.0, "count"),
            (["bytes"], 6, "bytes"),
            (["bytes"], None, "bytes"),
            (["reason"], "", "reason"),
            (["where", "line"], 5, "where.line"),
            (["where", "could_end"], 0, "where.could_end"),
            (["where", "expected"], ["red"], "where.expected[0]"),
            (["where", "expected"], [], "where.expected"),
            (["where", "more"], 1, "where.more"),
            (["where"], None, "where"),
            (["rule", "sha256"], "00", "rule.sha256"),
            (["rule", "file"], "00", "rule.file"),
            (["rule", "words"], STATES, "rule.words"),
            (["events"], ["red", "blue", "purges"], "events[2]"),
            (["trace", "form"], "words", "trace.form"),
            (["trace", "files", 0, "length"], 1, "trace.files[0].length"),
            (["more"], 1, "more"),
        ):
            said, beside, status = changed(path, value)
            self.assertEqual((said, status), ("", 2), path)
            self.assertTrue(beside.startswith(f"changed.json: {name} differs: "), (beside, name))
        for path, value in ((["time"], "then"), (["library"], "5.8")):
            self.assertEqual(changed(path, value)[2], 1)
        self.assertEqual(changed(["rule", "words"], "events")[1], "changed.json: rule.words:1:7: an event's name is missing\n")
        twice = json.dumps(kept).replace('"verdict": "no"', '"verdict": "yes", "verdict": "no"')
        for text in (twice, "", "{", "[]", "{}", json.dumps(dict(kept, trace={"files": []})), "[" * 100000):
            self.put("changed.json", text)
            said, beside, status = self.quickly("verify", "changed.json")
            self.assertEqual((said, status), ("", 2), text[:9])

    def test_pages(self):
        self.put("odd<b>&.txt", FILES["bad.txt"])
        for has_dot in (True, False):
            if has_dot and not drawing.shutil.which("dot"):
                continue
            which = drawing.shutil.which if has_dot else lambda _: None
            with mock.patch("bellbadger.command.drawing.shutil.which", side_effect=which):
                self.record("--html", "--replace", "purge.txt", "good.txt", "odd<b>&.txt", "short.txt", "empty.txt", status=1)
            good, bad, short, empty = (
                Page((self.folder / f"{name}.txt.record.html").read_text()) for name in ("good", "odd<b>&", "short", "empty")
            )
            for each in (good, bad, short, empty):
                self.assertEqual((each.open, each.asks), ([], []))
                self.assertIn("red → red-2", each.text)
                self.assertIn("state purge-4 final: red -> red-2; blue -> blue-3; purge -> purge-1", each.text)
                self.assertEqual("picture" in each.marked, has_dot)
            self.assertIn("The trace keeps to the rule.", good.marked["verdict yes"])
            self.assertNotIn("lost", good.marked)
            self.assertIn("Line 4, event 4: red cannot come here; expected purge", bad.marked["verdict no"])
            self.assertEqual((bad.marked["lost"], bad.marked["after"]), ("red4", "purge5"))
            self.assertIn("odd<b>&.txt", bad.text)
            self.assertIn("Expected: purge", bad.text)
            self.assertEqual(short.marked["end"], "ends heretoo early")
            self.assertIn("The trace has no events.", empty.text)

    def test_names_that_turn_letters(self):
        """What turns the order of letters around is shown as its number, on the page too."""
        name = "on\u202e.txt"
        self.put(name, FILES["bad.txt"])
        self.record("--html", "purge.txt", name, status=1)
        text = (self.folder / f"{name}.record.html").read_text()
        self.assertEqual(("\u202e" in text, text.count("on\\u202e.txt")), (False, 3))

    def test_long_strips(self):
        """Of a long trace the beginning, the place and the end are shown, with how many are left out."""
        self.put("long.txt", "red\npurge\n" * 500 + "red\nred\n" + "purge\n" * 500)
        self.record("--html", "purge.txt", "long.txt", status=1)
        shown = Page((self.folder / "long.txt.record.html").read_text())
        self.assertEqual(shown.marked["lost"], "red1002")
        self.assertEqual(shown.marked["gap"], "… 953 more …… 452 more …")
        for number in (1, 24, 978, 1026, 1479, 1502):
            self.assertRegex(shown.marked["strip"], f"(?:red|purge){number}\n")
        for number in (25, 977, 1027, 1478):
            self.assertNotRegex(shown.marked["strip"], f"(?:red|purge){number}\n")

    def test_chunks_and_bytes(self):
        self.put("a.bin", bytes([0]))
        self.put("b.bin", bytes([2, 255]))
        self.record("--binary", "--chunks", "purge.txt", "a.bin", "b.bin")
        kept = self.kept("a.bin.record.json")
        self.assertEqual([file["name"] for file in kept["trace"]["files"]], ["a.bin", "b.bin"])
        self.says(["verify", "a.bin.record.json"], "a.bin.record.json: yes, as recorded\n", 0)
        self.assertEqual(self.quickly("verify", "a.bin.record.json", "b.bin", "a.bin")[2], 2)


class Words(Case):
    def test_help(self):
        """Each command has help with an example; and is in the man page."""
        man = (HERE / "bellbadger.1").read_text()
        for name, *_ in cli._COMMANDS:
            said, _, status = self.quickly(name, "--help")
            self.assertEqual((status, "example:\n" in said, f"bellbadger {name} " in said), (0, True, True), name)
            self.assertIn(f".B bellbadger {name}\n", man)
            self.assertTrue(callable(getattr(commands, name)))
        self.assertIn("Exit status: 0", self.quickly("--help")[0])

    def test_bench(self):
        said, _, status = self.quickly("bench", "purge.txt", "good.txt")
        self.assertEqual(status, 0)
        self.assertRegex(said, r"^5 sets, 2 starts\n4 events, 4 transitions, 1\.00 a byte\njudged, read from its file: [0-9.e-]+ MB/s\n")
        self.assertTrue(said.endswith("\ngood.txt: yes\n"))

    def test_odd_file_names(self):
        """A name of a file cannot make a line of its own, nor speak to the terminal."""
        name = "x\ngood.txt: yes\n\x1b[2J"
        self.put(name, "blu")
        self.says(["judge", "purge.txt", name], 'x\\ngood.txt: yes\\n\\x1b[2J:1: error: no event "blu" (red, blue, purge)\n', 2)
        (self.folder / os.fsdecode(b"\xff.txt")).write_text("red purge")
        self.assertEqual(self.run_it("judge", "purge.txt", os.fsdecode(b"\xff.txt")), (os.fsdecode(b"\xff.txt: yes\n"), "", 0))


if __name__ == "__main__":
    unittest.main()
