"""The examples as programs, on files: the verdict of a filled board, and no verdict where a chunk is refused, missing or
doubled, a file is not there or a process is killed. That of MPI is run where mpi4py and mpirun are installed;
tests/cluster installs them."""

import importlib.util
import os
import random
import shutil
import signal
import subprocess
import sys
import tempfile
import time
import unittest
from pathlib import Path

from bellbadger import Judge

EXAMPLES = Path(__file__).resolve().parent / "examples"
A = bytes.fromhex("03020100000004000000160006001C0002001E0000000000000101000102")
FUTURES = [sys.executable, EXAMPLES / "futures.py"]
# as root, in a container and on few processors too
MPI = ["mpirun", "--oversubscribe", "--allow-run-as-root", "-n", "3", sys.executable, EXAMPLES / "mpi.py"]
HAS_MPI = shutil.which("mpirun") and importlib.util.find_spec("mpi4py")
NAMES = [f"chunk.{number:05}" for number in range(40)]


def started(program, folder, *words):
    environment = dict(os.environ, PYTHONDONTWRITEBYTECODE="1")
    pipes = {"stdout": subprocess.PIPE, "stderr": subprocess.PIPE}
    return subprocess.Popen([*program, *words], cwd=folder, env=environment, text=True, **pipes)


def said(program, folder, *words):
    """What a program prints, what it says beside, and the status with which it ends."""
    with started(program, folder, *words) as process:
        try:
            printed, beside = process.communicate(timeout=120)
        except subprocess.TimeoutExpired:
            process.kill()
            raise
    return printed, beside, process.returncode


def reader(path):
    """The process that has a file open, other than this one; waits until there is one."""
    until = time.monotonic() + 60
    while time.monotonic() < until:
        for process in filter(str.isdigit, os.listdir("/proc")):
            files = f"/proc/{process}/fd"
            try:
                if int(process) != os.getpid() and str(path) in (os.readlink(f"{files}/{file}") for file in os.listdir(files)):
                    return int(process)
            except OSError:  # it has ended or closed a file meanwhile, or belongs to somebody else
                pass
        time.sleep(0.05)
    raise AssertionError(f"nobody reads {path}")


def board(chunks):
    judge = Judge()
    judge.load(A)
    judge.open(len(chunks))
    for place, chunk in enumerate(chunks):
        judge.deliver(place, 0, chunk)
    return judge.verdict()


class Examples(unittest.TestCase):
    def setUp(self):
        holder = tempfile.TemporaryDirectory()
        self.addCleanup(holder.cleanup)
        self.folder = Path(holder.name).resolve()
        self.write("rule", A)

    def write(self, name, data):
        (self.folder / name).write_bytes(data)

    def none(self, program, words, *arguments):
        """No verdict, a status that is not 0, and words that say why."""
        printed, beside, status = said(program, self.folder, *arguments)
        self.assertEqual(printed, "")
        self.assertNotEqual(status, 0)
        self.assertIn(words, beside)

    def judged(self, program):
        chance = random.Random(3)
        for last in (bytes([0, 1]), bytes([1, 0])):
            chunks = [bytes(chance.choices((0, 1, 255), k=chance.randrange(3000))) for _ in range(39)] + [last]
            for name, chunk in zip(NAMES, chunks):
                self.write(name, chunk)
            # the order of the command line is harmless
            for names in (NAMES, NAMES[::-1], chance.sample(NAMES, 40), [self.folder / name for name in NAMES]):
                printed, _, status = said(program, self.folder, "rule", "40", *names)
                self.assertEqual(printed, f"{board(chunks)}\n")
                self.assertEqual(status == 0, board(chunks).is_yes)

    def not_judged(self, program):
        """Whatever is left would be a yes."""
        for name in NAMES:
            self.write(name, bytes([0, 1]))
        printed, _, status = said(program, self.folder, "rule", "40", *NAMES)
        self.assertEqual((printed[:4], status), ("Yes(", 0))
        self.none(program, "refused 42", "rule", "40", *NAMES[:20], *NAMES[21:])
        self.none(program, "refused 42", "rule", "39", *NAMES[:20], *NAMES[21:])
        self.none(program, "refused 42", "rule", "40", *NAMES[1:])
        self.none(program, "refused 44", "rule", "40", *NAMES[:-1])
        for count in ("0", "39", "41", str(2**64 + 40)):
            self.none(program, "refused 44", "rule", count, *NAMES)
        self.none(program, "chunk.00020: has the number of chunk.00020", "rule", "40", *NAMES, NAMES[20])
        self.write("again.20", b"")
        self.none(program, "again.20: has the number of chunk.00020", "rule", "40", *NAMES, "again.20")
        for name in ("chunk", "00020.chunk", "chunk.\u0663"):
            self.write(name, bytes([0, 1]))
            self.none(program, "does not end with the digits", "rule", "40", *NAMES[:20], name, *NAMES[21:])
        for count in ("-40", "4_0", "forty", ""):
            self.none(program, "not the number of chunks", "rule", count, *NAMES)
        self.none(program, "not the number of chunks", "rule", *NAMES)
        self.none(program, "RULE COUNT CHUNK", "rule", "40")
        for wrong, words in ((bytes([2]), "refused 13"), (bytes(65537), "refused 12"), (None, "No such file")):
            self.folder.joinpath(NAMES[20]).unlink() if wrong is None else self.write(NAMES[20], wrong)
            self.none(program, words, "rule", "40", *NAMES)

    def killed(self, program, words):
        """The process that reads a chunk, which is a pipe that never ends, is killed."""
        for name in NAMES:
            self.write(name, bytes([0, 1]))
        pipe = self.folder / NAMES[20]
        pipe.unlink()
        os.mkfifo(pipe)
        end = os.open(pipe, os.O_RDWR)
        self.addCleanup(os.close, end)
        with started(program, self.folder, "rule", "40", *NAMES) as process:
            try:
                os.kill(reader(pipe), signal.SIGKILL)
                printed, beside = process.communicate(timeout=120)
            except BaseException:
                process.kill()
                raise
        self.assertEqual(printed, "")
        self.assertNotEqual(process.returncode, 0)
        self.assertIn(words, beside)

    def test_futures(self):
        self.judged(FUTURES)

    def test_futures_gone_wrong(self):
        self.not_judged(FUTURES)

    def test_futures_killed(self):
        self.killed(FUTURES, "BrokenProcessPool")

    @unittest.skipUnless(HAS_MPI, "mpi4py or mpirun is not installed")
    def test_mpi(self):
        self.judged(MPI)

    @unittest.skipUnless(HAS_MPI, "mpi4py or mpirun is not installed")
    def test_mpi_gone_wrong(self):
        self.not_judged(MPI)

    @unittest.skipUnless(HAS_MPI, "mpi4py or mpirun is not installed")
    def test_mpi_killed(self):
        self.killed(MPI, "signal 9")


if __name__ == "__main__":
    unittest.main()
