"""Standard output and error: every answer is written, or the status is 2."""

import os
import sys
import time

from .errors import Failed, reason

_COLOURS = {"yes": "\033[32m", "no": "\033[31m", "error": "\033[1;31m"}
_PLAIN = "\033[0m"


def _on_terminal(stream):
    return stream is not None and not stream.closed and stream.isatty()


def _has_colour(stream):
    return _on_terminal(stream) and not os.environ.get("NO_COLOR") and os.environ.get("TERM") != "dumb"


class Output:
    """Where answers go. quiet: they are not written at all."""

    def __init__(self, quiet=False):
        self.quiet = quiet
        self.progress = Progress()

    def line(self, text, kind=None):
        """A line on standard output. The word yes, no or error in it has a colour on a terminal."""
        if not self.quiet:
            self.text(self._coloured(text, kind) + "\n")
            self.flush()

    def _coloured(self, text, kind):
        if kind is None or not _has_colour(sys.stdout):
            return text
        head, word, tail = text.partition(f": {kind}")
        return f"{head}: {_COLOURS[kind]}{kind}{_PLAIN}{tail}" if word else text

    def text(self, text):
        """Text on standard output, in UTF-8 whatever the locale is."""
        self.bytes(text.encode("utf-8", "surrogateescape"))

    def bytes(self, data):
        self.progress.clear()
        if sys.stdout is None:
            raise Failed("standard output is closed")
        try:
            _write_all(sys.stdout.buffer, data)
        except OSError as error:
            raise Failed(f"standard output: {reason(error)}") from None

    def flush(self):
        """Hands over what was written; Failed where that cannot be."""
        if sys.stdout is None:
            return
        try:
            sys.stdout.flush()
            # some disks tell that they are full where a file is closed
            os.close(os.dup(sys.stdout.fileno()))
        except OSError as error:
            _silence(sys.stdout)
            raise Failed(f"standard output: {reason(error)}") from None

    def complain(self, text):
        """A line on standard error. That it cannot be written changes no status: it is 2 already."""
        self.progress.clear()
        if sys.stderr is None:
            return
        try:
            line = text + "\n"
            sys.stderr.buffer.write(line.encode("utf-8", "surrogateescape"))
            sys.stderr.flush()
        except OSError:
            _silence(sys.stderr)


def _write_all(stream, data):
    """Writes all bytes: a stream without a buffer, as PYTHONUNBUFFERED makes it, may take fewer at a time."""
    rest = memoryview(data)
    while rest:
        taken = stream.write(rest)
        if not taken:
            raise OSError(0, "it takes no more")
        rest = rest[taken:]


def _silence(stream):
    """What could not be written is dropped: else Python tries again when it ends, with a status of its own."""
    nowhere = os.open(os.devnull, os.O_WRONLY)
    os.dup2(nowhere, stream.fileno())
    os.close(nowhere)


class Progress:
    """How far long work is: on standard error, where that is a terminal, from a second on."""

    def __init__(self):
        self.start = self.last = time.monotonic()
        self.shown = False

    def __call__(self, name, done, size):
        now = time.monotonic()
        if now - self.start < 1 or now - self.last < 0.2 or not _on_terminal(sys.stderr):
            return
        self.last, self.shown = now, True
        of = f" of {size / 1e6:.0f} MB ({100 * done // size} %)" if size else " MB"
        self._write(f"\r\033[K{name}: {done / 1e6:.0f}{of}")

    def clear(self):
        if self.shown:
            self.shown = False
            self._write("\r\033[K")

    def _write(self, text):
        try:
            sys.stderr.buffer.write(text.encode("utf-8", "backslashreplace"))
            sys.stderr.flush()
        except OSError:
            _silence(sys.stderr)
