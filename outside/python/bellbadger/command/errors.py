"""What goes wrong between a file and the proved functions. Each is status 2, and never a verdict."""


class Failed(Exception):
    """Nothing was judged: the message says what is wrong, and where it is known, at which place."""

    def __init__(self, message, name=None, line=None, column=None, byte=None):
        super().__init__(message)
        self.message, self.name, self.line, self.column, self.byte = message, name, line, column, byte

    def at(self, name):
        """The same of a file."""
        return Failed(self.message, name, self.line, self.column, self.byte)

    def lines(self):
        """The message with its line and column alone."""
        return ":".join(str(part) for part in (self.line, self.column, f" {self.message}") if part is not None).strip()

    def place(self):
        """FILE:LINE:COLUMN, as far as it is known."""
        place = ":".join(str(part) for part in (self.name, self.line, self.column) if part is not None)
        return place if self.byte is None else f"{place}: byte {self.byte}"

    def __str__(self):
        return f"{self.place()}: {self.message}" if self.name is not None else self.message


class Differs(Failed):
    """Two proved functions gave two answers, or something was judged that was not read. It cannot be, and is
    told as a fault of the program."""

    def __init__(self, message):
        super().__init__(f"internal error: {message}; nothing was judged")


def reason(error):
    """What an error of the system says, without its file and number."""
    return error.strerror or str(error)


def shown(text, most=60):
    """A word or a name as it may stand on a line: nothing in it ends the line or speaks to the terminal."""
    plain = "".join(char if char.isprintable() or "\udc80" <= char <= "\udcff" else _escaped(char) for char in text)
    return plain if len(plain) <= most else plain[:most] + ".."


def called(path):
    """A file's name as it may stand on a line."""
    return "(standard input)" if path == "-" else shown(path, 4096)


def _escaped(char):
    return char.encode("unicode_escape").decode("ascii")


def listed(names, word="or"):
    """red; red or blue; red, blue or purge."""
    names = list(names)
    return f" {word} ".join([", ".join(names[:-1]), names[-1]]) if len(names) > 1 else "".join(names)
