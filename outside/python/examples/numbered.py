"""What the examples make of their command lines: chunks by the numbers in their names, and how many there are."""

import re
import sys
from pathlib import Path


def counted(word):
    """The number of chunks that the trace has."""
    if not re.fullmatch("[0-9]+", word):
        sys.exit(f"{word}: not the number of chunks of the trace, which stands before the files")
    return int(word)


def numbered(files):
    """Pairs of a chunk's number, the digits at the end of its file's name, and the file, in the order of the numbers."""
    by_number = {}
    for file in files:
        digits = re.search(r"[0-9]+\Z", Path(file).name)
        if not digits:
            sys.exit(f"{file}: the name does not end with the digits of the chunk's number")
        number = int(digits[0])
        if number in by_number:
            sys.exit(f"{file}: has the number of {by_number[number]}")
        by_number[number] = file
    return sorted(by_number.items())
