"""The shared library, seen to be the one that this package was written for."""

import ctypes
import os
import sys
from pathlib import Path
from typing import Tuple

# what this package was written for, as outside/c/bellbadger.h has it; a higher minor number fits too
_MAJOR, _MINOR = 5, 8
VERSION = f"{_MAJOR}.{_MINOR}"

_HELP = "Make it, at the top of the repository, with: outside/build, or name the folder that has it in BELLBADGER_LIB."

# bytes and how many there are
DATA = (ctypes.c_char_p, ctypes.c_size_t)


def _path():
    """The folder that BELLBADGER_LIB names, else the package itself, as a wheel has it, else the repository's."""
    folder = os.environ.get("BELLBADGER_LIB")
    if folder:
        return Path(folder) / "libbellbadger.so"
    package = Path(__file__).resolve().parent
    if (package / "libbellbadger.so").is_file():
        return package / "libbellbadger.so"
    return package.parents[2] / "target" / "lib" / "libbellbadger.so"


def _library(path):
    if not path.is_file():
        raise ImportError(f"{path} is not there. {_HELP}")
    try:
        library = ctypes.CDLL(str(path))
    except OSError as error:
        raise ImportError(f"{path} cannot be loaded ({error}). {_HELP}") from None
    library.bellbadger_version.restype = ctypes.c_uint32
    major, minor = divmod(library.bellbadger_version(), 65536)
    if major != _MAJOR or minor < _MINOR:
        raise ImportError(f"{path} has version {major}.{minor}, and not {_MAJOR}.{_MINOR}, which this package needs. {_HELP}")
    return library


def _found():
    try:
        return _library(_path())
    except (ImportError, AttributeError) as error:
        raise _ended(error) from None


def _ended(error):
    """The error; of python3 -m bellbadger, where the command has not begun yet, the end: its status is 2, since 1 says
    that a trace was judged no."""
    if sys.argv[:1] != ["-m"]:
        return error
    try:
        sys.stderr.write(f"bellbadger: {error}\n")
    except (AttributeError, OSError):
        # there is no standard error, or no room for more
        pass
    return SystemExit(2)


lib = _found()


def declare(name, result, *arguments):
    try:
        function = getattr(lib, "bellbadger_" + name)
    except AttributeError:
        raise _ended(ImportError(f"the library has no {name}. {_HELP}")) from None
    function.restype, function.argtypes = result, arguments


def expect_size(name, value, size):
    """Sees to it that a value has the size that the library has, and the headers say."""
    declare(name, ctypes.c_size_t)
    if not getattr(lib, "bellbadger_" + name)() == ctypes.sizeof(value) == size:
        raise _ended(ImportError(f"the library has another {name} than this package"))


def version() -> Tuple[int, int]:
    """The version of the library: major and minor number."""
    return divmod(lib.bellbadger_version(), 65536)
