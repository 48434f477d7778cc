"""Writes the package for Python as a wheel, with the library in it:

    wheel.py PACKAGE_FOLDER LIBRARY VERSION TARGET_FOLDER

The same files give the same bytes: names in order, no time of day. What a wheel is: PEP 427."""
import base64
import hashlib
import os
import sys
import zipfile

# the library is one for Linux on x86-64; no part of it depends on Python's version
TAG = "py3-none-linux_x86_64"
METADATA = """Metadata-Version: 2.1
Name: bellbadger
Version: {}
Summary: Judges valve traces by a rule, with proved functions
Requires-Python: >=3.9
"""
WHEEL = f"Wheel-Version: 1.0\nGenerator: bellbadger\nRoot-Is-Purelib: false\nTag: {TAG}\n"
SCRIPTS = "[console_scripts]\nbellbadger = bellbadger_command:console\n"


def package(folder):
    """The files of the package, as their names in the wheel and their bytes."""
    found = {}
    for where, _, names in os.walk(os.path.join(folder, "bellbadger")):
        for name in names:
            if name.endswith(".py") or name == "py.typed":
                path = os.path.join(where, name)
                found[os.path.relpath(path, folder)] = contents(path)
    found["bellbadger_command.py"] = contents(os.path.join(folder, "bellbadger_command.py"))
    return found


def contents(path):
    with open(path, "rb") as file:
        return file.read()


def digest(data):
    return "sha256=" + base64.urlsafe_b64encode(hashlib.sha256(data).digest()).rstrip(b"=").decode()


def write(path, files):
    with zipfile.ZipFile(path, "w", zipfile.ZIP_DEFLATED) as archive:
        for name, data in files.items():
            entry = zipfile.ZipInfo(name)  # its time is 1980-01-01
            entry.compress_type = zipfile.ZIP_DEFLATED
            entry.external_attr = (0o100755 if name.endswith(".so") else 0o100644) << 16
            archive.writestr(entry, data)


def main(folder, library, version, target):
    about, data = f"bellbadger-{version}.dist-info", f"bellbadger-{version}.data"
    files = package(folder)
    files["bellbadger/libbellbadger.so"] = contents(library)
    files[f"{data}/data/share/man/man1/bellbadger.1"] = contents(os.path.join(folder, "bellbadger.1"))
    files[f"{about}/METADATA"] = METADATA.format(version).encode()
    files[f"{about}/WHEEL"] = WHEEL.encode()
    files[f"{about}/entry_points.txt"] = SCRIPTS.encode()
    files = dict(sorted(files.items()))
    record = "".join(f"{name},{digest(written)},{len(written)}\n" for name, written in files.items())
    files[f"{about}/RECORD"] = (record + f"{about}/RECORD,,\n").encode()
    write(os.path.join(target, f"bellbadger-{version}-{TAG}.whl"), files)


main(*sys.argv[1:])
