#!/usr/bin/env python3
"""Writes the cases of the program rule_cases: crates/rule_cases/stdin and stdout. With --check it
writes nothing and says whether they are what it would write.

A case is a line `NAME HEX`, with `-` for no bytes. It is answered by `NAME` and what the reader
answers (tests/rulefile_cases.py), and then by what ruleprint prints (tests/ruleprint_cases.py), both
computed from the words of document 01 and sharing nothing with the Rattle code.
"""
import os
import sys

import rulefile_cases
import ruleprint_cases

HERE = os.path.dirname(os.path.abspath(__file__))
CRATE = os.path.join(HERE, "..", "crates", "rule_cases")


def both(name, f):
    read = rulefile_cases.answer(f)
    said = read if isinstance(read, str) else f"refused {read}"
    return f"{name} {said}\n{ruleprint_cases.text(f)}"


def main():
    files = dict(rulefile_cases.CASES)
    for name, f in ruleprint_cases.checked():
        files[name] = f
    cases = "".join(f"{name} {f.hex() or '-'}\n" for name, f in files.items()) + "half_a_byte 0\n"
    expected = "".join(both(name, f) for name, f in files.items()) + "half_a_byte malformed\n"
    for name, content in (("stdin", cases), ("stdout", expected)):
        path = os.path.join(CRATE, name)
        if sys.argv[1:] == ["--check"]:
            if open(path).read() != content:
                sys.exit(f"{path} is not what {__file__} writes")
        else:
            open(path, "w").write(content)


main()
