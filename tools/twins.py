#!/usr/bin/env python3
"""Lists the functions of src/ that are the same text but for names, types and numbers.

usage: tools/twins.py [FOLDER]

Each line is a group: the number of its functions, and where they stand. Comments and clauses are
left out; a name counts by the order in which a function uses it, and any number as any other.
Functions of fewer than 30 words and signs are left out.
"""
import glob
import re
import sys

KEYWORDS = set("fn let mut if else while for in match return break continue loop as true false".split())
WORD = re.compile(r"[A-Za-z_]\w*|\d\w*|b?\"[^\"]*\"|b'[^']*'|[^\s\w]")


def functions(text):
    """The functions of a file: name, parameters and result, body."""
    text = re.sub(r"//[^\n]*", "", text)
    for m in re.finditer(r"^( *)(?:pub )?fn (\w+)(.*?)^\1\{\n(.*?)^\1\}", text, re.S | re.M):
        head = re.sub(r"\b(requires|ensures)\b.*", "", m.group(3), flags=re.S)
        yield m.group(2), head + "{" + m.group(4) + "}"


def shape(text):
    names = {}
    out = []
    for word in WORD.findall(text):
        if word in KEYWORDS or not re.match(r"[\w\"]", word):
            out.append(word)
        elif re.match(r"\d", word):
            out.append("0")
        else:
            out.append(str(names.setdefault(word, len(names) + 1)))
    return tuple(out)


def main():
    root = sys.argv[1] if len(sys.argv) > 1 else "."
    groups = {}
    for path in sorted(glob.glob(f"{root}/crates/*/src/*.rt")):
        crate = path.split("/")[-3]
        with open(path) as f:
            for name, text in functions(f.read()):
                words = shape(text)
                if len(words) >= 30:
                    groups.setdefault(words, []).append(f"{crate}::{name}")
    twins = sorted((g for g in groups.values() if len(g) > 1), key=lambda g: (-len(g), g))
    for group in twins:
        print(len(group), " ".join(group))
    print(f"{len(twins)} groups, {sum(map(len, twins))} functions")


if __name__ == "__main__":
    main()
