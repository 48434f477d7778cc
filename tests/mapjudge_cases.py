#!/usr/bin/env python3
"""Writes the cases of the program mapjudge: crates/mapjudge/stdin and stdout. With --check it writes
nothing and says whether they are what it would write.

A case is a line; one that is malformed ends its list, and what follows is skipped up to an empty line.
Each answer is computed here from the words of document 02, R-8 and R-5, and shares
nothing with the Rattle code: a mapping is a tuple of sets, the mapping of a chunk follows each state
over the chunk's text and looks nothing up in a profile, and a verdict asks for an initial state that
is mapped to a set with a final one. tests/ruleprint_cases.py has the reader of rule files.
"""
import os
import random
import re
import struct
import sys

from ruleprint_cases import Refused, read, successor

HERE = os.path.dirname(os.path.abspath(__file__))
CRATE = os.path.join(HERE, "..", "crates", "mapjudge")
IDLE = 255
BYTES = re.compile(r"-|([0-9A-Fa-f]{2})+")
MAPPING = re.compile(r"[0-9A-Fa-f]{16}")


def refuse_if(condition, number):
    if condition:
        raise Refused(number)


def bytes_of(field):
    return b"" if field == "-" else bytes.fromhex(field)


def mapping_of(field):
    """Each of eight states' set, from two digits for each."""
    return tuple(frozenset(p for p in range(8) if mask >> p & 1) for mask in bytes.fromhex(field))


def digits(mapping):
    """Sixteen digits; the states that a rule does not have are mapped to no state."""
    masks = [sum(1 << p for p in members) for members in mapping]
    return bytes(masks + [0] * (8 - len(masks))).hex().upper()


def mappings_of(n, k, targets):
    """How many mappings texts have, from the identity on; or a refusal with 34."""
    found = [tuple(frozenset({q}) for q in range(n))]
    for f in found:
        for s in range(k):
            g = tuple(successor(targets, members, s) for members in f)
            if g not in found:
                found.append(g)
        refuse_if(len(found) > 512, 34)
    return len(found)


class MapJudge:
    def __init__(self):
        self.rule, self.ended = None, False

    def build(self, file):
        n, k, _, targets = read(file)
        refuse_if(n > 8, 33)
        count = mappings_of(n, k, targets)
        initials, finals = struct.unpack("<II", file[2:10])
        self.rule = n, k, mask_members(initials), mask_members(finals), targets
        return f"accepted {count}"

    def run(self, chunk):
        n, k, _, _, targets = self.rule
        refuse_if(len(chunk) > 65536, 12)
        text = [b for b in chunk if b != IDLE]
        refuse_if(any(b >= k for b in text), 13)
        mapping = [frozenset({q}) for q in range(n)]
        for s in text:
            mapping = [successor(targets, members, s) for members in mapping]
        return digits(mapping)

    def verdict(self, f):
        _, _, initials, finals, _ = self.rule
        return "yes" if any(f[q] & finals for q in initials if q < 8) else "no"

    def answer(self, line):
        if line == "":
            self.rule, self.ended = None, False
            return ""
        if self.ended:
            return "skipped"
        word, *fields = line.split(" ")
        grammar = {"build": [BYTES], "run": [BYTES], "compose": [MAPPING] * 2, "verdict": [MAPPING]}.get(word)
        if not grammar or len(fields) != len(grammar) or not all(g.fullmatch(f) for g, f in zip(grammar, fields)):
            self.ended = True
            return "malformed"
        try:
            if word == "build":
                return self.build(bytes_of(fields[0]))
            if word == "compose":
                f, g = map(mapping_of, fields)
                return digits([frozenset().union(*(g[p] for p in members)) for members in f])
            if self.rule is None:
                return "no profile"
            return self.run(bytes_of(fields[0])) if word == "run" else self.verdict(mapping_of(fields[0]))
        except Refused as refused:
            return f"refused {refused.args[0]}"


def mask_members(mask):
    return {q for q in range(32) if mask >> q & 1}


def file_of(n, k, initials, finals, arcs):
    """A rule file; an arc is a state, a symbol and a target."""
    sections = [sorted((s, t) for p, s, t in arcs if p == q) for q in range(n)]
    offset, pairs = 10 + 4 * n, b""
    for section in sections:
        pairs += struct.pack("<HH", offset, 2 * len(section))
        offset += 2 * len(section)
    body = b"".join(bytes(arc) for section in sections for arc in section)
    return struct.pack("<BBII", n, k, initials, finals) + pairs + body


RULE_A = file_of(3, 2, 1, 4, {(0, 0, 0), (0, 0, 1), (0, 1, 0), (1, 1, 2)})
RULE_B = file_of(3, 1, 1, 6, {(0, 0, 1), (0, 0, 2), (1, 0, 0), (2, 0, 0)})


def shift_rule(n):
    """By symbol 0 each state leads to the next around; by 1 state 0 to 1 too: many mappings."""
    return file_of(n, 2, 1, 1 << n - 1, {(q, s, (q + 1 - s) % n) for q in range(n) for s in (0, 1)} | {(0, 1, 1)})


def made(seed, count):
    """Rules and calls by chance."""
    chance = random.Random(seed)
    lines = []
    for _ in range(count):
        n, k = chance.randint(1, 8), chance.randint(1, 4)
        arcs = {(q, s, t) for q in range(n) for s in range(k) for t in range(n) if chance.random() < 0.25}
        lines.append("build " + file_of(n, k, chance.randrange(1 << n), chance.randrange(1 << n), arcs).hex())
        for _ in range(6):
            chunk = bytes(chance.choice(list(range(k)) + [IDLE]) for _ in range(chance.randrange(9)))
            lines.append("run " + (chunk.hex() or "-"))
            lines.append("verdict " + chance.randbytes(8).hex())
            lines.append("compose " + chance.randbytes(8).hex().upper() + " " + chance.randbytes(8).hex())
    return lines


IDENTITY, SOME = "0102040810204080", "FF00FF0012345678"
ALONE = ["run 00", "verdict " + IDENTITY, f"compose {SOME} {IDENTITY}", f"compose {IDENTITY} {SOME}",
         f"compose 0204000000000000 0400010000000000", "build -", "build " + RULE_A.hex(),
         "run -", "run 00", "run 0001", "run 01FF00", "run ffFF", "run 02", "run ff02", "run FE", "run fe",
         "verdict 0500000000000000", "verdict 0300000000000000", "verdict 04fffFffffffffff", "verdict 00FFFFFFFFFFFFFF",
         # a refused build keeps the former profile
         "build 00", "build " + RULE_A.hex()[:-2] + "03", "run 0001", "build " + shift_rule(9).hex(), "run 0001",
         "build " + shift_rule(8).hex(), "run 0001", "build " + RULE_B.hex(), "run 00", "run 0000", "run 01",
         "verdict 0600000000000000",
         # an empty line forgets it
         "", "run 00", "verdict " + IDENTITY, f"compose {IDENTITY} {IDENTITY}", "", "", "build " + RULE_B.hex(), "run 00", ""]
# malformed lines
OUTSIDE = ["build", "build ", "run 000", "verdict x", " ", "  ", " run 00", "run  00", "run 00 ", "run 00 00", "run", "run ", "run 0", "run 0g", "run --", "run -0", "Run 00",
           "runs 00", "run\t00", "run 00\r", "verdict", "verdict ", "verdict -", "verdict " + IDENTITY[:-1], "verdict " + IDENTITY + "0",
           "verdict " + IDENTITY[:-1] + "g", "verdict " + IDENTITY + " ", f"verdict {IDENTITY} {IDENTITY}", "compose", "compose ",
           f"compose {IDENTITY}", f"compose {IDENTITY} ", f"compose  {IDENTITY} {IDENTITY}", f"compose {IDENTITY}  {IDENTITY}",
           f"compose {IDENTITY} {IDENTITY} ", f"compose {IDENTITY} {IDENTITY}0", f"compose {IDENTITY}0 {IDENTITY}",
           f"compose {IDENTITY} {IDENTITY[:-2]}", f"compose {IDENTITY} {IDENTITY} {IDENTITY}", "compose - -", f"compose {IDENTITY} -",
           "build 0", "build  00", "build 00 ", "build 00 00", "build x", "builder 00", "load 00", "open 1", "\x7f", "forget", "-", "0"]
# how long a chunk and a file may be; a longer line is told by its end too
LONG = ["run " + "00" * 65536, "run " + "ff" * 65536, "run " + "ff" * 65537, "run " + "02" * 65537, "run " + "00" * 65537 + "0",
        "run " + "00" * 65538, "run " + "00" * 70000 + "g0", "run " + "00" * 70000 + " ", "build " + "00" * 32906, "build " + "00" * 32907,
        "build " + "00" * 70000, "build " + "00" * 70000 + "0", f"compose {IDENTITY} " + "0" * 140000, "verdict " + "0" * 140001,
        "runs" + "0" * 140000]
# what follows a malformed line is skipped, whatever it says, and does nothing; the verdict too
ENDED = ["build " + RULE_A.hex(), "run 0001", "verdict", "verdict 0500000000000000", f"compose {IDENTITY} {SOME}", "build " + RULE_B.hex(), "run 00", "run 0",
         LONG[0], LONG[4], "no profile", "", "run 00", "build " + RULE_B.hex(), "run 00", "x", "", "", "verdict " + IDENTITY, "x", "build " + RULE_A.hex(), "",
         "run 00", "build " + RULE_A.hex(), "run 0001", "verdict 0500000000000000", ""]


def main():
    lines = ALONE + ENDED + made(8, 40) + ["", *LONG[2:4], ""]
    for outside in OUTSIDE:
        lines += [outside, f"compose {SOME} {IDENTITY}", "", "build " + RULE_A.hex(), outside, "run 0001", ""]
    for long in LONG:
        lines += ["build " + RULE_A.hex(), long, "run 00", ""]
    # the last line may end with the input
    lines += ["run 0", "run 0"]
    judge = MapJudge()
    expected = "".join(judge.answer(line) + "\n" for line in lines)
    for name, content in (("stdin", "\n".join(lines)), ("stdout", expected)):
        path = os.path.join(CRATE, name)
        if sys.argv[1:] == ["--check"]:
            if open(path, "rb").read() != content.encode():
                sys.exit(f"{path} is not what {__file__} writes")
        else:
            open(path, "wb").write(content.encode())


if __name__ == "__main__":
    main()
