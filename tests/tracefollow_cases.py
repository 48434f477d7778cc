#!/usr/bin/env python3
"""Writes the cases of the program tracefollow: crates/tracefollow/stdin and stdout. With --check it
writes nothing and says whether they are what it would write.

A case is a line; one that is malformed ends its list, and what follows is skipped up to an empty line.
Each answer is computed here from the words of docs/PROGRAMS.md, Following, and shares nothing with the
Rattle code: the whole text that came is kept, and every answer runs the automaton over it anew; a text
has an accepted continuation where a walk along arcs from where it leads comes to a final state.
tests/ruleprint_cases.py has the reader of rule files.
"""
import os
import random
import sys

from mapjudge_cases import BYTES, IDLE, RULE_A, RULE_B, bytes_of, file_of, mask_members, refuse_if
from ruleprint_cases import Refused, live, read, successor

HERE = os.path.dirname(os.path.abspath(__file__))
CRATE = os.path.join(HERE, "..", "crates", "tracefollow")


def text_of(chunk):
    return bytes(b for b in chunk if b != IDLE)


class TraceFollower:
    def __init__(self):
        self.rule, self.ended = None, False

    def begin(self, file):
        _, k, finals, targets = read(file)
        initials = mask_members(int.from_bytes(file[2:6], "little"))
        hopeful = {q for q in range(32) if live(k, finals, targets, q)}
        self.rule, self.came = (k, initials, finals, targets, hopeful), b""
        return "accepted"

    def after(self, text):
        """The states that the text leads to, from the initial ones."""
        members = frozenset(self.rule[1])
        for s in text:
            members = successor(self.rule[3], members, s)
        return members

    def next(self, chunk):
        refuse_if(self.rule is None, 20)
        k, _, finals, _, hopeful = self.rule
        refuse_if(len(chunk) > 65536, 12)
        refuse_if(any(b >= k and b != IDLE for b in chunk), 13)
        where, at, lost = self.after(self.came), 0, None
        before = where
        while where & hopeful and at < len(chunk):
            before, where = where, where if chunk[at] == IDLE else successor(self.rule[3], where, chunk[at])
            at += 1
        if not where & hopeful:
            lost = at
        there = where if lost is None else before
        could = [s for s in range(k) if successor(self.rule[3], there, s) & hopeful]
        mask = f"{sum(1 << s for s in could):04X}"
        self.came += text_of(chunk)
        if lost is not None:
            return f"lost {lost} {mask}"
        return f"yes {mask}" if self.after(self.came) & finals else f"no {mask}"

    def answer(self, line):
        if line == "":
            self.rule, self.ended = None, False
            return ""
        if self.ended:
            return "skipped"
        word, *fields = line.split(" ")
        if word not in ("rule", "next") or len(fields) != 1 or not BYTES.fullmatch(fields[0]):
            self.ended = True
            return "malformed"
        try:
            return (self.begin if word == "rule" else self.next)(bytes_of(fields[0]))
        except Refused as refused:
            return f"refused {refused.args[0]}"


# 0 and then 1 and nothing else; what comes out of order leads to a state from which no final one is reached
ONCE = file_of(3, 2, 1, 4, {(0, 0, 1), (1, 1, 2)})
TRAP = file_of(3, 2, 1, 2, {(0, 0, 1), (0, 1, 2), (1, 0, 2), (1, 1, 0), (2, 0, 2), (2, 1, 2)})
# symbol 15 in turn with symbol 0: the highest bit of a mask
WIDE = file_of(2, 16, 1, 1, {(0, 15, 1), (1, 0, 0)})
NEVER = file_of(1, 1, 1, 0, {(0, 0, 0)})


def rule(file):
    return "rule " + (file.hex() or "-")


def made(seed, count):
    """Rules and chunks by chance."""
    chance = random.Random(seed)
    lines = []
    for _ in range(count):
        n, k = chance.randint(1, 7), chance.randint(1, 5)
        arcs = {(q, s, t) for q in range(n) for s in range(k) for t in range(n) if chance.random() < 0.35}
        lines.append(rule(file_of(n, k, chance.randrange(1, 1 << n), chance.randrange(1 << n), arcs)))
        for _ in range(7):
            symbols = list(range(k)) * 3 + [IDLE] + [k] * chance.randrange(2)
            chunk = bytes(chance.choice(symbols) for _ in range(chance.randrange(5)))
            lines.append("next " + (chunk.hex() or "-"))
    return lines


ALONE = ["next 00", "next -", rule(b""), rule(RULE_A), "next -", "next 00", "next 01", "next FF", "next ffFF01", "next 0001",
         # a refused chunk leaves the set, a refused rule leaves the rule and its trace
         "next 00", "next 02", "next 01", "next 00", "rule 00", rule(RULE_A)[:-2] + "03", "next 01", "next FE", "next 00FF01",
         # another rule begins another trace, and so does the same one
         rule(RULE_B), "next 00", "next 0000", "next 01", "next 00", rule(RULE_B), "next -", "next 00",
         # lost, at a byte of this chunk, and for good; at a byte behind idle marks, where a state is left, behind the accepted text
         rule(ONCE), "next -", "next 00", "next ff", "next 00", "next 01", "next -", "next 02", rule(ONCE), "next FF00FF0001", "next 01",
         rule(ONCE), "next 000101", "next -", rule(TRAP), "next 0000", "next 01", rule(TRAP), "next 00010001", "next 01", "next 0100",
         rule(WIDE), "next -", "next 0F", "next 000F0F", rule(NEVER), "next -", "next 00",
         # an empty line forgets
         "", "next 00", "", "", rule(RULE_A).upper().replace("RULE", "rule"), "next 0001", ""]
OUTSIDE = ["rule", "rule ", "rule 0", "rule  00", "rule 00 ", "rule 00 00", "rule x", "rules 00", "Rule 00", "next", "next ", "next 0", "next 0g",
           "next  00", "next 00 ", "next 00 00", "next --", "next -0", "next\t00", "next 00\r", "nexts 00", "NEXT 00", " next 00", "  ", " ", "-", "00",
           "verdict", "run 00", "forget", "\x7f"]
# how long a chunk and a file may be; a longer line is told by its end too
LONG = ["next " + "00" * 65536, "next " + "ff" * 65536, "next " + "ff" * 65537, "next " + "02" * 65537, "next " + "00" * 65537 + "0",
        "next " + "00" * 65538, "next " + "00" * 70000 + "g0", "next " + "00" * 70000 + " ", "rule " + "00" * 32906, "rule " + "00" * 32907,
        "rule " + "00" * 70000, "rule " + "00" * 70000 + "0", "rule " + "00" * 70000 + "x", "nexts" + "0" * 140000]
ENDED = [rule(RULE_A), "next 00", "next", "next 01", rule(RULE_B), LONG[0], LONG[4], "next 0", "", "next 01", rule(RULE_A), "next 01", "x", "", "",
         "next -", "x", rule(RULE_A), "", "next 00", rule(RULE_A), "next 0001", ""]


def main():
    lines = ALONE + ENDED + made(5, 60) + ["", *LONG[2:4], ""]
    for outside in OUTSIDE:
        lines += [outside, "next 00", "", rule(RULE_A), "next 00", outside, "next 01", ""]
    for long in LONG:
        lines += [rule(RULE_A), "next 00", long, "next 01", ""]
    # the last line may end with the input
    lines += ["next 0", "next 0"]
    follower = TraceFollower()
    expected = "".join(follower.answer(line) + "\n" for line in lines)
    for name, content in (("stdin", "\n".join(lines)), ("stdout", expected)):
        path = os.path.join(CRATE, name)
        if sys.argv[1:] == ["--check"]:
            if open(path, "rb").read() != content.encode():
                sys.exit(f"{path} is not what {__file__} writes")
        else:
            open(path, "wb").write(content.encode())


if __name__ == "__main__":
    main()
