#!/usr/bin/env python3
"""Writes the cases of the program tracejudge: crates/tracejudge/stdin and stdout. With --check it writes
nothing and says whether they are what it would write.

A case is a list of lines, ended by an empty line, which starts again with a fresh judge. What a line means is
told here by patterns, and the answers are computed by the judge of tests/paper_judge.py. A line without meaning ends
its list: what follows in it is skipped. This would catch a program that goes on behind such a line, or that does not
begin afresh after the empty one.
"""
import os
import random
import re
import struct
import sys

from paper_judge import IDLE, Judge
from ruleprint_cases import Refused, many_sets, random_rule, read, rule

HERE = os.path.dirname(os.path.abspath(__file__))
CRATE = os.path.join(HERE, "..", "crates", "tracejudge")


HEX, NUMBER = rb"((?:[0-9a-fA-F]{2})+|-)", rb"([0-9]{1,20})"
FORMS = [
    ("load", rb"load " + HEX), ("install", rb"install " + HEX), ("open", rb"open " + NUMBER), ("deliver", rb"deliver " + NUMBER + b" " + NUMBER + b" " + HEX),
    ("withdraw", rb"withdraw " + NUMBER), ("verdict", rb"verdict"), ("diagnose", rb"diagnose"), ("locate", rb"locate " + NUMBER + b" " + HEX),
]


def meaning(line):
    """The call or question that a line says, or None."""
    for word, form in FORMS:
        found = re.fullmatch(form, line, re.DOTALL)
        if found:
            fields = list(found.groups())
            if word in ("open", "deliver", "withdraw", "locate"):
                fields[0] = int(fields[0])
                if fields[0] > LARGEST:
                    return None
            if word == "deliver":
                fields[1] = int(fields[1])
                if fields[1] > LARGEST_REVISION:
                    return None
            if word in ("load", "install", "deliver", "locate"):
                fields[-1] = b"" if fields[-1] == b"-" else bytes.fromhex(fields[-1].decode())
            if word == "install" and len(fields[-1]) != VALUE:
                return None
            return word, *fields
    return None


def answer(judge, line):
    call = meaning(line)
    if call is None:
        return "malformed"
    try:
        return getattr(judge, call[0])(*call[1:])
    except Refused as refused:
        return f"refused {refused}"


def answers(lines):
    """The answers to the lines of a list."""
    judge, ended = Judge(), False
    for each in lines:
        said = "skipped" if ended else answer(judge, each)
        ended = ended or said == "malformed"
        yield said


def line(call):
    """A call as a line; a line stays as it is."""
    if isinstance(call, bytes):
        return call
    return " ".join([call[0]] + [(x.hex() or "-") if isinstance(x, bytes) else str(x) for x in call[1:]]).encode()


A = bytes.fromhex("03020100000004000000160006001C0002001E0000000000000101000102")
B = rule(3, 1, 1, 6, [(0, 0, 1), (0, 0, 2), (1, 0, 0), (2, 0, 0)])
NO_INITIAL = rule(3, 1, 0, 6, [(0, 0, 1), (0, 0, 2), (1, 0, 0), (2, 0, 0)])
# figure 1 of document 004: a, b, c are 0, 1, 2
FIGURE_1 = rule(3, 3, 1, 4, [(0, 0, 1), (0, 2, 1), (1, 0, 0), (1, 0, 1), (1, 1, 0), (1, 1, 2), (1, 2, 0), (2, 1, 1)])
# by 1 neither state leads anywhere, by 0 each leads to the other
DIES = rule(2, 2, 1, 1, [(0, 0, 1), (1, 0, 0)])
# by 0 from 0 to 1 to 2, and no further: the runs from 0, 1 and 2 die one after the other
CHAIN = rule(3, 1, 1, 4, [(0, 0, 1), (1, 0, 2)])
# 16 symbols, of which only 0 leads anywhere
ONLY_0 = rule(1, 16, 1, 1, [(0, 0, 0)])
# by 0 from 0 to 1, which is final and has no arcs; by 1 from 0 to 2; 2 and 3 lead to each other and nowhere else
ASTRAY_ARCS = [(0, 0, 1), (0, 1, 2), (2, 0, 3), (2, 1, 2), (3, 0, 2)]
ASTRAY = rule(4, 2, 0b1, 0b10, ASTRAY_ARCS)
# 0, 1 and 3 lead nowhere; 2 and 4 are final and alike, though 4 leads to 3 and 2 does not
LOW_DEAD = rule(5, 2, 0b11111, 0b10100, [(0, 0, 1), (1, 0, 0), (2, 0, 2), (3, 0, 3), (4, 0, 2), (4, 0, 4), (4, 1, 3)])
# 31 states that lead nowhere, round and round, and one that is final
ALL_BUT_31 = rule(32, 1, 2 ** 32 - 1, 1 << 31, [(q, 0, (q + 1) % 31) for q in range(31)] + [(31, 0, 31), (31, 0, 0)])
NO_RULE = A[:9]
LARGEST = 2 ** 64 - 1
LARGEST_REVISION = 2 ** 32 - 1
# the bytes of a rule as a value
VALUE = 2058


def value(n, k, initials, finals, masks):
    """A rule as a value, from the target masks that are not 0, by state and symbol."""
    return struct.pack("<BBII512I", n, k, initials, finals, *(masks.get(divmod(i, 16), 0) for i in range(512)))


def value_of(f):
    """The value in a rule file."""
    n, k, _, targets = read(f)
    return value(n, k, *struct.unpack_from("<II", f, 2), {cell: sum(1 << t for t in ts) for cell, ts in targets.items()})


def changed(n=3, k=2, initials=1, finals=4, **masks):
    """Rule A as a value, with some numbers changed; `q1s15=m` is the mask of state 1 and symbol 15."""
    cells = {(0, 0): 3, (0, 1): 1, (1, 1): 4}
    return value(n, k, initials, finals, cells | {tuple(map(int, re.findall("[0-9]+", cell))): m for cell, m in masks.items()})


def judged(f, *chunks, call="load"):
    """Load, open a place for each chunk, deliver the last first, each as revision 0, and ask on the way and at the end."""
    calls = [(call, f), ("open", len(chunks)), ("verdict",)]
    for p in reversed(range(len(chunks))):
        calls += [("deliver", p, 0, chunks[p]), ("verdict",)]
    return calls


def marked(rng, text):
    """A chunk with the text and one to four idle marks."""
    chunk = list(text)
    for _ in range(rng.randint(1, 4)):
        chunk.insert(rng.randint(0, len(chunk)), IDLE)
    return bytes(chunk)


def random_calls(seed):
    rng = random.Random(seed)
    n, k = rng.randint(1, 6), rng.randint(1, 3)
    f = random_rule(seed, n, k, rng.choice([0.15, 0.3, 0.5]))
    if seed >= 24:
        # one final state alone, so that more of the others lead nowhere
        f = f[:6] + struct.pack("<I", 1 << rng.randrange(n)) + f[10:]
    calls = [("load", f), ("open", rng.randint(1, 4))]
    for i in range(30):
        p = rng.randint(0, 4)
        v = LARGEST_REVISION if rng.random() < 0.03 else rng.randint(0, 2 * i)
        chunk = bytes(rng.randrange(k) for _ in range(rng.randint(0, 6)))
        if rng.random() < 0.3:
            chunk = marked(rng, chunk)
        calls.append(rng.choice([
            ("deliver", p, v, chunk), ("deliver", p, v, chunk), ("deliver", p, v, chunk), ("withdraw", p), ("verdict",), ("verdict",),
            ("deliver", p, v, chunk + bytes([k])), rng.choice([("open", rng.randint(0, 4)), ("load", f), ("load", NO_RULE), ("verdict",)]),
        ]))
    return calls + [("verdict",)]


def random_questions(seed):
    """Random calls, each with a question or two behind it."""
    rng = random.Random(seed)
    calls = []
    for call in random_calls(seed):
        chunk = call[3] if call[0] == "deliver" else bytes(rng.randrange(3) for _ in range(rng.randint(0, 4)))
        p = call[1] if call[0] == "deliver" and rng.random() < 0.5 else rng.randint(0, 4)
        calls += [call, *rng.sample([("diagnose",), ("locate", p, chunk)], rng.randint(1, 2))]
    return calls


# place, revision and chunk
DELIVERIES = [(0, 0, b"\1"), (1, 5, b"\1"), (0, 2, b"\0\0"), (1, 4, b"\0"), (0, 1, b""), (1, 0, b"\1\1")]
LONG = bytes([0, 1]) * 32768
FULL = rule(32, 16, 1, 1, [(q, s, t) for q in range(32) for s in range(16) for t in range(32)])

# lines that say no call
MALFORMED = [
    b"load", b"load ", b"load  00", b" load 00", b"load 0", b"load 0g", b"load 00 ", b"load 00 00", b"LOAD 00", b"load --", b"load -00",
    b"load 00\r", b"install", b"install ", b"install -", b"install 00", b"installed 00", b"INSTALL 00",
    b"verdict ", b"verdict\r", b"verdictx", b"Verdict", b"verdic", b"open", b"open ", b"open 1 ", b"open  1", b"open -1", b"open +1",
    b"open 0x1", b"open 1\r", b"open 18446744073709551616", b"open 99999999999999999999", b"open 000000000000000000001", b"deliver", b"deliver 0",
    b"deliver 0 ", b"deliver 0 0", b"deliver 0 0 ", b"deliver 0  0 00", b"deliver 0 0  00", b"deliver 0 0 00 ", b"deliver  0 0 00", b"deliver - 0 00",
    b"deliver 0 0 000", b"deliver 0 0 00\t", b"deliver 0 0 00 00", b"deliver 18446744073709551616 0 00",
    # no revision; none that is a number; one above 32 bits, above 64, and of 21 digits
    b"deliver 0 00", b"deliver 0 -", b"deliver 0 0001", b"deliver 0  00", b"deliver 0 - 00", b"deliver 0 -1 00", b"deliver 0 +1 00", b"deliver 0 0x1 00",
    b"deliver 0 4294967296 00", b"deliver 0 18446744073709551615 00", b"deliver 0 18446744073709551616 00", b"deliver 0 000000000000000000000 00",
    b"diagnose ", b"diagnose\r", b"diagnosed", b"diagnos", b"Diagnose", b"diagnose 0", b" diagnose", b"locate", b"locate ", b"locate 0", b"locate 0 ",
    b"locate 00", b"locate 0 0", b"locate 0 0g", b"locate 0 --", b"locate  0 00", b"locate 0  00", b"locate 0 00 ", b"locate - 00", b"locate 0 0 00",
    b"locate 18446744073709551616 00", b"locate 000000000000000000000 00", b"Locate 0 00", b"locate\t0 00",
    b"withdraw", b"withdraw ", b"withdraw 0 0", b"withdraw x", b"close", b" ", b"\r", b"\0", b"\xff\xfe", b"verdict verdict",
]
# the digits of a trace as `xxd -p` breaks them, after 30 bytes; its fault, a last event 0, is in the second line
WRAPPED = [("load", A), ("open", 1), b"deliver 0 0 " + b"00" * 29 + b"01", b"00", ("verdict",)]
# lines longer than any call that is accepted, whose beginnings are the same; in the last two of the deliveries the fields before the bytes
# have as many digits as they may have, and the bytes are one more than a chunk has
DIGITS = b"00" * 65568
LONGER = [
    b"deliver 0 0 " + DIGITS, b"deliver 0 0 " + DIGITS + b"0", b"deliver 0 0 " + DIGITS + b"0g", b"deliver 0 0 " + DIGITS + b"\r", b"deliver 9 0 " + DIGITS,
    b"deliver 0 " + DIGITS, b"deliver 0 4294967296 " + DIGITS,
    b"deliver " + b"0" * 20 + b" " + b"0" * 20 + b" " + b"00" * 65537, b"deliver " + b"0" * 20 + b" " + b"0" * 20 + b" " + b"00" * 65537 + b"0",
    b"locate 0 " + DIGITS, b"locate 0 " + DIGITS + b"0", b"locate 0 " + DIGITS + b"\r", b"locate 9 " + DIGITS, b"locate " + DIGITS, b"diagnose" + DIGITS,
    b"locate " + b"0" * 20 + b" " + b"00" * 65537, b"locate " + b"0" * 20 + b" " + b"00" * 65537 + b"0",
    b"load " + DIGITS, b"load " + DIGITS + b" ", b"verdict" + DIGITS, b"install " + DIGITS, b"install " + DIGITS + b"g",
]
CASES = [
    # before a load, before an opening
    [("verdict",), ("open", 1), ("open", 0), ("deliver", 0, 0, b""), ("withdraw", 0), ("load", NO_RULE), ("open", 1), ("verdict",)],
    [("load", A), ("verdict",), ("deliver", 0, 0, b""), ("withdraw", 0), ("load", NO_RULE), ("verdict",), ("open", 1), ("verdict",)],
    # table P and figure 1 of document 004
    judged(A, b"\0", b"\1"),
    judged(A, b"\1", b"\0"),
    judged(A, b""),
    judged(B, b"\0", b"\0\0"),
    judged(B, b"\0\0", b"\0"),
    judged(B, b"\0\0\0"),
    judged(B, b"", b"", b""),
    [("load", A[:6] + b"\x08" + A[7:]), ("verdict",)],
    judged(FIGURE_1, b"\0\0\1", b"\2\0\1"),
    judged(B, b"\0", b""),
    # no initial state: place 0 is run from nothing, though there are starts, and counts 0; the others are run from all starts
    judged(NO_INITIAL, b"\0\0"),
    judged(NO_INITIAL, b"\0", b"\0\0"),
    # places: N 0, 1, 64, 65 and the largest; place N - 1, N and the largest
    [("load", A)] + [("open", n) for n in (0, 65, LARGEST, 1)] + [("verdict",), ("deliver", 0, 0, b"\0\1"), ("verdict",)],
    [("load", A), ("open", 64), ("deliver", 63, 0, b""), ("deliver", 64, 0, b""), ("deliver", LARGEST, 0, b""), ("withdraw", 64), ("withdraw", LARGEST),
     ("verdict",)]
    + [("deliver", p, 0, b"\0") for p in range(63)] + [("verdict",), ("withdraw", 63), ("verdict",), ("deliver", 63, 1, b"\1"), ("verdict",)],
    # chunks of 65,536 and 65,537 bytes; byte k - 1 and k, first and last; 12 before 13 before 22
    [("load", A), ("open", 2), ("deliver", 0, 0, LONG + b"\2"), ("deliver", 0, 0, LONG), ("verdict",), ("deliver", 1, 0, b"\1\2"), ("deliver", 1, 0, b"\2\1"),
     ("deliver", 0, 0, b"\2"), ("deliver", 0, 0, b"\1"), ("deliver", 1, 0, b"\1\1"), ("verdict",)],
    # a reload and a reopening drop the chunks; a refused load or opening keeps them; a withdrawn place is filled anew
    judged(A, b"\0", b"\1") + [("load", NO_RULE), ("verdict",), ("open", 0), ("verdict",), ("open", 2), ("verdict",), ("deliver", 1, 0, b"\1"), ("verdict",),
                               ("load", B), ("verdict",), ("deliver", 0, 0, b"\0"), ("open", 1), ("deliver", 0, 0, b"\0"), ("deliver", 0, 0, b"\0"),
                               ("verdict",), ("withdraw", 0), ("withdraw", 0), ("verdict",), ("deliver", 0, 1, b""), ("verdict",)],
    # each call right after a reload, and right after a reopening
    judged(A, b"\0") + [("load", A), ("withdraw", 0), ("deliver", 0, 0, b""), ("verdict",), ("open", 1), ("withdraw", 0), ("verdict",),
                        ("deliver", 0, 0, b"\0\1"), ("open", 1), ("withdraw", 0), ("verdict",), ("deliver", 0, 0, b"\1"), ("verdict",)],
    # 512 and 513 sets
    [("load", many_sets(4)), ("open", 1), ("load", many_sets(5)), ("deliver", 0, 0, b"\0\1\0"), ("verdict",)],
    # a file of 32,906 bytes, and one byte more
    [("load", FULL), ("open", 1), ("deliver", 0, 0, b"\x0f"), ("verdict",), ("load", FULL + b"\0"), ("verdict",)],
    # every run dies: at the first byte, within, at the last, not at all; a bad byte further on is 13
    [("load", DIES), ("open", 6)] + [("deliver", 0, 0, chunk) for chunk in (b"\1\0\0\2", b"\0\1\1\xfe", b"\1" * 65535 + b"\2")]
    + [("deliver", p, 0, chunk) for p, chunk in enumerate([b"\1\0\0", b"\0\1\0", b"\0\0\1", b"\0\0\0", b"\1" * 65536, b""])] + [("verdict",)],
    judged(DIES, b"\0\0", b"\1" + LONG[1:]),
    judged(CHAIN, b"\0\0\0\0", b"\0\0\0\0", b"\0\0"),
    # idle marks: before, between and behind the bytes of a text; alone; at the limit, which counts them; a bad byte behind them, and 254
    judged(A, b"\xff\0\xff\xff", b"\1\xff"),
    judged(A, b"\xff\xff", b"\0\xff\1", b"\xff"),
    judged(B, b"\xff\0\xff\0", b"\0\xff"),
    [("load", A), ("open", 2)] + [("deliver", 0, 0, chunk) for chunk in (b"\xff" * 65537, b"\xff\xff\2", b"\xfe", b"\xff\xfe\xff")]
    + [("deliver", 0, 0, b"\xff" * 65536), ("deliver", 0, 0, b"\xff"), ("verdict",), ("deliver", 1, 0, b"\0" * 32767 + b"\xff" * 32768 + b"\1"), ("verdict",)],
    # 255 is 15 modulo 16: a mark is no symbol 15, which leads nowhere here; nor does it end a run, or count after its death
    judged(ONLY_0, b"\0\xff\0", b"\xff\0\0\xff"),
    judged(ONLY_0, b"\xff\x0f\xff\0\xff", b"\0\xff\x0f\xff\xff"),
    # a rule as a value: the same answers as from its file
    judged(changed(), b"\0", b"\1", call="install"),
    judged(value_of(B), b"\0", b"\0\0", call="install"),
    judged(value_of(FIGURE_1), b"\0\0\1", b"\2\0\1", call="install"),
    judged(value_of(FULL), b"\x0f", call="install"),
    judged(value(1, 16, 1, 1, {(0, 0): 1}), b"\0\xff\0", b"\xff\0\0\xff", call="install"),
    # n 0, 32 and 33, k 0, 16 and 17; a bit at n in the initial, the final and a target mask; masks kept for a state from n on and for a
    # symbol from k on, the last of all among them; 3 before 4 before 6 before 8 before 9
    [("install", x) for x in (
        changed(n=0), changed(n=33), changed(n=32), changed(n=255, k=0), changed(k=0), changed(k=17), changed(k=16), changed(k=17, finals=8),
        changed(initials=8), changed(finals=8), changed(initials=2 ** 31), changed(initials=8, q0s0=8), changed(q2s1=8), changed(q1s0=2 ** 31),
        changed(q2s1=7), changed(q3s0=1), changed(q31s1=1), changed(q0s2=1), changed(q2s15=1), changed(q31s15=2 ** 31), changed(n=32, q31s1=2 ** 31))],
    # 512 and 513 sets; 8 before 9
    [("install", value_of(many_sets(4))), ("open", 1)]
    + [("install", x) for x in (value_of(many_sets(5)), value_of(many_sets(5))[:1] + b"\x0f" + value_of(many_sets(5))[2:])]
    + [("deliver", 0, 0, b"\0\1\0"), ("verdict",)],
    # a refused installation keeps rule, board and chunks, an accepted one removes the board; loads and installations replace each other
    judged(A, b"\0", b"\1") + [("install", changed(finals=8)), ("verdict",), ("install", changed(q0s2=1)), ("verdict",), ("install", changed(finals=1)),
                               ("verdict",), ("withdraw", 0), ("open", 1), ("deliver", 0, 0, b"\1\0"), ("verdict",), ("load", NO_RULE), ("verdict",),
                               ("load", A), ("verdict",), ("open", 1), ("deliver", 0, 0, b"\1\0"), ("verdict",)],
    # one byte less and one more, half a byte more, a file; a value is no file; hex digits of either case
    *([("load", A), ("open", 1), bad, ("verdict",)] for bad in (
        ("install", changed()[:-1]), ("install", changed() + b"\0"), line(("install", changed())) + b"0", ("install", A), ("install", b""))),
    [("load", A), ("open", 1), ("load", changed()), ("verdict",), b"install " + changed().hex().upper().encode(), ("verdict",)],
    # states that lead nowhere: no start, no delegate. A run may go on in them and counts; what the next place runs, and C's members
    # that have a delegate, begin anew. State 0 stands in for none of them: by 1 and then 0 the answer is no
    judged(ASTRAY, b"\0"),
    judged(ASTRAY, b"\1", b"\0"),
    judged(ASTRAY, b"\1\1\0", b"\1\0\1", b"\0"),
    judged(ASTRAY, b"", b"\0", b""),
    # initial states that lead nowhere run nothing at place 0, alone or beside one that does lead somewhere
    judged(rule(4, 2, 0b100, 0b10, ASTRAY_ARCS), b"\0\1", b"\0"),
    judged(rule(4, 2, 0b1101, 0b10, ASTRAY_ARCS), b"", b"\0"),
    judged(rule(4, 2, 0b1101, 0b10, ASTRAY_ARCS), b"\1\1", b""),
    # the lowest members of C are passed over, and what comes after them counts
    judged(LOW_DEAD, b"\0", b"\0\0"),
    judged(LOW_DEAD, b"\0\1", b"\0"),
    judged(value_of(LOW_DEAD), b"", b"", call="install"),
    judged(ALL_BUT_31, b"\0\0\0", b"\0\0", b""),
    # no final state: M is 0, nothing is run or counted, and the verdict is no; a final state without arcs is a start
    judged(rule(4, 2, 0b1111, 0, ASTRAY_ARCS), b"\0\1", b"\1\1", b""),
    judged(changed(finals=0), b"", b"\0\1", call="install"),
    judged(rule(3, 1, 0b111, 0b110, []), b"", b""),
    judged(rule(3, 1, 0b111, 0b110, []), b"\0\0", b""),
    [("load", rule(4, 2, 0b1111, 0, ASTRAY_ARCS)), ("open", 1), ("deliver", 0, 0, b"\0\2"), ("deliver", 0, 0, b"\0\xff\0"), ("verdict",)],
    # revisions: 0 first and 2^32 - 1 last; an equal one and a lower one are refused; a greater one replaces: lengths, counts and verdict follow
    [("load", A), ("open", 2), ("deliver", 0, 0, b"\0"), ("deliver", 1, 0, b"\0\0"), ("verdict",), ("deliver", 1, 0, b"\1"), ("verdict",),
     ("deliver", 1, 1, b"\1"), ("verdict",), ("deliver", 1, 1, b""), ("deliver", 1, 0, b""), ("verdict",), ("deliver", 0, 2, b""), ("verdict",),
     ("deliver", 1, LARGEST_REVISION, b"\xff\0\1\xff\0"), ("verdict",), ("deliver", 1, LARGEST_REVISION, b""), ("deliver", 1, LARGEST_REVISION - 1, b""),
     ("verdict",), ("withdraw", 1), ("deliver", 1, LARGEST_REVISION, b""), ("deliver", 1, 0, b""), ("verdict",)],
    # after a withdrawal too a revision that is not greater is refused, and the place stays empty
    [("load", B), ("open", 1), ("deliver", 0, 7, b"\0"), ("withdraw", 0), ("deliver", 0, 6, b"\0"), ("deliver", 0, 7, b"\0"), ("verdict",), ("withdraw", 0),
     ("deliver", 0, 8, b"\0\0"), ("verdict",), ("withdraw", 0), ("deliver", 0, 8, b"\0"), ("deliver", 0, 9, b""), ("verdict",)],
    # a refused delivery (12, 13, 22) is not remembered, nor does it change what stands
    [("load", A), ("open", 2), ("deliver", 0, 9, b"\2"), ("deliver", 0, 5, b"\0\1"), ("deliver", 0, 9, LONG + b"\0"), ("deliver", 0, 8, b"\2"),
     ("deliver", 0, 5, b"\0"), ("deliver", 2, 9, b"\0"), ("deliver", 1, 0, b""), ("verdict",), ("deliver", 0, 6, b"\1\0"), ("verdict",),
     ("withdraw", 0), ("deliver", 0, 9, b"\2"), ("deliver", 0, 7, b"\0\1"), ("verdict",)],
    # each place has its own
    [("load", A), ("open", 3)] + [("deliver", p, v, b"\0\1") for p, v in ((0, 3), (1, 2), (2, 1), (0, 2), (1, 2), (2, 2), (1, 3), (0, 3), (0, 4), (2, 2))]
    + [("verdict",)],
    # an opening, an installation and a load forget; refused ones do not
    [("load", A), ("open", 1), ("deliver", 0, LARGEST_REVISION, b"\0\1"), ("open", 0), ("deliver", 0, 0, b""), ("load", NO_RULE), ("deliver", 0, 0, b""),
     ("install", changed(finals=8)), ("deliver", 0, 0, b""), ("verdict",), ("open", 1), ("deliver", 0, 0, b"\1"), ("verdict",), ("deliver", 0, 3, b"\0\1"),
     ("verdict",), ("install", changed()), ("deliver", 0, 9, b""), ("open", 1), ("deliver", 0, 3, b"\0"), ("deliver", 0, 3, b"\0\1"), ("verdict",),
     ("load", A), ("open", 1), ("deliver", 0, 0, b"\0\0\1"), ("verdict",), ("open", 2), ("deliver", 0, 0, b""), ("deliver", 1, 0, b"\0\1"), ("verdict",)],
    # two orders of the same deliveries come to the same
    *([("load", A), ("open", 2)] + [("deliver", p, v, chunk) for p, v, chunk in order] + [("verdict",)] for order in (DELIVERIES, DELIVERIES[::-1])),
    # where a trace is lost: without a board; open; lost at place 1, though place 2 is empty; open again after a withdrawal, and with all places.
    # At which byte: marks count; places N and the largest; 12 before 13 before 23, an empty place before
    [("diagnose",), ("locate", 0, b""), ("load", CHAIN), ("diagnose",), ("locate", 0, b"\1"), ("open", 3), ("diagnose",), ("locate", 0, b"\0\0\0"),
     ("locate", 1, b"\0"), ("deliver", 0, 0, b"\0\xff\0"), ("diagnose",), ("locate", 1, b""), ("locate", 1, b"\xff\0"), ("deliver", 1, 0, b"\xff\0\xff"),
     ("diagnose",), ("verdict",), ("locate", 1, b"\xff\0\xff"), ("locate", 2, b"\0"), ("locate", 3, b""), ("locate", LARGEST, b""),
     ("locate", 2, LONG + b"\0"), ("locate", 2, b"\1"), ("withdraw", 1), ("diagnose",), ("locate", 2, b""), ("locate", 2, b"\1"), ("deliver", 1, 1, b""),
     ("diagnose",), ("deliver", 2, 0, b""), ("diagnose",), ("verdict",), ("withdraw", 0), ("diagnose",)],
    # states that lead nowhere: lost where only they are left, though the set is not empty; before the first byte where no state is initial
    [("load", ASTRAY), ("open", 2), ("locate", 0, b"\xff\1\1"), ("deliver", 0, 0, b"\1\1"), ("diagnose",), ("locate", 1, b"\0"), ("deliver", 1, 0, b""), ("verdict",)],
    [("load", NO_INITIAL), ("open", 1), ("diagnose",), ("locate", 0, b"\0"), ("deliver", 0, 0, b""), ("diagnose",), ("locate", 0, b"")],
    # a chunk of 65,536 bytes, lost by its last, or by none; a question between deliveries changes nothing; digits of either case, and leading zeros
    [("load", DIES), ("open", 1), ("locate", 0, b"\0" * 65535 + b"\1"), ("locate", 0, b"\0" * 65536), ("locate", 0, b"\xff" * 65535 + b"\1"), ("verdict",),
     ("deliver", 0, 3, b"\0\0"), ("locate", 0, b"\1"), ("diagnose",), ("deliver", 0, 3, b""), ("verdict",),
     b"locate 00000000000000000000 fF01", b"locate 000 Ff00"],
    # n 33; hex digits of either case; the largest number of digits, in a place and in a revision
    [("load", b"\x21" + A[1:]), b"load " + A.hex().upper().encode(), b"open 00000000000000000001",
     b"deliver 00000000000000000000 00000000004294967295 0001", ("verdict",)],
    # lines that are malformed, and lines that are very long, each in a list of its own
    *(judged(A, b"\0", b"\1") + [bad, ("verdict",)] for bad in MALFORMED),
    *([bad] for bad in MALFORMED),
    *([("load", A), ("open", 1), long, ("deliver", 0, 0, b"\0"), ("verdict",)] for long in LONGER),
    # what follows a malformed line is skipped: each call, another malformed line, lines that are very long, the wrapped rest of a delivery;
    # two empty lines are as good as one, and nothing of what was skipped is there then
    WRAPPED,
    [],
    judged(A, b"\0\1") + [b"verdict ", ("load", B), ("install", changed()), ("open", 2), ("deliver", 0, 1, b""), ("withdraw", 0), ("verdict",), b"verdict ",
                          ("verdict",)],
    [("verdict",), ("open", 1)],
    [b"load", ("load", A), ("open", 1)],
    [("open", 1), ("load", A), ("open", 1), ("verdict",), b"x", b"skipped", b"malformed"],
    [("load", A), ("open", 1), b"x", LONGER[0], ("verdict",), LONGER[1], LONGER[-1], ("verdict",)],
    judged(B, b"\0"),
] + [random_calls(seed) for seed in range(32)] + [random_questions(seed) for seed in range(24, 36)]
# the last line is ended by the end of the input
LAST = [("load", A), ("open", 1), ("verdict",)]


def main():
    calls, due = b"", ""
    for case in CASES + [LAST]:
        lines = [line(call) for call in case]
        calls += b"".join(each + b"\n" for each in lines)
        due += "".join(said + "\n" for said in answers(lines))
        if case is not LAST:
            calls += b"\n"
            due += "\n"
    for name, text in (("stdin", calls[:-1]), ("stdout", due.encode())):
        path = os.path.join(CRATE, name)
        if sys.argv[1:] == ["--check"]:
            if open(path, "rb").read() != text:
                sys.exit(f"{path} is not what {__file__} writes")
        else:
            open(path, "wb").write(text)


if __name__ == "__main__":
    main()
