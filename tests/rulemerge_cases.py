#!/usr/bin/env python3
"""Writes the cases of the program rulemerge: crates/rulemerge/stdin and stdout. With --check it
writes nothing and says whether they are what it would write.

A case is a line, `both HEX HEX`, `either HEX HEX`, `interleaving HEX HEX`, `compare HEX HEX` or `reduce
HEX`. Its answer is computed here from the words of document 02, R-10, of docs/PROGRAMS.md, and of
document 01, "The rule file" (reading: tests/rulefile_cases.py), and shares nothing with the Rattle
code: a rule is its sets of states and arcs, no masks. What each result accepts is compared with what
its word says, for every short text.
"""
import itertools
import os
import re
import sys

from rulefile_cases import A, B, FULL, ONE, answer as reading, patched, rule
from ruleprint_cases import Refused as TooManySets, alike, many_sets, number_sets

HERE = os.path.dirname(os.path.abspath(__file__))
CRATE = os.path.join(HERE, "..", "crates", "rulemerge")
WAYS = ("both", "either", "interleaving")
FIELD = re.compile(rb"-|([0-9a-fA-F]{2})+")


class Refused(Exception):
    """The number of the first condition that holds."""


class Rule:
    """n states, k symbols, the initial and final states, and the arcs (state, symbol, target)."""

    def __init__(self, n, k, initial, final, arcs):
        self.n, self.k, self.initial, self.final, self.arcs = n, k, set(initial), set(final), set(arcs)

    def file(self):
        def mask(states):
            return sum(1 << q for q in states)

        sections = [sorted((s, t) for p, s, t in self.arcs if p == q) for q in range(self.n)]
        return rule(self.n, self.k, mask(self.initial), mask(self.final), sections)

    def targets(self):
        """The targets of each state and symbol, as tests/ruleprint_cases.py has them."""
        found = {}
        for q, s, t in self.arcs:
            found.setdefault((q, s), set()).add(t)
        return found

    def accepts(self, text):
        reached = self.initial
        for symbol in text:
            reached = {t for q, s, t in self.arcs if s == symbol and q in reached}
        return bool(reached & self.final)


def read(f):
    said = reading(f)
    if not isinstance(said, str):
        raise Refused(said)
    initials, finals = (int.from_bytes(f[at:at + 4], "little") for at in (2, 6))
    arcs = set()
    for q in range(f[0]):
        offset, length = (int.from_bytes(f[10 + 4 * q + i:][:2], "little") for i in (0, 2))
        arcs |= {(q, f[i], f[i + 1]) for i in range(offset, offset + length, 2)}
    states = range(f[0])
    return Rule(f[0], f[1], (q for q in states if initials >> q & 1), (q for q in states if finals >> q & 1), arcs)


def either(a, b):
    """The second rule's states follow the first's; a state is what it is in its own rule."""
    def after(states):
        return {a.n + q for q in states}

    arcs = a.arcs | {(a.n + q, s, a.n + t) for q, s, t in b.arcs}
    return Rule(a.n + b.n, a.k, a.initial | after(b.initial), a.final | after(b.final), arcs)


def pairs(a, b, alone):
    """The pair (q1, q2) is state q1 × n2 + q2. An arc moves both, or one alone."""
    def pair(q1, q2):
        return q1 * b.n + q2

    def all_pairs(first, second):
        return {pair(q1, q2) for q1 in first for q2 in second}

    if alone:
        arcs = {(pair(q, x), s, pair(t, x)) for q, s, t in a.arcs for x in range(b.n)}
        arcs |= {(pair(x, q), s, pair(x, t)) for q, s, t in b.arcs for x in range(a.n)}
    else:
        arcs = {(pair(q1, q2), s1, pair(t1, t2)) for q1, s1, t1 in a.arcs for q2, s2, t2 in b.arcs if s1 == s2}
    return Rule(a.n * b.n, a.k, all_pairs(a.initial, b.initial), all_pairs(a.final, b.final), arcs)


def merge(way, a, b):
    if a.k != b.k:
        raise Refused(36)
    if (a.n + b.n if way == "either" else a.n * b.n) > 32:
        raise Refused(37)
    return either(a, b) if way == "either" else pairs(a, b, way == "interleaving")


def splits(text):
    """Each way to give every symbol of a text to one of two readers."""
    for marks in itertools.product((True, False), repeat=len(text)):
        yield ([s for s, mark in zip(text, marks) if mark], [s for s, mark in zip(text, marks) if not mark])


def check_language(way, a, b, result):
    for length in range(4 if a.k < 3 else 2):
        for text in itertools.product(range(a.k), repeat=length):
            due = {
                "both": lambda: a.accepts(text) and b.accepts(text),
                "either": lambda: a.accepts(text) or b.accepts(text),
                "interleaving": lambda: any(a.accepts(u) and b.accepts(v) for u, v in splits(text)),
            }[way]()
            assert result.accepts(text) == due, (way, text)


def compare(a, b):
    """Texts by length and then by symbols, one for each pair of sets that texts lead to; the first on which the rules
    differ, or 45 where 513 pairs are reached before."""
    if a.k != b.k:
        raise Refused(36)
    start = frozenset(a.initial), frozenset(b.initial)
    waiting, seen = [(start, b"")], {start}
    for at, (pair, text) in enumerate(waiting):
        if at == 512:
            raise Refused(45)
        first, second = bool(pair[0] & a.final), bool(pair[1] & b.final)
        if first != second:
            assert a.accepts(text) == first and b.accepts(text) == second
            return f"apart {'first' if first else 'second'} {text.hex().upper() or '-'}"
        for s in range(a.k):
            onward = tuple(frozenset(t for q, x, t in r.arcs if x == s and q in m) for r, m in zip((a, b), pair))
            if onward not in seen:
                seen.add(onward)
                waiting.append((onward, text + bytes([s])))
    return "same"


def sets_over(a):
    """Whether there are over 512 sets, by the procedure of document 01."""
    try:
        number_sets(a.n, a.k, a.targets())
    except TooManySets:
        return True
    return False


def reduce(a):
    """Only states that are reached from an initial one and lead to a final one stay, of those alike the lowest reached
    one, in their order; one state without arcs where none stays."""
    if sets_over(a):
        raise Refused(9)
    finals, targets = a.final, a.targets()
    reached = closed(a.initial, lambda q: {t for p, _, t in a.arcs if p == q})
    hopeful = {q for q in range(a.n) if closed({q}, lambda p: {t for x, _, t in a.arcs if x == p}) & finals}
    stands = {q: next(iter(sorted(p for p in reached if alike(a.k, finals, targets, p, q))), None) for q in hopeful}

    def image(states):
        return {stands[q] for q in states if stands.get(q) is not None}

    arcs = {(p, s, t) for p in range(a.n) for s in range(a.k) for t in image({t for q, x, t in a.arcs if (q, x) == (p, s)})}
    initial = image(a.initial)
    kept = sorted(closed(initial, lambda q: {t for p, _, t in arcs if p == q}))
    if not kept:
        return Rule(1, a.k, (), (), ())
    new = {q: i for i, q in enumerate(kept)}
    kept_arcs = {(new[p], s, new[t]) for p, s, t in arcs if p in new}
    return Rule(len(kept), a.k, (new[q] for q in initial), (new[q] for q in kept if q in finals), kept_arcs)


def closed(first, onward):
    """The states that are reached from the first ones, those too."""
    found, waiting = set(first), list(first)
    while waiting:
        more = onward(waiting.pop()) - found
        found |= more
        waiting += more
    return found


def check_reduced(a, result):
    for length in range(4 if a.k < 3 else 2):
        for text in itertools.product(range(a.k), repeat=length):
            assert a.accepts(text) == result.accepts(text), text


def made_one(way, a, b):
    result = merge(way, a, b)
    if len(result.arcs) < 2000:
        check_language(way, a, b, result)
    return result.file().hex().upper()


def made_smaller(a):
    result = reduce(a)
    check_reduced(a, result)
    return result.file().hex().upper()


def answer(line):
    word, *fields = line.decode("latin-1").split(" ")
    count = {"compare": 2, "reduce": 1, **dict.fromkeys(WAYS, 2)}.get(word)
    if len(fields) != count or not all(FIELD.fullmatch(f.encode("latin-1")) for f in fields):
        return "malformed"
    try:
        rules = [read(b"" if f == "-" else bytes.fromhex(f)) for f in fields]
        if word == "compare":
            return compare(*rules)
        return made_smaller(*rules) if word == "reduce" else made_one(word, *rules)
    except Refused as refused:
        return f"refused {refused}"


def line(word, *files):
    return " ".join([word, *(f.hex() or "-" for f in files)]).encode()


def made(seed, count):
    """Two rules made at random, with up to five states each and one or two symbols, so many times."""
    state = seed

    def below(n):
        nonlocal state
        state = (state * 6364136223846793005 + 1442695040888963407) % 2 ** 64
        return (state >> 33) % n

    def some(values, of):
        return [x for x in values if below(of) == 0]

    def file(n, k):
        arcs = some(itertools.product(range(n), range(k), range(n)), 3)
        return Rule(n, k, some(range(n), 2), some(range(n), 2), arcs).file()

    for _ in range(count):
        k = 1 + below(2)
        yield file(1 + below(5), k), file(1 + below(5), k)


EVEN = rule(2, 2, 1, 1, [[(0, 1), (1, 0)], [(0, 0), (1, 1)]])   # an even number of 0s
LOOPS = rule(1, 16, 1, 1, [[(s, 0) for s in range(16)]])        # every text
HEX_A, HEX_EVEN = A.hex().encode(), EVEN.hex().encode()


def plain(n, k):
    """A rule without arcs, whose last state is initial and final."""
    return rule(n, k, 1 << n - 1, 1 << n - 1, [])


def worked():
    yield from (line(way, f, g) for f, g in ((EVEN, A), (A, EVEN), (A, A), (B, B), (ONE, B), (B, ONE)) for way in WAYS)


def sizes():
    """32 states and 33, and as many as 8 bits do not hold."""
    for way, n1, n2 in (("both", 4, 8), ("both", 32, 1), ("both", 1, 32), ("both", 3, 11), ("both", 16, 16), ("both", 32, 32),
                        ("interleaving", 8, 4), ("interleaving", 11, 3), ("interleaving", 16, 16), ("interleaving", 32, 8),
                        ("either", 16, 16), ("either", 31, 1), ("either", 32, 1), ("either", 1, 32), ("either", 32, 32)):
        yield line(way, plain(n1, 1), plain(n2, 1))


def refused():
    """Each number from either file, the first file's first; 36 before 37."""
    faults = [A[:9], patched(A, 0, 33), patched(A, 1, 17), A[:21], patched(A, 6, 8), A[:29], patched(A, 29, 3)]
    for i, fault in enumerate(faults):
        yield line(WAYS[i % 3], fault, A)
        yield line(WAYS[i % 3], A, fault)
        yield line(WAYS[i % 3], fault, faults[i - 1])
    yield line("both", plain(32, 2), plain(32, 1))
    yield line("either", plain(2, 1), plain(2, 2))
    yield line("interleaving", patched(plain(32, 2), 0, 33), plain(32, 1))
    yield line("interleaving", plain(32, 2), patched(A, 6, 8))


def others():
    """Comparing and reducing: worked, refused, malformed, and rules made at random."""
    worse = rule(3, 2, 1, 4, [[(0, 0), (0, 1), (1, 0)], [(1, 2)], [(0, 0)]])    # rule A with an arc more
    dead = rule(4, 2, 1, 4, [[(0, 1), (1, 3)], [(1, 2)], [], [(0, 3)]])        # 0 1, and a state that leads nowhere
    never = rule(2, 2, 1, 2, [[(0, 0)], [(1, 1)]])                              # no text at all
    far = [rule(32, 1, 1, 1 << n, [[(0, q + 1)] for q in range(31)] + [[]]) for n in (30, 31)]
    for f, g in ((A, A), (A, EVEN), (EVEN, A), (A, worse), (worse, A), (dead, A), (never, never), (never, A), (B, B), (LOOPS, LOOPS), far):
        yield line("compare", f, g)
        yield line("reduce", f)
    yield from (line("compare", *files) for files in ((ONE, B), (A, b""), (b"", A), (A, ONE), (FULL, LOOPS), (FULL, FULL + b"\0")))
    yield from (line("reduce", f) for f in (b"", A[:9], patched(A, 0, 33), patched(A, 1, 17), A[:21], patched(A, 6, 8), A[:29], patched(A, 29, 3), FULL + b"\0", FULL))
    yield from (line("reduce", many_sets(4)), line("reduce", many_sets(5)), line("compare", many_sets(5), many_sets(5)))
    for f, g in made(11, 40):
        yield from (line("compare", f, g), line("reduce", f), line("reduce", g))
    yield from (b"compare", b"compare ", b"compare -", b"compare - ", b"compare -  -", b"compare - - -", b"compare - 0", b"compare 0 -", b"compar - -")
    yield from (b"compares - -", b"Compare - -", b"compare- -", b"reduce", b"reduce ", b"reduce - -", b"reduce -  ", b"reduce  -", b"reduce 0", b"reduce - ")
    yield from (b"reduc -", b"reduces -", b"Reduce -", b"r -", b"c - -", b"reduce " + HEX_A[:-1], b"reduce " + HEX_A + b" ", b"compare " + HEX_A + b" x")
    yield b"reduce " + FULL.hex().encode() + b"000"


def outside():
    yield from (b"", b"both", b"both ", b"both -", b"both - ", b"both  -", b"either -  -", b"both - - ", b" both - -")
    yield from (b"Both - -", b"bot - -", b"bothh - -", b"eithe - -", b"either- -", b"interleave - -", b"interleaving", b"join - -")
    yield from (b"both - 0", b"both 0 -", b"both -- -", b"both - -00", b"both 0g -", b"both - 0x", b"both\t- -", b"both - -\r", b"both - - -")
    yield b"both " + HEX_A + b" " + HEX_EVEN[:-1]
    yield b"both " + HEX_A[:-1] + b" " + HEX_EVEN
    yield b"either " + HEX_A + b"  " + HEX_EVEN
    yield b"interleaving " + HEX_A.upper() + b" " + HEX_EVEN + b" "


def main():
    lines = [*worked(), *sizes(), *refused(), *outside(), *(line(WAYS[i % 3], *files) for i, files in enumerate(made(10, 42)))]
    # the largest file that there is, and a byte more
    lines += [line("both", FULL, LOOPS), line("either", FULL + b"\0", A), line("interleaving", A, FULL + b"\0")]
    lines += others()
    # the last line may end with the input
    lines.append(b"both " + HEX_A.upper() + b" " + HEX_EVEN)
    expected = "".join(answer(x) + "\n" for x in lines)
    for name, content in (("stdin", b"\n".join(lines)), ("stdout", expected.encode())):
        path = os.path.join(CRATE, name)
        if sys.argv[1:] == ["--check"]:
            if open(path, "rb").read() != content:
                sys.exit(f"{path} is not what {__file__} writes")
        else:
            open(path, "wb").write(content)


if __name__ == "__main__":
    main()
