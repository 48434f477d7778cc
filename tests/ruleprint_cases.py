"""Rules with few and many sets and starts, and what ruleprint prints for a file, computed from the
words of documents 01 and 02 and sharing nothing with the Rattle code: sets are Python sets, numbered by the procedure of "Sets and their order";
two states are alike unless a search over the pairs of sets that the same text leads to finds a pair of
which one accepts and the other does not; a state has a delegate when a walk along arcs from it comes to a final
state (R-7). tests/rule_cases.py makes the cases of a program of them.
"""
import random
import struct


class Refused(Exception):
    pass


def read(f):
    """n, k, the final states, and the targets of each state and symbol; or a refusal with 1 to 8."""
    def refuse_if(condition, number):
        if condition:
            raise Refused(number)

    refuse_if(len(f) < 10, 1)
    refuse_if(len(f) > 32906, 2)
    n, k, initials, finals = struct.unpack_from("<BBII", f)
    refuse_if(n not in range(1, 33), 3)
    refuse_if(k not in range(1, 17), 4)
    refuse_if(len(f) < 10 + 4 * n, 5)
    refuse_if(max(initials, finals) >= 2 ** n, 6)
    pairs = [struct.unpack_from("<HH", f, 10 + 4 * q) for q in range(n)]
    ends = [10 + 4 * n] + [offset + length for offset, length in pairs]
    refuse_if(any(offset != end for (offset, _), end in zip(pairs, ends)), 7)
    refuse_if(any(length % 2 for _, length in pairs) or ends[-1] != len(f), 7)
    targets = {}
    for q, (offset, length) in enumerate(pairs):
        arcs = [tuple(f[i:i + 2]) for i in range(offset, offset + length, 2)]
        refuse_if(arcs != sorted(set(arcs)) or any(s >= k or t >= n for s, t in arcs), 8)
        for s, t in arcs:
            targets.setdefault((q, s), set()).add(t)
    return n, k, {q for q in range(n) if finals >> q & 1}, targets


def successor(targets, members, s):
    return frozenset(t for q in members for t in targets.get((q, s), ()))


def number_sets(n, k, targets):
    """The sets in number order, or a refusal with 9."""
    sets, seen, expanded = [], set(), 0
    for q in range(n):
        waiting = [frozenset({q})]
        while True:
            for m in waiting:
                if m and m not in seen:
                    seen.add(m)
                    sets.append(m)
            if len(sets) > 512:
                raise Refused(9)
            if expanded == len(sets):
                break
            waiting = [successor(targets, sets[expanded], s) for s in range(k)]
            expanded += 1
    return sets


def alike(k, finals, targets, q, r):
    first = (frozenset({q}), frozenset({r}))
    found, waiting = {first}, [first]
    while waiting:
        x, y = waiting.pop()
        if bool(x & finals) != bool(y & finals):
            return False
        for s in range(k):
            pair = (successor(targets, x, s), successor(targets, y, s))
            if pair not in found:
                found.add(pair)
                waiting.append(pair)
    return True


def live(k, finals, targets, q):
    """Whether a final state can be reached from q, which may be one itself."""
    found, waiting = {q}, [q]
    while waiting:
        p = waiting.pop()
        new = {t for s in range(k) for t in targets.get((p, s), ())} - found
        found |= new
        waiting += new
    return bool(found & finals)


def delegates_of(n, k, finals, targets):
    """The delegate of each state, None where it has none."""
    def delegate(q):
        if not live(k, finals, targets, q):
            return None
        return min(r for r in range(n) if alike(k, finals, targets, q, r))

    return [delegate(q) for q in range(n)]


def parts(f):
    """The sets and the delegates of a rule file."""
    n, k, finals, targets = read(f)
    sets = number_sets(n, k, targets)
    return sets, delegates_of(n, k, finals, targets)


def text(f):
    try:
        n, k, _, targets = read(f)
        sets, delegates = parts(f)
    except Refused as refused:
        return f"refused {refused}\n"
    numbers = {m: str(i) for i, m in enumerate(sets)}
    lines = [f"sets {len(sets)} starts {sum(q == d for q, d in enumerate(delegates))}"]
    for i, m in enumerate(sets):
        cells = [numbers.get(successor(targets, m, s), "-") for s in range(k)]
        lines.append(" ".join([str(i), f"{sum(1 << q for q in m):08X}"] + cells))
    lines.append(" ".join(["delegates"] + ["-" if d is None else str(d) for d in delegates]))
    return "".join(line + "\n" for line in lines)


def rule(n, k, initials, finals, arcs):
    """A rule file with these arcs (state, symbol, target)."""
    head, offset, pairs, body = struct.pack("<BBII", n, k, initials, finals), 10 + 4 * n, b"", b""
    for q in range(n):
        section = sorted({(s, t) for p, s, t in arcs if p == q})
        pairs += struct.pack("<HH", offset, 2 * len(section))
        body += bytes(x for arc in section for x in arc)
        offset += 2 * len(section)
    return head + pairs + body


def part(first, m):
    """The arcs of (0|1)*0(0|1)^m on m + 2 states from `first` on. Its sets double with m, and it shares none with another part."""
    loop = [(first, 0, first), (first, 1, first), (first, 0, first + 1)]
    return loop + [(first + i, s, first + i + 1) for i in range(1, m + 1) for s in (0, 1)]


def many_sets(more):
    """A rule of 32 states and 16 symbols with 508 + `more` sets, `more` at most 5. Symbol 2 leads from the last state of each part, and then
    from state 31, to itself and state 30, which is a set more each time; symbols from 3 on are 0 and 1 again."""
    arcs, last = [], []
    for first, m in ((0, 7), (9, 6), (17, 5), (24, 4)):
        arcs += part(first, m)
        last.append(first + m + 1)
    arcs += [(q, s, t) for q, r, t in arcs for s in range(3, 16) if s % 2 == r]
    arcs += [(q, 2, t) for q in (last + [31])[:more] for t in (q, 30)]
    return rule(32, 16, 1, sum(1 << q for q in last), arcs)


def random_rule(seed, n, k, density):
    rng = random.Random(seed)
    arcs = [(q, s, t) for q in range(n) for s in range(k) for t in range(n) if rng.random() < density]
    return rule(n, k, rng.randrange(2 ** n), rng.randrange(2 ** n), arcs)


def patched(f, at, *values):
    return f[:at] + bytes(values) + f[at + len(values):]


A = bytes.fromhex("03020100000004000000160006001C0002001E0000000000000101000102")
B = rule(3, 1, 1, 0b110, [(0, 0, 1), (0, 0, 2), (1, 0, 0), (2, 0, 0)])
RING = [(q, s, (q + s) % 32) for q in range(32) for s in range(16)]
LINE = [(q, 0, q + 1) for q in range(31)]

# the fourth is what the case is there for: how many sets and starts the rule has, or the number with which it is refused
CASES = [
    ("A", A, 5, 3),
    ("B", B, 4, 2),
    ("one_state", rule(1, 1, 1, 1, [(0, 0, 0)]), 1, 1),
    ("no_arcs", rule(3, 2, 1, 0b010, []), 3, 1),
    ("no_initial_state", patched(A, 2, 0), 5, 3),
    ("no_final_state", patched(A, 6, 0), 5, 0),
    ("all_alike", rule(6, 2, 1, 0b111111, [(q, s, (q + 1 + s) % 6) for q in range(6) for s in (0, 1)]), 6, 1),
    ("none_alike", rule(32, 1, 1, 1 << 31, LINE), 32, 32),
    ("alike_by_sets_alone", rule(5, 1, 1, 0b00100, [(0, 0, 2), (1, 0, 2), (1, 0, 3), (4, 0, 4)]), 6, 2),
    ("told_apart_by_a_long_text", rule(32, 1, 1, 0b1, [(q, 0, (q + 1) % 32) for q in range(32)]), 32, 32),
    ("n_32_k_16", rule(32, 16, 1, 0x80000001, RING), 32, 32),
    ("state_31", rule(32, 1, 1 << 31, 1 << 31, [(31, 0, 31), (31, 0, 0), (0, 0, 31)]), 33, 2),
    # 1 is final and has no arcs; 2 and 3 lead only to each other; 4 leads there too, and is alike to 0
    ("dead_states", rule(5, 2, 0b10101, 0b00010, [(0, 0, 1), (2, 0, 2), (2, 1, 3), (3, 0, 2), (4, 0, 1), (4, 0, 2), (4, 1, 3)]), 6, 2),
    # state 31 is the only one that leads somewhere, so that all before it have no delegate
    ("one_live_state", rule(32, 1, 1, 1 << 31, [(q, 0, q - 1) for q in range(1, 31)]), 32, 1),
    ("sets_508", many_sets(0), 508, None),
    ("sets_512", many_sets(4), 512, None),
    ("sets_513", many_sets(5), 9, None),
    ("random_1", random_rule(1, 4, 2, 0.3), None, None),
    ("random_2", random_rule(2, 5, 3, 0.2), None, None),
    ("random_3", random_rule(3, 6, 2, 0.25), None, None),
    ("random_4", random_rule(4, 7, 1, 0.3), None, None),
    ("random_5", random_rule(5, 8, 2, 0.15), None, None),
    ("random_6", random_rule(6, 8, 4, 0.1), None, None),
    ("random_7", random_rule(7, 3, 16, 0.2), None, None),
    ("random_8", random_rule(8, 9, 2, 0.2), None, None),
    ("random_9", random_rule(9, 20, 3, 0.08), 9, None),
    ("empty", b"", 1, None),
    ("too_long", bytes(32907), 2, None),
    ("states_33", patched(A, 0, 33), 3, None),
    ("symbols_17", patched(A, 1, 17), 4, None),
    ("cut_short", A[:21], 5, None),
    ("final_mask_8", patched(A, 6, 8), 6, None),
    ("a_byte_more", A + b"\0", 7, None),
    ("arc_to_3_of_3", patched(A, 29, 3), 8, None),
]


def checked():
    """The names and files, after a look that each shows what it is there for."""
    for name, f, first, starts in CASES:
        words = text(f).split()
        for word, due in ((words[1], first), (words[3] if words[0] == "sets" else None, starts)):
            if due is not None and word != str(due):
                raise SystemExit(f"{name} has {word} where {due} is due")
        yield name, f
