"""Rule files at the edges of the format, and what reading answers to a file, computed from the words
of document 01 and sharing nothing with the Rattle code: the number of a refusal, or `accepted N K
INITIALS FINALS` and, for each state and symbol with a target, ` STATE.SYMBOL=MASK` (masks in hex).
tests/rule_cases.py makes the cases of a program of them.
"""
import struct


def answer(f):
    if len(f) < 10:
        return 1
    if len(f) > 32906:
        return 2
    n, k = f[0], f[1]
    if not 1 <= n <= 32:
        return 3
    if not 1 <= k <= 16:
        return 4
    if len(f) < 10 + 4 * n:
        return 5
    initials, finals = struct.unpack_from("<II", f, 2)
    for q in range(n, 32):
        if initials >> q & 1 or finals >> q & 1:
            return 6
    pairs = [struct.unpack_from("<HH", f, 10 + 4 * q) for q in range(n)]
    due = 10 + 4 * n
    for offset, length in pairs:
        if offset != due or length % 2:
            return 7
        due = offset + length
    if due != len(f):
        return 7
    arcs = {}
    for q, (offset, length) in enumerate(pairs):
        section = [(f[i], f[i + 1]) for i in range(offset, offset + length, 2)]
        for i, (s, t) in enumerate(section):
            if s >= k or t >= n or (i and not section[i - 1] < (s, t)):
                return 8
            arcs.setdefault((q, s), set()).add(t)
    cells = "".join(f" {q}.{s}={sum(1 << t for t in ts):x}" for (q, s), ts in sorted(arcs.items()))
    return f"accepted {n} {k} {initials:x} {finals:x}{cells}"


def rule(n, k, initials, finals, sections):
    """A rule file. `sections` has a list of (symbol, target) for each state; missing ones are empty."""
    sections = sections + [[]] * (n - len(sections))
    head = bytes([n, k]) + struct.pack("<II", initials, finals)
    offset, pairs, arcs = 10 + 4 * n, b"", b""
    for section in sections:
        pairs += struct.pack("<HH", offset, 2 * len(section))
        arcs += bytes(x for arc in section for x in arc)
        offset += 2 * len(section)
    return head + pairs + arcs


def patched(f, at, *values):
    f = bytearray(f)
    f[at:at + len(values)] = bytes(values)
    return bytes(f)


A = bytes.fromhex("03020100000004000000160006001C0002001E000000000000010100 0102".replace(" ", ""))
B = rule(3, 1, 1, 6, [[(0, 1), (0, 2)], [(0, 0)], [(0, 0)]])
ONE = rule(1, 1, 1, 1, [[(0, 0)]])  # a state, a symbol, an arc: 16 bytes
TWO = rule(2, 1, 1, 1, [])[:10]  # the head of a rule with two states; pairs and arcs to follow
FULL = rule(32, 16, 0xFFFFFFFF, 0x80000000, [[(s, t) for s in range(16) for t in range(32)]] * 32)  # 32,906 bytes

CASES = [
    ("A", A),
    ("B", B),
    ("empty_masks", rule(2, 2, 0, 0, [[(0, 1)], [(1, 0)]])),
    ("no_arcs", rule(1, 1, 0, 0, [[]])),
    # each number from the smallest file that has it
    ("smallest_1", b""),
    ("smallest_2", bytes(32907)),
    ("smallest_3", bytes(10)),
    ("smallest_4", patched(bytes(10), 0, 1)),
    ("smallest_5", patched(bytes(10), 0, 1, 1)),
    ("smallest_6", rule(1, 1, 2, 0, [])),
    ("smallest_7", patched(bytes(14), 0, 1, 1)),
    ("smallest_8", rule(1, 1, 0, 0, [[(1, 0)]])),
    # 1 and 2
    ("bytes_9", A[:9]),
    ("bytes_10", A[:10]),
    ("bytes_32906", FULL),
    ("bytes_32907", FULL + b"\0"),
    # 3
    ("n_0", patched(ONE, 0, 0)),
    ("n_1", ONE),
    ("n_32", rule(32, 1, 1 << 31, 1 << 31, [[(0, 31)]] + [[]] * 30 + [[(0, 0)]])),
    ("n_33", rule(33, 1, 1, 1, [[(0, 0)]])),
    ("n_255", rule(255, 1, 1, 1, [])),
    # 4
    ("k_0", patched(ONE, 1, 0)),
    ("k_1", ONE),
    ("k_16", rule(1, 16, 1, 1, [[(15, 0)]])),
    ("k_17", patched(ONE, 1, 17)),
    # 5
    ("pairs_cut_short", A[:21]),
    ("pairs_only", rule(3, 2, 1, 4, [])),
    # 6
    ("initial_bit_2_of_3", patched(A, 2, 4)),
    ("initial_bit_3_of_3", patched(A, 2, 8)),
    ("final_bit_2_of_3", patched(A, 6, 4)),
    ("final_bit_3_of_3", patched(A, 6, 8)),
    ("final_bit_31_of_3", patched(A, 9, 0x80)),
    ("mask_bytes_in_order", rule(32, 1, 0x04030201, 0x08070605, [])),
    ("mask_bit_31_of_32", rule(32, 1, 0xFFFFFFFF, 0xFFFFFFFF, [])),
    ("mask_bit_31_of_31", rule(31, 1, 0, 0x80000000, [])),
    # 7, each case with this one fault
    ("odd_length", ONE[:12] + struct.pack("<H", 3) + bytes(3)),
    ("odd_length_of_the_last", TWO + struct.pack("<HHHH", 18, 2, 20, 1) + bytes(3)),
    ("odd_lengths_that_add_up", TWO + struct.pack("<HHHH", 18, 1, 19, 3) + bytes(4)),
    ("first_offset_1_less", patched(ONE[:15], 10, 13)),
    ("first_offset_1_more", patched(ONE + b"\0", 10, 15)),
    ("gap", TWO + struct.pack("<HHHH", 18, 2, 22, 2) + bytes(6)),
    ("overlap", TWO + struct.pack("<HHHH", 18, 4, 20, 2) + bytes([0, 0, 0, 1])),
    # 18 + 65,534 is 16 modulo 65,536, where the second section says that it begins
    ("overlap_modulo_65536", TWO + struct.pack("<HHHH", 18, 65534, 16, 6) + bytes(4)),
    # 20 + 65,534 is 18 modulo 65,536, where the file ends
    ("end_modulo_65536", TWO + struct.pack("<HHHH", 18, 2, 20, 65534)),
    ("ends_1_early", ONE + b"\0"),
    ("ends_2_early", ONE + b"\0\0"),
    ("ends_1_late", ONE[:-1]),
    ("ends_2_late", patched(ONE, 12, 4)),
    # 8
    ("symbol_1_of_2", rule(2, 2, 1, 1, [[(1, 0)]])),
    ("symbol_2_of_2", rule(2, 2, 1, 1, [[(2, 0)]])),
    ("symbol_255", rule(2, 2, 1, 1, [[(255, 0)]])),
    ("target_1_of_2", rule(2, 2, 1, 1, [[(0, 1)]])),
    ("target_2_of_2", rule(2, 2, 1, 1, [[(0, 2)]])),
    ("target_255", rule(2, 2, 1, 1, [[(0, 255)]])),
    ("equal_arcs", rule(2, 2, 1, 1, [[(0, 1), (0, 1)]])),
    ("falling_by_symbol", rule(2, 2, 1, 1, [[(1, 0), (0, 1)]])),
    ("falling_by_target", rule(2, 2, 1, 1, [[(1, 1), (1, 0)]])),
    ("third_arc_falls", rule(2, 2, 1, 1, [[(0, 0), (1, 1), (1, 0)]])),
    ("last_section_falls", rule(2, 2, 1, 1, [[(0, 0)], [(1, 0), (0, 0)]])),
    ("rising_by_symbol_falling_target", rule(2, 2, 1, 1, [[(0, 1), (1, 0)]])),
    ("order_starts_anew_in_each_section", rule(2, 2, 1, 1, [[(1, 1)], [(0, 0)]])),
    ("bad_arc_in_the_last_section", rule(2, 2, 1, 1, [[(0, 0)], [(0, 0), (1, 2)]])),
    # two faults: the first number wins
    ("1_before_3", b"\0" * 9),
    ("2_before_3", patched(FULL + b"\0", 0, 0)),
    ("3_before_4", patched(ONE, 0, 33, 17)),
    ("4_before_5", patched(A[:21], 1, 0)),
    ("5_before_6", patched(A[:21], 2, 8)),
    ("6_before_7", patched(A, 6, 8, 0, 0, 0, 0)),
    ("7_before_8", patched(A, 29, 3) + b"\0"),
    ("8_alone", patched(A, 29, 3)),
]

