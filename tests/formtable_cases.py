#!/usr/bin/env python3
"""Writes the cases of the program formtable: crates/formtable/stdin and stdout. With --check it writes
nothing and says whether they are what it would write, and whether crates/ruleform/stdout is the form of
rules A and B side by side, the rule in crates/ruleform/stdin.

A case is a line, a failure form. Its answer is computed here from the words of document 02, R-14, and
shares nothing with the Rattle code: a table is a list of rows, a form a dictionary for each set.
"""
import os
import random
import sys

HERE = os.path.dirname(os.path.abspath(__file__))
CRATES = os.path.join(HERE, "..", "crates")
EMPTY = 512
RULE_A = [[1, 0], [1, 2], [1, 0], [EMPTY, 4], [EMPTY, EMPTY]]
SIDE_BY_SIDE = RULE_A + [[6, EMPTY], [5, EMPTY], [5, EMPTY], [5, EMPTY]]


def form_of(table):
    """For each set its failure set and the cells that it keeps, by symbol."""
    sets = [(0, dict(enumerate(table[0])))]
    for t in range(1, len(table)):
        equal = [sum(a == b for a, b in zip(table[t], table[u])) for u in range(t)]
        failure = equal.index(max(equal))
        sets.append((failure, {s: c for s, c in enumerate(table[t]) if c != table[failure][s]}))
    return sets


def numbers_of(table):
    """What a line has: failure sets, masks and cells."""
    sets = form_of(table)
    return ([failure for failure, kept in sets], [sum(1 << s for s in kept) for failure, kept in sets],
            [kept[s] for failure, kept in sets for s in sorted(kept)])


def text_of(table):
    sets = form_of(table)
    lines = [f"sets {len(table)} symbols {len(table[0])} kept {sum(len(kept) for _, kept in sets)}"]
    for t, (failure, kept) in enumerate(sets):
        cells = "".join(" -" if kept[s] == EMPTY else f" {kept[s]}" for s in sorted(kept))
        lines.append(f"{t} {failure} {sum(1 << s for s in kept):04X}{cells}")
    return "\n".join(lines) + "\n"


def hex_of(numbers):
    return "".join(f"{n & 255:02X}{n >> 8:02X}" for n in numbers) or "-"


def line_of(sets, symbols, failure, masks, cells):
    return f"{sets} {symbols} {hex_of(failure)} {hex_of(masks)} {hex_of(cells)}"


def answer_to(sets, symbols, failure, masks, cells):
    if not (1 <= sets <= 512 and 1 <= symbols <= 16):
        return "refused 40"
    failure = failure + [0] * (512 - len(failure))
    masks = masks + [0] * (512 - len(masks))
    cells = cells + [0] * (8192 - len(cells))
    if any(failure[t] >= t for t in range(1, sets)) or any(m >> symbols for m in masks[:sets]):
        return "refused 40"
    if masks[0] != 2 ** symbols - 1:
        return "refused 40"
    table, taken = [], 0
    for t in range(sets):
        row = []
        for s in range(symbols):
            if masks[t] >> s & 1:
                row.append(cells[taken])
                taken += 1
            else:
                row.append(table[failure[t]][s])
        table.append(row)
    if any(c != EMPTY and c >= sets for c in cells[:taken]):
        return "refused 40"
    return " ".join("-" if c == EMPTY else str(c) for row in table for c in row)


def random_table(chance, sets, symbols):
    row = [[chance.choice([EMPTY, chance.randrange(sets)]) for _ in range(symbols)]]
    for t in range(1, sets):
        near = list(chance.choice(row))
        for _ in range(chance.randrange(symbols + 1)):
            near[chance.randrange(symbols)] = chance.choice([EMPTY, chance.randrange(sets)])
        row.append(near)
    return row


def forms():
    """Forms as their numbers."""
    chance = random.Random(14)
    a = (5, 2) + numbers_of(RULE_A)
    yield a
    for sets, symbols in [(1, 1), (1, 16), (2, 1), (7, 3), (20, 16), (40, 2), (512, 1), (100, 16)]:
        yield (sets, symbols) + numbers_of(random_table(chance, sets, symbols))
    sets, symbols, failure, masks, cells = a
    yield sets, symbols, [7] + failure[1:], masks, cells                 # set 0's failure set is not read
    yield sets, symbols, failure + [9, 9], masks + [65535], cells + [511]  # nor what follows
    yield sets, symbols, [0, 0, 0, 0, 0], [3, 3, 3, 3, 3], [1, 0, 1, 2, 1, 0, 512, 4, 512, 512]  # no other set is asked
    yield sets, symbols, [0, 1, 0, 0, 3], masks, cells                   # not below
    yield sets, symbols, [0, 0, 0, 0, 65535], masks, cells
    yield sets, symbols, failure, [2] + masks[1:], cells                 # a cell left out of set 0
    yield sets, symbols, failure, masks[:4] + [6], cells + [0]           # a bit for no symbol
    yield sets, symbols, failure, masks[:4] + [32770], cells
    yield sets, symbols, failure, masks, [5] + cells[1:]                 # a set that the table lacks
    yield sets, symbols, failure, masks, cells[:5] + [513]
    yield sets, symbols, failure, masks, [511] + cells[1:]
    for n, k in [(0, 2), (513, 2), (65535, 2), (5, 0), (5, 17), (5, 255)]:
        yield n, k, failure, masks, cells
    # 5 sets and 2 symbols where the numbers are cut to 16 and 8 bits, or to 32
    for n, k in [(65536, 2), (65541, 2), (2 ** 32 + 5, 2), (2 ** 64 - 1, 2), (5, 256), (5, 258), (5, 2 ** 32 + 2),
                 (5, 2 ** 64 - 1), (65541, 258), (2 ** 64 - 1, 2 ** 64 - 1)]:
        yield n, k, failure, masks, cells
    yield 512, 16, [], [65535], [512] * 16
    yield 1, 16, [], [65535], []
    for _ in range(40):
        sets, symbols = chance.randrange(1, 6), chance.randrange(1, 4)
        table = random_table(chance, sets, symbols)
        form = [sets, symbols, *numbers_of(table)]
        part = chance.randrange(2, 5)
        spoilt = list(form[part])
        if spoilt:
            spoilt[chance.randrange(len(spoilt))] = chance.choice([0, 1, 2, 3, 7, 8, 511, 512, 513, 65535])
        form[part] = spoilt
        yield tuple(form)


def malformed():
    good = line_of(5, 2, *numbers_of(RULE_A))
    yield ""
    yield " " + good
    yield good + " "
    yield good.replace(" ", "  ", 1)
    yield good.rsplit(" ", 1)[0]
    yield good + "0"
    yield good + "00"
    yield good.replace("5 ", f"{2 ** 64} ", 1)
    yield good.replace("5 2 ", f"5 {2 ** 64} ", 1)
    # malformed comes before 40, whatever the numbers
    for numbers in ["65541 2 ", "5 258 ", f"{2 ** 64 - 1} {2 ** 64 - 1} "]:
        great = good.replace("5 2 ", numbers, 1)
        yield from [great + " ", great + "0", great + "00", great.rsplit(" ", 1)[0]]
        yield numbers + "0G00 0300 00000000"
        yield line_of(*numbers.split(), [0] * 513, [3], [0, 0])
        yield line_of(*numbers.split(), [0], [3] * 513, [0, 0])
        yield line_of(*numbers.split(), [0], [1], [0] * 8193)
    yield good.replace("5 ", "-5 ", 1)
    yield good.replace("5 ", "000000000000000000005 ", 1)
    yield line_of(5, 2, [0] * 513, [3], [0, 0])
    yield line_of(5, 2, [0], [3] * 513, [0, 0])
    yield line_of(1, 1, [0], [1], [0] * 8193)
    yield "5 2 0G00 0300 00000000"
    yield good + "0" * 40000


def cases():
    for form in forms():
        yield line_of(*form), answer_to(*form)
    yield "00000000000000000001 001 - 0100 0002", "-"
    yield line_of(1, 1, [0] * 512, [1] + [0] * 511, [0] + [65535] * 8191), "0"
    for line in malformed():
        yield line, "malformed"


def main():
    stdin = "".join(line + "\n" for line, _ in cases())
    stdout = "".join(answer + "\n" for _, answer in cases())
    wanted = {("formtable", "stdin"): stdin, ("formtable", "stdout"): stdout, ("ruleform", "stdout"): text_of(SIDE_BY_SIDE)}
    wrong = 0
    for (crate, name), text in wanted.items():
        path = os.path.join(CRATES, crate, name)
        if "--check" in sys.argv:
            with open(path, encoding="ascii") as file:
                if file.read() != text:
                    print(f"{path} is not what this script writes")
                    wrong = 1
        else:
            with open(path, "w", encoding="ascii") as file:
                file.write(text)
    sys.exit(wrong)


if __name__ == "__main__":
    main()
