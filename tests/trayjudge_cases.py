#!/usr/bin/env python3
"""Writes the cases of the program trayjudge: crates/trayjudge/stdin and stdout. With --check it writes
nothing and says whether they are what it would write.

A case is a line; one that is malformed ends its list, and what follows is skipped up to an empty line.
Each answer is computed here from the words of document 02, R-13, and shares nothing
with the Rattle code: the rows of all bands are cut out of the joined bytes, a column is every
width-th byte of them, and each is accepted by following the automaton over it. tests/ruleprint_cases.py
has the reader of rule files, the numbering of sets and the starts.
"""
import os
import random
import re
import sys

from ruleprint_cases import Refused, delegates_of, many_sets, number_sets, random_rule, read, rule, successor

HERE = os.path.dirname(os.path.abspath(__file__))
CRATE = os.path.join(HERE, "..", "crates", "trayjudge")
LARGEST = 2 ** 64 - 1
BYTES, NUMBER = re.compile("-|([0-9A-Fa-f]{2})+"), re.compile("[0-9]{1,20}")
GRAMMAR = {"row": [BYTES], "column": [BYTES], "open": [NUMBER] * 2, "deliver": [NUMBER, BYTES], "withdraw": [NUMBER], "verdict": []}


def refuse_if(condition, number):
    if condition:
        raise Refused(number)


class Rule:
    def __init__(self, file):
        n, self.k, self.finals, self.targets = read(file)
        self.sets = len(number_sets(n, self.k, self.targets))
        delegates = delegates_of(n, self.k, self.finals, self.targets)
        self.starts = sum(q == d for q, d in enumerate(delegates))
        self.initials = frozenset(q for q in range(n) if int.from_bytes(file[2:6], "little") >> q & 1)

    def accepts(self, text):
        members = self.initials
        for s in text:
            members = successor(self.targets, members, s)
        return bool(members & self.finals)


class Tray:
    def __init__(self):
        self.rules, self.bands, self.width = {}, None, None

    def install(self, which, file):
        rule = Rule(file)
        self.rules[which], self.bands = rule, None
        return f"accepted {rule.sets} {rule.starts}"

    def row(self, file):
        return self.install("row", file)

    def column(self, file):
        return self.install("column", file)

    def open(self, width, bands):
        refuse_if(len(self.rules) < 2, 20)
        refuse_if(width not in range(1, 17), 38)
        refuse_if(bands not in range(1, 9), 10)
        self.width, self.bands = width, [None] * bands
        return "accepted"

    def at(self, band):
        refuse_if(self.bands is None, 21)
        refuse_if(band >= len(self.bands), 11)

    def deliver(self, band, events):
        self.at(band)
        refuse_if(len(events) % self.width or len(events) // self.width > 64, 39)
        refuse_if(any(b >= rule.k for b in events for rule in self.rules.values()), 13)
        refuse_if(self.bands[band] is not None, 22)
        self.bands[band] = events
        return "accepted"

    def withdraw(self, band):
        self.at(band)
        refuse_if(self.bands[band] is None, 23)
        self.bands[band] = None
        return "accepted"

    def verdict(self):
        refuse_if(self.bands is None, 21)
        empty = self.bands.count(None)
        if empty:
            return f"waiting {empty}"
        events = b"".join(self.bands)
        rows = [events[i:i + self.width] for i in range(0, len(events), self.width)]
        columns = [events[c::self.width] for c in range(self.width)]
        good = all(map(self.rules["row"].accepts, rows)) and all(map(self.rules["column"].accepts, columns))
        return "yes" if good else "no"


def field_of(form, field):
    if form is NUMBER:
        return int(field)
    return b"" if field == "-" else bytes.fromhex(field)


def meaning(line):
    """The call that a line says, or None."""
    word, *fields = line.split(" ")
    forms = GRAMMAR.get(word)
    if forms is None or len(fields) != len(forms) or not all(form.fullmatch(field) for form, field in zip(forms, fields)):
        return None
    values = [field_of(form, field) for form, field in zip(forms, fields)]
    if any(isinstance(value, int) and value > LARGEST for value in values):
        return None
    return word, values


def answers(lines):
    tray, ended = Tray(), False
    for line in lines:
        call = meaning(line)
        if line == "":
            tray, ended = Tray(), False
            yield ""
        elif ended:
            yield "skipped"
        elif call is None:
            ended = True
            yield "malformed"
        else:
            try:
                yield getattr(tray, call[0])(*call[1])
            except Refused as refused:
                yield f"refused {refused}"


def hexed(data):
    return data.hex() or "-"


# rows and columns that alternate; texts of even length; any text that is not empty
ALTERNATE = rule(2, 2, 1, 3, [(0, 0, 1), (1, 1, 0)])
EVEN = rule(2, 2, 1, 1, [(0, 0, 1), (0, 1, 1), (1, 0, 0), (1, 1, 0)])
SOME = rule(2, 3, 1, 2, [(q, s, 1) for q in range(2) for s in range(3)])
ANY = rule(1, 2, 1, 1, [(0, 0, 0), (0, 1, 0)])
NONE = rule(1, 2, 1, 0, [])
SIXTEEN = rule(1, 16, 1, 1, [(0, s, 0) for s in range(16)])


def rules(row, column):
    return ["row " + row.hex(), "column " + column.hex()]


def judged(row, column, width, *bands):
    """Both rules, a band for each text, the last delivered first, and a verdict after each."""
    lines = rules(row, column) + [f"open {width} {len(bands)}", "verdict"]
    for b in reversed(range(len(bands))):
        lines += [f"deliver {b} {hexed(bands[b])}", "verdict"]
    return lines + [""]


STARTING = ["verdict", "open 1 1", "open 0 0", "deliver 0 -", "withdraw 0", *rules(ANY, EVEN)[:1], "open 1 1", "verdict", "",
            # either rule alone is not enough, whichever it is
            rules(ANY, EVEN)[1], "open 1 1", "verdict", rules(ANY, EVEN)[0], "verdict", "open 1 1", "verdict",
            # an installation of either removes the board, a refused one keeps it
            "deliver 0 00", "row 00", "verdict", "column " + ANY.hex()[:-2] + "07", "verdict", rules(ANY, EVEN)[0], "verdict", "deliver 0 00",
            "open 1 1", "deliver 0 00", "verdict", rules(ANY, EVEN)[1], "verdict", "withdraw 0", "open 2 1", "deliver 0 0001", "verdict", ""]
VERDICTS = [line for case in (
    judged(ALTERNATE, ALTERNATE, 3, b"\0\1\0"), judged(ALTERNATE, ALTERNATE, 3, b"\0\1\0", b"\1\0\1"), judged(ANY, ALTERNATE, 2, b"\0\0", b"\1\1\0\0"),
    judged(ALTERNATE, ANY, 2, b"\0\0", b"\1\1\0\0"), judged(ALTERNATE, ANY, 2, b"\0\1", b"\0\1\0\1"), judged(ANY, EVEN, 1, b"\0", b"\1"),
    judged(EVEN, ANY, 1, b"\0", b"\1"), judged(EVEN, ANY, 2, b"\0\1", b"\1\1"),
    # no rows at all: each column is the empty text, and there is no row to judge
    judged(ANY, EVEN, 16, b""), judged(ANY, SOME, 16, b"", b""), judged(SOME, EVEN, 3, b"", b"", b""), judged(NONE, EVEN, 1, b""), judged(EVEN, NONE, 1, b""),
    # a band of no rows between others
    judged(ALTERNATE, ALTERNATE, 2, b"\0\1", b"", b""), judged(ANY, ALTERNATE, 1, b"\0", b"", b"\1", b"\0"),
    # a row and a column of the same bytes, told apart
    judged(ALTERNATE, NONE, 2, b"\0\1"), judged(NONE, ALTERNATE, 1, b"\0\1"), judged(ALTERNATE, ANY, 1, b"\1"), judged(ANY, ALTERNATE, 1, b"\1"),
) for line in case]
NUMBERS = [*rules(SIXTEEN, ANY), "open 0 1", "open 17 1", "open 17 0", "open 1 0", "open 16 9", f"open {LARGEST} 1", f"open 1 {LARGEST}", "verdict",
           "open 16 8", "verdict", "open 00000000000000000016 00000000000000000008", "verdict", "deliver 8 00", "deliver 7 00", "deliver 7 " + "00" * 15,
           "deliver 7 " + "00" * 1024, "deliver 7 " + "00" * 1024, "deliver 7 " + "00" * 1040, "deliver 7 " + "00" * 1039, "deliver 6 " + "00" * 1040,
           "deliver 6 " + "02" * 1040, "deliver 6 " + "02" * 16, "deliver 6 " + "00" * 15 + "02", "deliver 6 " + "01" * 16, "verdict", f"withdraw {LARGEST}",
           f"deliver {LARGEST} -", "withdraw 8", "withdraw 5", "withdraw 7", "withdraw 7", "deliver 7 -", "verdict",
           # 13 by the row rule's k, by the column rule's, and an idle mark
           *rules(ANY, SIXTEEN), "open 1 1", "deliver 0 02", "deliver 0 ff", "deliver 0 01", "deliver 0 ff", "verdict", "open 1 1", "verdict",
           *rules(SIXTEEN, SIXTEEN), "open 1 1", "deliver 0 10", "deliver 0 0f", "deliver 0 10", "deliver 0 " + "0f" * 65, "verdict",
           "open 7 2", "deliver 1 " + "05" * 448, "deliver 0 " + "05" * 455, "deliver 0 " + "05" * 441, "verdict", ""]
FILES = ["row -", "column 00", "row " + "00" * 32906, "row " + "00" * 32907, "column " + "00" * 32906, "column " + "00" * 32907,
         *("row " + (bytes([n, k]) + ANY[2:]).hex() for n, k in ((0, 2), (33, 2), (1, 0), (1, 17), (2, 2))), "column " + ANY[:12].hex(),
         "row " + (ANY[:2] + b"\2" + ANY[3:]).hex(), "column " + (ANY[:10] + b"\0" + ANY[11:]).hex(), "row " + (ANY[:-1] + b"\1").hex(),
         "row " + many_sets(4).hex(), "row " + many_sets(5).hex(), "column " + many_sets(5).hex().upper(), "column " + many_sets(4).hex().upper(),
         "open 2 1", "deliver 0 0001", "verdict", ""]
# malformed lines
OUTSIDE = [" ", "row", "row ", "row  00", " row 00", "row 0", "row 0g", "row 00 ", "row 00 00", "row --", "row -0", "Row 00", "rows 00", "row\t00", "row 00\r",
           "column", "column ", "column 0", "column 00 ", "column -00", "columns 00", "COLUMN 00", "open", "open ", "open 1", "open 1 ", "open  1 1", "open 1  1",
           "open 1 1 ", "open 1 1 1", "open -1 1", "open 1 +1", "open 0x1 1", "open 1 1\r", "open 1 18446744073709551616", "open 18446744073709551616 1",
           "open 000000000000000000001 1", "open 1 000000000000000000001", "deliver", "deliver 0", "deliver 0 ", "deliver 0  00", "deliver  0 00",
           "deliver 0 00 ", "deliver 0 0", "deliver 0 00 00", "deliver 0 0 00", "deliver - 00", "deliver 18446744073709551616 00", "withdraw", "withdraw ",
           "withdraw 0 ", "withdraw 0 0", "withdraw x", "verdict ", "verdict 0", "verdictx", "Verdict", "verdic", "load 00", "install 00", "build 00", "-", "0"]
# lines that are longer than any accepted call, told by their ends too
LONG = ["deliver 0 " + "00" * 1025, "deliver 00000000000000000000 " + "00" * 32907, "deliver 0 " + "00" * 33000, "deliver 0 " + "00" * 33000 + "0",
        "deliver 0 " + "00" * 33000 + "g0", "deliver 9 " + "00" * 33000, "deliver " + "0" * 66000, "deliver 000000000000000000000 " + "00" * 33000,
        "row " + "00" * 33000, "row " + "00" * 33000 + "0", "row " + "00" * 33000 + "-", "column " + "00" * 33000, "column " + "00" * 32908,
        "column " + "00" * 32907 + "0", "column " + "00" * 32907 + " ", "open 1 " + "0" * 66000, "open " + "0" * 66000 + " 1", "withdraw " + "0" * 66001,
        "verdict" + "0" * 66000, "rows" + "0" * 66000]
BOARD = [*rules(EVEN, EVEN), "open 2 2", "deliver 1 0001"]
# what follows a malformed line is skipped, whatever it says, and does nothing; the verdict too
ENDED = [*BOARD, "deliver 0 0100", "verdict", "0100", "verdict", "withdraw 1", "deliver 0 0100", "open 1 1", *rules(ANY, ANY), "verdict ", *LONG[2:4], "verdict", "",
         "verdict", "open 1 1", "", *BOARD, "deliver 0 01", "verdict", "deliver 0 0", "verdict", "", "", "row", *BOARD, "", "verdict", *BOARD, "verdict",
         "deliver 0 0100", "verdict", "x", ""]


def made(seed):
    """Rules and calls by chance."""
    chance = random.Random(seed)
    k = chance.randint(1, 3)
    files = [random_rule(100 * seed + i, chance.randint(1, 4), k + chance.randint(0, 1), chance.choice([0.3, 0.6, 0.9])) for i in range(2)]
    if seed % 2:
        # more states final, so that more is accepted
        files = [f[:6] + (2 ** f[0] - 1).to_bytes(4, "little") + f[10:] for f in files]
    width, bands = chance.randint(1, 4), chance.randint(1, 3)
    lines = rules(*files) + [f"open {width} {bands}"]
    for _ in range(24):
        b = chance.randint(0, bands)
        events = bytes(chance.randrange(k) for _ in range(width * chance.randint(0, 4)))
        delivery = f"deliver {b} {hexed(events)}"
        lines.append(chance.choice([delivery, delivery, delivery, delivery, f"withdraw {b}", "verdict", "verdict", "verdict", f"deliver {b} {hexed(events + bytes([k]))}",
                                    f"deliver {b} {hexed(bytes([chance.choice([k, 255])] * width))}", chance.choice([f"open {width} {bands}", "open 0 1", *lines[:2]])]))
        if lines[-1] in lines[:2]:
            lines.append(f"open {width} {bands}")
    return lines + ["verdict", ""]


def main():
    lines = STARTING + VERDICTS + NUMBERS + FILES + ENDED
    for outside in OUTSIDE:
        lines += [outside, "verdict", "", *BOARD, outside, "verdict", ""]
    for long in LONG:
        lines += [*BOARD, long, "deliver 0 0100", "verdict", ""]
    for long in LONG[:6]:
        lines += [long, ""]
    for seed in range(40):
        lines += made(seed)
    # a refusal, and then a line outside the grammar; the last line may end with the input
    lines += ["verdict", "verdict\r"]
    content = "\n".join(lines)
    expected = "".join(answer + "\n" for answer in answers(lines))
    for name, text in (("stdin", content), ("stdout", expected)):
        path = os.path.join(CRATE, name)
        if sys.argv[1:] == ["--check"]:
            if open(path, "rb").read() != text.encode():
                sys.exit(f"{path} is not what {__file__} writes")
        else:
            open(path, "wb").write(text.encode())


if __name__ == "__main__":
    main()
