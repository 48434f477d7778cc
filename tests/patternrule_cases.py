#!/usr/bin/env python3
"""Writes the cases of the program patternrule: crates/patternrule/stdin and stdout. With --check it
writes nothing and says whether they are what it would write.

A case is a line, a pattern of raw bytes. Its answer is computed here from the words of document 02,
R-6, and of document 01, "The rule file", and shares nothing with the Rattle code: the pattern is
parsed into a tree by recursive descent, and the tree has the sets of its positions.
"""
import os
import struct
import sys

HERE = os.path.dirname(os.path.abspath(__file__))
CRATE = os.path.join(HERE, "..", "crates", "patternrule")
LETTERS = b"abcdefghijklmnop"


class Outside(Exception):
    """The bytes are outside the grammar."""


class Part:
    """Whether the empty text matches, where a text can begin and end, and what follows what."""

    def __init__(self, empty, first=(), last=(), follow=()):
        self.empty, self.first, self.last, self.follow = empty, set(first), set(last), set(follow)


class Parser:
    def __init__(self, pattern):
        self.pattern, self.at, self.letters = pattern, 0, []

    def look(self):
        return self.pattern[self.at:self.at + 1]

    def alternatives(self):
        part = self.sequence()
        while self.look() == b"|":
            self.at += 1
            other = self.sequence()
            part = Part(part.empty or other.empty, part.first | other.first, part.last | other.last,
                        part.follow | other.follow)
        return part

    def sequence(self):
        part = Part(True)
        while self.look() and self.look() in b"(" + LETTERS:
            item = self.item()
            links = {(i, j) for i in part.last for j in item.first}
            part = Part(part.empty and item.empty,
                        part.first | (item.first if part.empty else set()),
                        item.last | (part.last if item.empty else set()),
                        part.follow | item.follow | links)
        return part

    def item(self):
        if self.look() == b"(":
            self.at += 1
            part = self.alternatives()
            if self.look() != b")":
                raise Outside
        else:
            self.letters.append(LETTERS.index(self.look()))
            place = len(self.letters)
            part = Part(False, [place], [place])
        self.at += 1
        while self.look() == b"*":
            self.at += 1
            links = {(i, j) for i in part.last for j in part.first}
            part = Part(True, part.first, part.last, part.follow | links)
        return part

    def whole(self):
        part = self.alternatives()
        if self.at < len(self.pattern):
            raise Outside
        return part


def rule_file(letters, part):
    """State 0 leads to the first positions, state i to those that follow it, by their letters."""
    n = len(letters) + 1
    leads = [sorted(part.first)] + [sorted(j for i, j in part.follow if i == q) for q in range(1, n)]
    sections = [b"".join(bytes(arc) for arc in sorted((letters[j - 1], j) for j in targets)) for targets in leads]
    finals = sum(1 << q for q in part.last) | (1 if part.empty else 0)
    out, offset = struct.pack("<BBII", n, 16, 1, finals), 10 + 4 * n
    for section in sections:
        out += struct.pack("<HH", offset, len(section))
        offset += len(section)
    return out + b"".join(sections)


def answer(pattern):
    if len(pattern) > 128:
        return "refused 30"
    parser = Parser(pattern)
    try:
        part = parser.whole()
    except Outside:
        return "refused 31"
    if len(parser.letters) > 31:
        return "refused 32"
    return rule_file(parser.letters, part).hex().upper()


def made(seed, count):
    """Patterns made at random: trees of up to some ten letters, spelt with brackets here and there."""
    state = seed

    def below(n):
        nonlocal state
        state = (state * 6364136223846793005 + 1442695040888963407) % 2 ** 64
        return (state >> 33) % n

    def tree(size):
        kind = below(6)
        if size == 0:
            return b"" if kind < 4 else b"()"
        if size == 1 and kind < 3:
            return LETTERS[below(16):][:1]
        if kind == 0:
            return b"(" + tree(size) + b")" + b"*" * below(3)
        if kind in (1, 2):
            return LETTERS[below(3):][:1] + b"*" * below(2) + tree(size - 1)
        left = below(size + 1)
        if kind == 3:
            return tree(left) + b"|" + tree(size - left)
        return b"(" + tree(left) + b")" + b"*" * below(2) + tree(size - left)

    return [tree(below(11)) for _ in range(count)]


ALONE = [b"", b"()", b"()*", b"|", b"||", b"(|)*", b"a", b"p", b"a|", b"|a", b"a||b", b"a|bc*", b"(a|b)c", b"ab*",
         b"(ab)*", b"a*b", b"a*b*c*", b"(a*b*)*", b"a**", b"((a))*", b"a()b", b"a(|b)c", b"(a|)(b|)",
         b"abcdefghijklmnop", b"ponmlkjihgfedcba", b"(a|b)*abb"]
OUTSIDE = [b"*", b"*a", b"|*", b"a|*", b"(*", b"(*)", b"(*a)", b"(|*)", b"(", b")", b"a)", b"(a", b")(", b"a)(b",
           b"((a)", b"(a))", b"q", b"A", b"`", b"{", b"a b", b" ", b"a+", b"a?", b"[ab]", b"\\", b"\x00", b"a\r",
           b"\t", b"\x7f", b"\x80", b"a\xff", b"}", b"~", b"'", b"+"]
EDGES = [b"a" * 31, b"a" * 32, b"a" * 128, b"a" * 129, b"*" * 129, b"(" * 64 + b")" * 64, b"(" * 65 + b")" * 64,
         b"(" * 64 + b")" * 63, b"(" * 128, b"(" * 129, b"a" + b"*" * 127, b"a" + b"*" * 128,
         b"(" * 48 + b"a|" * 15 + b"p" + b")" * 48, b"(" + b"|".join(LETTERS[i % 16:][:1] for i in range(31)) + b")*",
         b"a" * 40 + b"(", b"a" * 31 + b")", b"(a*)*" * 24, b"(a*)*" * 25 + b"bcdefg", b"a" * 31 + b"()" * 48,
         b"".join(b"(" + LETTERS[i % 16:][:1] + b"|)" for i in range(31))]


def main():
    patterns = ALONE + OUTSIDE + EDGES + made(6, 60)
    # the last line may end with the input
    cases = b"\n".join(patterns + [b"ab"])
    expected = "".join(answer(p) + "\n" for p in patterns + [b"ab"])
    for name, content in (("stdin", cases), ("stdout", expected.encode())):
        path = os.path.join(CRATE, name)
        if sys.argv[1:] == ["--check"]:
            if open(path, "rb").read() != content:
                sys.exit(f"{path} is not what {__file__} writes")
        else:
            open(path, "wb").write(content)


if __name__ == "__main__":
    main()
