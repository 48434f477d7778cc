#!/usr/bin/env python3
"""Writes the cases of the program maketext: crates/maketext/stdin and stdout. With --check it writes
nothing and says whether they are what it would write.

A case is a line, `K SEED LENGTH`. Its answer is computed here from the words of document 02, R-14,
and shares nothing with the Rattle code.
"""
import os
import random
import re
import sys

HERE = os.path.dirname(os.path.abspath(__file__))
CRATE = os.path.join(HERE, "..", "crates", "maketext")
BITS = 64


def values(seed):
    """Marsaglia's 64-bit xorshift, shifts 13 left, 7 right, 17 left: the values after the seed."""
    bits = [seed >> i & 1 for i in range(BITS)]
    while True:
        bits = [bit ^ (bits[i - 13] if i >= 13 else 0) for i, bit in enumerate(bits)]
        bits = [bit ^ (bits[i + 7] if i + 7 < BITS else 0) for i, bit in enumerate(bits)]
        bits = [bit ^ (bits[i - 17] if i >= 17 else 0) for i, bit in enumerate(bits)]
        yield sum(bit << i for i, bit in enumerate(bits))


def answer(line):
    if not re.fullmatch(rb"[0-9]{1,20} [0-9]{1,20} [0-9]{1,20}", line, re.DOTALL):
        return "malformed"
    k, seed, length = map(int, line.split(b" "))
    if k >= 2 ** BITS or seed >= 2 ** BITS or length > 65536:
        return "malformed"
    if not 1 <= k <= 16:
        return "refused 4"
    if seed == 0:
        return "refused 41"
    source = values(seed)
    return bytes(next(source) % k for _ in range(length)).hex().upper() or "-"


def cases():
    seeds = [0, 1, 2, 127, 128, 2 ** 63, 2 ** 64 - 1, 2 ** 64]
    # 256 and more: what is 0, 1 or 16 where K is cut to fewer bits
    for k in [0, 1, 2, 3, 15, 16, 17, 255, 256, 257, 272, 65537, 2 ** 32 + 1, 2 ** 64 - 1, 2 ** 64]:
        for seed in seeds:
            yield f"{k} {seed} 5"
    for length in [0, 1, 2, 63, 64, 65, 255, 256, 65536, 65537, 2 ** 64 - 1, 2 ** 64]:
        yield f"7 1 {length}"
    # malformed comes before every refusal
    yield from ["0 0 65537", "17 0 65537", "256 0 65537", "0 18446744073709551616 0", "18446744073709551616 0 0"]
    yield from ["256 1 8", "18446744073709551615 1 8"]
    # fields of the most digits, and of one more
    yield from ["16 00000000000000000001 00000000000000000003", "0" * 18 + "16 " + "0" * 19 + "1 " + "0" * 19 + "3"]
    yield from ["16 000000000000000000001 3", "0" * 19 + "16 1 3", "16 1 " + "0" * 20 + "3"]
    # a line of 62 bytes, of 63, and of many more
    yield from ["9" * 20 + " " + "9" * 20 + " " + "9" * 20, "0" * 20 + " " + "0" * 20 + " " + "0" * 21]
    yield from ["1 1 3" + " " * 58, "1 1 3" + "0" * 100, "1" * 70000, "1 1 3" + "\0" * 100]
    # outside the grammar
    yield from ["", "1", "1 1", "1 1 1 1", "1 1 1 ", " 1 1 1", "1  1 1", "1 1  1", "1\t1\t1", "1 1 1\r"]
    yield from ["-1 1 1", "+1 1 1", "1 -1 1", "1 1 -1", "0x1 1 1", "1 a 1", "1.0 1 1", "1,1,1", "- - -", "1 1 \0"]
    chance = random.Random(14)
    for _ in range(60):
        yield f"{chance.randint(1, 16)} {chance.getrandbits(64)} {chance.randint(0, 40)}"
    # a last line without a line feed
    yield "16 88172645463325252 32"


def main():
    lines = [line.encode("latin-1") for line in cases()]
    wanted = {
        "stdin": b"\n".join(lines),
        "stdout": "".join(answer(line) + "\n" for line in lines).encode(),
    }
    for name, text in wanted.items():
        path = os.path.join(CRATE, name)
        if "--check" not in sys.argv[1:]:
            with open(path, "wb") as file:
                file.write(text)
            continue
        with open(path, "rb") as file:
            if file.read() != text:
                print(f"{path} is not what {sys.argv[0]} writes")
                return 1
    print(f"{len(lines)} cases of maketext")
    return 0


if __name__ == "__main__":
    sys.exit(main())
