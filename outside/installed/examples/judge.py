"""Judges a trace of two chunks, the second first, by the rule that accepts what ends in 0 1."""
from bellbadger import Judge

RULE = bytes.fromhex("03020100000004000000160006001C0002001E0000000000000101000102")

judge = Judge()
judge.load(RULE)
judge.open(2)
judge.deliver(1, 0, bytes([1]))
judge.deliver(0, 0, bytes([0]))
print("yes" if judge.verdict().is_yes else "no")
