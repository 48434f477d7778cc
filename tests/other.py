"""What tests/follow, tests/losses and tests/saved share: they hold the library (outside/build), called from Python, to
what the other implementation (reference/) prints from a seed and a number."""
import os
import re
import subprocess
import sys

TOP = os.path.join(os.path.dirname(os.path.abspath(__file__)), "..")
CARGO = os.path.join(TOP, "target", "outside", "cargo")
sys.path.insert(0, os.path.join(TOP, "outside", "python"))
sys.dont_write_bytecode = True


def data(field):
    """Bytes in hex digits, or - for none."""
    return b"" if field == "-" else bytes.fromhex(field)


def rule_of(field):
    """A rule by value, in 2,058 bytes."""
    from bellbadger import CheckedRule

    value = data(field)
    four = [int.from_bytes(value[at : at + 4], "little") for at in range(2, len(value), 4)]
    return CheckedRule(value[0], value[1], four[0], four[1], four[2:])


def answered(call, *arguments):
    """What a call answers, or the words for its refusal."""
    from bellbadger import Refused

    try:
        return call(*arguments), None
    except Refused as refused:
        return None, f"refused {refused.number}"


def printed(name, unit, most):
    """The lines that the other implementation prints, by the seed and the number on the command line."""
    if len(sys.argv) > 3 or not all(re.fullmatch(r"[0-9]{1,9}", word) for word in sys.argv[1:]):
        print(f"usage: tests/{name} [SEED [{unit}]]    two whole numbers; if left out: 1 and {most}", file=sys.stderr)
        sys.exit(2)
    seed, count = sys.argv[1:] + ["1", str(most)][len(sys.argv) - 1 :]
    manifest = os.path.join(TOP, "reference", "Cargo.toml")
    build = ["cargo", "build", "--quiet", "--release", "--offline", "--manifest-path", manifest]
    subprocess.run(build, env=dict(os.environ, CARGO_TARGET_DIR=CARGO), check=True)
    other = [os.path.join(CARGO, "release", name), seed, count]
    return subprocess.run(other, stdout=subprocess.PIPE, check=True, text=True).stdout.splitlines()


def differs(lines, words):
    sys.exit("\n".join(lines) + f"\nis the other implementation's, and the library's last answer is\n{words}")


def compared(name, what, kinds):
    """Says how many answers of each kind were compared."""
    if not kinds:
        sys.exit(f"{name}: nothing was compared")
    shown = ", ".join(f"{n} {words}" for words, n in sorted(kinds.items()))
    print(f"{name}: {sum(kinds.values())} {what} as the other implementation has them: {shown}")
