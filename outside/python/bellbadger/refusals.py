"""What is raised where a call is refused, or a recorded list has no meaning."""

__all__ = ["Refused", "Malformed"]

_REASONS = {
    1: "the file is too short for a head of 10 bytes",
    2: "the file is longer than any rule (32,906 bytes)",
    3: "the number of states is not in 1..32",
    4: "the number of symbols is not in 1..16",
    5: "the file ends within the list of pairs",
    6: "a mask names a state that does not exist",
    7: "a pair has a wrong offset or an odd length, or the sections do not end where the file does",
    8: "an arc has a state, a symbol or a target that does not exist, or arcs are not strictly ascending",
    9: "the rule has over 512 sets",
    10: "the number of places is not in 1..64",
    11: "the board has no such place",
    12: "the chunk has over 65,536 bytes",
    13: "a byte is no symbol of the rule and no idle mark",
    20: "no rule is there",
    21: "no board is open",
    22: "the revision is not greater than the last one accepted at the place",
    23: "the place, or to locate a loss one before it, has no chunk",
    30: "the pattern has over 128 bytes",
    31: "the bytes are no pattern",
    32: "the pattern has more than 31 letters",
    33: "the rule has more than eight states",
    34: "the rule has more than 512 mappings",
    35: "more than 512 sets are reached from the set of initial states",
    36: "the rules have different numbers of symbols",
    37: "the two rules made one take more than 32 states",
    38: "the width is not in 1..16",
    39: "the band is not whole rows, or has over 64",
    40: "not a valid form",
    41: "the seed is 0",
    42: "the summary is broken, or does not begin with chunk 0",
    43: "the summary is by another rule",
    44: "the summary does not end with the last chunk, or there is none",
    45: "within 512 pairs of sets the rules do not differ, and there are more",
    46: "the saved judge is cut, altered or of another version",
}


class Refused(Exception):
    """A call was refused; the judge is as it was. Of reading: the file is no rule, the pattern none."""

    def __init__(self, number: int) -> None:
        super().__init__(number)
        self.number = number

    def __str__(self) -> str:
        return f"refused {self.number}: {_REASONS.get(self.number, 'for another reason')}"


class Malformed(ValueError):
    """A recorded list has a line that is no call; line is its number, counted from 1."""

    def __init__(self, line: int) -> None:
        super().__init__(line)
        self.line = line

    def __str__(self) -> str:
        return f"line {self.line} is malformed"
