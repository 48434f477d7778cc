"""A judge written straight from the words of documents 01 and 02, sharing nothing with the Rattle code: a text is
accepted by following the automaton over the chunks joined, and the count is taken run by run. Whenever the verdict is yes
or no, the join of the end sets is made too, by document 01's words and R-7's, and has to say the same.
"""
import struct

from ruleprint_cases import Refused, delegates_of, number_sets, read, successor

IDLE = 255


def states(n, mask):
    return {q for q in range(n) if mask >> q & 1}


def without_marks(chunk):
    """The text of a chunk."""
    return bytes(b for b in chunk if b != IDLE)


def after(targets, members, text):
    """The set that a text leads to."""
    members = frozenset(members)
    for s in text:
        members = successor(targets, members, s)
    return members


class Judge:
    def __init__(self):
        self.rule = self.board = self.last = None

    def keep(self, n, k, initials, finals, targets):
        sets = number_sets(n, k, targets)
        self.rule = n, k, initials, finals, targets, delegates_of(n, k, finals, targets)
        self.board = self.last = None
        return f"accepted {len(sets)} {len(self.starts(1))}"

    def starts(self, p):
        """The states that a chunk is run from at place p. A state that leads nowhere has no delegate."""
        n, _, initials, _, _, delegates = self.rule
        return {delegates[q] for q in (initials if p == 0 else range(n))} - {None}

    def load(self, f):
        n, k, finals, targets = read(f)
        return self.keep(n, k, states(n, int.from_bytes(f[2:6], "little")), finals, targets)

    def install(self, value):
        n, k, initials, finals = struct.unpack_from("<BBII", value)
        masks = {divmod(i, 16): mask for i, mask in enumerate(struct.unpack_from("<512I", value, 10))}
        if not 1 <= n <= 32:
            raise Refused(3)
        if not 1 <= k <= 16:
            raise Refused(4)
        if max(initials, finals) >= 2 ** n:
            raise Refused(6)
        if any(mask >= 2 ** n or mask and (q >= n or s >= k) for (q, s), mask in masks.items()):
            raise Refused(8)
        return self.keep(n, k, states(n, initials), states(n, finals), {cell: states(n, mask) for cell, mask in masks.items()})

    def open(self, places):
        if self.rule is None:
            raise Refused(20)
        if not 1 <= places <= 64:
            raise Refused(10)
        self.board = [None] * places
        self.last = [None] * places
        return "accepted"

    def at(self, p):
        if self.board is None:
            raise Refused(21)
        if p >= len(self.board):
            raise Refused(11)

    def count(self, p, text):
        targets = self.rule[4]
        total = 0
        for d in self.starts(p):
            members = frozenset({d})
            for s in text:
                members = successor(targets, members, s)
                if not members:
                    break
                total += 1
        return total

    def looked(self, p, text):
        """The least number of bytes after which the sets of all runs are empty, else all."""
        targets = self.rule[4]
        sets = {frozenset({d}) for d in self.starts(p)}
        for i, s in enumerate(text):
            if not any(sets):
                return i
            sets = {successor(targets, members, s) for members in sets}
        return len(text)

    def joined(self, texts):
        """Whether C has a final state after all places. A member without delegate is passed over."""
        _, _, initials, finals, targets, delegates = self.rule
        c = set(initials)
        for p, text in enumerate(texts):
            ends = {d: after(targets, {d}, text) for d in self.starts(p)}
            c = {t for q in c if delegates[q] is not None for t in ends[delegates[q]]}
        return bool(c & finals)

    def deliver(self, p, revision, chunk):
        self.at(p)
        if len(chunk) > 65536:
            raise Refused(12)
        if any(b >= self.rule[1] and b != IDLE for b in chunk):
            raise Refused(13)
        if self.last[p] is not None and revision <= self.last[p]:
            raise Refused(22)
        self.board[p], self.last[p] = chunk, revision
        return f"accepted {self.looked(p, without_marks(chunk))}"

    def withdraw(self, p):
        self.at(p)
        if self.board[p] is None:
            raise Refused(23)
        self.board[p] = None
        return "accepted"

    def leads_on(self, members):
        """Whether a final state can be reached from one of the states."""
        _, k, _, finals, targets, _ = self.rule
        reached = frozenset(members)
        while True:
            further = reached.union(*(successor(targets, reached, s) for s in range(k)))
            if further == reached:
                return bool(reached & finals)
            reached = further

    def diagnose(self):
        """The first place after whose text nothing can follow; or how many are filled before the first empty one."""
        if self.board is None:
            raise Refused(21)
        members = self.rule[2]
        for p, chunk in enumerate(self.board):
            if chunk is None:
                return f"open {p}"
            members = after(self.rule[4], members, without_marks(chunk))
            if not self.leads_on(members):
                return f"lost {p}"
        return f"open {len(self.board)}"

    def locate(self, p, chunk):
        """After how many bytes of the chunk, marks counted, nothing can follow."""
        self.at(p)
        if len(chunk) > 65536:
            raise Refused(12)
        if any(b >= self.rule[1] and b != IDLE for b in chunk):
            raise Refused(13)
        if None in self.board[:p]:
            raise Refused(23)
        before = b"".join(without_marks(each) for each in self.board[:p])
        members, hopes = after(self.rule[4], self.rule[2], before), {}
        for i in range(len(chunk) + 1):
            if members not in hopes:
                hopes[members] = self.leads_on(members)
            if not hopes[members]:
                return f"after {i}"
            members = after(self.rule[4], members, without_marks(chunk[i:i + 1]))
        return "nowhere"

    def verdict(self):
        if self.board is None:
            raise Refused(21)
        empty = sum(chunk is None for chunk in self.board)
        if empty:
            return f"waiting {empty}"
        _, _, initials, finals, targets, _ = self.rule
        texts = [without_marks(chunk) for chunk in self.board]
        whole = b"".join(texts)
        accepted = bool(after(targets, initials, whole) & finals)
        if accepted != self.joined(texts):
            raise SystemExit(f"the join says otherwise than the automaton on {texts}")
        count = sum(self.count(p, text) for p, text in enumerate(texts))
        quotient, remainder = divmod(count, len(whole)) if whole else (0, 0)
        return f"{'yes' if accepted else 'no'} {count} {len(whole)} {quotient} {remainder}"
