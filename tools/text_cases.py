#!/usr/bin/env python3
"""Writes the cases of crates/text_runs/data: what `quote` must answer, worked out here anew from docs/FORMAT.md.

This reader shares nothing with the library: it is written in another language from the page alone, reads a text whole, and finds the
first build by trying all of them in option order. `python3 tools/text_cases.py crates/text_runs/data` writes

  cases.txt     one case a line, parted by tabs: budget, rules, picks, listing; `/` stands for LF
  replaced.txt  a good order (two lines: rules, picks), then the answers in turn, with how often each comes in a row: for each place
                of the rules and each byte 0 to 255 put there, the same for the picks, each prefix of the rules, each of the picks
"""
import itertools
import sys

LF = 10
MOST_STEPS = 2 ** 62


class Fault(Exception):
    def __init__(self, layer, number):
        self.layer, self.number = layer, number


def lines_of(text):
    """The lines with whether an LF ends each."""
    parts = text.split(b"\n")
    lines = [(p, True) for p in parts[:-1]]
    return lines + ([(parts[-1], False)] if parts[-1] else [])


def field(column):
    digits = column.lstrip(b" ")
    good = 1 <= len(digits) <= 6 and all(48 <= d <= 57 for d in digits) and (digits == b"0" or digits[0] != 48)
    if not good:
        raise Fault(1, 23)
    return int(digits)


def fields(bytes_, start, count):
    return [field(bytes_[start + 6 * i:start + 6 * i + 6]) for i in range(count)]


def whole(line, count):
    bytes_, closed = line
    if len(bytes_) != 1 + 6 * count or not closed:
        raise Fault(1, 22)
    return fields(bytes_, 1, count)


def listed(line, front, room):
    """The fields up to k, the check for room, then the whole line."""
    bytes_, closed = line
    if len(bytes_) < 1 + 6 * front:
        raise Fault(1, 22)
    head = fields(bytes_, 1, front)
    if not room(head[-1]):
        raise Fault(2, 12)
    if len(bytes_) != 1 + 6 * (front + head[-1]) or not closed:
        raise Fault(1, 22)
    return head, fields(bytes_, 1 + 6 * front, head[-1])


class Rules:
    def __init__(self):
        self.last = None
        self.rows, self.roots, self.clauses, self.groups = [], [], [], []

    def option(self, node):
        return self.size if node < 2 else self.rows[node - 2][0]

    def read(self, line):
        letter = line[0][:1].decode("latin1")
        order = "WSNDCK"
        if not letter or letter not in order:
            raise Fault(1, 21)
        place = order.index(letter)
        turn = {0: self.last is None, 1: self.last == 0}.get(place, self.last is not None and self.last <= place)
        if not turn:
            raise Fault(1, 21)
        getattr(self, "read_" + letter)(line)
        self.last = place

    def read_W(self, line):
        [w] = whole(line, 1)
        if not 1 <= w <= 128:
            raise Fault(2, 11)
        self.width, self.first, self.size = w, 0, w

    def read_S(self, line):
        first, size = whole(line, 2)
        if size == 0 or first + size > self.width:
            raise Fault(2, 25)
        self.first, self.size = first, size

    def read_N(self, line):
        option, low, high = whole(line, 3)
        if len(self.rows) >= 2048:
            raise Fault(2, 12)
        if option >= self.size:
            raise Fault(2, 15)
        node = len(self.rows) + 2
        if low >= node or high >= node:
            raise Fault(2, 13)
        if self.option(low) <= option or self.option(high) <= option:
            raise Fault(2, 14)
        self.rows.append((option, low, high))

    def read_D(self, line):
        [node] = whole(line, 1)
        if len(self.roots) >= 128:
            raise Fault(2, 12)
        if node >= len(self.rows) + 2:
            raise Fault(2, 16)
        self.roots.append(node)

    def read_C(self, line):
        _, literals = listed(line, 1, lambda k: len(self.clauses) < 512 and k <= 32)
        if any(x // 2 >= self.width for x in literals):
            raise Fault(2, 15)
        self.clauses.append(literals)

    def read_K(self, line):
        (lo, hi, k), options = listed(line, 3, lambda k: len(self.groups) < 64 and k <= 32)
        if any(o >= self.width for o in options):
            raise Fault(2, 15)
        if not lo <= hi <= k:
            raise Fault(2, 17)
        if len(set(options)) < k:
            raise Fault(2, 18)
        self.groups.append((lo, hi, options))

    def named(self):
        """The options that some rule names; in a first build the others are 0 where they are not picked."""
        return ({self.first + o for o, _, _ in self.rows} | {x // 2 for c in self.clauses for x in c}
                | {o for _, _, os in self.groups for o in os})

    def meets(self, build):
        def ends_at_one(node):
            while node >= 2:
                option, low, high = self.rows[node - 2]
                node = high if build[self.first + option] else low
            return node == 1
        return (all(ends_at_one(n) for n in self.roots)
                and all(any(build[x // 2] == x % 2 for x in c) for c in self.clauses)
                and all(lo <= sum(build[o] for o in os) <= hi for lo, hi, os in self.groups))


def read_pick(picks, width, line):
    if line[0][:1] != b"P":
        raise Fault(1, 21)
    option, value = whole(line, 2)
    if option >= width:
        raise Fault(3, 1)
    if value > 1:
        raise Fault(3, 2)
    if option in picks:
        raise Fault(3, 3)
    picks[option] = value


def fault_line(text, layer, line, number):
    return b"F%6d%6d%6d%6d\n" % (text, layer, line, number)


def quote(rules_text, picks_text, budget):
    """The listing, where no budget runs out."""
    if budget > MOST_STEPS:
        return fault_line(0, 3, 0, 5)
    if len(rules_text) > 49152:
        return fault_line(1, 1, 0, 24)
    if len(picks_text) > 4096:
        return fault_line(2, 1, 0, 24)
    rules, picks = Rules(), {}
    for text, bytes_, read in ((1, rules_text, rules.read), (2, picks_text, lambda l: read_pick(picks, rules.width, l))):
        lines = lines_of(bytes_)
        if text == 1 and not lines:
            return fault_line(1, 1, 1, 21)
        for at, line in enumerate(lines):
            try:
                read(line)
            except Fault as f:
                return fault_line(text, f.layer, at + 1, f.number)
    named = rules.named()
    choices = [(picks[o],) if o in picks else (0, 1) if o in named else (0,) for o in range(rules.width)]
    for build in itertools.product(*choices):
        if rules.meets(build):
            return b"".join(b"O%6d%6d\n" % (o, v) for o, v in enumerate(build))
    return b"Z\n"


def line(letter, *numbers):
    return letter.encode() + b"".join(b"%6d" % n for n in numbers) + b"\n"


def clause(*literals):
    return line("C", len(literals), *literals)


def group(lo, hi, *options):
    return line("K", lo, hi, len(options), *options)


W3 = line("W", 3)
TABLE = W3 + line("N", 2, 0, 1) + line("N", 2, 1, 0) + line("N", 1, 2, 3) + line("N", 0, 2, 4) + line("D", 5)
GOOD = (line("W", 4) + line("S", 1, 3) + line("N", 2, 0, 1) + line("N", 1, 2, 1) + line("D", 3) + clause(1, 6) + clause(3)
        + group(1, 2, 0, 2, 3))
GOOD_PICKS = line("P", 3, 0) + line("P", 0, 0)
BUDGET = 1000000


def cases():
    """Every cause at its first line and at its edge: budget, rules, picks."""
    def rules(*texts):
        for t in texts:
            yield BUDGET, t, b""

    def picks(*texts):
        for t in texts:
            yield BUDGET, W3, t

    yield from rules(W3, TABLE, GOOD)
    yield BUDGET, TABLE, line("P", 2, 0)
    yield BUDGET, TABLE, line("P", 2, 0) + line("P", 2, 1)
    yield BUDGET, GOOD, GOOD_PICKS
    # 5 and the greatest budget
    yield MOST_STEPS, TABLE, b""
    yield MOST_STEPS + 1, TABLE, b""
    yield 2 ** 64 - 1, b"", b"X"
    # 11: W 0, 1, 128, 129
    yield from rules(line("W", 0), line("W", 1) + clause(1), line("W", 129))
    # 21: no line, an empty line, an unknown letter, every kind out of turn
    yield from rules(b"", b"\n", W3 + b"\n", b"X     1\n", b"w     3\n", line("N", 0, 0, 1), line("S", 0, 1), W3 + W3)
    kinds = [line("W", 3), line("S", 0, 3), line("N", 2, 0, 1), line("D", 1), clause(1, 2), group(0, 1, 1)]
    for a, b in itertools.product(kinds, repeat=2):
        yield BUDGET, W3 + a + b, b""
        yield BUDGET, a + b, b""
    # 22: each kind one byte short, one byte long, without LF
    for k in kinds:
        head = b"" if k[:1] == b"W" else W3
        for cut in (k[:-2] + b"\n", k[:-1] + b" \n", k[:-1], k[:1] + b"\n", k[:7] + b"\n", k[:1]):
            yield BUDGET, head + cut, b""
    # 22 before 23, and 12 before the length behind k, and 12 after those fields
    yield from rules(W3 + b"D    0\n", W3 + b"C    1\n", W3 + b"C     2     x\n", W3 + b"C     1     x\n", W3 + b"C     1     x",
                     W3 + b"C    33\n", W3 + b"C    33     x\n", W3 + b"C    3x\n", W3 + b"K     0     x    33\n", W3 + b"K     0     1    33\n",
                     W3 + b"K     0     1    32\n", W3 + b"C999999\n", W3 + b"C    32" + b"     1" * 32 + b"\n")
    # 23: blanks, leading zeros, digits from the left, signs, letters, in each column
    for bad in (b"      ", b"    01", b"000000", b"1     ", b"    1 ", b"    -1", b"    +1", b"   1 1", b"    1x", b"     :", b"     ."):
        yield BUDGET, b"W" + bad + b"\n", b""
        yield BUDGET, W3 + b"N     0" + bad + b"     1\n", b""
        yield BUDGET, W3 + b"C     2     1" + bad + b"\n", b""
        yield BUDGET, W3 + b"K     0     1" + bad + b"\n", b""
        yield BUDGET, W3, b"P     0" + bad + b"\n"
    # 25: a block of no option, one that ends at W, one past it
    yield from rules(*(W3 + line("S", a, b) for a in range(5) for b in range(5)))
    yield from rules(W3 + line("S", 999999, 999999), W3 + line("S", 0, 1) + line("S", 0, 1))
    # 15, 13, 14 of rows, also within a block
    yield from rules(*(W3 + line("N", 1, 0, 1) + line("N", o, a, b) for o in range(4) for a in range(5) for b in range(5)))
    yield from rules(W3 + line("S", 1, 2) + line("N", 2, 0, 1), W3 + line("S", 1, 2) + line("N", 1, 0, 1) + line("D", 2))
    # 16 of roots
    yield from rules(*(W3 + line("N", 1, 0, 1) + line("D", n) for n in range(5)))
    # 15 of clauses and groups, 17, 18
    yield from rules(*(W3 + clause(x) for x in range(8)))
    yield from rules(*(W3 + group(lo, hi, *range(k)) for lo in range(4) for hi in range(4) for k in range(4)))
    yield from rules(W3 + group(0, 1, 3), W3 + group(2, 1, 3), W3 + group(2, 1, 1, 1), W3 + group(0, 1, 1, 1), W3 + group(0, 2, 1, 2, 1))
    # picks: 21, 22, 23, 1, 2, 3, and the rules' fault before theirs
    yield from picks(b"", b"\n", b"X     0     0\n", b"P     0\n", b"P     0     0", b"P     0     0     0\n", line("P", 2, 1), line("P", 3, 0),
                     line("P", 3, 2), line("P", 0, 2), line("P", 0, 1) + line("P", 0, 1), line("P", 0, 1) + line("P", 0, 2),
                     line("P", 0, 1) + line("P", 1, 1) + line("P", 2, 1), line("P", 0, 1) + b"\n" + line("P", 9, 1), b"p     0     0\n")
    yield BUDGET, W3 + b"X\n", b"X\n"
    yield BUDGET, TABLE + clause(1) + clause(4), line("P", 1, 0)
    yield BUDGET, W3 + clause(), b""


def in_rows(answers):
    for answer, run in itertools.groupby(answers):
        yield len(list(run)), answer


def shown(text):
    return text.decode("latin1").replace("\n", "/")


def main(folder):
    with open(folder + "/cases.txt", "w", encoding="latin1", newline="") as out:
        for budget, rules, picks in cases():
            out.write("%d\t%s\t%s\t%s\n" % (budget, shown(rules), shown(picks), shown(quote(rules, picks, budget))))
    answers = []
    for at in range(len(GOOD)):
        answers += [quote(GOOD[:at] + bytes([b]) + GOOD[at + 1:], GOOD_PICKS, BUDGET) for b in range(256)]
    for at in range(len(GOOD_PICKS)):
        answers += [quote(GOOD, GOOD_PICKS[:at] + bytes([b]) + GOOD_PICKS[at + 1:], BUDGET) for b in range(256)]
    answers += [quote(GOOD[:n], GOOD_PICKS, BUDGET) for n in range(len(GOOD) + 1)]
    answers += [quote(GOOD, GOOD_PICKS[:n], BUDGET) for n in range(len(GOOD_PICKS) + 1)]
    with open(folder + "/replaced.txt", "w", encoding="latin1", newline="") as out:
        out.write(shown(GOOD) + "\n" + shown(GOOD_PICKS) + "\n")
        for count, answer in in_rows(answers):
            out.write("%d\t%s\n" % (count, shown(answer)))
    return len(answers)


if __name__ == "__main__":
    print(main(sys.argv[1]))
