#!/usr/bin/env python3
"""Writes random roll files of many kinds, to compare programs that list them.

    random_files.py FOLDER SEED COUNT [KIND ...]

writes COUNT files named KIND-NUMBER.roll into FOLDER, the same ones for the same
arguments, and besides every cut of one small file. With kinds named, only these are
written, in equal shares and without the cuts.
"""

import math
import os
import random
import struct
import sys

MOST = 120
TABLE = 1_600
FILE = 65_536
OUTPUT = 65_536
AMOUNT_LIMIT = 100_000_000_000
END_LIMIT = 20_000_000_000_000
LAST_NUMBER = 4_294_967_295


# ---- records ---------------------------------------------------------------


def four(amounts):
    """Four amounts of eight bytes; those that are not given are zero."""
    row = list(amounts) + [0] * (4 - len(amounts))
    return b"".join(struct.pack(">q", a) for a in row)


def heading(d):
    return bytes([1, d])


def entry(number, amounts):
    return b"\x02" + struct.pack(">I", number) + four(amounts)


def strike(number):
    return b"\x03" + struct.pack(">I", number)


def question(size, low, high):
    return bytes([4, size]) + four(low) + four(high)


# ---- a roll being written --------------------------------------------------


class Roll:
    """The records so far and the entries that stand, so that what follows fits them."""

    def __init__(self, r, d=None):
        self.r = r
        self.d = d or r.randint(1, 4)
        self.records = [heading(self.d)]
        self.standing = {}
        self.amount = amount_style(r)

    def row(self):
        return [self.amount() for _ in range(self.d)]

    def new_number(self):
        while True:
            number = self.r.choice(
                [
                    self.r.randint(0, 300),
                    self.r.randint(0, LAST_NUMBER),
                    self.r.choice([0, 1, 255, 256, 65535, 65536, LAST_NUMBER - 1, LAST_NUMBER]),
                ]
            )
            if number not in self.standing:
                return number

    def enter(self, number=None, row=None):
        number = self.new_number() if number is None else number
        row = self.row() if row is None else row
        self.standing[number] = row
        self.records.append(entry(number, row))

    def enter_many(self, count):
        for _ in range(count):
            self.enter()

    def strike(self, number=None):
        if number is None:
            number = self.r.choice(sorted(self.standing))
        del self.standing[number]
        self.records.append(strike(number))

    def change(self, turns):
        """Strikes and enterings, some of a number that was just struck."""
        for _ in range(turns):
            if len(self.standing) > 1 and self.r.random() < 0.5:
                gone = self.r.choice(sorted(self.standing))
                self.strike(gone)
                if self.r.random() < 0.4:
                    self.enter(gone)
            elif len(self.standing) < MOST:
                self.enter()

    def ask(self, size, low, high):
        self.records.append(question(size, low, high))

    def ask_near(self, size, width):
        """A band around the total of some set that stands."""
        picked = self.r.sample(sorted(self.standing), size)
        low, high = [], []
        for c in range(self.d):
            total = sum(self.standing[number][c] for number in picked)
            low.append(end(total - self.r.randint(0, width)))
            high.append(end(total + self.r.randint(0, width)))
        self.ask(size, low, high)

    def ask_any(self, size):
        """A band of some sort."""
        r = self.r
        low, high = [], []
        for _ in range(self.d):
            ends = [
                r.choice(
                    [
                        r.randint(-50, 100),
                        r.randint(-END_LIMIT, END_LIMIT),
                        r.choice([-1, 1]) * (END_LIMIT - r.randint(0, 2)),
                        size * self.amount(),
                    ]
                )
                for _ in range(2)
            ]
            ends = [end(e) for e in ends]
            low.append(min(ends))
            high.append(max(ends))
        self.ask(size, low, high)

    def ask_some(self, cap):
        """A question whose sets, of whatever band, are at most `cap`, if its size can be had."""
        n = len(self.standing)
        sizes = [m for m in range(1, n + 1) if math.comb(n, m) <= cap and fits(n, m)]
        if not sizes:
            return
        size = self.r.choice(sizes)
        if self.r.random() < 0.7:
            self.ask_near(size, self.r.choice([0, 0, 1, 3, 50, 10**6, 10**11]))
        else:
            self.ask_any(size)

    def bytes(self):
        return b"".join(self.records)


def end(value):
    """The end of a band that comes nearest."""
    return max(-END_LIMIT, min(END_LIMIT, value))


def fits(n, m):
    """Whether the table has room."""
    return m * (2 * n - m + 1) // 2 + 2 <= TABLE


def amount_style(r):
    """A way to draw amounts."""
    same = r.randint(-1000, 1000)
    styles = [
        lambda: r.randint(0, 9),
        lambda: r.randint(-20, 20),
        lambda: r.randint(-3, 0),
        lambda: r.randint(1, 1_000_000),
        lambda: r.randint(-AMOUNT_LIMIT, AMOUNT_LIMIT),
        lambda: r.choice([-1, 1]) * (AMOUNT_LIMIT - r.randint(0, 1)),
        lambda: r.choice([-AMOUNT_LIMIT, AMOUNT_LIMIT, 0, 1, -1]),
        lambda: same,
    ]
    return r.choice(styles)


# ---- valid files -----------------------------------------------------------


def small(r):
    """Few entries, questions in between."""
    roll = Roll(r)
    roll.enter_many(r.randint(1, 9))
    for _ in range(r.randint(0, 4)):
        roll.ask_some(200)
        roll.change(r.randint(0, 4))
    return roll.bytes()


def middle(r):
    """Up to 40 entries, questions in between."""
    roll = Roll(r)
    roll.enter_many(r.randint(10, 40))
    for _ in range(r.randint(1, 3)):
        roll.ask_some(5_000)
        roll.change(r.randint(0, 10))
    return roll.bytes()


def large(r):
    """Up to 120 entries, questions of few or of nearly all places."""
    roll = Roll(r)
    roll.enter_many(r.randint(41, MOST))
    for _ in range(r.randint(1, 2)):
        roll.ask_some(5_000)
        roll.change(r.randint(0, 10))
    return roll.bytes()


def edges(r):
    """Amounts and ends at the edges of their ranges."""
    roll = Roll(r)
    roll.amount = lambda: r.choice([-1, 1]) * (AMOUNT_LIMIT - r.choice([0, 0, 1]))
    roll.enter_many(r.randint(100, MOST) if r.random() < 0.2 else r.randint(1, 10))
    sizes = [m for m in (1, 2, 13, 14) if m <= len(roll.standing)]
    size = r.choice(sizes)
    for _ in range(2):
        low = [r.choice([-END_LIMIT, 1 - END_LIMIT, 0]) for _ in range(roll.d)]
        high = [r.choice([END_LIMIT, END_LIMIT - 1, 0]) for _ in range(roll.d)]
        if size <= 2 and r.random() < 0.5:
            roll.ask(size, low, high)
        else:
            roll.ask(size, high if r.random() < 0.5 else [END_LIMIT] * roll.d, [END_LIMIT] * roll.d)
    return roll.bytes()


def empty_band(r):
    """Bands that no set can reach: even amounts, odd totals."""
    roll = Roll(r)
    draw = roll.amount
    roll.amount = lambda: draw() // 2 * 2 if abs(draw()) < AMOUNT_LIMIT else 0
    roll.enter_many(r.randint(5, 16))
    for _ in range(2):
        size = r.randint(1, 4)
        low = [r.randint(-20, 60) * 2 + 1 for _ in range(roll.d)]
        roll.ask(size, low, low)
    return roll.bytes()


def spent(r):
    """Narrow bands in a wide field, so that the steps run out."""
    roll = Roll(r)
    top = r.choice([10**4, 10**6, 10**9, AMOUNT_LIMIT])
    roll.amount = lambda: r.randint(1, top) * r.choice([1, 1, 1, -1])
    n = r.randint(40, MOST)
    roll.enter_many(n)
    roll.ask_near(r.choice([m for m in range(3, 15) if fits(n, m)]), r.choice([0, 10, top // 1000]))
    return roll.bytes()


def steps_edge(r):
    """About as many steps as there are for a question."""
    roll = Roll(r)
    n = r.randint(20, 26)
    roll.amount = lambda: r.randint(1, 1000)
    roll.enter_many(n)
    roll.ask_near(r.randint(5, 8), r.randint(0, 3))
    return roll.bytes()


def many_sets(r):
    """Wide bands, so that the listing is long or passes the output."""
    roll = Roll(r)
    n = r.randint(10, 60)
    roll.amount = lambda: r.randint(0, 100)
    roll.enter_many(n)
    sizes = [m for m in range(1, n + 1) if 500 <= math.comb(n, m) <= 50_000 and fits(n, m)]
    size = r.choice(sizes or [1])
    if r.random() < 0.5:
        roll.ask(size, [0] * roll.d, [END_LIMIT] * roll.d)
    else:
        roll.ask_near(size, 100)
    return roll.bytes()


def full_roll(r):
    """A roll that holds its most, with a strike for each further entering."""
    roll = Roll(r)
    roll.enter_many(MOST)
    for _ in range(r.randint(0, 5)):
        roll.strike()
        roll.enter()
    if r.random() < 0.5:
        roll.ask_some(200)
    return roll.bytes()


def table_edge(r):
    """Questions whose tables are just small enough, or just too large."""
    sizes = [
        (n, m)
        for n in range(50, MOST + 1)
        for m in range(1, n + 1)
        if TABLE - 8 <= m * (2 * n - m + 1) // 2 + 2 <= TABLE + 8
    ]
    n, m = r.choice(sizes)
    roll = Roll(r)
    roll.amount = lambda: r.randint(-1000, 1000)
    roll.enter_many(n)
    roll.ask(m, [END_LIMIT] * roll.d, [END_LIMIT] * roll.d)
    return roll.bytes()


def exact_file(r):
    """A file of just 65,536 bytes, or of a few less or more."""
    length = FILE - r.choice([0, 0, 0, 0, 0, 1, 42])
    roll = Roll(r)
    roll.enter_many(r.randint(2, 20))
    roll.ask_some(100)
    # the rest in questions (66 bytes), pairs of strike and entry (42) and entries (37);
    # the few last bytes may be cut off
    rest = length - len(roll.bytes())
    entries = next((k for k in range(42) if (rest - 37 * k) % 42 == 0), 0)
    entries = entries if len(roll.standing) + entries <= MOST else 0
    roll.enter_many(entries)
    while len(roll.bytes()) + 42 <= length:
        for _ in range(min(100, (length - len(roll.bytes())) // 42)):
            roll.strike()
            roll.enter()
    data = roll.bytes()
    more = r.choice([0, 0, 0, 1, 1, 37])
    return data + bytes(length - len(data) + more)


def exact_output(r):
    """A listing of just as many bytes as the output has, or of a few less or more."""
    roll = Roll(r, 1)
    numbers = sorted({r.randint(10 ** (k - 1), 10**k - 1) for k in range(1, 10) for _ in range(2)})
    numbers = r.sample(numbers, r.randint(14, len(numbers)))
    for amount, number in enumerate(numbers):
        roll.enter(number, [amount + 1])
    n = len(numbers)
    digits = sum(len(str(number)) for number in numbers)
    target = OUTPUT + r.choice([0, 0, 0, 1, 1, -1, 2, r.randint(-200, 200)])
    asked = 0
    while True:
        # all sets of some size, as long as there is room for the lines
        ordinal = len(str(asked + 1))
        fitting = []
        for m in range(2, n):
            lines = math.comb(n, m) * (2 + m) + math.comb(n - 1, m - 1) * digits
            length = lines + 6 + ordinal + len(str(m))
            if length <= target - 60:
                fitting.append((length, m))
        if not fitting:
            break
        length, m = max(fitting)
        roll.ask(m, [0], [END_LIMIT])
        target -= length
        asked += 1
    while target > 0:
        # one place or none; a line more for a place, as long as its number
        asked += 1
        base = 7 + len(str(asked))
        choices = {base: 0}
        for amount, number in enumerate(numbers):
            choices[base + 3 + len(str(number))] = amount + 1
        good = [length for length in choices if length == target or length + 20 <= target]
        length = r.choice(good) if good else min(choices)
        amount = choices[length]
        roll.ask(1, [amount], [amount])
        target -= length
    return roll.bytes()


VALID = [
    (small, 300),
    (middle, 150),
    (large, 60),
    (edges, 40),
    (empty_band, 80),
    (spent, 40),
    (steps_edge, 40),
    (many_sets, 60),
    (full_roll, 40),
    (table_edge, 40),
    (exact_file, 30),
    (exact_output, 60),
]


# ---- files with faults -----------------------------------------------------


def started(r):
    """A roll with some records, to which a fault can be added."""
    roll = Roll(r)
    roll.enter_many(r.choice([1, 2, 5, 9]))
    for _ in range(r.randint(0, 2)):
        roll.ask_some(50)
        roll.change(r.randint(0, 3))
    return roll


def ended(r, roll, fault):
    """The file with the fault, and often more records behind it."""
    data = roll.bytes() + fault
    if r.random() < 0.4:
        data += b"".join(started(r).records[r.randint(0, 1) :])
    return data


def entry_faults(r):
    """An entry with none, one or more faults; sometimes on a full roll."""
    roll = started(r)
    if r.random() < 0.4:
        roll.enter_many(MOST - len(roll.standing))
    number, row = roll.new_number(), roll.row()
    row += [0] * (4 - len(row))
    if r.random() < 0.4:
        row[r.randrange(roll.d)] = r.choice([-1, 1]) * (AMOUNT_LIMIT + r.choice([0, 1, 10**12]))
    if r.random() < 0.4:
        number = r.choice(sorted(roll.standing))
    if roll.d < 4 and r.random() < 0.4:
        row[r.randrange(roll.d, 4)] = r.choice([1, -1, AMOUNT_LIMIT + 1, -(2**63), 2**63 - 1])
    return ended(r, roll, entry(number, row))


def question_faults(r):
    """A question with none, one or more faults; sometimes on a large roll."""
    roll = started(r)
    if r.random() < 0.3:
        roll.enter_many(MOST - len(roll.standing))
    n = len(roll.standing)
    size = r.choice([1, 1, min(n, 2), n, n + 1, 0, 15, 255])
    low = [r.randint(END_LIMIT - 2, END_LIMIT) for _ in range(roll.d)]
    high = [END_LIMIT] * roll.d
    low += [0] * (4 - len(low))
    high += [0] * (4 - len(high))
    if r.random() < 0.3:
        c = r.randrange(roll.d)
        low[c], high[c] = high[c], low[c]
    if r.random() < 0.3:
        past = END_LIMIT + r.choice([1, 1, 10**15])
        c = r.randrange(roll.d)
        if r.random() < 0.5:
            high[c] = past
        else:
            low[c] = -past
    if roll.d < 4 and r.random() < 0.4:
        r.choice([low, high])[r.randrange(roll.d, 4)] = r.choice([1, -1, END_LIMIT + 1])
    return ended(r, roll, question(size, low, high))


def strike_faults(r):
    """A strike of a number that does not stand, or that was struck before."""
    roll = started(r)
    gone = roll.new_number()
    if r.random() < 0.5:
        gone = r.choice(sorted(roll.standing))
        roll.strike(gone)
    return ended(r, roll, strike(gone))


def record_faults(r):
    """Unknown kinds, headings where none may be, other beginnings than a heading."""
    roll = started(r)
    fault = r.choice(["kind", "heading", "no heading", "bare heading", "beginning"])
    if fault == "kind":
        return ended(r, roll, bytes([r.choice([0, 5, 6, 16, 255, r.randint(5, 255)])]))
    if fault == "heading":
        return ended(r, roll, heading(r.choice([1, roll.d, 0, 5])))
    if fault == "bare heading":
        return roll.bytes() + b"\x01"
    data = b"".join(roll.records[1:])
    if fault == "no heading":
        return data
    return data[: r.randint(0, 40)]


def columns(r):
    """Counts of columns that there are not, and those that there are."""
    d = r.choice([0, 5, 255, r.randint(0, 255), r.randint(1, 4)])
    return heading(d) + b"".join(started(r).records[1:])


def past_roll(r):
    """One entry too many, with questions before it."""
    roll = Roll(r)
    roll.enter_many(MOST)
    if r.random() < 0.5:
        roll.ask_some(200)
    return ended(r, roll, entry(roll.new_number(), roll.row()))


def cut(r):
    """A file without its last bytes."""
    data = started(r).bytes()
    return data[: r.randint(0, len(data))]


def flipped(r):
    """A file with one byte altered, or one bit."""
    data = bytearray(started(r).bytes())
    at = r.randrange(len(data))
    data[at] = r.randint(0, 255) if r.random() < 0.5 else data[at] ^ 1 << r.randint(0, 7)
    return bytes(data)


def shuffled(r):
    """Records in another order, some twice or left out."""
    records = started(r).records
    picked = [r.choice(records) for _ in records] if r.random() < 0.5 else records[1:]
    r.shuffle(picked)
    return b"".join(records[:1] + picked)


def noise(r):
    """Bytes at random, some behind a heading."""
    beginning = r.choice([b"", b"\x01\x02", b"\x01\x02\x04"])
    length = r.randint(0, 120)
    return beginning + bytes(r.choice([0, 1, 2, 3, 4, r.randint(0, 255)]) for _ in range(length))


FAULTY = [
    (entry_faults, 160),
    (question_faults, 200),
    (strike_faults, 60),
    (record_faults, 100),
    (columns, 60),
    (past_roll, 20),
    (cut, 100),
    (flipped, 160),
    (shuffled, 80),
    (noise, 80),
]


# ---- all kinds -------------------------------------------------------------


def every_cut():
    """A small file of each record, cut at every place."""
    rows = [(11, (4, 10)), (12, (7, 3)), (13, (5, 8)), (14, (9, 1))]
    data = heading(2) + b"".join(entry(number, row) for number, row in rows)
    data += question(2, (12, 9), (14, 11)) + strike(12) + question(1, (4, 9), (5, 9))
    return [data[:length] for length in range(len(data) + 1)]


def write(folder, kind, index, data):
    with open(os.path.join(folder, f"{kind}-{index:05}.roll"), "wb") as file:
        file.write(data)


def main():
    folder, seed, count = sys.argv[1], int(sys.argv[2]), int(sys.argv[3])
    named = sys.argv[4:]
    kinds = [(f, weight) for f, weight in VALID + FAULTY if not named or f.__name__ in named]
    if named:
        kinds = [(f, 1) for f, _ in kinds]
    weights = sum(weight for _, weight in kinds)
    os.makedirs(folder, exist_ok=True)
    for f, weight in kinds:
        for index in range(-(-count * weight // weights)):
            r = random.Random(f"{seed} {f.__name__} {index}")
            write(folder, f.__name__, index, f(r))
    if not named:
        for index, data in enumerate(every_cut()):
            write(folder, "every_cut", index, data)


if __name__ == "__main__":
    main()
