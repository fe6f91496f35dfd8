#!/usr/bin/env python3
"""Writes the small sample files: samples/NAME.roll with its listing samples/NAME.out.

The listings are written out here, so that they test every program that lists.
Run it from anywhere: it writes into samples/ of the repository.
"""

import os
import struct

AMOUNT_LIMIT = 100_000_000_000
END_LIMIT = 20_000_000_000_000


def four(amounts):
    """Four amounts of eight bytes; those that are not given are zero."""
    row = list(amounts) + [0] * (4 - len(amounts))
    return b"".join(struct.pack(">q", a) for a in row)


def heading(d):
    return bytes([1, d])


def entry(number, *amounts):
    return b"\x02" + struct.pack(">I", number) + four(amounts)


def strike(number):
    return b"\x03" + struct.pack(">I", number)


def question(size, low, high):
    return bytes([4, size]) + four(low) + four(high)


HEAD = heading(2)
FOUR = HEAD + entry(11, 4, 10) + entry(12, 7, 3) + entry(13, 5, 8) + entry(14, 9, 1)
ASKED = question(2, (12, 9), (14, 11))
FOUND = "Q 1 2\nS 11 14\nS 12 13\nS 13 14\nF\n"


def column(amounts):
    """A roll of one column with these amounts, numbers from 1."""
    return heading(1) + b"".join(entry(n + 1, a) for n, a in enumerate(amounts))


# A search that finishes with its last step, and one that lacks a single step.
LAST_STEP = column(
    [872, 228, 561, 904, 696, 49, 661, 434, 57, 703, 218, 514, 635]
    + [348, 109, 923, 480, 260, 787, 523, 280, 849, 433, 106, 402, 360]
) + question(7, (5198,), (5198,))
ONE_STEP_SHORT = column(
    [839, 166, 626, 999, 693, 622, 321, 688, 217, 644, 478, 517, 171]
    + [667, 591, 44, 158, 80, 228, 582, 264, 477, 619, 15, 972, 261]
) + question(7, (1227,), (1227,))


SAMPLES = {
    # a small roll of two columns: 216 bytes
    "sample": (FOUR + ASKED, FOUND),
    # no question, no line
    "no-question": (FOUR, ""),
    # the order of the file is not that of the places, and a number comes back after a strike
    "strike-between": (
        HEAD + entry(14, 9, 1) + entry(12, 7, 3) + entry(11, 4, 10) + entry(13, 5, 8) + ASKED
        + strike(12) + ASKED
        + entry(12, 9, 1) + ASKED,
        FOUND
        + "Q 2 2\nS 11 14\nS 13 14\nF\n"
        + "Q 3 2\nS 11 12\nS 11 14\nS 12 13\nS 13 14\nF\n",
    ),
    "negative": (
        heading(1) + entry(0, -3) + entry(7, 0) + entry(4294967295, 3) + entry(9, -6)
        + question(2, (0,), (0,)) + question(3, (-3,), (-3,)) + question(1, (-100,), (-4,)),
        "Q 1 2\nS 0 4294967295\nF\nQ 2 3\nS 7 9 4294967295\nF\nQ 3 1\nS 9\nF\n",
    ),
    # equal totals of places come in place order
    "place-order": (
        heading(1) + b"".join(entry(n, 0) for n in (1, 2, 3, 4)) + question(2, (0,), (0,)),
        "Q 1 2\nS 1 2\nS 1 3\nS 1 4\nS 2 3\nS 2 4\nS 3 4\nF\n",
    ),
    # amounts and ends as large as they may be, in four columns
    "edges": (
        heading(4)
        + entry(1, AMOUNT_LIMIT, -AMOUNT_LIMIT, AMOUNT_LIMIT, -AMOUNT_LIMIT)
        + entry(2, -AMOUNT_LIMIT, AMOUNT_LIMIT, AMOUNT_LIMIT, -AMOUNT_LIMIT)
        + question(1, (-END_LIMIT,) * 4, (END_LIMIT,) * 4)
        + question(2, (0, 0, 2 * AMOUNT_LIMIT, -END_LIMIT), (0, 0, END_LIMIT, -2 * AMOUNT_LIMIT))
        + question(2, (1, 0, 0, -END_LIMIT), (END_LIMIT,) * 4),
        "Q 1 1\nS 1\nS 2\nF\nQ 2 2\nS 1 2\nF\nQ 3 2\nF\n",
    ),
    # all 100,000 steps of a question are used, and it has finished
    "last-step": (
        LAST_STEP,
        "Q 1 7\nS 1 4 7 10 14 16 19\nS 1 2 4 13 16 19 22\nS 1 4 10 12 16 22 23\n"
        "S 4 7 10 13 16 20 22\nF\n",
    ),
    # 100,001 would be needed
    "one-step-short": (
        ONE_STEP_SHORT,
        "Q 1 7\nS 2 7 9 13 16 18 19\nS 2 9 16 18 19 22 24\nP\n",
    ),
    # each refusal that a file can meet; an earlier question is not listed
    "refusal-1": (FOUR + ASKED + entry(15, AMOUNT_LIMIT + 1, 0), "R 1 216\n"),
    "refusal-2": (FOUR + entry(12, 1, 1), "R 2 150\n"),
    "refusal-3": (column(range(1, 122)), "R 3 4442\n"),
    "refusal-5": (FOUR + strike(15), "R 5 150\n"),
    "refusal-6": (FOUR + question(5, (0, 0), (1, 1)), "R 6 150\n"),
    "refusal-7": (FOUR + question(2, (12, 11), (14, 9)), "R 7 150\n"),
    "refusal-8": (column(range(1, 121)) + question(15, (0,), (0,)), "R 8 4442\n"),
    "refusal-10": (heading(5), "R 10 0\n"),
    "refusal-11": (HEAD + entry(11, 4, 10, 1), "R 11 2\n"),
    "refusal-12": (FOUR + b"\x05", "R 12 150\n"),
    "refusal-13": ((FOUR + ASKED)[:-1], "R 13 150\n"),
    "refusal-13-empty": (b"", "R 13 0\n"),
    "refusal-14": (FOUR + HEAD, "R 14 150\n"),
    "refusal-15": (HEAD + bytes(65_535), "R 15 0\n"),
}


def main():
    folder = os.path.join(os.path.dirname(os.path.abspath(__file__)), "..", "samples")
    os.makedirs(folder, exist_ok=True)
    for name, (roll, out) in SAMPLES.items():
        with open(os.path.join(folder, name + ".roll"), "wb") as file:
            file.write(roll)
        with open(os.path.join(folder, name + ".out"), "w", encoding="ascii") as file:
            file.write(out)


if __name__ == "__main__":
    main()
