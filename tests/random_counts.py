#!/usr/bin/env python3
"""What `test_random` must print, counted: the texts of crate random_texts (tests/random_texts.py), the calls that crates
random_calls, random_joins and test_random make of them, and the answers of tests/reference.py, which shares no code with crates/.

Run without arguments it prints the line, which is the file crates/test_random/stdout; it takes some minutes. With a number it counts
so many cases of the 4,000. What the operations leave in slices is not counted here: the program compares it with the enumerator.
"""
import sys
from collections import Counter

import reference
import random_texts
from random_texts import LARGEST_TEXT, Pen, damaged, in_ticks, length_out_of_range, part, pick, shape_of, tick_length

CASES, SEED, LEFT_CHANGES, RIGHT_CHANGES = 4000, 2026, 4, 24
LEFT, RIGHT, OTHERS, DAMAGES, LONGS, PERIODS, VIEWPOINTS, LEFT_COUNTS, RIGHT_COUNTS, NAMES = range(1, 11)
# the most states and pairs of states, and the lengths of what is lent (crates enumerator and random_calls)
STATES, PAIRS, KEEP_BYTES, TABLE_BYTES, RUN_ENTRIES = 512, 16384, 80, 2304, 16
KEEP, BACK, LINE, RUN, TABLE, FLIPS, HEADERS, LESS, MORE = range(1, 10)
OTHER_LENGTH, OTHER_HEADER, ONE_FLIP, MANY_FLIPS, KINDS, MANY = 1, 2, 3, 4, 5, 400


class Tally(Counter):
    def call(self, answer):
        """Counts a call by its code, 0 for success; a refusal has four numbers."""
        self[answer[0] if isinstance(answer, tuple) and len(answer) == 4 else 0] += 1


def is_one_of(seed, what, n):
    return pick(seed, what, 0, 0, n) == 0


def is_damaged(g):
    return is_one_of(g.gap, DAMAGES, 16)


def written(g):
    pen = Pen(g)
    return pen, damaged(pen.text, g.gap) if is_damaged(g) else pen.text


def read(period, text):
    try:
        return reference.read(period, text)
    except reference.Refused as r:
        return r.answer


def states(period, text):
    """The number by which lengths are chosen: at a tick length out of range that at length 1; 0 for a text that is refused."""
    r = read(period if 1 <= period <= 60000 else 1, text)
    return 0 if isinstance(r, tuple) else r.count


def length(seed, what, need, most):
    kind = pick(seed, what, 0, 0, 16)
    if kind == 0:
        n = (need - 1) % 2 ** 64
    elif kind == 1:
        n = pick(seed, what, LESS, 0, need)
    else:
        n = need if kind < 8 else need + pick(seed, what, MORE, 0, 6)
    return min(n, most)


class Lengths:
    def __init__(self, left, right, seed):
        pairs = left * right
        self.table_needed = len(reference.header(right, left)) + left * ((right + 7) // 8)
        self.keep = length(seed, KEEP, (left + 7) // 8, KEEP_BYTES)
        self.back, self.line = length(seed, BACK, pairs, PAIRS), length(seed, LINE, pairs, PAIRS)
        self.run = pick(seed, RUN, 0, 0, RUN_ENTRIES)
        self.table = length(seed, TABLE, self.table_needed, TABLE_BYTES)


def count_pairs(period, left, right, tally):
    """Two texts with a safe left start that both have parallel edges, or late clocks."""
    try:
        two = reference.both(period, left, right)
    except reference.Refused:
        return
    if two.left.start in two.safe:
        tally["parallel pairs"] += int(two.left.has_parallel() and two.right.has_parallel())
        tally["late pairs"] += int(two.left.has_late_clock() and two.right.has_late_clock())


def search_case(period, left, right, z, tally):
    answer, _, _ = reference.search(period, left, right, bytes(z.keep), z.back, z.line, [0] * z.run)
    tally.call(answer)
    if not isinstance(answer, tuple):
        tally["departures" if answer else "none"] += 1


def widest_case(period, left, right, z, tally):
    answer, _, _ = reference.widest(period, left, right, bytes(z.keep), bytes(z.table))
    tally.call(answer)
    if len(answer) == 2:
        tally["start pairs"] += answer[1]


def check_cases(period, left, right, n, m, seed, tally):
    """The widest table, then tables like it; pairs that are flipped stay so."""
    try:
        two = reference.both(period, left, right)
    except reference.Refused as r:
        for _ in range(KINDS):
            tally.call(r.answer)
        return
    pairs = set(reference.largest(two))
    for kind in range(KINDS):
        own = part(seed, kind)
        z = Lengths(n, m, own)
        for k in range({ONE_FLIP: 1, MANY_FLIPS: MANY}.get(kind, 0)):
            pairs ^= {divmod(pick(own, FLIPS, k, 0, n * m), m)}
        if kind == MANY_FLIPS:
            pairs.add((two.left.start, two.right.start))
        table = bytearray(reference.header(m, n) + reference.raster(pairs, m, n))
        if kind == OTHER_HEADER:
            i = pick(own, HEADERS, 0, 0, 7)
            table[i] = (table[i] + 1) % 256
        if kind == OTHER_LENGTH:
            table = (table + bytes(TABLE_BYTES))[:z.table]
        tally.call(reference.check(period, left, right, bytes(z.keep), bytes(table))[0])


def lent_cases(period, left, right, seed, tally):
    n, m = states(period, left), states(period, right)
    if n > STATES:
        tally["left out"] += 1
        return
    tally.call(reference.safe_states(period, left, bytes(length(seed, KEEP, (n + 7) // 8, KEEP_BYTES)))[0])
    if m > STATES or n * m > PAIRS:
        tally["left out"] += 1
        return
    z = Lengths(n, m, seed)
    count_pairs(period, left, right, tally)
    search_case(period, left, right, z, tally)
    widest_case(period, left, right, z, tally)
    check_cases(period, left, right, n, m, seed, tally)


def join_cases(period, left, right, tally):
    """A slice with room for every text; where that is written to, one of its length and one that is a byte shorter."""
    answer, _ = reference.join(period, left, right, bytes(LARGEST_TEXT))
    tally.call(answer)
    if len(answer) == 1:
        tally["joined"] += 1
        two = reference.both(period, left, right)
        tally["parallel joined"] += int(two.joins_parallel())
        tally["late joined"] += int(reference.has_late_clock(reference.Joined(two).edges))
        for n in (answer[0], answer[0] - 1):
            tally.call(reference.join(period, left, right, bytes(n))[0])


def all_cases(period, left, right, seed, tally):
    for text in (left, right):
        answer = reference.implementation(period, text)
        tally.call(answer)
        tally["implementations"] += int(answer == ())
    lent_cases(period, left, right, seed, tally)
    join_cases(period, left, right, tally)


def long_cases(period, text, seed, tally):
    if not is_one_of(seed, LONGS, 128):
        return
    for tick in (period, length_out_of_range(seed)):
        for pair in ((text, bytes(LARGEST_TEXT + 1)), (bytes(LARGEST_TEXT + 1), text)):
            all_cases(tick, *pair, seed, tally)


def read_cases(period, g, pen, text, tally):
    answer = read(period, text)
    tally.call(answer if isinstance(answer, tuple) else ())
    if not isinstance(answer, tuple):
        tally["parallel"] += int(answer.has_parallel())
        tally["late"] += int(answer.has_late_clock())
        tally["overridden"] += int(any(max(values) > values[-1] for edge in answer.edges for values in edge[4].values()))
    if not is_damaged(g) and g.period != 1 and pen.code == 0 and Pen(in_ticks(g)).code == 0:
        tally["rounded"] += 1


def viewpoint(period, size, own, counts):
    g = shape_of(period, size, own, own, LEFT_CHANGES)
    return random_texts.viewpoint(g, part(size, counts), is_one_of(size, NAMES, 3))


def viewpoint_cases(period, size, tally):
    _, left = written(viewpoint(period, size, part(size, LEFT), LEFT_COUNTS))
    _, right = written(viewpoint(period, size, part(size, RIGHT), RIGHT_COUNTS))
    join_cases(period, left, right, tally)


def one_case(i, tally):
    seed = part(SEED, i)
    other = part(seed, OTHERS) if is_one_of(seed, OTHERS, 3) else seed
    period = tick_length(part(seed, PERIODS))
    g = shape_of(period, seed, seed, part(seed, LEFT), LEFT_CHANGES)
    h = shape_of(period, seed, other, part(seed, RIGHT), RIGHT_CHANGES)
    (p, left), (q, right) = written(g), written(h)
    read_cases(period, g, p, left, tally)
    read_cases(period, h, q, right, tally)
    all_cases(period, left, right, seed, tally)
    long_cases(period, left, seed, tally)
    viewpoint_cases(period, part(seed, VIEWPOINTS), tally)


def line(tally):
    names = ("departures", "none", "start pairs", "implementations", "rounded", "joined", "parallel", "parallel pairs", "parallel joined",
             "late", "late pairs", "late joined", "overridden", "left out")
    counts = [f"{name} {tally[name]}" for name in names]
    codes = " ".join(f"{code}:{tally[code]}" for code in range(1, 27))
    return ", ".join(["differences 0", *counts, f"accepted {tally[0]}", f"refused {codes}"])


if __name__ == "__main__":
    total = Tally()
    for case in range(int(sys.argv[1]) if sys.argv[1:] else CASES):
        one_case(case, total)
    print(line(total))
