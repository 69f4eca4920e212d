#!/usr/bin/env python3
"""programs: run the built programs on pairs of files and compare the whole of what they print with tests/reference.py.

`megzhoi`, `widest` and `join` read left.xta and right.xta, `recheck` table.pbm too, and `implementation` left.xta
alone; each pair gets all five, `recheck` with the table that `widest` must have made, with damaged ones and with none.
The pairs are the examples, texts with one fault each, texts at each limit (SPECIFICATION 4.3), texts with strict signs,
files that are missing, too long or no files, texts with parallel edges (tests/parallel_edges.py) and with late clocks
(tests/late_clocks.py), and random texts (seeded). `join` also gets pairs whose joined text is at a limit or has names
that need underscores (tests/joins.py).
The programs read with tick length 1 (SPECIFICATION 14.1, 14.5, 14.7, 14.8).
`implementation` is also run with no file but left.xta, on texts with a known answer (tests/implementations.py).
Run it at the repository's root, with the programs in target/bin; the exit status is 0 when nothing differs.
"""
import os
import random
import subprocess
import sys
import tempfile
from collections import Counter

import implementations
import joins
import late_clocks
import parallel_edges
import reference as ref
from texts import (POST, POSTS, TICK, beat, clocked, counts, faults, is_small, late, long_edges, random_pair, rows, swapped, telling_pairs, wide)

LONG = ref.LIMITS["text"]
BUFFER = 65536  # what a program reads of a text at most


def names_of(length):
    """Post with every name as long."""
    text = POST
    for old in (b"pass", b"spike", b"late", b"Wait", b"Done", b"Post"):
        text = swapped(text, (old, old.ljust(length, b"_")))
    clock = b"x" * length
    return swapped(text, (b"clock x", b"clock " + clock), (b"x <= 3", clock + b" <= 3"), (b"x >= 3", clock + b" >= 3"))


def in_files():
    """Files that are missing (None), are folders (a name), empty, or at the limit of bytes."""
    numeral = swapped(POST, (b"<= 3", b"<= " + b"0" * (LONG - len(POST)) + b"3"))
    word = swapped(POST, (b"process Post", b"process " + b"P" * (LONG - len(POST) + 4)))
    assert len(numeral) == LONG == len(word)
    over = POST.ljust(LONG + 1)
    texts = [None, "folder", b"", b"\n", b"\0" * LONG, POST.ljust(LONG), over, POST.rjust(LONG), POST.rjust(LONG + 1), numeral, word,
             swapped(numeral, (b"<= 0", b"<= 00")), POST.ljust(BUFFER - 1), POST.ljust(BUFFER), POST.ljust(BUFFER + 1), POST.rjust(BUFFER + 1),
             POST.ljust(2 * BUFFER)]
    return [*((t, POST) for t in texts), *((POST, t) for t in texts), (None, None), (None, over), (over, None), (over, over)]


def at_limits():
    """Each limit of a text, just met and just passed, in the left text and in the right one."""
    def guarded(comparisons):
        return swapped(POST, (b"guard x >= 3", b"guard " + b" && ".join([b"x >= 3"] * comparisons)))
    four = swapped(rows(1, 0, 3), (b"y, z", b"y, z, w"))
    more = [names_of(31), names_of(32), wide(16), wide(17), rows(1, 0, 3), four, rows(32, 0, 0), rows(33, 0, 0), long_edges(128), long_edges(129),
            guarded(4), guarded(5), late(1000), late(1001), rows(4, 1000), rows(5, 1000), rows(16, 254), rows(17, 239), rows(1, 14, 3),
            rows(1, 15, 3), rows(32, 1000, 3)]
    return [pair for t in more for pair in ((t, t), (t, POST), (POST, t))]


def at_pairs():
    """Numbers of pairs around what the program has room for, 16,384 (SPECIFICATION 14.4)."""
    alone, full, five = rows(1, 0, 0), rows(16, 254), clocked((3, 3, 3), (1, 2))
    return [(full, rows(1, 2)), (rows(1, 2), full), (full, rows(1, 3)), (alone, full), (full, alone), (rows(1, 126), rows(1, 126)),
            (rows(1, 143), rows(1, 111)), (rows(1, 111), rows(1, 143)), (late(62), late(62)), (late(62, POSTS["Rearm"]), late(62)), (late(62), late(63)),
            (beat(126), beat(126)), (beat(127), beat(126)), (beat(125), beat(126)), (clocked((3, 3, 3), (1,)), five), (five, five),
            (clocked((2, 3, 4), (0, 2), 1), clocked((2, 3, 4), (0, 2)))]


def strict_pairs():
    """Post with strict signs at, below and above its bound, with 0 after them, beside `=`, in long numerals, and at the limits."""
    def post(invariant, guard=b"x > 2"):
        return swapped(POST, (b"x <= 3", invariant), (b"x >= 3", guard))

    def strict(bound):
        return post(b"x < %d" % (bound + 1), b"x > %d" % (bound - 1))
    invariants = [b"x < 5", b"x < 4", b"x < 3", b"x < 1", b"x < 01", b"x < 0", b"x < 00", b"x > 3", b"x < = 3", b"x << 3", b"x < 1000", b"x < 1001",
                  b"x < 4 && x < 0", b"x < 4 && x <= 3", b"x < 2 && x < 3 && x < 4 && x < 5 && x < 0"]
    guards = [b"x > 3", b"x > 1", b"x < 4", b"x < 0", b"x > 0", b"x > 2 && x < 4", b"x > = 3", b"x =< 3", b"x > 1000", b"x > 1001"]
    texts = [*(post(i) for i in invariants), *(post(b"x < 4", g) for g in guards)]
    zeros = [post(b"x < " + b"0" * (LONG - len(post(b"x < " + end))) + end) for end in (b"0", b"4")]
    assert all(len(t) == LONG for t in zeros)
    return [*(pair for t in texts + zeros for pair in ((t, POST), (POST, t), (t, POSTS["Strict"]))), (strict(61), late(62)), (late(62), strict(61)),
            (strict(61), late(61)), (late(61), strict(61)), (strict(62), late(62)), (strict(999), POST)]


def large_tables():
    """Tables beyond the room of `megzhoi`, for `widest` and `recheck`."""
    return [(late(148), late(148)), (rows(2, 200), rows(1, 400)), (clocked((5, 5, 5), (0,)), clocked((5, 5, 5), (0,)))]


def parallel_pairs():
    """Pairs with parallel edges on either side or on both, and texts whose edges lead to different states, on either side."""
    lead = [text for text, _ in parallel_edges.posts() + parallel_edges.orders_of_faults()]
    return [*(pair[:2] for pair in parallel_edges.pairs()), *(pair for text in lead for pair in ((text, POST), (POSTS["Twice"], text)))]


def late_pairs():
    """Pairs with late clocks on either side or on both; texts that the invariant, the limits or a fault refuses, on either side."""
    texts = [text for text, _ in late_clocks.posts() + late_clocks.entered() + late_clocks.limits() + late_clocks.faults()]
    return [*(pair[:2] for pair in late_clocks.pairs()), *(pair for text in texts for pair in ((text, POST), (late_clocks.WOKEN, text)))]


def random_pairs(count, seed):
    rng, pairs = random.Random(seed), []
    while len(pairs) < count:
        pair = random_pair(rng, damage=0.08)
        if is_small(*pair):
            pairs.append(pair)
    return pairs


def all_pairs():
    bad = faults()
    changes = [(b"late", b"tardy"), (b", late", b", late, more"), (b"pass, spike, late", b"late, spike, pass")]
    channels = [swapped(POST, change) for change in changes]
    return [("examples", [(l, r) for l in POSTS.values() for r in POSTS.values()]),
            ("faults", [pair for t in bad.values() for pair in ((t, POST), (POST, t), (t, bad[2]))]),
            ("channels", [pair for t in channels for pair in ((t, POST), (POST, t), (POSTS["Rearm"], t), (t, POSTS["Hush"]))]),
            ("files", in_files()), ("limits", at_limits()), ("pairs", at_pairs()), ("strict", strict_pairs()), ("tables", large_tables()),
            ("parallel", parallel_pairs()), ("late", late_pairs()),
            ("random", random_pairs(150, 7)), ("telling", telling_pairs(random.Random(8)))]


def tables_for(made, rng):
    """Tables to check: as made, damaged at random, one byte shorter and longer, missing."""
    if not made.startswith(b"P4"):
        return [None, b"P4\n1 1\n\0"]
    out, at = [made, made[:-1], made + b"\0"], made.index(b"\n", 3) + 1
    for _ in range(2):
        table = bytearray(made)
        table[rng.randrange(at, len(table))] ^= 128 >> rng.randrange(8)
        out.append(bytes(table))
    return out + [None]


def table_of_rows(locations, bound):
    """The widest table of `rows` against itself, in closed form: the first location cannot go on for ever, the others can."""
    states, first = locations * (bound + 2), bound + 2
    pairs = {(1, t) for t in range(first, states)}
    row = ref.raster(pairs, states, 2)[-((states + 7) // 8):]
    return ref.header(states, states) + bytes(first * len(row)) + (states - first) * row


class Runner:
    def __init__(self, folder, bin_folder):
        self.folder, self.bin, self.runs, self.differences = folder, bin_folder, 0, 0
        self.answers, self.alone = Counter(), Counter()  # of `megzhoi`; of `implementation`, by code
        self.joined = Counter()  # of `join`, by code

    def put(self, name, content):
        """The file, no file (None), or a folder of that name; what a program can read of it."""
        path = os.path.join(self.folder, name)
        if os.path.isdir(path):
            os.rmdir(path)
        if os.path.exists(path):
            os.remove(path)
        if isinstance(content, str):
            os.mkdir(path)
        elif content is not None:
            with open(path, "wb") as file:
                file.write(content)
        return content if isinstance(content, bytes) else b""

    def compare(self, program, expected, label):
        done = subprocess.run([os.path.join(self.bin, program)], cwd=self.folder, capture_output=True, timeout=120)
        self.runs += 1
        if done.stdout != expected or done.stderr or done.returncode:
            self.differences += 1
            print(f"{program}, {label}: printed {done.stdout[:80]!r} for {expected[:80]!r}, status {done.returncode}")

    def one(self, left, label):
        answer = ref.implementation_program(left)
        self.alone[" ".join(answer.decode().split()[:2])] += 1
        self.compare("implementation", answer, label)

    def join(self, left, right, label):
        answer = ref.join_program(left, right)
        self.joined[" ".join(answer.decode().split()[:2]) if answer.startswith(b"REFUSED") else "joined"] += 1
        self.compare("join", answer, label)

    def pair(self, left, right, label, rng):
        left, right = self.put("left.xta", left), self.put("right.xta", right)
        self.one(left, label)
        self.join(left, right, label)
        answer = ref.program(left, right)
        self.answers[answer.split()[0].decode()] += 1
        self.compare("megzhoi", answer, label)
        found = counts(left, right)
        if found and found[0] * found[1] > 100000:  # too slow to enumerate here
            return
        made = ref.widest_program(left, right)
        self.compare("widest", made, label)
        for i, table in enumerate(tables_for(made, rng)):
            table = self.put("table.pbm", table)
            self.compare("recheck", ref.recheck_program(left, right, table), f"{label}, table {i}")


def largest_table(runner):
    """The largest table that two texts can have, 4,096 by 4,096 states; the closed form is held against the enumeration first."""
    for small in ((2, 3), (3, 6), (4, 1)):
        assert table_of_rows(*small) == ref.widest_program(rows(*small), rows(*small))
    text, table, pairs = rows(16, 254), table_of_rows(16, 254), (15 * 256) ** 2
    runner.put("left.xta", text)
    runner.put("right.xta", text)
    runner.compare("widest", table, "largest table")
    for given, expected in ((table, b"ACCEPTED %d\n" % pairs), (table[:-1], b"REFUSED 16 0 0 0\n"), (table + b"\0", b"REFUSED 16 0 0 0\n")):
        runner.put("table.pbm", given)
        runner.compare("recheck", expected, "largest table")


def known_answers(runner):
    """Texts with a known answer, in a folder that has nothing but left.xta."""
    for name in ("right.xta", "table.pbm"):
        runner.put(name, None)
    for i, (text, answer) in enumerate(implementations.known() + parallel_edges.implementations() + late_clocks.implementations()):
        assert ref.implementation(TICK, text) == answer
        runner.one(runner.put("left.xta", text), f"known {i}")


def pairs_to_join(runner):
    """Pairs with known answers, in a folder that has no table."""
    found = joins.underscored() + joins.at_limits() + joins.together()
    found += parallel_edges.read_again() + parallel_edges.at_limits() + parallel_edges.together()
    found += [case[1:] for case in late_clocks.written() + late_clocks.read_again() + late_clocks.refused()]  # all of them at length 1
    found += late_clocks.at_limits() + late_clocks.together()
    pairs = [pair[:2] for pair in found]
    for i, (left, right) in enumerate(pairs):
        runner.join(runner.put("left.xta", left), runner.put("right.xta", right), f"to join {i}")


def main():
    rng, total = random.Random(11), 0
    with tempfile.TemporaryDirectory() as folder:
        runner = Runner(folder, os.path.abspath("target/bin"))
        for kind, pairs in all_pairs():
            total += len(pairs)
            for i, (left, right) in enumerate(pairs):
                runner.pair(left, right, f"{kind} {i}", rng)
        largest_table(runner)
        known_answers(runner)
        pairs_to_join(runner)
    counted = (runner.answers, runner.alone, runner.joined)
    kinds, alone, joined = (", ".join(f"{n} {kind}" for kind, n in sorted(found.items())) for found in counted)
    print(f"left files alone: {alone}")
    print(f"pairs to join: {joined}")
    print(f"{total} pairs of files ({kinds}), {runner.runs} runs of the programs, {runner.differences} differences")
    return 1 if runner.differences else 0


if __name__ == "__main__":
    sys.exit(main())
