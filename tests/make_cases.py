#!/usr/bin/env python3
"""make_cases: write the data and the expected output of the test programs from tests/reference.py.

crates/test_reader has its texts in stdin, written by hand; only its expected output is written here.
crates/test_clocks and crates/test_implementation get texts on stdin, each after its tick length and a `#`, with a `#` between two cases.
crates/test_joining gets pairs on stdin: tick length, length of the slice and the two texts, with a `#` after each.
crates/test_operations gets data/cases, records of a letter, six numbers of three bytes and a word of eight, low first, and bytes:
- T, the two texts that the calls after it are about: length of the left, its length with spaces after it, the same for the
  right, and twice 0; then the left's bytes and the right's;
- a call: R reading and S safe states (of the left), D search, C check, W widest table; lengths of keep, of the table to write,
  of back, line and run, and of the given table; its word is the tick length; then the given table's bytes.
Everything that is lent begins as a fixed pattern, so that what an operation leaves alone is seen in the output. A slice with more
than 64 items is shown as its length and a sum (`summed`).
"""
import random
from collections import Counter
from pathlib import Path

import implementations
import joins
import late_clocks
import parallel_edges
import reference as ref
import tick_lengths
from texts import (KINDS, OUT_OF_RANGE, POST, POSTS, SHEET, TICK, beat, bounded, clocked, counts, damaged, faults, guarded, in_milliseconds, late,
                   random_length, random_text, rows, swapped, telling_pairs)

CRATES = Path(__file__).parent.parent / "crates"
KEEP, ENTRY = 0xA5, 77  # what lent bytes and entries begin as
WHOLE = 64  # so many items are shown whole
MOST = dict(keep=520, room=16384, back=131072, line=131072, run=512, data=524288)  # the room that test_operations has
BUFFER = 262144  # the bytes of stdin that test_reader, test_clocks and test_implementation read
JOINING = dict(data=524288, slice=40000, entries=131072, run=512)  # the room that test_joining has
LONG = ref.LIMITS["text"]
# the posts of SPECIFICATION 16.2 to 16.6
PAIRED = {name: text for name, text in POSTS.items() if name not in ("Loose", "Spare", "Sheet", "Joined", "Twice", "Woken")}


def summed(items):
    total = 0
    for item in items:
        total = (total * 257 + item + 1) % 1000000007
    return f"{len(items)}:{total}"


def shown(items, whole):
    return "-" if not items else whole(items) if len(items) <= WHOLE else summed(items)


def shown_bytes(items):
    return shown(items, bytes.hex)


def shown_entries(items):
    return shown(items, lambda s: ",".join(map(str, s)))


class Cases:
    def __init__(self):
        self.data, self.lines, self.given, self.codes = b"", [], None, set()

    def texts(self, left, right=b"", left_full=0, right_full=0, tick_length=TICK):
        """The texts of the next calls, with spaces after them up to a full length, and their tick length."""
        self.tick_length = tick_length
        fulls = max(left_full, len(left)), max(right_full, len(right))
        if self.given != (left, right, fulls):
            self.record("T", (len(left), fulls[0], len(right), fulls[1], 0, 0), left + right)
        self.given = (left, right, fulls)
        self.left, self.right = left.ljust(fulls[0]), right.ljust(fulls[1])

    def record(self, letter, numbers, rest, word=0):
        self.data += letter.encode() + b"".join(n.to_bytes(3, "little") for n in numbers) + word.to_bytes(8, "little") + rest

    def call(self, letter, keep=8, room=0, back=0, line=0, run=0, table=b""):
        """One call; the answer, and the table that was made."""
        lengths = dict(keep=keep, room=room, back=back, line=line, run=run)
        assert all(0 <= n <= MOST[name] for name, n in lengths.items()), lengths
        self.record(letter, (*lengths.values(), len(table)), table, self.tick_length)
        kept, made, steps = bytes([KEEP]) * keep, bytes([KEEP]) * room, [ENTRY] * run
        tick, left, right = self.tick_length, self.left, self.right
        if letter == "R":
            try:
                answer = (ref.read(tick, left).count,)
            except ref.Refused as r:
                answer = r.answer
        elif letter == "S":
            answer, kept = ref.safe_states(tick, left, kept)
        elif letter == "D":
            answer, kept, steps = ref.search(tick, left, right, kept, back, line, steps)
            answer = answer if isinstance(answer, tuple) else (answer,)
        elif letter == "C":
            answer, kept = ref.check(tick, left, right, kept, table)
        else:
            answer, kept, made = ref.widest(tick, left, right, kept, made)
        self.show(letter, answer, kept, made, steps)
        return answer, made

    def show(self, letter, answer, kept, made, steps):
        refused = len(answer) == 4
        parts = [letter, "refused" if refused else "done", *map(str, answer)]
        parts += ["keep", shown_bytes(kept)] if letter != "R" else []
        parts += ["table", shown_bytes(made)] if letter == "W" else []
        parts += ["run", shown_entries(steps)] if letter == "D" else []
        if letter == "D" and refused and answer[0] != 21:  # back and line are as they came
            parts += ["kept", "kept"]
        self.lines.append(" ".join(parts))
        if refused:
            self.codes.add((letter, answer[0], answer[1]))

    def write(self):
        folder = CRATES / "test_operations"
        assert len(self.data) <= MOST["data"]
        (folder / "data" / "cases").write_bytes(self.data)
        (folder / "stdout").write_text("\n".join(self.lines) + "\n")
        print("test_operations", len(self.lines), "cases,", len(self.data), "bytes;",
              *(f"{k}: {n}" for k, n in sorted(Counter(" ".join(l.split()[:2]) for l in self.lines).items())))


def size(left_states, right_states):
    """The bytes of a table."""
    return len(ref.header(right_states, left_states)) + left_states * ((right_states + 7) // 8)


def every_code():
    """(operation, code, file) for each that can come."""
    texts = [(c, f) for c in range(1, 13) for f in (1, 2)]
    one = [(c, 1) for c in range(1, 12)]
    codes = {"R": one, "S": one + [(13, 0)], "D": texts + [(13, 0), (15, 0), (17, 1), (21, 0)],
             "C": texts + [(13, 0), (16, 0), (17, 1), (18, 0), (19, 0), (20, 0)], "W": texts + [(13, 0), (14, 0), (17, 1)]}
    return {(o, c, f) for o, found in codes.items() for c, f in found + [(24, 0)]}


def two_texts(cases, left, right, run=12, tick_length=TICK):
    """The calls over two texts with slices just long enough: search, widest table, and the check of that table."""
    cases.texts(left, right, tick_length=tick_length)
    h, w = counts(left, right, tick_length) or (8, 8)
    cases.call("D", keep=(h + 7) // 8, back=h * w, line=h * w, run=run)
    answer, made = cases.call("W", keep=(h + 7) // 8, room=size(h, w))
    if answer[1:] != (0,):  # else the check ends at the start pair
        cases.call("C", keep=(h + 7) // 8, table=made)


def examples(cases):
    """Every example that is held against others, against every other."""
    for left in PAIRED.values():
        cases.texts(left)
        cases.call("R")
        cases.call("S")
        for right in PAIRED.values():
            two_texts(cases, left, right)


def refusals_of_texts(cases):
    """Codes 1 to 12, in the left and in the right text, for each operation that can give them."""
    def all_calls(left, right, *full, one=True):
        cases.texts(left, right, *full)
        for letter in "RSDCW" if one else "DCW":
            cases.call(letter, keep=2, room=29, back=100, line=100, run=3)
    for bad in faults().values():
        all_calls(bad, POST)
        all_calls(POST, bad, one=False)
    for n in (LONG, LONG + 1, 65536):  # code 1 at the limit, and beyond
        all_calls(POST, POST, n, 0)
        all_calls(POST, POST, 0, n, one=False)
    more, less = swapped(POST, (b", late", b", late, extra")), POSTS["Hush"].replace(b", late", b"")
    turned = swapped(POST, (b"late!", b"late?"), (b"guard x >= 3; ", b""), (b"}, Done;", b"}, Done;")).replace(
        b"Done -> Done { sync spike?; };", b"Done -> Done { sync spike?; }, Done -> Done { sync late?; };")
    other = swapped(POST, (b"late", b"tardy"))
    for left, right in ((POST, other), (more, POST), (POST, more), (less, POST), (POST, less), (POST, turned), (turned, POSTS["Idle"])):
        all_calls(left, right, one=False)


def orders(cases):
    """Two reasons at once: which one is judged first (SPECIFICATION 13.3)."""
    bad = faults()
    both = [(bad[2], bad[2]), (bad[11], bad[2]), (bad[11], bad[10]), (bad[9], bad[3]), (bad[10], swapped(POST, (b"late", b"tardy")))]
    for left, right in both:
        cases.texts(left, right)
        for letter in "DCW":
            cases.call(letter, keep=0)
    for left, right, full in ((b"", b"", (0, LONG + 1)), (bad[2], POST, (LONG + 1, LONG + 1)), (bad[11], bad[2], (0, LONG + 1))):
        cases.texts(left, right, *full)
        for letter in "DCW":
            cases.call(letter, keep=0)
    hush = POSTS["Hush"]
    cases.texts(hush, POST)
    diagonal = ref.header(10, 10) + ref.raster({(s, s) for s in range(10)}, 10, 10)
    for keep, back, line, run in ((1, 99, 99, 0), (2, 99, 100, 0), (2, 100, 99, 0), (2, 100, 100, 0), (2, 101, 100, 5)):
        cases.call("D", keep=keep, back=back, line=line, run=run)
    for keep, room in ((1, 28), (2, 28), (2, 29), (3, 30)):
        cases.call("W", keep=keep, room=room)
    for keep, table in ((1, diagonal[:-1]), (2, diagonal[:-1]), (2, diagonal), (2, diagonal[:-20] + bytes(20)), (3, diagonal)):
        cases.call("C", keep=keep, table=table)
    cases.texts(POST, swapped(POST, (b"late", b"tardy")))  # 12 before 13
    for letter in "DCW":
        cases.call(letter, keep=0)


def lengths(cases):
    """Each slice one short, just long enough and one longer, for tables and keeps of several forms."""
    three = clocked((1, 1, 1), (1, 2))
    pairs = [(POSTS["Rearm"], POST), (three, clocked((1, 1, 1), (1,))), (rows(9, 0, 0), rows(8, 0, 0))]
    for left, right in pairs:
        cases.texts(left, right)
        h, w = counts(left, right)
        keep, entries, bytes_made = (h + 7) // 8, h * w, size(h, w)
        n = cases.call("D", keep=keep, back=entries, line=entries, run=12)[0][0]
        for k in {keep - 1, keep + 1, 0}:
            cases.call("S", keep=k)
            cases.call("D", keep=k, back=entries, line=entries, run=12)
            cases.call("W", keep=k, room=bytes_made)
        cases.call("S", keep=keep)
        for back, line in ((entries - 1, entries), (entries, entries - 1), (entries - 1, entries - 1), (entries + 1, entries + 3), (0, 0)):
            cases.call("D", keep=keep, back=back, line=line, run=12)
        for run in {max(n - 1, 0), n, n + 1, 0}:
            cases.call("D", keep=keep, back=entries, line=entries, run=run)
        for room in (bytes_made - 1, bytes_made + 1, 0):
            cases.call("W", keep=keep, room=room)
        made = cases.call("W", keep=keep, room=bytes_made)[1]
        for k, table in ((keep - 1, made), (keep, made), (keep + 1, made), (keep, made[:-1]), (keep, made + b"\0"), (keep, b"")):
            cases.call("C", keep=k, table=table)


def tables(cases):
    """Given tables with one fault each: headers, the start pair, pairs that may not stand, pairs that break a rule at each kind of step."""
    head, safe = ref.header(10, 10), sorted(ref.Text(TICK, POST).safe())
    same = {(s, s) for s in safe}

    def raster(pairs):
        return head + ref.raster(pairs, 10, 10)
    diagonal = raster(same)
    rest = diagonal[len(head):]
    noise = bytes(b | 0x3F if i >= len(head) and (i - len(head)) % 2 else b for i, b in enumerate(diagonal))
    heads = [b"P4\n010 10\n", b"P4\n10 010\n", b"P4 10 10\n", b"P1\n10 10\n", b"P4\n10 10 ", b"P4\n10  10\n", b"P4\n10 10\r\n",
             b"P4\n#\n10 10\n", b"P4\n9 10\n", b"P4\n10 9\n", b"P4\n11 10\n", b"P4\n+10 10\n", b"P4\n0 0\n", b"p4\n10 10\n"]
    more = [{(4, 4)}, {(5, 4)}, {(4, 5)}, {(1, 0)}, {(0, 1)}, {(9, 9), (9, 0)}, {(s, t) for s in range(10) for t in range(10)}]
    less = [{(0, 0)}, {(3, 3)}, {(5, 5)}, {(9, 9)}]
    given = [diagonal, noise, raster({(0, 0)}), raster(set()), *(raster(same | pairs) for pairs in more), *(raster(same - pairs) for pairs in less)]
    cases.texts(POST, POST)
    for table in given + [h + rest for h in heads] + [diagonal[:3], head, diagonal[:-1] + b"\x3f"]:
        cases.call("C", keep=3, table=table)
    # the right lists its channels in another order: 20 goes by the left's numbers
    cases.texts(POST, swapped(POST, (b"pass, spike, late", b"late, spike, pass")))
    for table in given[:8]:
        cases.call("C", keep=2, table=table)


def random_pairs(cases, seed):
    """Random texts of each kind, with lengths around what is needed, and made, damaged and random tables; each third pair in milliseconds."""
    rng = random.Random(seed)
    for i, (left, right) in enumerate(telling_pairs(rng)):
        tick = TICK if i % 3 else random_length(rng)
        left, right = in_milliseconds(rng, left, tick), in_milliseconds(rng, right, tick)
        cases.texts(left, right, tick_length=tick)
        h, w = counts(left, right, tick) or (1, 1)
        keep, front = (h + 7) // 8, len(ref.header(w, h))
        cases.call("D", keep=keep, back=h * w, line=h * w + rng.choice((0, 2)), run=rng.choice((2, 9, 9, 9)))
        answer, made = cases.call("W", keep=keep + rng.choice((0, 1)), room=size(h, w) + rng.choice((0, 0, 3)))
        if len(answer) == 2 and (answer[1] or rng.random() < 0.2):  # else the check ends at the start pair
            table = bytearray(made[:size(h, w)])
            for _ in range(rng.choice((0, 0, 1, 2))):
                table[rng.randrange(front, len(table))] ^= 128 >> rng.randrange(8)
            cases.call("C", keep=keep, table=bytes(table))
        if len(answer) == 2 and rng.random() < 0.2:
            cases.call("C", keep=keep, table=ref.header(w, h) + bytes(rng.randrange(256) for _ in range(size(h, w) - front)))


def many_states(cases):
    """Texts about as large as the limit between small and large slices (256 states), on one side or on both."""
    rearm = POSTS["Rearm"]
    pairs = [(late(126), late(126)), (late(127), late(126)), (late(126), late(127)), (late(148, rearm), late(148)), (late(148), late(148)),
             (POST, late(148)), (late(148), POST), (beat(254), beat(255)), (beat(255), beat(254)), (beat(255, False), beat(255)),
             (clocked((15, 15), (0,)), clocked((15, 15), (1,))), (clocked((5, 4, 5), ()), clocked((5, 4, 5), (), 1)),
             (rows(32, 8), rows(2, 3))]
    for i, (left, right) in enumerate(pairs):
        two_texts(cases, left, right, run=200)
        if i % 4:
            continue
        cases.call("S", keep=60)
        h, w = counts(left, right)
        cases.call("D", keep=(h + 7) // 8, back=h * w - 1, line=h * w, run=3)
        cases.call("D", keep=(h + 7) // 8, back=h * w, line=h * w, run=1)
        cases.call("W", keep=(h + 7) // 8 + 1, room=size(h, w) - 1)
        cases.call("W", keep=(h + 7) // 8 - 1, room=size(h, w))


def strict_pairs(cases):
    """Departures that a strict sign makes, each with its run: `late!` a tick too early or too late; a bound that says the same."""
    def strict(above, below):
        return swapped(POSTS["Strict"], (b"x > 2", b"x > %d" % above), (b"x < 4", b"x < %d" % below))
    beats = swapped(beat(2), (b"x <= 2", b"x < 3"), (b"x >= 2", b"x > 1"))
    for left, right, run in ((strict(1, 4), POST, [0, 0, 3]), (strict(2, 4), strict(3, 5), [0, 0, 0, 3]), (strict(3, 5), POST, [0] * 4),
                             (strict(2, 3), POST, None), (strict(0, 2), strict(0, 4), []), (strict(0, 4), strict(0, 2), [0, 0]),
                             (beats, beat(2), []), (beat(2), beats, []), (beats, beat(2, False), [0, 0, 1, 0]), (beat(1), beats, [0, 1])):
        two_texts(cases, left, right)
        departs(TICK, left, right, run)


def departs(tick_length, left, right, run):
    """The departure is this one; without one given, the left has no implementation."""
    found = ref.search(tick_length, left, right, bytes(64), 10000, 10000, [])[0]
    assert (17, 1, 0, 0) == found if run is None else ref.departure(ref.both(tick_length, left, right)) == run, (tick_length, found, run)


def scaled_pairs(cases):
    """SPECIFICATION 16.9 and what follows from it: Sheet at several tick lengths, and departures that rounding makes, each with its run."""
    for tick in tick_lengths.OF_SHEET:
        two_texts(cases, SHEET, SHEET, tick_length=tick)
        for letter in "RS":
            cases.call(letter)
    for tick, left, right, run in tick_lengths.pairs():
        two_texts(cases, left, right, tick_length=tick)
        departs(tick, left, right, run)
    for tick, good, bad in tick_lengths.faults_by_ticks():
        for left, right in ((bad, POST), (good, bad), (good, POST)):
            cases.texts(left, right, tick_length=tick)
            for letter in "RD":
                cases.call(letter, keep=0)


def lengths_out_of_range(cases):
    """24 before every other code, with every slice as it came."""
    other = swapped(POST, (b"late", b"tardy"))
    for tick in OUT_OF_RANGE:
        for left, right, *full in ((POST, POST), (faults()[2], POST, 0, LONG + 1), (SHEET, SHEET, LONG + 1, 0), (POST, other)):
            cases.texts(left, right, *full, tick_length=tick)
            for letter in "RSDCW":
                cases.call(letter, keep=2, room=29, back=100, line=100, run=5)
        cases.texts(POSTS["Hush"], POST, tick_length=tick)
        for letter in "SDCW":
            cases.call(letter, keep=0)
            cases.call(letter, keep=70, room=70, back=70, line=70, run=70, table=b"P4\n")


def parallel_pairs(cases):
    """SPECIFICATION 16.10: Twice has the answers of Post, on either side. Then pairs with parallel edges, each with its run."""
    twice = POSTS["Twice"]
    for other in PAIRED.values():
        for post, again in (((POST, other), (twice, other)), ((other, POST), (other, twice))):
            before = len(cases.lines)
            two_texts(cases, *again)
            assert cases.lines[before:] == plain_lines(*post)
    cases.texts(twice, twice)
    for letter in "RS":
        cases.call(letter)
    for pairs in ({(s, s) for s in ref.read(TICK, twice).safe()}, {(0, 0)}):
        cases.call("C", keep=2, table=ref.header(10, 10) + ref.raster(pairs, 10, 10))
    for left, right, run in parallel_edges.pairs():
        two_texts(cases, left, right)
        departs(TICK, left, right, run)
    for i, (left, right) in enumerate(telling_pairs(random.Random(17), wanted=dict.fromkeys(KINDS, 1))):
        plain = plain_lines(left, right)
        if not plain[0].startswith("D done"):
            continue
        before = len(cases.lines)
        two_texts(cases, parallel_edges.repeated(left, (2, 1, 3)[i % 3]), parallel_edges.repeated(right, (1, 2, 2)[i % 3]))
        assert cases.lines[before:] == plain  # it means the same
    for text, line in parallel_edges.posts():  # 11 in either text
        if line.startswith(" refused 11"):
            cases.texts(text, POST)
            cases.call("D", keep=2, back=100, line=100, run=3)
            cases.texts(twice, text)
            cases.call("W", keep=2, room=29)


def late_pairs(cases):
    """SPECIFICATION 16.11: Woken against every post, on either side. Then pairs with late clocks, each with its run, and what is refused."""
    woken, overridden = late_clocks.WOKEN, late_clocks.woken("assign x = 7, x = 1;")
    for other in [*PAIRED.values(), POSTS["Twice"], woken]:
        two_texts(cases, woken, other)
        two_texts(cases, other, woken)
    for text in (woken, overridden):
        cases.texts(text, text)
        for letter in "RS":
            cases.call(letter)
        t = ref.read(TICK, text)
        for pairs in ({(s, s) for s in t.safe()}, {(0, 0)}, {(s, s) for s in t.safe()} - {(1, 1)}):
            cases.call("C", keep=3, table=ref.header(t.count, t.count) + ref.raster(pairs, t.count, t.count))
    for tick, left, right, run in [*((TICK, *case) for case in late_clocks.pairs()), *late_clocks.pairs_at_tick_lengths()]:
        two_texts(cases, left, right, tick_length=tick)
        departs(tick, left, right, run)
    for text, line in late_clocks.posts():
        if line.startswith(" refused"):
            cases.texts(text, POST)
            cases.call("D", keep=2, back=100, line=100, run=3)
            cases.texts(woken, text)
            cases.call("W", keep=2, room=29)


def plain_lines(left, right):
    """The lines of the calls over two texts."""
    cases = Cases()
    two_texts(cases, left, right)
    return cases.lines


def reading_line(tick_length, text):
    """What test_clocks prints: reading, then the safe states with one byte of keep, and with 512, of which it shows seven."""
    def words(answer, done):
        return f" refused {' '.join(map(str, answer))}" if len(answer) == 4 else done(*answer)

    def safe(keep):
        answer, kept = ref.safe_states(tick_length, text, bytes([170]) * keep)
        found = words(answer, lambda count, start: f" safe {count} {'yes' if start else 'no'}")
        return f"{found} keep{''.join(f' {b}' for b in kept[:7])}"
    try:
        read = f" states {ref.read(tick_length, text).count}"
    except ref.Refused as r:
        read = words(r.answer, None)
    return f"{read} |{safe(1)} |{safe(512)}"


def known_readings():
    """What SPECIFICATION 16.7 says of some texts, with the line's beginning."""
    bad, over = faults(), rows(1, 1001)
    return [(b"", " refused 2 1 0 0 |"), (rows(1, 1000), " states 1002 |"), (over, f" refused 6 1 {over.index(b'1001')} 0 |"),
            (rows(4, 1000), " states 4008 |"), (rows(5, 1000), " refused 9 1 5010 0 |"),
            (bad[10], " refused 10 1 5 2 |"), (bad[11], " refused 11 1 0 1 |"),
            *((text, f" refused 2 1 {text.index(b'{ x') + at} 0 |") for text, at in (
                (bounded(b"x < 0"), 6), (bounded(b"x < 00"), 6), (bounded(b"x > 3"), 4), (bounded(b"x < = 3"), 6))),
            (bounded(b"x < 1"), " states 10 |")]


def strict_guards():
    """Guards of an input, whose edges all lead to one state: every value of x is to be met, once or more (SPECIFICATION 6.2, 7.1, 7.2); M is
    by constants as written (SPECIFICATION 6.4). tests/parallel_edges.py has guards that share values and lead to different states."""
    accepted = [(["x < 3", "x >= 3"], 5), (["x <= 3", "x > 3"], 5), (["x < 3", "x > 2"], 5), (["x < 3", "x == 3", "x > 3"], 5),
                (["x < 4", "x > 3"], 6), (["x < 1", "x > 0"], 3), (["x < 1", "x >= 1 && x < 3", "x > 2"], 5), (["x < 0", ""], 2)]
    shared = [(["x <= 3", "x > 2"], 5), (["x < 4", "x >= 3"], 6), (["x < 4", "x > 2"], 6), (["x < 3", "x >= 3", "x > 3"], 5)]
    wholly = [(["x < 1", ""], 3), (["x > 0", ""], 2)]
    refused = [(["x < 3"], 10, 3), (["x <= 3"], 10, 4), (["x > 3"], 10, 0), (["x > 0"], 10, 0), (["x < 0"], 10, 0), (["x < 3", "x > 3"], 10, 3),
               (["x == 3", "x > 3"], 10, 0)]
    unmet = [(["x < 3", "x <= 3"], 10, 4)]
    sizes = [("x < 5", 7), ("x > 5", 7), ("x < 0", 2), ("x > 0", 2), ("x < 1000", 1002), ("x > 1000", 1002), ("x <= 4 && x < 5", 7), ("x > 4 && x >= 5", 7)]

    def states(found, mark="?"):
        return [(guarded(g, mark), f" states {n} |") for g, n in found]

    def none(found):
        return [(guarded(g), f" refused {c} 1 {state} 1 |") for g, c, state in found]
    return [*states(accepted), *none(refused), *states(shared), *none(unmet), *states(wholly), *states((([g], n) for g, n in sizes), "!")]


def strict_readings():
    """Each sign at, below and above its constant, by the safe states of a location without ticks; strict invariants."""
    urgent = "broadcast chan a; process P() {{ clock x, y; state A {{ y <= 0 }}, B; init A; trans A -> B {{ guard x {} 3; sync a!; }}; }} system P;"
    met = {"<": "11100", "<=": "11110", "==": "00010", ">=": "00011", ">": "00001"}  # for x from 0 to M + 1
    by_sign = [(urgent.format(sign).encode(), f" states 20 | refused 13 0 3 0 keep 170 | safe {10 + bits.count('1')} "
                f"{'yes' if bits[0] == '1' else 'no'} keep {int(bits + '000', 2)} 63 240 170") for sign, bits in met.items()]
    entered = (b"broadcast chan a, b; process P() { clock x; state A, B { x < 2 }; init A; "
               b"trans A -> B { sync a?; assign x = 0; }, B -> B { sync a?; }, B -> A { guard x > 0; sync b!; }; } system P;")
    stopped = "broadcast chan a; process P() {{ clock x; state A {{ x < 4 }}, B; init A; trans A -> B {{ guard x > {}; sync a!; }}; }} system P;"
    return [*by_sign, (entered, " states 8 | safe 6 yes keep 252 |"), (swapped(entered, (b" assign x = 0;", b"")), " refused 10 1 2 1 |"),
            (stopped.format(2).encode(), " states 12 | refused 13 0 2 0 keep 170 | safe 10 yes keep 243 240"),
            (stopped.format(3).encode(), " states 12 | refused 13 0 2 0 keep 170 | safe 6 no keep 3 240"),
            (bounded(b"x < 4"), " states 12 | refused 13 0 2 0 keep 170 | safe 10 yes keep 243 240"), *strict_guards()]


def boundary_readings():
    """State counts at the limit, with up to three clocks; clocks that nothing is compared with; constants of edges never taken."""
    sizes = [(16, 254, 1), (17, 239, 1), (32, 126, 1), (32, 127, 1), (16, 14, 2), (2, 62, 2), (1, 14, 3), (1, 15, 3), (8, 6, 3),
             (32, 1000, 3), (32, 0, 0), (1, 0, 0)]
    never = b"broadcast chan a; process P() { clock x; state A { x <= 1 }, B; init A; trans B -> B { guard x == 3; sync a!; }; } system P;"
    unread = b"process P() { clock x, y, z; state A; init A; } system P;"
    cut = (b"broadcast chan a; process P() { clock x, y, z; state A { y <= 1 && z <= 2 }, B { x <= 0 }; init A; "
           b"trans A -> B { sync a?; assign x = 0; }, A -> A { sync a?; }, B -> A { sync a?; assign y = 0, z = 0; }; } system P;")
    three = [((1, 1, 1), (0,), 0), ((2, 1, 1), (1, 2), 1), ((1, 2, 3), (), 0), ((3, 1, 2), (0, 1, 2), 2)]
    once = swapped(cut, (b"A -> A { sync a?; }, ", b""))
    return [*(rows(*s) for s in sizes), never, unread, cut, once, *(clocked(*t) for t in three)]


def random_reading(rng):
    """A text of up to three clocks, now and then damaged."""
    channels = [(f"c{i}", rng.choice("??!!!-")) for i in range(rng.choice((1, 2, 2, 3)))]
    clocks = ["x", "y", "z"][:rng.choice((0, 1, 1, 2, 3, 3))]
    text = random_text(rng, channels, clocks, rng.choice((1, 2)))
    return damaged(rng, text).replace(b"#", b"@") if rng.random() < 0.1 else text


def case_bytes(cases):
    """Each tick length and text, as test_clocks and test_implementation read them."""
    data = b"#".join(b"%d#%s" % case for case in cases)
    assert len(data) <= BUFFER and all(b"#" not in text for _, text in cases)
    return data


def readings(count=265, scaled=80, seed=3):
    """Reading and safe states: the examples, known readings, each fault, limits, random texts; at other tick lengths than 1; parallel
    edges; late clocks."""
    rng = random.Random(seed)
    texts = [*PAIRED.values(), *(t for t, _ in known_readings() + strict_readings()), *faults().values(), *boundary_readings()]
    texts += [random_reading(rng) for _ in range(count - len(texts))]
    cases = [*((TICK, t) for t in texts), *((tick, t) for tick, t, _ in tick_lengths.readings())]
    for _ in range(scaled):
        tick = random_length(rng)
        cases.append((tick, in_milliseconds(rng, random_reading(rng), tick)))
    for found in (parallel_edges, late_clocks):
        cases += [*((TICK, t) for t, _ in found.readings()), *((tick, t) for tick, t, _ in found.at_tick_lengths())]
    lines = [reading_line(*case) for case in cases]
    (CRATES / "test_clocks" / "stdin").write_bytes(case_bytes(cases))
    (CRATES / "test_clocks" / "stdout").write_text("\n".join(lines) + "\n")
    kinds = Counter(l.split("|")[0].split()[0] for l in lines)
    print("test_clocks", len(lines), "texts;", f"{kinds['states']} accepted, {kinds['refused']} refused")


def random_implementations(rng, each):
    """Random texts, so many of each answer: an implementation, 22 and 23; some state is without a tick, and five or more are reachable."""
    wanted, texts = {0: each, 22: each, 23: each}, []
    while any(wanted.values()):
        channels = [(f"c{i}", rng.choice("?!!-")) for i in range(rng.choice((1, 2, 3)))]
        text = random_text(rng, channels, ["x", "y", "z"][:rng.choice((1, 1, 2, 3))], rng.choice((1, 2, 3)))
        code = (ref.implementation(TICK, text) or (0,))[0]
        if not wanted.get(code):
            continue
        t = ref.read(TICK, text)
        if len(t.reachable()) >= 5 and any(t.next(s, 0) is None for s in t.reachable()):
            wanted[code] -= 1
            texts.append(text)
    return texts


def implementation_cases(seed=9, each=4):
    """The implementation check: texts with known answers, each fault of reading, random texts; at other tick lengths than 1; parallel edges;
    late clocks. A line ends with `same`: nothing that the program compares may differ."""
    known = [*((TICK, *case) for case in implementations.known()), *implementations.at_tick_lengths()]
    for tick, text, answer in known:
        assert ref.implementation(tick, text) == answer, (tick, text, answer, ref.implementation(tick, text))
    bad, rng = faults(), random.Random(seed)
    assert all(ref.implementation(TICK, text)[0] == code for code, text in bad.items())
    cases = [*((tick, text) for tick, text, _ in known), *((TICK, text) for text in [*bad.values(), *random_implementations(rng, each)])]
    for text in random_implementations(rng, each):
        tick = random_length(rng)
        cases.append((tick, in_milliseconds(rng, text, tick)))
        assert ref.implementation(*cases[-1]) == ref.implementation(TICK, text)
    cases += [(TICK, text) for text, _ in parallel_edges.implementations() + late_clocks.implementations()]
    cases += [(tick, text) for tick, text, _ in late_clocks.implementations_at_tick_lengths()]
    answers = [ref.implementation(*case) for case in cases]
    lines = ["refused %d %d %d %d same" % a if a else "yes same" for a in answers]
    (CRATES / "test_implementation" / "stdin").write_bytes(case_bytes(cases))
    (CRATES / "test_implementation" / "stdout").write_text("\n".join(lines) + "\n")
    codes = Counter(a[0] if a else 0 for a in answers)
    assert set(codes) == {0, *range(1, 12), 22, 23, 24}
    print("test_implementation", len(lines), "texts;", f"{codes[0]} yes, {codes[22]} with 22, {codes[23]} with 23")


def joined_again(tick_length, left, right, text):
    """What test_joining prints of a joined text: its states and safe ones, and how it departs from the two."""
    t = ref.read(TICK, text)
    safe = t.safe()
    line = f"again states {t.count} safe {len(safe)} start {'safe' if t.start in safe else 'not safe'}"
    if tick_length != TICK or t.start not in safe:
        return line
    for side, original in (("left", left), ("right", right)):
        entries = JOINING["entries"]
        answer = ref.search(TICK, text, original, bytes(512), entries, entries, [0] * JOINING["run"])[0]
        assert answer == 0 or answer[0] == 15, (side, answer)  # SPECIFICATION 18.1
        line += f" {side} refused {' '.join(map(str, answer))}" if answer else f" {side} 0"
    return line


def joining_lines(tick_length, length, left, right):
    """What test_joining prints: the answer, whether what is not written is as it came, the text, and what it is."""
    lent = bytes([KEEP]) * length
    answer, after = ref.join(tick_length, left, right, lent)
    if len(answer) == 4:
        assert after == lent
        return b"refused %d %d %d %d kept\n" % answer
    text = after[:answer[0]]
    assert after[len(text):] == lent[len(text):]
    return b"joined %d kept\n%s%s\n" % (*answer, text, joined_again(tick_length, left, right, text).encode())


def joined(tick_length, left, right):
    """The joined text, or the refusal, with room enough."""
    answer, after = ref.join(tick_length, left, right, bytes(LONG))
    return answer if len(answer) == 4 else after[:answer[0]]


def stated_of_joining():
    """What tests/joins.py knows is what the reading gives."""
    for tick, left, right, text in joins.written():
        assert joined(tick, left, right) == text, (text, joined(tick, left, right))
    for left, right, underscores in joins.underscored():
        text = joined(TICK, left, right)
        assert b"process " + b"_" * underscores + b"p0 " in text, (underscores, text)
    for left, right, fits in joins.at_limits():
        assert (joined(TICK, left, right) != (25, 0, 0, 0)) == fits, (left, right, fits)
    for left, right, is_met in joins.together():
        assert ref.safe_states(TICK, joined(TICK, left, right), bytes(512))[0][1] == is_met, (left, right, is_met)
    for tick, left, right, *in_ticks in joins.at_tick_lengths():
        assert joined(tick, left, right) == joined(TICK, *in_ticks), (tick, left, right)
    for *case, answer in joins.refused():
        assert joined(*case) == answer, (case, answer, joined(*case))
    for length in (32733, LONG):
        assert len(joined(TICK, *joins.of_length(length))) == length
    assert ref.read(TICK, POSTS["Joined"]).count == 40  # SPECIFICATION 18.10


def stated_of_late_clocks():
    """What tests/late_clocks.py knows is what the reading gives (SPECIFICATION 16.11, 18.5)."""
    for tick, text, line in [*((TICK, *case) for case in late_clocks.readings()), *late_clocks.at_tick_lengths()]:
        assert reading_line(tick, text).startswith(line), (tick, text, line, reading_line(tick, text))
    for tick, text, answer in [*((TICK, *case) for case in late_clocks.implementations()), *late_clocks.implementations_at_tick_lengths()]:
        assert ref.implementation(tick, text) == answer, (tick, text, answer, ref.implementation(tick, text))
    for tick, left, right, run in [*((TICK, *case) for case in late_clocks.pairs()), *late_clocks.pairs_at_tick_lengths()]:
        departs(tick, left, right, run)
    for tick, left, right, text in late_clocks.written():
        assert joined(tick, left, right) == text, (text, joined(tick, left, right))
    for tick, left, right, states in late_clocks.read_again():
        assert ref.read(TICK, joined(tick, left, right)).count == states, (left, right, states)
    for left, right, fits in late_clocks.at_limits():
        assert (joined(TICK, left, right) != (25, 0, 0, 0)) == fits, (left, right, fits)
    for left, right, is_met in late_clocks.together():
        assert ref.safe_states(TICK, joined(TICK, left, right), bytes(512))[0][1] == is_met, (left, right, is_met)
    for *case, answer in late_clocks.refused():
        assert joined(*case) == answer, (case, answer, joined(*case))
    woken, again = (ref.read(TICK, text) for text in (late_clocks.WOKEN, late_clocks.woken("assign x = 7, x = 1;")))
    assert woken.edges[1][4] == {0: [1]} and again.edges[1][4] == {0: [7, 1]}
    high = ref.Text(TICK, late_clocks.woken("assign x = 4;"), judged=False)  # 12 states, if they were judged
    assert ref.ranges(1, high.invariants, high.edges) == [6] and len(high.locations) == 2
    assert all(same_step(woken, again, (l, (x,)), c) for l in (0, 1) for x in range(12) for c in range(4))


def same_step(a, b, config, c):
    """Whether a step leads two texts with the same locations and clocks to one configuration, or both nowhere."""
    return a.step(config, c) == b.step(config, c)


def stated_of_parallel_edges():
    """What tests/parallel_edges.py knows is what the reading gives (SPECIFICATION 16.10, 18.4)."""
    for tick, text, line in [*((TICK, *case) for case in parallel_edges.readings()), *parallel_edges.at_tick_lengths()]:
        assert reading_line(tick, text).startswith(line), (tick, text, line, reading_line(tick, text))
    for text, answer in parallel_edges.implementations():
        assert ref.implementation(TICK, text) == answer, (text, answer, ref.implementation(TICK, text))
    for tick, left, right, text in parallel_edges.written():
        assert joined(tick, left, right) == text, (text, joined(tick, left, right))
    for left, right, states in parallel_edges.read_again():
        assert ref.read(TICK, joined(TICK, left, right)).count == states, (left, right, states)
    for left, right, fits in parallel_edges.at_limits():
        assert (joined(TICK, left, right) != (25, 0, 0, 0)) == fits, (left, right, fits)
    for left, right, is_met in parallel_edges.together():
        assert ref.safe_states(TICK, joined(TICK, left, right), bytes(512))[0][1] == is_met, (left, right, is_met)
    for left, right, answer in parallel_edges.refused():
        assert joined(TICK, left, right) == answer, (left, right, answer, joined(TICK, left, right))
    twice = ref.read(TICK, joined(TICK, POSTS["Twice"], POSTS["Twice"]))
    assert len(twice.led_to(0, (0, 0), 1)) == 4 and len(twice.moves(0, (0, 0), 1)) == 1
    post, table = ref.read(TICK, POST), ref.widest(TICK, POST, POST, bytes(512), bytes(29))
    for left, right in (("Twice", "Post"), ("Post", "Twice"), ("Twice", "Twice")):
        assert ref.widest(TICK, POSTS[left], POSTS[right], bytes(512), bytes(29)) == table
    again = ref.read(TICK, POSTS["Twice"])
    assert again.count == 10 and all(post.next(s, c) == again.next(s, c) for s in range(10) for c in range(4))


def reads_back(tick_length, left, right):
    """25 comes exactly where reading the joined text finds a limit passed, else it is accepted (SPECIFICATION 18.8)."""
    try:
        made = ref.Joined(ref.both(tick_length, left, right))
    except ref.Refused:
        return
    try:
        found = ref.read(TICK, made.text()).count
    except ref.Refused as r:
        found = r.answer[0]
        assert found in (1, 7, 9), r.answer
        assert joined(tick_length, left, right) == (25, 0, 0, 0)
        return
    assert found == made.states() and joined(tick_length, left, right) == made.text()
    assert ref.read(TICK, made.text()).has_parallel() == made.two.joins_parallel()


def random_joins(rng, count):
    """Random pairs that are joined, with channels named as what is written may be; every third in milliseconds."""
    names, cases = ["a", "l0", "c0", "p0", "_l0", "_c1", "l2", "__p0"], []
    while len(cases) < count:
        channels = [(n, rng.choice("??!!!-")) for n in rng.sample(names, rng.choice((1, 2, 2, 3)))]
        clocks = rng.choice(((1, 1), (1, 1), (2, 1), (1, 2), (0, 1), (1, 0), (0, 3), (3, 0), (0, 0)))
        other = [(n, m if m == "?" else rng.choice("!!!-")) for n, m in channels]
        pair = [random_text(rng, rng.sample(given, len(given)), ["x", "y", "z"][:n], 2 if n < 3 else 1)
                for given, n in zip((channels, other), clocks)]
        text = joined(TICK, *pair)
        if isinstance(text, tuple) or ref.read(TICK, text).count > 400 or len(text) > 2500:
            continue
        tick = random_length(rng) if len(cases) % 3 == 2 else TICK
        cases.append((tick, *(in_milliseconds(rng, side, tick) for side in pair)))
        assert joined(*cases[-1]) == text
    return cases


def joining_cases(seed=13, count=36):
    """Joining: pairs with known answers and random ones, with slices that are exact, short, empty and longer."""
    stated_of_joining()
    pairs = [*((tick, left, right) for tick, left, right, _ in joins.written()),
             *((TICK, left, right) for left, right, _ in joins.underscored() + joins.at_limits() + joins.together()),
             *((tick, left, right) for tick, left, right, _, _ in joins.at_tick_lengths()),
             *((tick, left, right) for tick, left, right, _ in joins.refused()),
             *random_joins(random.Random(seed), count),
             *((tick, left, right) for tick, left, right, _ in parallel_edges.written()),
             *((TICK, left, right) for left, right, _ in parallel_edges.read_again() + parallel_edges.at_limits() + parallel_edges.together()),
             *((TICK, left, right) for left, right, _ in parallel_edges.refused()),
             *((tick, left, right) for tick, left, right, _ in late_clocks.written() + late_clocks.read_again() + late_clocks.refused()),
             *((TICK, left, right) for left, right, _ in late_clocks.at_limits() + late_clocks.together())]
    cases = []
    for i, pair in enumerate(pairs):
        reads_back(*pair)
        text = joined(*pair)
        need = len(text) if isinstance(text, bytes) else 0
        cases.append((pair[0], need + (0, 0, 1, 40)[i % 4], *pair[1:]))
        if need and i % 5 == 0:
            cases += [(pair[0], length, *pair[1:]) for length in (need - 1, 0)]
    longest, over = joins.of_length(LONG), joins.of_length(LONG + 1)
    cases += [(TICK, JOINING["slice"], *longest), (TICK, LONG - 1, *longest)]
    cases += [(TICK, JOINING["slice"], *over), (TICK, 0, *over)]
    write_joining(cases)


def write_joining(cases):
    data = b"".join(b"%d#%d#%s#%s#" % case for case in cases)
    assert len(data) <= JOINING["data"] and all(b"#" not in left + right for _, _, left, right in cases)
    assert all(length <= JOINING["slice"] for _, length, _, _ in cases)
    lines = [joining_lines(*case) for case in cases]
    (CRATES / "test_joining" / "stdin").write_bytes(data)
    (CRATES / "test_joining" / "stdout").write_bytes(b"".join(lines))
    codes = Counter(int(line.split()[1]) if line.startswith(b"refused") else 0 for line in lines)
    assert set(codes) == {0, *range(1, 13), 24, 25, 26}
    print("test_joining", len(cases), "pairs,", len(data), "bytes;",
          f"{codes[0]} joined, {codes[25]} with 25, {codes[26]} with 26")


def record_lines(tick_length, text):
    """What test_reader prints of a text: the refusal, or the counts, the init location and every item of the record."""
    file = 0  # of 24; of all others it is 1 (SPECIFICATION 13.2)
    try:
        ref.in_range(tick_length)
        file = 1
        t = ref.Text(tick_length, text, judged=False)
    except ref.Refused as r:
        return [" refused %d %d %d %d" % (r.answer[0], file, *r.answer[2:])]

    def joined(comparisons):
        return "".join(f" {clock} {sign} {value}" for clock, sign, value in comparisons)

    def assigned(edge):
        """Each clock that is assigned, its value and the largest one written (SPECIFICATION 5.4)."""
        return "".join(f" assign {clock} {values[-1]} {max(values)}" for clock, values in sorted(edge[4].items()))
    out = [f" accepted {len(t.channels)} {len(t.clocks)} {len(t.locations)} {len(t.edges)} {t.init}"]
    out += [f"  channel {place} {n} {t.marks.get(c, '-')}" for c, (place, n) in enumerate(t.places["channel"])]
    out += [f"  clock {place} {n}" for place, n in t.places["clock"]]
    out += [f"  location {place} {n}{joined(i)}" for (place, n), i in zip(t.places["location"], t.invariants)]
    out += [f"  edge {e[0]} {e[1]} {t.marks[e[3]]} {e[3] + 1}{joined(e[2])}{assigned(e)}" for e in t.edges]
    return out


def records():
    """The expected output of test_reader: each text ends at `%`, and the byte after it says how many spaces go with it. A space, the tick
    length and a line feed follow."""
    data, lines, at, count = (CRATES / "test_reader" / "stdin").read_bytes(), [], 0, 0
    while at < len(data):
        end, count = data.index(b"%", at), count + 1
        line_end = data.index(b"\n", end)
        text, (how, tick) = data[at:end], data[end + 1:line_end].split(b" ")
        text = {b"0": text, b"1": text.ljust(LONG), b"2": text.ljust(LONG + 1), b"3": text.rjust(LONG)}[how]
        first, *rest = record_lines(int(tick), text)
        lines += [f"{count}{first}", *rest]
        at = line_end + 1
    assert len(data) <= BUFFER
    (CRATES / "test_reader" / "stdout").write_text("\n".join(lines) + "\n")
    print("test_reader", count, "texts,", len(data), "bytes")


def uncapped(seed=5, texts=200, steps=40):
    """Capping does not matter (SPECIFICATION 6.6): along random runs, clocks that are never capped have the moves of their states.
    These are reachable, and a text that is an implementation has an output or a tick in each of them, never both (SPECIFICATION 8.5, 8.6).
    Every edge is there once, twice or three times: the same edges give moves, and they lead to one configuration (SPECIFICATION 17.12)."""
    rng = random.Random(seed)
    for i in range(texts):
        text = random_text(rng, [("a", "?"), ("b", "!")], ["x", "y", "z"][:rng.randrange(4)], 2)
        text = parallel_edges.repeated(text, i % 3 + 1)
        try:
            t = ref.Text(TICK, text)
        except ref.Refused:
            continue
        config, reachable, is_implementation = (t.init, (0,) * len(t.clocks)), t.reachable(), not ref.implementation(TICK, text)
        for _ in range(steps):
            moves = {c: t.step(config, c) for c in range(3)}
            state = t.number(*config)
            assert state in reachable
            for c in (1, 2):
                to, capped = t.led_to(*config, c), t.led_to(*t.configs[state], c)
                assert [t.number(*at) for at in to] == [t.number(*at) for at in capped] and len(set(to)) == len(set(capped)) == min(1, len(to))
            assert not is_implementation or (moves[0] is None) != (t.is_input(2) or moves[2] is None)
            assert all(t.next(state, c) == (None if m is None else t.number(*m)) for c, m in moves.items())
            config = rng.choice([m for m in moves.values() if m is not None] or [(t.init, (0,) * len(t.clocks))])


def stated():
    """What SPECIFICATION 16.2 to 16.11 states of the posts is what this reading gives."""
    P, big, run = POSTS, bytes(512), [0] * 9
    for name, states, safe in (("Post", 10, (9, 1)), ("Hush", 10, (5, 0)), ("Strict", 12, (10, 1))):
        assert ref.read(TICK, P[name]).count == states and ref.safe_states(TICK, P[name], big)[0] == safe
    assert ref.search(TICK, P["Hush"], POST, big, 100, 100, run)[0] == (17, 1, 0, 0)
    for left, right, steps in (("Post", "Post", []), ("Early", "Post", [0, 0, 3]), ("Idle", "Post", [0] * 4), ("Post", "Idle", [0, 0, 0, 3]),
                               ("Post", "Hush", [0, 0, 0, 3]), ("Rearm", "Post", [0, 0, 0, 2, 0]), ("Strict", "Post", []), ("Post", "Strict", [])):
        n, _, found = ref.search(TICK, P[left], P[right], big, 120, 120, run)
        assert n == len(steps) and found[:n] == steps, (left, right, n, found)
    answer, _, table = ref.widest(TICK, POST, POST, big, bytes(29))
    assert answer == (29, 1) and table[9:] == bytes.fromhex("80004000200010000000" + "07C0" * 5)
    assert ref.widest(TICK, POST, POST, big, bytes(28))[0] == (14, 0, 29, 0) and ref.widest(TICK, P["Rearm"], POST, big, bytes(29))[0] == (25, 0)
    assert all(ref.widest(TICK, P[l], P[r], big, bytes(40))[0] == (34, 1) for l, r in (("Strict", "Post"), ("Post", "Strict")))
    diagonal = {(s, s) for s in ref.read(TICK, POST).safe()}
    for pairs, answer in ((diagonal, (9,)), ({(0, 0)}, (20, 0, 0, 0))):
        assert ref.check(TICK, POST, POST, big, ref.header(10, 10) + ref.raster(pairs, 10, 10))[0] == answer
    assert ref.program(P["Rearm"], POST) == b"NO 5\ntick\ntick\ntick\nspike?\ntick\n" and ref.program(POST, POST) == b"YES 29\n"
    for text, answer in implementations.posts():
        assert ref.implementation(TICK, text) == answer, (text, ref.implementation(TICK, text))
    assert ref.read(TICK, P["Spare"]).count == 15 and 10 not in ref.read(TICK, P["Spare"]).reachable()
    stated_of_sheet()
    stated_of_parallel_edges()
    stated_of_late_clocks()
    for tick, text, line in [*((TICK, *case) for case in known_readings() + strict_readings()), *tick_lengths.readings()]:
        assert reading_line(tick, text).startswith(line), (tick, text, line, reading_line(tick, text))


def stated_of_sheet():
    """SPECIFICATION 16.9."""
    post, second = ref.read(TICK, POST), ref.read(1000, SHEET)
    assert second.count == 10 and (second.invariants, second.edges, second.marks) == (post.invariants, post.edges, post.marks)
    half = ref.read(2000, SHEET)
    assert half.count == 8 and half.invariants[0] == [(0, "<=", 2)] and half.edges[2][2] == [(0, ">=", 1)]
    assert ref.implementation(2000, SHEET) == (22, 1, 1, 3) and ref.implementation(60000, SHEET) == ()
    assert ref.implementation(TICK, SHEET) == (6, 1, SHEET.index(b"3000"), 0)


def operations():
    cases = Cases()
    examples(cases)
    refusals_of_texts(cases)
    orders(cases)
    lengths(cases)
    tables(cases)
    strict_pairs(cases)
    scaled_pairs(cases)
    lengths_out_of_range(cases)
    many_states(cases)
    random_pairs(cases, 1)
    parallel_pairs(cases)
    late_pairs(cases)
    missing = every_code() - cases.codes
    assert not missing and not cases.codes - every_code(), (missing, cases.codes - every_code())
    cases.write()


if __name__ == "__main__":
    stated()
    uncapped()
    records()
    readings()
    implementation_cases()
    joining_cases()
    operations()
