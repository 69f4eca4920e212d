"""The texts of `test_random`, made again: the choices of crate random_texts, number for number, so that what the program must
print can be counted from the texts (tests/random_counts.py). A choice depends on a seed and on what it is about; while a text is
written, the first refusal that its change brings is noted.
"""
from dataclasses import dataclass, replace

# SPECIFICATION 4.3, 4.7
LARGEST_TEXT, LARGEST_NAME, CHANNELS_MOST, CLOCKS_MOST, LOCATIONS_MOST, EDGES_MOST, COMPARISONS_MOST = 32768, 31, 16, 3, 32, 128, 4
LARGEST_CONSTANT, LONGEST_TICK = 1000, 60000
# the codes that are noted
MISFIT, NAME_TOO_LONG, DECLARED_BEFORE, UNKNOWN_NAME, CONSTANT_TOO_LARGE, TOO_MANY_ITEMS = 2, 3, 4, 5, 6, 7
# the changes
(NO_CHANGE, SHIFTED_BOUND, OTHER_TARGET, OTHER_CLOCKS, LONGER_STAY, NO_INVARIANT, OTHER_VALUES, OTHER_OUTPUT, DROPPED_EDGE, DOUBLED_EDGE,
 OVERLAP, RENAMED, OTHER_MARK, ONE_MARK, LARGE_BOUND, TOO_LARGE_BOUND, LONG_CHANNEL, LONG_CLOCK, LONG_LOCATION, MANY_CHANNELS, MANY_CLOCKS,
 MANY_LOCATIONS, LONG_INVARIANT, LONG_GUARD, STRAY_BYTE, CUT_OFF, SAME_NAME, OTHER_NAME, ZERO_BOUND, OTHER_SIGN, LARGE_VALUE, TOO_LARGE_VALUE,
 CHANGES) = range(33)
# a change of viewpoints alone, and how many constants it brings
LARGE_CONSTANTS, MANY = 32, 200
# what is chosen
TARGETS, SETS, WHOLE_SETS, CLOCKS, BOUNDS, SIGNS, STRICTS = 8, 16, 24, 32, 40, 48, 56
(COUNTS, GROUPS, STARTS, WHITES, BLANKS, STRAYS, LETTERS, EXCESSES, WIDTHS, PLACES, BYTES, CONSTANTS, CHANNELS, LOCATIONS, TURNS, CHANGE,
 PARTS, ROUNDINGS, PERIODS, DOUBLING, DOUBLES, ORIGINALS, ORDERS, OPEN_DOUBLES) = range(64, 88)
KINDS, ADDED_CLOCKS, ADDED_SIGNS, ADDED_BOUNDS = 88, 96, 104, 112
VALUES, LATE_VALUES, REPEATS, OVERRIDDEN, LATES = 120, 136, 152, 168, 184
FEW, LARGE_ODDS = 4, 16
INVARIANT = CHANNELS_MOST + 1
NO_SIGN, AT_MOST, AT_LEAST, EQUAL, LESS, GREATER, SIGN_COUNT = range(7)
SPELLED = {AT_MOST: "<=~", AT_LEAST: ">=~", EQUAL: "==~", LESS: "<~", GREATER: ">~"}
# the kinds of edges that are written again
SAME_EDGE, NARROWER, OTHER_SET, ELSEWHERE, EDGE_KINDS = range(5)
EVERY_CLOCK = 7
WORD = 0xFFFFFFFF


def mix(x):
    x ^= x << 13 & WORD
    x ^= x >> 17
    return x ^ (x << 5 & WORD)


def mixed(x, y):
    return mix(mix(x) + y % 65536 & WORD)


def pick(seed, what, a, b, n):
    x = mix(mix(mixed(mixed(mixed(seed, what), a), b)))
    return x // 8 % n if n else 0


def part(seed, k):
    return mixed(mixed(seed, k), PARTS)


@dataclass(frozen=True)
class Shape:
    period: int
    size: int
    counts: int
    seed: int
    gap: int
    change: int
    is_made_like: bool = False

    def excess(self):
        return pick(self.gap, EXCESSES, 0, 0, 2)

    def changes_comparison(self):
        return self.change in (ZERO_BOUND, OTHER_SIGN)

    def clocks(self):
        if self.change == MANY_CLOCKS:
            return CLOCKS_MOST + self.excess()
        return pick(self.counts, CLOCKS, 0, 0, CLOCKS_MOST + 1) or int(self.changes_comparison())

    def inputs(self):
        return pick(self.size, CHANNELS, 0, 0, FEW)

    def channels(self):
        if self.change == MANY_CHANNELS:
            return CHANNELS_MOST + self.excess()
        return self.inputs() + pick(self.size, CHANNELS, 1, 0, FEW)

    def locations(self):
        if self.change == MANY_LOCATIONS:
            return LOCATIONS_MOST + self.excess()
        return pick(self.counts, LOCATIONS, 0, 0, FEW) + 1

    def constants(self):
        if self.change == LARGE_CONSTANTS and self.clocks() <= 1:
            return MANY
        if pick(self.counts, CONSTANTS, 0, 0, LARGE_ODDS) == 0:
            return FEW
        clocks = self.clocks()
        return FEW + 1 if clocks < 2 else pick(self.counts, CONSTANTS, 1, 0, 2) + 1 if clocks == 2 else 1

    def is_there(self, l):
        return pick(self.gap, LOCATIONS, 0, 0, self.locations()) == l

    def is_about(self, c):
        return pick(self.gap, CHANNELS, 0, 0, self.channels()) == c

    def change_at(self, l, c):
        return self.change if self.is_there(l) and self.is_about(c) else NO_CHANGE

    def change_there(self, l):
        return self.change if self.is_there(l) else NO_CHANGE

    def choice(self, what, l, c, n):
        return pick(self.seed, what, l, c, n)

    def invariant_count(self, l):
        if self.clocks() == 0:
            return 0
        change = self.change_there(l)
        if change == NO_INVARIANT:
            return 0
        if change == LONG_INVARIANT:
            return COMPARISONS_MOST + self.excess()
        if change in (ZERO_BOUND, OTHER_SIGN):
            return self.excess() + 1
        return (1, 1, 1, 2, 0, 0, 0, 0, 0, 0)[self.choice(COUNTS, l, INVARIANT, 10)]

    def change_of_comparison(self, l, i):
        return self.change_there(l) if self.changes_comparison() and i == self.excess() else NO_CHANGE

    def group_size(self, l, c):
        n = (0, 0, 1, 1, 1, 2, 2, 3)[self.choice(GROUPS, l, c, 8)]
        if c < self.inputs() and n == 0:
            n = 1
        if self.clocks() == 0:
            n = min(n, 1)
        if self.change_at(l, c) != OTHER_OUTPUT:
            return n
        return int(n == 0)

    def strict_or(self, l, c, k, strict, sign):
        return strict if self.choice(STRICTS + k, l, c, 2) == 0 else sign

    def sign_of(self, l, c, j):
        n = self.group_size(l, c)
        if n <= 1:
            return NO_SIGN if c < self.inputs() or self.clocks() == 0 else self.choice(SIGNS, l, c, SIGN_COUNT)
        if j == 0:
            return self.strict_or(l, c, j, LESS, AT_MOST)
        return self.strict_or(l, c, j, GREATER, AT_LEAST) if j + 1 == n else EQUAL

    def guard_count(self, l, c, j):
        if self.sign_of(l, c, j) == NO_SIGN:
            return 0
        if self.change_at(l, c) == LONG_GUARD:
            return COMPARISONS_MOST + self.excess()
        return 2 if self.choice(COUNTS, l, c, 4) == 0 else 1

    def extra_edges(self, l, c):
        """The edges beside those of a group, each like one of them."""
        change = self.change_at(l, c)
        if change == DROPPED_EDGE or self.group_size(l, c) == 0:
            return 0
        if change == DOUBLED_EDGE:
            return self.excess() + 1
        return (1, 1, 2, 0, 0, 0, 0, 0)[pick(self.gap, DOUBLES, l, c, 8)] if pick(self.gap, DOUBLING, 0, 0, 2) == 0 else 0

    def original(self, l, c, j):
        n = self.group_size(l, c)
        return j if j < n else pick(self.gap, ORIGINALS, l, c, n)

    def is_open(self, l, c):
        """Whether the edges beside a group have no comparison that keeps them to what the group says."""
        return self.change_at(l, c) == DOUBLED_EDGE or pick(self.gap, OPEN_DOUBLES, l, c, 12) == 0

    def kind_of(self, l, c, j):
        n = self.group_size(l, c)
        has_room = self.clocks() and self.guard_count(l, c, self.original(l, c, j)) < COMPARISONS_MOST
        return SAME_EDGE if j < n or not (self.is_open(l, c) or has_room) else pick(self.gap, KINDS + j - n, l, c, EDGE_KINDS)

    def is_guarded_more(self, l, c, j):
        return c != INVARIANT and not self.is_open(l, c) and self.kind_of(l, c, j) != SAME_EDGE

    def comparison_count(self, l, c, j):
        return self.invariant_count(l) if c == INVARIANT else self.guard_count(l, c, self.original(l, c, j)) + int(self.is_guarded_more(l, c, j))

    def own_choice(self, what, l, c, j, n):
        return pick(self.gap, what + j - self.group_size(l, c), l, c, n)

    def added(self, l, c, j):
        """Clock, sign and bound of the comparison that is added to an edge that is written again."""
        kind, clock = self.kind_of(l, c, j), self.own_choice(ADDED_CLOCKS, l, c, j, self.clocks())
        if kind == NARROWER:
            sign = self.own_choice(ADDED_SIGNS, l, c, j, SIGN_COUNT - 1) + 1
            return clock, sign, self.own_choice(ADDED_BOUNDS, l, c, j, self.constants())
        if kind != OTHER_SET:
            return clock, LESS, 0
        value = self.value_of(l, c, j, clock)
        return clock, AT_MOST if value == 0 and self.own_choice(ADDED_SIGNS, l, c, j, 2) == 0 else EQUAL, value

    def sign_at(self, l, c, j, i):
        if c == INVARIANT:
            change = self.change_of_comparison(l, i)
            if change == OTHER_SIGN:
                return (AT_LEAST, EQUAL, GREATER)[pick(self.gap, SIGNS, 0, 0, 3)]
            return LESS if change == ZERO_BOUND else self.strict_or(l, INVARIANT, i, LESS, AT_MOST)
        if i == 0:
            return self.sign_of(l, c, j)
        s = AT_LEAST if c < self.inputs() else self.choice(SIGNS + i, l, c, 12)
        return s if s != NO_SIGN and s < SIGN_COUNT else AT_LEAST

    def bound_at(self, l, c, j, i):
        if i and c < self.inputs():
            return 0
        b = self.choice(BOUNDS + i, l, c, self.constants())
        if c == INVARIANT:
            return b + int(self.change == LONGER_STAY and self.is_there(l))
        change = self.change_at(l, c)
        return {SHIFTED_BOUND: b + j + 1, OVERLAP: b + 1, LARGE_BOUND: LARGEST_CONSTANT, TOO_LARGE_BOUND: LARGEST_CONSTANT + 1}.get(change, b + j)

    def written_bound(self, l, c, j, i):
        n = self.bound_at(l, c, j, i)
        if c == INVARIANT and self.change_of_comparison(l, i) == ZERO_BOUND:
            return 0
        if n >= LARGEST_CONSTANT or not (c == INVARIANT or i == 0 and self.group_size(l, c) > 1):
            return n
        s = self.sign_at(l, c, j, i)
        return n + 1 if s == LESS else n - 1 if s == GREATER and n else n

    def declared(self, i):
        n = self.channels()
        return (pick(self.gap, TURNS, 0, 0, n) + i) % n if n else 0

    def written_edges(self, l, c):
        n = self.group_size(l, c)
        return n - 1 if self.change_at(l, c) == DROPPED_EDGE and n else n + self.extra_edges(l, c)

    def edge_of(self, l, c, i):
        n = self.written_edges(l, c)
        return (i + pick(self.gap, ORDERS, l, c, n)) % n if self.extra_edges(l, c) else i

    def own_target(self, l, c, j):
        n = self.locations()
        t, change = self.choice(TARGETS + j, l, c, n), self.change_at(l, c)
        return n if change == OTHER_NAME else (t + 1) % n if change == OTHER_TARGET else t

    def target_of(self, l, c, j):
        n, t = self.locations(), self.own_target(l, c, self.original(l, c, j))
        return (t + 1) % n if self.kind_of(l, c, j) == ELSEWHERE and t < n else t

    def own_set(self, l, c, j):
        r = self.choice(SETS + j, l, c, EVERY_CLOCK + 1)
        if self.change_at(l, c) == OTHER_CLOCKS:
            return r ^ EVERY_CLOCK
        t = self.own_target(l, c, j)
        if t == l or self.invariant_count(t) == 0 or self.choice(WHOLE_SETS + j, l, c, 24) == 0:
            return r
        return EVERY_CLOCK

    def set_of(self, l, c, j):
        r = self.own_set(l, c, self.original(l, c, j))
        return r ^ 1 << self.own_choice(ADDED_CLOCKS, l, c, j, self.clocks()) if self.kind_of(l, c, j) == OTHER_SET else r

    def is_late(self):
        """Whether the edges set clocks to other values than 0 as well."""
        return pick(self.seed, LATES, 0, 0, 2) == 0

    def highest(self, t):
        """The largest value that a location mostly allows."""
        return self.bound_at(t, INVARIANT, 0, 0) if self.invariant_count(t) else self.constants()

    def late_value(self, l, c, j, k):
        """0, a value that the target allows, or one more."""
        at = 3 * j + k
        kind, n = self.choice(VALUES + at, l, c, 16), self.choice(LATE_VALUES + at, l, c, self.highest(self.own_target(l, c, j)) + 1)
        return n + 1 if kind == 0 else 0 if kind < 8 else n

    def is_large(self, l, c, excess):
        """Whether the change is a large value, in an assignment that counts (0) or in one that is overridden (1)."""
        return self.change_at(l, c) in (LARGE_VALUE, TOO_LARGE_VALUE) and self.excess() == excess

    def large_value(self):
        return LARGEST_CONSTANT + int(self.change == TOO_LARGE_VALUE)

    def value_of(self, l, c, j, k):
        """What an edge sets a clock to; one that is written again sets it to the same."""
        if self.is_large(l, c, 0):
            return self.large_value()
        n = self.late_value(l, c, self.original(l, c, j), k) if self.is_late() else 0
        return n + int(self.change_at(l, c) == OTHER_VALUES)

    def is_overridden(self, l, c, j, k):
        """Whether an edge assigns the clock once more, before the assignment that counts."""
        return self.is_large(l, c, 1) or self.is_late() and pick(self.gap, REPEATS + 3 * j + k, l, c, 12) == 0

    def overridden_value(self, l, c, j, k):
        return self.large_value() if self.is_large(l, c, 1) else pick(self.gap, OVERRIDDEN + 3 * j + k, l, c, self.constants() + 2)

    def is_input(self, l, c):
        is_other = self.change == OTHER_MARK and self.is_about(c) or self.change_at(l, c) == ONE_MARK
        return (c < self.inputs()) != is_other


class Pen:
    """The text of a shape, in `text`; the first refusal that is known of it, in `code` and `place`, and its edges."""

    def __init__(self, g):
        self.g, self.out, self.edges, self.code, self.place = g, bytearray(), 0, 0, 0
        self.items("channel", g.channels())
        self.words("process P~(~)~{~")
        self.items("clock", g.clocks())
        self.items("location", g.locations())
        self.words("init ")
        self.location(g.choice(STARTS, 0, 0, g.locations()))
        self.words("~;~")
        at = self.at
        for l in range(g.locations()):
            for c in range(g.channels()):
                for i in range(g.written_edges(l, c)):
                    self.edge(l, c, g.edge_of(l, c, i))
        self.after(at, "~;~")
        self.words("}~system P~;")
        self.blanks(0)
        if g.change == CUT_OFF and self.code == MISFIT:
            del self.out[self.place:]
        self.text = bytes(self.out)

    @property
    def at(self):
        return len(self.out)

    def noted(self, code):
        if self.code == 0:
            self.code, self.place = code, self.at

    def put(self, byte, n=1):
        self.out += byte.encode() * n

    def blanks(self, least):
        at = self.at
        self.put({0: "\t", 1: "\r", 2: "\n"}.get(pick(self.g.gap, WHITES, at, 0, 6), " "), least + pick(self.g.gap, BLANKS, at, 0, 3))

    def stray(self):
        if self.code or pick(self.g.gap, STRAYS, self.at, 0, 24) or self.g.change not in (STRAY_BYTE, CUT_OFF):
            return
        self.noted(MISFIT)
        if self.g.change == STRAY_BYTE:
            self.put("@")

    def words(self, text):
        for x in text:
            if x in " ~":
                self.stray()
                self.blanks(int(x == " "))
            else:
                self.put(x)

    def name(self, letter, n, last):
        if n >= LARGEST_NAME:
            self.noted(NAME_TOO_LONG)
        self.put(letter, n)
        self.put(last)

    def letters(self, is_long, n):
        return LARGEST_NAME - 1 + self.g.excess() if is_long else n // 2 + 1

    def channel(self, c):
        g = self.g
        is_long, is_renamed = g.change == LONG_CHANNEL and g.is_about(c), g.change == RENAMED and g.is_about(c)
        if g.is_made_like and not is_long:
            self.put("_", c // 3)
            self.put("lcp"[c % 3])
            self.put(str(3 if is_renamed else pick(g.size, LETTERS, c, 0, 3)))
            return
        self.name("a", self.letters(is_long, c), "c" if is_renamed else "ab"[c % 2])

    def clock(self, k):
        letter = "x_"[pick(self.g.gap, LETTERS, 0, 0, 2)]
        self.name(letter, self.letters(self.g.change == LONG_CLOCK and k == 0, k), "X9"[k % 2])

    def location(self, l):
        letter = "Ls"[pick(self.g.gap, LETTERS, 1, 0, 2)]
        if self.g.change == SAME_NAME and self.g.is_there(l):
            self.name(letter, self.letters(False, 0), "0")
        else:
            self.name(letter, self.letters(self.g.change == LONG_LOCATION and self.g.is_there(l), l), "0Z"[l % 2])

    def numeral(self, n):
        least = 4 if pick(self.g.gap, WIDTHS, self.at, 0, 8) == 0 else 1
        self.put(str(n).zfill(least))

    def milliseconds(self, n):
        """The least and the largest number that comes to n ticks (SPECIFICATION 4.7), the middle, or one between."""
        t, at = self.g.period, self.at
        low, high = (n * t - t // 2 if n else 0), n * t + (t - 1) // 2
        kind = pick(self.g.gap, ROUNDINGS, at, 0, 5)
        return (low, high, n * t)[kind] if kind < 3 else low + pick(self.g.gap, ROUNDINGS, at, 1, high - low + 1)

    def comparison(self, l, c, j, i):
        g = self.g
        if g.is_guarded_more(l, c, j) and i == g.guard_count(l, c, g.original(l, c, j)):
            k, s, n = g.added(l, c, j)
        else:
            j = g.original(l, c, j)
            k, s, n = g.choice(CLOCKS + i, l, c, g.clocks()), g.sign_at(l, c, j, i), g.written_bound(l, c, j, i)
        self.clock(k)
        self.words("~")
        if c == INVARIANT and s not in (AT_MOST, LESS):
            self.noted(MISFIT)
        self.words(SPELLED[s])
        if c == INVARIANT and s == LESS and n == 0:
            self.noted(MISFIT)
        self.constant(n)

    def constant(self, n):
        if n > LARGEST_CONSTANT:
            self.noted(CONSTANT_TOO_LARGE)
        self.numeral(self.milliseconds(n))

    def before(self, i, limit, first, between):
        self.words(between if i else first)
        if i == limit:
            self.noted(TOO_MANY_ITEMS)

    def after(self, at, text):
        if self.at != at:
            self.words(text)

    def comparisons(self, l, c, j, first, last):
        at = self.at
        for i in range(self.g.comparison_count(l, c, j)):
            self.before(i, COMPARISONS_MOST, first, "~&&~")
            self.comparison(l, c, j, i)
        self.after(at, last)

    def items(self, kind, n):
        at = self.at
        for i in range(n):
            if kind == "channel":
                self.before(i, CHANNELS_MOST, "broadcast chan ", "~,~")
                self.channel(self.g.declared(i))
            elif kind == "clock":
                self.before(i, CLOCKS_MOST, "clock ", "~,~")
                self.clock(i)
            else:
                self.before(i, LOCATIONS_MOST, "state ", "~,~")
                if self.g.change == SAME_NAME and self.g.is_there(i) and i:
                    self.noted(DECLARED_BEFORE)
                self.location(i)
                self.comparisons(i, INVARIANT, 0, "~{~", "~}")
        self.after(at, "~;~")

    def edge(self, l, c, j):
        g = self.g
        self.before(self.edges, EDGES_MOST, "trans ", "~,~")
        self.location(l)
        self.words("~->~")
        target = g.target_of(l, c, j)
        if target == g.locations():
            self.noted(UNKNOWN_NAME)
        self.location(target)
        self.words("~{~")
        self.comparisons(l, c, j, "guard ", "~;~")
        self.words("sync ")
        self.channel(c)
        self.words("~?~;~" if g.is_input(l, c) else "~!~;~")
        at, chosen = self.at, g.set_of(l, c, j)
        clocks = [k for k in range(min(g.clocks(), 3)) if chosen >> k & 1]
        for k in clocks:
            if g.is_overridden(l, c, j, k):
                self.assignment(at, k, g.overridden_value(l, c, j, k))
        for k in clocks:
            self.assignment(at, k, g.value_of(l, c, j, k))
        self.after(at, "~;~")
        self.put("}")
        self.edges += 1

    def assignment(self, at, k, n):
        """An assignment of n ticks, in a list that begins at a place."""
        self.words("~,~" if self.at != at else "assign ")
        self.clock(k)
        self.words("~=~")
        self.constant(n)


def damaged(text, seed):
    """A byte of tokens, or one that starts none, in the place of another one."""
    tokens = b" ;,{}axL09=<>&?!_@(-"
    out = bytearray(text)
    if out:
        out[pick(seed, PLACES, 0, 0, len(out))] = tokens[pick(seed, BYTES, 0, 0, len(tokens))]
    return bytes(out)


def length_out_of_range(seed):
    return (0, LONGEST_TICK + 1, 2 ** 64 - 1)[pick(seed, PERIODS, 1, 0, 3)]


def tick_length(seed):
    kind = pick(seed, PERIODS, 0, 0, 16)
    if kind == 0:
        return length_out_of_range(seed)
    if kind <= 8:
        return {0: 2, 1: 3, 2: 7, 3: 10, 4: 999, 5: 1000, 6: LONGEST_TICK}.get(pick(seed, PERIODS, 1, 0, 12), 1)
    return pick(seed, PERIODS, 1, 0, LONGEST_TICK) + 1


def in_ticks(g):
    return replace(g, period=1)


def shape_of(period, size, seed, gap, often):
    change = NO_CHANGE
    if pick(gap, CHANGE, 0, 0, 32) < often:
        change = pick(gap, CHANGE, 1, 0, CHANGES)
        if pick(gap, CHANGE, 2, 0, 2) == 0:
            change %= OTHER_OUTPUT
    g = Shape(period, size, size, seed, gap, change)
    return g if 1 <= period <= LONGEST_TICK else in_ticks(g)


def viewpoint(g, counts, is_made_like):
    change = g.change
    if pick(counts, CHANGE, 0, 0, 4) == 0:
        change = (LARGE_CONSTANTS, LONG_INVARIANT, LONG_GUARD, MANY_LOCATIONS)[pick(counts, CHANGE, 1, 0, 4)]
    return replace(g, counts=counts, is_made_like=is_made_like, change=change)
