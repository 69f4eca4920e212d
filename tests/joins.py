"""Pairs of texts to be joined, with what SPECIFICATION 18 says of them, worked out by hand.

tests/make_cases.py holds tests/reference.py against it, and makes stored cases of them.
"""
import reference as ref
from implementations import edge, unit
from texts import OUT_OF_RANGE, POST, POSTS, SHEET, TICK, beat, faults, late, rows, swapped, wide

LONG = ref.LIMITS["text"]

# two texts and the joined one, byte for byte
SOURCE = (b"broadcast chan o; process P() { clock x, y; state A; init A;\n"
          b"trans A -> A { guard y > 25 && x == 4; sync o!; assign y = 0, x = 0, y = 0; }; } system P;")
PARTNER = (b"broadcast chan o; process P() { clock z; state A { z < 10 }, B; init B;\n"
           b"trans B -> A { guard z < 010; sync o!; }, A -> B { sync o!; assign z = 0; }; } system P;")
SOURCE_AND_PARTNER = (
    b"broadcast chan o ; process p0 ( ) { clock c0 , c1 , c2 ; state l0 { c2 < 1 } , l1 ; init l1 ; trans "
    b"l1 -> l0 { guard c1 > 3 && c0 == 0 && c2 < 1 ; sync o ! ; assign c0 = 0 , c1 = 0 ; } , "
    b"l0 -> l1 { guard c1 > 3 && c0 == 0 ; sync o ! ; assign c0 = 0 , c1 = 0 , c2 = 0 ; } ; } system p0 ;\n")
ALONE = b"process P() { state A; init A; } system P;"
ALONE_TWICE = b"process p0 ( ) { state l0 ; init l0 ; } system p0 ;\n"


def written():
    """A tick length, two texts and the joined one; the first is SPECIFICATION 18.10."""
    return [(TICK, POST, POSTS["Idle"], POSTS["Joined"]), (10, SOURCE, PARTNER, SOURCE_AND_PARTNER),
            (TICK, ALONE, ALONE, ALONE_TWICE)]


def declaring(channels, clocks="", locations=1):
    """A text that declares these; an edge for the first channel, if there is one."""
    places = ", ".join(f"A{i}" for i in range(locations))
    first = channels.split(",")[0]
    edges = [edge("A0 -> A0", first + "!", assign=clocks.split(",")[0])] if first else []
    return unit(places, *edges, clocks=clocks, channels=channels)


def underscored():
    """Two texts and the underscores that their names have (SPECIFICATION 18.6): only names that are written count."""
    one = {"a": 0, "l0": 1, "p0": 1, "_l0": 0, "_p0": 0, "l00": 0, "l1": 0, "p1": 0, "_": 0, "l0_": 0, "C0": 0,
           "l0, _l0": 2, "l0, __l0": 1, "l0, _p0": 2, "_l0, __l0": 0, "p0, _p0, __p0, ___p0": 4, "c0": 0,
           "p0, _l0, __p0, ____l0": 3, ", ".join("_" * i + "l0" for i in range(16)): 16}
    clocks = {("c0", "x", ""): 1, ("c0", "", "x"): 1, ("c1", "x", ""): 0, ("c1", "x", "x"): 1, ("c2", "x, y", ""): 0,
              ("c2", "x, y", "x"): 1, ("l0, _p0, __c1", "x", "y"): 3, ("l0, __c1, _c2", "x", "y"): 1,
              ("_c0, c0", "x, y, z", ""): 2, ("_c0", "x", "y, z"): 0}
    places = {("l7", 2, 2): 0, ("l3", 2, 2): 1, ("l4", 2, 2): 0, ("l5", 3, 2): 1, ("l6", 2, 3): 0, ("l31", 4, 8): 1,
              ("l3, _l1, __l7", 4, 1): 2}
    return [*((declaring(c), declaring(c), n) for c, n in one.items()),
            *((declaring(c, a), declaring(c, b), n) for (c, a, b), n in clocks.items()),
            *((declaring(c, "", a), declaring(c, "", b), n) for (c, a, b), n in places.items())]


def at_values(edges, more=0):
    """One location, so many edges for `o` at single values of the clock, and some for `p`."""
    outputs = [("o!", edges), ("p!", more)]
    found = [edge("A -> A", label, f"x == {value}") for label, count in outputs for value in range(count)]
    return unit("A", *found, channels="o, p")


def compared(guards=0, invariants=0, label="o!"):
    """One location, so many comparisons in its invariant and in the guard of its edge."""
    invariant = " { " + " && ".join(["x < 9"] * invariants) + " }" if invariants else ""
    return unit("A" + invariant, edge("A -> A", label, " && ".join(["x > 1"] * guards)), channels="o, p")


def valued(values, locations=1, label="o!"):
    """So many values of the clock in each location, by the guard of an edge for an output."""
    places = ", ".join(f"A{i}" for i in range(locations))
    return unit(places, edge("A0 -> A0", label, f"x >= {values - 2}"), channels="o, p")


def of_length(length):
    """Two texts whose joined text has so many bytes, 32,733 to 32,793: 13 underscores, 32 locations, 128 edges."""
    more = length - 32733
    name, first = "o" * 22, min(more, 30)
    channels = ["_" * n + "l0" for n in range(13)] + [name, "a" * (first + 1), "b" * (more - first + 1)]
    left = [edge(f"L{i} -> L{(i + 1) % 8}", name + "!", "x <= 5 && x >= 0", "x w") for i in range(8)]
    ends = [(f"L{i} -> L{(i + 1) % 4}", k) for i in range(4) for k in range(4)]
    right = [edge(between, name + "!", f"y == {k} && y <= 3", "y") for between, k in ends]
    places = [f"L{i}" for i in range(8)]
    return (unit(", ".join(places), *left, clocks="w, x", channels=", ".join(channels)),
            unit(", ".join(places[:4]), *right, clocks="y", channels=", ".join(reversed(channels))))


def at_limits():
    """Two texts and whether the joined one is within the limits (SPECIFICATION 18.8)."""
    clocks = {(2, 1): True, (1, 2): True, (3, 0): True, (0, 3): True, (2, 2): False, (3, 1): False, (1, 3): False}
    places = {(4, 8): True, (8, 4): True, (1, 32): True, (32, 1): True, (3, 11): False, (11, 3): False, (2, 17): False}
    edges = {(8, 16): True, (128, 1): True, (1, 128): True, (43, 3): False, (3, 43): False, (65, 2): False}
    values = {(64, 64): True, (4, 1002): True, (2, 1002): True, (64, 65): False, (1002, 5): False, (1002, 1002): False}
    # one comparison too many in a guard; in an invariant; none where the two edges do not match
    comparisons = [((2, 0), (2, 0), True), ((4, 0), (0, 0), True), ((0, 0), (4, 0), True), ((3, 0), (2, 0), False),
                   ((4, 0), (1, 0), False), ((0, 2), (0, 2), True), ((0, 4), (0, 0), True), ((0, 1), (0, 4), False),
                   ((0, 4), (0, 4), False), ((4, 0), (0, 4), True)]
    free = "A0, A1 { x <= 1 && x <= 2 && x <= 3 }"  # the second location is not reached
    unmatched = compared(4, label="p!")
    return [*((rows(1, 0, a), rows(1, 0, b), fits) for (a, b), fits in clocks.items()),
            *((rows(a, 0, 0), rows(b, 0, 0), fits) for (a, b), fits in places.items()),
            *((at_values(a), at_values(b), fits) for (a, b), fits in edges.items()),
            (at_values(8, 1), at_values(16, 1), False), (at_values(127, 1), at_values(1, 1), True),
            (at_values(100), at_values(0, 100), True),  # no edge is written
            *((valued(a), valued(b), fits) for (a, b), fits in values.items()),
            (valued(32, 2), valued(32, 2), True), (valued(32, 2), valued(33, 2), False), (rows(16, 254), ALONE, True),
            (valued(1002), valued(1002, 4, "p!"), True),  # 1,002 × 4,008 states, 16 of the joined text
            (valued(1002, 3), valued(1002, label="p!"), True),
            *((compared(*a), compared(*b), fits) for a, b, fits in comparisons),
            (unit(free, channels=""), unit("A0 { x <= 4 && x <= 5 }", channels=""), False),
            (unmatched, compared(4), True), (compared(3), unmatched, True),
            *((*of_length(n), n <= LONG) for n in (32767, LONG, LONG + 1, 32793))]


def together():
    """Two texts and whether some system satisfies both: posts, and units with an output at a deadline."""
    known = {("Post", "Post"): True, ("Post", "Rearm"): False, ("Post", "Early"): False, ("Post", "Hush"): False,
             ("Post", "Idle"): False, ("Post", "Strict"): True, ("Post", "Loose"): True, ("Loose", "Early"): True,
             ("Idle", "Idle"): True, ("Rearm", "Rearm"): True, ("Strict", "Loose"): True, ("Spare", "Post"): True,
             ("Hush", "Idle"): False, ("Loose", "Spare"): True, ("Rearm", "Loose"): False}
    turned = swapped(POSTS["Early"], (b"pass, spike, late", b"late, pass, spike"))
    wait, stop = unit("A, B { x <= 1 }", edge("A -> B", "i?", assign="x"), edge("B -> B", "i?")), "A { x <= 2 }"
    first, second = edge("A -> A", "o!", "x == 2", "x"), edge("A -> A", "p!", "x == 2", "x")
    return [*((POSTS[a], POSTS[b], is_met) for (a, b), is_met in known.items()),
            (POSTS["Loose"], turned, True), (turned, POSTS["Loose"], True), (turned, POST, False),
            (beat(2), beat(2), True), (beat(2), beat(3), False), (beat(2), beat(2, False), False),
            (wide(16), wide(16), True), (unit(stop, first), unit(stop, first), True),
            (unit(stop, first), unit(stop, second), False), (unit(stop, first, second), unit(stop, second), True),
            (unit("A"), unit("A, B", init="B"), True), (wait, unit("A", edge("A -> A", "i?")), False),
            (rows(3, 2), rows(2, 3), True), (rows(1, 2), rows(1, 3), False)]


def at_tick_lengths():
    """A tick length, two texts in milliseconds, and two that are as many ticks (SPECIFICATION 18.3)."""
    seconds, coarse = late(3000), swapped(SHEET, (b"3000", b"2"), (b"2500", b"1"))
    loose = swapped(POSTS["Loose"], (b"3", b"3499"), (b"2", b"1500"))
    return [(1000, SHEET, SHEET, POST, POST), (1000, seconds, SHEET, POST, POST),
            (1000, loose, seconds, POSTS["Loose"], POST), (2000, SHEET, SHEET, coarse, coarse),
            (60000, SHEET, seconds, late(0), late(0)), (7, beat(3), beat(4), beat(0), beat(1)),
            (2, beat(3), beat(1), beat(2), beat(1)), (60000, rows(2, 1000), rows(1, 30000), rows(2, 0), rows(1, 1))]


def refused():
    """A tick length, two texts and the refusal: codes 24 and 1 to 12, and the first of two (SPECIFICATION 13.3)."""
    bad, other = faults(), swapped(POST, (b"late", b"tardy"))
    more, two = swapped(POST, (b", late", b", late, extra")), swapped(POST, (b"clock x", b"clock x, y"))
    turned = unit("A", edge("A -> A", "late?"), edge("A -> A", "pass?"), edge("A -> A", "spike?"),
                  channels="spike, late, pass")
    out = [(tick, POST, bad[2], (24, 0, tick, 0)) for tick in OUT_OF_RANGE]
    for code, text in bad.items():
        _, _, p, q = refusal(text)
        out += [(TICK, text, POST, (code, 1, p, q)), (TICK, POST, text, (code, 2, p, q))]
    return out + [
        (TICK, POST, other, (12, 1, 3, 0)), (TICK, more, POST, (12, 1, 4, 0)), (TICK, POST, more, (12, 2, 4, 0)),
        (TICK, POST, turned, (12, 1, 3, 0)), (TICK, turned, POST, (12, 1, 2, 0)),
        (TICK, POSTS["Idle"], turned, (12, 1, 3, 0)), (TICK, bad[11], bad[2], (11, 1, 0, 1)),
        (TICK, two, swapped(two, (b"late", b"tardy")), (12, 1, 3, 0)),
        (TICK, two, bad[10], (10, 2, 5, 2)), (TICK, SHEET, POST, (6, 1, SHEET.index(b"3000"), 0)),
        (1000, POST, SHEET.replace(b"3000", b"1000500"), (6, 2, SHEET.index(b"3000"), 0)),
        (TICK, POST.ljust(LONG + 1), b"", (1, 1, 0, 0)), (TICK, b"", POST.ljust(LONG + 1), (1, 2, 0, 0))]


def refusal(text):
    """What reading says of a text with a fault."""
    try:
        ref.read(TICK, text)
    except ref.Refused as r:
        return r.answer
