"""Texts that set clocks to other values than 0, with what SPECIFICATION 4.5, 6.3, 6.4, 7.2, 16.11 and 18.5 say of them, worked out by
hand: a move leads to the values assigned, the last assignment of a clock counts, and every value written counts towards M.

tests/make_cases.py holds tests/reference.py against them, and makes stored cases of them. Constants are ticks, but where a tick length
stands beside a text. Channels are i, o and p (1, 2 and 3) and the clock is x, where a text does not say otherwise.
"""
from implementations import YES, both, edge, neither, unit
from parallel_edges import LABELS, accepted, different, orders, without
from texts import POST, POSTS, SHEET, TICK, swapped
from tick_lengths import LARGEST, TICKS, ZEROS, refused as refused_at

WOKEN = POSTS["Woken"]
STAY, TURN = "B -> B", "A -> A"
# the largest numeral that passes at some tick lengths, as for comparisons
LATEST = {**LARGEST, 250: 250124}


def woken(assign, post=WOKEN):
    """Woken with other assignments in its second edge."""
    return swapped(post, (b"assign x = 1;", assign.encode()))


def assigning(*assigns, locations="A", clocks="x", guard="", label="o!"):
    """One channel, with an edge for each of these lists of assignments; an output, so that nothing is asked of its moves."""
    return unit(locations, *(edge(TURN, label, guard, assign) for assign in assigns), clocks=clocks)


def set_to(numeral, before="", after=""):
    """A text in which nothing is compared: all that it says of x is this assignment, with others before and after it."""
    return swapped(assigning("x"), (b"x = 0", f"{before}x = {numeral}{after}".encode()))


def posts():
    """SPECIFICATION 16.11. In Wait x is at most 3, so that 4 and 7 are never reached by `spike?`."""
    same = " states 10 | refused 13 0 2 0 keep 170 | safe 9 yes keep 247 192"
    overridden = " states 18 | refused 13 0 3 0 keep 170 | safe 13 yes keep 240 127 192"
    spike, over = b"Wait -> Wait { sync spike?; }", [woken(f"assign {a};") for a in ("x = 1001", "x = 1001, x = 1", "x = 1, x = 1001")]
    more = [swapped(POST, (spike, b",\n".join(order))) for order in orders(spike, b"Wait -> Wait { sync spike?; assign x = 1; }")]
    return [(WOKEN, same), (woken("assign x = 3;"), same), (woken("assign x = 2;"), same), (woken("assign x = 0;"), same),
            (woken("assign x = 4;"), without(0, 2)), (woken("assign x = 7, x = 1;"), overridden),
            (woken("assign x = 1, x = 7;"), without(0, 2)),
            (woken("assign x = 7, x = 3;"), overridden), (woken("assign x = 3, x = 4;"), without(0, 2)),
            (woken("assign x = 7, x = 1, x = 7;"), without(0, 2)),
            (woken("assign x = 1, x = 7, x = 1;"), overridden), (woken("assign x = 1000, x = 1;"), accepted(2004)),
            (woken("assign x = 1000;"), without(0, 2)), *((text, refused_at(6, text, text[:text.index(b"1001")])) for text in over),
            # Done has no invariant
            (swapped(POST, (b"Done -> Done { sync spike?; }", b"Done -> Done { sync spike?; assign x = 1000; }")), accepted(2004)),
            *((text, different(0, 2)) for text in more)]


def entered():
    """The value at, below and above the invariant of the target: an input needs a move (SPECIFICATION 7.1)."""
    def text(bound, assign, clocks="x"):
        return unit(f"A, B {{ {bound} }}", edge("A -> B", "i?", "", assign), edge(STAY, "i?"), clocks=clocks)
    met = {("x <= 3", 2): 10, ("x <= 3", 3): 10, ("x < 3", 2): 10, ("x < 4", 3): 12, ("x <= 0", 0): 4, ("x < 1", 0): 6, ("x <= 1000", 1000): 2004,
           ("x < 1000", 999): 2004}
    unmet = [("x <= 3", 4), ("x <= 3", 5), ("x < 3", 3), ("x < 3", 4), ("x < 4", 4), ("x <= 0", 1), ("x < 1", 1), ("x <= 999", 1000),
             ("x < 1000", 1000)]
    two = "x <= 2 && y <= 1"
    return [*((text(bound, f"x={value}"), accepted(states)) for (bound, value), states in met.items()),
            *((text(bound, f"x={value}"), without(0, 1)) for bound, value in unmet),
            # the last assignment is the one that the invariant is asked about
            (text("x <= 2", "x=3 x=2"), accepted(10)), (text("x <= 2", "x=2 x=3"), without(0, 1)), (text("x <= 2", "x=3 x"), accepted(10)),
            (text("x <= 2", "x x=3"), without(0, 1)), (text("x <= 2", "x=3 x=4 x=1"), accepted(12)), (text("x <= 2", "x=1 x=4 x=3"), without(0, 1)),
            # x and y have 4 and 3 values: y is above its bound from state 8 on, if the edge leaves it as it is
            (text(two, "x=2", "x, y"), without(8, 1)), (text(two, "x=2 y=1", "x, y"), accepted(24)), (text(two, "y=1 x=2", "x, y"), accepted(24)),
            (text(two, "y=1", "x, y"), without(3, 1)), (text(two, "x=2 y=2", "x, y"), without(0, 1)), (text(two, "x=3 y=1", "x, y"), without(0, 1)),
            (text(two, "x=3 y=1 x=2", "x, y"), accepted(30)), (text(two, "y=2 x=2 y", "x, y"), accepted(32)),
            (text("x <= 1 && y <= 2 && z <= 3", "z=3 y=2 x=1", "x, y, z"), accepted(120)),
            (text("x <= 1 && y <= 2 && z <= 3", "z=3 y=2 x=2", "x, y, z"), without(0, 1)),
            (text("x <= 1 && y <= 2 && z <= 3", "z=4 y=2 x=1", "x, y, z"), without(0, 1)),
            # with x and y assigned, z is above its bound from z = 4 on, after 12 states for each value of z
            (text("x <= 1 && y <= 2 && z <= 3", "y=2 x=1", "x, y, z"), without(48, 1))]


def urgent():
    """A has to be left at once by an output: its state 0 is safe exactly if the output's value meets the invariant of B."""
    def text(bound, assign):
        return unit(f"A {{ x <= 0 }}, B {{ {bound} }}", edge("A -> B", "o!", "", assign), edge(STAY, "o!"))
    ten, twelve = " states 10 | refused 13 0 2 0 keep 170 | safe ", " states 12 | refused 13 0 2 0 keep 170 | safe "
    return [(text("x <= 3", "x=2"), ten + "5 yes keep 135 128"), (text("x <= 3", "x=3"), ten + "5 yes keep 135 128"),
            (text("x <= 3", "x=4"), twelve + "4 no keep 3 192"), (text("x < 3", "x=2"), ten + "4 yes keep 135 0"),
            (text("x < 3", "x=3"), ten + "3 no keep 7 0"), (text("x < 3", "x=4"), twelve + "3 no keep 3 128"),
            (text("x <= 3", "x=4 x=3"), twelve + "5 yes keep 131 192"), (text("x <= 3", "x=3 x=4"), twelve + "4 no keep 3 192")]


def sizes():
    """M by the values written and by other constants, whichever is larger (SPECIFICATION 6.4)."""
    alone = {"x=5": 7, "x=0": 2, "x=1": 3, "x=1000": 1002, "x=3 x=1": 5, "x=1 x=3": 5, "x=3 x=3": 5, "x=1 x=3 x=2": 5, "x=3 x": 5, "x x=3": 5,
             "x=1000 x": 1002, "x=3 x=2 x=1": 5}
    compared = {("x >= 5", "x=5"): 7, ("x >= 5", "x=4"): 7, ("x >= 5", "x=6"): 8, ("x < 5", "x=5"): 7, ("x < 5", "x=4"): 7, ("x > 5", "x=6 x=1"): 8,
                ("x == 5", "x=1 x=7"): 9, ("x < 0", "x=9"): 11, ("x < 0", "x=9 x"): 11, ("x <= 1000", "x=999"): 1002}
    two = {"x=3 y=1": 15, "y=3 x=1": 15, "x=1 y=2 x=4": 24, "x=4 y=2 x=1": 24, "x=2": 8, "y=2": 8, "y=5 y": 14}
    return [*((assigning(assign), accepted(states)) for assign, states in alone.items()),
            *((assigning(assign, guard=guard), accepted(states)) for (guard, assign), states in compared.items()),
            *((assigning(assign, clocks="x, y"), accepted(states)) for assign, states in two.items()),
            (assigning("x=3", locations="A { x <= 5 }"), accepted(7)), (assigning("x=7", locations="A { x <= 5 }"), accepted(9)),
            (assigning("x=5", locations="A { x < 5 }"), accepted(7)), (assigning("x=7 x=1", locations="A { x < 5 }"), accepted(9)),
            (assigning("x=1 y=2 z=3", clocks="x, y, z"), accepted(60)), (assigning("z=3 x=1 y=2 z", clocks="x, y, z"), accepted(60)),
            (assigning("y=1", clocks="x, y", guard="x >= 4"), accepted(18)),  # a value counts for its own clock alone
            (unit("A", edge(TURN, "o!", "", "x=2"), edge(TURN, "p!", "", "x=5")), accepted(7)),
            (unit("A", edge(TURN, "o!", "", "x=5 x=2"), edge(TURN, "p!", "", "x=1")), accepted(7)),
            (unit("A, B", edge(STAY, "o!", "", "x=9")), accepted(22))]  # no edge leads to B


def limits():
    """The limit on states, which values written count towards, also those that are overridden."""
    def places(count):
        return ", ".join(["A", *(f"A{i}" for i in range(1, count))])
    two, three = "x, y", "x, y, z"
    return [(assigning("x=1000", locations=places(4)), accepted(4008)), (assigning("x=1000", locations=places(5)), " refused 9 1 5010 0 |"),
            (assigning("x=1000 x", locations=places(4)), accepted(4008)), (assigning("x=1000 x", locations=places(5)), " refused 9 1 5010 0 |"),
            (assigning("x x=1000", locations=places(5)), " refused 9 1 5010 0 |"), (assigning("x=817 x=1", locations=places(5)), accepted(4095)),
            (assigning("x=818 x=1", locations=places(5)), " refused 9 1 4100 0 |"), (assigning("x=254", locations=places(16)), accepted(4096)),
            (assigning("x=62 y=62", clocks=two), accepted(4096)), (assigning("x=62 y=63", clocks=two), " refused 9 1 4160 0 |"),
            (assigning("x=62 y=63 y", clocks=two), " refused 9 1 4160 0 |"), (assigning("x=63 y=62 x=1 y=1", clocks=two), " refused 9 1 4160 0 |"),
            (assigning("x=14 y=14 z=14", clocks=three), accepted(4096)), (assigning("x=14 y=14 z=15", clocks=three), " refused 9 1 4352 0 |"),
            (assigning("z=15 y=14 x=14 z", clocks=three), " refused 9 1 4352 0 |"),
            (assigning("x=1000 y=1000 z=1000 x y z", locations=places(32), clocks=three), " refused 9 1 32192384256 0 |")]


def faults():
    """`assign` parts with a fault at the place of the `|`: code 2 as before, 5 and 3 at a name, 6 at a numeral, whichever comes first."""
    long = "y" * 32
    marked = [(2, "assign x |== 1;"), (2, "assign x = |;"), (2, "assign x = |x;"), (2, "assign x = |y;"), (2, "assign x = 1, |;"), (2, "assign |;"),
              (2, "assign |, x = 1;"), (2, "assign x |1;"), (2, "assign x |<= 1;"), (2, "assign x |:= 1;"), (2, "assign x = |= 1;"),
              (2, "assign x = |-1;"),
              (2, "assign x = 1|.5;"), (2, "assign x = 1 |2;"), (2, "assign x = 3|x;"), (2, "assign |1 = x;"), (2, "assign x = 1 |&& x = 2;"),
              (2, "assign x = |guard;"), (2, "assign |guard = 1;"), (2, "assign x = 1; |assign x = 2;"), (2, "assign x = 1,|, x = 2;"),
              (2, "assign x = 1 |}"),
              (2, "assign x = 1, x = |, x = 2;"), (2, "assign x = |(1);"), (2, "assign x = |;x = 1001;"), (2, "|x = 1;"),
              (2, "assign x = 2, x = 7, x = |= 1;"),
              (5, "assign |y = 1;"), (5, "assign |Wait = 1;"), (5, "assign |spike = 1;"), (5, "assign |Post = 1;"), (5, "assign x = 1, |y = 2;"),
              (5, "assign x = 1, |y = 5000;"), (5, "assign |y = ;"), (5, "assign |y == 1;"), (5, "assign x = 1000, |Done = 0;"),
              (3, f"assign |{long} = 1;"), (3, f"assign x = 1, |{long} = 1001;"),
              (6, "assign x = |1001;"), (6, "assign x = |1001, x = 1;"), (6, "assign x = 1, x = |1001;"), (6, "assign x = |1001, x = 1002;"),
              (6, "assign x = |1001 1;"), (6, "assign x = |5000, y = 1;"), (6, "assign x = |2000, x == 1;"),
              (6, "assign x = 1000, x = |01001, x = 0;"),
              (6, "assign x = |1001x;"), (6, "assign x = |1001")]
    out = []
    for code, assign in marked:
        text = woken(assign.replace("|", ""))
        out.append((text, f" refused {code} 1 {WOKEN.index(b'assign') + assign.index('|')} 0 |"))
    cut = [WOKEN[:WOKEN.index(part) + len(part)] for part in (b"assign", b"assign x", b"assign x =", b"assign x = 1", b"assign x = 1;")]
    over = woken("assign x = 1001;")
    return [*out, *((text, f" refused 2 1 {len(text)} 0 |") for text in cut),
            *((over[:over.index(b"1001") + n], f" refused 6 1 {over.index(b'1001')} 0 |") for n in (4, 5)),
            (over[:over.index(b"1001") + 3], f" refused 2 1 {over.index(b'1001') + 3} 0 |")]


def parallel(label, channel):
    """Edges that give moves together: to one state, if they set each clock to one value (SPECIFICATION 7.2)."""
    def text(*assigns, guards=("", ""), clocks="x"):
        return unit("A", *(edge(TURN, label, guard, assign) for guard, assign in zip(guards, assigns)), clocks=clocks)
    two, three, no = "x, y", "x, y, z", different(0, channel)
    one = [(text("x=2", "x=2"), accepted(4)), (text("x=1", "x=2"), no), (text("x=2", "x=1"), no), (text("x", "x=1"), no), (text("x=1", "x"), no),
           (text("x=2 x=1", "x=1"), accepted(4)), (text("x=1", "x=2 x=1"), accepted(4)), (text("x=1 x=2", "x=1"), no),
           (text("x=1 x=2", "x=2 x=1"), no),
           (text("x=2 x=1", "x=3 x=1"), accepted(5)), (text("x=1 x", "x"), accepted(3)), (text("x=1", "x x=1"), accepted(3)),
           (text("x=1000", "x=1000"), accepted(1002)), (text("x=999", "x=1000"), no)]
    # one edge sets x to 2 and the other leaves it: they lead to one state where x is 2, and nowhere else
    left = {"": no, "x == 2": accepted(4), "x >= 2": different(3, channel), "x <= 2": no, "x >= 1": different(1, channel),
            "x > 2": different(3, channel),
            "x < 2": no, "x < 0": accepted(4), "x >= 2 && x < 3": accepted(5), "x == 1": different(1, channel), "x > 1 && x <= 2": accepted(4)}
    turned = [(text(*order, guards=guards), line) for guard, line in left.items()
              for order, guards in ((("", "x=2"), ("", guard)), (("x=2", ""), (guard, "")))]
    # x has 3 values and y 4
    more = [(text("x=1 y=2", "x=1 y=2", clocks=two), accepted(12)), (text("x=1 y=2", "y=2 x=1", clocks=two), accepted(12)),
            (text("x=1 y=2", "x=1 y=1", clocks=two), no), (text("x=1 y=2", "x y=2", clocks=two), no), (text("x=1", "x=1 y=2", clocks=two), no),
            (text("x=1", "x=1 y=2", guards=("", "y == 2"), clocks=two), accepted(12)),
            (text("x=1", "x=1 y=2", guards=("", "y >= 2"), clocks=two), different(9, channel)),
            (text("y=2", "x=1 y=2", guards=("", "x == 1"), clocks=two), accepted(12)),
            (text("y=2", "x=1 y=2", guards=("", "x >= 1"), clocks=two), different(2, channel)),
            (text("x=1", "y=2", "", guards=("x == 1", "y == 2", ""), clocks=two), accepted(12)),
            (text("x=1 y=2", "x=2 y=1 y=2 x=1", clocks=two), accepted(16)),
            (text("x=1 y=1 z=1", "z=1 y=1 x=1", clocks=three), accepted(27)), (text("x=1 y=1 z=1", "x=1 y=1 z=2", clocks=three), no),
            (text("x=1 y=1 z=1", "x=1 y=1", clocks=three), no), (text("x=1 y=1 z=1", "x=1 y=1", guards=("", "z == 1"), clocks=three), accepted(27)),
            (text("x=1 y=1 z=1", "x=1 y=1", guards=("", "z > 0"), clocks=three), different(18, channel))]
    every = ("", "", "")
    unlike = [*orders("x=1", "x=1", "x=2"), *orders("x", "x=1", "x=2"), *orders("x=2 x=1", "x=1", "x=1 x=2")]
    several = [(text(*order, guards=every), no) for order in unlike]
    same = [(text(*order, guards=every), accepted(4)) for order in orders("x=2 x=1", "x=1", "x=1 x=1")]
    return [*one, *turned, *more, *several, *same]


def apart(label, channel):
    """Targets and invariants: another location is another state, and an edge that gives no move makes no difference."""
    def text(locations, *edges):
        return unit(locations, *(edge(e[0], label, *e[1:]) for e in edges), edge(STAY, label))
    to_a, to_b = (TURN, "", "x=2"), ("A -> B", "", "x=2")
    late_turn = ("A -> B", "x >= 2", "x=1")
    return [(text("A, B", to_a, to_b), different(0, channel)), (text("A, B { x <= 1 }", to_a, to_b), accepted(8)),
            (text("A, B { x <= 2 }", to_a, to_b), different(0, channel)), (text("A, B { x < 2 }", to_b, to_a), accepted(8)),
            (text("A, B { x <= 1 }", ("A -> B", "", "x=1"), to_b), accepted(8)),
            (text("A, B { x <= 2 }", ("A -> B", "", "x=1"), to_b), different(0, channel)),
            (text("A, B { x <= 2 }", ("A -> B", "", "x=3 x=1"), ("A -> B", "", "x=1 x=3")), accepted(10)),
            # edges that meet only where the invariant of their own location is false; with the bound one higher they do not
            (text("A { x <= 1 }, B", ("A -> B",), late_turn), accepted(8)),
            (text("A { x <= 2 }, B", ("A -> B",), late_turn), different(2, channel)),
            (text("A { x <= 2 }, B", ("A -> B",), ("A -> B", "x >= 2", "x=2")), accepted(8)),
            (text("A { x <= 3 }, B", ("A -> B",), ("A -> B", "x >= 2", "x=2")), different(3, channel))]


def readings():
    """A text and the beginning of the line that test_clocks prints."""
    by_label = [case for part in (parallel, apart) for label in LABELS for case in part(*label)]
    return [*posts(), *entered(), *urgent(), *sizes(), *limits(), *faults(), *by_label]


def sheet(assign, text=SHEET):
    """Sheet, or Woken in its milliseconds, with assignments in its second edge."""
    return swapped(text, (b"Wait -> Wait { sync spike?; }", f"Wait -> Wait {{ sync spike?; {assign} }}".encode()))


def at_tick_lengths():
    """A tick length, a text in milliseconds and the beginning of the line (SPECIFICATION 4.7)."""
    def over(tick, text, numeral):
        return tick, text, f" refused 6 1 {text.index(numeral.encode())} 0 |"
    out = [(tick, set_to(c), accepted(ticks + 2)) for tick, found in TICKS.items() for c, ticks in found.items()]
    for tick, most in LATEST.items():
        out += [(tick, set_to(most), accepted(1002)), over(tick, set_to(most + 1), str(most + 1)),
                (tick, set_to(most, after=", x = 0"), accepted(1002)),
                over(tick, set_to(most + 1, after=", x = 0"), str(most + 1)), over(tick, set_to(most + 1, before="x = 1, "), str(most + 1))]
    long = [(1, ZEROS + "1000", 1002), (1, ZEROS + "0", 2), (1, "0" * 400, 2), (2, ZEROS + "2000", 1002), (60, ZEROS + "180", 5),
            (60000, ZEROS + "30000", 3),
            (3, "0" * 600 + "3001", 1002), (1, "0001000", 1002)]
    large = [(1, ZEROS + "1001"), (2, ZEROS + "2001"), (3, "0" * 600 + "3002"), (1, "0001001"),
             *((tick, n) for tick in (1, 60, 60000) for n in ("180" + ZEROS, "9" * 400)),
             (1, "1" + "0" * 20), (1, "18446744073709551617"), (1, "4294967297"), (1, "65537")]
    out += [*((tick, set_to(numeral), accepted(states)) for tick, numeral, states in long),
            *(over(tick, set_to(numeral), numeral) for tick, numeral in large),
            *(over(tick, set_to(numeral, after=", x = 1"), numeral) for tick, numeral in large[:2] + large[-4:])]
    same = " states 10 | refused 13 0 2 0 keep 170 | safe 9 yes keep 247 192"
    out += [(1000, sheet(f"assign x = {ms};"), same) for ms in (499, 500, 1000, 1499, 3000, 3499)]
    out += [(1000, sheet("assign x = 3500;"), without(0, 2)), (1000, sheet("assign x = 6500, x = 1;"), accepted(18)),
            (2000, sheet("assign x = 4999;"), accepted(8)),
            (2000, sheet("assign x = 5000;"), without(0, 2)), (60000, sheet("assign x = 29999;"), accepted(4)),
            (60000, sheet("assign x = 30000;"), without(0, 2))]
    # two edges, one numeral each: equal in ticks or not
    apart_by_one = assigning("x=1", "x=2")
    rounded = assigning("x=1499", "x=501")
    return out + [(1, apart_by_one, different(0, 2)), (2, apart_by_one, accepted(3)), (3, apart_by_one, different(0, 2)),
                  (5, apart_by_one, accepted(2)),
                  (60000, apart_by_one, accepted(2)), (1000, rounded, accepted(3)), (999, rounded, different(0, 2)),
                  (1003, rounded, different(0, 2)),
                  (3000, rounded, accepted(2)), (250, rounded, different(0, 2))]


def implementations():
    """Texts for the implementation check with their answers (SPECIFICATION 8.6)."""
    short = "A { x <= 2 }"

    def after_late(assign, guard, bound=""):
        """A is left at once, and B entered with x as assigned; there p may come by a guard."""
        return unit(f"A {{ x <= 0 }}, B{bound}", edge("A -> B", "o!", "", assign), edge(STAY, "p!", guard))
    to_b, stay_b = edge("A -> B", "i?", "", "x=2"), edge(STAY, "i?")
    return [(WOKEN, YES), (woken("assign x = 3;"), YES), (woken("assign x = 7, x = 1;"), YES), (woken("assign x = 4;"), (10, 1, 0, 2)),
            (woken("assign x = 1;", swapped(WOKEN, (b"x >= 3", b"x >= 2"))), both(2, 3)),
            (woken("assign x = 3;", swapped(WOKEN, (b"x >= 3", b"x == 1"))), both(1, 3)),
            (woken("assign x = 1001;"), (6, 1, WOKEN.index(b"assign x = 1") + 11, 0)), (swapped(WOKEN, (b"x >= 3", b"x >= 4")), neither(3)),
            (unit(short, edge(TURN, "o!", "x >= 2", "x=1")), YES), (unit(short, edge(TURN, "o!", "x >= 2", "x=2")), YES),
            (unit(short, edge(TURN, "o!", "x >= 2", "x=3")), neither(2)),  # the invariant does not hold after it
            (unit(short, edge(TURN, "o!", "x >= 2", "x=3 x=1")), YES), (unit(short, edge(TURN, "o!", "x >= 2", "x=1 x=3")), neither(2)),
            (unit(short, edge(TURN, "o!", "x >= 2", "x=1"), edge(TURN, "p!", "x == 1")), both(1, 3)),
            (unit(short, edge(TURN, "o!", "x >= 1", "x=2")), both(1, 2)),
            # with x = 5 in B from the start on
            (after_late("x=5", "x == 5"), both(12, 3)), (after_late("x=5", "x < 5"), YES), (after_late("x=6", "x == 5"), YES),
            (after_late("x=4", "x == 5"), both(12, 3)),
            (after_late("x=6 x=4", "x == 5"), both(13, 3)), (after_late("x=4 x=6", "x == 5"), YES), (after_late("x=5", "x > 5"), both(13, 3)),
            (after_late("x=5", "x < 0", " { x <= 5 }"), neither(12)), (after_late("x=4", "x < 0", " { x <= 5 }"), neither(12)),
            (after_late("x=6", "x < 0", " { x <= 5 }"), neither(0)), (after_late("x=5", "x >= 5", " { x <= 5 }"), YES),
            (after_late("x=5", "x >= 5", " { x < 5 }"), neither(0)), (after_late("x=4", "x >= 4", " { x < 5 }"), YES),
            # B with x = 2 by the input, then a tick, then the output, back to 2
            (unit("A, B { x <= 3 }", to_b, stay_b, edge(STAY, "o!", "x >= 3", "x=2")), YES),
            (unit("A, B { x <= 3 }", to_b, stay_b, edge(STAY, "o!", "x >= 3", "x=2"), edge(STAY, "p!", "x < 2")), YES),
            (unit("A, B { x <= 3 }", to_b, stay_b, edge(STAY, "o!", "x >= 3", "x=1"), edge(STAY, "p!", "x < 2")), both(6, 3)),
            (unit("A, B { x <= 3 }", edge("A -> B", "i?", "", "x=4"), stay_b), (10, 1, 0, 1)),
            # two clocks that are set back by one each; one alone is set, and y goes beyond its bound
            (unit("A { x <= 2 && y <= 3 }", edge(TURN, "o!", "x >= 2", "x=1"), edge(TURN, "p!", "y >= 3", "y=2"), clocks="x, y"), YES),
            (unit("A { x <= 2 && y <= 3 }", edge(TURN, "o!", "x >= 2", "x=1 y=3"), clocks="x, y"), neither(13)),
            (unit("A { x <= 1 }", edge(TURN, "o!", "x >= 1", "x y=5"), edge(TURN, "p!", "y == 5"), clocks="x, y"), both(15, 3)),
            (unit("A", edge(TURN, "o!", "", "x=1"), edge(TURN, "o!", "", "x=2")), (11, 1, 0, 2)),
            (unit("A", edge(TURN, "o!", "", "x=2"), edge(TURN, "o!", "", "x=2")), both(0, 2)),
            (unit("A { x <= 0 }", edge(TURN, "o!", "", "x=1 x"), edge(TURN, "o!", "", "x")), YES)]


def implementations_at_tick_lengths():
    """A tick length, a text in milliseconds and the answer."""
    return [(1000, sheet("assign x = 1499;"), YES), (1000, sheet("assign x = 3499;"), YES), (1000, sheet("assign x = 3500;"), (10, 1, 0, 2)),
            (2000, sheet("assign x = 1000;"), both(1, 3)), (60000, sheet("assign x = 29999;"), YES), (0, WOKEN, (24, 0, 0, 0)),
            (2, unit("A { x <= 4 }", edge(TURN, "o!", "x >= 4", "x=5")), neither(2)),
            (3, unit("A { x <= 4 }", edge(TURN, "o!", "x >= 4", "x=4")), YES)]


def beats(assign):
    """An output at x = 3, each time with these assignments: after the first time it comes again when x is back at 3."""
    return unit("A { x <= 3 }", edge(TURN, "o!", "x >= 3", assign), channels="o")


def pairs():
    """Two texts and the run by which the left departs; None where the left has no implementation. The first two are SPECIFICATION 16.11."""
    P, third, overridden = POSTS, woken("assign x = 3;"), woken("assign x = 7, x = 1;")
    hush = swapped(WOKEN, (b"Wait -> Done { guard x >= 3; sync late!; },\n", b""))
    return [(WOKEN, POST, [2, 0, 0, 3]), (POST, WOKEN, [2, 0, 0, 0]), (WOKEN, WOKEN, []), (WOKEN, P["Rearm"], [2, 0, 0, 3]),
            (P["Rearm"], WOKEN, [2, 0, 0, 0]),
            (overridden, WOKEN, []), (WOKEN, overridden, []), (overridden, POST, [2, 0, 0, 3]), (POST, overridden, [2, 0, 0, 0]),
            (third, POST, [2, 3]), (POST, third, [2, 0]), (third, WOKEN, [2, 3]), (WOKEN, third, [2, 0]), (third, third, []),
            (WOKEN, P["Idle"], [0, 0, 0, 3]), (P["Idle"], WOKEN, [0] * 4), (P["Early"], WOKEN, [0, 0, 3]), (P["Strict"], WOKEN, [2, 0, 0, 0]),
            (WOKEN, P["Twice"], [2, 0, 0, 3]), (hush, WOKEN, None), (hush, POST, None), (WOKEN, hush, [0, 0, 0, 3]),
            (woken("assign x = 0;"), P["Rearm"], []), (P["Rearm"], woken("assign x = 1, x = 0;"), []),
            (beats("x=1"), beats("x"), [0, 0, 0, 1, 0, 0, 1]), (beats("x"), beats("x=1"), [0, 0, 0, 1, 0, 0, 0]),
            (beats("x=2 x=1"), beats("x=1"), []),
            (beats("x=1"), beats("x=1 x=2"), [0, 0, 0, 1, 0, 0]), (beats("x=3"), beats("x=2"), [0, 0, 0, 1, 1]),
            (beats("x=2"), beats("x=3"), [0, 0, 0, 1, 0]),
            (beats("x=3"), beats(""), []), (beats(""), beats("x=3"), []), (beats("x=4"), beats("x"), None),
            (beats("x=1"), beats("x=4"), [0, 0, 0, 1])]


def pairs_at_tick_lengths():
    """A tick length, two texts in milliseconds and the run."""
    return [(1000, sheet("assign x = 500;"), sheet("assign x = 1499;"), []),
            (1000, sheet("assign x = 499;"), sheet("assign x = 500;"), [2, 0, 0, 0]),
            (1000, sheet("assign x = 1000;"), SHEET, [2, 0, 0, 3]), (1000, SHEET, sheet("assign x = 1000;"), [2, 0, 0, 0]),
            (2, beats("x=1"), beats("x=2"), []), (3, beats("x=1"), beats("x"), []), (2000, sheet("assign x = 999;"), sheet("assign x = 0;"), [])]


# Woken joined with Post, with Post as the left, and with itself, byte for byte: these have the edges for `spike?` that differ
JOINED = (
    "broadcast chan pass , spike , late ; process p0 ( ) { clock c0 , c1 ; "
    "state l0 { c0 <= 3 && c1 <= 3 } , l1 { c0 <= 3 } , l2 { c1 <= 3 } , l3 ; init l0 ; trans "
    "l0 -> l3 { sync pass ? ; } , l1 -> l3 { sync pass ? ; } , "
    "l0 -> l0 { sync spike ? ; WAIT_WAIT} , l1 -> l1 { sync spike ? ; WAIT_DONE} , "
    "l0 -> l3 { guard c0 >= 3 && c1 >= 3 ; sync late ! ; } , "
    "l2 -> l3 { sync pass ? ; } , l3 -> l3 { sync pass ? ; } , "
    "l2 -> l2 { sync spike ? ; DONE_WAIT} , l3 -> l3 { sync spike ? ; } ; } system p0 ;\n")


def joined_posts(wait_wait, wait_done="", done_wait=""):
    return JOINED.replace("WAIT_WAIT", wait_wait).replace("WAIT_DONE", wait_done).replace("DONE_WAIT", done_wait).encode()


# at 10 milliseconds: 25 comes to 3, 94 to 9, 4 to 0 and 15 to 2 ticks; the left has two clocks and the right one
TWO_CLOCKS = assigning("y=25 x=94 y=4", clocks="x, y")
ONE_CLOCK = assigning("z=15", clocks="z")
TWO_AND_ONE = (b"broadcast chan i , o , p ; process p0 ( ) { clock c0 , c1 , c2 ; state l0 ; init l0 ; trans "
               b"l0 -> l0 { sync o ! ; assign c0 = 9 , c1 = 0 , c2 = 2 ; } ; } system p0 ;\n")
ONE_AND_TWO = (b"broadcast chan i , o , p ; process p0 ( ) { clock c0 , c1 , c2 ; state l0 ; init l0 ; trans "
               b"l0 -> l0 { sync o ! ; assign c0 = 2 , c1 = 9 , c2 = 0 ; } ; } system p0 ;\n")
# three clocks and none; the largest value, and one that is assigned beside one that is not
THREE_CLOCKS = assigning("z=1000 x", clocks="x, y, z")
NO_CLOCK = assigning("", clocks="")
THREE_AND_NONE = (b"broadcast chan i , o , p ; process p0 ( ) { clock c0 , c1 , c2 ; state l0 ; init l0 ; trans "
                  b"l0 -> l0 { sync o ! ; assign c0 = 0 , c2 = 1000 ; } ; } system p0 ;\n")
# parallel edges with one value, each written
PARALLEL = assigning("x=2 x=1", "x=1")
PARALLEL_AND_ONE = (b"broadcast chan i , o , p ; process p0 ( ) { clock c0 , c1 ; state l0 ; init l0 ; trans "
                    b"l0 -> l0 { sync o ! ; assign c0 = 1 , c1 = 15 ; } , l0 -> l0 { sync o ! ; assign c0 = 1 , c1 = 15 ; } ; } system p0 ;\n")


def written():
    """A tick length, two texts and the joined one (SPECIFICATION 18.5)."""
    left, right, two = "assign c0 = 1 ; ", "assign c1 = 1 ; ", "assign c0 = 1 , c1 = 1 ; "
    overridden = woken("assign x = 7, x = 1;")
    return [(TICK, WOKEN, POST, joined_posts(left, left)), (TICK, POST, WOKEN, joined_posts(right, "", right)),
            (TICK, WOKEN, WOKEN, joined_posts(two, left, right)), (TICK, overridden, POST, joined_posts(left, left)),
            (TICK, WOKEN, overridden, joined_posts(two, left, right)), (TICK, overridden, woken("assign x = 0, x = 3;"), joined_posts(
                "assign c0 = 1 , c1 = 3 ; ", left, "assign c1 = 3 ; ")),
            (10, TWO_CLOCKS, ONE_CLOCK, TWO_AND_ONE), (10, ONE_CLOCK, TWO_CLOCKS, ONE_AND_TWO), (TICK, THREE_CLOCKS, NO_CLOCK, THREE_AND_NONE),
            (TICK, NO_CLOCK, THREE_CLOCKS, THREE_AND_NONE), (TICK, PARALLEL, ONE_CLOCK, PARALLEL_AND_ONE),
            (1000, sheet("assign x = 1499;"), sheet(""), joined_posts(left, left)),
            (1000, sheet("assign x = 500;"), sheet("assign x = 3499;"), joined_posts(
                "assign c0 = 1 , c1 = 3 ; ", left, "assign c1 = 3 ; "))]


def read_again():
    """A tick length, two texts and the states of the joined one, by the constants that are written (SPECIFICATION 18.8)."""
    overridden, unmatched = woken("assign x = 7, x = 1;"), unit("A", clocks="y")
    return [*((TICK, left, right, 100) for left, right in ((WOKEN, POST), (POST, WOKEN), (WOKEN, WOKEN), (overridden, POST), (POST, overridden),
                                                          (overridden, overridden), (woken("assign x = 3;"), WOKEN))),
            (TICK, WOKEN, POSTS["Idle"], 40), (TICK, POSTS["Idle"], overridden, 40), (10, TWO_CLOCKS, ONE_CLOCK, 88),
            (10, ONE_CLOCK, TWO_CLOCKS, 88),
            (TICK, PARALLEL, ONE_CLOCK, 3 * 17), (TICK, PARALLEL, PARALLEL, 9),
            (TICK, assigning("x=9"), unmatched, 4), (TICK, unmatched, assigning("x=9"), 4),
            (TICK, assigning("x=9 x=3"), assigning("y", clocks="y"), 10)]


def at_limits():
    """Two texts and whether the joined one is within the limits: a value that is overridden, or has no match, counts no more."""
    def valued(assign, label="o!"):
        return assigning(assign, label=label)
    fits = {("x=62", "x=62"): True, ("x=62", "x=63"): False, ("x=63", "x=62"): False, ("x=63 x=62", "x=62"): True, ("x=62 x=63", "x=62"): False,
            ("x=1000 x=1", "x=3"): True, ("x=1 x=1000", "x=3"): False, ("x=1000", "x=2"): True, ("x=1000", "x=3"): False, ("x=3", "x=1000"): False,
            ("x=1000 x", "x=1000 x"): True, ("x=1000 x", "x=1000"): True, ("x=1000", "x=1000"): False}
    return [*((valued(a), valued(b), is_met) for (a, b), is_met in fits.items()), (valued("x=1000"), valued("x=1000", "p!"), True),
            (assigning("x=14 y=14", clocks="x, y"), assigning("z=14", clocks="z"), True),
            (assigning("x=14 y=14", clocks="x, y"), assigning("z=15", clocks="z"), False),
            (assigning("x=14 y=14", clocks="x, y"), assigning("z=15 z=14", clocks="z"), True)]


def together():
    """Two texts and whether some system satisfies both: after `spike?` Woken is a tick ahead of Post, and says `late!` too early for it."""
    return [(WOKEN, WOKEN, True), (WOKEN, POST, False), (POST, WOKEN, False), (WOKEN, woken("assign x = 7, x = 1;"), True),
            (WOKEN, POSTS["Loose"], False),
            (WOKEN, POSTS["Idle"], False), (WOKEN, woken("assign x = 3;"), False), (beats("x=1"), beats("x=1"), True),
            (beats("x=1"), beats("x=2"), False),
            (beats("x=2 x=1"), beats("x=1"), True), (beats("x=3"), beats(""), True)]


def refused():
    """A tick length, two texts that are not joined, and the refusal."""
    over, high, spike = woken("assign x = 1001, x = 1;"), woken("assign x = 4;"), b"Wait -> Wait { sync spike?; }"
    place, two = over.index(b"1001"), swapped(POST, (spike, spike + b",\nWait -> Wait { sync spike?; assign x = 1; }"))
    return [(TICK, over, POST, (6, 1, place, 0)), (TICK, POST, over, (6, 2, place, 0)), (TICK, high, POST, (10, 1, 0, 2)),
            (TICK, POST, high, (10, 2, 0, 2)),
            (TICK, two, POST, (11, 1, 0, 2)), (TICK, WOKEN, two, (11, 2, 0, 2)), (TICK, high, over, (10, 1, 0, 2)),
            (1000, POST, sheet("assign x = 3500;"), (10, 2, 0, 2))]
