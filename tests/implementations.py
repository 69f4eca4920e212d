"""Texts for the implementation check, each with the answer that SPECIFICATION 8.6 and 12.9 give it, worked out by hand.

An answer is what `implementation` of tests/reference.py gives: nothing, or a refusal. tests/make_cases.py holds the two against each
other. Constants are ticks, but in `at_tick_lengths`. Channels are i, o and p (1, 2 and 3) and the clock is x, where a text does not say
otherwise.
"""
import reference as ref
from texts import OUT_OF_RANGE, POST, POSTS, SHEET, beat, clocked, faults, late, rows, swapped, wide

YES = ()


def both(state, channel):
    """An output beside a tick."""
    return 22, 1, state, channel


def neither(state):
    """No tick and no output."""
    return 23, 1, state, 0


def edge(ends, label, guard="", assign=""):
    """Each word of `assign` is a clock, which is set to 0, or a clock and its value: `x y=3`."""
    before = f"guard {guard}; " if guard else ""
    pairs = [word.partition("=") for word in assign.split()]
    after = f" assign {', '.join(f'{clock} = {value or 0}' for clock, _, value in pairs)};" if pairs else ""
    return f"{ends} {{ {before}sync {label};{after} }}"


def unit(locations, *edges, init="", clocks="x", channels="i, o, p"):
    """A text from its parts as they stand in it; it starts in the first location where `init` says no other."""
    start = init or locations.split()[0].rstrip(",")
    declared = f"broadcast chan {channels};\n" if channels else ""
    timed = f"clock {clocks};\n" if clocks else ""
    trans = "trans\n" + ",\n".join(edges) + ";\n" if edges else ""
    return f"{declared}process P() {{\n{timed}state {locations};\ninit {start};\n{trans}}}\nsystem P;\n".encode()


def posts():
    """SPECIFICATION 16.8."""
    answers = {"Post": YES, "Rearm": YES, "Early": YES, "Idle": YES, "Strict": YES, "Spare": YES, "Hush": neither(3), "Loose": both(2, 3)}
    return [(POSTS[name], answer) for name, answer in answers.items()]


def refused_before():
    """Codes that reading gives come first, even where a fault is reachable too, and also for states that are not reachable."""
    loose, spare = [swapped(faults()[code], (b"x >= 3", b"x >= 2")) for code in (10, 11)], POSTS["Spare"]
    return [(b"", (2, 1, 0, 0)), (POST.ljust(ref.LIMITS["text"] + 1), (1, 1, 0, 0)),
            (loose[0], (10, 1, 5, 2)), (loose[1], (11, 1, 0, 1)),
            (swapped(spare, (b",\nOff -> Off { sync spike?; }", b"")), (10, 1, 10, 2)),
            (rows(17, 239), (9, 1, 4097, 0))]  # one state too many


def at_the_start():
    """The answer is there before any step, or there is no fault at all."""
    a = "A -> A"
    return [(unit("A", edge(a, "o!")), both(0, 2)),  # nothing forbids the tick
            (unit("A { x <= 0 }"), neither(0)),  # the invariant forbids it, and there is no output
            (unit("A { x <= 0 }", edge(a, "o!")), YES),  # an output for ever, and never a tick
            (unit("A { x <= 0 }", edge(a, "i?")), neither(0)),  # an input is neither a tick nor an output
            (unit("A", edge(a, "i?")), YES),  # an input beside a tick
            (unit("A { x <= 0 }", edge(a, "i?"), edge(a, "o!")), YES),  # an input beside an output
            (unit("A { x <= 0 }", edge(a, "o!"), edge(a, "p!")), YES),  # two outputs beside each other
            (unit("A { x <= 0 }, B", edge("A -> B", "o!")), YES),
            (unit("A { x <= 0 }, B", init="A"), neither(0)), (unit("A { x <= 0 }, B", init="B"), YES),  # the start is not always state 0
            (unit("A, B", edge("B -> A", "o!"), init="B"), both(2, 2))]


def without_clocks():
    """A tick leads to the same state and is always possible, so every output that is reachable is a fault."""
    there, back = edge("A -> B", "i?"), edge("B -> A", "i?")
    line = [edge(f"l{i} -> l{min(i + 1, 31)}", "i?") for i in range(32)]
    return [(unit("A", clocks="", channels=""), YES), (unit("A", clocks=""), YES),
            (unit("A, B", there, back, clocks=""), YES), (unit("A, B", there, back, edge("B -> A", "o!"), clocks=""), both(1, 2)),
            (unit("A, B", edge("A -> A", "i?"), back, edge("B -> A", "o!"), clocks=""), YES),  # no input leads to B
            (unit(", ".join(f"l{i}" for i in range(32)), *line, edge("l31 -> l0", "o!"), clocks=""), both(31, 2))]  # 31 inputs


def channels():
    """Of several outputs the lowest that is possible is given; inputs and channels without an edge are passed over."""
    a = "A -> A"
    o, p = edge(a, "o!"), edge(a, "p!")
    last = [edge(a, f"c{i}{'!' if i == 16 else '?'}") for i in range(1, 17)]
    return [(unit("A", edge(a, "i?"), edge(a, "j?"), p, o, channels="i, j, o, p"), both(0, 3)),  # p's edge is written first
            (unit("A", edge(a, "i?"), o, channels="o, i"), both(0, 1)),
            (unit("A { x <= 2 }", edge(a, "p!", "x >= 1"), edge(a, "o!", "x >= 1")), both(1, 2)),  # both at x = 1
            (unit("A, B", edge("A -> B", "i?"), edge("B -> B", "i?"), edge("B -> B", "p!"), edge("B -> A", "o!")), both(2, 2)),  # and in B
            (unit("A", o, channels="i, p, o"), both(0, 3)),  # i and p have no edge
            (unit("A", edge(a, "o!", "x > 5"), p), both(0, 3)),  # the guard of o is not true yet
            (unit("A, B { x <= 0 }", edge("A -> B", "o!", "x >= 1"), edge(a, "p!", "x >= 1")), both(1, 3)),  # B's invariant forbids o
            (wide(16), both(0, 2)),
            (unit("A", *last, channels=", ".join(f"c{i}" for i in range(1, 17))), both(0, 16))]


def signs():
    """Each sign at the last value of x that the invariant has, 2, and before it."""
    answers = {"x > 1": YES, "x >= 2": YES, "x == 2": YES, "x > 1 && x < 3": YES, "x > 0": both(1, 2), "x == 1": both(1, 2),
               "x < 1": both(0, 2), "x <= 2": both(0, 2), "x > 2": neither(2), "x < 0": neither(2)}
    texts = [(unit("A { x < 3 }, B", edge("A -> B", "o!", guard)), answer) for guard, answer in answers.items()]
    return texts + [(unit("A { x < 1 }"), neither(0)),
                    (unit("A", edge("A -> A", "o!", "x > 3")), both(4, 2))]  # state 4 is every value above 3


def behind():
    """One way only leads to the fault: an input, an output, ticks, or one after another."""
    stay_b = edge("B -> B", "i?")
    early, at_two = edge("A -> A", "i?", "x < 2"), edge("A -> B", "i?", "x >= 2")
    return [(unit("A, B { x <= 0 }", edge("A -> B", "i?", assign="x"), stay_b), neither(2)),
            (unit("A, B", edge("A -> B", "i?"), stay_b, edge("B -> B", "o!")), both(2, 2)),
            (unit("A, B", early, at_two, stay_b, edge("B -> B", "o!")), both(6, 2)),  # an input at x = 2, and B with x = 2
            (unit("A, B", early, edge("A -> B", "i?", "x >= 2", "x"), stay_b, edge("B -> B", "o!")), both(4, 2)),  # B with x = 0
            (unit("A { x <= 1 }, B", edge("A -> B", "o!", "x >= 1"), edge("B -> B", "p!")), both(4, 3)),
            (unit("A { x <= 1 }, B { x <= 1 }", edge("A -> B", "o!", "x >= 1")), neither(4)),
            (unit("A", edge("A -> A", "o!", "x == 3")), both(3, 2)), (rows(1, 3), neither(3)),  # ticks alone
            (unit("A, B { x <= 2 }, C", edge("A -> B", "i?", "x == 1"), edge("A -> A", "i?", "x < 1"), edge("A -> A", "i?", "x > 1"),
                  stay_b, edge("B -> C", "o!", "x >= 2"), edge("C -> C", "i?"), edge("C -> C", "p!")), both(10, 3))]  # tick, i, tick, o


def unreachable():
    """States with a fault to which no run leads, and beside some of them the change that makes a run."""
    stay, loop_b = edge("A -> A", "i?"), edge("B -> B", "p!", "x < 2")
    turn, beyond = edge("A -> A", "o!", "x >= 2", "x"), edge("A -> B", "p!", "x > 2", "x")
    together = edge("A -> A", "o!", "x == 0 && y == 1")
    return [(unit("A, B", edge("B -> B", "o!")), YES), (unit("A, B { x <= 0 }"), YES),  # no edge leads to B
            (unit("A, B, C", edge("B -> C", "o!"), edge("C -> C", "o!")), YES),  # an edge from B only
            (unit("A, B { x <= 0 }", edge("A -> B", "o!", "x < 0", "x")), YES),  # a guard that is never true
            (unit("A { x <= 2 }, B { x <= 0 }", turn, beyond), YES),  # a guard beyond the invariant
            (unit("A { x <= 2 }, B { x <= 0 }", edge("A -> A", "o!", "x >= 2"), edge("A -> B", "p!", "x >= 2", "x")), neither(4)),
            (unit("A, B { x <= 0 }", edge("A -> B", "o!", "x >= 1")), YES),  # the target's invariant does not hold
            (unit("A, B { x <= 0 }", edge("A -> B", "o!", "x >= 1", "x")), both(1, 2)),
            (unit("A { x <= 2 }, B", edge("A -> B", "o!", "x >= 2"), loop_b), YES),  # B never has x below 2
            (unit("A { x <= 2 }, B", edge("A -> B", "o!", "x >= 2", "x"), loop_b), both(4, 3)),
            (unit("A", stay, together, clocks="x, y"), YES),  # x and y go together
            (unit("A", edge("A -> A", "i?", assign="x"), together, clocks="x, y"), both(2, 2))]


def cycles():
    """States that are reachable only by going round, with clocks that are reset at different times."""
    ring = [edge(f"{a} -> {b}", "o!", "x >= 1", "x") for a, b in ("AB", "BC", "CA")]
    swing = [edge("A -> B", "i?", assign="x"), edge("B -> A", "i?", assign="y")]
    turn_x, turn_y = edge("A -> A", "o!", "x >= 2", "x"), edge("A -> A", "p!", "y >= 3", "y")
    return [(unit("A { x <= 1 }, B { x <= 1 }, C { x <= 1 }", *ring), YES),
            # A again after three ticks
            (unit("A { x <= 1 }, B { x <= 1 }, C { x <= 1 }", *ring, edge("A -> A", "p!", "y >= 3"), clocks="x, y"), both(9, 3)),
            # the sixth time round
            (unit("A { x <= 1 }", edge("A -> A", "o!", "x >= 1", "x"), edge("A -> A", "p!", "x == 0 && y == 5"), clocks="x, y"), both(15, 3)),
            # x every two ticks and y every three, so x = 1 and y = 0 after three; without the fault it is right
            (unit("A { x <= 2 && y <= 3 }", turn_x, turn_y, edge("A -> A", "q!", "x == 1 && y == 0"), clocks="x, y", channels="i, o, p, q"),
             both(1, 4)),
            (unit("A { x <= 2 && y <= 3 }", turn_x, turn_y, clocks="x, y"), YES),
            # A with x = 1 and y = 0 by way of B only
            (unit("A, B", *swing, edge("A -> A", "o!", "x == 1 && y == 0"), clocks="x, y"), both(1, 2))]


def resets():
    """What is reset decides what comes next."""
    short = "A { x <= 1 }, B { x <= 1 }"
    to_b, from_b = edge("A -> B", "o!", "x >= 1", "x"), edge("B -> A", "p!", "x == 0")
    return [(beat(3), YES), (beat(3, False), YES),  # without the reset the output comes for ever at 3
            (unit(short, to_b, from_b), both(3, 3)), (unit(short, edge("A -> B", "o!", "x >= 1"), from_b), neither(4)),
            (unit(short, edge("A -> B", "o!", "x >= 1", "x x"), edge("B -> A", "o!", "x >= 1", "x")), YES),  # twice is once
            (unit(short, edge("A -> B", "o!", "x >= 1", "y"), edge("B -> A", "o!", "y >= 1", "x"), clocks="x, y"), neither(10))]


def more_clocks():
    """Two and three clocks: `late!` waits for all of them, and the two inputs reset some."""
    return [(clocked((2, 2), (0,)), YES), (clocked((2, 2), (1,)), neither(2)), (clocked((2, 2), (0,), 1), both(5, 3)),
            (clocked((1, 1, 1), (0,)), YES), (clocked((1, 1, 1), (0, 1, 2)), YES), (clocked((1, 1, 1), (1, 2)), neither(1)),
            (clocked((1, 1, 1), (2,)), neither(4)), (clocked((2, 2, 2), (0,), 1), both(17, 3)),
            (unit("A, B { x <= 2 }", init="B", clocks="x, y"), neither(14))]  # the highest valid state


def two_faults():
    """A state with a tick beside an output and one with neither: the lower one is given, whichever a run meets first."""
    out, stay, enter = edge("A -> A", "o!", "x >= 2", "x"), edge("B -> B", "i?"), edge("A -> B", "i?", assign="x")
    late_enter = [edge("A -> B", "i?", "x >= 3", "x"), edge("A -> A", "i?", "x < 3")]
    a, b = "A { x <= 3 }", "B { x <= 0 }"
    return [(unit(f"{a}, {b}", out, enter, stay), both(2, 2)), (unit(f"{b}, {a}", out, enter, stay, init="A"), neither(0)),
            (unit(f"{b}, {a}", out, *late_enter, stay, init="A"), neither(0)),  # the other one is met first
            (unit(f"{a}, {b}", out, *late_enter, stay), both(2, 2)),
            (unit(a, edge("A -> A", "o!", "x == 1")), both(1, 2)),  # at x = 1 both, at x = 3 neither
            # i at x = 2 leaves neither with y = 0; with y = 3 and x = 0 both are possible
            (unit("A { x <= 2 }", edge("A -> A", "i?", assign="y"), edge("A -> A", "o!", "x >= 2 && y > 0", "x"),
                  edge("A -> A", "p!", "x == 0 && y == 3"), clocks="x, y"), neither(2))]


def not_pruned():
    """Moves out of the safe states count, though the start is safe."""
    to_b, to_c = edge("A -> B", "o!", "x >= 1"), edge("A -> C", "p!", "x >= 1")
    return [(unit("A { x <= 1 }, B, C { x <= 1 }", to_b, to_c), neither(7)), (unit("A { x <= 1 }, B, C", to_b, to_c), YES)]


def large():
    """The most states that a text can have, and runs through nearly all of them."""
    names = [f"l{i}" for i in range(16)]
    bounded, turns = [f"{n} {{ x <= 254 }}" for n in names], [edge(f"{a} -> {b}", "o!", "x >= 254", "x") for a, b in zip(names, names[1:])]
    free = ", ".join(bounded[:-1] + names[-1:])
    return [(rows(16, 254), YES),
            (unit(", ".join(bounded), *turns, edge("l15 -> l0", "o!", "x >= 254", "x")), YES),
            (unit(", ".join(bounded), *turns), neither(4094)),  # state 4095 is not valid
            (unit(free, *turns, edge("l15 -> l15", "p!", "x > 254")), both(4095, 3)),
            (late(1000), YES), (swapped(late(1000), (b"x >= 1000", b"x >= 999")), both(999, 3))]


def at_tick_lengths():
    """Constants in milliseconds, each with the tick length before it: SPECIFICATION 16.9, and bounds that move apart and together."""
    apart = unit("A { x <= 5 }", edge("A -> A", "o!", "x >= 4"))  # at 1, 2, 3, 10 and 11: 5 and 4, 3 and 2, 2 and 1, 1 and 0, 0 and 0
    below, long = unit("A { x < 1 }", edge("A -> A", "o!")), POST.ljust(ref.LIMITS["text"] + 1)
    no_time, loose = (2, 1, below.index(b"1 }"), 0), swapped(POSTS["Loose"], (b"3", b"3000"), (b"2", b"2500"))
    refused = [*((length, text) for length in OUT_OF_RANGE for text in (POST, b"", faults()[11])), (OUT_OF_RANGE[1], long)]
    return [*((length, text, (24, 0, length, 0)) for length, text in refused),
            (1, SHEET, (6, 1, SHEET.index(b"3000"), 0)), (400, SHEET, both(6, 3)), (1000, SHEET, YES), (2000, SHEET, both(1, 3)),
            (60000, SHEET, YES), (1, apart, both(4, 2)), (2, apart, both(2, 2)), (3, apart, both(1, 2)), (10, apart, both(0, 2)),
            (11, apart, YES), (2, below, YES), (3, below, no_time), (60000, below, no_time), (6, POST, YES), (7, POST, YES),
            (4, late(6), YES), (4, swapped(late(6), (b">= 6", b">= 5")), both(1, 3)), (1000, loose, YES),
            (1000, late(2499, POSTS["Hush"]), neither(2))]


def known():
    """All that are for tick length 1."""
    parts = (posts, refused_before, at_the_start, without_clocks, channels, signs, behind, unreachable, cycles, resets, more_clocks,
             two_faults, not_pruned, large)
    return [case for part in parts for case in part()]
