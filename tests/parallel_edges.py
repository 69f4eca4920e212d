"""Texts with several edges for one channel that give moves together, with what SPECIFICATION 7.2, 16.10 and 18.4 say of them,
worked out by hand: edges that lead to one state make one move, edges that lead to different states are 11.

tests/make_cases.py holds tests/reference.py against them, and makes stored cases of them. Constants are ticks, but in
`at_tick_lengths`. Channels are i, o and p (1, 2 and 3) and the clock is x, where a text does not say otherwise.
"""
import re
from itertools import permutations

from implementations import YES, both, edge, neither, unit
from texts import POST, POSTS, TICK, late, swapped

TWICE = POSTS["Twice"]
# edges for `pass?` from Wait: that of Post, one that leads elsewhere, one that leaves another value of x
PLAIN, ELSEWHERE, RESET = (f"{ends} {{ sync pass?;{after} }}" for ends, after in (
    ("Wait -> Done", ""), ("Wait -> Wait", ""), ("Wait -> Done", " assign x = 0;")))
# an input and an output, each with its number
LABELS = (("i?", 1), ("o!", 2))


def different(state, channel):
    """The beginning of the line for edges that lead to different states."""
    return f" refused 11 1 {state} {channel} |"


def without(state, channel):
    return f" refused 10 1 {state} {channel} |"


def accepted(states):
    return f" states {states} |"


def passing(*edges):
    """Post with these edges for `pass?` from Wait."""
    return swapped(POST, (PLAIN.encode(), ",\n".join(edges).encode()))


def orders(*edges):
    """Every order of these edges, each once."""
    return sorted(set(permutations(edges)))


def repeated(text, times=2):
    """The text with every edge so many times: it means the same (SPECIFICATION 6.3)."""
    return re.sub(rb"\w+ -> \w+ \{[^}]*\}", lambda found: b",\n".join([found[0]] * times), text)


def posts():
    """SPECIFICATION 16.10: Twice has the states of Post, and each of three edges counts, wherever it stands."""
    same = " states 10 | refused 13 0 2 0 keep 170 | safe 9 yes keep 247 192"
    three = [((PLAIN, PLAIN, ELSEWHERE), different(0, 1)), ((PLAIN, ELSEWHERE, ELSEWHERE), different(0, 1)),
             ((PLAIN, ELSEWHERE, RESET), different(0, 1)), ((PLAIN, PLAIN, RESET), different(1, 1)),
             ((PLAIN, RESET, RESET), different(1, 1)), ((PLAIN, PLAIN, PLAIN), same), ((RESET, RESET, RESET), accepted(10)),
             ((ELSEWHERE, ELSEWHERE, ELSEWHERE), accepted(10)), ((PLAIN, PLAIN, PLAIN, ELSEWHERE), different(0, 1)),
             ((PLAIN, PLAIN, PLAIN, RESET), different(1, 1))]
    return [(TWICE, same), (passing(PLAIN, PLAIN), same), (passing(PLAIN, ELSEWHERE), different(0, 1)),
            (passing(PLAIN, RESET), different(1, 1)), (passing(ELSEWHERE, PLAIN), different(0, 1)),
            (passing(RESET, PLAIN), different(1, 1)), (repeated(POST), same), (repeated(POST, 9), same),
            *((passing(*order), line) for edges, line in three for order in orders(*edges)),
            # `late!` comes at x = 3 only, the last value with which Wait may be left
            *((swapped(POST, (b"Wait -> Done { guard x >= 3; sync late!; }", ",\n".join(order).encode())), different(3, 3))
              for order in orders("Wait -> Done { guard x >= 3; sync late!; }", "Wait -> Done { guard x >= 2; sync late!; }",
                                  "Wait -> Wait { guard x >= 3; sync late!; }"))]


def guarded(label, channel):
    """Guards that let edges meet in some values of x only: 0, where a reset makes no difference, 2, or none."""
    def split(first, second, reset="x"):
        return unit("A", edge("A -> A", label, first), edge("A -> A", label, second, reset))

    def apart(first, second):
        return unit("A, B", edge("A -> A", label, first), edge("A -> B", label, second), edge("B -> B", label))
    three = [edge("A -> A", label, "x <= 1"), edge("A -> A", label, "x >= 1"), edge("A -> B", label, "x == 1")]
    return [(split("", "x <= 0"), accepted(2)), (split("", "x < 1"), accepted(3)), (split("", "x == 0"), accepted(2)),
            (split("", "x <= 1"), different(1, channel)), (split("x <= 0", "x >= 0"), accepted(2)),
            (split("x < 2", "x >= 2"), accepted(4)), (split("x <= 2", "x >= 2"), different(2, channel)),
            (split("x <= 2", "x >= 2", reset=""), accepted(4)), (split("x <= 2", "x >= 0", reset=""), accepted(4)),
            (split("", ""), different(1, channel)), (split("", "", reset=""), accepted(2)), (split("x >= 0", "x < 0"), accepted(2)),
            (split("x >= 1", "x <= 2"), different(1, channel)), (split("x <= 3", "x > 2"), different(3, channel)),
            (apart("x < 2", "x >= 2"), accepted(8)), (apart("x <= 2", "x >= 2"), different(2, channel)),
            (apart("x <= 0", "x >= 0"), different(0, channel)), (apart("", "x < 0"), accepted(4)), (apart("", "x > 2"), different(3, channel)),
            # three edges that meet at x = 1 only
            *((unit("A, B", *order, edge("B -> B", label)), different(1, channel)) for order in orders(*three)),
            (unit("A", edge("A -> A", label, "x <= 2"), edge("A -> A", label, "x >= 1"), edge("A -> A", label, "x == 1")), accepted(4))]


def strict(label, channel):
    """Guards with a value at which two of them hold, at a strict sign's constant or beside it: that state, as each edge leads elsewhere."""
    shared = {("x <= 3", "x > 2"): 3, ("x < 4", "x >= 3"): 3, ("x < 4", "x > 2"): 3, ("x < 3", "x >= 3", "x > 3"): 4, ("x < 3", "x <= 3"): 0,
              ("x < 1", ""): 0, ("x > 0", ""): 1}
    stays = [edge("B -> B", label), edge("C -> C", label)]
    return [(unit("A, B, C", *(edge(f"A -> {to}", label, guard) for to, guard in zip("ABC", guards)), *stays), different(state, channel))
            for guards, state in shared.items()]


def entered(label, channel):
    """The invariant of the target, and not a guard, says where an edge gives a move."""
    def text(bound, *edges):
        return unit(f"A, B {{ x <= {bound} }}", *(edge(*e[:1], label, *e[1:]) for e in edges), edge("B -> B", label))
    return [(text(1, ("A -> A",), ("A -> B", "x >= 2")), accepted(8)), (text(1, ("A -> A",), ("A -> B", "x >= 2", "x")), different(2, channel)),
            (text(1, ("A -> B",), ("A -> A", "x >= 2")), accepted(8)), (text(1, ("A -> B",), ("A -> A", "x >= 1")), different(1, channel)),
            # with x above 0 only the edge that resets it gives a move
            (text(0, ("A -> B",), ("A -> B", "", "x")), accepted(4)), (text(0, ("A -> B", "", "x"), ("A -> B",)), accepted(4)),
            (text(1, ("A -> B",), ("A -> B", "", "x")), different(1, channel)), (text(1, ("A -> B", "", "x"), ("A -> B",)), different(1, channel)),
            (text(2, ("A -> B", "x < 2"), ("A -> B", "x > 1", "x")), accepted(8)),
            (text(2, ("A -> B", "x < 3"), ("A -> B", "x > 1", "x")), different(2, channel))]


def clocks(label, channel):
    """Several clocks, none compared where no guard says otherwise, so with the values 0 and 1: one of them alone may differ."""
    def text(names, *resets, guards=("", "", "")):
        return unit("A", *(edge("A -> A", label, guard, reset) for reset, guard in zip(resets, guards)), clocks=names)
    two, three = "x, y", "x, y, z"
    return [(text(two, "x", "x y"), different(2, channel)), (text(two, "y", "x y"), different(1, channel)),
            (text(two, "x y", "x y"), accepted(4)), (text(two, "x y", "y x"), accepted(4)), (text(two, "x x", "x"), accepted(4)),
            (text(two, "x", "y"), different(1, channel)), (text(two, "y", "x"), different(1, channel)), (text(two, "", "y"), different(2, channel)),
            (text(two, "x", "x y", guards=("", "y <= 0")), accepted(4)), (text(two, "x", "x y", guards=("", "x <= 0")), different(2, channel)),
            (text(three, "x y", "x y z"), different(4, channel)), (text(three, "x z", "x y z"), different(2, channel)),
            (text(three, "y z", "x y z"), different(1, channel)), (text(three, "", "z"), different(4, channel)),
            (text(three, "x y z", "z y x"), accepted(8)), (text(three, "", "x y z", guards=("", "x <= 0 && y <= 0 && z <= 0")), accepted(8)),
            (text(three, "", "x y z", guards=("", "x <= 0 && y <= 0")), different(4, channel)),
            (text(three, "", "x y z", guards=("", "x <= 0 && z <= 0")), different(2, channel)),
            # z has the values 0 to 3 and x and y 0 and 1: x = 0, y = 0 and z = 2
            (text(three, "x y", "x y z", guards=("", "z >= 2")), different(8, channel)),
            *((text(three, *order), different(4, channel)) for order in orders("x", "x", "x z")),
            *((text(two, *order), different(2, channel)) for order in orders("x", "x", "x y"))]


def above(label, channel):
    """The value M + 1 stands for every one above M: there a reset makes a difference."""
    def text(bound, reset="x"):
        return unit("A", edge("A -> A", label), edge("A -> A", label, f"x > {bound}", reset))
    return [(text(2), different(3, channel)), (text(2, ""), accepted(4)), (text(0), different(1, channel)), (text(0, ""), accepted(2)),
            (text(1000), different(1001, channel)), (text(1000, ""), accepted(1002)),
            (unit("A", edge("A -> A", label, "x <= 2"), edge("A -> A", label, "x > 2"), edge("A -> A", label, "x > 2", "x")), different(3, channel))]


def targets(label, channel):
    """Another location is another state, whatever the clocks are."""
    stays = [edge(f"{place} -> {place}", label) for place in "BC"]
    return [(unit("A, B, C", edge(f"A -> {a}", label, "", "x"), edge(f"A -> {b}", label, "", "x"), *stays),
             accepted(6) if a == b else different(0, channel)) for a in "ABC" for b in "ABC"]


def not_judged(label, channel):
    """Edges that differ only where the invariant of their own location is false; with the bound one higher they do not."""
    def text(bound, second):
        return unit(f"A {{ x <= {bound} }}, B", edge("A -> B", label), second, edge("B -> B", label))
    late_reset, late_turn = edge("A -> B", label, "x >= 2", "x"), edge("A -> A", label, "x >= 2")
    return [(text(1, late_reset), accepted(8)), (text(2, late_reset), different(2, channel)), (text(1, late_turn), accepted(8)),
            (text(2, late_turn), different(2, channel)), (text(0, edge("A -> B", label, "", "x")), accepted(4))]


def orders_of_faults():
    """The lowest state with a fault, and in it the lowest channel, whichever code it is (SPECIFICATION 7.2)."""
    a, b = "A -> A", "A -> B"
    stay, none_at_1 = edge("B -> B", "i?"), edge(a, "i?", "x < 1")
    outputs, late_outputs = [edge(a, "o!"), edge(b, "o!")], [edge(a, "o!", "x >= 1"), edge(b, "o!", "x >= 1")]
    doubled = [edge(a, "i?", "x <= 0"), edge(a, "i?", "x == 0")]
    return [(unit("A, B", none_at_1, stay, *outputs), different(0, 2)), (unit("A, B", none_at_1, stay, *late_outputs), without(1, 1)),
            (unit("A, B", edge(a, "i?", "x > 0"), stay, *outputs), without(0, 1)),
            (unit("A, B", edge(a, "i?", "x > 0"), stay, *outputs, channels="o, i"), different(0, 1)),
            (unit("A, B", edge(a, "i?", "x > 1"), edge(a, "i?", "x < 1"), stay, *outputs[:1], edge(b, "o!", "x >= 2")), without(1, 1)),
            (unit("A", *doubled), without(1, 1)), (unit("A, B", *doubled, stay, *outputs), different(0, 2)),
            # i differs from x = 2 on, o from x = 1 on; both from x = 1 on; p alone
            (unit("A", edge(a, "i?"), edge(a, "i?", "x >= 2", "x"), edge(a, "o!"), edge(a, "o!", "", "x")), different(1, 2)),
            (unit("A", edge(a, "i?"), edge(a, "i?", "", "x"), edge(a, "o!"), edge(a, "o!", "", "x")), different(1, 1)),
            (unit("A", edge(a, "i?"), edge(a, "i?"), edge(a, "o!"), edge(a, "o!"), edge(a, "p!"), edge(a, "p!", "", "x")), different(1, 3)),
            # the fault of B is behind all states of A; edges of the two stand by turns
            (unit("A, B", edge(a, "i?"), edge("B -> A", "i?"), edge(a, "i?"), edge("B -> B", "i?")), different(2, 1))]


def many(label, channel):
    """As many edges as there may be."""
    same, other = edge("A -> A", label), edge("A -> B", label)
    stay = edge("B -> B", label)
    return [(unit("A", *[same] * 128), accepted(2)), *((unit("A, B", *[same] * n, other, *[same] * (126 - n), stay), different(0, channel))
                                                       for n in (0, 1, 63, 126)),
            (unit("A, B", *[same] * 127, stay), accepted(4))]


def readings():
    """A text and the beginning of the line that test_clocks prints."""
    parts = (guarded, strict, entered, clocks, above, targets, not_judged)
    by_label = [case for part in parts for label in LABELS for case in part(*label)]
    return [*posts(), *by_label, *orders_of_faults(), *many("i?", 1), *many("o!", 2)[1:3]]


def at_tick_lengths():
    """A tick length, a text in milliseconds and the beginning of the line: rounding lets the edges meet nowhere, at x = 1, or at 0."""
    text = unit("A", edge("A -> A", "i?", "x <= 1499"), edge("A -> A", "i?", "x >= 1500", "x"))
    return [(1000, text, accepted(4)), (2000, text, different(1, 1)), (4000, text, accepted(2)), (60000, text, accepted(2)),
            (1000, TWICE, accepted(4)), (60000, repeated(late(3000)), accepted(4)), (1000, repeated(late(3000)), accepted(10)),
            (1000, swapped(late(3000, TWICE), (b"sync spike?; }", b"sync spike?; assign x = 0; }")), accepted(10))]


def implementations():
    """Texts for the implementation check with their answers (SPECIFICATION 8.6): parallel outputs are one output."""
    a, short = "A -> A", "A { x <= 2 }"
    turn, stay = edge(a, "o!", "x >= 2", "x"), edge("B -> B", "i?")
    loose = swapped(POST, (b"Wait -> Done { guard x >= 3; sync late!; }",
                           b"Wait -> Done { guard x >= 3; sync late!; },\nWait -> Done { guard x >= 2; sync late!; }"))
    known = {"Post": YES, "Rearm": YES, "Early": YES, "Idle": YES, "Strict": YES, "Spare": YES, "Hush": neither(3), "Loose": both(2, 3)}
    return [(TWICE, YES), *((repeated(POSTS[name]), answer) for name, answer in known.items()), (loose, both(2, 3)),
            (unit(short, turn, turn), YES), (unit(short, turn, edge(a, "o!", "x >= 1", "x")), both(1, 2)),
            (unit(short, turn, edge(a, "o!", "x == 2", "x"), turn), YES), (unit(short, turn, turn, edge(a, "p!", "x == 2", "x")), YES),
            (unit(short, turn, edge(a, "p!", "x == 1"), edge(a, "p!", "x == 1")), both(1, 3)),
            (unit("A { x <= 0 }, B { x <= 1 }", edge("A -> B", "o!"), edge("A -> B", "o!")), neither(4)),
            (unit("A { x <= 0 }, B { x <= 1 }", edge("A -> B", "o!"), edge("A -> B", "o!", "", "x")), neither(4)),
            (unit("A, B", edge("A -> B", "i?"), edge("A -> B", "i?"), stay, stay, edge("B -> B", "o!")), both(2, 2)),
            # B is entered with x at 0 only, where it can neither wait nor say anything
            (unit("A, B { x <= 0 }", edge("A -> B", "i?"), edge("A -> B", "i?", "", "x"), stay), neither(2)),
            (unit("A, B { x <= 0 }", edge("A -> B", "i?"), edge("A -> B", "i?", "", "x"), stay, edge("B -> B", "p!"), edge("B -> B", "p!")), YES),
            # what is refused before, with two edges and with three
            *((unit(short, *order), (11, 1, 2, 2)) for order in orders(turn, turn, edge(a, "o!", "x >= 2"))),
            *((unit("A, B", *order, stay), (11, 1, 0, 1)) for order in orders(edge(a, "i?"), edge(a, "i?"), edge("A -> B", "i?"))),
            (unit(short, turn, edge(a, "o!", "x >= 2")), (11, 1, 2, 2)), (unit("A, B", edge(a, "o!"), edge("A -> B", "o!")), (11, 1, 0, 2)),
            (unit("A { x <= 1 }", edge(a, "o!", "x == 0"), edge(a, "o!", "x <= 0", "x")), both(0, 2)),
            (unit("A { x <= 1 }", edge(a, "i?"), edge(a, "i?", "x >= 2", "x")), neither(1))]


def pairs():
    """Two texts and the run by which the left departs; None where the left has no implementation. Edges that are written again
    change nothing, on either side and on both."""
    P = POSTS
    known = [("Post", "Post", []), ("Rearm", "Post", [0, 0, 0, 2, 0]), ("Early", "Post", [0, 0, 3]), ("Idle", "Post", [0] * 4),
             ("Post", "Hush", [0, 0, 0, 3]), ("Strict", "Post", []), ("Hush", "Post", None)]
    out = [(TWICE, POST, []), (POST, TWICE, []), (TWICE, TWICE, []), (P["Rearm"], TWICE, [0, 0, 0, 2, 0]), (TWICE, P["Idle"], [0, 0, 0, 3])]
    for left, right, run in known:
        out += [(repeated(P[left]), P[right], run), (P[left], repeated(P[right], 3), run), (repeated(P[left], 3), repeated(P[right]), run)]
    either = swapped(POST, (b"guard x >= 3; sync late!; }", b"guard x >= 3; sync late!; },\nWait -> Done { guard x >= 2; sync late!; }"))
    meeting = swapped(POST, (PLAIN.encode(), b"Wait -> Done { guard x <= 2; sync pass?; },\nWait -> Done { guard x >= 1; sync pass?; }"))
    zero = swapped(POST, (PLAIN.encode(), PLAIN.encode() + b",\nWait -> Done { guard x <= 0; sync pass?; assign x = 0; }"))
    return out + [(either, POST, [0, 0, 3]), (POST, either, []), (either, P["Loose"], []), (P["Loose"], either, []), (meeting, TWICE, []),
                  (TWICE, meeting, []), (meeting, P["Idle"], [0, 0, 0, 3]), (zero, TWICE, []), (TWICE, zero, []), (P["Rearm"], zero, [0, 0, 0, 2, 0])]


# SPECIFICATION 16.10: Twice joined with itself, byte for byte; the pairs of its edges go by the left one, then by the right one
TWICE_JOINED = (
    b"broadcast chan pass , spike , late ; process p0 ( ) { clock c0 , c1 ; "
    b"state l0 { c0 <= 3 && c1 <= 3 } , l1 { c0 <= 3 } , l2 { c1 <= 3 } , l3 ; init l0 ; trans "
    b"l0 -> l3 { sync pass ? ; } , l0 -> l3 { sync pass ? ; } , l1 -> l3 { sync pass ? ; } , "
    b"l0 -> l3 { sync pass ? ; } , l0 -> l3 { sync pass ? ; } , l1 -> l3 { sync pass ? ; } , "
    b"l0 -> l0 { sync spike ? ; } , l1 -> l1 { sync spike ? ; } , "
    b"l0 -> l3 { guard c0 >= 3 && c1 >= 3 ; sync late ! ; } , "
    b"l2 -> l3 { sync pass ? ; } , l2 -> l3 { sync pass ? ; } , l3 -> l3 { sync pass ? ; } , "
    b"l2 -> l2 { sync spike ? ; } , l3 -> l3 { sync spike ? ; } ; } system p0 ;\n")
# two edges that meet at x = 0, where a reset makes no difference, joined with three that are the same but for a guard
MEETING = unit("A", edge("A -> A", "o!"), edge("A -> A", "o!", "x <= 0", "x"), channels="o")
SAME = unit("A", edge("A -> A", "o!"), edge("A -> A", "o!", "y > 1"), edge("A -> A", "o!"), clocks="y", channels="o")
MEETING_AND_SAME = (
    b"broadcast chan o ; process p0 ( ) { clock c0 , c1 ; state l0 ; init l0 ; trans "
    b"l0 -> l0 { sync o ! ; } , l0 -> l0 { guard c1 > 1 ; sync o ! ; } , l0 -> l0 { sync o ! ; } , "
    b"l0 -> l0 { guard c0 <= 0 ; sync o ! ; assign c0 = 0 ; } , l0 -> l0 { guard c0 <= 0 && c1 > 1 ; sync o ! ; assign c0 = 0 ; } , "
    b"l0 -> l0 { guard c0 <= 0 ; sync o ! ; assign c0 = 0 ; } ; } system p0 ;\n")


def written():
    """A tick length, two texts and the joined one: no edges are merged (SPECIFICATION 18.4)."""
    return [(TICK, TWICE, TWICE, TWICE_JOINED), (TICK, MEETING, SAME, MEETING_AND_SAME)]


def read_again():
    """Two texts and the states of the joined one, which is accepted (SPECIFICATION 17.10)."""
    inputs = unit("A, B", *[edge("A -> B", "i?")] * 3, edge("B -> B", "i?"), channels="i")
    entering = unit("A, B { x <= 0 }", edge("A -> B", "i?"), edge("A -> B", "i?", "", "x"), edge("B -> B", "i?"), channels="i")
    return [(TWICE, TWICE, 100), (TWICE, POST, 100), (POST, TWICE, 100), (TWICE, POSTS["Idle"], 40), (POSTS["Idle"], TWICE, 40),
            (MEETING, SAME, 6), (SAME, MEETING, 6), (MEETING, MEETING, 4), (SAME, SAME, 9), (inputs, inputs, 16), (inputs, entering, 16),
            (entering, inputs, 16), (entering, entering, 16), (repeated(POST), repeated(POSTS["Early"], 3), 80),
            (repeated(POSTS["Rearm"], 3), POSTS["Loose"], 100), (repeated(POSTS["Spare"]), repeated(POSTS["Strict"]), 180)]


def refused():
    """Two texts that are not joined, and the refusal: three edges for one channel in the left or the right, of which one leads elsewhere."""
    left = [(passing(*order), TWICE, (11, 1, 0, 1)) for order in orders(PLAIN, PLAIN, ELSEWHERE)]
    right = [(TWICE, passing(*order), (11, 2, 1, 1)) for order in orders(PLAIN, PLAIN, RESET)]
    return [*left, *right, (passing(PLAIN, RESET), passing(PLAIN, ELSEWHERE), (11, 1, 1, 1))]


def at_limits():
    """Two texts and whether the joined one is within the limits: so many parallel edges, of which every pair is written."""
    def parallel(edges, others=0):
        return unit("A", *[edge("A -> A", "o!")] * edges, *[edge("A -> A", "p!")] * others, clocks="", channels="o, p")
    counts = {(8, 16): True, (16, 8): True, (128, 1): True, (1, 128): True, (2, 64): True, (11, 12): False, (43, 3): False, (3, 43): False,
              (65, 2): False, (128, 2): False, (128, 128): False}
    return [*((parallel(a), parallel(b), fits) for (a, b), fits in counts.items()), (parallel(8, 8), parallel(8, 8), True),
            (parallel(8, 8), parallel(8, 9), False), (parallel(127, 1), parallel(1, 1), True), (parallel(64, 64), parallel(2), True),
            # Post has 2, 2 and 1 edges for its channels
            (repeated(POST, 3), repeated(POST, 4), True), (repeated(POST, 3), repeated(POST, 5), False),
            (repeated(POST, 14), POST, True), (repeated(POST, 15), POST, False), (POST, repeated(POST, 15), False)]


def together():
    """Two texts and whether some system satisfies both: that edges are written again makes no difference."""
    known = {("Post", "Post"): True, ("Post", "Rearm"): False, ("Post", "Loose"): True, ("Loose", "Early"): True, ("Hush", "Idle"): False,
             ("Rearm", "Rearm"): True}
    return [(repeated(POSTS[a]), repeated(POSTS[b], times), is_met) for (a, b), is_met in known.items() for times in (1, 2)]
