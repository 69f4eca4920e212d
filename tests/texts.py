"""Texts for the tests: the examples, texts with one fault each, texts of a given size, and random ones (seeded by the caller).

Their constants are ticks; `in_milliseconds` writes them for another tick length than 1."""
import re
from copy import copy
from functools import partial
from pathlib import Path

import reference as ref

POSTS = {p.stem: p.read_bytes() for p in sorted((Path(__file__).parent.parent / "examples").glob("*.xta"))}
POST, SHEET = POSTS["Post"], POSTS["Sheet"]
TICK = ref.PROGRAM_TICK  # the tick length with which a constant is as many ticks as it says
OUT_OF_RANGE = (0, ref.TICK_LENGTHS[-1] + 1, 2 ** 64 - 1)  # words that are no tick length


def swapped(text, *pairs):
    """The text with each of the old parts, which must be there, as the new one."""
    for old, new in pairs:
        assert old in text, old
        text = text.replace(old, new)
    return text


def faults(text=POST):
    """For each code that reading gives, a text with that fault; code 1 is a matter of length alone (padded)."""
    wait, done = b"Wait -> Wait { sync spike?; },", b"Done -> Done { sync pass?; },"
    second = b"Wait -> Wait { sync pass?; },"
    return {
        2: swapped(text, (b"clock x;", b"clock ;")),
        3: text.replace(b"Wait ->", b"W" * 32 + b" ->", 1),
        4: swapped(text, (b"clock x", b"clock late")),
        5: swapped(text, (b"init Wait", b"init late")),
        6: swapped(text, (b"x >= 3", b"x >= 1001")),
        7: swapped(text, (b"x <= 3", b" && ".join([b"x <= 3"] * 5))),
        8: swapped(text, (done, done.replace(b"pass", b"late"))),
        9: swapped(text, (b"clock x", b"clock x, y"), (b"x >= 3", b"x >= 1000 && y >= 3")),
        10: swapped(text, (b",\nDone -> Done { sync spike?; };", b";")),
        11: swapped(text, (wait, wait + second)),
    }


def rows(locations, bound, clocks=1):
    """So many locations with no edge and clocks compared with the bound: locations × (bound + 2) to the power of the clocks states."""
    names = ["x", "y", "z"][:clocks]
    places = [f"l{i}" for i in range(locations)]
    places[0] += " { " + " && ".join(f"{c} <= {bound}" for c in names) + " }" if clocks else ""
    declared = f"clock {', '.join(names)}; " if clocks else ""
    return f"process P() {{ {declared}state {', '.join(places)}; init l{locations - 1}; }} system P;".encode()


def late(bound, text=POST):
    """Post, or a text made from it, with another bound: twice (bound + 2) states."""
    return text.replace(b"= 3", b"= %d" % bound)


def beat(bound, reset=True):
    """One location that has to say `late!` when its clock is at the bound: bound + 2 states, of which the last is not valid."""
    assign = " assign x = 0;" if reset else ""
    return (f"broadcast chan late; process Beat() {{ clock x; state On {{ x <= {bound} }}; init On;\n"
            f"trans On -> On {{ guard x >= {bound}; sync late!;{assign} }}; }} system Beat;\n").encode()


def clocked(bounds, reset, late_at=0):
    """Two or three clocks, two inputs and an output: `go?` sets the first clock to 0, `stop?` those of `reset`."""
    names = ["x", "y", "z"][:len(bounds)]
    guard = " && ".join(f"{c} >= {max(b - late_at, 0)}" for c, b in zip(names, bounds))
    assign = ", ".join(f"{names[k]} = 0" for k in reset)
    return (f"broadcast chan go, stop, late;\nprocess Many() {{\nclock {', '.join(names)};\n"
            f"state On {{ {names[0]} <= {bounds[0]} }};\ninit On;\ntrans\n"
            f"On -> On {{ sync go?; assign {names[0]} = 0; }},\n"
            f"On -> On {{ sync stop?;{' assign ' + assign + ';' if reset else ''} }},\n"
            f"On -> On {{ guard {guard}; sync late!; assign {', '.join(c + ' = 0' for c in names)}; }};\n}}\nsystem Many;\n").encode()


def bounded(invariant):
    """Post with another invariant."""
    return swapped(POST, (b"x <= 3", invariant))


def guarded(guards, mark="?"):
    """One location and one channel, an edge for each guard."""
    edges = ", ".join(f"A -> A {{ guard {g}; sync a{mark}; }}" if g else f"A -> A {{ sync a{mark}; }}" for g in guards)
    return f"broadcast chan a; process P() {{ clock x; state A; init A; trans {edges}; }} system P;".encode()


def wide(count):
    """So many channels, inputs and outputs by turns."""
    names = [f"c{i}" for i in range(count)]
    edges = ", ".join(f"A -> A {{ sync {n}{'?!'[i % 2]}; }}" for i, n in enumerate(names))
    return f"broadcast chan {', '.join(names)}; process P() {{ state A; init A; trans {edges}; }} system P;".encode()


def long_edges(count, locations=8):
    """So many edges: outputs `o` at single values of the clock."""
    edges = ", ".join(f"l{i % locations} -> l{(i + 1) % locations} {{ guard x == {i // locations}; sync o!; }}" for i in range(count))
    places = ", ".join(f"l{i}" for i in range(locations))
    return f"broadcast chan o; process P() {{ clock x; state {places}; init l0; trans {edges}; }} system P;".encode()


def constraint(rng, clocks, most, in_invariant=False):
    """One comparison or two; in an invariant `<` has now and then the 0 that is refused (SPECIFICATION 3.2)."""
    def comparison():
        sign = rng.choice(list(ref.INVARIANT_SIGNS if in_invariant else ref.SIGNS))
        least = 1 if in_invariant and sign == "<" and rng.random() < 0.97 else 0
        return f"{rng.choice(clocks)} {sign} {rng.randrange(least, most + 1)}"
    return " && ".join(comparison() for _ in range(rng.choice((1, 1, 2))))


def split(rng, clock, most):
    """Two guards that share the values of a clock, each with a strict sign or without; now and then they miss or share one."""
    low = high = rng.randrange(1, most + 1)  # the first value that the second guard is to have
    if rng.random() < 0.04:
        low, high = rng.choice(((low + 1, high), (low, high + 1)))
    return (rng.choice((f"{clock} < {low}", f"{clock} <= {low - 1}")), rng.choice((f"{clock} >= {high}", f"{clock} > {high - 1}")))


def late_value(rng, most):
    """What a clock is set to: mostly 0, else a value that an invariant may allow, now and then one more."""
    return rng.randrange(1, most + 2) if rng.random() < 0.3 else 0


def random_edges(rng, channels, clocks, locations, most):
    """Each input has an edge without a guard, or two that share the values of a clock, in each location."""
    edges = []

    def edge(source, guard, label):
        chosen = rng.sample(clocks, rng.choice((0, 0, 1, 1, len(clocks)))) if clocks else []
        chosen += rng.sample(chosen, 1) if chosen and rng.random() < 0.06 else []  # a clock that is assigned twice
        assign = f"assign {', '.join(f'{c} = {late_value(rng, most)}' for c in chosen)}; " if chosen else ""
        edges.append(f"{source} -> {rng.choice(locations)} {{ {guard}sync {label}; {assign}}}")
    for name, mark in channels:
        for source in locations if mark != "-" else ():
            if mark == "!" and rng.random() < 0.7:
                guard = f"guard {constraint(rng, clocks, most)}; " if clocks and rng.random() < 0.6 else ""
                edge(source, guard, name + mark)
            elif mark == "?" and clocks and rng.random() < 0.3:
                for guard in split(rng, rng.choice(clocks), most):
                    edge(source, f"guard {guard}; ", name + mark)
            elif mark == "?":
                for _ in range(1 if rng.random() < 0.96 else 2):
                    edge(source, "", name + mark)
    return edges


def random_text(rng, channels, clocks, most):
    """A small text; most are accepted. A channel's mark is `?`, `!` or, for a channel that no edge names, `-`."""
    locations = [f"L{i}" for i in range(rng.choice((1, 2, 2, 3) if len(clocks) < 3 else (1, 1, 2)))]
    bounded = 0.4 if len(clocks) < 3 else 0.25
    declared = [l + (f" {{ {constraint(rng, clocks, most, in_invariant=True)} }}" if clocks and rng.random() < bounded else "") for l in locations]
    edges = random_edges(rng, channels, clocks, locations, most)
    out = f"broadcast chan {', '.join(n for n, _ in channels)};\n" if channels else ""
    out += "process P() {\n" + (f"clock {', '.join(clocks)};\n" if clocks else "")
    out += f"state {', '.join(declared)};\ninit {rng.choice(locations)};\n"
    out += f"trans {', '.join(edges)};\n" if edges else ""
    return (out + "}\nsystem P;\n").encode()


def random_length(rng):
    """A tick length: even and odd ones, the longest, and any."""
    return rng.choice((2, 3, 4, 7, 10, 999, 1000, ref.TICK_LENGTHS[-1], rng.choice(ref.TICK_LENGTHS)))


def in_milliseconds(rng, text, tick_length):
    """The text with each constant as milliseconds that come to its ticks: the whole ones, the first, the last, or any (SPECIFICATION 4.7)."""
    def written(found):
        whole, half = int(found[2]) * tick_length, tick_length // 2
        first, last = max(whole - half, 0), whole + tick_length - half - 1
        return found[1] + b"%d" % rng.choice((whole, first, last, rng.randint(first, last)))
    return re.sub(rb"((?:[<>]=?|==?)\s*)(\d+)", written, text)


def damaged(rng, text):
    at = rng.randrange(len(text))
    return rng.choice((text[:at] + text[at + 1:], text[:at] + bytes([rng.randrange(128)]) + text[at + 1:], text[:at]))


def random_pair(rng, clocks=None, damage=0.12):
    """Two texts, mostly over the same channels in another order; a channel that never happens may be left out of the edges."""
    channels = [(f"c{i}", rng.choice("??!!!-")) for i in range(rng.choice((1, 2, 2, 3)))]
    names = ["x", "y", "z"][:rng.choice((0, 1, 1, 1, 2, 3)) if clocks is None else clocks]
    most = 1 if len(names) == 3 else rng.choice((1, 2))
    left = random_text(rng, channels, names, most)
    other = [(n, m if m == "?" else rng.choice("!!!-")) for n, m in channels]
    if rng.random() < 0.1:
        other = other[:-1] or other
    right = random_text(rng, rng.sample(other, len(other)), names, most)
    if rng.random() < 0.25:
        right = left
    if rng.random() < damage:
        left = damaged(rng, left)
    if rng.random() < damage:
        right = damaged(rng, right)
    return left, right


def counts(left, right, tick_length=TICK):
    """The state counts of two texts, None where they are refused."""
    try:
        two = ref.both(tick_length, left, right)
        return two.left.count, two.right.count
    except ref.Refused:
        return None


def has_parallel(left, right):
    """Whether two accepted texts have equal channels and one of them has parallel edges."""
    if counts(left, right) is None:
        return False
    two = ref.both(TICK, left, right)
    return two.left.has_parallel() or two.right.has_parallel()


def is_small(left, right, most=3000):
    found = counts(left, right)
    return found is None or found[0] * found[1] <= most


def left_whole(two, s, t, c):
    """A slip: moves of the left that leave its safe states."""
    return two.left.next(s, c), two.right.next(t, two.map[c])


def right_pruned(two, s, t, c):
    """A slip: moves of the right that leave its safe states taken away."""
    u, v = ref.Two.moves(two, s, t, c)
    return u, (v if v in two.right_safe else None)


def capped_early(two, s, t, c):
    """A slip: clocks that stop at the largest constant, not one above it."""
    def after(text, state, step):
        to = text.step(text.configs[state], step)
        return None if to is None else text.number(to[0], [min(v, values - 2) for v, values in zip(to[1], text.ranges)])
    u = after(two.left, s, c)
    return (u if u in two.safe else None), after(two.right, t, two.map[c])


def lax(text):
    """The text with `<` and `>` true at their constants too; its states are numbered as before."""
    def loosened(comparisons):
        return [(clock, {"<": "<=", ">": ">="}.get(sign, sign), bound) for clock, sign, bound in comparisons]
    other = copy(text)
    other.found, other.invariants = {}, [loosened(i) for i in text.invariants]
    other.edges = [(source, target, loosened(guard), channel, written) for source, target, guard, channel, written in text.edges]
    return other


def other_values(text, choose):
    """The text whose edges set a clock to what is chosen of the values written; its states are numbered as before."""
    other = copy(text)
    other.found = {}
    other.edges = [(*e[:4], {clock: [choose(values)] for clock, values in e[4].items()}) for e in text.edges]
    return other


def in_both(others, two, s, t, c):
    """The moves of two texts that stand for the left and the right."""
    u = others[0].next(s, c)
    return (u if u in two.safe else None), others[1].next(t, two.map[c])


def strict_lax(two, s, t, c):
    """A slip: strict comparisons read as the others."""
    return in_both(two.lax, two, s, t, c)


def late_at_zero(two, s, t, c):
    """A slip: every clock that is assigned is set to 0."""
    return in_both(two.at_zero, two, s, t, c)


def first_counts(two, s, t, c):
    """A slip: the first assignment of a clock counts, not the last."""
    return in_both(two.by_first, two, s, t, c)


def is_changed(two, slip):
    """Whether the slip gives another departure or another widest table."""
    other = copy(two)
    other.moves = partial(slip, two)
    return ref.departure(other) != ref.departure(two) or ref.largest(other) != ref.largest(two)


def kinds_of(left, right):
    """What the pair shows."""
    if counts(left, right) is None:
        return {"refused"}
    two = ref.both(TICK, left, right)
    sides = two.left, two.right
    two.right_safe, two.lax = two.right.safe(), [lax(text) for text in sides]
    two.at_zero, two.by_first = ([other_values(text, choose) for text in sides] for choose in (lambda values: 0, lambda values: values[0]))
    if two.left.start not in two.safe:
        return {"start"}
    n = len(ref.departure(two))
    facts = {"three clocks": len(two.left.clocks) == 3, "order": n != 1 and two.map != sorted(two.map), "long": n > 3,
             "refines": n == 0 and left != right}
    facts.update((slip.__name__, is_changed(two, slip)) for slip in (left_whole, right_pruned, capped_early, strict_lax, late_at_zero, first_counts))
    return {kind for kind, holds in facts.items() if holds}


KINDS = {"refused": 6, "start": 4, "three clocks": 14, "order": 14, "long": 12, "refines": 12,
         "left_whole": 12, "right_pruned": 12, "capped_early": 12, "strict_lax": 12, "late_at_zero": 12, "first_counts": 3}


def telling_pairs(rng, most=1500, wanted=KINDS):
    """Random pairs, so many at least of each kind; those with parallel edges are in tests/parallel_edges.py."""
    wanted, pairs = dict(wanted), []
    while any(n > 0 for n in wanted.values()):
        pair = random_pair(rng)
        if not is_small(*pair, most=most) or has_parallel(*pair):
            continue
        kinds = kinds_of(*pair)
        if any(wanted[kind] > 0 for kind in kinds):
            wanted.update((kind, wanted[kind] - 1) for kind in kinds)
            pairs.append(pair)
    return pairs
