"""Texts with constants in milliseconds, each with its tick length and what SPECIFICATION 4.7 and 16.9 say of it, worked out by hand.

tests/make_cases.py holds tests/reference.py against them, and makes stored cases of them.
"""
import reference as ref
from texts import OUT_OF_RANGE, POST, POSTS, SHEET, TICK, beat, bounded, faults, guarded, late, rows, swapped

OF_SHEET = (TICK, 400, 1000, 2000, 60000)
# the largest constant at some tick lengths: 1,000 ticks and not yet a half more
LARGEST = {1: 1000, 2: 2000, 3: 3001, 7: 7003, 999: 999499, 1000: 1000499, 60000: 60029999}
# the largest number of milliseconds that comes to no tick
NOTHING = {1: 0, 2: 0, 3: 1, 7: 3, 999: 499, 1000: 499, 60000: 29999}
# the ticks of some constants: halves, thirds, sevenths
TICKS = {2: {0: 0, 1: 1, 2: 1, 3: 2, 4: 2}, 3: {1: 0, 2: 1, 4: 1, 5: 2, 7: 2}, 7: {3: 0, 4: 1, 10: 1, 11: 2},
         1000: {499: 0, 500: 1, 2499: 2, 2500: 3}, 60000: {29999: 0, 30000: 1}}
ZEROS = "0" * 397


def compared(constant, sign=">="):
    """A text whose only constant is this one, in a guard."""
    return guarded([f"x {sign} {constant}"], "!")


def below(constant):
    """A text whose only constant is this one, after `<` in an invariant."""
    return swapped(rows(1, 0), (b"x <= 0", b"x < %d" % constant))


def refused(code, text, before):
    """The line's beginning for a refusal at the numeral after these bytes."""
    return f" refused {code} 1 {text.index(before) + len(before)} 0 |"


def readings():
    """A tick length, a text and the beginning of the line that test_clocks prints."""
    return [*rounded(), *at_limits(), *long_numerals(), *sheets(), *out_of_range()]


def rounded():
    """V is 2 more than the ticks of the constant; assignments are in tests/late_clocks.py."""
    known = [(tick, c, ticks) for tick, found in TICKS.items() for c, ticks in found.items()]
    return [*((tick, compared(c, sign), f" states {ticks + 2} |") for tick, c, ticks in known for sign in ref.SIGNS),
            (1000, POSTS["Rearm"], " states 4 |")]


def at_limits():
    """The last constant that passes and the one after it; the last one that is refused after `<` and the one after it."""
    out = []
    for tick, most in LARGEST.items():
        over = compared(most + 1)
        out += [(tick, compared(most), " states 1002 |"), (tick, over, refused(6, over, b"x >= "))]
    for tick, none in NOTHING.items():
        out += [(tick, below(none), refused(2, below(none), b"x < ")), (tick, below(none + 1), " states 3 |")]
    return out


def long_numerals():
    """Numerals of 400 digits count by their exact value."""
    large, small = [compared("180" + ZEROS), compared("9" * 400)], bounded(b"x < %s001" % ZEROS.encode())
    return [(60, compared(ZEROS + "180"), " states 5 |"), (3, small, refused(2, small, b"x < ")),
            *((tick, text, refused(6, text, b"x >= ")) for tick in (1, 60, 60000) for text in large)]


def sheets():
    """SPECIFICATION 16.9, with the safe states: all but that of Wait above its bound."""
    return [(1, SHEET, refused(6, SHEET, b"x <= ")), (400, SHEET, " states 20 | refused 13 0 3 0 keep 170 | safe 19 yes keep 255 191 240"),
            (1000, SHEET, " states 10 | refused 13 0 2 0 keep 170 | safe 9 yes keep 247 192"), (2000, SHEET, " states 8 | safe 7 yes keep 239 |"),
            (60000, SHEET, " states 4 | safe 3 yes keep 176 |")]


def out_of_range():
    """24 whatever the text is, and no byte of keep is touched."""
    def line(length):
        answer = f" refused 24 0 {length} 0"
        return f"{answer} |{answer} keep 170 |{answer} keep{' 170' * 7}"
    return [(length, text, line(length)) for length in OUT_OF_RANGE for text in (POST, SHEET, b"", faults()[8])]


def pairs():
    """A tick length, two texts and the run by which the left departs; None where the left has no implementation."""
    return [(1000, SHEET, late(3000), []), (1000, late(3000), SHEET, []), (1000, SHEET, late(3499), []), (1000, SHEET, late(3500), [0, 0, 0, 3]),
            (1000, late(2499), SHEET, [0, 0, 3]), (1000, late(2500), SHEET, []), (1000, late(3000, POSTS["Hush"]), SHEET, None),
            (2000, late(3000), SHEET, []), (2000, SHEET, late(3000), [0, 3]), (60000, SHEET, late(29999), []), (60000, SHEET, late(30000), [3]),
            (2, beat(3), beat(4), []), (2, beat(4), beat(5), [0, 0, 1]),
            (3, beat(4), beat(2), []), (3, beat(5), beat(4), [0, 0]), (3, beat(1), beat(0), [])]


def faults_by_ticks():
    """A tick length, a text that passes, and one that differs by a millisecond and does not: codes 6 and 2."""
    return [*((tick, late(most), late(most + 1)) for tick, most in LARGEST.items()),
            *((tick, bounded(b"x < %d" % (none + 1)), bounded(b"x < %d" % none)) for tick, none in NOTHING.items())]
