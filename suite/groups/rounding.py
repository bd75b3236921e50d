"""Rounding: each state, with the values at which it changes, of both signs."""
from making.fontmaker import FontMaker
from making.probe import picture, shown
from making.suite import APPLE

STATES = APPLE + "Instruction set, Managing the Graphics State, round state: %s"
ROUNDING = APPLE + "Instruction set, Rounding: %s"
RESERVED = "the reserved period counts as the usual one"
FRACTIONS = "S45ROUND has periods of 22, 45 and 90, and drops fractions of phase and threshold"
NO_COLOUR = "engine compensation is 0 for all distances"
PARITY = "a value that is no whole number of pixels after rounding is neither odd nor even"
VALUES = [[0, 1, 31, 32, 33, 63, 64, 65, 95, 96], [-1, -31, -32, -33, -63, -64, -65, -95, -96, -1000],
          [15, 16, 17, 47, 48, 49, 128, 1000, 2047, 32767]]
NAMES = ["RTG", "RTHG", "RTDG", "RDTG", "RUTG", "ROFF"]


def make(suite):
    """The cases of the group."""
    suite.group = "rounding"
    font = suite.font(FontMaker("rounding"))
    for name in NAMES:
        for k, values in enumerate(VALUES):
            suite.case("%s-%d" % (name.lower(), k), font, STATES % name, picture(font, shown(rounds(name, values), 10)), bits=False)
        suite.case("%s-mdap" % name.lower(), font, STATES % name,
                   picture(font, name + " SVTCA:1 0 MDAP:1 5 MDAP:1 SVTCA:0 8 MDAP:1 10 MDAP:1"))
    for colour in range(4):
        for k, values in enumerate(VALUES):
            for row in ("ROUND", "NROUND"):
                glyph = picture(font, shown(rounds("RTG", values, "%s:%d" % (row, colour)), 10))
                own = NO_COLOUR if colour == 3 else None
                suite.case("%s-%d-%d" % (row.lower(), colour, k), font, ROUNDING % row, glyph, own=own, bits=False)
    make_super(suite, font)
    make_parity(suite, font)


def rounds(state, values, row="ROUND:0"):
    """A program that rounds values."""
    return state + " " + " ".join("%d %s" % (value, row) for value in values)


def make_super(suite, font):
    """SROUND and S45ROUND with each operand, at values around the places where the result changes."""
    for name, periods in (("SROUND", (32, 64, 128, 64)), ("S45ROUND", (22, 45, 90, 45))):
        for n in range(256):
            period = periods[n >> 6]
            values = [0, 1, -1, -period, period // 2, -period // 2, period - 1, 3 * period // 4, -3 * period // 2, 5 * period + 3]
            own = RESERVED if n >> 6 == 3 else FRACTIONS if name == "S45ROUND" else None
            glyph = picture(font, shown(rounds("%d %s" % (n, name), values), 10))
            suite.case("%s-%02x" % (name.lower(), n), font, STATES % name, glyph, own=own, bits=False)
        for k, n in enumerate((0x148, 0x1048, -1)):
            glyph = picture(font, shown(rounds("%d %s" % (n, name), [0, 31, 32, -32, 100]), 5))
            suite.case("%s-low-byte-%d" % (name.lower(), k), font, STATES % name, glyph, own="only the operand's low byte counts",
                       bits=False)


def make_parity(suite, font):
    """ODD and EVEN round first."""
    for name in ("ODD", "EVEN"):
        for state in ("RTG", "RTHG", "RTDG", "RDTG", "RUTG", "ROFF"):
            for k, values in enumerate(([0, 31, 32, 64, 95, 96, 128, 160], [-1, -32, -64, -96, -128, -160, 63, 97])):
                own = PARITY if state in ("RTHG", "RTDG", "ROFF") else None
                suite.case("%s-%s-%d" % (name.lower(), state.lower(), k), font, ROUNDING % name,
                           picture(font, shown(rounds(state, values, name), 8)),
                           own=own, bits=False)
