"""Arithmetic, comparisons and logic."""
from making.assembler import number
from making.fontmaker import FontMaker
from making.probe import picture, shown, shown_wide
from making.suite import APPLE

ARITHMETIC = APPLE + "Instruction set, Arithmetic and math instructions: %s"
LOGIC = APPLE + "Instruction set, Relational and logical functions: %s"
HALVES = "a product is rounded to the nearest 1/64, halves away from zero"
FRACTION = "a quotient is rounded toward zero"
WRAPS = "a result outside 32 bits is taken modulo 2^32"
LEAST, MOST = -1 << 31, (1 << 31) - 1

PAIRS = [(3, 5), (5, 3), (4, 4), (-7, 2), (2, -7), (0, -1), (-4, -4), (32767, -32768)]
ONES = [0, 1, -1, 63, 64, 65, -63, -64, -65, 100, 32767, -32768]
PRODUCTS = [(64, 64), (128, 96), (-64, 64), (32, 1), (32, 3), (-32, 1), (31, 1), (33, 1), (-33, 1), (100, 77), (-100, 77), (0, 5)]
QUOTIENTS = [(64, 64), (64, 128), (64, 192), (128, 192), (-64, 192), (64, -192), (-128, -192), (1, 64), (1, 65), (-1, 65), (0, 7),
             (32767, 64)]
WIDE = {"ADD": [(MOST, 1), (LEAST, -1), (1 << 30, 1 << 30), (123456789, -987654)],
        "SUB": [(LEAST, 1), (MOST, -1), (0, LEAST), (1 << 24, 77)],
        "MUL": [(1 << 20, 1 << 17), (-1 << 20, 1 << 17), (1 << 20, 1 << 16), (123456, 6543)],
        "DIV": [(MOST, 1), (LEAST, 64), (1 << 30, 32), (-123456789, 100)]}
WIDE_ONES = {"ABS": [LEAST, MOST, -70000], "NEG": [LEAST, MOST, 70000], "FLOOR": [LEAST, MOST, 70001],
             "CEILING": [LEAST + 1, MOST, 70001]}


def make(suite):
    """The cases of the two groups."""
    font = suite.font(FontMaker("arithmetic"))
    suite.group = "arithmetic"
    for name in ("ADD", "SUB", "MAX", "MIN"):
        for k, (a, b) in enumerate(PAIRS):
            add(suite, font, name, k, "%d %d %s" % (a, b, name))
    for name in ("ABS", "NEG", "FLOOR", "CEILING"):
        for k, a in enumerate(ONES):
            wide = name == "CEILING" and a == 32767
            add(suite, font, name, k, "%d %s" % (a, name), wide=wide)
    for k, (a, b) in enumerate(PRODUCTS):
        add(suite, font, "MUL", k, "%d %d MUL" % (a, b), HALVES if a * b % 64 else None)
    for k, (a, b) in enumerate(QUOTIENTS):
        add(suite, font, "DIV", k, "%d %d DIV" % (a, b), FRACTION if 64 * a % b else None)
    make_wide(suite, font)
    suite.group = "compare"
    make_logic(suite, font)


def add(suite, font, name, k, program, own=None, wide=False):
    """A case of a program that leaves one number."""
    glyph = picture(font, shown_wide(program) if wide else shown(program, 1))
    suite.case("%s-%s" % (name.lower(), k), font, ARITHMETIC % name, glyph, own=own,
               within=1 if own in (HALVES, FRACTION) else None, bits=False)


def make_wide(suite, font):
    """Numbers that need 32 bits, and results that do not fit."""
    for name, pairs in WIDE.items():
        for k, (a, b) in enumerate(pairs):
            exact = {"ADD": a + b, "SUB": a - b, "MUL": a * b // 64, "DIV": 64 * a // b}[name]
            inexact = HALVES if name == "MUL" and a * b % 64 else FRACTION if name == "DIV" and 64 * a % b else None
            own = inexact if LEAST <= exact <= MOST else WRAPS
            add(suite, font, name, "wide-%d" % k, "%s %s %s" % (number(a), number(b), name), own, wide=True)
    for name, values in WIDE_ONES.items():
        for k, a in enumerate(values):
            own = WRAPS if a == LEAST or name == "CEILING" and a == MOST else None
            add(suite, font, name, "wide-%d" % k, "%s %s" % (number(a), name), own, wide=True)


def make_logic(suite, font):
    """Comparisons are of signed numbers; any number but 0 is true."""
    for name in ("LT", "LTEQ", "GT", "GTEQ", "EQ", "NEQ"):
        for k, (a, b) in enumerate(PAIRS):
            logic(suite, font, name, k, "%d %d %s" % (a, b, name))
        for k, (a, b) in enumerate([(LEAST, MOST), (MOST, LEAST), (1 << 20, (1 << 20) + 1)]):
            logic(suite, font, name, "wide-%d" % k, "%s %s %s" % (number(a), number(b), name))
    for name in ("AND", "OR"):
        for k, (a, b) in enumerate([(0, 0), (0, 1), (1, 0), (1, 1), (2, 4), (-1, 0), (0, 256), (65, 64)]):
            logic(suite, font, name, k, "%d %d %s" % (a, b, name))
    for k, a in enumerate([0, 1, -1, 2, 256]):
        logic(suite, font, "NOT", k, "%d NOT" % a)


def logic(suite, font, name, k, program):
    """A case of a program that leaves true or false: 1 or 0."""
    suite.case("%s-%s" % (name.lower(), k), font, LOGIC % name, picture(font, shown(program, 1)), bits=False)
