"""The freedom, projection and dual projection vectors."""
from making.fontmaker import FontMaker
from making.probe import OFF_AXES, picture, shown
from making.suite import APPLE

ABOUT = APPLE + "Instruction set, Managing the Graphics State: %s"
UNIT = "a unit vector's components are the nearest 2.14 numbers, found exactly"
ZERO = "the vector of two points in one place is the x axis, not turned"
WORDS = "only the low 16 bits of SPVFS's and SFVFS's operands count"
LINES = [(1, 0), (0, 1), (2, 1), (5, 3), (8, 4), (10, 2), (11, 6), (7, 9)]
PAIRS = [(16384, 0), (0, 16384), (0, -16384), (-16384, 0), (11585, 11585), (8192, 14189), (-14189, 8192), (3, 4), (1, 0), (0, 5),
         (-1, -1), (1, 4),
         (32767, 1), (-32768, -32768), (30000, -7), (12000, 100)]


def make(suite):
    """The cases of the group."""
    suite.group = "vectors"
    font = suite.font(FontMaker("vectors"))
    make_axes(suite, font)
    make_lines(suite, font)
    make_from_stack(suite, font)


def seen(name):
    """Instructions that show both vectors: GPV and GFV."""
    return shown(name + " GPV GFV", 4)


def make_axes(suite, font):
    """Vectors along the axes."""
    for name in ("SVTCA", "SPVTCA", "SFVTCA"):
        for axis in (0, 1):
            for k, before in enumerate(["", "8192 14189 SPVFS SFVTPV ", "SVTCA:0 ", "SVTCA:1 "]):
                suite.case("%s-%d-%d" % (name.lower(), axis, k), font, ABOUT % name,
                           picture(font, seen("%s%s:%d" % (before, name, axis))), bits=False)
            row = "SVTCA:%d %s:%d 1 MDAP:1 2 40 SHPIX" % (1 - axis, name, axis)
            suite.case("%s-%d-moves" % (name.lower(), axis), font, ABOUT % name, picture(font, row),
                       own=None if name == "SVTCA" else OFF_AXES, within=None if name == "SVTCA" else 3)
    for k, before in enumerate(["SVTCA:0", "SPVTCA:0", "0 16384 SPVFS", "SVTCA:0 SPVTCA:1"]):
        glyph = picture(font, shown(before + " 5 GC:1 5 1 MD:1", 2))
        suite.case("dual-with-projection-%d" % k, font, ABOUT % "the dual projection vector", glyph, bits=False)
    for k, before in enumerate(["SPVTCA:0 SFVTCA:1", "0 -16384 SPVFS", "SVTCA:0 SFVTCA:1",
                                "8192 14189 SPVFS SVTCA:1 8192 14189 SPVFS"]):
        own = UNIT if "8192" in before else None
        suite.case("sfvtpv-%d" % k, font, ABOUT % "SFVTPV", picture(font, seen(before + " SFVTPV")), own=own,
                   within=2 if own else None, bits=False)


def make_lines(suite, font):
    """Vectors along lines of current and of original places."""
    for name in ("SPVTL", "SFVTL", "SDPVTL"):
        for flag in (0, 1):
            for p1, p2 in LINES:
                glyph = picture(font, seen("SVTCA:%d %d %d %s:%d" % (1 - flag, p1, p2, name, flag)))
                suite.case("%s-%d-%d-%d" % (name.lower(), flag, p1, p2), font, ABOUT % name, glyph, own=UNIT, within=2, bits=False)
            for k, (before, own) in enumerate([("0 1 PLACE AXIS 0 1", None), ("SVTCA:0 3 3", ZERO), ("0 SZP1 3 5 PLACE 3 1", UNIT),
                                               ("0 SZP2 4 3", UNIT)]):
                before = before.replace("0 1 PLACE",
                                        "SVTCA:0 0 64 SCFS 1 512 SCFS SVTCA:1 0 64 SCFS 1 64 SCFS").replace("3 5 PLACE", "")
                glyph = picture(font, seen("%s %s:%d" % (before.replace("AXIS", "SVTCA:%d" % (1 - flag)), name, flag)))
                suite.case("%s-%d-more-%d" % (name.lower(), flag, k), font, ABOUT % name, glyph, own=own,
                           within=2 if own == UNIT else None, bits=False)
    for flag in (0, 1):
        for k, (row, own) in enumerate([("5 3 SDPVTL:%d SFVTCA:1 0 GC:1 0 GC:0", UNIT),
                                        ("1 700 SCFS 0 1 SDPVTL:%d SFVTCA:1 0 5 MD:1 0 5 MD:0", UNIT),
                                        ("SVTCA:0 0 256 SCFS 3 256 SCFS SVTCA:1 0 3 SDPVTL:%d 5 GC:0", None)]):
            glyph = picture(font, shown(row % flag, 2 if "MD" in row or "GC:1" in row else 1))
            suite.case("sdpvtl-%d-measures-%d" % (flag, k), font, ABOUT % "SDPVTL", glyph, own=own,
                       within=2 if own == UNIT else None, bits=False)


def make_from_stack(suite, font):
    """Vectors from the stack, made to have the length 1."""
    for name in ("SPVFS", "SFVFS"):
        for k, (x, y) in enumerate(PAIRS):
            own = None if 0 in (x, y) else UNIT
            glyph = picture(font, seen("SVTCA:%d %d %d %s" % (k % 2, x, y, name)))
            suite.case("%s-%d" % (name.lower(), k), font, ABOUT % name, glyph, own=own, within=2 if own == UNIT else None,
                       bits=False)
        glyph = picture(font, seen("SVTCA:0 0 0 %s" % name))
        suite.case("%s-zero" % name.lower(), font, ABOUT % name, glyph, own=ZERO, bits=False)
        glyph = picture(font, seen("SVTCA:0 16384 16384 ADD 16384 ADD 16384 ADD 16384 ADD 0 %s" % name))
        suite.case("%s-wide" % name.lower(), font, ABOUT % name, glyph, own=WORDS, bits=False)
        glyph = picture(font, seen("SVTCA:0 16384 16384 ADD 16384 ADD 16384 ADD 16384 ADD 16384 %s" % name))
        suite.case("%s-wide-both" % name.lower(), font, ABOUT % name, glyph, own=WORDS, bits=False)
    for name in ("GPV", "GFV"):
        for k, before in enumerate(["SVTCA:0", "SVTCA:1", "SPVTCA:0 SFVTCA:1", "SPVTCA:1 SFVTCA:0"]):
            suite.case("%s-%d" % (name.lower(), k), font, ABOUT % name, picture(font, shown("%s %s" % (before, name), 2)),
                       bits=False)
