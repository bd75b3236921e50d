"""MDRP and MIRP with each of their 32 flags, and the CVT and its cut-in."""
from making.fontmaker import FontMaker
from making.probe import OFF_AXES, picture
from making.suite import APPLE

MDRP = APPLE + "Instruction set, Managing outlines: MDRP"
MIRP = APPLE + "Instruction set, Managing outlines: MIRP"
CUT_IN = APPLE + "Instruction set, Managing the Graphics State: control value cut-in"
COLOUR = "engine compensation is 0 for all distances"
TWILIGHT = ("in the twilight zone MIRP first puts the point at the reference point's original place and the control value along "
            "the freedom vector")
SIZE = "the single width is compared with the size of a distance, whatever its sign"
NEGATIVE = "MIRP's control value -1 is a value of 0"
SLANTED = ["8192 14189 SPVFS SFVTPV", "SVTCA:1 13107 9830 SFVFS"]
# Point 1 is left of point 5, point 9 below point 2; a program moves reference points first, so that all distances differ, and no
# row leaves the outline as it was.
TRIES = [("right", "SVTCA:1 1 20 SHPIX 1 SRP0 5"), ("left", "SVTCA:1 5 30 SHPIX 5 SRP0 1"), ("up", "SVTCA:0 9 -14 SHPIX 9 SRP0 2"),
         ("down", "SVTCA:0 2 11 SHPIX 2 SRP0 9"), ("near", "SVTCA:1 0 9 SHPIX 0 SRP0 1"), ("small", "SVTCA:1 3 17 SHPIX 3 SRP0 2"),
         ("rthg", "SVTCA:1 RTHG 2 -23 SHPIX 2 SRP0 6"), ("minimum", "SVTCA:1 400 SMD 3 19 SHPIX 3 SRP0 7"),
         ("width", "SVTCA:1 360 SSW 60 SSWCI 1 SRP0 5"), ("auto flip off", "SVTCA:1 FLIPOFF 6 29 SHPIX 6 SRP0 2")]
AFTER = "8 SHP:1 10 SHP:0 11 MDRP:0"  # shows what the three reference points are


def make(suite):
    """The cases of the groups."""
    make_mdrp(suite)
    make_mirp(suite)
    make_cut_in(suite)


def make_mdrp(suite):
    """MDRP: original distances, by each flag."""
    suite.group = "mdrp"
    font = suite.font(FontMaker("mdrp", cvt=[396]))
    for flags in range(32):
        own = COLOUR if flags & 3 == 3 else None
        for name, setting in TRIES:
            glyph = picture(font, "%s MDRP:%X %s" % (setting, flags, AFTER))
            suite.case("%02x-%s" % (0xC0 + flags, name.replace(" ", "-")), font, MDRP, glyph, own=own)
        for k, setting in enumerate(SLANTED):
            glyph = picture(font, "SVTCA:1 1 20 SHPIX 1 SRP0 %s 5 MDRP:%X" % (setting, flags))
            suite.case("%02x-slanted-%d" % (0xC0 + flags, k), font, MDRP, glyph, own=OFF_AXES, within=3)
    for k, (row, own) in enumerate([("0 SZP1 1 SRP0 3 40 MSIRP:0 0 SZP0 1 SZP1 3 SRP0 5 MDRP:0C", None),
                                    ("2 6 SDPVTL:0 SFVTCA:1 1 SRP0 5 MDRP:04", OFF_AXES),
                                    ("5 SRP0 5 MDRP:1C", None), ("100 SSW 2000 SSWCI 5 SRP0 5 MDRP:00", None),
                                    ("-100 SSW 2000 SSWCI 1 SRP0 5 MDRP:00", None),
                                    ("-64 SMD 1 21 SHPIX 1 SRP0 0 MDRP:0C", None), ("100 SMD 8 SRP0 9 MDRP:0C", None),
                                    ("360 SSW 60 SSWCI 5 SRP0 1 MDRP:00", SIZE), ("410 SMD 1 SRP0 5 MDRP:0C", None)]):
        suite.case("more-%d" % k, font, MDRP, picture(font, "SVTCA:1 " + row), own=own, within=3 if own == OFF_AXES else None)


def make_mirp(suite):
    """MIRP: control values, by each flag."""
    suite.group = "mirp"
    font = suite.font(FontMaker("mirp", cvt=[396, 350, -300, 380, 0, 40]))
    for flags in range(32):
        own = COLOUR if flags & 3 == 3 else None
        for k, (name, setting) in enumerate(TRIES):
            for entry in (k % 4, 4 + k % 2):
                glyph = picture(font, "%s %d MIRP:%X %s" % (setting, entry, flags, AFTER))
                suite.case("%02x-%s-%d" % (0xE0 + flags, name.replace(" ", "-"), entry), font, MIRP, glyph, own=own)
        twilight = "SVTCA:1 1 20 SHPIX 1 SRP0 0 SZP1 3 %d MIRP:%X 0 SZP0 1 SZP1 9 MDRP:0 0 SZP2 3 GC:0 1 SZP2 8 SWAP SCFS" % (flags
            % 5, flags)
        suite.case("%02x-twilight" % (0xE0 + flags), font, MIRP, picture(font, twilight), own=TWILIGHT)
        slanted = "SVTCA:1 1 20 SHPIX 1 SRP0 %s 5 %d MIRP:%X" % (SLANTED[flags & 1], flags % 5, flags)
        suite.case("%02x-slanted" % (0xE0 + flags), font, MIRP, picture(font, slanted), own=OFF_AXES, within=3)
    for flags in (0, 4, 0x1C):
        suite.case("minus-one-%02x" % flags, font, MIRP, picture(font, "SVTCA:1 1 SRP0 5 -1 MIRP:%X" % flags), own=NEGATIVE)


def make_cut_in(suite):
    """The cut-in: a control value counts if it differs from the distance by no more. The distances are 396 and 588."""
    suite.group = "cut-in"
    values = [396, 397, 462, 464, 465, 330, 328, 327, 300, -396, -464, 588, 587, 0]
    font = suite.font(FontMaker("cut-in", cvt=values))
    for k, value in enumerate(values):
        for cut in (0, 1, 68, 69, 500):
            glyph = picture(font, "SVTCA:1 %d SCVTCI 1 SRP0 5 %d MIRP:04" % (cut, k))
            suite.case("mirp-%d-%d" % (value, cut), font, CUT_IN, glyph)
        for cut in (0, 17, 32, 68):
            glyph = picture(font, "SVTCA:1 %d SCVTCI 5 %d MIAP:1 1 %d MIAP:0" % (cut, k, k))
            suite.case("miap-%d-%d" % (value, cut), font, CUT_IN, glyph)
        glyph = picture(font, "SVTCA:1 1 SRP0 5 %d MIRP:04 9 %d MIAP:1" % (k, k))
        suite.case("default-%d" % value, font, CUT_IN, glyph)
        row = "SVTCA:1 0 SZP0 3 %d MIAP:1 3 SRP0 5 %d MIRP:04 1 %d MIRP:00" % (k, k, k)
        suite.case("zones-%d" % value, font, CUT_IN, picture(font, row))
    for k, row in enumerate(["36 SCVTCI 5 0 MIAP:1", "37 SCVTCI 5 0 MIAP:1", "0 SCVTCI 1 SRP0 5 3 MIRP:00"]):  # point 5 is at 433
        suite.case("at-it-%d" % k, font, CUT_IN, picture(font, "SVTCA:1 " + row))
