"""Rows that move, shift, align, flip and measure points, each with axes and slanted vectors, in both zones."""
from making.assembler import number
from making.fontmaker import FontMaker
from making.probe import OFF_AXES, VECTORS, picture, shown_wide
from making.suite import APPLE

ABOUT = APPLE + "Instruction set, Managing outlines: %s"
STRAY = "a point outside its zone reads as (0, 0), and what the row does to it is dropped"
HALF = "ALIGNPTS moves the first point by half the distance, rounded toward zero, and the second by the rest"
PLACE = "the place where lines meet, and the middle of four ends, is rounded to the nearest 1/64 pixel"
WRAPS = "places, their sums and differences are taken modulo 2^32"
RESET = "IUP sets an untouched point from its original place, wherever it was moved before"
EMPTY = "a range whose low point is above its high one is empty"
HEIGHT = "the last two phantom points are at the ascender and the descender of hhea"
ADVANCE = "an advance that a program leaves between pixels is answered as it is"
# Points are moved first, so that original and current places differ, of points 1, 5 and 6 on both axes; and twilight points are put
# at places and moved.
MOVED = "SVTCA:0 1 30 SHPIX 6 -20 SHPIX 8 13 SHPIX 5 27 SHPIX " \
    "SVTCA:1 5 45 SHPIX 2 -25 SHPIX 0 10 SHPIX 11 -19 SHPIX 1 -14 SHPIX 6 22 SHPIX"
MOVED_FOR_ZONES = "SVTCA:1 5 45 SHPIX 6 -20 SHPIX 1 -14 SHPIX"  # few, since SHZ moves all points
TWILIGHT = "0 SZPS SVTCA:1 3 100 SCFS 4 -77 SCFS 5 300 SCFS SVTCA:0 3 50 SCFS 4 211 SCFS 5 31 SCFS 3 -17 SHPIX 4 9 SHPIX " \
    "SVTCA:1 3 21 SHPIX 4 -13 SHPIX 1 SZPS"
# What a row left in the twilight zone, shown on two points that no row with a twilight point moves.
SEEN_TWILIGHT = "SVTCA:1 0 SZP2 3 GC:0 4 GC:1 1 SZP2 10 SWAP SCFS 11 SWAP SCFS " \
    "SVTCA:0 0 SZP2 3 GC:0 4 GC:0 1 SZP2 10 SWAP SCFS 11 SWAP SCFS"

ROWS = {
    "MDAP:0": ["7 MDAP:0 9 ALIGNRP", "1 MDAP:0 9 MDRP:0", "0 SZP0 3 MDAP:0 9 ALIGNRP"],
    "MDAP:1": ["5 MDAP:1", "1 MDAP:1 9 MDRP:0", "0 SZP0 3 MDAP:1"],
    "MIAP:0": ["5 0 MIAP:0", "1 2 MIAP:0 9 MDRP:0", "0 SZP0 3 1 MIAP:0", "8 3 MIAP:0"],
    "MIAP:1": ["5 0 MIAP:1", "1 2 MIAP:1 9 MDRP:0", "0 SZP0 3 1 MIAP:1", "8 3 MIAP:1"],
    "MSIRP:0": ["1 SRP0 5 100 MSIRP:0", "1 SRP0 9 -130 MSIRP:0 10 MDRP:0", "0 SZP0 4 SRP0 9 64 MSIRP:0",
                "0 SZP1 5 SRP0 3 55 MSIRP:0"],
    "MSIRP:1": ["1 SRP0 5 100 MSIRP:1", "1 SRP0 9 -130 MSIRP:1 10 MDRP:0", "0 SZP0 4 SRP0 9 64 MSIRP:1",
                "0 SZP1 5 SRP0 3 55 MSIRP:1"],
    "ALIGNRP": ["1 SRP0 5 ALIGNRP", "1 SRP0 3 SLOOP 5 6 9 ALIGNRP", "0 SZP0 4 SRP0 9 ALIGNRP"],
    "IP": ["1 SRP1 7 SRP2 9 IP", "0 SRP1 6 SRP2 3 SLOOP 2 8 11 IP", "3 SRP1 1 SRP2 5 IP", "0 SZP0 3 SRP1 6 SRP2 9 IP"],
    "SHP:0": ["5 SRP2 9 SHP:0", "1 SRP2 3 SLOOP 2 9 4 SHP:0", "0 SZP1 3 SRP2 9 SHP:0", "6 SRP2 6 SHP:0"],
    "SHP:1": ["5 SRP1 9 SHP:1", "1 SRP1 3 SLOOP 2 9 4 SHP:1", "0 SZP0 3 SRP1 9 SHP:1", "6 SRP1 6 SHP:1"],
    "SHC:0": ["5 SRP2 2 SHC:0", "1 SRP2 0 SHC:0", "0 SZP1 3 SRP2 1 SHC:0", "6 SRP2 1 SHC:0"],
    "SHC:1": ["5 SRP1 2 SHC:1", "1 SRP1 0 SHC:1", "0 SZP0 3 SRP1 1 SHC:1", "6 SRP1 1 SHC:1"],
    "SHZ:0": ["5 SRP2 1 SHZ:0", "0 SZP2 5 SRP2 1 SHZ:0", "0 SZP1 3 SRP2 1 SHZ:0", "1 SRP2 0 SZP2 0 SHZ:0"],
    "SHZ:1": ["5 SRP1 1 SHZ:1", "0 SZP2 5 SRP1 1 SHZ:1", "0 SZP0 3 SRP1 1 SHZ:1", "1 SRP1 0 SZP2 0 SHZ:1"],
    "SHPIX": ["5 70 SHPIX", "3 SLOOP 1 6 11 -33 SHPIX", "0 SZP2 3 64 SHPIX", "2 SLOOP 4 4 7 SHPIX"],
    "SCFS": ["5 70 SCFS", "1 -333 SCFS", "0 SZP2 3 64 SCFS"],
    "ISECT": ["9 0 2 5 7 ISECT", "3 0 1 4 6 ISECT", "10 1 2 0 3 ISECT", "0 SZP0 9 0 2 3 4 ISECT"],
    "ALIGNPTS": ["5 9 ALIGNPTS", "1 0 ALIGNPTS", "0 SZP0 9 3 ALIGNPTS"],
    "UTP": ["7 MDAP:0 7 UTP IUP:0 IUP:1", "6 MDAP:1 5 8 SCFS 5 UTP IUP:0 IUP:1",
            "0 MDAP:0 1 UTP 2 UTP IUP:0 IUP:1"],
    "GC:0": ["5 GC:0 10 SWAP SCFS", "1 GC:0 9 SWAP SCFS", "0 SZP2 3 GC:0 1 SZP2 8 SWAP SCFS"],
    "GC:1": ["5 GC:1 10 SWAP SCFS", "1 GC:1 9 SWAP SCFS", "0 SZP2 3 GC:1 1 SZP2 8 SWAP SCFS"],
    "MD:0": ["5 1 MD:0 10 SWAP SCFS", "2 6 MD:0 9 SWAP SCFS", "0 SZP0 3 6 MD:0 9 SWAP SCFS", "0 SZP1 6 3 MD:0 9 SWAP SCFS"],
    "MD:1": ["5 1 MD:1 10 SWAP SCFS", "2 6 MD:1 9 SWAP SCFS", "0 SZP0 3 6 MD:1 9 SWAP SCFS", "0 SZP1 6 3 MD:1 9 SWAP SCFS"],
    "FLIPPT": ["5 FLIPPT", "3 SLOOP 0 2 9 FLIPPT", "2 SLOOP 1 1 FLIPPT", "0 SZP0 3 FLIPPT"],
    "FLIPRGON": ["4 SLOOP 4 5 6 7 FLIPPT 5 6 FLIPRGON", "5 FLIPPT 5 5 FLIPRGON", "5 FLIPPT 6 4 FLIPRGON",
                 "3 SLOOP 8 9 11 FLIPPT 0 11 FLIPRGON"],
    "FLIPRGOFF": ["4 6 FLIPRGOFF", "5 5 FLIPRGOFF", "6 5 FLIPRGOFF", "0 0 FLIPRGOFF"],
}
MEASURES = ("GC:", "MD:")
EMPTY_RANGES = ("5 FLIPPT 6 4 FLIPRGON", "6 5 FLIPRGOFF")
UNMOVED = ("FLIP", "UTP", "ISECT")
BETWEEN = (2, 4, 8, 10, 16)  # the programs of phantom points that leave the advance between pixels
STRAYS = ["99 MDAP:1", "99 0 MIAP:1", "5 99 MIAP:1", "99 SRP0 5 40 MSIRP:0", "99 40 MSIRP:0", "99 SRP0 5 ALIGNRP", "99 ALIGNRP",
          "99 SRP1 5 IP", "99 SRP2 5 IP",
          "99 IP", "5 SRP2 99 SHP:0", "99 SRP2 5 SHP:0", "99 SHC:0", "99 SRP2 1 SHC:0", "99 SRP2 1 SHZ:0", "99 40 SHPIX",
          "2 SLOOP 99 5 40 SHPIX", "99 40 SCFS",
          "9 0 2 5 99 ISECT", "99 0 2 5 7 ISECT", "5 99 ALIGNPTS", "99 5 ALIGNPTS", "99 UTP", "99 GC:0 10 SWAP SCFS",
          "5 99 MD:0 10 SWAP SCFS", "99 FLIPPT",
          "4 99 FLIPRGOFF", "99 MDRP:1C", "99 SRP0 5 MDRP:1C", "99 0 MIRP:1C", "5 99 MIRP:1C", "99 SRP0 5 0 MIRP:1C",
          "120 99 1 DELTAP1", "0 SZP2 0 SHC:0", "-1 MDAP:1"]


def make(suite):
    """The cases of the group."""
    suite.group = "points"
    font = suite.font(FontMaker("points", cvt=[350, 180, -300, 500, 2]))
    for name, tries in ROWS.items():
        for k, row in enumerate(tries):
            for vector, setting, slanted in VECTORS:
                add(suite, font, name, k, row, vector, setting, slanted)
        for k, row in enumerate(tries):
            suite.case("%s-%d-iup" % (name.lower(), k), font, ABOUT % name.split(":")[0], picture(font, before_iup(name, row)),
                       **own_of(name, row, False, iup=True))
    for k, row in enumerate(STRAYS):
        suite.case("stray-%d" % k, font, ABOUT % "a point that is not there", picture(font, "%s SVTCA:1 %s" % (MOVED, row)),
                   own=STRAY)
    make_phantom_points(suite, font)
    make_parallel(suite, font)
    make_twilight_originals(suite, font)


def own_of(name, row, slanted, iup=False):
    """The decision that a case needs beside the manual, and by how much it is open. Point 7 has not moved before UTP."""
    if name == "ALIGNPTS" or name == "ISECT":
        return {"own": HALF if name == "ALIGNPTS" else PLACE, "within": 2}
    if name.startswith(("SHZ", "UTP")) and (iup or "UTP" in row and "7 UTP" not in row):
        return {"own": RESET}
    if row in EMPTY_RANGES:
        return {"own": EMPTY}
    return {"own": OFF_AXES, "within": 3} if slanted and not name.startswith(UNMOVED) else {}


def add(suite, font, name, k, row, vector, setting, slanted):
    """A case of a row with vectors; what it measures is put on a point along the x axis."""
    if name.startswith(MEASURES):
        row = row.replace("SWAP SCFS", "SVTCA:1 SWAP SCFS")
    elif "SZP" in row:
        row += " 1 SZPS " + SEEN_TWILIGHT
    glyph = picture(font, "%s %s %s %s" % (MOVED, TWILIGHT, setting, row))
    suite.case("%s-%d-%s" % (name.lower(), k, vector.replace(" ", "-")), font, ABOUT % name.split(":")[0], glyph,
               **own_of(name, row, slanted))


def before_iup(name, row):
    """A program in which a row is between moves and IUP, which shows the points that the row touched."""
    moves = MOVED_FOR_ZONES if name.startswith("SHZ") else MOVED
    if "SZP" in row:
        moves, row = "%s %s" % (moves, TWILIGHT), row if name.startswith(MEASURES) else "%s 1 SZPS %s" % (row, SEEN_TWILIGHT)
    return "%s SVTCA:1 %s IUP:0 IUP:1" % (moves, row)


def make_phantom_points(suite, font):
    """Phantom points are points of the glyph zone: 12 and 13 lie on the baseline, and move the origin and the advance."""
    about = APPLE + "phantom points"
    for k, row in enumerate(["12 64 SHPIX", "13 64 SHPIX", "12 20 SCFS", "13 MDAP:1", "13 700 SCFS", "12 SRP0 5 MDRP:1C",
                             "12 SRP0 13 MDRP:1C", "5 SRP2 12 SHP:0",
                             "12 -30 SCFS 13 500 SCFS", "12 SRP1 13 SRP2 2 SLOOP 1 5 IP", "13 SRP1 13 40 SHPIX 1 SHZ:1",
                             "SVTCA:0 14 MDAP:1 14 SRP0 1 MDRP:1C",
                             "SVTCA:0 15 SRP0 1 ALIGNRP", "12 GC:0 1 SWAP SCFS 13 GC:0 2 SWAP SCFS",
                             "12 GC:1 1 SWAP SCFS 13 GC:1 2 SWAP SCFS",
                             "SVTCA:0 14 GC:0 1 SWAP SCFS 15 GC:0 2 SWAP SCFS", "12 60 SHPIX 0 MDAP:0 IUP:1"]):
        for bearing in (37, 50, 0, -21):
            own = HEIGHT if "14" in row or "15" in row else ADVANCE if k in BETWEEN else None
            glyph = picture(font, "SVTCA:1 " + row, bearing=bearing, advance=652)
            suite.case("phantom-%d-bearing-%d" % (k, bearing), font, about, glyph, own=own)


def make_parallel(suite, font):
    """ISECT of parallel lines puts the point in the middle of the four ends."""
    setup = "SVTCA:0 0 100 SCFS 2 100 SCFS 5 300 SCFS 7 300 SCFS SVTCA:1"
    for k, row in enumerate(["9 0 2 5 7 ISECT", "9 0 2 7 5 ISECT", "9 0 0 5 7 ISECT", "9 5 5 5 5 ISECT", "9 0 2 0 2 ISECT"]):
        suite.case("isect-parallel-%d" % k, font, ABOUT % "ISECT", picture(font, "%s %s" % (setup, row)), own=PLACE, within=2)


def make_twilight_originals(suite, font):
    """A row that puts a twilight point sets its original place too; and MDAP sets reference point 1 as well as 0."""
    for name, row in (("MIAP", "0 SZP0 4 1 MIAP:0"), ("MSIRP", "0 SZP1 5 SRP0 4 55 MSIRP:0"), ("SCFS", "0 SZP2 4 64 SCFS")):
        program = "%s SVTCA:1 %s 1 SZPS %s" % (MOVED, row, SEEN_TWILIGHT)
        suite.case("%s-original" % name.lower(), font, ABOUT % name, picture(font, program))
    far = "SVTCA:1 1 %s SHPIX 1 %s SHPIX" % (number(1 << 30), number(1 << 30))  # point 1 is at 37, and then at 37 - 2^31
    for k, program in enumerate([shown_wide(far + " 8192 14189 SPVFS 5 1 MD:0"), far + " 3 MDAP:0 IUP:1"]):
        suite.case("wraps-%d" % k, font, ABOUT % "places", picture(font, program), own=WRAPS, bits=False)
    suite.case("shc-of-twilight", font, ABOUT % "SHC", picture(font, "%s %s SVTCA:1 0 SZP1 3 SRP2 0 SHC:0" % (MOVED, TWILIGHT)))
    suite.case("mdap-rp1", font, ABOUT % "MDAP", picture(font, "%s SVTCA:1 5 MDAP:0 9 SHP:1" % MOVED))
