"""Scaling to 26.6 at many em squares and sizes, phantom points, advances and the origin."""
import struct

from making.fontmaker import FontMaker
from making.probe import CONTOURS, shown
from making.suite import APPLE, OPENTYPE

SCALE = APPLE + "scaling a glyph: FUnits to pixels"
METRICS = OPENTYPE + "hmtx: advance widths and left side bearings"
PHANTOM = APPLE + "phantom points"
HALVES = "a scaled value is exact and rounded once, halves away from zero"
LARGEST = "a coordinate is at most 2^21/64 pixels, a side at most 8192 pixels"
ORIGINAL = "distances of the original outline are measured between scaled places"
EMS = [16, 100, 255, 1000, 1024, 2048, 3000, 4096, 16384]
SIZES = [1, 7, 12, 13, 16, 23, 33, 64, 96]


def make(suite):
    """The cases of the groups."""
    suite.group = "scaling"
    for upem in EMS:
        font = suite.font(FontMaker("em-%d" % upem, upem=upem))
        some = in_em(upem)
        glyph = font.simple(some, advance=upem * 5 // 8)
        odd = font.simple([[(1, 1, 1), (3, upem // 3, 1), (upem // 2, upem // 2 - 1, 0), (upem * 2 // 3, -1, 1)]],
                          advance=upem // 2 + 1, bearing=0)
        for ppem in SIZES:
            for hinted in (False, True):
                for name, number in (("plain", glyph), ("odd", odd)):
                    suite.case("%s-%d-at-%d-%s" % (name, upem, ppem, "hinted" if hinted else "unhinted"), font, SCALE, number,
                               ppem=ppem, hinted=hinted,
                               **(open_by(HALVES, 1) if ppem * 64 % upem else {}))
        for k, program in enumerate(["SVTCA:1 0 SRP0 1 MDRP:04 0 SRP1 6 SRP2 2 IP 5 MDAP:1 IUP:0 IUP:1",
                                     "SVTCA:0 1 MDAP:1 0 MDAP:1 IUP:0", "SVTCA:1 5 1 MD:1 2 SWAP SCFS"]):
            hinted = font.simple(some, program, advance=upem * 5 // 8)
            for ppem in (12, 13, 23):
                suite.case("hinted-%d-%d-at-%d" % (upem, k, ppem), font, SCALE, hinted, ppem=ppem,
                           **(open_by(ORIGINAL, 64) if ppem * 64 % upem else {}))
    make_values(suite)
    make_edges(suite)
    make_limits(suite)
    make_metrics(suite)


def in_em(upem):
    """The contours of most cases in another em than 1,024 units."""
    return [[(x * upem // 1024, y * upem // 1024, on) for x, y, on in contour] for contour in CONTOURS]


def open_by(own, within):
    """A decision, and by how much it is open."""
    return {"own": own, "within": within}


def make_values(suite):
    """Control values at edges of rounding, in an em of 1,000 units.

    437 units are 335.616/64 pixels at 12 pixels per em, so 336; and a rounding with the threshold 48 takes 336 to 384, but 335 to
    320. 31,972 units are 24,554.496/64 there, and 31,951 units 22,493.504/64 at 11. A factor in 16.16 is off by a third of its last
    bit, which is 0.17/64 of such a value."""
    font = suite.font(FontMaker("values", upem=1000, cvt=[437, -437, 435, 1, 31972, 31951, -31972, -31951, 125, -125]))
    about = APPLE + "Instruction set, Managing the Control Value Table: %s"
    rows = [("super-round", "RCVT", "74 SROUND 0 RCVT ROUND:0 1 RCVT ROUND:0", 2),
            ("large", "RCVT", "4 RCVT 5 RCVT 6 RCVT 7 RCVT", 4), ("first", "RCVT", "0 RCVT 1 RCVT 2 RCVT 3 RCVT 8 RCVT 9 RCVT", 6),
            ("wcvtf", "WCVTF", "0 437 WCVTF 0 RCVT 0 -31972 WCVTF 0 RCVT", 2)]
    for ppem in (11, 12):
        for name, row, program, left in rows:
            glyph = font.simple(in_em(1000), shown(program, left))
            suite.case("values-%s-at-%d" % (name, ppem), font, about % row, glyph, ppem=ppem, bits=False,
                       **open_by(HALVES, 64 if name == "super-round" else 1))
    for k, program in enumerate(["74 SROUND 5 0 MIAP:1", "74 SROUND 200 SCVTCI 12 SRP0 5 0 MIRP:04",
                                 "437 SSW 2000 SSWCI 0 SRP0 5 MDRP:00", "31972 SSW 30000 SSWCI 0 SRP0 5 MDRP:00"]):
        glyph = font.simple(in_em(1000), "SVTCA:1 " + program)
        suite.case("values-moved-%d" % k, font, about % "control values and the single width", glyph, ppem=12, bits=False,
                   **open_by(HALVES, 64 if "SROUND" in program else 1))
    halves = suite.font(FontMaker("halves", upem=2048, cvt=[1, -1, 3, -3, 1001, -1001]))
    glyph = halves.simple([[(1, -1, 1), (-3, 3, 1), (5, 1001, 1), (-1001, 7, 1)]], shown("0 RCVT 1 RCVT 2 RCVT 3 RCVT", 4))
    for name, hinted in (("outline", False), ("values", True)):
        suite.case("halves-%s" % name, halves, SCALE, glyph, hinted=hinted, bits=False, **open_by(HALVES, 1))


def make_edges(suite):
    """Places of the same kind, and points near to each other.

    31,847, 31,972 and 32,222 units are just under a half at 12 pixels per em, 31,826 and 31,951 just over one at 11. The distance
    of points 0 and 1 on the scaled outline is not their distance in FUnits, scaled."""
    font = suite.font(FontMaker("edges", upem=1000))
    far = font.simple([[(0, 0, 1), (31972, 31951, 1), (3, 7, 1), (-31972, -31951, 0), (0, 1, 1), (31826, 31847, 1), (1, 2, 0),
                        (-31847, -31826, 1), (1, 0, 1), (32222, -32222, 1)]], advance=31972)
    for ppem in (11, 12):
        suite.case("edges-at-%d" % ppem, font, SCALE, far, ppem=ppem, hinted=False, bits=False, **open_by(HALVES, 1))
    near = [[(1, 0, 1), (3, 500, 1), (700, 503, 1), (699, 1, 1)]]
    for k, program in enumerate(["0 SRP0 1 MDRP:00", "1 0 MD:1 2 SWAP SCFS", "0 SRP1 2 SRP2 2 6400 SHPIX 1 IP",
                                 "2 6400 SHPIX 0 MDAP:0 IUP:1"]):
        glyph = font.simple(near, "SVTCA:1 " + program)
        suite.case("near-%d" % k, font, SCALE, glyph, ppem=12, bits=False, **open_by(ORIGINAL, 64))


def make_limits(suite):
    """Outlines that are too far or too large to draw."""
    font = suite.font(FontMaker("limits", upem=16))
    for k, (x, y, side) in enumerate([(0, 0, 128), (0, 0, 100), (32000, 0, 60), (-32768, 0, 60), (0, 32000, 60), (500, 0, 1),
                                      (512, 0, 1), (0, -512, 1), (511, 0, 1), (-512, 0, 1)]):
        glyph = font.simple([[(x, y, 1), (x, y + side, 1), (x + side, y, 1)]], advance=16)
        suite.case("limit-%d" % k, font, SCALE, glyph, ppem=16 if x == 0 and side > 1 else 1024, hinted=False,
                   own=LARGEST)
    glyph = font.simple([[(511, 0, 1), (511, 1, 1), (512, 0, 1)]], "SVTCA:1 2 1 SHPIX", advance=16)
    suite.case("limit-one-more", font, SCALE, glyph, ppem=1024, own=LARGEST)
    for side in (8192, 8193):
        glyph = font.simple([[(0, 0, 1), (0, 1, 1), (side, 1, 1), (side, 0, 1)]], advance=16)
        suite.case("limit-side-%d" % side, font, SCALE, glyph, hinted=False, own=LARGEST)


def make_metrics(suite):
    """Bearings other than xMin move the outline; advances past the pairs; hinted phantom points are on whole pixels."""
    suite.group = "phantoms"
    font = suite.font(FontMaker("metrics"))
    square = [[(64, 0, 1), (64, 256, 1), (320, 256, 1), (320, 0, 1)]]
    for bearing in (64, 0, 100, -70, 31, 32, 33, 96, -32, -33):
        for advance in (0, 640, 671, 672, 673, 65535):
            glyph = font.simple(square, advance=advance, bearing=bearing)
            for hinted in (False, True):
                left = 64 - bearing
                own = "a phantom point in the middle between two pixels goes away from zero" if hinted and (left % 64 == 32
                    or (left + advance) % 64 == 32) else None
                suite.case("bearing-%d-advance-%d-%s" % (bearing, advance, "hinted" if hinted else "unhinted"), font, PHANTOM,
                           glyph, hinted=hinted, own=own)
    pairs = suite.font(FontMaker("pairs"))
    pairs.pairs = 3
    for k in range(6):
        glyph = pairs.simple(square, advance=500 + 16 * k, bearing=64 - 16 * k)
        for hinted in (False, True):
            suite.case("pairs-%d-%s" % (k, "hinted" if hinted else "unhinted"), pairs, METRICS, glyph, hinted=hinted)
    widths = suite.font(FontMaker("hdmx"))
    glyph = widths.simple(square, advance=500)
    widths.tables["hdmx"] = struct.pack(">HHL4B", 0, 1, 8, 16, 9, 8, 8) + bytes([9, 0, 0, 0])
    suite.case("hdmx", widths, OPENTYPE + "hdmx", glyph, own="hdmx is not read")
    few = suite.font(FontMaker("bearings"))
    few.pairs = 1
    for k in range(3):
        few.simple(square, bearing=64 - 16 * k)
    few.tables["hmtx"] = few.all_tables()["hmtx"][:4 + 2 * 2 + 1]
    for k in (2, 3, 4):
        own = "a bearing past hmtx, or half inside it, is 0"
        suite.case("bearing-past-hmtx-%d" % k, few, METRICS, k, hinted=False, own=own)
    empty = font.add(b"", advance=333, bearing=40)
    for hinted in (False, True):
        for ppem in (9, 16, 31):
            own = "an empty glyph has no box, and xMin 0" if hinted else HALVES if 333 * ppem * 64 % 1024 else None
            suite.case("empty-%d-%s" % (ppem, "hinted" if hinted else "unhinted"), font, METRICS, empty, ppem=ppem, hinted=hinted,
                       own=own)
