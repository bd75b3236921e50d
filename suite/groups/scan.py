"""Scan conversion without drop-out control: centres on edges and arcs, winding, direction, implied points, and random outlines."""
import random

from making.fontmaker import FontMaker
from making.suite import APPLE

RULE = APPLE + "scan conversion, rules 1 and 2: %s"
TOUCH = "a centre on the outline is set, also on a spike, a line without width, or where contours touch"
EXACT = "points between points off the curve, and arcs, are exact, and never rounded to 1/64 pixel"
FLAT = "an arc whose three points lie on one line covers all that the curve passes"


def make(suite):
    """The cases of the group."""
    suite.group = "scan"
    font = suite.font(FontMaker("scan"))
    for name, contours, part, own in shapes():
        for turn, way in (("", contours), ("-reversed", [contour[::-1] for contour in contours])):
            glyph = font.simple(way)
            suite.case(name + turn, font, RULE % part, glyph, hinted=False, own=own)
    make_random(suite, font)
    make_halves(suite, font)
    make_moved(suite, font)


def box(x0, y0, x1, y1):
    """A rectangle to the right of its way, as TrueType fills."""
    return [(x0, y0, 1), (x0, y1, 1), (x1, y1, 1), (x1, y0, 1)]


def shapes():
    """Contours in 26.6 by name, the part of the rules, and the decision if there is one."""
    yield from edges()
    yield from windings()
    yield from arcs()
    yield from flats()


def edges():
    """Boxes and triangles, with centres on their edges and beside them."""
    for k, (x0, y0, x1, y1) in enumerate([(0, 0, 64, 64), (32, 32, 96, 96), (33, 33, 95, 95), (31, 31, 97, 97), (32, 0, 33, 300),
                                          (33, 0, 95, 300), (0, 33, 300, 95),
                                          (-96, -96, -32, -32), (-31, -31, 31, 31), (0, 0, 640, 640), (-64, 32, 64, 32),
                                          (32, 32, 32, 32), (32, 0, 32, 200), (31, 0, 31, 200)]):
        yield "box-%d" % k, [box(x0, y0, x1, y1)], "centres on edges", TOUCH if x0 == x1 or y0 == y1 else None
    for k, points in enumerate([[(0, 0), (320, 0), (0, 320)], [(32, 32), (352, 32), (32, 352)], [(0, 0), (64, 320), (320, 64)],
                                [(32, 32), (96, 96), (160, 32)], [(32, 32), (352, 160), (96, 288)],
                                [(-32, -32), (32, 288), (352, 96)], [(0, 0), (1000, 100), (200, 700)],
                                [(32, 0), (33, 640), (34, 0)], [(0, 32), (640, 33), (0, 34)], [(0, 0), (640, 640), (640, 641)]]):
        yield "triangle-%d" % k, [[(x, y, 1) for x, y in points]], "slanted edges", None


def windings():
    """Contours within contours, across contours and across themselves."""
    outer = box(0, 0, 320, 320)
    yield "ring-same-way", [outer, box(96, 96, 224, 224)], "winding", None
    yield "ring-other-way", [outer, box(96, 96, 224, 224)[::-1]], "winding", None
    yield "ring-on-centres", [outer, box(96, 96, 224, 224)[::-1], box(160, 160, 160, 160)], "winding", TOUCH
    yield "three-levels", [outer, box(64, 64, 256, 256), box(128, 128, 192, 192)[::-1]], "winding", None
    yield "overlap", [box(0, 0, 200, 200), box(100, 100, 300, 300)], "winding", None
    yield "overlap-against", [box(0, 0, 200, 200), box(100, 100, 300, 300)[::-1]], "winding", None
    yield "cancelled", [box(0, 0, 200, 200), box(0, 0, 200, 200)[::-1]], "winding", None
    yield "cancelled-on-centres", [box(32, 32, 224, 224), box(32, 32, 224, 224)[::-1]], "winding", TOUCH
    yield "eight", [[(0, 0, 1), (320, 320, 1), (320, 0, 1), (0, 320, 1)]], "self-crossing contours", None
    yield "star", [[(160, 340, 1), (60, 20, 1), (330, 220, 1), (-10, 220, 1), (260, 20, 1)]], "self-crossing contours", None
    yield "twice-round", [box(10, 10, 300, 300) + box(10, 10, 300, 300)], "self-crossing contours", None
    yield "spike", [[(0, 0, 1), (0, 100, 1), (100, 100, 1), (100, 50, 1), (416, 50, 1), (100, 50, 1), (100, 0, 1)]], "spikes", None
    yield "spike-on-centres", [[(0, 0, 1), (0, 100, 1), (100, 100, 1), (100, 32, 1), (416, 32, 1), (100, 32, 1),
                                (100, 0, 1)]], "spikes", TOUCH


def arcs():
    """Contours with points off the curve."""
    for name, contour, own in [("arch", [(0, 0, 1), (64, 128, 0), (128, 0, 1)], None),
            ("on-corner", [(0, 0, 1), (32, 64, 0), (64, 0, 1)], None), ("tall", [(0, 0, 1), (100, 1000, 0), (200, 0, 1)], None),
                               ("circle", [(160, 0, 1), (0, 0, 0), (0, 160, 1), (0, 320, 0), (160, 320, 1), (320, 320, 0),
                                           (320, 160, 1), (320, 0, 0)], None),
                               ("all-off", [(0, 0, 0), (256, 0, 0), (256, 256, 0), (0, 256, 0)], None),
                               ("all-off-odd", [(1, 0, 0), (257, 2, 0), (254, 257, 0), (0, 255, 0)], EXACT),
                               ("lens-on-chord", [(0, 32, 1), (64, 160, 0), (128, 32, 1), (64, -96, 0)], None),
                               ("lens-up", [(32, 0, 1), (160, 64, 0), (32, 128, 1), (-96, 64, 0)], None),
                               ("two-off", [(0, 0, 1), (0, 255, 0), (257, 255, 0), (257, 0, 1)], EXACT),
                               ("three-off", [(0, 0, 1), (1, 300, 0), (150, 151, 0), (301, 299, 0), (300, 0, 1)], EXACT),
                               ("arcs-only", [(0, 0, 0), (100, 301, 0), (303, 100, 0)], EXACT),
                               ("off-first", [(0, 200, 0), (100, 300, 1), (200, 0, 1)], None),
                               ("level-chord", [(0, 96, 1), (160, 250, 0), (320, 96, 1)], None),
                               ("level-chord-below", [(0, 96, 1), (160, -60, 0), (320, 96, 1)], None),
                               ("upright-chord", [(96, 0, 1), (250, 160, 0), (96, 320, 1)], None),
                               ("upright-chord-left", [(96, 0, 1), (-60, 160, 0), (96, 320, 1)], None),
                               ("slanted-chord", [(32, 32, 1), (300, 40, 0), (352, 352, 1)], None),
                               ("turns-back", [(0, 0, 1), (600, 32, 0), (0, 64, 1)], None),
                               ("tip-on-centre", [(0, 0, 1), (192, 32, 0), (0, 64, 1)], None),
                               ("tip-before-centre", [(0, 0, 1), (190, 32, 0), (0, 64, 1)], None)]:
        yield "arc-" + name, [contour], "arcs", own


def flats():
    """Arcs whose points lie on one line, and contours of one and two points."""
    for name, contour in [("overshoot", [(0, 32, 1), (192, 32, 0)]),
            ("straight", [(0, 0, 1), (100, 100, 0), (200, 200, 1), (200, 0, 1)]),
                          ("upright", [(32, 0, 1), (32, 300, 0), (32, 100, 1)]),
                          ("slanted", [(0, 0, 1), (256, 256, 0), (64, 64, 1)]), ("both-off", [(0, 32, 0), (256, 32, 0)]),
                          ("closed", [(32, 32, 1), (160, 32, 0), (32, 32, 1)])]:
        yield "flat-" + name, [contour], "arcs whose points lie on one line", FLAT
    yield "point", [[(32, 32, 1)]], "contours of one point", "a contour of one point draws nothing"
    yield "two-points", [[(32, 32, 1), (352, 32, 1)]], "contours of two points", TOUCH
    yield "point-and-box", [[(32, 32, 1)], box(100, 100, 200, 200)], "contours of one point", "a contour of one point draws nothing"


def make_random(suite, font):
    """Outlines by a fixed sequence of random numbers: some on a coarse grid, so that centres lie on edges and arcs."""
    chance = random.Random(70)
    for k in range(180):
        grid, contours = chance.choice((1, 1, 16, 32)), []
        for _ in range(chance.choice((1, 1, 1, 2, 3))):
            count = chance.randrange(3, 9)
            contours.append([(grid * chance.randrange(-60 // grid, 420 // grid), grid * chance.randrange(-60 // grid, 420 // grid),
                              chance.choice((1, 1, 0))) for _ in range(count)])
        suite.case("random-%d" % k, font, RULE % "outlines of lines and arcs", font.simple(contours), hinted=False)


def make_halves(suite, font):
    """An arc, and the same curve as two arcs: the same pixels."""
    chance = random.Random(3)
    for k in range(30):
        (ax, ay), (bx, by), (cx, cy) = [(4 * chance.randrange(-20, 100), 4 * chance.randrange(-20, 100)) for _ in range(3)]
        one = [(ax, ay, 1), (bx, by, 0), (cx, cy, 1)]
        two = [(ax, ay, 1), ((ax + bx) // 2, (ay + by) // 2, 0), ((ax + 2 * bx + cx) // 4, (ay + 2 * by + cy) // 4, 1),
               ((bx + cx) // 2, (by + cy) // 2, 0), (cx, cy, 1)]
        for name, contour in (("whole", one), ("halves", two)):
            suite.case("halves-%d-%s" % (k, name), font, RULE % "an arc and its halves", font.simple([contour]), hinted=False)


def make_moved(suite, font):
    """The same shape moved by parts of pixels."""
    shape = [(0, 0, 1), (90, 250, 0), (200, 130, 1), (310, 240, 1), (180, -30, 0), (100, 60, 1)]
    for dx in (-64, -33, -32, -1, 0, 1, 31, 32, 33, 64):
        for dy in (-32, 0, 1, 32, 640):
            suite.case("moved-%d-%d" % (dx, dy), font, RULE % "places of centres",
                       font.simple([[(x + dx, y + dy, on) for x, y, on in shape]]), hinted=False)
