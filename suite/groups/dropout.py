"""Drop-out control by rule 3: thin strokes, hairlines, tips, the edge of the frame, and outlines between centres."""
import random

from making.fontmaker import FontMaker
from making.suite import APPLE

from .scan import box

RULE = APPLE + "scan conversion, rule 3: %s"
LEFT = "of a gap the left or the lower pixel is set; rows come first, and a column's gap counts if rows left both its pixels unset"
FRAME = "a glyph whose box holds no centre has the pixel in which the box's middle lies, on a border the right or upper one"
TOUCH = "an outline that only touches a row or column between two centres passes there"
FREE = "stubs are not left out (rules 4 and 6)"


def make(suite):
    """The cases of the group."""
    suite.group = "dropout"
    font = suite.font(FontMaker("dropout"))
    for name, contours, part, own in shapes():
        for turn, way in (("", contours), ("-reversed", [contour[::-1] for contour in contours])):
            suite.case(name + turn, font, RULE % part, font.simple(way), hinted=False, dropout="left", own=own)
    make_random(suite, font)
    make_moved(suite, font)


def shapes():
    """Contours in 26.6 by name, the part of the rule, and the decision."""
    for k in range(0, 64, 8):
        yield "stem-%d" % k, [box(k, 0, k + 8, 320)], "thin stems", FRAME if k + 8 < 32 or k > 32 else None
        yield "bar-%d" % k, [box(0, k, 320, k + 8)], "thin bars", FRAME if k + 8 < 32 or k > 32 else None
    for k in range(10, 64, 9):
        yield "stem-beside-%d" % k, [box(64 + k, 0, 64 + k + 8, 320), box(0, 0, 40, 40)], "thin stems", LEFT
        yield "bar-beside-%d" % k, [box(0, 64 + k, 320, 64 + k + 8), box(0, 0, 40, 40)], "thin bars", LEFT
    yield "hairline", [box(0, 0, 10, 10), [(40, 10, 1), (400, 300, 1), (402, 300, 1)]], "slanted strokes", LEFT
    yield "steep", [[(40, 10, 1), (120, 500, 1), (125, 500, 1), (45, 10, 1)]], "slanted strokes", LEFT
    yield "flat", [[(10, 40, 1), (500, 120, 1), (500, 125, 1), (10, 45, 1)]], "slanted strokes", LEFT
    yield "diagonal", [[(0, 0, 1), (400, 396, 1), (400, 400, 1), (0, 4, 1)]], "slanted strokes", LEFT
    yield "cross", [[(0, 0, 1), (400, 396, 1), (400, 400, 1), (0, 4, 1)],
                    [(0, 400, 1), (400, 4, 1), (400, 0, 1), (0, 396, 1)]], "slanted strokes", LEFT
    yield "v", [[(0, 400, 1), (150, 0, 1), (300, 400, 1), (290, 400, 1), (150, 30, 1), (10, 400, 1)]], "corners", LEFT
    for k, (x, y) in enumerate([(10, 10), (40, 40), (33, 10), (32, 5), (60, 60), (64, 64), (0, 0), (96, 30)]):
        yield "dot-%d" % k, [box(x, y, x + 3, y + 3)], "dots", FRAME
    for k in (62, -2):
        yield "stem-on-border-%d" % k, [box(k, 0, k + 4, 320)], "thin stems", FRAME
        yield "bar-on-border-%d" % k, [box(0, k, 320, k + 4)], "thin bars", FRAME
    yield "no-width-in-a-row", [[(40, 32, 1), (90, 32, 1)]], "strokes without width", TOUCH
    for k, (x, y, dx, dy) in enumerate([(40, 40, 30, 100), (40, 40, 100, 30), (90, 90, 60, 60), (33, 33, 62, 62),
                                        (33, 97, 62, 62)]):
        yield "hole-%d" % k, [box(x, y, x + dx, y + dy)], "boxes between centres", FRAME
    yield "tip-up", [[(0, 0, 1), (160, 700, 0), (320, 0, 1)], box(0, 0, 320, 20)], "tips of arcs", LEFT
    yield "tip-right", [[(0, 0, 1), (700, 160, 0), (0, 320, 1)]], "tips of arcs", LEFT
    yield "tip-touch", [[(80, 0, 1), (130, 192, 0), (180, 0, 1)], box(0, 0, 320, 10)], "tips of arcs", TOUCH
    yield "corner-touch", [[(80, 0, 1), (130, 96, 1), (180, 0, 1)], box(0, 0, 320, 10)], "corners", TOUCH
    yield "crescent", [[(0, 0, 1), (200, 420, 0), (400, 0, 1), (200, 400, 0)]], "thin arcs", LEFT
    yield "crescent-side", [[(0, 0, 1), (420, 200, 0), (0, 400, 1), (400, 200, 0)]], "thin arcs", LEFT
    yield "ring", [[(160, 0, 1), (0, 0, 0), (0, 160, 1), (0, 320, 0), (160, 320, 1), (320, 320, 0), (320, 160, 1), (320, 0, 0)],
                   [(160, 8, 1), (312, 8, 0), (312, 160, 1), (312, 312, 0), (160, 312, 1), (8, 312, 0), (8, 160, 1),
                    (8, 8, 0)]], "thin arcs", LEFT
    yield "no-width", [[(40, 10, 1), (400, 300, 1)]], "strokes without width", TOUCH
    yield "no-width-level", [[(10, 40, 1), (300, 40, 1)]], "strokes without width", TOUCH
    yield "no-width-upright", [[(40, 10, 1), (40, 300, 1)]], "strokes without width", TOUCH
    yield "flat-arc", [[(40, 10, 1), (400, 300, 0), (220, 155, 1)]], "strokes without width", TOUCH
    yield "stub", [box(0, 0, 320, 64), box(150, 64, 158, 90)], "stubs", FREE
    yield "stub-side", [box(0, 0, 64, 320), box(64, 150, 90, 158)], "stubs", FREE
    yield "wide", [box(0, 0, 320, 320)], "shapes without gaps", None
    yield "between-two", [box(0, 0, 100, 320), box(104, 0, 200, 320)], "gaps between strokes stay", None
    yield "white-hairline", [box(0, 0, 320, 320), box(98, 0, 106, 320)[::-1]], "gaps between strokes stay", None
    yield "point", [[(40, 40, 1)]], "contours of one point", "a contour of one point draws nothing"
    yield "three-gaps", [box(40, 0, 44, 320), box(104, 0, 108, 320), box(168, 0, 172, 320)], "thin stems", LEFT
    yield "grid", [box(40, 0, 44, 320), box(0, 104, 320, 108)], "rows before columns", LEFT


def make_random(suite, font):
    """Thin outlines by a fixed sequence of random numbers."""
    chance = random.Random(20)
    for k in range(110):
        suite.case("random-%d" % k, font, RULE % "outlines of lines and arcs", font.simple(some(chance)), hinted=False,
                   dropout="left", own=LEFT)


def some(chance):
    """One or two contours of lines and arcs at random."""
    grid, contours = chance.choice((1, 1, 8, 32)), []
    for _ in range(chance.choice((1, 1, 2))):
        count = chance.randrange(3, 7)
        contours.append([(grid * chance.randrange(-60 // grid, 380 // grid), grid * chance.randrange(-60 // grid, 380 // grid),
                          chance.choice((1, 1, 0))) for _ in range(count)])
    return contours


def make_moved(suite, font):
    """A thin stroke moved by parts of pixels."""
    shape = [(0, 0, 1), (90, 250, 0), (200, 130, 1), (204, 134, 1), (94, 262, 0), (4, 4, 1)]
    for dx in (-64, -33, -32, 0, 1, 31, 32, 64):
        for dy in (-32, 0, 1, 32):
            suite.case("moved-%d-%d" % (dx, dy), font, RULE % "places of centres",
                       font.simple([[(x + dx, y + dy, on) for x, y, on in shape]]), hinted=False, dropout="left", own=LEFT)
