"""IUP: untouched points between, before and after touched ones, on both axes and all contours."""
import random

from making.fontmaker import FontMaker
from making.probe import CONTOURS, POINTS, picture
from making.suite import APPLE

ABOUT = APPLE + "Instruction set, Managing outlines: IUP"
ONCE = "an interpolated place is exact and rounded once to 1/64 pixel"
EQUAL = "of two touched points with one original coordinate the one before an untouched point counts as the lower"
EQUAL_RANDOM = (70, 87, 91, 100)  # of the random programs, those that leave two such points
EQUAL_SHAPES = ("equal-1-1", "equal-2-1", "equal-4-1", "one-point-2-1", "one-point-4-1")
ZONE = "IUP works on the glyph zone, whatever the zone pointers are"
RESET = "IUP sets an untouched point from its original place, wherever a row without touching moved it"


def make(suite):
    """The cases of the group."""
    suite.group = "iup"
    font = suite.font(FontMaker("iup"))
    for axis in (0, 1):
        for k, program in enumerate(["IUP:%d", "SVTCA:%d 0 40 SHPIX IUP:%d", "SVTCA:%d 1 40 SHPIX 2 -30 SHPIX IUP:%d",
                                     "SVTCA:%d 0 MDAP:0 2 90 SHPIX IUP:%d",
                                     "SVTCA:%d 0 MDAP:1 1 MDAP:1 2 MDAP:1 3 MDAP:1 IUP:%d",
                                     "SVTCA:%d 4 30 SHPIX 11 -30 SHPIX IUP:%d",
                                     "SVTCA:%d 0 40 SHPIX 1 40 SHPIX 2 40 SHPIX 3 50 SHPIX IUP:%d",
                                     "SVTCA:%d 12 64 SHPIX 0 MDAP:0 IUP:%d"]):
            suite.case("plain-%d-%d" % (axis, k), font, ABOUT, picture(font, program.replace("%d", str(axis))))
        for k, program in enumerate(["SVTCA:%d 5 SRP2 5 40 SHPIX 1 SHZ:0 IUP:%d",
                                     "SVTCA:%d 5 SRP2 5 40 SHPIX 1 SHZ:0 0 MDAP:0 IUP:%d"]):
            suite.case("after-shz-%d-%d" % (axis, k), font, ABOUT, picture(font, program.replace("%d", str(axis))), own=RESET)
        for k, zones in enumerate(["0 SZPS", "0 SZP2", "0 SZP0 0 SZP1"]):
            program = "SVTCA:%d 0 40 SHPIX 2 -25 SHPIX 9 33 SHPIX %s IUP:%d" % (axis, zones, axis)
            suite.case("zones-%d-%d" % (axis, k), font, ABOUT, picture(font, program), own=ZONE)
        other = "SVTCA:%d 0 40 SHPIX 2 40 SHPIX IUP:%d" % (axis, 1 - axis)
        suite.case("other-axis-%d" % axis, font, ABOUT, picture(font, other))
    make_random(suite, font)
    make_special(suite)


def make_random(suite, font):
    """Touched sets and moves by a fixed sequence of random numbers."""
    chance = random.Random(7)
    for k in range(120):
        rows = []
        for axis in (0, 1):
            rows.append("SVTCA:%d" % axis)
            for point in sorted(chance.sample(range(POINTS), chance.randrange(1, 7))):
                rows.append(chance.choice(["%d MDAP:1" % point, "%d %d SHPIX" % (point, chance.randrange(-90, 90)),
                                           "%d MDAP:0" % point]))
        suite.case("random-%d" % k, font, ABOUT, picture(font, " ".join(rows) + " IUP:0 IUP:1"),
                   **({"own": EQUAL} if k in EQUAL_RANDOM else {"own": ONCE, "within": 1}))


def make_special(suite):
    """Equal coordinates, points off the curve, coincident touched points, contours of one and two points."""
    font = suite.font(FontMaker("iup-special"))
    shapes = {
        "equal": [[(100, 0, 1), (100, 200, 1), (100, 400, 0), (300, 400, 1), (300, 0, 1)]],
        "one-point": [[(50, 50, 1)], [(100, 0, 1), (100, 200, 1), (300, 100, 1)]],
        "two-points": [[(50, 50, 1), (80, 500, 1)], [(100, 0, 1), (100, 200, 1), (300, 100, 1)]],
        "order": [[(300, 0, 1), (100, 300, 1), (200, 150, 1), (250, 20, 0), (400, 170, 1), (150, 90, 1)]],
        "many": CONTOURS + [[(700 + 20 * k, (k * k * 37) % 600, k % 3 > 0) for k in range(14)]],
    }
    touches = ["0 33 SHPIX", "0 33 SHPIX 2 -21 SHPIX", "1 MDAP:0 2 50 SHPIX", "0 40 SHPIX 1 40 SHPIX", "1 200 SHPIX 2 -200 SHPIX",
               "3 64 SHPIX 0 MDAP:0 1 9 SHPIX"]
    glyph = font.simple(shapes["equal"], "SVTCA:0 0 501 SHPIX 2 MDAP:0 IUP:0")  # point 1 goes to 501 - 50.5
    suite.case("half-below-zero", font, ABOUT, glyph, own=ONCE, within=1)
    for name, contours in shapes.items():
        for k, touch in enumerate(touches):
            for axis in (0, 1):
                glyph = font.simple(contours, "SVTCA:%d %s IUP:%d" % (axis, touch, axis))
                case = "%s-%d-%d" % (name, k, axis)
                suite.case(case, font, ABOUT, glyph, own=EQUAL if case in EQUAL_SHAPES else None)
