"""Drop-out control by the nearer pixel: of a gap the pixel is set to whose centre the stroke's middle is nearer ("smart" drop-out
control)."""
import random

from making.fontmaker import FontMaker
from making.suite import APPLE

from .dropout import shapes, some
from .scan import box

RULE = APPLE + "SCANTYPE, smart drop-out control: %s"
NEARER = ("the nearer pixel is the one on whose side more of the 126 places between the centres are covered, 1/128 pixel apart; "
          "all "
          "gaps of rows are closed at once, and then all of columns")


def make(suite):
    """The cases of the group."""
    suite.group = "nearer"
    font = suite.font(FontMaker("nearer"))
    for k in (34, 40, 46, 52, 58, 61, 62, 63, 64, 67, 73, 79, 85, 91):
        for name, contours in (("stem", [box(k, 0, k + 3, 320), box(0, 320, 200, 400)]),
                               ("bar", [box(0, k, 320, k + 3), box(320, 0, 400, 200)])):
            own = NEARER if abs(2 * k + 3 - 128) < 4 else None
            suite.case("%s-%d" % (name, k), font, RULE % "thin stems and bars", font.simple(contours), hinted=False, dropout="near",
                       own=own)
    for k, (left, right) in enumerate([(34, 94), (34, 60), (60, 94), (33, 62), (66, 95), (40, 89), (80, 140), (110, 120)]):
        for name, contours in (("stems", [box(left, 0, left + 2, 320), box(right, 0, right + 1, 320), box(0, 320, 200, 400)]),
                               ("wide", [box(left, 0, right, 320), box(0, 320, 200, 400)])):
            suite.case("%s-%d" % (name, k), font, RULE % "two strokes, wide strokes", font.simple(contours), hinted=False,
                       dropout="near", own=NEARER)
    for name, contours, part, own in shapes():
        if not name.startswith(("stem-", "bar-")):
            suite.case(name, font, RULE % part, font.simple(contours), hinted=False, dropout="near", own=own and NEARER)
    chance = random.Random(21)
    for k in range(40):
        suite.case("random-%d" % k, font, RULE % "outlines of lines and arcs", font.simple(some(chance)), hinted=False,
                   dropout="near", own=NEARER)
