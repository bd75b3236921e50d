"""Cases of the program: drop-out control, its limits and its time. Which pixels it sets the suite says."""
import math

import due
from cases import cases
from due import Counted
from made import Empty, Font, Simple, square
from making import fonts
from runs import Run
from strikes import A, B, words

CLOSED = " --dropout"


def box(x0, y0, x1, y1):
    """A rectangle as a contour."""
    return [(x0, y0, 1), (x1, y0, 1), (x1, y1, 1), (x0, y1, 1)]


class Drawn(Simple):
    """A glyph of contours whose pixels are given."""

    def __init__(self, contours, left, bottom, rows):
        Simple.__init__(self, [], contours)
        width = len(rows[0]) if rows else 0
        numbers = [int(row.replace("#", "1").replace(".", "0"), 2) for row in reversed(rows)]
        self.drawn = due.Bits(left, bottom, width, numbers) if rows else due.NO_BITS

    def closed_bits(self, font, ppem, move):
        assert move == 0
        return self.drawn


def unmoved(glyphs, codes, upem=1024):
    """A font of glyphs that stay where they are: their left side bearings are their least x."""
    return Font(glyphs, codes, upem=upem, metrics=[(upem, glyph.x_min) for glyph in glyphs])


def sizes_with_dropout():
    """What is thick at each size has the same pixels with drop-out control."""
    font = Font([Empty(), square(900), Simple([(0, 0, 500, 900)])], {A: 1, B: 2})
    for ppem in (2, 12, 100, 1024):
        yield Run("thick boxes at %d" % ppem, words(ppem, (A, B)) + CLOSED, font.data(), font.make((A, B), ppem))


def long_hairlines():
    """Hairlines as long as a glyph's coordinates let them be, at eight units a pixel."""
    for name, contour, rows in (("level", box(0, 5, 32767, 6), ["#" * 4096]), ("upright", box(5, 0, 6, 32767), ["#"] * 4096)):
        font = unmoved([Empty(), Drawn([contour], 0, 0, rows)], {A: 1}, 8192)
        yield Run("%s, 4,096 pixels" % name, words(1024, [A], False) + CLOSED, font.data(),
                  font.make([A], 1024, False, closed=True))


def many_hairlines():
    """512 hairlines beside each other, each a contour of two points, in bounded time. Each lies after the centres of an even column
    or row, and sets that; the first one sets the next, since its own is outside the frame."""
    many, top = 512, 8191
    places = [5 + 16 * k for k in range(many)]
    whole, empty = "#" * (2 * many), "." * (2 * many)
    for name, contours, left, bottom, rows in (
            ("upright", [[(x, 0, 1), (x, top, 1)] for x in places], 1, 0, ["#" + "#." * (many - 2) + "#"] * (2 * many)),
            ("level", [[(0, y, 1), (top, y, 1)] for y in places], 0, 1, [whole, empty] * (many - 2) + [whole, whole])):
        font = unmoved([Empty(), Drawn(contours, left, bottom, rows)], {A: 1}, 8192)
        yield Run("%d %s hairlines" % (many, name), words(1024, [A], False) + CLOSED, font.data(),
                  font.make([A], 1024, False, closed=True), limits={"RLIMIT_CPU": 2})


def ring(count, radius):
    """A ring of arcs: every other one of so many points on a circle is off the curve."""
    turns = [2 * math.pi * k / count for k in range(count)]
    return [[(round(radius * math.cos(turn)), round(radius * math.sin(turn)), 1 - k % 2) for k, turn in enumerate(turns)]]


def shapes_in_bounded_time():
    """Shapes whose time was once that of all their gaps, or of all segments of an arc's box: an arc that turns back far from its
    ends, with its chord; lenses of two arcs that lie on each other; a ring of many arcs; waves, whose points are all off the
    curve."""
    far, high = 32767, 8191
    for name, ppem, contours, seconds in (
            ("three points", 128, [[(-far, -far, 1), (far, far, 0), (-far, 1 - far, 1)]], 3),
            ("64 lenses", 255,
             [[(8 * k, 0, 1), (8 * k + 700, 1000, 0), (8 * k, 4000, 1), (8 * k + 700, 1000, 0)] for k in range(64)], 3),
            ("a ring of 2,048 arcs", 1024, ring(4096, 500), 2),
            ("1,024 waves", 255, [[(k * 5063 % (high + 1), high if k % 2 else 0, 0) for k in range(1024)]], 4)):
        font = fonts.font_of([b"", fonts.simple(contours)], fonts.map_to_one(1), upem=1024)
        yield Run("%s with drop-out control" % name, "make --ppem %d --chars 41 --unhinted --dropout" % ppem, font,
                  Counted(1, 0, hinted=False), limits={"RLIMIT_CPU": seconds})


def distances_with_dropout():
    """Points as far out as they may lie with drop-out control, two pixels less than without, and farther; sides to the limit and
    past it. A glyph of one unit to the pixel; the hairlines hold no centre, and have a frame with drop-out control alone."""
    far, side = 32766, 8192
    for name, contour, left, bottom, rows, fault in (
            ("a point 32,766 pixels out", box(far - 3, 0, far, 2), far - 3, 0, ["###"] * 2, None),
            ("a point 32,766 pixels down", box(0, -far, 3, 2 - far), 0, -far, ["###"] * 2, None),
            ("a point 32,767 pixels out", box(far - 3, 0, far + 1, 2), 0, 0, [], "51 TooFar 1"),
            ("a point 32,767 pixels up", box(0, far, 3, far + 1), 0, 0, [], "51 TooFar 1"),
            ("a point 32,767 pixels left", box(-far - 1, 0, 3, 5), 0, 0, [], "51 TooFar 1"),
            ("8,192 pixels", box(0, 0, side, 0), 0, 0, ["#" * side], None),
            ("8,193 pixels", box(0, 0, side + 1, 0), 0, 0, [], "52 GlyphTooLarge 1"),
            ("8,193 pixels upright", box(7, 0, 7, side + 1), 0, 0, [], "52 GlyphTooLarge 1")):
        font = unmoved([Empty(), Drawn([contour], left, bottom, rows)], {A: 1})
        answer = due.refused(fault) if fault else font.make([A], 1024, False, closed=True)
        yield Run(name, words(1024, [A], False) + CLOSED, font.data(), answer)


test_dropout = cases(sizes_with_dropout, long_hairlines, many_hairlines, shapes_in_bounded_time, distances_with_dropout)
