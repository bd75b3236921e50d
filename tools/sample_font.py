"""Makes examples/sample.ttf, the font that the page begins with: ASCII drawn with one pen, and programs that round strokes to
pixels.

A glyph is a path of strokes: M begins one, L goes on in a line, Q on an arc. A step across is 50 units of 1000 to the em. Heights
are 0 for the baseline, 10 for small letters, 14 for capitals, -4 below; the middle of the pen goes there.
"""
import math
import re

from making import fonts

PEN, STEP, SIDE, UPEM = 88, 50, 55, 1000  # the pen's width, a step across, the space on each side, the em
HALF = PEN // 2
# Heights of the paths, and where the middle of the pen is then.
LEVELS = [(-4, -200 + HALF), (0, HALF), (5, 250), (7, 350), (10, 500 - HALF), (14, 700 - HALF)]
ZONES = (500, 700)  # heights that strokes keep by their upper edge

SMALL_BOWL = "M0 6 Q0 10 3.5 10 Q7 10 7 6 L7 4 Q7 0 3.5 0 Q0 0 0 4"
LEFT_BOWL = "M7 6 Q7 10 3.5 10 Q0 10 0 6 L0 4 Q0 0 3.5 0 Q7 0 7 4"
ROUND_S = "M8 11 Q8 14 4 14 Q0 14 0 10.5 Q0 7 4 7 Q8 7 8 3.5 Q8 0 4 0 Q0 0 0 3"
PATHS = {
    "A": "M0 0 L4 14 L8 0 M1.4 5 L6.6 5", "B": "M0 0 L0 14 L4.5 14 Q8 14 8 10.5 Q8 7 4.5 7 L0 7 M4.5 7 Q8 7 8 3.5 Q8 0 4.5 0 L0 0",
    "C": "M8 11 Q8 14 4 14 Q0 14 0 10 L0 4 Q0 0 4 0 Q8 0 8 3", "D": "M0 0 L0 14 L4 14 Q8 14 8 10 L8 4 Q8 0 4 0 L0 0",
    "E": "M7 14 L0 14 L0 0 L7 0 M0 7 L6 7", "F": "M7 14 L0 14 L0 0 M0 7 L6 7",
    "G": "M8 11 Q8 14 4 14 Q0 14 0 10 L0 4 Q0 0 4 0 Q8 0 8 4 L8 6 L5 6", "H": "M0 0 L0 14 M8 0 L8 14 M0 7 L8 7",
    "I": "M0 0 L4 0 M2 0 L2 14 M0 14 L4 14", "J": "M6 14 L6 4 Q6 0 3 0 Q0 0 0 3", "K": "M0 0 L0 14 M8 14 L0 6 M2.5 8.5 L8 0",
    "L": "M0 14 L0 0 L7 0", "M": "M0 0 L0 14 L5 5 L10 14 L10 0", "N": "M0 0 L0 14 L8 0 L8 14",
    "O": "M4 0 Q0 0 0 4 L0 10 Q0 14 4 14 Q8 14 8 10 L8 4 Q8 0 4 0", "P": "M0 0 L0 14 L4.5 14 Q8 14 8 10.5 Q8 7 4.5 7 L0 7",
    "Q": "M4 0 Q0 0 0 4 L0 10 Q0 14 4 14 Q8 14 8 10 L8 4 Q8 0 4 0 M5 3 L9 -1",
    "R": "M0 0 L0 14 L4.5 14 Q8 14 8 10.5 Q8 7 4.5 7 L0 7 M4 7 L8 0", "S": ROUND_S, "T": "M0 14 L8 14 M4 14 L4 0",
    "U": "M0 14 L0 4 Q0 0 4 0 Q8 0 8 4 L8 14", "V": "M0 14 L4 0 L8 14", "W": "M0 14 L3 0 L6 10 L9 0 L12 14",
    "X": "M0 0 L8 14 M0 14 L8 0",
    "Y": "M0 14 L4 7 L8 14 M4 7 L4 0", "Z": "M0 14 L8 14 L0 0 L8 0",
    "a": "M1 10 L4 10 Q7 10 7 7 L7 0 M7 6 L3.5 6 Q0 6 0 3 Q0 0 3.5 0 Q7 0 7 3", "b": "M0 14 L0 0 " + SMALL_BOWL,
    "c": "M7 8 Q7 10 3.5 10 Q0 10 0 6 L0 4 Q0 0 3.5 0 Q7 0 7 2", "d": "M7 14 L7 0 " + LEFT_BOWL,
    "e": "M0 5 L7 5 L7 6 Q7 10 3.5 10 Q0 10 0 6 L0 4 Q0 0 3.5 0 L6 0", "f": "M5 14 L4 14 Q2 14 2 11 L2 0 M0 10 L5 10",
    "g": "M7 10 L7 -1 Q7 -4 4 -4 L1 -4 " + LEFT_BOWL, "h": "M0 14 L0 0 M0 6 Q0 10 3.5 10 Q7 10 7 6 L7 0",
    "i": "M0 10 L0 0 M0 14 L0 14",
    "j": "M3 10 L3 -1 Q3 -4 0 -4 M3 14 L3 14", "k": "M0 14 L0 0 M6 10 L0 4 M2 6 L6 0", "l": "M0 14 L0 0",
    "m": "M0 10 L0 0 M0 7 Q0 10 2.5 10 Q5 10 5 7 L5 0 M5 7 Q5 10 7.5 10 Q10 10 10 7 L10 0",
    "n": "M0 10 L0 0 M0 6 Q0 10 3.5 10 Q7 10 7 6 L7 0", "o": "M3.5 0 Q0 0 0 4 L0 6 Q0 10 3.5 10 Q7 10 7 6 L7 4 Q7 0 3.5 0",
    "p": "M0 10 L0 -4 " + SMALL_BOWL, "q": "M7 10 L7 -4 " + LEFT_BOWL, "r": "M0 10 L0 0 M0 6 Q0 10 3.5 10 L5 10",
    "s": "M6 8.5 Q6 10 3 10 Q0 10 0 7.5 Q0 5 3 5 Q6 5 6 2.5 Q6 0 3 0 Q0 0 0 1.5", "t": "M2 13 L2 3 Q2 0 4.5 0 L5 0 M0 10 L5 10",
    "u": "M0 10 L0 4 Q0 0 3.5 0 Q7 0 7 4 M7 10 L7 0", "v": "M0 10 L3.5 0 L7 10", "w": "M0 10 L2.5 0 L5 8 L7.5 0 L10 10",
    "x": "M0 0 L7 10 M0 10 L7 0", "y": "M0 10 L3.5 0 M7 10 L2 -4", "z": "M0 10 L7 10 L0 0 L7 0",
    "0": "M3.5 0 Q0 0 0 4 L0 10 Q0 14 3.5 14 Q7 14 7 10 L7 4 Q7 0 3.5 0 M3.5 7 L3.5 7", "1": "M0 11 L3 14 L3 0 M0 0 L6 0",
    "2": "M0 11 Q0 14 3.5 14 Q7 14 7 10.5 Q7 8 4 5 L0 0 L7 0", "3": "M0 14 L7 14 L3 8 Q7 8 7 4 Q7 0 3.5 0 Q0 0 0 3",
    "4": "M5.5 0 L5.5 14 L0 4 L7 4", "5": "M7 14 L1 14 L1 8 L3.5 8 Q7 8 7 4 Q7 0 3.5 0 L0 0",
    "6": "M6 14 Q0 12 0 5 L0 4 Q0 0 3.5 0 Q7 0 7 4 Q7 8 3.5 8 Q0 8 0 4", "7": "M0 14 L7 14 L2 0",
    "8": "M3.5 7 Q0.5 7 0.5 10.5 Q0.5 14 3.5 14 Q6.5 14 6.5 10.5 Q6.5 7 3.5 7 Q0 7 0 3.5 Q0 0 3.5 0 Q7 0 7 3.5 Q7 7 3.5 7",
    "9": "M1 0 Q7 2 7 9 L7 10 Q7 14 3.5 14 Q0 14 0 10 Q0 6 3.5 6 Q7 6 7 10",
    " ": "", "!": "M0 14 L0 4 M0 0 L0 0", '"': "M0 14 L0 10 M3 14 L3 10", "#": "M2 0 L3 14 M6 0 L7 14 M0 4 L8 4 M1 10 L9 10",
    "$": "M4 16 L4 -2 " + ROUND_S,
    "%": "M0 0 L8 14 M1.5 9 Q0 9 0 11.5 Q0 14 1.5 14 Q3 14 3 11.5 Q3 9 1.5 9 M6.5 0 Q5 0 5 2.5 Q5 5 6.5 5 Q8 5 8 2.5 Q8 0 6.5 0",
    "&": "M8 0 L2 9 Q1 14 3.5 14 Q6 14 6 11.5 Q6 9 3 7.5 Q0 6 0 3.5 Q0 0 3.5 0 Q8 0 8 6", "'": "M0 14 L0 10",
    "(": "M3 15 Q0 12 0 6 Q0 0 3 -3", ")": "M0 15 Q3 12 3 6 Q3 0 0 -3", "*": "M3 14 L3 6 M0 12 L6 8 M0 8 L6 12",
    "+": "M4 2 L4 10 M0 6 L8 6", ",": "M1 0 L0 -3", "-": "M0 5 L4 5", ".": "M0 0 L0 0", "/": "M0 0 L5 14",
    ":": "M0 0 L0 0 M0 9 L0 9", ";": "M1 0 L0 -3 M1 9 L1 9",
    "<": "M7 11 L0 6 L7 1", "=": "M0 4 L7 4 M0 8 L7 8", ">": "M0 11 L7 6 L0 1",
    "?": "M0 11 Q0 14 3.5 14 Q7 14 7 11 Q7 9 5 8 Q3.5 7 3.5 4 M3.5 0 L3.5 0",
    "@": "M8 10 L8 4 L11 4 L11 8 Q11 14 5.5 14 Q0 14 0 7 Q0 0 5.5 0 L9 0 M8 7 Q8 10 5.5 10 Q3 10 3 7 Q3 4 5.5 4 Q8 4 8 7",
    "[": "M3 15 L0 15 L0 -3 L3 -3", "\\": "M0 14 L5 0", "]": "M0 15 L3 15 L3 -3 L0 -3", "^": "M0 9 L3 14 L6 9", "_": "M0 -3 L8 -3",
    "`": "M0 14 L2 12", "{": "M4 15 L3.5 15 Q2 15 2 12 L2 9 Q2 6 0 6 Q2 6 2 3 L2 0 Q2 -3 3.5 -3 L4 -3", "|": "M0 15 L0 -3",
    "}": "M0 15 L0.5 15 Q2 15 2 12 L2 9 Q2 6 4 6 Q2 6 2 3 L2 0 Q2 -3 0.5 -3 L0 -3",
    "~": "M0 5 Q0 8 2 8 Q3.5 8 4 6.5 Q4.5 5 6 5 Q8 5 8 8",
}
NO_GLYPH = "M0 0 L0 14 L7 14 L7 0 L0 0"
SVTCA_Y, SVTCA_X, MDAP_ROUND, MDRP_STROKE, IUP_Y, IUP_X, PUSHB = 0x00, 0x01, 0x2F, 0xCD, 0x30, 0x31, 0xB0


def height(y):
    """The middle of the pen at a height of the paths."""
    for (low, at_low), (high, at_high) in zip(LEVELS, LEVELS[1:]):
        if y <= high or high == LEVELS[-1][0]:
            return at_low + (y - low) * (at_high - at_low) / (high - low)
    raise AssertionError(y)


def steps_of(path):
    """The steps of a path: where each begins, the middle of an arc or None, and where it ends."""
    here = None
    for kind, numbers in re.findall(r"([MLQ])([^MLQ]+)", path):
        values = [float(it) for it in numbers.split()]
        places = [(SIDE + HALF + STEP * x, height(y)) for x, y in zip(values[::2], values[1::2])]
        if kind != "M":
            yield here, places[0] if kind == "Q" else None, places[-1]
        here = places[-1]


def normal(start, end):
    """The direction to the left of a way, as long as half the pen."""
    x, y = end[0] - start[0], end[1] - start[1]
    return -y * HALF / math.hypot(x, y), x * HALF / math.hypot(x, y)


class Stroke:
    """A contour of a stroke, and what its program rounds: for each axis pairs of edges, and single points."""

    def __init__(self, points, edges, singles):
        points = [(round(x), round(y), on) for x, y, on in points]
        area = sum(x0 * y1 - x1 * y0 for (x0, y0, _), (x1, y1, _) in zip(points, points[1:] + points[:1]))
        order = list(range(len(points)))[:: 1 if area < 0 else -1]  # to the right, the way that TrueType fills
        self.points, place = [points[k] for k in order], {k: at for at, k in enumerate(order)}
        self.edges = [[(place[a], place[b]) for a, b in pairs] for pairs in edges]
        self.singles = [[place[it] for it in them] for them in singles]


def line(start, end):
    """A stroke along a line: with square ends, or if it is slanted with ends along the axis that it crosses."""
    (x0, y0), (x1, y1) = sorted([start, end])
    if x0 == x1 or y0 == y1:
        y0, y1 = min(y0, y1), max(y0, y1)
        left, right, low, high = x0 - HALF, x1 + HALF, y0 - HALF, y1 + HALF
        points = [(left, low, 1), (left, high, 1), (right, high, 1), (right, low, 1)]
        edges = [[(0, 3)] if x0 == x1 else [], [(0, 1)] if y0 == y1 else []]
        return Stroke(points, edges, [[0, 3] if x0 != x1 else [], [0, 1] if y0 != y1 else []])
    if abs(y1 - y0) >= abs(x1 - x0):
        (x0, y0), (x1, y1) = sorted([start, end], key=lambda it: it[1])
        slope = (x1 - x0) / (y1 - y0)
        wide, x0, y0, x1, y1 = HALF * math.hypot(1, slope), x0 - HALF * slope, y0 - HALF, x1 + HALF * slope, y1 + HALF
        return Stroke([(x0 - wide, y0, 1), (x1 - wide, y1, 1), (x1 + wide, y1, 1), (x0 + wide, y0, 1)], [[], []], [[], [0, 1]])
    slope = (y1 - y0) / (x1 - x0)
    high, x0, y0, x1, y1 = HALF * math.hypot(1, slope), x0 - HALF, y0 - HALF * slope, x1 + HALF, y1 + HALF * slope
    return Stroke([(x0, y0 - high, 1), (x0, y0 + high, 1), (x1, y1 + high, 1), (x1, y1 - high, 1)], [[], []], [[0, 3], []])


def arc(start, middle, end):
    """A stroke along an arc. Where it begins or ends along an axis, its edges and its end are rounded."""
    one, two = normal(start, middle), normal(middle, end)
    part = HALF * HALF / (HALF * HALF + one[0] * two[0] + one[1] * two[1])
    bend = ((one[0] + two[0]) * part, (one[1] + two[1]) * part)

    def beside(place, by, on, sign):
        return (place[0] + sign * by[0], place[1] + sign * by[1], on)
    points = [beside(start, one, 1, 1), beside(middle, bend, 0, 1), beside(end, two, 1, 1)]
    points += [beside(end, two, 1, -1), beside(middle, bend, 0, -1), beside(start, one, 1, -1)]
    edges, singles = [[], []], [[], []]
    for by, pair in ((one, (0, 5)), (two, (2, 3))):
        for axis in (0, 1):
            if abs(by[1 - axis]) < 1e-6:
                edges[axis].append(pair)
                singles[1 - axis].append(pair[0])
    return Stroke(points, edges, singles)


def program_of(strokes):
    """Instructions that round the strokes' edges to pixels, and keep each stroke at least a pixel wide."""
    code = bytearray()
    for axis, by_axis, others in ((1, SVTCA_Y, IUP_Y), (0, SVTCA_X, IUP_X)):
        code.append(by_axis)
        first = 0
        for stroke in strokes:
            for pair in stroke.edges[axis]:
                low, high = sorted(pair, key=lambda it: stroke.points[it][axis])
                if axis == 1 and stroke.points[high][1] in ZONES:
                    low, high = high, low
                code += bytes([PUSHB, first + low, MDAP_ROUND, PUSHB, first + high, MDRP_STROKE])
            for it in stroke.singles[axis]:
                code += bytes([PUSHB, first + it, MDAP_ROUND])
            first += len(stroke.points)
        code.append(others)
    return bytes(code)


def glyph_of(path):
    """A glyph's bytes, its advance and its left side bearing."""
    strokes = [line(start, end) if middle is None else arc(start, middle, end) for start, middle, end in steps_of(path)]
    if not strokes:
        return b"", 300, 0
    points = [it for stroke in strokes for it in stroke.points]
    right = max(start[0] for start, _, _ in steps_of(path)), max(end[0] for _, _, end in steps_of(path))
    data = fonts.simple([it.points for it in strokes], program_of(strokes))
    return data, round(max(right)) + HALF + SIDE, min(x for x, _, _ in points)


def sample(more=()):
    """The bytes of the font; for tests with more glyphs, each a code point, bytes, an advance and a left side bearing."""
    made = [glyph_of(it) for it in [NO_GLYPH, *(PATHS[chr(code)] for code in range(0x20, 0x7F))]] + [it[1:] for it in more]
    cmap = fonts.map_of([(0x20 + k, k + 1) for k in range(95)] + [(it[0], 96 + k) for k, it in enumerate(more)])
    return fonts.font_of([data for data, _, _ in made], cmap, upem=UPEM, stack=8,
                         metrics=[(advance, bearing) for _, advance, bearing in made])
