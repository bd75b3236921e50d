"""Compares an outline that is answered as a path, as a pen draws it, with the points that a case expects.

Both become contours of segments: a line is (x0, y0, x1, y1), an arc (x0, y0, cx, cy, x1, y1). Lines of no length, and contours
without any other segment, draw nothing and are left out. Contours come in one order, and each may start at any of its points.
"""
import math

COUNTS = {"move": 2, "line": 2, "quad": 4}  # numbers of each step
NEAR = 1  # 1/64 pixel, by less than which a number may differ: so whole numbers are equal, and others may be rounded either way


def is_path(steps):
    """Whether this is a path of the protocol: it begins with a move, and all its numbers are finite."""
    return isinstance(steps, list) and all(is_step(step) for step in steps) and all(step[0] == "move" for step in steps[:1])


def is_step(step):
    """Whether this is a step: its word and its numbers."""
    return isinstance(step, list) and step and isinstance(step[0], str) and len(step) == 1 + COUNTS.get(step[0], -1) \
        and all(isinstance(n, (int, float)) and math.isfinite(n) for n in step[1:])


def of_path(steps):
    """The contours of a path, each closed by a line."""
    contours, start, place = [], None, None
    for word, *numbers in [*steps, ["move", None, None]]:
        if word == "move":
            if contours and start != place:
                contours[-1].append((*place, *start))
            contours.append([])
            start = tuple(numbers)
        else:
            contours[-1].append((*place, *numbers))
        place = tuple(numbers[-2:])
    return drawn(contours)


def of_outline(outline):
    """The contours of points, with the points that are implied."""
    return drawn([pieces(contour) for contour in outline])


def pieces(contour):
    """The segments of a contour of points [x, y, on], from a point on the curve or a middle of two that are off it."""
    full = []
    for (x, y, on), (nx, ny, next_on) in zip(contour, contour[1:] + contour[:1]):
        full += [((x, y), on)] + ([] if on or next_on else [(((x + nx) / 2, (y + ny) / 2), 1)])
    start = next((k for k, (_, on) in enumerate(full) if on), 0)
    found, way = [], full[start][0]
    for place, on in full[start + 1:] + full[:start + 1]:
        way += place
        if on:
            found.append(way)
            way = place
    return found


def drawn(contours):
    """Without lines of no length, and contours of nothing else."""
    kept = [[piece for piece in contour if len(set(zip(piece[::2], piece[1::2]))) > 1] for contour in contours]
    return [contour for contour in kept if contour]


def distance(one, other):
    """By how much two contours differ at most, from whichever point they start; None if their segments are not of one kind."""
    least = None
    for k in range(len(other)):
        turned = other[k:] + other[:k]
        if [len(piece) for piece in one] == [len(piece) for piece in turned]:
            most = max(abs(a - b) for p, q in zip(one, turned) for a, b in zip(p, q))
            least = most if least is None else min(least, most)
            if least < NEAR:
                break
    return least


def wrong(outline, steps, most=0):
    """What is wrong with a path, in a few words, or None. Numbers may differ by so many 1/64 pixels, and by less than one more."""
    expected, given = of_outline(outline), of_path(steps)
    if [len(contour) for contour in expected] != [len(contour) for contour in given]:
        return "another number of segments"
    found = [distance(one, other) for one, other in zip(expected, given)]
    if None in found:
        return "lines and arcs in another order"
    beyond = [it for it in found if it >= most + NEAR]
    return "%d contours, by up to %g/64 pixel" % (len(beyond), round(max(beyond), 2)) if beyond else None
