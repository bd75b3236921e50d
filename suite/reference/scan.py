"""Scan conversion, rule 1 of the manual: a pixel is set if its centre lies on the outline or inside it (nonzero winding)."""
from .faults import Refused

LARGEST = 8192  # pixels of a side


def pieces_of(points, on, ends):
    """Lines (a, None, c) and arcs (a, b, c) of all contours, in 1/128 pixels, with the points that are implied."""
    found, first = [], 0
    for end in ends:
        contour = [((2 * x, 2 * y), flag) for (x, y), flag in zip(points[first:end + 1], on[first:end + 1])]
        first = end + 1
        if len(contour) >= 2:
            found += pieces_of_contour(with_middles(contour))
    return found


def middle(a, b):
    """The point implied between two neighbours off the curve."""
    return (a[0] + b[0]) // 2, (a[1] + b[1]) // 2


def with_middles(contour):
    """The contour with the point in the middle of each two neighbours off the curve."""
    full = []
    for (place, on), (after, after_on) in zip(contour, contour[1:] + contour[:1]):
        full.append((place, on))
        if not on and not after_on:
            full.append((middle(place, after), 1))
    return full


def pieces_of_contour(full):
    """The pieces from each point on the curve to the next."""
    start = next(k for k, (_, on) in enumerate(full) if on)
    full = full[start:] + full[:start] + [full[start]]
    found, a, b = [], full[0][0], None
    for place, on in full[1:]:
        if on:
            found.append((a, b, place))
            a, b = place, None
        else:
            b = place
    return found


def area(a, b, c):
    """Twice the signed area of a triangle."""
    return (b[0] - a[0]) * (c[1] - a[1]) - (b[1] - a[1]) * (c[0] - a[0])


def sign(n):
    """-1, 0 or 1."""
    return (n > 0) - (n < 0)


def areas(piece, p):
    """The sign of an arc's area, and the areas of its corners at a place, by that sign."""
    a, b, c = piece
    turn = sign(area(a, b, c))
    return turn, turn * area(p, b, c), turn * area(a, p, c), turn * area(a, b, p)


def in_range(a, b, c, p):
    """Whether a coordinate lies in the range that a quadratic takes."""
    low, high = min(a, c), max(a, c)
    if low <= p <= high:
        return True
    if low <= b <= high:
        return False
    k = a - 2 * b + c
    tip, here = (a * c - b * b) * sign(k), p * abs(k)
    return here <= tip if p > high and b > high else here >= tip if p < low and b < low else False


def is_on(piece, p):
    """Whether a place lies on a piece."""
    a, b, c = piece
    if b is None:
        return area(a, c, p) == 0 and all(min(a[k], c[k]) <= p[k] <= max(a[k], c[k]) for k in (0, 1))
    turn, u, v, w = areas(piece, p)
    if turn:
        return u >= 0 and v >= 0 and w >= 0 and v * v == 4 * u * w
    line = area(a, b, p) == area(b, c, p) == area(a, c, p) == 0
    return line and all(in_range(a[k], b[k], c[k], p[k]) for k in (0, 1))


def crossing(piece, p):
    """What a chord adds to the winding number of a place."""
    a, _, c = piece
    if a[1] <= p[1] < c[1]:
        return int(area(a, c, p) > 0)
    if c[1] <= p[1] < a[1]:
        return -int(area(a, c, p) < 0)
    return 0


def region(piece, p):
    """What the region between an arc and its chord adds."""
    if piece[1] is None:
        return 0
    turn, u, v, w = areas(piece, p)
    if turn and v > 0 and u > 0 and v * v < 4 * u * w:
        return turn
    return turn if turn and v == 0 and u > 0 and w > 0 and owns_chord(piece, turn) else 0


def owns_chord(piece, turn):
    """Whether the chord belongs to the arc's region: if the arc lies right of it, or above a level one."""
    a, b, c = piece
    return turn * (c[1] - a[1]) > 0 or a[1] == c[1] and b[1] > a[1]


def winding(pieces, p):
    """The winding number of a place."""
    return sum(crossing(piece, p) + region(piece, p) for piece in pieces)


def is_inside(number):
    """Whether a place of a winding number is inside."""
    return number != 0


def covered(pieces, p):
    """Rule 1 and 2 at a place."""
    return any(is_on(piece, p) for piece in pieces) or is_inside(winding(pieces, p))


def centre(i, j):
    """The centre of the pixel in column i and row j."""
    return 128 * i + 64, 128 * j + 64


def holding(pieces):
    """The points of all pieces."""
    return [point for piece in pieces for point in piece if point is not None]


def kept(values):
    """The columns or rows whose centres lie in a closed range."""
    return range(-((64 - min(values)) // 128), (max(values) - 64) // 128 + 1)


def frame_of(pieces):
    """The columns and rows that can have set pixels."""
    points = holding(pieces)
    columns, rows = kept([x for x, _ in points]), kept([y for _, y in points])
    if columns and rows and (len(columns) > LARGEST or len(rows) > LARGEST):
        raise Refused("GlyphTooLarge")
    return columns, rows


def bits(pieces):
    """The set pixels, as pairs of column and row."""
    if not pieces:
        return set()
    columns, rows = frame_of(pieces)
    return {(i, j) for j in rows for i in columns if covered(near_row(pieces, 128 * j + 64), centre(i, j))}


def near_row(pieces, y):
    """The pieces that can touch a row: others add nothing."""
    return [piece for piece in pieces if min(p[1] for p in piece if p) <= y <= max(p[1] for p in piece if p)]
