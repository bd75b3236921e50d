"""Drop-out control: if an outline passes between two neighbouring centres and neither is set, one is set.

Rows come first, then columns, for pairs that are still unset. By rule 3 of the manual it is the left or the lower pixel; a "smart"
font asks for the one to whose centre the stroke's middle is nearer. Where an outline crosses a row is found by its roots, kept
exact as (p + q * root(d)) / r.
"""
import math

from .scan import centre, covered, holding, kept, near_row


def sign_of(p, q, d):
    """The sign of p + q * root(d), where d is no square if q is not 0."""
    if q == 0:
        return (p > 0) - (p < 0)
    if p >= 0 and q > 0:
        return 1
    if p <= 0 and q < 0:
        return -1
    order = p * p - q * q * d
    return ((order > 0) - (order < 0)) * (1 if p > 0 else -1)


def turned(place):
    """A place with its coordinates exchanged."""
    return place and (place[1], place[0])


def crossings(piece, y):
    """Where a piece meets the height y: numbers (p, q, d, r) for (p + q root(d)) / r, r above 0. Of a level piece, its ends."""
    a, b, c = piece
    if b is None:
        quadratic = [0, c[1] - a[1], a[1] - y], [0, c[0] - a[0], a[0]]
    else:
        quadratic = [[a[k] - 2 * b[k] + c[k], 2 * (b[k] - a[k]), a[k] - (y if k else 0)] for k in (1, 0)]
    (k2, k1, k0), xs = quadratic
    for p, q, d, r in roots(k2, k1, k0):
        inside = sign_of(p, q, d) >= 0 and sign_of(p - r, q, d) <= 0
        if inside:
            yield at_root(xs, p, q, d, r)
    if k2 == k1 == k0 == 0:
        yield from ((end[0], 0, 0, 1) for end in (a, c))


def roots(k2, k1, k0):
    """The roots of k2 t^2 + k1 t + k0, as (p + q root(d)) / r with r above 0."""
    if k2 == 0:
        if k1:
            s = 1 if k1 > 0 else -1
            yield -k0 * s, 0, 0, k1 * s
        return
    d = k1 * k1 - 4 * k2 * k0
    if d < 0:
        return
    s, root = (1 if k2 > 0 else -1), math.isqrt(d)
    for q in (1, -1):
        if root * root == d:
            yield s * (-k1 + q * root), 0, 0, 2 * k2 * s
        else:
            yield s * -k1, s * q, d, 2 * k2 * s


def at_root(quadratic, p, q, d, r):
    """The value of a quadratic at (p + q root(d)) / r."""
    k2, k1, k0 = quadratic
    return k2 * (p * p + q * q * d) + k1 * p * r + k0 * r * r, k2 * 2 * p * q + k1 * q * r, d, r * r


def meets(piece, p, q):
    """Whether a piece meets the segment between two places of a row that are not on it. Touching counts."""
    for a, b, d, r in crossings(piece, p[1]):
        if sign_of(a - p[0] * r, b, d) > 0 and sign_of(a - q[0] * r, b, d) < 0:
            return True
    return False


def is_gap(pieces, so_far, i, j):
    """Whether a pixel and its right neighbour are unset, and the outline passes between their centres."""
    return not {(i, j), (i + 1, j)} & so_far and any(meets(piece, centre(i, j), centre(i + 1, j)) for piece in pieces)


def left_pixel(_pieces, i, _j):
    """By rule 3 the left one of two pixels closes their gap."""
    return i


def nearer_pixel(pieces, i, j):
    """Or the one on whose side more of the 126 places between the centres are covered, 1/128 pixel apart; the left one if as many
    are."""
    (x, y), half = centre(i, j), range(1, 64)
    left = sum(covered(pieces, (x + n, y)) for n in half)
    return i + (sum(covered(pieces, (x + 64 + n, y)) for n in half) > left)


def bridges(pieces, columns, rows, so_far, pixel):
    """The pixels that close the gaps of rows. If the one to set lies outside the frame, the other is set."""
    found = set()
    for j in rows:
        here = near_row(pieces, 128 * j + 64)
        for i in range(columns.start - 1, columns.stop):
            if here and is_gap(here, so_far, i, j):
                pick = pixel(here, i, j)
                found.add((pick if pick in columns else 2 * i + 1 - pick, j))
    return found


def frame(values):
    """The columns or rows of the frame: those whose centres lie in the box, else the one that has its middle."""
    inner = kept(values)
    pixel = (min(values) + max(values)) // 256
    return inner if inner else range(pixel, pixel + 1)


def bits(pieces, kind):
    """The set pixels with drop-out control, "left" or "near"."""
    if not pieces:
        return set()
    points = holding(pieces)
    columns, rows = frame([x for x, _ in points]), frame([y for _, y in points])
    so_far = {(i, j) for j in range(rows.start - 1, rows.stop + 1) for i in range(columns.start - 1, columns.stop + 1)
              if covered(near_row(pieces, 128 * j + 64), centre(i, j))}
    pixel = nearer_pixel if kind == "near" else left_pixel
    so_far |= bridges(pieces, columns, rows, so_far, pixel)
    other = [tuple(map(turned, piece)) for piece in pieces]
    return so_far | {(i, j) for j, i in bridges(other, rows, columns, {(j, i) for i, j in so_far}, pixel)}
