"""Whole-number arithmetic of the reference: rounding, wrapping, scaling and unit vectors."""
import math

ONE = 1 << 14  # 1.0 as a 2.14 number


def near(n, d):
    """n/d rounded to the nearest whole number, halves away from zero."""
    if d < 0:
        n, d = -n, -d
    size = (2 * abs(n) + d) // (2 * d)
    return size if n >= 0 else -size


def cut(n, d):
    """n/d without its fraction, toward zero."""
    size = abs(n) // abs(d)
    return size if (n < 0) == (d < 0) else -size


def w32(n):
    """The signed 32-bit number that equals n modulo 2^32."""
    return ((n + (1 << 31)) & 0xFFFFFFFF) - (1 << 31)


def scaled(value, ppem, upem):
    """A value in FUnits as 26.6 pixels."""
    return near(value * ppem * 64, upem)


def to_pixel(value):
    """A 26.6 value at the nearest whole pixel."""
    return 64 * near(value, 64)


def unit(x, y):
    """The unit vector of a direction in 2.14; that of (0, 0) is the x axis."""
    square = x * x + y * y
    if square == 0:
        return ONE, 0
    return tuple(part(v, square) for v in (x, y))


def part(v, square):
    """A component of a unit vector: the nearest 2.14 number, with the coordinate's sign."""
    size = (math.isqrt((v * v << 30) // square) + 1) // 2
    return size if v >= 0 else -size
