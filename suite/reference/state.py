"""The machine's state: zones of points, the graphics state, projection, shifts and rounding."""
from .numbers import ONE, near, w32

AXES = {0: (0, ONE), 1: (ONE, 0)}
GRID, HALF_GRID, DOUBLE, DOWN, UP, OFF = (64, 0, 32), (64, 32, 32), (32, 0, 16), (64, 0, 0), (64, 0, 63), None


class Zone:
    """Points with original and current places, touched axes and flags, and the last point of each contour."""

    def __init__(self, org, cur, on=None, ends=()):
        self.org, self.cur, self.ends = list(org), list(cur), list(ends)
        self.on = list(on) if on else [0] * len(self.org)
        self.touched = [[False, False] for _ in self.org]

    def copy(self):
        """The same points, by themselves."""
        zone = Zone(self.org, self.cur, self.on, self.ends)
        zone.touched = [list(pair) for pair in self.touched]
        return zone

    def has(self, point):
        """Whether a point's number is in the zone."""
        return 0 <= point < len(self.org)

    def get(self, point, original=False):
        """A point's place; a stray's is (0, 0)."""
        return (self.org if original else self.cur)[point] if self.has(point) else (0, 0)

    def put(self, point, place, original=False):
        """Sets a point's place; a stray's is dropped."""
        if self.has(point):
            (self.org if original else self.cur)[point] = (w32(place[0]), w32(place[1]))

    def touch(self, point, axes, value=True):
        """Touches or untouches a point on the axes given as a pair."""
        if self.has(point):
            for axis in (0, 1):
                if axes[axis]:
                    self.touched[point][axis] = value


class Graphics:
    """The graphics state; the class has the defaults."""
    pv, fv, dv = AXES[1], AXES[1], AXES[1]
    rp, zp = (0, 0, 0), (1, 1, 1)
    loop, round, flip = 1, GRID, True
    cut_in, minimum, width, width_cut_in = 68, 64, 0, 0
    base, shift = 9, 3
    scan_control, scan_type = None, "left"  # nothing was asked; the left or the lower pixel of a gap

    def copy(self):
        """The same state, by itself."""
        other = Graphics()
        other.__dict__.update(self.__dict__)
        return other


def minus(a, b):
    """The difference of two places."""
    return w32(a[0] - b[0]), w32(a[1] - b[1])


def plus(a, b):
    """The sum of two places."""
    return w32(a[0] + b[0]), w32(a[1] + b[1])


def dot(vector, place):
    """A place measured along a unit vector."""
    return w32(near(place[0] * vector[0] + place[1] * vector[1], ONE))


def along(gs, value):
    """A value laid along the freedom vector from (0, 0)."""
    return w32(near(value * gs.fv[0], ONE)), w32(near(value * gs.fv[1], ONE))


def shift_by(gs, distance):
    """The way along the freedom vector whose projection is a distance."""
    f = gs.fv[0] * gs.pv[0] + gs.fv[1] * gs.pv[1]
    f = f if abs(f) >= 1 << 24 else 1 << 28
    return tuple(w32(near(distance * c * ONE, f)) for c in gs.fv)


def rounded(gs, distance):
    """A distance by the round state; the sign is kept."""
    if gs.round is None:
        return distance
    period, phase, threshold = gs.round
    value = phase + (abs(distance) + threshold - phase) // period * period
    value = value if value >= 0 else phase
    return w32(value if distance >= 0 else -value)


def super_round(number, periods):
    """The round state of SROUND and S45ROUND."""
    period = periods[number >> 6 & 3]
    phase, k = (number >> 4 & 3) * period // 4, number & 15
    return period, phase, period - 1 if k == 0 else (k - 4) * period // 8
