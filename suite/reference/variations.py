"""A variable font at axis values: what `fvar`, `avar`, `gvar` and `cvar` say, by exact numbers (OpenType, Font Variations).

A normalized coordinate is rounded once, to 2.14. A scalar is rounded to 2^-42 after each axis, and an inferred delta to 2^-16.
A sum of scalars times deltas is exact, and each coordinate, offset and control value is its nearest whole number. Halves go up."""
import struct
from fractions import Fraction

from .faults import Refused
from .fontfile import OFFSETS, Font, Reader, Simple, i16, u16, u32

ONE_SCALAR, ONE_DELTA = 1 << 42, 1 << 16
SHARED_NUMBERS, OWN_PEAK, INTERMEDIATE, OWN_NUMBERS, COUNT = 0x8000, 0x8000, 0x4000, 0x2000, 0x0FFF
ALL, PHANTOMS = None, 4


def near_up(n, d=1):
    """n/d rounded to the nearest whole number, halves up."""
    return (Fraction(n) / d + Fraction(1, 2)).__floor__()


class Varied(Font):
    """A font at values of its axes, from their tags. An axis without one is at its default."""

    def __init__(self, data, values, face=0):
        Font.__init__(self, data, face)
        self.kept = None, None
        try:
            self.axes = axes_of(self.tables["fvar"])
            self.place = place_of(self.axes, maps_of(self.tables.get("avar"), len(self.axes)), values)
            self.gvar = self.tables.get("gvar", b"")
            self.peaks = peaks_of(self.gvar, len(self.axes)) if self.gvar else []
            if "cvt " in self.tables:
                self.tables["cvt "] = struct.pack(">%dh" % (len(self.tables["cvt "]) // 2), *self.control_values())
        except (KeyError, IndexError, ValueError, struct.error) as fault:
            raise Refused("BadVariations") from fault

    def glyph(self, number):
        return self.moved(number)[0]

    def advance(self, glyph):
        return self.moved(glyph)[2]

    def bearing(self, glyph):
        moved, left, _ = self.moved(glyph)
        return (moved.x_min if moved else 0) - left

    def varied_bytes(self, glyph):
        """The bytes of `gvar` about a glyph."""
        gvar = self.gvar
        if not gvar:
            return b""
        size, factor, read = (4, 1, u32) if u16(gvar, 14) & 1 else (2, 2, u16)
        start, end = (u32(gvar, 16) + factor * read(gvar, 20 + size * k) for k in (glyph, glyph + 1))
        return gvar[start:end]

    def points(self, number, glyph):
        """The points of a glyph, or of a composite one for each component, and four phantom points."""
        found = [] if glyph is None else [(x, y) for x, y, _ in glyph.points] if isinstance(glyph, Simple) else [
            it.args for it in glyph.parts]
        left = (glyph.x_min if glyph else 0) - Font.bearing(self, number)
        return found + [(left, 0), (left + Font.advance(self, number), 0), (0, 0), (0, 0)]

    def moved(self, number):
        """A glyph with its points moved, its left side and its advance; those of the last one are kept."""
        if self.kept[0] != number:
            self.kept = number, self.made(number)
        return self.kept[1]

    def made(self, number):
        """The same, made."""
        glyph = Font.glyph(self, number)
        points = self.points(number, glyph)
        sums = [[0, 0] for _ in points]
        ends = glyph.ends if isinstance(glyph, Simple) else []
        for scalar, numbers, reader in tuples(self.varied_bytes(number), self.place, self.peaks, number):
            add(sums, scalar, given(numbers, reader, points, ends))
        exact = [[v + Fraction(more, ONE_SCALAR * ONE_DELTA) for v, more in zip(*both)] for both in zip(points, sums)]
        whole = [tuple(map(near_up, it)) for it in exact]
        left, right = (it[0] for it in exact[-PHANTOMS:][:2])
        if isinstance(glyph, Simple):
            glyph.points = [(x, y, on) for (x, y), (_, _, on) in zip(whole, glyph.points)]
        elif glyph:
            for part, place in zip(glyph.parts, whole):
                part.args = place if part.flags & OFFSETS else part.args
        return glyph, -near_up(-left), max(0, near_up(right - left))

    def control_values(self):
        """The control values."""
        cvt, cvar = self.tables.get("cvt ", b""), self.tables.get("cvar", b"")
        values, sums = [i16(cvt, 2 * k) for k in range(len(cvt) // 2)], {}
        for scalar, numbers, reader in tuples(cvar, self.place, None, None):
            numbers = range(len(values)) if numbers is ALL else numbers
            for k, delta in dict(zip(numbers, deltas(reader, len(numbers)))).items():
                sums[k] = sums.get(k, 0) + scalar * delta
        return [value + near_up(sums.get(k, 0), ONE_SCALAR) for k, value in enumerate(values)]


def axes_of(fvar):
    """The axes by `fvar`: from each tag to its least, default and greatest value in 16.16."""
    start, count, size = u16(fvar, 4), u16(fvar, 8), u16(fvar, 10)
    found = {}
    for at in range(start, start + count * size, size):
        found[fvar[at:at + 4].decode("latin-1")] = [u32(fvar, at + k) - (fvar[at + k] >> 7 << 32) for k in (4, 8, 12)]
    return found


def maps_of(avar, count):
    """The pairs of `avar` of each axis, in 2.14."""
    reader = Reader(avar, 8, None)
    return [[(reader.take("h"), reader.take("h")) for _ in range(reader.take("H"))] if avar else [] for _ in range(count)]


def place_of(axes, maps, values):
    """The normalized coordinates of values, in 2.14."""
    if set(values) - set(axes):
        raise ValueError("there is no such axis")
    found = []
    for (tag, (least, default, greatest)), pairs in zip(axes.items(), maps):
        value = near_up(Fraction(values[tag]) * 65536) if tag in values else default
        if not least <= value <= greatest:
            raise ValueError("the value is out of range")
        side = default - least if value < default else greatest - default
        at = Fraction(value - default, side) * (1 << 14) if value != default else Fraction(0)
        for (low, to), (high, other) in zip(pairs, pairs[1:]):
            if low <= at <= high:
                at = to + (other - to) * (at - low) / (high - low)
                break
        found.append(near_up(at))
    return found


def peaks_of(gvar, count):
    """The shared tuples of `gvar`."""
    reader = Reader(gvar, u32(gvar, 8), None)
    return [[reader.take("h") for _ in range(count)] for _ in range(u16(gvar, 6))]


def scalar_of(place, peak, begin, end):
    """How much of its deltas a region gives at a place, in 2^-42."""
    scalar = ONE_SCALAR
    for c, p, a, e in zip(place, peak, begin, end):
        if p == 0 or c == p or a > p or p > e or a < 0 < e:
            continue
        if c <= a or e <= c:
            return 0
        scalar = near_up(scalar * (c - a if c < p else e - c), p - a if c < p else e - p)
    return scalar


def tuples(data, place, peaks, glyph):
    """The tuples that count at a place: scalar, numbers of points, and what reads the deltas. `cvar` has no shared peaks, and its
    tuples begin after the version."""
    if not data:
        return
    reader, count = Reader(data, 0 if peaks is not None else 4, glyph), len(place)
    flags, start = reader.take("H"), reader.take("H")
    shared, body = [], Reader(data, start, glyph)
    if flags & SHARED_NUMBERS:
        shared = numbers_of(body)
    for _ in range(flags & COUNT):
        size, index = reader.take("H"), reader.take("H")
        if not index & OWN_PEAK and (index & COUNT) >= len(peaks or ()):
            raise Refused("BadVariations", glyph=glyph)
        peak = [reader.take("h") for _ in range(count)] if index & OWN_PEAK else peaks[index & COUNT]
        ends = [[reader.take("h") for _ in range(count)] for _ in range(2)] if index & INTERMEDIATE else [
            [min(it, 0) for it in peak], [max(it, 0) for it in peak]]
        own = Reader(body.bytes(size), 0, glyph)
        scalar = scalar_of(place, peak, *ends)
        if scalar:
            yield scalar, numbers_of(own) if index & OWN_NUMBERS else shared, own


def numbers_of(reader):
    """Packed numbers of points: all of them if their count is 0."""
    count = reader.take("B")
    if count & 0x80:
        count = (count & 0x7F) << 8 | reader.take("B")
    found, last = [], 0
    while len(found) < count:
        run = reader.take("B")
        for _ in range((run & 0x7F) + 1):
            last += reader.take("H" if run & 0x80 else "B")
            found.append(last)
    if len(found) > count:
        raise Refused("BadVariations", glyph=reader.glyph)
    return found if count else ALL


def deltas(reader, count):
    """So many packed deltas."""
    found = []
    while len(found) < count:
        run = reader.take("B")
        found += [0 if run & 0x80 else reader.take("h" if run & 0x40 else "b") for _ in range((run & 0x3F) + 1)]
    if len(found) > count:
        raise Refused("BadVariations", glyph=reader.glyph)
    return found


def given(numbers, reader, points, ends):
    """The deltas (x, y) of points by a tuple, in 2^-16: those that it names, and in contours those that follow. A tuple that
    neither names points nor shares numbers has none."""
    count = len(points) if numbers is ALL else len(numbers)
    named = dict(zip(range(count) if numbers is ALL else numbers, zip(deltas(reader, count), deltas(reader, count))))
    found = {k: [v * ONE_DELTA for v in it] for k, it in named.items() if k < len(points)}
    first = 0
    for end in ends:
        contour = range(first, end + 1)
        inside = [k for k in contour if k in named]
        for k in contour if inside else ():
            if k not in named:
                both = next((j for j in reversed(inside) if j < k), inside[-1]), next((j for j in inside if j > k), inside[0])
                found[k] = [inferred(points[k][axis], *((points[j][axis], named[j][axis]) for j in both)) for axis in (0, 1)]
        first = end + 1
    return found


def inferred(at, one, other):
    """The delta of a coordinate between two named ones, each with its delta, in 2^-16."""
    (low, first), (high, last) = sorted((one, other), key=lambda it: it[0])
    if low == high:
        return first * ONE_DELTA if first == last else 0
    if at <= low or high <= at:
        return (first if at <= low else last) * ONE_DELTA
    return near_up((first * (high - low) + (last - first) * (at - low)) * ONE_DELTA, high - low)


def add(sums, scalar, found):
    """Adds the deltas of a tuple to the sums of points."""
    for k, both in found.items():
        for axis in (0, 1):
            sums[k][axis] += scalar * both[axis]
