"""Rows of the instruction table that read and move points."""
from .numbers import cut, near, w32
from .rows_stack import read
from .rows_state import delta_of, delta_pairs, zone_number
from .state import along, dot, minus, plus, rounded, shift_by


def moved(m, zone, point, distance):
    """Moves a point by a distance along the freedom vector, and touches it."""
    add(m, zone, point, shift_by(m.gs, distance))


def add(m, zone, point, way):
    """Adds a way to a point's current place, and touches it on the axes of the freedom vector."""
    zone.put(point, plus(zone.get(point), way))
    zone.touch(point, m.gs.fv)


def looped(m):
    """The points of a loop row, the first on top. The loop goes back to 1."""
    points = m.pop(m.gs.loop)[::-1] if m.gs.loop else []
    m.gs.loop = 1
    return points


def put_rp(m, rp0=None, rp1=None, rp2=None):
    """Sets reference points; None leaves one."""
    m.gs.rp = tuple(old if new is None else new for old, new in zip(m.gs.rp, (rp0, rp1, rp2)))


def with_width(gs, value):
    """The single width test: the width with the value's sign, if the value is near it."""
    if w32(abs(w32(abs(value)) - gs.width)) < gs.width_cut_in:
        return gs.width if value >= 0 else w32(-gs.width)
    return value


def at_least(gs, original, distance):
    """The minimum distance, on the side on which the points were."""
    return max(distance, gs.minimum) if original >= 0 else min(distance, w32(-gs.minimum))


def intersect(m):
    """ISECT."""
    p, a0, a1, b0, b1 = m.pop(5)
    a0, a1, b0, b1 = m.zone(1).get(a0), m.zone(1).get(a1), m.zone(0).get(b0), m.zone(0).get(b1)
    da, db, e = minus(a1, a0), minus(b1, b0), minus(b0, a0)
    d, n = da[0] * db[1] - da[1] * db[0], e[0] * db[1] - e[1] * db[0]
    if d:
        place = a0[0] + near(n * da[0], d), a0[1] + near(n * da[1], d)
    else:
        place = tuple(near(a0[k] + a1[k] + b0[k] + b1[k], 4) for k in (0, 1))
    m.zone(2).put(p, place)
    m.zone(2).touch(p, (1, 1))


def align_points(m):
    """ALIGNPTS."""
    p, q = m.pop(2)
    d = dot(m.gs.pv, minus(m.zone(0).get(q), m.zone(1).get(p)))
    half = cut(d, 2)
    moved(m, m.zone(1), p, half)
    moved(m, m.zone(0), q, w32(half - d))


def untouch(m):
    """UTP."""
    m.zone(0).touch(m.pop(1)[0], m.gs.fv, False)


def move_absolute(m):
    """MDAP."""
    p, = m.pop(1)
    c = dot(m.gs.pv, m.zone(0).get(p))
    moved(m, m.zone(0), p, w32(rounded(m.gs, c) - c) if m.opcode & 1 else 0)
    put_rp(m, p, p)


def move_to_cvt(m):
    """MIAP."""
    p, n = m.pop(2)
    value, zone = read(m.cvt, n), m.zone(0)
    if m.gs.zp[0] == 0:
        zone.put(p, along(m.gs, value), original=True)
        zone.put(p, along(m.gs, value))
    c = dot(m.gs.pv, zone.get(p))
    if m.opcode & 1:
        value = rounded(m.gs, c if w32(abs(w32(value - c))) > m.gs.cut_in else value)
    moved(m, zone, p, w32(value - c))
    put_rp(m, p, p)


def original_distance(m, p):
    """How far a point of zp1 was from rp0 in the original outline, by the dual vector."""
    return dot(m.gs.dv, minus(m.zone(1).get(p, True), m.zone(0).get(m.gs.rp[0], True)))


def current_distance(m, p):
    """How far it is from rp0 now, by the projection vector."""
    return dot(m.gs.pv, minus(m.zone(1).get(p), m.zone(0).get(m.gs.rp[0])))


def finish_relative(m, p, distance):
    """Moves a point of zp1 to a distance from rp0, and sets the reference points."""
    moved(m, m.zone(1), p, w32(distance - current_distance(m, p)))
    put_rp(m, p if m.opcode & 0x10 else None, m.gs.rp[0], p)


def move_relative(m):
    """MDRP."""
    p, = m.pop(1)
    original = with_width(m.gs, original_distance(m, p))
    distance = rounded(m.gs, original) if m.opcode & 4 else original
    finish_relative(m, p, at_least(m.gs, original, distance) if m.opcode & 8 else distance)


def move_relative_cvt(m):
    """MIRP."""
    p, n = m.pop(2)
    value, zone = with_width(m.gs, read(m.cvt, n)), m.zone(1)
    if m.gs.zp[1] == 0:
        place = plus(m.zone(0).get(m.gs.rp[0], True), along(m.gs, value))
        zone.put(p, place, original=True)
        zone.put(p, place)
    original = original_distance(m, p)
    if m.gs.flip and (original < 0) != (value < 0):
        value = w32(-value)
    if m.opcode & 4:
        near_by = m.gs.zp[0] == m.gs.zp[1] and w32(abs(w32(value - original))) > m.gs.cut_in
        value = rounded(m.gs, original if near_by else value)
    finish_relative(m, p, at_least(m.gs, original, value) if m.opcode & 8 else value)


def move_stack_relative(m):
    """MSIRP."""
    p, d = m.pop(2)
    if m.gs.zp[1] == 0:
        place = plus(m.zone(0).get(m.gs.rp[0], True), shift_by(m.gs, d))
        m.zone(1).put(p, place, original=True)
        m.zone(1).put(p, place)
    moved(m, m.zone(1), p, w32(d - current_distance(m, p)))
    put_rp(m, p if m.opcode & 1 else None, m.gs.rp[0], p)


def align_to_reference(m):
    """ALIGNRP."""
    for p in looped(m):
        moved(m, m.zone(1), p, w32(-current_distance(m, p)))


def interpolate(m):
    """IP."""
    points, (_, rp1, rp2) = looped(m), m.gs.rp
    ob = dot(m.gs.dv, minus(m.zone(1).get(rp2, True), m.zone(0).get(rp1, True)))
    cb = dot(m.gs.pv, minus(m.zone(1).get(rp2), m.zone(0).get(rp1)))
    for p in points:
        o = dot(m.gs.dv, minus(m.zone(2).get(p, True), m.zone(0).get(rp1, True)))
        c = dot(m.gs.pv, minus(m.zone(2).get(p), m.zone(0).get(rp1)))
        moved(m, m.zone(2), p, w32((w32(near(o * cb, ob)) if ob else o) - c))


def reference_shift(m):
    """The reference of SHP, SHC and SHZ: its zone, its point, and how far it has moved, as a way along the freedom vector."""
    k, point = (0, m.gs.rp[1]) if m.opcode & 1 else (1, m.gs.rp[2])
    distance = dot(m.gs.pv, minus(m.zone(k).get(point), m.zone(k).get(point, True)))
    return m.zone(k), point, shift_by(m.gs, distance)


def shift_points(m):
    """SHP."""
    points = looped(m)
    _, _, way = reference_shift(m)
    for p in points:
        add(m, m.zone(2), p, way)


def shift_contour(m):
    """SHC."""
    k, = m.pop(1)
    home, point, way = reference_shift(m)
    zone = m.zone(2)
    if not 0 <= k < len(zone.ends):
        return
    for p in range(zone.ends[k - 1] + 1 if k else 0, zone.ends[k] + 1):
        if not (home is zone and p == point):
            add(m, zone, p, way)


def shift_zone(m):
    """SHZ: touches nothing, and leaves out phantom points."""
    zone = m.zones[zone_number(m.pop(1)[0])]
    home, point, way = reference_shift(m)
    for p in range(len(zone.org) - (4 if zone is m.zones[1] and zone.org else 0)):
        if not (home is zone and p == point):
            zone.put(p, plus(zone.get(p), way))


def shift_pixels(m):
    """SHPIX."""
    amount, = m.pop(1)
    for p in looped(m):
        add(m, m.zone(2), p, along(m.gs, amount))


def get_coordinate(m):
    """GC."""
    p, = m.pop(1)
    m.push(dot(m.gs.dv, m.zone(2).get(p, True)) if m.opcode & 1 else dot(m.gs.pv, m.zone(2).get(p)))


def set_coordinate(m):
    """SCFS."""
    p, value = m.pop(2)
    zone = m.zone(2)
    moved(m, zone, p, w32(value - dot(m.gs.pv, zone.get(p))))
    if m.gs.zp[2] == 0:
        zone.put(p, zone.get(p), original=True)


def measure(m):
    """MD."""
    p, q = m.pop(2)
    old = m.opcode == 0x4A
    m.push(dot(m.gs.dv if old else m.gs.pv, minus(m.zone(0).get(p, old), m.zone(1).get(q, old))))


def flip_points(m):
    """FLIPPT."""
    for p in looped(m):
        if m.zone(0).has(p):
            m.zone(0).on[p] ^= 1


def flip_range(m):
    """FLIPRGON, FLIPRGOFF."""
    low, high = m.pop(2)
    if m.zone(0).has(low) and m.zone(0).has(high):
        for p in range(low, high + 1):
            m.zone(0).on[p] = 1 if m.opcode == 0x81 else 0


def delta_points(m):
    """DELTAP1 to DELTAP3."""
    step = {0x5D: 0, 0x71: 16, 0x72: 32}[m.opcode]
    for arg, p in delta_pairs(m):
        amount = delta_of(m, arg, step)
        if amount is not None:
            moved(m, m.zone(0), p, amount)


def interpolate_untouched(m):
    """IUP, in the glyph zone."""
    axis, zone, first = 0 if m.opcode & 1 else 1, m.zones[1], 0
    for end in zone.ends:
        untouched_of_contour(zone, axis, list(range(first, end + 1)))
        first = end + 1


def untouched_of_contour(zone, axis, points):
    """Moves the untouched points of a contour by the nearest touched ones before and after them."""
    touched = [k for k, p in enumerate(points) if zone.touched[p][axis]]
    for k, p in enumerate(points):
        if touched and k not in touched:
            before = max([t for t in touched if t < k] or touched)
            after = min([t for t in touched if t > k] or touched)
            value = between(zone, axis, zone.org[p][axis], points[before], points[after])
            place = list(zone.cur[p])
            place[axis] = value
            zone.put(p, tuple(place))


def between(zone, axis, o, before, after):
    """Where an untouched coordinate goes between two touched points: shifted outside them, else interpolated."""
    low, high = sorted((before, after), key=lambda p: zone.org[p][axis])
    org_low, org_high, cur_low, cur_high = zone.org[low][axis], zone.org[high][axis], zone.cur[low][axis], zone.cur[high][axis]
    if o <= org_low:
        return w32(o + cur_low - org_low)
    if o >= org_high:
        return w32(o + cur_high - org_high)
    return w32(cur_low + near((o - org_low) * (cur_high - cur_low), org_high - org_low))


ROWS = {
    0x0F: intersect, 0x27: align_points, 0x29: untouch, 0x2E: move_absolute, 0x2F: move_absolute, 0x3E: move_to_cvt,
        0x3F: move_to_cvt,
    **{opcode: move_relative for opcode in range(0xC0, 0xE0)}, **{opcode: move_relative_cvt for opcode in range(0xE0, 0x100)},
    0x3A: move_stack_relative, 0x3B: move_stack_relative, 0x3C: align_to_reference, 0x39: interpolate,
    0x32: shift_points, 0x33: shift_points, 0x34: shift_contour, 0x35: shift_contour, 0x36: shift_zone, 0x37: shift_zone,
    0x38: shift_pixels, 0x46: get_coordinate, 0x47: get_coordinate, 0x48: set_coordinate, 0x49: measure, 0x4A: measure,
    0x80: flip_points, 0x81: flip_range, 0x82: flip_range, 0x5D: delta_points, 0x71: delta_points, 0x72: delta_points,
    0x30: interpolate_untouched, 0x31: interpolate_untouched,
}
