"""Rows of the instruction table that set the graphics state, and deltas of control values."""
from .faults import Halt
from .numbers import unit
from .rows_stack import read, write
from .state import AXES, DOUBLE, DOWN, GRID, HALF_GRID, OFF, UP, minus, super_round


def set_projection(m, vector):
    """Sets the projection vector, and the dual vector with it."""
    m.gs.pv = m.gs.dv = vector


def to_axis(m):
    """SVTCA, SPVTCA, SFVTCA."""
    vector = AXES[m.opcode & 1]
    if m.opcode < 4:
        set_projection(m, vector)
    if m.opcode < 2 or m.opcode > 3:
        m.gs.fv = vector


def line_vector(m, p1, p2, original=False):
    """The unit vector of a line between two points; the odd opcodes turn it by a right angle."""
    way = minus(m.zone(1).get(p1, original), m.zone(2).get(p2, original))
    vector = unit(*way)
    return (-vector[1], vector[0]) if m.opcode & 1 and way != (0, 0) else vector


def to_line(m):
    """SPVTL, SFVTL."""
    vector = line_vector(m, *m.pop(2))
    if m.opcode < 8:
        set_projection(m, vector)
    else:
        m.gs.fv = vector


def dual_to_line(m):
    """SDPVTL."""
    points = m.pop(2)
    dual = line_vector(m, *points, original=True)
    set_projection(m, line_vector(m, *points))
    m.gs.dv = dual


def word(value):
    """The low 16 bits as a signed number."""
    return (value + 0x8000 & 0xFFFF) - 0x8000


def from_stack(m):
    """SPVFS, SFVFS."""
    vector = unit(*map(word, m.pop(2)))
    if m.opcode == 0x0A:
        set_projection(m, vector)
    else:
        m.gs.fv = vector


def set_entry(name, first):
    """SRP0 to SRP2: one of three numbers of the state."""
    def row(m):
        value, = m.pop(1)
        entries = list(getattr(m.gs, name))
        entries[m.opcode - first] = value
        setattr(m.gs, name, tuple(entries))
    return row


def zone_number(value):
    """A zone's number, 0 or 1."""
    if value not in (0, 1):
        raise Halt("BadArgument")
    return value


def set_zone(m):
    """SZP0 to SZP2 and SZPS."""
    value = zone_number(m.pop(1)[0])
    m.gs.zp = tuple(value if m.opcode in (0x13 + k, 0x16) else old for k, old in enumerate(m.gs.zp))


def set_value(name):
    """A row that sets a field of the state."""
    def row(m):
        setattr(m.gs, name, m.pop(1)[0])
    return row


def set_loop(m):
    """SLOOP."""
    value, = m.pop(1)
    if value < 0:
        raise Halt("BadArgument")
    m.gs.loop = value


def set_shift(m):
    """SDS."""
    value, = m.pop(1)
    if not 0 <= value <= 6:
        raise Halt("BadArgument")
    m.gs.shift = value


def set_width(m):
    """SSW: a width in FUnits."""
    m.gs.width = m.scale(m.pop(1)[0])


def set_round(state):
    """A row that sets the round state."""
    def row(m):
        m.gs.round = state
    return row


def set_super_round(m):
    """SROUND and S45ROUND."""
    m.gs.round = super_round(m.pop(1)[0], (32, 64, 128, 64) if m.opcode == 0x76 else (22, 45, 90, 45))


def scan_control(m):
    """SCANCTRL: drop-out control on or off, by a threshold (bits 0 to 7) and flags. No glyph is rotated or stretched here."""
    value, = m.pop(1)
    threshold, on, off_above, off_unless_turned = value & 0xFF, value & 0x100, value & 0x800, value & 0x3000
    if threshold in (0, 255):
        m.gs.scan_control = threshold == 255
    elif off_unless_turned or off_above and m.ppem > threshold:
        m.gs.scan_control = False
    elif on and m.ppem <= threshold:
        m.gs.scan_control = True
    else:
        m.gs.scan_control = bool(m.gs.scan_control)


def scan_type(m):
    """SCANTYPE: which pixel of a gap, or none. No other number is a type, and it changes nothing."""
    m.gs.scan_type = SCAN_TYPES.get(m.pop(1)[0], m.gs.scan_type)


def delta_of(m, arg, step):
    """By how much a pair of a delta moves at this size, or None if it does not act."""
    if m.gs.base + step + (arg >> 4 & 15) != m.ppem:
        return None
    low = arg & 15
    return (low - 8 if low < 8 else low - 7) * (64 >> m.gs.shift)


def delta_pairs(m):
    """The pairs of a delta, the first on top: (argument, point or control value)."""
    count, = m.pop(1)
    if count < 0:
        raise Halt("BadArgument")
    values = m.pop(2 * count)
    return [(values[k], values[k + 1]) for k in range(2 * count - 2, -2, -2)]


def delta_cvt(m):
    """DELTAC1 to DELTAC3."""
    for arg, k in delta_pairs(m):
        amount = delta_of(m, arg, 16 * (m.opcode - 0x73))
        if amount is not None:
            write(m.cvt, k, read(m.cvt, k) + amount)


SCAN_TYPES = {0: "left", 1: "left", 2: False, 3: False, 4: "near", 5: "near", 6: False, 7: False, 8: False}
ROWS = {
    **{opcode: to_axis for opcode in range(6)}, **{opcode: to_line for opcode in range(6, 10)}, 0x86: dual_to_line,
        0x87: dual_to_line,
    0x0A: from_stack, 0x0B: from_stack, 0x0C: lambda m: m.push(*m.gs.pv), 0x0D: lambda m: m.push(*m.gs.fv),
    0x0E: lambda m: setattr(m.gs, "fv", m.gs.pv), **{opcode: set_entry("rp", 0x10) for opcode in range(0x10, 0x13)},
    **{opcode: set_zone for opcode in range(0x13, 0x17)}, 0x17: set_loop, 0x1A: set_value("minimum"), 0x1D: set_value("cut_in"),
    0x1E: set_value("width_cut_in"), 0x1F: set_width, 0x4D: lambda m: setattr(m.gs, "flip", True),
        0x4E: lambda m: setattr(m.gs, "flip", False),
    0x5E: set_value("base"), 0x5F: set_shift, 0x18: set_round(GRID), 0x19: set_round(HALF_GRID), 0x3D: set_round(DOUBLE),
    0x7D: set_round(DOWN), 0x7C: set_round(UP), 0x7A: set_round(OFF), 0x76: set_super_round, 0x77: set_super_round,
    0x85: scan_control,
        0x8D: scan_type,
    **{opcode: delta_cvt for opcode in range(0x73, 0x76)},
}
