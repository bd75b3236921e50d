"""Reads font files: the directory, the tables that are needed, metrics, `loca`, and the glyph grammar (OpenType)."""
import struct

from .faults import Refused

REQUIRED = ("head", "maxp", "hhea", "hmtx", "loca", "glyf")
WORDS, OFFSETS, ROUND, SCALE, MORE, TWO, FOUR, PROGRAM, METRICS = 1, 2, 4, 8, 0x20, 0x40, 0x80, 0x100, 0x200


def u16(data, at):
    """An unsigned big-endian word."""
    return struct.unpack_from(">H", data, at)[0]


def i16(data, at):
    """A signed big-endian word."""
    return struct.unpack_from(">h", data, at)[0]


def u32(data, at):
    """An unsigned big-endian long."""
    return struct.unpack_from(">L", data, at)[0]


def directory_offset(data, face):
    """Where a face's directory begins: at the offset that the header of a collection has for it, or, in another file, at 0."""
    if data[:4] != b"ttcf":
        if face:
            raise Refused("NoFace")
        return 0
    if len(data) < 12 or (u16(data, 4), u16(data, 6)) not in ((1, 0), (2, 0)) or len(data) < 12 + 4 * u32(data, 8):
        raise Refused("NotTrueType")
    if face >= u32(data, 8):
        raise Refused("NoFace")
    return u32(data, 12 + 4 * face)


class Font:
    """A font's tables and fields. The first fault in order is the refusal."""

    def __init__(self, data, face=0):
        self.tables = self.directory(data, directory_offset(data, face))
        missing = next((tag for tag in REQUIRED if tag not in self.tables), None)
        if missing:
            raise Refused("TableMissing", table=missing)
        head, maxp, hhea, hmtx, self.loca, self.glyf = (self.tables[tag] for tag in REQUIRED)
        self.need("head", head, 54)
        self.upem, self.long = u16(head, 18), i16(head, 50)
        if u32(head, 12) != 0x5F0F3CF5 or not 16 <= self.upem <= 16384 or self.long not in (0, 1):
            raise Refused("BadHead")
        self.need("maxp", maxp, 32)
        self.glyphs = u16(maxp, 4)
        if u32(maxp, 0) != 0x10000 or self.glyphs == 0:
            raise Refused("BadMaxp")
        self.twilight, self.storage, functions, stack = (u16(maxp, at) for at in (16, 18, 20, 24))
        self.functions, self.room = max(64, functions), stack + 32
        self.need("hhea", hhea, 36)
        self.ascender, self.descender, self.pairs = i16(hhea, 4), i16(hhea, 6), u16(hhea, 34)
        self.hmtx = hmtx
        self.need("hmtx", hmtx, max(4 * self.pairs, 1 if self.pairs == 0 else 0))
        if self.pairs == 0:
            raise Refused("TableShort", table="hmtx")

    @staticmethod
    def need(tag, table, length):
        """Refuses a table that is shorter than its fields."""
        if len(table) < length:
            raise Refused("TableShort", table=tag)

    @staticmethod
    def directory(data, start):
        """The tables by tag, of the directory that begins there; the first record of a tag counts. Offsets count from the file's
        first byte."""
        own = data[start:]
        if len(own) < 12 or u32(own, 0) not in (0x10000, 0x74727565) or len(own) < 12 + 16 * u16(own, 4):
            raise Refused("NotTrueType")
        tables = {}
        for k in range(u16(own, 4)):
            at, length = u32(own, 12 + 16 * k + 8), u32(own, 12 + 16 * k + 12)
            tables.setdefault(own[12 + 16 * k:16 + 16 * k].decode("latin-1"), data[at:at + length])
        return tables

    def advance(self, glyph):
        """The advance in FUnits; glyphs past the pairs have the last pair's."""
        return u16(self.hmtx, 4 * min(glyph, self.pairs - 1))

    def bearing(self, glyph):
        """The left side bearing in FUnits; 0 past the table."""
        at = 4 * glyph + 2 if glyph < self.pairs else 4 * self.pairs + 2 * (glyph - self.pairs)
        return i16(self.hmtx, at) if at + 2 <= len(self.hmtx) else 0

    def glyph_bytes(self, glyph):
        """The bytes of a glyph, from two neighbours in `loca`."""
        if glyph >= self.glyphs:
            raise Refused("BadGlyphNumber", glyph=glyph)
        size = 4 if self.long else 2
        if len(self.loca) < size * (glyph + 2):
            raise Refused("BadLoca", glyph=glyph)
        if self.long:
            start, end = u32(self.loca, 4 * glyph), u32(self.loca, 4 * glyph + 4)
        else:
            start, end = 2 * u16(self.loca, 2 * glyph), 2 * u16(self.loca, 2 * glyph + 2)
        if end < start or start > len(self.glyf) and start != end:
            raise Refused("BadLoca", glyph=glyph)
        return self.glyf[start:end]

    def glyph(self, number):
        """A glyph by its number; None if it is empty."""
        return read_glyph(self.glyph_bytes(number), number)


class Simple:
    """A simple glyph: points (x, y, on), the last point of each contour, and its program."""

    def __init__(self, x_min, points, ends, program):
        self.x_min, self.points, self.ends, self.program = x_min, points, ends, program


class Component:
    """A record of a composite: flags, glyph, two arguments, and the matrix a, b, c, d in 2.14."""

    def __init__(self, flags, glyph, args, matrix):
        self.flags, self.glyph, self.args, self.matrix = flags, glyph, args, matrix


class Composite:
    """A composite glyph: its records and its program."""

    def __init__(self, x_min, parts, program):
        self.x_min, self.parts, self.program = x_min, parts, program


class Reader:
    """Reads fields one after the other; bytes that end early are a refusal."""

    def __init__(self, data, at, glyph):
        self.data, self.at, self.glyph = data, at, glyph

    def take(self, form):
        """The next field of a form of `struct`."""
        size = struct.calcsize(form)
        if self.at + size > len(self.data):
            raise Refused("GlyphShort", glyph=self.glyph)
        value, = struct.unpack_from(">" + form, self.data, self.at)
        self.at += size
        return value

    def bytes(self, count):
        """So many bytes."""
        if self.at + count > len(self.data):
            raise Refused("GlyphShort", glyph=self.glyph)
        self.at += count
        return self.data[self.at - count:self.at]


def read_glyph(data, glyph):
    """A glyph by the grammar of `glyf`; None if it is empty."""
    if not data:
        return None
    reader = Reader(data, 10, glyph)
    if len(data) < 10:
        raise Refused("GlyphShort", glyph=glyph)
    count, x_min = i16(data, 0), i16(data, 2)
    if count == 0:
        return None
    return read_simple(reader, count, x_min) if count > 0 else read_composite(reader, x_min)


def read_simple(reader, count, x_min):
    """The body of a simple glyph."""
    ends = [reader.take("H") for _ in range(count)]
    if any(a > b for a, b in zip(ends, ends[1:])):
        raise Refused("BadContours", glyph=reader.glyph)
    program = reader.bytes(reader.take("H"))
    flags = read_flags(reader, ends[-1] + 1)
    xs = read_deltas(reader, flags, 0x02, 0x10)
    ys = read_deltas(reader, flags, 0x04, 0x20)
    return Simple(x_min, [(x, y, flag & 1) for x, y, flag in zip(xs, ys, flags)], ends, program)


def read_flags(reader, count):
    """The flags of so many points; a repeated run stops at the last point."""
    flags = []
    while len(flags) < count:
        flag = reader.take("B")
        flags += [flag] * (1 + (reader.take("B") if flag & 8 else 0))
    return flags[:count]


def read_deltas(reader, flags, short, same):
    """The coordinates of one axis: sums of deltas, as signed words."""
    values, value = [], 0
    for flag in flags:
        if flag & short:
            delta = reader.take("B")
            value += delta if flag & same else -delta
        elif not flag & same:
            value += reader.take("h")
        values.append((value + 0x8000 & 0xFFFF) - 0x8000)
    return values


def read_composite(reader, x_min):
    """The body of a composite glyph."""
    parts, more, any_program = [], True, False
    while more:
        flags, glyph = reader.take("H"), reader.take("H")
        form = ("h" if flags & OFFSETS else "H") if flags & WORDS else ("b" if flags & OFFSETS else "B")
        args = reader.take(form), reader.take(form)
        parts.append(Component(flags, glyph, args, read_matrix(reader, flags)))
        more, any_program = bool(flags & MORE), any_program or bool(flags & PROGRAM)
    return Composite(x_min, parts, reader.bytes(reader.take("H")) if any_program else b"")


def read_matrix(reader, flags):
    """The transformation of a component in 2.14; one scale goes before two, two before four."""
    if flags & SCALE:
        scale = reader.take("h")
        return scale, 0, 0, scale
    if flags & TWO:
        return reader.take("h"), 0, 0, reader.take("h")
    if flags & FOUR:
        return tuple(reader.take("h") for _ in range(4))
    return 1 << 14, 0, 0, 1 << 14
