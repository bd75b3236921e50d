"""Puts fonts together from glyphs, programs and tables."""
import struct

from . import fonts
from .assembler import assemble
from .charmaps import in_order

UPEM, ASCENDER, DESCENDER = 1024, 800, -224
FIRST_CHAR = 0xE000  # of the private use area
LIMITS = {"twilight": 16, "storage": 32, "functions": 64, "idefs": 16, "stack": 256}


class Glyph:
    """A glyph of a font: its bytes, its advance and its left side bearing."""

    def __init__(self, data, advance, bearing):
        self.data, self.advance, self.bearing = data, advance, bearing


class FontMaker:
    """A font under way. Glyph 0 is a box, glyph 1 is empty. Its map has glyph G at U+E000 + G."""

    def __init__(self, name, upem=UPEM, cvt=(), fpgm="", prep="", long=True, **limits):
        self.name, self.file, self.upem, self.long, self.limits = name, name + ".ttf", upem, long, {**LIMITS, **limits}
        self.programs = {"cvt ": struct.pack(">%dh" % len(cvt), *cvt), "fpgm": code_of(fpgm), "prep": code_of(prep)}
        self.tables, self.pairs, self.glyphs = {}, None, []
        self.add(fonts.simple([[(0, 0, 1), (0, 512, 1), (384, 512, 1), (384, 0, 1)]]), 512)
        self.add(b"", 512)

    def add(self, data, advance=640, bearing=None):
        """Adds a glyph and returns its number. Without a bearing it has its xMin as that, so that its origin stays."""
        if bearing is None:
            bearing = struct.unpack_from(">h", data, 2)[0] if len(data) >= 10 else 0
        self.glyphs.append(Glyph(data + bytes(-len(data) % (1 if self.long else 2)), advance, bearing))
        return len(self.glyphs) - 1

    def simple(self, contours, program="", **more):
        """Adds a simple glyph with a program in text or bytes."""
        return self.add(fonts.simple(contours, code_of(program)), **more)

    def bytes(self):
        """The font's bytes."""
        return fonts.assemble(self.all_tables())

    def all_tables(self):
        """The font's tables, in the order of their tags."""
        pairs = self.pairs or len(self.glyphs)
        tables = {"cmap": in_order(FIRST_CHAR + 1, len(self.glyphs) - 1),
                  **{tag: data for tag, data in self.programs.items() if data}}
        tables.update({"glyf": b"".join(g.data for g in self.glyphs), "head": self.head(), "loca": self.loca(),
                       "maxp": self.maxp()})
        tables["hhea"] = fonts.hhea_of(ASCENDER * self.upem // UPEM, DESCENDER * self.upem // UPEM, pairs)
        tables["hmtx"] = b"".join(struct.pack(">Hh", g.advance, g.bearing) for g in self.glyphs[:pairs]) \
            + b"".join(struct.pack(">h", g.bearing) for g in self.glyphs[pairs:])
        tables.update(self.tables)
        return {tag: tables[tag] for tag in sorted(tables) if tables[tag] is not None}

    def head(self):
        """`head`: the em square and the form of `loca`."""
        return fonts.head_of(self.upem, self.long)

    def loca(self):
        """`loca`: the offsets of all glyphs."""
        places = [0]
        for glyph in self.glyphs:
            places.append(places[-1] + len(glyph.data))
        return struct.pack(">%dL" % len(places), *places) if self.long else struct.pack(">%dH" % len(places),
            *(p // 2 for p in places))

    def maxp(self):
        """`maxp`: counts, with room for whatever a case needs."""
        of = self.limits
        return struct.pack(">LHHHHHHHHHHHHHH", 0x10000, len(self.glyphs), 2048, 256, 2048, 256, 2, of["twilight"], of["storage"],
                           of["functions"], of["idefs"], of["stack"], 2048, 256, 8)


def code_of(program):
    """A program's bytes, from text or bytes."""
    return assemble(program) if isinstance(program, str) else program
