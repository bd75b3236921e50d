#!/usr/bin/env python3
"""Glyphs of a font from Python, by ctypes, through a shared object.

    python3 glyphs.py libmkstrike.so.1 FONT PPEM TEXT

prints the text as a picture, a character after the other.

    In a checkout: python3 examples/glyphs.py ./libmkstrike.so.1 FONT PPEM TEXT

docs/LIBRARY.md says how to make the shared object there.
"""
import ctypes
import sys
from ctypes import POINTER, byref, c_char_p, c_int32, c_size_t, c_uint16, c_uint32, c_uint64

DONE, MISSING = 0, 1
HINTED, DROPOUT, DROPOUT_NEAR, DROPOUT_FONT, PACKED = 1, 2, 4, 8, 256  # the bits of a mode


class Refused(ctypes.Structure):
    _fields_ = [(name, c_uint32) for name in ("number", "table", "glyph", "during", "program", "opcode", "index", "code")] + [
        ("address", c_uint64)]


class FontInfo(ctypes.Structure):
    _fields_ = [("ascent", c_int32), ("descent", c_int32), ("line_gap", c_int32), ("glyphs", c_uint32)]


class GlyphInfo(ctypes.Structure):
    _fields_ = [("width", c_uint32), ("height", c_uint32), ("left", c_int32), ("bottom", c_int32), ("stride", c_uint32),
                ("dwidth", c_int32), ("swidth", c_int32)]


class Refusal(Exception):
    """Why there is no glyph: its number, its name and its fields."""

    def __init__(self, library, refused):
        name = ctypes.create_string_buffer(24)
        library.mkstrike_reason(refused.number, name, len(name))
        super().__init__("%d %s" % (refused.number, name.value.decode()))
        self.refused = refused


class Library:
    """The library, as a shared object."""

    def __init__(self, path):
        self.c = ctypes.CDLL(path)
        self.c.mkstrike_reason.argtypes = [c_uint32, c_char_p, c_size_t]
        self.c.mkstrike_reason.restype = c_size_t
        self.c.mkstrike_font.argtypes = [c_char_p, c_size_t, c_uint32, c_uint16, POINTER(FontInfo), POINTER(Refused)]
        self.c.mkstrike_font.restype = c_uint32
        self.c.mkstrike_glyph.argtypes = [c_char_p, c_size_t, c_uint32, c_uint16, c_uint32, c_uint32, c_char_p, c_size_t,
                                          POINTER(GlyphInfo), POINTER(Refused)]
        self.c.mkstrike_glyph.restype = c_uint32

    def font(self, font, ppem, face=0):
        """What a font is at a size: its heights in pixels, and how many glyphs it has."""
        info, refused = FontInfo(), Refused()
        if self.c.mkstrike_font(font, len(font), face, ppem, byref(info), byref(refused)) != DONE:
            raise Refusal(self.c, refused)
        return info

    def glyph(self, font, ppem, code, mode=HINTED + DROPOUT_FONT, face=0):
        """The numbers of a character's glyph and its rows from the top, a byte a pixel; None if the font lacks it."""
        glyph, refused, room = GlyphInfo(), Refused(), ctypes.create_string_buffer(4096)
        for _ in range(2):
            status = self.c.mkstrike_glyph(font, len(font), face, ppem, mode, code, room, len(room), byref(glyph), byref(refused))
            if status == MISSING:
                return None
            if status != DONE:
                raise Refusal(self.c, refused)
            size = glyph.stride * glyph.height
            if size <= len(room):
                break
            room = ctypes.create_string_buffer(size)
        return glyph, [room.raw[i * glyph.stride:(i + 1) * glyph.stride] for i in range(glyph.height)]


def main():
    if len(sys.argv) != 5:
        print("usage: glyphs.py LIBRARY FONT PPEM TEXT", file=sys.stderr)
        sys.exit(2)
    path, font, ppem, text = sys.argv[1], open(sys.argv[2], "rb").read(), int(sys.argv[3]), sys.argv[4]
    library = Library(path)
    info = library.font(font, ppem)
    print("ascent %d descent %d line gap %d glyphs %d" % (info.ascent, info.descent, info.line_gap, info.glyphs))
    for character in text:
        shown = library.glyph(font, ppem, ord(character))
        print("U+%04X %s" % (ord(character), "missing" if shown is None else "advance %d" % shown[0].dwidth))
        for row in shown[1] if shown else []:
            print("".join("#" if pixel else "." for pixel in row))


if __name__ == "__main__":
    try:
        main()
    except Refusal as why:
        sys.exit("refused: %s" % why)
