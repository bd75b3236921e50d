"""From a character to its glyph: `cmap` formats 12 and 4 (OpenType)."""
from .faults import Refused
from .fontfile import u16, u32

WIDE = [(3, (10,)), (0, range(7))]
NARROW = [(3, (1,)), (0, range(4)), (3, (0,))]


class CharMap:
    """The subtable that is preferred: format 12 before format 4, or of these formats alone."""

    def __init__(self, font, formats=(12, 4)):
        if "cmap" not in font.tables:
            raise Refused("NoCharMap")
        self.data = font.tables["cmap"]
        if len(self.data) < 4 or len(self.data) < 4 + 8 * u16(self.data, 2):
            raise Refused("BadCharMap")
        self.at, self.format = self.choose(formats)
        (self.check_groups if self.format == 12 else self.check_segments)()

    def records(self):
        """Platform, encoding and place of each record whose format word lies in the table, with the format."""
        for k in range(u16(self.data, 2)):
            at = u32(self.data, 8 + 8 * k)
            if at + 2 <= len(self.data):
                yield u16(self.data, 4 + 8 * k), u16(self.data, 6 + 8 * k), at, u16(self.data, at)

    def choose(self, formats):
        """The first record of the best kind, and its format."""
        for number in formats:
            for platform, encodings in WIDE if number == 12 else NARROW:
                for p, e, at, form in self.records():
                    if form == number and p == platform and e in encodings:
                        return at, number
        raise Refused("NoCharMap")

    def check_segments(self):
        """Format 4: the arrays are whole and end codes do not fall."""
        if self.at + 8 > len(self.data):
            raise Refused("BadCharMap")
        self.count = u16(self.data, self.at + 6) // 2
        if self.at + 16 + 8 * self.count > len(self.data):
            raise Refused("BadCharMap")
        self.end_codes = [u16(self.data, self.at + 14 + 2 * k) for k in range(self.count)]
        if any(a > b for a, b in zip(self.end_codes, self.end_codes[1:])):
            raise Refused("BadCharMap")

    def check_groups(self):
        """Format 12: the groups are whole and their last codes do not fall."""
        if self.at + 16 > len(self.data):
            raise Refused("BadCharMap")
        self.count = u32(self.data, self.at + 12)
        if self.at + 16 + 12 * self.count > len(self.data):
            raise Refused("BadCharMap")
        self.end_codes = [u32(self.data, self.at + 20 + 12 * k) for k in range(self.count)]
        if any(a > b for a, b in zip(self.end_codes, self.end_codes[1:])):
            raise Refused("BadCharMap")

    def glyph(self, code):
        """The glyph number of a code point, 0 if the map has none."""
        k = first_end(self.end_codes, code)
        if k is None:
            return 0
        return self.by_group(k, code) if self.format == 12 else self.by_segment(k, code)

    def by_group(self, k, code):
        """Format 12: the group's first glyph and the distance from its first code."""
        at = self.at + 16 + 12 * k
        first, start = u32(self.data, at), u32(self.data, at + 8)
        glyph = start + code - first
        return glyph if code >= first and glyph <= 0xFFFF else 0

    def start(self, k):
        """Format 4: the first code of a segment."""
        return u16(self.data, self.at + 16 + 2 * (self.count + k))

    def by_segment(self, k, code):
        """Format 4: idDelta alone, or a glyph id through idRangeOffset and then idDelta."""
        start, delta, offset = self.start(k), *(u16(self.data, self.at + 16 + 2 * (self.count * part + k)) for part in (2, 3))
        if code < start or offset == 0xFFFF:
            return 0
        if offset == 0:
            return (code + delta) & 0xFFFF
        at = self.at + 16 + 6 * self.count + 2 * k + offset + 2 * (code - start)
        glyph = u16(self.data, at) if at + 2 <= len(self.data) else 0
        return (glyph + delta) & 0xFFFF if glyph else 0


def first_end(end_codes, code):
    """The first range whose end is not below the code."""
    return next((k for k, end in enumerate(end_codes) if end >= code), None)
