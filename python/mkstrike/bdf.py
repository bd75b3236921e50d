"""The text of a strike in the Bitmap Distribution Format (BDF 2.1): read, and written as the program writes it."""
from __future__ import annotations

import io
import itertools
from collections import namedtuple
from collections.abc import Callable, Iterable, Iterator, Mapping

from .refused import Refused, code_name, shown

TYPE_CHECKING = False  # as in glyph.py
if TYPE_CHECKING:
    from typing import NamedTuple, Union

    from .glyph import Glyph
    from .names import Names

    Value = Union[int, str]

    class Entry(NamedTuple):
        """A glyph of the text: `rows` has eight pixels a byte, row by row from the top."""
        code: int
        name: str
        swidth: int
        dwidth: int
        width: int
        height: int
        left: int
        bottom: int
        rows: bytes
else:
    Entry = namedtuple("Entry", "code name swidth dwidth width height left bottom rows")

ENCODING = "utf-8"
MOST, GREATEST = 65535, 0x10FFFF  # columns and rows of a glyph; the greatest code point
RESERVED = ("FONT_ASCENT", "FONT_DESCENT", "ENDPROPERTIES", "COMMENT")
BAD_NAME, BAD_PROPERTY, LONGEST_NAME = 62, 63, 255  # as of the program
LONGEST = 200  # characters of a line that a message has
ROOM = 1 << 26  # pixels of all glyphs of another program's text, which take a byte each
HEADER = ("FONT", "SIZE", "FONTBOUNDINGBOX")  # the words that must stand before the glyphs
# Bytes without C2, which a control character may begin with.
PLAIN = bytes([9, 10, *range(32, 127), *range(128, 194), *range(195, 256)])
CHARSET, UNICODE = ("CHARSET_REGISTRY", "CHARSET_ENCODING"), ("", "*", "ISO10646", "UNICODE")


class NotBdf(ValueError):
    """The text is no strike in BDF."""


class Text:
    """What a text says: the font's lines, its properties beside ascent and descent, and its glyphs by their code points. `unnamed`
    has the names of glyphs without a code point."""

    def __init__(self, name: str, size: int, ascent: int, descent: int, properties: Mapping[str, Value],
                 entries: Mapping[int, Entry],
                 unnamed: Iterable[str] = ()) -> None:
        self.name, self.size, self.ascent, self.descent = name, size, ascent, descent
        self.properties, self.entries, self.unnamed = dict(properties), dict(entries), tuple(unnamed)
        self.box = bounds(self.entries.values())

    def with_entries(self, entries: Mapping[int, Entry]) -> Text:
        """The text with other glyphs; what they decide of its properties is settled anew."""
        text = Text(self.name, self.size, self.ascent, self.descent, self.properties, entries)
        settle(text)
        return text

    def encoded(self) -> bytes:
        """The text, as the program would write it: glyphs by rising code points, and no line that it doesn't write."""
        lines = ["STARTFONT 2.1", "FONT " + self.name, "SIZE %d 72 72" % self.size, "FONTBOUNDINGBOX %d %d %d %d" % self.box,
                 "STARTPROPERTIES %d" % (2 + len(self.properties)), "FONT_ASCENT %d" % self.ascent, "FONT_DESCENT %d" %
                 self.descent]
        lines += [name + " " + _written(value) for name, value in self.properties.items()]
        lines += ["ENDPROPERTIES", "CHARS %d" % len(self.entries)]
        for code in sorted(self.entries):
            lines += _lines_of(self.entries[code])
        return "\n".join(lines + ["ENDFONT", ""]).encode(ENCODING, "surrogateescape")


def _lines_of(it: Entry) -> list[str]:
    """The lines of a glyph."""
    size = 2 * ((it.width + 7) // 8)
    digits = it.rows.hex().upper()
    rows = [digits[at:at + size] for at in range(0, len(digits), size or 1)] if size else []
    return ["STARTCHAR " + it.name, "ENCODING %d" % it.code, "SWIDTH %d 0" % it.swidth, "DWIDTH %d 0" % it.dwidth,
            "BBX %d %d %d %d" % (it.width, it.height, it.left, it.bottom), "BITMAP", *rows, "ENDCHAR"]


def entry_of(code: int, glyph: Glyph, size: int) -> Entry:
    """A glyph as a character of a text of a size in pixels per em."""
    return Entry(code, _name(code), glyph.swidth or swidth_of(glyph.advance, size), glyph.advance, glyph.width, glyph.height,
                 glyph.left,
                 glyph.bottom, b"".join(glyph.rows))


def renumbered(it: Entry, code: int) -> Entry:
    """A glyph as another character."""
    return it if it.code == code else it._replace(code=code, name=_name(code))


def swidth_of(advance: int, size: int) -> int:
    """An advance in 1/1000 of an em."""
    return (2000 * advance + size) // (2 * size) if size else 0


def _name(code: int) -> str:
    return "uni%04X" % code if code <= 0xFFFF else "u%X" % code


def _written(value: Value) -> str:
    return str(value) if isinstance(value, int) else '"%s"' % value.replace('"', '""')


def _read(value: str) -> Value:
    """A property's value: a number, or a text between quotation marks."""
    if value.startswith('"'):
        return value[1:value.rfind('"')].replace('""', '"')
    return number_or_text(value)


def number_or_text(value: str) -> Value:
    """A value that a command line has: a whole number of 32 bits is a number, all else a text."""
    digits = value[1:] if value.startswith("-") else value
    is_number = digits.isascii() and digits.isdigit() and -2**31 <= int(value) < 2**31
    return int(value) if is_number else value


# ---- reading

def parse(data: bytes, is_own: bool = False) -> Text:
    """Reads a text, also one of another program: there ENCODING is a place in the character set that the font names.

    What this package or the program wrote has code points there, whatever the font's name says: `is_own`."""
    lines = _Lines(data)
    try:
        if not next(lines, "").startswith("STARTFONT"):
            raise ValueError("it does not begin with STARTFONT")
        text = _header(lines)
        named = identity if is_own else _charset(text)
        unnamed, entries = [], {}
        for place, it in _entries(lines, is_own):
            code = named(place)
            if code is None:
                unnamed.append(it.name)
            else:
                entries[code] = it if code == place else it._replace(code=code)
        return Text(text.name, text.size, text.ascent, text.descent, text.properties, entries, unnamed)
    except ValueError as fault:
        raise NotBdf("no BDF file, or a damaged one: line %d: %s" % (lines.number, shown(str(fault))[:LONGEST])) from fault


class _Lines:
    """The lines of a text one after the other, without blanks at their ends; `number` is that of the last one, from 1."""

    def __init__(self, data: bytes) -> None:
        self._lines, self.number = iter(io.BytesIO(data)), 0
        self._is_plain = not data.replace(b"\r\n", b"\n").translate(None, PLAIN)

    def __iter__(self) -> _Lines:
        return self

    def __next__(self) -> str:
        return self._plain(next(self._lines))

    def _plain(self, line: bytes) -> str:
        """The text of a line, which is counted."""
        self.number += 1
        text = line.decode(ENCODING, "surrogateescape").rstrip("\r\n \t")
        if not self._is_plain:
            for it in text:
                if ord(it) < 32 and it != "\t" or 127 <= ord(it) < 160:
                    raise ValueError("it has the control character %s" % code_name(ord(it)))
        return text

    def rows(self, count: int, digits: int) -> bytes:
        """The bytes of the next lines, which have so many hexadecimal digits each, or more, which don't count."""
        lines = [self._plain(it)[:digits] for it in itertools.islice(self._lines, count)]
        for line in lines if len("".join(lines)) < count * digits else ():
            if len(line) < digits:
                raise ValueError("a row has fewer than the %d digits of its glyph: %s" % (digits, shown(line)))
        data = bytes.fromhex("".join(lines))
        if 2 * len(data) < count * digits:
            raise ValueError("the file ends within a glyph, or a row has a blank")
        return data


def _header(lines: _Lines) -> Text:
    """What the lines before the glyphs say."""
    words: dict[str, str] = {}
    properties: dict[str, Value] = {}
    is_property = False
    for line in lines:
        word, value = _parted(line)
        if word == "CHARS":
            break
        if word in ("STARTPROPERTIES", "ENDPROPERTIES"):
            is_property = word == "STARTPROPERTIES"
        elif is_property and word != "COMMENT":
            properties[word] = _read(value)
            if len(properties) > MOST:
                raise ValueError("there are more than %d properties" % MOST)
        elif word in HEADER:
            words.setdefault(word, value)
    else:
        raise ValueError("there is no CHARS")
    for name in HEADER if not is_property else ("ENDPROPERTIES",):
        if name not in words:
            raise ValueError("there is no %s" % name)
    _, height, _, bottom = _numbers(words["FONTBOUNDINGBOX"], 4)
    points, _, resolution = _numbers(words["SIZE"] + " 72 72", 3)
    size = properties.get("PIXEL_SIZE", 0) or (points * resolution + 36) // 72
    ascent, descent = properties.pop("FONT_ASCENT", height + bottom), properties.pop("FONT_DESCENT", -bottom)
    for what, number, least in (("size", size, 0), ("ascent", ascent, -MOST), ("descent", descent, -MOST)):
        if isinstance(number, str) or not least <= number <= MOST:
            raise ValueError("the %s is %s pixels" % (what, number))
    return Text(words["FONT"], int(size), int(ascent), int(descent), properties, {})


def _parted(line: str) -> tuple[str, str]:
    word, _, rest = (line.replace("\t", " ") if "\t" in line else line).partition(" ")
    return word, rest.strip()


def _numbers(text: str, count: int) -> list[int]:
    """The first numbers of a line, in digits of ASCII."""
    found = text.split()[:count]
    if len(found) < count or not text.isascii() or "_" in text:
        raise ValueError("%r does not have %d whole numbers" % (text, count))
    return list(map(int, found))


def _entries(lines: _Lines, is_own: bool) -> Iterator[tuple[int, Entry]]:
    """The glyphs, each with the number that ENCODING has; -1 is that of a glyph without one."""
    for line in lines:
        if line == "ENDFONT":
            return
        word, name = _parted(line)
        if word == "STARTCHAR":
            yield _entry(lines, name, is_own)


def _entry(lines: _Lines, name: str, is_own: bool) -> tuple[int, Entry]:
    """A glyph, after its first line."""
    words: dict[str, str] = {}
    for line in lines:
        word, value = _parted(line)
        if word in ("BITMAP", "STARTCHAR", "ENDCHAR"):
            break
        if word in ("ENCODING", "SWIDTH", "DWIDTH", "BBX"):
            words[word] = value
    else:
        word = ""
    for needed, found in (("BITMAP", [word]), ("ENCODING", words), ("BBX", words)):
        if needed not in found:
            raise ValueError("a glyph has no %s" % needed)
    width, height, left, bottom = _numbers(words["BBX"], 4)
    place = _numbers(words["ENCODING"], 1)[0]
    advance = _numbers(words["DWIDTH"], 1)[0] if "DWIDTH" in words else width
    swidth = _numbers(words.get("SWIDTH", "0"), 1)[0]
    if not (0 <= width <= MOST and 0 <= height <= MOST and max(abs(left), abs(bottom), abs(advance)) <= MOST and place <= GREATEST
            and abs(swidth) < 1 << 31):
        raise ValueError("a number of the glyph %s is too large" % name)
    size = 2 * ((width + 7) // 8)
    rows = lines.rows(height, size) if size else b""
    if width % 8 and not is_own:
        rows = _masked(rows, width, height)
    return place, Entry(place, name, swidth, advance, width, height, left, bottom, rows)


def _masked(rows: bytes, width: int, height: int) -> bytes:
    """Rows without the bits right of the box."""
    row = bytes([255] * (width // 8) + [0xFF00 >> width % 8 & 0xFF])
    return (int.from_bytes(rows, "big") & int.from_bytes(row * height, "big")).to_bytes(len(rows), "big")


def check_room(text: Text) -> None:
    """Refuses a text of another program whose glyphs would take much memory: a byte a pixel."""
    total = sum(it.width * it.height for it in text.entries.values())
    if total > ROOM:
        raise NotBdf("its glyphs have %s pixels, more than %s" % (format(total, ","), format(ROOM, ",")))


# ---- character sets

def identity(place: int) -> int | None:
    """The code point of a place in Unicode."""
    return place if place >= 0 else None


def _charset(text: Text) -> Callable[[int], int | None]:
    """What leads from places in the font's character set to code points. The text then says that it has Unicode."""
    fields = text.name.split("-") if is_xlfd(text.name) else ["", ""]
    registry, encoding = (str(text.properties.get(name) or field) for name, field in zip(CHARSET, fields[-2:]))
    if registry.upper() in UNICODE:
        return identity
    from .charsets import UNDEFINED, table_of
    table = table_of(registry, encoding)
    if table is None:
        raise ValueError("the character set %r, %r is not known here: convert the font to ISO10646-1" % (registry, encoding))
    text.name = "-".join(fields[:-2] + ["ISO10646", "1"]) if is_xlfd(text.name) else text.name
    text.properties.update((name, it) for name, it in zip(CHARSET, ("ISO10646", "1")) if name in text.properties)
    codes = [None if it == UNDEFINED else ord(it) for it in table]
    return lambda place: codes[place] if 0 <= place < len(codes) else None


def is_xlfd(name: str) -> bool:
    """Whether a font's name has the 14 fields of X11."""
    return name.startswith("-") and name.count("-") == 14


# ---- properties

def check(properties: Mapping[str, Value]) -> None:
    """Refuses properties that the program refuses (63), by the first that is bad."""
    for number, (name, value) in enumerate(properties.items(), 1):
        if not isinstance(value, (int, str)):
            raise TypeError("properties: the value of %r is a whole number or a string, not %r" % (name, value))
        letters = name.isascii() and name[:1].isalpha() and name == name.upper() and name.replace("_", "").isalnum()
        text = value if isinstance(value, str) else ""
        if not (letters and len(name) <= 64 and name not in RESERVED and len(text) <= 32000 and all(" " <= it <= "~" for it in text)
                and number <= 64):
            raise Refused(BAD_PROPERTY, "BadProperty", property=number)


def check_name(name: str) -> None:
    """Refuses a name that the program refuses (62)."""
    if not 1 <= len(name) <= LONGEST_NAME or name != name.strip() or not all(" " <= it <= "~" for it in name):
        raise Refused(BAD_NAME, "BadName")


def x11(text: Text) -> dict[str, Value]:
    """The properties that `mkstrike make --x11` adds, in its order. A name of 14 fields has the family, the weight and the
    slant."""
    fields = text.name.split("-") if is_xlfd(text.name) else ["", "", text.name, "Medium", "R"]
    spacing, average = _widths(text)
    found: dict[str, Value] = {
        "FAMILY_NAME": fields[2], "WEIGHT_NAME": fields[3], "SLANT": fields[4],
        "PIXEL_SIZE": text.size, "POINT_SIZE": 10 * text.size, "RESOLUTION_X": 72, "RESOLUTION_Y": 72,
        "SPACING": spacing, "AVERAGE_WIDTH": average,
        "CHARSET_REGISTRY": "ISO10646", "CHARSET_ENCODING": "1",
    }
    default = next((code for code in (0xFFFD, 0x20) if code in text.entries), None)
    return found if default is None else {**found, "DEFAULT_CHAR": default}


def _widths(text: Text) -> tuple[str, int]:
    """Whether all advances are equal, M or P, and their average in tenths of a pixel."""
    widths = [it.dwidth for it in text.entries.values()]
    total, count = 10 * sum(abs(it) for it in widths), len(widths)
    return "M" if len(set(widths)) <= 1 else "P", (2 * total + count) // (2 * count) if count else 0


def x11_name(text: Text, names: Names) -> str:
    """The long name of X11 for a text, with what its font calls itself."""
    from . import names as of_fonts
    return of_fonts.x11_name(names, text.size, *_widths(text))


def settle(text: Text) -> None:
    """Settles anew the properties that the glyphs decide, if the text has them: after a change of its glyphs."""
    for name, value in x11(text).items():
        is_cell = name == "SPACING" and value == "M" and text.properties.get(name) == "C"
        if name in ("SPACING", "AVERAGE_WIDTH", "DEFAULT_CHAR") and name in text.properties and not is_cell:
            text.properties[name] = value


def bounds(entries: Iterable[Entry]) -> tuple[int, int, int, int]:
    """The least box that holds the boxes of all glyphs; those without a pixel have none."""
    boxes = [it for it in entries if it.width and it.height]
    if not boxes:
        return 0, 0, 0, 0
    left, bottom = min(it.left for it in boxes), min(it.bottom for it in boxes)
    return max(it.left + it.width for it in boxes) - left, max(it.bottom + it.height for it in boxes) - bottom, left, bottom
