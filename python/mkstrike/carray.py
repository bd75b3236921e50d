"""Strikes as arrays in C: the bytes of cells, and fonts for the libraries Adafruit GFX and LVGL; and cells as bytes alone."""
from __future__ import annotations

import re
import warnings
from collections.abc import Iterable, Sequence
from typing import TYPE_CHECKING

from .charsets import in_order, ranges
from .glyph import DIGITS
from .layout import Layout, in_cell
from .refused import code_name
from .sources import MOST

if TYPE_CHECKING:
    from .glyph import Glyph
    from .strike import Strike

ROWS = """\
/* {count} glyphs of {font} at {size} pixels per em, as {name}: made by mkstrike.
 *
 * Glyph k is the character {name}_chars[k]; they rise. {what} Draw the cell {name}_LEFT columns right of the pen, with \
{name}_ASCENT of its rows above
 * the baseline; then move the pen by {name}_advances[k]. */
#ifndef {guard}
#define {guard}

#include <stdint.h>
{includes}
enum {{
    {name}_COUNT = {count},
    {name}_WIDTH = {width},
    {name}_HEIGHT = {height},
    {name}_{lines},
    {name}_LEFT = {left},
    {name}_ASCENT = {ascent}
}};

static const {kind} {name}_chars[{name}_COUNT]{attribute} = {{
{chars}
}};

static const int16_t {name}_advances[{name}_COUNT]{attribute} = {{
{advances}
}};

static const uint8_t {name}_{by}[{name}_COUNT][{name}_{one} * {name}_{other}]{attribute} = {{
{cells}
}};

#endif
"""
# What a comment says of the bytes of a cell, the constant beside width and height, and the two whose product are the bytes.
FORMS = {
    "rows": ("{name}_rows[k] are its rows from the top: {name}_HEIGHT rows of {name}_STRIDE\n * bytes, the leftmost pixel",
             "STRIDE", "HEIGHT", "STRIDE"),
    "columns": ("{name}_columns[k] are its columns from the left: {name}_WIDTH columns of {name}_STRIDE\n * bytes, the topmost "
                "pixel",
                "STRIDE", "WIDTH", "STRIDE"),
    "pages": ("{name}_pages[k] are its pages of eight rows from the top: {name}_PAGES pages of\n * {name}_WIDTH bytes, the "
              "topmost pixel",
              "PAGES", "PAGES", "WIDTH")}
ATTRIBUTE = re.compile(r"[A-Za-z_]\w*(\([\w \t(),.\"$-]*\))?", re.ASCII)
PROGMEM = """\
#if defined(ARDUINO)
#include <Arduino.h>
#elif defined(__AVR__)
#include <avr/pgmspace.h>
#endif
#ifndef PROGMEM
#define PROGMEM
#endif
"""
GFX = """\
/* {count} glyphs of {font} at {size} pixels per em, as {name} for Adafruit GFX: made by mkstrike. Include it after \
Adafruit_GFX.h, and say
 * setFont(&{name}). */
#ifndef {guard}
#define {guard}

#ifndef PROGMEM
#define PROGMEM
#endif

const uint8_t {name}Bitmaps[] PROGMEM = {{
{bitmaps}
}};

const GFXglyph {name}Glyphs[] PROGMEM = {{
{glyphs}
}};

const GFXfont {name} PROGMEM = {{(uint8_t *){name}Bitmaps, (GFXglyph *){name}Glyphs, 0x{first:02X}, 0x{last:02X}, {height}}};

#endif
"""
LVGL = """\
/* {count} glyphs of {font} at {size} pixels per em, as {name} for LVGL 9: made by mkstrike. Say LV_FONT_DECLARE({name}). */
#ifdef LV_LVGL_H_INCLUDE_SIMPLE
#include "lvgl.h"
#else
#include "lvgl/lvgl.h"
#endif

static LV_ATTRIBUTE_LARGE_CONST const uint8_t {name}_bitmap[] = {{
{bitmaps}
}};

static const lv_font_fmt_txt_glyph_dsc_t {name}_glyphs[] = {{
    {{.bitmap_index = 0, .adv_w = 0, .box_w = 0, .box_h = 0, .ofs_x = 0, .ofs_y = 0}}, /* none */
{glyphs}
}};

{lists}static const lv_font_fmt_txt_cmap_t {name}_maps[] = {{
{maps}
}};

static const lv_font_fmt_txt_dsc_t {name}_font = {{
    .glyph_bitmap = {name}_bitmap, .glyph_dsc = {name}_glyphs, .cmaps = {name}_maps, .cmap_num = {count_maps}, .bpp = 1
}};

const lv_font_t {name} = {{
    .get_glyph_dsc = lv_font_get_glyph_dsc_fmt_txt, .get_glyph_bitmap = lv_font_get_bitmap_fmt_txt,
    .line_height = {height}, .base_line = {descent}, {underline}.dsc = &{name}_font
}};
"""
MAP = """\
    {{.range_start = {first}, .range_length = {span}, .glyph_id_start = {at}, .unicode_list = {list}, .list_length = {length},
     .type = LV_FONT_FMT_TXT_CMAP_{kind}_TINY}}"""
MOST_MAPS = 511
SPAN = 0xFFFF  # code points that a map has at most
RUN = 8  # characters one after the other that are worth a map of their own
# The numbers of a glyph, with the least and the greatest of each, in both libraries.
FIELDS_GFX = (("the bytes before it", 0, 65535), ("its width", 0, 255), ("its height", 0, 255), ("its advance", 0, 255),
              ("its left", -128, 127), ("its top", -128, 127))
FIELDS_LVGL = (("the bytes before it", 0, (1 << 20) - 1), ("its advance in 1/16 pixels", 0, 4095), ("its width", 0, 255),
               ("its height", 0, 255),
               ("its left", -128, 127), ("its bottom", -128, 127))


def identifier(text: str) -> str:
    """A name in C made of a text, as `DejaVuSans_16` of `DejaVuSans-16`."""
    name = re.sub(r"\W+", "_", text, flags=re.ASCII).strip("_") or "strike"
    return "_" + name if name[0].isdigit() else name


def cell_of(strike: Strike) -> tuple[int, int, int, int]:
    """The least cell that has room for each glyph and for a line of text: width, height, and its lower left pixel."""
    width, height, left, bottom = strike.box
    first, below = min(left, 0), min(bottom, -strike.descent)
    end = max([left + width] + [it.advance for it in strike.values()])
    return end - first, max(bottom + height, strike.ascent) - below, first, below


def rows(strike: Strike, name: str, attribute: str = "", **layout: str) -> str:
    """Every glyph in a cell of the same size, its bytes in a layout; `attribute` is that of the arrays, as PROGMEM."""
    codes, bytes_of = [ord(it) for it in strike], Layout(**layout)
    _filled(codes)
    if attribute and not ATTRIBUTE.fullmatch(attribute):
        raise ValueError("attribute is a word of C such as PROGMEM, or one with arguments, not %r" % attribute)
    width, height, left, bottom = cell_of(strike)
    size = len("0x00, ") * len(codes) * bytes_of.size(width, height)
    if size > MOST:
        raise ValueError("an array of %d cells of %d x %d pixels takes %s bytes as text, more than %s" % (
            len(codes), width, height, format(size, ","), format(MOST, ",")))
    cells = ((it.char, bytes_of.packed(in_cell(it, width, height, left, bottom))) for it in strike.values())
    what, word, one, other = FORMS[bytes_of.by]
    lines = (width if bytes_of.by == "rows" else height) + 7
    return ROWS.format(
        name=name, guard=name.upper() + "_H", font=comment(strike.name), size=strike.size, count=len(codes), width=width,
        height=height,
        lines="%s = %d" % (word, lines // 8), left=left, ascent=bottom + height,
        kind="uint16_t" if codes[-1] <= 0xFFFF else "uint32_t",
        what="%s the %s bit%s." % (what.format(name=name), "highest" if bytes_of.bits == "msb" else "lowest",
                                   ", the bits left over before it" if bytes_of.align == "right" else ""),
        includes=PROGMEM if attribute == "PROGMEM" else "", attribute=attribute and " " + attribute, by=bytes_of.by, one=one,
        other=other,
        chars=_wrapped("0x%04X" % it for it in codes), advances=_wrapped(str(it.advance) for it in strike.values()),
        cells="\n".join("    {%s}, /* %s */" % (_hexadecimal(it), _shown(char)) for char, it in cells))


def gfx(strike: Strike, name: str, dense: bool = False) -> str:
    """A GFXfont: boxes packed bit by bit. What the strike lacks between the first and the last character is empty there; if
    `dense`, each character has the number after the one before it."""
    codes = [ord(it) for it in strike]
    _filled(codes)
    numbered = dict(enumerate(codes, codes[0])) if dense else dict(zip(codes, codes))
    first, last = codes[0], max(numbered)
    if last > 0xFFFF or not 0 <= strike.height <= 255:
        raise ValueError("a font for Adafruit GFX has characters up to U+FFFF and lines of at most 255 rows")
    bitmaps, lines = bytearray(), []
    for code in range(first, last + 1):
        glyph = strike.get(chr(numbered.get(code, code)))
        numbers = (0, 0, 0, 0, 0, 0)
        if glyph is not None:
            numbers = (len(bitmaps), glyph.width, glyph.height, glyph.advance, glyph.left, 1 - glyph.top)
            if not glyph.width:
                numbers = (len(bitmaps), 0, 0, glyph.advance, 0, 0)
            _check(numbered[code], "Adafruit GFX", numbers, FIELDS_GFX)
            bitmaps += _bits(glyph)
        shown = _shown(chr(numbered.get(code, code)))
        lines.append("    {%d, %d, %d, %d, %d, %d}, /* %s */" % (*numbers, "0x%02X: %s" % (code, shown) if dense else shown))
    empty = last - first + 1 - len(codes)
    if empty > len(codes):
        warnings.warn("%d of the %d entries of %s are empty, since a GFXfont has all from the first character to the last; "
                      "dense=True (--dense) numbers "
                      "the characters without gaps" % (empty, empty + len(codes), name), stacklevel=4)
    return GFX.format(name=name, guard=name.upper() + "_GFX_H", font=comment(strike.name), size=strike.size, count=len(codes),
                      bitmaps=_wrapped("0x%02X" % it for it in bitmaps or b"\0"), glyphs="\n".join(lines), first=first, last=last,
                      height=strike.height)


def lvgl(strike: Strike, name: str) -> str:
    """A font for LVGL 9, a bit a pixel: boxes packed bit by bit, and maps of runs of characters and of single ones."""
    codes = [ord(it) for it in strike]
    _filled(codes)
    bitmaps, lines = bytearray(), []
    for code, it in zip(codes, strike.values()):
        numbers = (len(bitmaps), 16 * it.advance, it.width, it.height, it.left, it.bottom)
        _check(code, "LVGL", numbers, FIELDS_LVGL)
        lines.append("    {.bitmap_index = %d, .adv_w = %d, .box_w = %d, .box_h = %d, .ofs_x = %d, .ofs_y = %d}, /* %s */" % (
            *numbers, _shown(it.char)))
        bitmaps += _bits(it)
    lists, maps, at = "", [], 1
    for k, part in enumerate(_parts(codes)):
        span, is_run = part[-1] - part[0] + 1, part[-1] - part[0] + 1 == len(part)
        if not is_run:
            lists += "static const uint16_t %s_list_%d[] = {\n%s\n};\n\n" % (name, k, _wrapped(str(it - part[0]) for it in part))
        maps.append(MAP.format(first=part[0], span=span, at=at, list="NULL" if is_run else "%s_list_%d" % (name, k),
                               length=0 if is_run else len(part), kind="FORMAT0" if is_run else "SPARSE"))
        at += len(part)
    if len(maps) > MOST_MAPS or len(codes) >= SPAN:
        raise ValueError("a font for LVGL has at most %d maps of characters and %d glyphs, not %d and %d" %
                         (MOST_MAPS, SPAN - 1, len(maps), len(codes)))
    position, thickness = strike.underline or (0, 0)
    underline = ".underline_position = %d, .underline_thickness = %d, " % (
        position, thickness) if -128 <= position < 128 and 0 < thickness < 128 else ""
    return LVGL.format(underline=underline, name=name, font=comment(strike.name), size=strike.size, count=len(codes),
                       bitmaps=_wrapped("0x%02X" % it for it in bitmaps or b"\0"),
                       glyphs="\n".join(lines), lists=lists, maps=",\n".join(maps), count_maps=len(maps), height=strike.height,
                       descent=strike.descent)


def _parts(codes: Sequence[int]) -> list[list[int]]:
    """Code points in parts that a map can have: long runs, and single ones between them that are no further apart than 16 bits
    tell."""
    runs: list[list[int]] = []
    for code in codes:
        if not runs or code != runs[-1][-1] + 1 or len(runs[-1]) == SPAN:
            runs.append([])
        runs[-1].append(code)
    parts: list[list[int]] = []
    are_single = False
    for run in runs:
        if are_single and len(run) < RUN and run[-1] - parts[-1][0] < SPAN:
            parts[-1] += run
        else:
            parts.append(run)
        are_single = len(run) < RUN
    return parts


def raw(strike: Strike, order: str | None, **layout: str) -> bytes:
    """The cells alone, each in a layout: in the order of a character set of one byte, or of the characters."""
    bytes_of, widths = Layout(**layout), {it.advance for it in strike.values()}
    if len(widths) != 1:
        raise ValueError("raw cells have one advance for all glyphs: make a cell first (cell, --cell)")
    width = widths.pop()
    outside = strike.cell(width, strike.height, ascent=strike.ascent).outside
    if outside:
        raise ValueError("%d glyphs leave the cell: clip them (clip=True, --clip), or use a smaller size" % len(outside))
    chars = list(strike) if order is None else ["" if it is None else chr(it) for it in in_order(order)]
    lost = [ord(it) for it in chars if it and it not in strike]
    if lost:
        warnings.warn("blank, since the strike lacks them: " + ranges(lost), stacklevel=4)
    blank = bytes(bytes_of.size(width, strike.height))
    return b"".join(bytes_of.packed(in_cell(strike[it], width, strike.height, 0,
                                            -strike.descent)) if it in strike else blank for it in chars)


def _check(code: int, library: str, numbers: Sequence[int], fields: Sequence[tuple[str, int, int]]) -> None:
    """Raises an error if a number does not fit its field of a library's glyph."""
    for number, (what, least, most) in zip(numbers, fields):
        if not least <= number <= most:
            raise ValueError("%s does not fit a font for %s: %s, %d, is not in %d to %d" %
                             (code_name(code), library, what, number, least, most))


def _filled(codes: list[int]) -> None:
    if not codes:
        raise ValueError("the strike has no glyph")


def _bits(glyph: Glyph) -> bytes:
    """The pixels of a glyph, bit by bit, filled up to a whole byte at the end alone."""
    count = glyph.width * glyph.height
    digits = glyph.tobytes().translate(DIGITS).decode().ljust((count + 7) // 8 * 8, "0")
    return int(digits, 2).to_bytes(len(digits) // 8, "big") if digits else b""


def _hexadecimal(data: bytes) -> str:
    return ", ".join("0x%02X" % it for it in data)


def _wrapped(items: Iterable[str]) -> str:
    """Items in lines of twelve."""
    given = list(items)
    return "\n".join("    " + ", ".join(given[at:at + 12]) + "," for at in range(0, len(given), 12))


def _shown(char: str | None) -> str:
    """A character in a comment of C: its code point, and itself if a comment can have it."""
    text = char or ""
    return " ".join([code_name(ord(text))] + [it for it in text if it > " " and comment(it) == it])


def comment(text: str) -> str:
    """A text in a comment of C: printable ASCII, without what could end it (`*/`), join its lines, or be a trigraph (`??/`)."""
    return "".join(it if " " <= it <= "~" and it not in "*/\\?" else "_" for it in text)
