"""Pictures, arrays in C, formats of other programs, and the example of the package. The examples of docs/PYTHON.md are tried by
tests/house."""
import io
import os
import shutil
import struct
import subprocess
import warnings

import pytest
from shared import LIBERATION, MONO, SANS, TOP, font_bytes, needs_font, needs_pillow, pixels, program

import mkstrike
from needs import tool

GFXFONT = """\
#include <stdint.h>
typedef struct { uint16_t bitmapOffset; uint8_t width; uint8_t height; uint8_t xAdvance; int8_t xOffset; int8_t yOffset; } GFXglyph;
typedef struct { uint8_t *bitmap; GFXglyph *glyph; uint16_t first; uint16_t last; uint8_t yAdvance; } GFXfont;
"""
# Draws a sheet as Strike.sheet does: argv has the columns, and the box's width, height, left and bottom.
DRAW = """\
#include <stdio.h>
#include <stdlib.h>
static unsigned char bits[4096][4096];
static void set(int x, int y) { bits[y][x] = 1; }
%s
int main(int argc, char **argv) {
    int columns = atoi(argv[1]), width = atoi(argv[2]), height = atoi(argv[3]), left = atoi(argv[4]), bottom = atoi(argv[5]);
    int count = 0;
    (void)argc;
    for (unsigned k = 0; k < COUNT; k++)
        if (has(k)) {
            draw(k, 4 + count %% columns * (width + 1) - left, 4 + count / columns * (height + 1) + bottom + height - 1);
            count++;
        }
    int across = 8 + columns * (width + 1) - 1, down = 8 + (count + columns - 1) / columns * (height + 1) - 1;
    printf("P1\\n%%d %%d\\n", across, down);
    for (int y = 0; y < down; y++)
        for (int x = 0; x < across; x++)
            printf("%%d\\n", bits[y][x]);
    return 0;
}
"""
DRAW_ROWS = """\
#define COUNT small_COUNT
static int has(unsigned k) { (void)k; return small_advances[k] >= 0; }
static void draw(unsigned k, int x, int y) {
    for (int row = 0; row < small_HEIGHT; row++)
        for (int column = 0; column < small_WIDTH; column++)
            if (small_rows[k][row * small_STRIDE + column / 8] >> (7 - column % 8) & 1)
                set(x + small_LEFT + column, y - small_ASCENT + 1 + row);
}
"""
# As Adafruit_GFX::drawChar does.
DRAW_GFX = """\
#define COUNT (small.last - small.first + 1u)
static int has(unsigned k) { return small.glyph[k].xAdvance != 0; }
static void draw(unsigned k, int x, int y) {
    const GFXglyph *g = small.glyph + k;
    unsigned offset = g->bitmapOffset, bit = 0;
    uint8_t byte = 0;
    for (int row = 0; row < g->height; row++)
        for (int column = 0; column < g->width; column++) {
            if (!(bit++ & 7))
                byte = small.bitmap[offset++];
            if (byte & 0x80)
                set(x + g->xOffset + column, y + g->yOffset + row);
            byte <<= 1;
        }
}
"""
# What a font needs of LVGL 9: the types of lv_font.h and lv_font_fmt_txt.h that it names, with the fields in their order.
LVGL = """\
#pragma once
#include <stddef.h>
#include <stdint.h>
#define LV_ATTRIBUTE_LARGE_CONST
#define LV_FONT_DECLARE(font) extern const lv_font_t font;
typedef struct { uint32_t bitmap_index : 20; uint32_t adv_w : 12; uint8_t box_w; uint8_t box_h; int8_t ofs_x; int8_t ofs_y; }
    lv_font_fmt_txt_glyph_dsc_t;
typedef enum { LV_FONT_FMT_TXT_CMAP_FORMAT0_FULL, LV_FONT_FMT_TXT_CMAP_SPARSE_FULL, LV_FONT_FMT_TXT_CMAP_FORMAT0_TINY,
    LV_FONT_FMT_TXT_CMAP_SPARSE_TINY }
    lv_font_fmt_txt_cmap_type_t;
typedef struct { uint32_t range_start; uint16_t range_length; uint16_t glyph_id_start; const uint16_t *unicode_list;
    const void *glyph_id_ofs_list;
    uint16_t list_length; lv_font_fmt_txt_cmap_type_t type; } lv_font_fmt_txt_cmap_t;
typedef struct { const uint8_t *glyph_bitmap; const lv_font_fmt_txt_glyph_dsc_t *glyph_dsc; const lv_font_fmt_txt_cmap_t *cmaps;
    const void *kern_dsc; uint16_t kern_scale; uint16_t cmap_num : 9; uint16_t bpp : 4; uint16_t kern_classes : 1;
    uint16_t bitmap_format : 2; uint8_t stride; } lv_font_fmt_txt_dsc_t;
typedef struct lv_font lv_font_t;
typedef struct { int unused; } lv_font_glyph_dsc_t;
typedef struct { int unused; } lv_draw_buf_t;
struct lv_font {
    _Bool (*get_glyph_dsc)(const lv_font_t *, lv_font_glyph_dsc_t *, uint32_t, uint32_t);
    const void *(*get_glyph_bitmap)(lv_font_glyph_dsc_t *, lv_draw_buf_t *);
    void (*release_glyph)(const lv_font_t *, lv_font_glyph_dsc_t *);
    int32_t line_height; int32_t base_line; uint8_t subpx : 2; uint8_t kerning : 1; uint8_t static_bitmap : 1;
    int8_t underline_position; int8_t underline_thickness; const void *dsc; const lv_font_t *fallback; void *user_data;
};
_Bool lv_font_get_glyph_dsc_fmt_txt(const lv_font_t *, lv_font_glyph_dsc_t *, uint32_t, uint32_t);
const void *lv_font_get_bitmap_fmt_txt(lv_font_glyph_dsc_t *, lv_draw_buf_t *);
"""
# As lv_font_get_glyph_dsc_fmt_txt finds a glyph, which ends at the first map whose range has the character, and as its bits are
# read.
DRAW_LVGL = """\
#define COUNT 0x20000u
_Bool lv_font_get_glyph_dsc_fmt_txt(const lv_font_t *f, lv_font_glyph_dsc_t *g, uint32_t one, uint32_t next) {
    return f && g && one && next;
}
const void *lv_font_get_bitmap_fmt_txt(lv_font_glyph_dsc_t *g, lv_draw_buf_t *b) { return b ? (void *)g : NULL; }
static const lv_font_fmt_txt_glyph_dsc_t *found(unsigned letter) {
    const lv_font_fmt_txt_dsc_t *f = small.dsc;
    for (unsigned i = 0; i < f->cmap_num; i++) {
        const lv_font_fmt_txt_cmap_t *m = f->cmaps + i;
        uint32_t at = letter - m->range_start;
        if (at >= m->range_length)
            continue;
        if (m->type == LV_FONT_FMT_TXT_CMAP_FORMAT0_TINY)
            return f->glyph_dsc + m->glyph_id_start + at;
        for (unsigned k = 0; k < m->list_length; k++)
            if (m->unicode_list[k] == at)
                return f->glyph_dsc + m->glyph_id_start + k;
        return NULL;
    }
    return NULL;
}
static int has(unsigned k) { return found(k) != NULL; }
static void draw(unsigned k, int x, int y) {
    const lv_font_fmt_txt_glyph_dsc_t *g = found(k);
    const uint8_t *bits_of_it = ((const lv_font_fmt_txt_dsc_t *)small.dsc)->glyph_bitmap + g->bitmap_index;
    int top = y + 1 - small.line_height + small.base_line + (small.line_height - small.base_line - g->box_h - g->ofs_y);
    for (int bit = 0; bit < g->box_w * g->box_h; bit++)
        if (bits_of_it[bit / 8] << bit % 8 & 0x80)
            set(x + g->ofs_x + bit % g->box_w, top + bit / g->box_w);
}
"""
CC = pytest.mark.skipif(not shutil.which("gcc"), reason="gcc is not installed (Debian: gcc, libc6-dev)")


def drawn(folder, header, draw, strike, before=""):
    """The sheet that a program in C draws of an array, as Pillow's picture."""
    from PIL import Image
    (folder / "small.h").write_text(header)
    (folder / "draw.c").write_text(before + '#include "small.h"\n' + DRAW % draw)
    subprocess.run(["gcc", "-std=c99", "-Wall", "-Wextra", "-Werror", "-Wno-cast-qual", "draw.c", "-o", "draw"], cwd=folder,
                   check=True)
    words = [str(it) for it in (min(32, len(strike)), *strike.box)]
    out = subprocess.run(["./draw", *words], cwd=folder, check=True, capture_output=True).stdout
    return Image.open(io.BytesIO(out)).convert("1")


@CC
@needs_pillow
@needs_font(SANS, MONO)
@pytest.mark.parametrize("path, size, chars, cell",
                         [(SANS, 16, "20-7e,a1-ff", None), (MONO, 14, "ascii,box", (8, 16)), (SANS, 40, "ascii", None)])
def test_arrays_in_c(tmp_path, path, size, chars, cell):
    """Compiled by gcc and drawn, both forms are the sheet."""
    strike = mkstrike.Font(path).strike(size, chars, dropout=True)
    strike = strike.cell(*cell, clip=True) if cell else strike
    sheet = strike.sheet()
    rows = strike.encode("c", name="small").decode()
    if cell:
        with pytest.warns(UserWarning, match="9345 of the 9568 entries of small are empty"):
            gfx = strike.encode("gfx", name="small").decode()
    else:
        gfx = strike.encode("gfx", name="small").decode()
    assert drawn(tmp_path, rows, DRAW_ROWS, strike).tobytes() == sheet.tobytes()
    assert drawn(tmp_path, gfx, DRAW_GFX, strike, GFXFONT).tobytes() == sheet.tobytes()
    if cell:
        assert "small_WIDTH = 8," in rows and "small_HEIGHT = 16," in rows and "small_STRIDE = 1," in rows


@CC
@needs_pillow
@needs_font(SANS, MONO)
@pytest.mark.parametrize("path, size, chars",
                         [(SANS, 16, "20-7e,a1-ff,20ac,2190-2195,1f600"), (MONO, 12, "0-9,20,41,43,45,47,4e00,2500-257f"),
                          (SANS, 9, "all")])
def test_lvgl(tmp_path, path, size, chars):
    """Compiled against LVGL's types and drawn by its rules, the font is the sheet."""
    strike = mkstrike.Font(path).strike(size, chars, hinted=chars != "all")
    strike.save(tmp_path / "font.c", "lvgl", name="small")
    text = (tmp_path / "font.c").read_text()
    (tmp_path / "lvgl.h").write_text(LVGL)
    assert drawn(tmp_path, text, DRAW_LVGL.replace("%", "%%") % (), strike,
                 "#define LV_LVGL_H_INCLUDE_SIMPLE\n").tobytes() == strike.sheet().tobytes()
    glyph = strike.get("A") or strike["─"]
    assert "/* 1 " not in text and "{.bitmap_index = " in text
    assert ".line_height = %d, .base_line = %d," % (strike.height, strike.descent) in text
    assert ".adv_w = %d, .box_w = %d, .box_h = %d, .ofs_x = %d, .ofs_y = %d}, /* U+" % (
        16 * glyph.advance, glyph.width, glyph.height, glyph.left, glyph.bottom) in text
    assert ("FORMAT0_TINY" in text, "SPARSE_TINY" in text) == (True, True)


@needs_font(MONO, LIBERATION)
@pytest.mark.parametrize("path, size, cell", [(MONO, 12, (8, 16)), (LIBERATION, 14, (8, 16)), (MONO, 16, (10, 20))])
def test_raw_cells(tmp_path, path, size, cell):
    """Cells in the order of code page 437: each is the picture that the program draws of the character, in its place."""
    strike = mkstrike.Font(path).strike(size, "cp437").cell(*cell, clip=True)
    width, height = cell
    size_of = height * ((width + 7) // 8)
    with warnings.catch_warnings(record=True) as warned:
        warnings.simplefilter("always")
        strike.save(tmp_path / "vga.raw", order="cp437")
    data = (tmp_path / "vga.raw").read_bytes()
    assert len(data) == 256 * size_of
    assert [str(it.message)[:36] for it in warned] == ["blank, since the strike lacks them: "] * bool(strike.missing)
    due = {0x41: "A", 0x67: "g", 0x01: "☺", 0x7F: "⌂", 0x80: "Ç", 0xC4: "─", 0xDB: "█", 0xE0: "α", 0xFE: "■"}
    for place, char in due.items():
        rows = [int.from_bytes(data[at:at + size_of // height], "big")
                for at in range(place * size_of, (place + 1) * size_of, size_of // height)]
        shown = ["".join(".#"[it >> (8 * ((width + 7) // 8) - 1 - k) & 1] for k in range(width)) for it in rows]
        assert shown == (bits_of(strike[char], width, strike.ascent, strike.descent) if char in strike
                         else ["." * width] * height), char
        status, said, _ = program(["show", "--ppem", str(size), "--char", "%x" % ord(char), "--dropout=font"], font_bytes(path))
        picture = said.decode().split("\n")[:-1]
        if char in strike and char not in mkstrike.Font(path).strike(size, "cp437").cell(*cell).outside:
            assert status == 0 and [it for it in shown if "#" in it] == [
                it for it in ("." * strike[char].left + row + "." * (width - strike[char].left - len(row)) for row in picture)
                if "#" in it], char
    assert not any(data[:size_of]) and not any(data[0xFF * size_of:])  # no character, and a space


@needs_font(MONO)
def test_limits_of_raw_cells():
    """Raw cells are of one size, and nothing leaves them; without an order they are in that of the characters."""
    font = mkstrike.Font(MONO)
    cells = font.strike(12, "ascii").cell(8, 16)
    assert cells.encode("raw") == b"".join(
        bytes(int(row.replace(".", "0").replace("#", "1"), 2) for row in bits_of(it, 8, cells.ascent, cells.descent))
        for it in cells.values())
    with pytest.warns(UserWarning, match="^blank, since the strike lacks them: U\\+00A0, .*"):
        assert len(cells.encode("raw", order="koi8-r")) == 4096
    for strike, options, match in ((mkstrike.Font(SANS).strike(12, "ascii"), {}, "one advance"),
                                   (font.strike(16, "ascii").cell(8, 16), {}, "glyphs leave the cell"),
                                   (cells, {"order": "utf-8"}, "^order: 'utf-8' is no character set of one byte"),
                                   (cells, {"order": "klingon"}, "^order: ")):
        with pytest.raises(ValueError, match=match):
            strike.encode("raw", **options)


@needs_font(SANS)
def test_limits_of_lvgl():
    """What does not fit the fields of LVGL's structs is said."""
    font = mkstrike.Font(SANS)
    for size, chars, match in ((300, "57", "U\\+0057 does not fit a font for LVGL: its advance in 1/16 pixels, 4"),
                               (600, "7c", "its height, ")):
        with pytest.raises(ValueError, match=match):
            font.strike(size, chars, hinted=False).encode("lvgl")
    with pytest.raises(ValueError, match="has no glyph"):
        font.strike(16, "41").subset("").encode("lvgl")
    scattered = font.strike(4, "20",
                            hinted=False).replace({code: mkstrike.Glyph.drawn("#") for at in range(0x100, 0x4000, 9)
                                                   for code in range(at, at + 8)})
    with pytest.raises(ValueError, match="^a font for LVGL has at most 511 maps of characters and 65534 glyphs, not 1793 and "):
        scattered.encode("lvgl")


@needs_font(SANS)
def test_limits_of_arrays(tmp_path):
    """What does not fit the fields of a GFXfont is said."""
    font = mkstrike.Font(SANS)
    for size, chars, match in ((200, "20-7e", "U\\+0021 does not fit .* its top, -145"),
                               (150, "20-7e", "does not fit .* the bytes before it"), (255, "57", "lines of at most 255 rows"),
                               (16, "1f600", "up to U\\+FFFF")):
        with pytest.raises(ValueError, match=match):
            font.strike(size, chars, hinted=False).encode("gfx")
    empty = font.strike(16, "41").cell(8, 8)
    empty.parsed().entries.clear()
    for name in ("c", "gfx", "pcf", "otb", "psf"):
        with pytest.raises((ValueError, mkstrike.NotInstalled), match="without a glyph|has no glyph|not installed|one advance"):
            empty.encode(name)
    font.strike(16, "1f600,2a,2f,5c").save(tmp_path / "my font-16.h")
    text = (tmp_path / "my font-16.h").read_text()
    assert "static const uint32_t my_font_16_chars[my_font_16_COUNT]" in text and "/* U+002A */" in text and "0x1F600" in text


@needs_pillow
@needs_font(SANS)
def test_pictures(tmp_path):
    """Sheets and lines are the pictures of tools/picture."""
    from PIL import Image
    strike = mkstrike.Font(SANS).strike(13, "latin-1")
    strike.save(tmp_path / "a.bdf")
    for made, words in ((strike.sheet(scale=2), ["--scale", "2"]), (strike.sheet(columns=20), ["--columns", "20", "--scale", "1"]),
                        (strike.line("Jäger, fjord", scale=3), ["--text", "Jäger, fjord"])):
        due = subprocess.run([os.path.join(TOP, "tools/picture"), *words, tmp_path / "a.bdf"], check=True,
                             capture_output=True).stdout
        assert made.convert("L").tobytes() == Image.open(io.BytesIO(due)).convert("L").tobytes()
    strike.save(tmp_path / "a.png", scale=2)
    strike.save(tmp_path / "a.pbm")
    assert Image.open(tmp_path / "a.png").convert("1").tobytes() == strike.sheet(scale=2).tobytes()
    assert (tmp_path / "a.pbm").read_bytes()[:2] == b"P4" and Image.open(tmp_path / "a.pbm").tobytes() == strike.sheet().tobytes()
    assert strike["g"].image(2).size == (2 * strike["g"].width, 2 * strike["g"].height)
    assert strike["Ä"].image().tobytes() == Image.frombytes("1", (strike["Ä"].width, strike["Ä"].height), bytes(
        255 - it for it in b"".join(strike["Ä"].rows))).point(lambda it: it).tobytes() or strike["Ä"].width % 8
    with pytest.raises(mkstrike.Missing):
        strike.line("一")
    assert strike.line("A A").size == (2 * strike["A"].advance + strike[" "].advance + 8, strike.box[1] + 8)


def bits_of(glyph, width, ascent, descent):
    """The rows of a glyph's cell as text."""
    rows = [["."] * width for _ in range(ascent + descent)]
    for y, row in enumerate(glyph):
        for x, it in enumerate(row):
            if it:
                rows[ascent - glyph.top + y][glyph.left + x] = "#"
    return ["".join(it) for it in rows]


@needs_font(MONO)
def test_psf(tmp_path):
    """A font of the console, read back."""
    tool("bdf2psf")
    strike = mkstrike.Font(MONO).strike(14, "ascii,box").cell(8, 16, clip=True)
    with warnings.catch_warnings():
        warnings.simplefilter("error")
        strike.save(tmp_path / "a.psf")
    data = (tmp_path / "a.psf").read_bytes()
    # version 1, as bdf2psf makes it of glyphs of 8 columns: 256 glyphs, and of each the characters in two bytes and FFFF
    assert data[:4] == b"\x36\x04\x02\x10"
    names = "".join(map(chr, struct.unpack_from("<%dH" % ((len(data) - 4 - 256 * 16) // 2), data, 4 + 256 * 16))).split("\uffff")
    seen = set()
    for at in range(256):
        rows = ["".join(".#"[it >> (7 - k) & 1] for k in range(8)) for it in data[4 + 16 * at:20 + 16 * at]]
        for char in names[at].split("\ufffe")[0]:
            if char in strike:
                assert rows == bits_of(strike[char], 8, strike.ascent, strike.descent), char
                seen.add(char)
    assert seen == set(strike)
    with pytest.warns(UserWarning, match="left out, since they leave the cell: .*U\\+2500"):
        mkstrike.Font(MONO).strike(14, "ascii,box").cell(8, 16).encode("psf")


@needs_pillow
@needs_font(SANS)
@pytest.mark.parametrize("name, maker", [("pcf", "bdftopcf"), ("otb", "fonttosfnt")])
def test_read_by_freetype(tmp_path, name, maker):
    """A font of the X server and an OpenType font of bitmaps, read back by the FreeType of Pillow."""
    tool(maker)
    from PIL import ImageFont
    strike = mkstrike.Font(SANS).strike(16, "20-7e,a0-ac,ae-ff")  # Pillow leaves soft hyphens out
    strike.save(tmp_path / ("a." + name))
    font = ImageFont.truetype(str(tmp_path / ("a." + name)), 16)
    for char, glyph in strike.items():
        mask, (left, above, _, _) = font.getmask(char, mode="1"), font.getbbox(char, anchor="ls")
        width, height = mask.size
        data = bytes(mask)
        found = {(left + x, -above - 1 - y) for y in range(height) for x in range(width) if data[y * width + x]}
        assert found == pixels(glyph), char
        assert name == "otb" or font.getlength(char) == glyph.advance


@needs_font(SANS)
def test_what_is_not_installed(monkeypatch):
    """A clear word if a program or a module is not installed."""
    strike = mkstrike.Font(SANS).strike(16, "ascii").cell(10, 19)
    monkeypatch.setenv("PATH", "/nonexistent")
    for name, package in (("psf", "bdf2psf"), ("pcf", "xfonts-utils"), ("otb", "xfonts-utils")):
        with pytest.raises(mkstrike.NotInstalled, match=r"is not installed \(Debian: %s\)" % package):
            strike.encode(name)
    import sys
    monkeypatch.setitem(sys.modules, "PIL", None)
    with pytest.raises(mkstrike.NotInstalled, match="python3-pil"):
        strike.sheet()
    monkeypatch.setitem(sys.modules, "fontTools.ttLib", None)
    with pytest.raises(mkstrike.NotInstalled, match="^axes need fontTools .*python3-fonttools"):
        mkstrike.Font(b"", axes={"wght": 400})
    with pytest.raises(mkstrike.NotInstalled, match="^fonts with CFF outlines need fontTools .*python3-fonttools"):
        mkstrike.Font(b"OTTO\0\1\0\0\0\0\0\0CFF \0\0\0\0\0\0\0\x1c\0\0\0\4abcd")
    monkeypatch.setattr(sys, "path", [it for it in sys.path if not it.endswith("-packages")])
    with pytest.raises(mkstrike.NotInstalled, match="WOFF2 needs fontTools"):
        mkstrike.Font(b"wOF2" + bytes(100))


HOSTILE = ["*/", "*\\\r/", "*??/\r/", "*??/\n/", "*\\\n/", "**//", "/*", "//", "\\", "??/", "*?\\?/", "*\x0b/", "*\u2028/",
           "*\u202e/", "*\udc85/", "*\0/", "\n#include", '"', "é*/"]


@CC
@needs_font(SANS)
@pytest.mark.parametrize("standard", ["c99", "c11"])
def test_comments_in_c(tmp_path, standard):
    """Of 200 hostile names nothing is code: comments end where they should."""
    import random
    from mkstrike import carray
    choose, lines = random.Random(3), [GFXFONT, "#define LV_LVGL_H_INCLUDE_SIMPLE"]
    (tmp_path / "lvgl.h").write_text(LVGL)
    strike, few = (mkstrike.Font(SANS).strike(9, it) for it in ("20-2f,5b-60,e9,2028,202e", "2a-2f"))
    for k in range(200):
        name = "".join(choose.choice(HOSTILE) for _ in range(choose.choice((1, 2, 5)))) + " INJECTED int injected%d; /*" % k
        name = name if k else "nice*\\\r/ INJECTED\r__attribute__((constructor)) static void p(void) {} /*"
        strike.parsed().name = few.parsed().name = name
        for form, made in (("c", carray.rows(strike, "c%d" % k)), ("gfx", carray.gfx(few, "gfx%d" % k)),
                           ("lvgl", carray.lvgl(few, "lvgl%d" % k))):
            comments = [it.split("*/")[0] for it in made.split("/*")[1:]]
            assert all(" " <= char <= "~" or char == "\n" for it in comments for char in it)
            assert not set("\\?") & set("".join(comments))
            (tmp_path / ("%s%d.h" % (form, k))).write_bytes(made.encode("utf-8", "surrogateescape"))
            lines.append('#include "%s%d.h"' % (form, k))
    (tmp_path / "all.c").write_text("\n".join(lines) + "\nint main(void) { return 0; }\n")
    words = ["gcc", "-std=" + standard, "-trigraphs", "-Wall", "-Wextra", "-Wcomment", "-Wtrigraphs", "-Werror", "-Wno-unused",
             "-Wno-cast-qual", "all.c"]
    subprocess.run([*words, "-fsyntax-only"], cwd=tmp_path, check=True)
    assert b"INJECTED" not in subprocess.run([*words, "-E"], cwd=tmp_path, check=True, capture_output=True).stdout


def converter(folder, monkeypatch, name, script):
    """Puts a program in front of all others."""
    (folder / "programs").mkdir()
    path = folder / "programs" / name
    path.write_text("#!/bin/sh\n" + script)
    path.chmod(0o755)
    monkeypatch.setenv("PATH", "%s:%s" % (folder / "programs", os.environ["PATH"]))


@needs_font(SANS)
@pytest.mark.parametrize("script, said",
                         [("echo half > out; echo it broke >&2; exit 1", "it broke"), ("echo half > out; exit 1", "status 1"),
                          ("exit 0", "No such file")])
def test_converters_that_fail(tmp_path, monkeypatch, script, said):
    """What a program leaves that fails, or makes nothing, is not written."""
    converter(tmp_path, monkeypatch, "bdftopcf", script)
    with pytest.raises(mkstrike.NotMade, match="bdftopcf made nothing: .*" + said):
        mkstrike.Font(SANS).strike(16, "ascii").save(tmp_path / "a.pcf")
    assert os.listdir(tmp_path) == ["programs"]


@needs_font(MONO)
@pytest.mark.parametrize("count, places", [(255, 256), (256, 256), (257, 512), (512, 512)])
def test_places_of_the_console(tmp_path, monkeypatch, count, places):
    """A font of the console has 256 places as long as they do, since 512 take half of the colours."""
    converter(tmp_path, monkeypatch, "bdf2psf", 'echo "$5" > out')
    strike = mkstrike.Font(MONO).strike(14, range(0x21, 0x400), hinted=False).cell(8, 16)
    chosen = mkstrike.merge([strike])
    for code in sorted(chosen.parsed().entries)[count:]:
        del chosen.parsed().entries[code]
    assert len(chosen) == count and chosen.encode("psf") == b"%d\n" % places


@needs_pillow
@needs_font(SANS)
def test_example_of_the_package(tmp_path, monkeypatch):
    """The docstring of the package."""
    monkeypatch.chdir(tmp_path)
    code = "\n".join(line[4:] for line in mkstrike.__doc__.split("\n") if line.startswith("    "))
    exec(compile(code.replace("DejaVuSans.ttf", SANS), "the package", "exec"), {})
    assert os.path.getsize("terminal.bdf") > 10000
