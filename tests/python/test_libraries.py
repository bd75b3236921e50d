"""What fonts for Adafruit GFX and LVGL have beside their glyphs: numbers without gaps, and the underline."""
import re
import struct
import warnings

import pytest
from shared import LIBERATION, MONO, SANS, needs_font, needs_fonttools, needs_pillow
from test_layouts import SMALL
from test_others import CC, DRAW_GFX, DRAW_LVGL, GFXFONT, LVGL, drawn

import mkstrike
from mkstrike.tables import underline


@needs_font(SANS)
def test_dense_by_hand():
    """The characters 0, 1, A and the euro sign have the numbers 30 to 33."""
    strike = mkstrike.Font(SANS).strike(16, "30-31,41,20ac")
    with warnings.catch_warnings():
        warnings.simplefilter("error")
        text = strike.encode("gfx", name="few", dense=True).decode()
    assert re.findall(r"/\* (0x.*) \*/", text) == ["0x30: U+0030 0", "0x31: U+0031 1", "0x32: U+0041 A", "0x33: U+20AC"]
    assert "0x30, 0x33, %d};" % strike.height in text
    with pytest.warns(UserWarning,
                      match=r"8313 of the 8317 entries of few are empty, .*; dense=True \(--dense\) numbers the characters "
                            r"without gaps"):
        strike.encode("gfx", name="few")


@CC
@needs_pillow
@needs_font(SANS, MONO)
@pytest.mark.parametrize("path, size, chars", [(SANS, 16, "20-7e,a1-ff,20ac,2190-2193,1f600"), (MONO, 12, "9,41,4e00,2500-257f")])
def test_dense(tmp_path, path, size, chars):
    """Drawn as Adafruit GFX does, a font without gaps is the sheet, also past U+FFFF."""
    strike = mkstrike.Font(path).strike(size, chars)
    text = strike.encode("gfx", name="small", dense=True).decode()
    assert drawn(tmp_path, text, DRAW_GFX, strike, GFXFONT).tobytes() == strike.sheet().tobytes()
    assert text.count("/* 0x") == len(strike)


@needs_font(SANS)
def test_dense_without_gaps():
    """Without gaps the numbers are the characters."""
    strike = mkstrike.Font(SANS).strike(16, "ascii")
    dense = strike.encode("gfx", name="a", dense=True).decode()
    assert re.sub(r"0x..: ", "", dense) == strike.encode("gfx", name="a").decode()


@needs_font(SANS)
def test_limits_of_dense():
    """The last number is at most FFFF."""
    strike = mkstrike.Font(SANS).strike(16, "fffd,1f600").replace({"\ufffe": SMALL["A"]})
    assert ", 0xFFFD, 0xFFFF, " in strike.encode("gfx", dense=True).decode()
    with pytest.raises(ValueError, match="up to U\\+FFFF"):
        strike.replace({"\U0001f601": SMALL["A"]}).encode("gfx", dense=True)


# ---- the underline

def font_with(post, em=2048):
    """A font of two tables: `head` says the units of an em, `post` the place of the underline and its thickness."""
    tables = {b"head": bytes(18) + struct.pack(">H", em) + bytes(34), b"post": bytes(8) + post}
    data, at = struct.pack(">IHHHH", 0x10000, len(tables), 0, 0, 0), 12 + 16 * len(tables)
    for tag, table in tables.items():
        data += tag + struct.pack(">III", 0, at, len(table))
        at += len(table)
    return data + b"".join(tables.values())


@pytest.mark.parametrize("post, em, size, due", [
    (struct.pack(">hh", -130, 90), 2048, 16, (-1, 1)),  # -1.02 and 0.70 pixels
    (struct.pack(">hh", -192, 200), 2048, 16, (-1, 2)),  # -1.5 and 1.56: halves go up
    (struct.pack(">hh", -193, 64), 2048, 16, (-2, 1)),  # -1.51 and 0.5
    (struct.pack(">hh", -100, 50), 1000, 100, (-10, 5)),
    (struct.pack(">hh", 0, 1), 1000, 16, (0, 1)),  # never thinner than a row
    (struct.pack(">hh", -100, 0), 1000, 16, None), (struct.pack(">hh", -100, -5), 1000, 16, None),
    (struct.pack(">hh", -100, 50), 0, 16, None), (b"\xff\x00\x00", 1000, 16, None), (b"", 1000, 16, None)])
def test_underline_by_hand(post, em, size, due):
    assert underline(font_with(post, em), 0, size) == due


@needs_font(SANS, MONO, LIBERATION)
@needs_fonttools
@pytest.mark.parametrize("path", [SANS, MONO, LIBERATION])
@pytest.mark.parametrize("size", [9, 16, 33])
def test_underline_of_fonts(path, size):
    """Place and thickness are those that fontTools reads, rounded, through every step."""
    from fontTools.ttLib import TTFont
    font = TTFont(path)
    em = font["head"].unitsPerEm
    due = round(font["post"].underlinePosition * size / em), max(round(font["post"].underlineThickness * size / em), 1)
    strike = mkstrike.Font(path).strike(size, "41-43", name="other", x11=True)
    for it in (strike, strike.subset("41"), strike.cell(20, 40), mkstrike.merge([strike, SMALL]) if size == 9 else strike,
               strike.with_properties({"A": 1})):
        assert it.underline == due
        text = it.encode("lvgl").decode()
        assert ", .underline_position = %d, .underline_thickness = %d, .dsc = &" % due in text


def test_underline_of_other_strikes():
    """The properties of X11 have rows below the baseline. A strike that says nothing has no field, nor has one that LVGL's can't
    hold."""
    assert SMALL.underline is None and "underline" not in SMALL.encode("lvgl").decode()
    for position, thickness, due in ((2, 1, (-2, 1)), (-3, 2, (3, 2)), (128, 127, (-128, 127)), (129, 1, None), (-128, 1, None),
                                     (1, 128, None), (1, 0, None),
                                     ("x", 1, None), (1, "x", None)):
        strike = SMALL.with_properties({"UNDERLINE_POSITION": position, "UNDERLINE_THICKNESS": thickness})
        text = strike.encode("lvgl").decode()
        assert (".underline_position = %d, .underline_thickness = %d, " % due in text) if due else "underline" not in text


@CC
@needs_pillow
@needs_font(SANS)
def test_lvgl_compiles(tmp_path):
    """The fields are those of LVGL's struct, in its order."""
    strike = mkstrike.Font(SANS).strike(16, "20-7e,20ac")
    (tmp_path / "lvgl.h").write_text(LVGL)
    text = strike.encode("lvgl", name="small").decode()
    assert drawn(tmp_path, text, DRAW_LVGL.replace("%", "%%") % (), strike,
                 "#define LV_LVGL_H_INCLUDE_SIMPLE\n").tobytes() == strike.sheet().tobytes()
    assert ".underline_position = " in text
