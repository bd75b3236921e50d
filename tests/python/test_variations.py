"""The suite's reference of variable fonts, beside fontTools' instancer; strikes of `axes`, beside the reference."""
import glob
import io
import sys

import pytest
from shared import TOP, needs_fonttools

import mkstrike

sys.path.append(TOP + "/suite")
from reference import outline, scan, variations  # noqa: E402
from reference.fontfile import Simple  # noqa: E402

FONTS = sorted(glob.glob("/usr/share/fonts/truetype/inter-vf/*-italic.var.ttf")
               + glob.glob("/usr/share/fonts/truetype/karla-variable/*.ttf"))
pytestmark = [needs_fonttools, pytest.mark.skipif(not FONTS, reason="no variable font (Debian: fonts-inter-variable, fonts-karla)")]


def static(path, values):
    """The font of fontTools at values of its axes."""
    from fontTools.ttLib import TTFont
    from fontTools.varLib import instancer
    font, made = TTFont(path), io.BytesIO()
    limits = {it.axisTag: values.get(it.axisTag, it.defaultValue) for it in font["fvar"].axes}
    instancer.instantiateVariableFont(font, limits, inplace=True, overlap=instancer.OverlapMode.KEEP_AND_DONT_SET_FLAGS).save(made)
    return TTFont(io.BytesIO(made.getvalue()))


def places(glyph):
    """The points of a glyph of the reference, or the arguments of its components."""
    if glyph is None:
        return []
    return [it[:2] for it in glyph.points] if isinstance(glyph, Simple) else [it.args for it in glyph.parts]


@pytest.mark.parametrize("path", FONTS)
def test_points(path):
    """Points, offsets and advances of an instance are those of fontTools, which adds up floats."""
    varied, font = variations.Varied(open(path, "rb").read(), {"wght": 650}), static(path, {"wght": 650})
    glyf, order = font["glyf"], font.getGlyphOrder()
    for number in range(0, len(order), 7):
        glyph, _, advance = varied.moved(number)
        due = glyf[order[number]]
        parts = due.components if due.isComposite() else []
        assert places(glyph) == ([(it.x, it.y) if hasattr(it, "x") else (it.firstPt, it.secondPt) for it in parts]
                                 or [tuple(it) for it in getattr(due, "coordinates", [])]), order[number]
        assert advance == font["hmtx"][order[number]][0]


@pytest.mark.parametrize("path", FONTS[:2])
def test_pixels(path):
    """The glyphs of a strike of `axes` are those of the reference."""
    values = {"wght": 650}
    drawn = mkstrike.Font(path, axes=values).strike(16, "41-5a,61-7a", hinted=False, dropout=None)
    varied, numbers = variations.Varied(open(path, "rb").read(), values), mkstrike.Font(path).glyph_ids("41-5a,61-7a")
    maker = outline.Maker(varied, 16, False)
    for char, number in numbers.items():
        points, on, ends, _ = maker.outline(number)
        glyph, bits = drawn[char], scan.bits(scan.pieces_of(points, on, ends))
        assert {(glyph.left + k, glyph.bottom + glyph.height - 1 - row) for row in range(glyph.height)
                for k in range(glyph.width) if glyph[row][k]} == set(bits), char
