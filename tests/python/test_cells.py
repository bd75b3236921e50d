"""Cells, merged strikes, and the text of strikes."""
import pytest
from shared import LIBERATION, MONO, SANS, needs_font, pixels

import mkstrike
from mkstrike import bdf

OTHER = b"""STARTFONT 2.1\r
COMMENT by another program\r
FONT -misc-fixed\r
SIZE 12 75 75\r
FONTBOUNDINGBOX 6 12 0 -2\r
STARTPROPERTIES 4\r
FONT_ASCENT 10\r
COMMENT "x"\r
WEIGHT_NAME "a ""b"" c"\r
PIXEL_SIZE 13\r
FONT_DESCENT 2\r
ENDPROPERTIES\r
CHARS 3\r
STARTCHAR none\r
ENCODING -1 7\r
SWIDTH 500 0\r
DWIDTH 6 0\r
BBX 6 1 0 0\r
BITMAP\r
fc\r
ENDCHAR\r
STARTCHAR letter A\r
ENCODING 65\r
SWIDTH 500 0\r
DWIDTH 6 0\r
BBX 5 2 1 -1\r
BITMAP\r
a8\r
50\r
ENDCHAR\r
STARTCHAR space\r
ENCODING 32\r
SWIDTH 500 0\r
DWIDTH 6 0\r
BBX 0 0 0 0\r
BITMAP\r
ENDCHAR\r
ENDFONT\r
"""


@pytest.mark.filterwarnings("ignore:the strike has no glyph")
@needs_font(SANS)
def test_texts_are_written_as_read():
    """What is read of the program's text is written as the same bytes."""
    for strike in (mkstrike.Font(SANS).strike(16, "20-2ff", x11=True, properties={"A": '"'}),
                   mkstrike.Font(SANS).strike(9, "4e00")):
        assert strike.parsed().encoded() == strike.text


def test_other_texts():
    """A text of another program."""
    strike = mkstrike.Strike(OTHER)
    assert (strike.size, strike.ascent, strike.descent, strike.name, strike.missing) == (13, 10, 2, "-misc-fixed", ())
    assert strike.properties == {"WEIGHT_NAME": 'a "b" c', "PIXEL_SIZE": 13}
    assert list(strike) == [" ", "A"] and str(strike["A"]) == "#.#.#\n.#.#." and (strike["A"].left, strike["A"].bottom) == (1, -1)
    for wrong in (b"", b"x", OTHER[:60], OTHER.replace(b"BBX 5 2", b"BBX 5 x"), OTHER.replace(b"a8", b"zz"),
                  OTHER.replace(b"BITMAP", b"BIT")):
        with pytest.raises(bdf.NotBdf):
            mkstrike.Strike(wrong).parsed()


@needs_font(MONO)
def test_cells():
    """One advance for all, and the glyphs that leave the cell."""
    strike = mkstrike.Font(MONO).strike(14, "ascii,box", x11=True)
    cell = strike.cell(8, 16)
    assert {it.advance for it in cell.values()} == {8} and cell.height == 16 and cell.ascent == strike.ascent
    assert cell.outside["─"] == (0, 0, 0, 1) and cell.outside["│"].below == 1 and "A" not in cell.outside
    assert all(pixels(cell[it]) == pixels(strike[it]) for it in strike)
    clipped = strike.cell(8, 16, clip=True)
    inside = {(x, y) for x in range(8) for y in range(-clipped.descent, clipped.ascent)}
    for char in strike:
        assert pixels(clipped[char]) == pixels(strike[char]) & inside
        assert not clipped[char].width or (any(r[0] for r in clipped[char]) and any(r[-1] for r in clipped[char]))
    assert clipped.outside == cell.outside and not clipped.cell(8, 16).outside
    assert cell.properties["SPACING"] == "M" and cell.properties["AVERAGE_WIDTH"] == 80
    assert cell["A"].swidth == 571


@needs_font(LIBERATION)
def test_rows_of_cells():
    """Where the baseline is in a cell that is higher or lower than a line."""
    strike = mkstrike.Font(LIBERATION).strike(16, "ascii,a2", properties={"SPACING": "C"}, x11=True)
    assert len({it.advance for it in strike.values()}) == 2
    assert [(it.ascent, it.descent) for it in (strike.cell(10, n) for n in (strike.height, 20, 21, 24, 16))] == [
        (13, 5), (14, 6), (14, 7), (16, 8), (12, 4)]
    cell = strike.cell(10, 20, ascent=17)
    assert (cell.ascent, cell.descent) == (17, 3) and cell["g"].bottom == strike["g"].bottom and cell.properties["SPACING"] == "C"
    assert strike.cell(4, 4, clip=True)["W"].width <= 4
    for width, height in ((0, 16), (8, 0), (2000, 16)):
        with pytest.raises(ValueError):
            strike.cell(width, height)


@needs_font(MONO, SANS, LIBERATION)
def test_merging():
    """The first strike that has a character gives it."""
    strikes = [mkstrike.Font(it).strike(16, "ascii,19c,250,2c8,2603,4e00", x11=True) for it in (LIBERATION, SANS, MONO)]
    merged = mkstrike.merge(strikes)
    for char in merged:
        assert merged[char] == next(it for it in strikes if char in it)[char]
    assert set(merged) == {char for it in strikes for char in it}
    assert merged.missing == ("一",) and "☃" in merged
    assert set(strikes[1].refused) == {"Ɯ", "ɐ"} and not merged.refused
    assert (merged.ascent, merged.descent) == (max(it.ascent for it in strikes), max(it.descent for it in strikes))
    assert merged.properties["SPACING"] == "P" and merged.name == strikes[0].name
    assert mkstrike.merge(strikes, name="all").name == "all"
    left, bottom = min(it.left for it in merged.values() if it.width), min(it.bottom for it in merged.values() if it.width)
    assert merged.box[2:] == (left, bottom)
    assert mkstrike.merge(strikes[:1]).text == strikes[0].text
    with pytest.raises(ValueError, match="^there is no strike to merge$"):
        mkstrike.merge([])


@needs_font(SANS, LIBERATION)
@pytest.mark.parametrize("turned", [False, True])
def test_lines_of_merged_strikes(turned):
    """Ascent and descent are the greatest, so that no two lines overlap, whichever strike is first."""
    strikes = [mkstrike.Font(it).strike(16, "ascii").cell(20, 30, ascent=ascent) for it, ascent in ((SANS, 25), (LIBERATION, 10))]
    merged = mkstrike.merge(strikes[::-1 if turned else 1])
    assert (merged.ascent, merged.descent) == (25, 20) and b"FONT_ASCENT 25\nFONT_DESCENT 20\n" in merged.text


@needs_font(SANS, LIBERATION)
def test_what_leaves_merged_cells():
    """`outside` of a merged strike is that of the strike that gave the glyph."""
    narrow, wide = (mkstrike.Font(SANS).strike(16, chars).cell(width, 20) for chars, width in (("41,57", 4), ("57,4d", 40)))
    assert set(narrow.outside) == {"A", "W"} and not wide.outside
    assert set(mkstrike.merge([wide, narrow]).outside) == {"A"} and set(mkstrike.merge([narrow, wide]).outside) == {"A", "W"}


def test_average_of_negative_widths():
    """AVERAGE_WIDTH is of the widths without their signs, as the X server has it."""
    strike = mkstrike.Strike(OTHER.replace(b"DWIDTH 6 0\r\nBBX 5", b"DWIDTH -6 0\r\nBBX 5"))
    assert strike["A"].advance == -6
    with pytest.warns(UserWarning, match="left out"):
        assert strike.with_properties(x11=True).properties["AVERAGE_WIDTH"] == 60


@needs_font(SANS, LIBERATION)
def test_merged_refusals():
    """What is refused everywhere stays refused."""
    merged = mkstrike.merge([mkstrike.Font(SANS).strike(16, it) for it in ("20-7e,19c", "250-260")])
    assert set(merged.refused) == {"Ɯ", "ɐ"}
    merged = mkstrike.merge([mkstrike.Font(it).strike(16, "41,19c,4e00") for it in (SANS, LIBERATION)])
    assert set(merged.refused) == {"Ɯ"} and merged.missing == ("一",) and list(merged) == ["A"]
