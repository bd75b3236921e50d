"""What tests/lib/due.py says of right and of wrong answers, and the texts that it makes, each worked out by hand."""
import collections

import due
import pytest
from due import NO_BITS, Bits, Counted, Cut, Due, Ends, FewCalls, Glyph

LINE, ADVICE = b"mkstrike: glyphs 1 missing 0 strays 0 steps 0\n", b"mkstrike: try --dropout\n"
WHOLE, LEFT = Due(0, LINE, b"abcdef\n"), b"mkstrike: left U+0041: 33 UnknownOpcode\n"
CUT, CUT_LINE = Cut.of(Due(0, LEFT + LINE, b"abcdef")), b"mkstrike: 70 WriteFailed 3\n"
GLYPHS = b"STARTFONT 2.1\nSIZE 9\nCHARS 2\n" + 2 * b"STARTCHAR a\nENCODING 9\nBBX 1 1 0 0\nBITMAP\n80\nENDCHAR\n" + b"ENDFONT\n"
TOLD = b"mkstrike: glyphs 2 missing 1 strays %s steps %s\n"
PLAIN, HINTED = Counted(2, 1, False), Counted(2, 1, True, LEFT)
# What is due, an answer, and the first words of what is wrong with it, or None.
ANSWERS = [
    (WHOLE, (0, b"abcdef\n", LINE), None), (WHOLE, (0, b"abcdef\n", LINE + ADVICE), None),
    (WHOLE, (0, b"abcdef\n", LINE + 2 * ADVICE), None),
    (WHOLE, (1, b"abcdef\n", LINE), "status 1, and 0 is due"), (WHOLE, (0, b"abcdef\n", ADVICE + LINE), "the line"),
    (WHOLE, (0, b"abcdef\n", LINE + 3 * ADVICE), "the line"), (WHOLE, (0, b"abcdef\n", LINE[:-1]), "the line"),
    (WHOLE, (0, b"abcdef\n", b""), "the line"), (WHOLE, (0, b"abcdef\n", LINE + CUT_LINE), "the line"),
    (WHOLE, (0, b"abcdef\n", LINE + LINE), "the line"), (WHOLE, (0, b"abcdef\n", LINE + due.USAGE), "the line"),
    (WHOLE, (0, b"abcdef\n", LINE + LEFT), "the line"), (WHOLE, (0, b"abcdef\n", LINE + b"mkstrike: try\ttabs\n"), "the line"),
    (WHOLE, (0, b"abXdef\n", LINE), "output of 7 bytes, and 7 are due; from byte 2, in line 1: b'Xdef\\n', and b'cdef\\n' is due"),
    (WHOLE, (0, b"abcdef\n\n", LINE), "output of 8 bytes, and 7 are due; from byte 7, in line 2: b'\\n', and b'' is due"),
    (WHOLE, (0, b"abc", LINE), "output of 3 bytes"), (WHOLE, (0, b"", LINE), "output of 0 bytes"),
    (Ends(0, LINE, b"def\n"), (0, b"abcdef\n", LINE), None), (Ends(0, LINE, b"def\n"), (0, b"def\n", LINE), None),
    (Ends(0, LINE, b"def\n"), (0, b"def\nabc\n", LINE), "output of 8 bytes"),
    (Ends(0, LINE, b"def\n"), (0, b"ef\n", LINE), "output of 3 bytes"),
    (Ends(0, LINE, b"def\n"), (1, b"def\n", LINE), "status 1"), (Ends(0, LINE, b"def\n"), (0, b"def\n", ADVICE), "the line"),
    (CUT, (1, b"abc", LEFT + CUT_LINE), None), (CUT, (1, b"", LEFT + b"mkstrike: 70 WriteFailed 0\n"), None),
    (CUT, (1, b"abcdef", LEFT + b"mkstrike: 70 WriteFailed 6\n"), "an output of 6 bytes of 6: it did not fail"),
    (CUT, (1, b"abcdefg", LEFT + b"mkstrike: 70 WriteFailed 7\n"), "an output of 7 bytes of 6"),
    (CUT, (1, b"aXc", LEFT + CUT_LINE), "output of 3 bytes, and 3 are due; from byte 1"),
    (CUT, (1, b"ab", LEFT + CUT_LINE), "the line"),
    (CUT, (0, b"abc", LEFT + CUT_LINE), "status 0, and 1 is due"), (CUT, (1, b"abc", CUT_LINE), "the line"),
    (CUT, (1, b"abc", LEFT + LINE + CUT_LINE), "the line"),
    (FewCalls(WHOLE, 2), (0, b"abcdef\n", LINE, 2), None),
    (FewCalls(WHOLE, 2), (0, b"abcdef\n", LINE, 3), "the system was called 3 times to write, and at most 2 are due"),
    (FewCalls(WHOLE, 2), (0, b"abc", LINE, 2), "output of 3 bytes"), (FewCalls(WHOLE, 2), (1, b"abcdef\n", LINE, 2), "status 1"),
    (PLAIN, (0, GLYPHS, TOLD % (b"0", b"0")), None), (PLAIN, (0, GLYPHS, TOLD % (b"0", b"0") + ADVICE), None),
    (HINTED, (0, GLYPHS, LEFT + TOLD % (b"12", b"34")), None), (HINTED, (0, GLYPHS, LEFT + TOLD % (b"0", b"1")), None),
    (HINTED, (0, GLYPHS, LEFT + TOLD % (b"0", b"0")), "status 0 and the line"),
    (HINTED, (0, GLYPHS, TOLD % (b"0", b"1")), "status 0 and"),
    (PLAIN, (0, GLYPHS, TOLD % (b"1", b"0")), "status 0 and"), (PLAIN, (0, GLYPHS, TOLD % (b"0", b"1")), "status 0 and"),
    (PLAIN, (1, GLYPHS, TOLD % (b"0", b"0")), "status 1 and"), (PLAIN, (0, GLYPHS, ADVICE + TOLD % (b"0", b"0")), "status 0 and"),
    (PLAIN, (0, GLYPHS, TOLD.replace(b"missing 1", b"missing 2") % (b"0", b"0")), "status 0 and"),
    (PLAIN, (0, GLYPHS, TOLD.replace(b"glyphs 2", b"glyphs 1") % (b"0", b"0")), "status 0 and"),
    *((PLAIN, (0, GLYPHS.replace(*words), TOLD % (b"0", b"0")), "a text of [") for words in (
        (b"BBX 1", b"BBY 1", 1), (b"ENCODING", b"CODE", 1), (b"STARTCHAR", b"START", 1), (b"ENDCHAR\n", b"END\n", 1),
        (b"CHARS 2", b"CHARS 3"),
        (b"STARTFONT 2.1", b"STARTFONT 2.2"), (b"ENDFONT\n", b"ENDFONT"), (b"SIZE 9\n", b"SIZE 9\nBBX 1\n"))),
    (due.usage(), (2, b"", b"mkstrike: usage\n"), None), (due.usage(), (1, b"", b"mkstrike: usage\n"), "status 1, and 2 is due"),
    (due.refused("60 BadSize"), (1, b"", b"mkstrike: 60 BadSize\n"), None),
    (due.refused("60 BadSize"), (1, b"x", b"mkstrike: 60 BadSize\n"), "output of 1 bytes"),
    (due.halted("32 BadOpcode", "prep", "glyph 3", 7, 0x2F),
     (1, b"", b"mkstrike: 32 BadOpcode during prep in glyph 3 at 7 opcode 2F\n"), None),
    (due.listed(["a", "bc"]), (0, b"a\nbc\n", b""), None),
]


@pytest.mark.parametrize("number", range(len(ANSWERS)))
def test_answers(number):
    """What is wrong with an answer."""
    it, answer, said = ANSWERS[number]
    found = it.wrong(answer)
    assert found is None if said is None else found and found.startswith(said), found


def test_difference():
    """60 bytes are shown from where an output begins to differ."""
    assert due.difference(b"a\n" + b"x" * 99, b"a\n" + b"z" * 61).endswith(
        "from byte 2, in line 2: %r, and %r is due" % (b"x" * 60, b"z" * 60))


def test_own_lines():
    """Lines for people are left out at the end, and nowhere else."""
    told = [due.own_lines(it) for it in (LINE, LINE + ADVICE, LINE + 2 * ADVICE, ADVICE + LINE, b"")]
    assert told == [LINE, LINE, LINE, ADVICE + LINE, b""]


def test_numbers():
    """The centre of pixel p is at 64 p + 32."""
    assert [due.first_from(it) for it in (-97, -96, -32, -31, 0, 32, 33, 96, 97)] == [-2, -2, -1, 0, 0, 0, 1, 1, 2]
    assert [due.last_until(it) for it in (-97, -96, -33, -32, 31, 32, 95, 96)] == [-3, -2, -2, -1, -1, 0, 0, 1]


@pytest.mark.parametrize("case", [
    ([(0, 0, 64, 64)], (1, 1, 0, 0), [1]), ([(0, 0, 128, 64), (64, 64, 128, 128)], (2, 2, 0, 0), [3, 1]), ([], (0, 0, 0, 0), []),
    ([(32, 32, 32, 32)], (1, 1, 0, 0), [1]), ([(33, 0, 95, 64)], (0, 0, 0, 0), []), ([(0, 33, 64, 95)], (0, 0, 0, 0), []),
    ([(-64, -64, 0, 0)], (1, 1, -1, -1), [1]), ([(0, 0, 64, 64), (128, 128, 192, 192)], (3, 3, 0, 0), [4, 0, 1]),
    ([(64, 0, 256, 64), (33, 0, 64, 64)], (3, 1, 1, 0), [7]),
])
def test_bits(case):
    """The pixels of rectangles."""
    boxes, box, rows = case
    found = due.bits_of(boxes)
    assert (found.box, found.rows) == (box, rows)


def test_glyph_lines():
    """A glyph of six pixels' advance, at sixteen pixels an em: 6000 / 16 = 375 thousandths."""
    assert due.glyph_lines(0x41, "1 1 0 0", "80") == (
        "STARTCHAR uni0041\nENCODING 65\nSWIDTH 375 0\nDWIDTH 6 0\nBBX 1 1 0 0\nBITMAP\n80\nENDCHAR\n")
    assert "\nSWIDTH 1000 0\nDWIDTH 16 0\n" in due.glyph_lines(0x41, "0 0 0 0", swidth=1000, dwidth=16)


def test_rows():
    """Rows in hexadecimal and as pictures, from the top; the box of all boxes; names."""
    assert due.row_lines(Bits(0, 0, 9, [0b100000001, 0b10])) == ["0100", "8080"] and due.row_lines(Bits(0, 0, 8, [1])) == ["01"]
    assert due.picture(Bits(0, 0, 3, [0b100, 0b011])).out == b".##\n#..\n" and due.picture(NO_BITS).out == b"empty\n"
    assert due.hull([(1, 1, 0, 0), (0, 0, 9, 9), (2, 3, -1, 4)]) == (2, 7, -1, 0) and due.hull([(0, 0, 9, 9)]) == (0, 0, 0, 0)
    assert due.hull([(1, 2, 5, -3), (4, 1, 2, 2)]) == (4, 6, 2, -3)
    assert [due.name_of(it) for it in (0x41, 0xFFFF, 0x10000, 0x10FFFF)] == ["uni0041", "uniFFFF", "u10000", "u10FFFF"]


X11 = ['FAMILY_NAME "strike"', 'WEIGHT_NAME "Medium"', 'SLANT "R"', "PIXEL_SIZE 10", "POINT_SIZE 100", "RESOLUTION_X 72",
       "RESOLUTION_Y 72", 'SPACING "P"', "AVERAGE_WIDTH 55", 'CHARSET_REGISTRY "ISO10646"', 'CHARSET_ENCODING "1"']


def test_properties():
    """What X11 has of a strike: a name of 15 fields, widths that differ, are alike, below 0 and none, and the default character."""
    assert due.x11_properties("strike", 10, {0x41: 5, 0x42: -6}) == X11
    named = due.x11_properties('-a-b"c-Bold-I' + "-x" * 10, 16, {0x20: 8, 0xFFFD: 8})
    assert named[:5] == ['FAMILY_NAME "b""c"', 'WEIGHT_NAME "Bold"', 'SLANT "I"', "PIXEL_SIZE 16", "POINT_SIZE 160"]
    assert named[7:9] + named[11:] == ['SPACING "M"', "AVERAGE_WIDTH 80", "DEFAULT_CHAR 65533"]
    assert due.x11_properties("-a-b-c" + "-x" * 11, 16, {})[:2] == ['FAMILY_NAME "b"', 'WEIGHT_NAME "c"']
    assert due.x11_properties("a-b-c" + "-x" * 12, 16, {})[1] == X11[1]
    assert due.x11_properties("a", 1, {})[7:] == ['SPACING "M"', "AVERAGE_WIDTH 0", *X11[9:]]
    assert due.x11_properties("a", 1, {0x20: 1, 0x21: 2})[11:] == ["DEFAULT_CHAR 32"]
    assert due.x11_properties("a", 1, {7: 1})[8] == "AVERAGE_WIDTH 10"
    found = [(0x41, Glyph(NO_BITS, 0, 320)), (0x42, Glyph(NO_BITS, 0, -384))]
    assert due.with_x11(["SLANT I", "FOO 1"], "strike", 10, found) == X11[:2] + X11[3:] + ["SLANT I", "FOO 1"]


STRIKE = """STARTFONT 2.1
FONT strike
SIZE 10 72 72
FONTBOUNDINGBOX 2 1 -1 3
STARTPROPERTIES 3
FONT_ASCENT 8
FONT_DESCENT 3
FOO 1
ENDPROPERTIES
CHARS 2
STARTCHAR uni0041
ENCODING 65
SWIDTH 300 0
DWIDTH 6 0
BBX 2 1 -1 3
BITMAP
40
ENDCHAR
STARTCHAR u10000
ENCODING 65536
SWIDTH 0 0
DWIDTH 0 0
BBX 0 0 0 0
BITMAP
ENDCHAR
ENDFONT
"""


def test_counted():
    """A strike has one glyph, if nothing else is said."""
    assert due.counted() == LINE and due.counted(2, 1, 3, 4) == TOLD % (b"3", b"4")


def test_strike():
    """A strike of two glyphs: its text, and its line with the counts of all."""
    font = collections.namedtuple("Font", "upem ascender descender")(2000, 1600, -500)
    found = [(0x41, Glyph(Bits(-1, 3, 2, [1]), 600, 383, 5, 1)), (0x10000, Glyph(NO_BITS, 0, 0, 7, 2))]
    it = due.strike(font, 10, found, 4, prelude=(20, 10), properties=["FOO 1"])
    assert (it.status, it.err, it.out.decode()) == (0, b"mkstrike: glyphs 2 missing 4 strays 13 steps 32\n", STRIKE)
    assert b"\nSTARTPROPERTIES 15\n" in due.strike(font, 10, found, 4, properties=["FOO 1", "BAR 2"], x11=True).out
