"""A font at a size: glyphs one by one and many at once, texts, the size for a cell."""
import pickle

import pytest
from shared import FOLDER, LIBERATION, MONO, SANS, Counted, flags, font_bytes, needs_font, needs_pillow, program

import mkstrike
from mkstrike import _library

SERIF = FOLDER + "liberation/LiberationSerif-Regular.ttf"
pytestmark = needs_font(SANS, MONO, LIBERATION)
MODES = [(hinted, dropout) for hinted in (True, False) for dropout in (None, "left", "near", "font")]


@pytest.mark.parametrize("hinted, dropout", MODES)
def test_glyphs(hinted, dropout):
    """Glyphs one by one, many at once, and by number are those of strikes."""
    font = mkstrike.Font(SANS)
    for size in (7, 20, 300):
        at, strike = font.at(size, hinted=hinted, dropout=dropout), font.strike(size, "20-ff,2603", hinted=hinted, dropout=dropout)
        assert at.glyphs("20-ff,2603,4e00") == dict(strike) and at.glyphs(text="g\n") == {"g": strike["g"]} and at.glyphs() == {}
        for char, number in font.glyph_ids("41-4a,e9,2603").items():
            one, same = at[char], at.glyph(number)
            assert one == strike[char] == font.glyph(size, char, hinted=hinted, dropout=dropout) and hash(one) == hash(strike[char])
            assert same.char is None and same.rows == one.rows and same.advance == one.advance


def test_mapping():
    """A font at a size is a mapping from the characters that the font has."""
    font = mkstrike.Font(SANS)
    at = font.at(16)
    assert at[0x67] == at["g"] and at.get("一") is None and at.get("gg") is None and "g" in at and 0x67 in at
    assert "一" not in at and "gg" not in at and None not in at and -1 not in at
    assert list(at) == list(font.glyph_ids("all")) and len(at) == len(font.characters())
    with pytest.raises(mkstrike.Missing, match=r"^there is no U\+4E00$"):
        at["一"]
    with pytest.raises(mkstrike.Refused, match="^30 StackUnder during glyph 350"):
        at["Ɯ"]
    every = at.glyphs("all")
    assert set(at) - set(every) == {"Ɯ", "ɐ"} and every["☃"] == at["☃"]
    assert (at.size, at.ascent, at.descent, at.line_gap, at.height,
            repr(at)) == (16, 15, 4, 0, 19, "<Striker 'DejaVuSans', 16 pixels>")
    assert pickle.loads(pickle.dumps(at))["g"] == at["g"]
    for number in (-1, 65536):
        with pytest.raises(ValueError, match="^number is"):
            at.glyph(number)


def test_sizes_are_kept(monkeypatch):
    """The font's programs run once for a size and for hinting or not, and few sizes are kept."""
    calls = Counted(monkeypatch).calls
    font = mkstrike.Font(SANS)
    for dropout in (False, True, "near"):
        font.glyph(16, "g", dropout=dropout)
        font.glyph_by_id(16, 74, dropout=dropout)
    assert calls == ["prepare", *["glyph_prepared", "glyph_by_id_prepared"] * 3]
    del calls[:]
    assert len(font.at(16).glyphs("20-7e,a0-17f")) > 200 and calls == ["glyphs_prepared"]
    for size in range(1, 101):
        font.glyph(size, "g", hinted=False)
    assert len(font._blocks) <= 32


def test_blocks_that_are_large(monkeypatch):
    """A block that does not fit the first words is asked for again."""
    monkeypatch.setattr(_library, "WORDS", 7)
    assert mkstrike.Font(SANS).glyph(16, "g") == mkstrike.Font(SANS).strike(16, "67")["g"]


@needs_pillow
@needs_font(SERIF)
def test_gaps_between_lines():
    """A font that asks for a row between two lines gets it, between the lines alone."""
    at = mkstrike.Font(SERIF).at(16)
    assert (at.ascent, at.descent, at.line_gap) == (14, 3, 1)
    assert at.measure("a\nb\nc")[1] == 3 * 17 + 2 and at.line("a\nb\nc").height == 3 * 17 + 2 + 8
    rows = at.blocks("a\na").split("\n")
    assert len(rows) == 18 and rows[:8] == rows[9:17]  # the lines are 18 rows of pixels apart, which are nine of the terminal


@needs_pillow
def test_texts():
    """What a text takes, and its picture, worked out from its glyphs; the same of a strike."""
    font = mkstrike.Font(LIBERATION)
    at, strike = font.at(16), font.strike(16, "latin-1")
    gap = font.heights(16)[2]
    assert at.measure("") == (0, 18) and at.measure("abc") == strike.measure("abc") == (30, 18)
    assert at.measure("ab\nabcd\r\n\nx") == (40, 4 * 18 + 3 * gap) and strike.measure("ab\nabcd") == (40, 36)
    for it in (at, strike):
        with pytest.raises(mkstrike.Missing, match=r"U\+4E00"):
            it.measure("一")
        assert it.measure("一a", missing="?") == (20, 18) and it.line("一a", missing="?").tobytes() == it.line("?a").tobytes()
        with pytest.raises(mkstrike.Missing, match=r"U\+4E01"):
            it.line("一", missing="丁")
    picture = at.line("Hj\nA")
    assert picture.size == (20 + 8, 36 + gap + 8)
    due = {(4 + place + glyph.left + x, 4 + base - glyph.top + y) for place, base,
           char in ((0, 13, "H"), (10, 13, "j"), (0, 13 + 18 + gap, "A"))
           for glyph in [strike[char]] for y, row in enumerate(glyph) for x, it in enumerate(row) if it}
    assert {(x, y) for x in range(picture.width) for y in range(picture.height) if not picture.getpixel((x, y))} == due


def test_half_blocks():
    """A line of a terminal has two rows of pixels: these are of an A and a space, worked out by hand."""
    drawn = mkstrike.Glyph.drawn(".#.\n#.#\n###\n#.#", advance=4)
    strike = mkstrike.Font(SANS).strike(4, "20", hinted=False).replace({"A": drawn})
    assert strike.box == (3, 4, 0, 0) and strike.blocks("A") == "▄▀▄\n█▀█" and strike.blocks("AA") == "▄▀▄ ▄▀▄\n█▀█ █▀█"
    odd = strike.replace({"A": mkstrike.Glyph.drawn("#\n#\n#")})
    assert odd.blocks("A") == "█\n▀" and odd.blocks("A A").split("\n")[0].replace(" ", "") == "██"
    with pytest.raises(ValueError, match="^a picture of .* one has at most 268,435,456$"):
        mkstrike.Font(SANS).at(1024).blocks("W" * 500)
    low = mkstrike.Font(LIBERATION).at(13)
    picture = low.blocks("Ä\ng").split("\n")
    assert sum(it.count("█") * 2 + it.count("▀") + it.count("▄") for it in picture) == sum(str(low[it]).count("#") for it in "Äg")


@pytest.mark.parametrize("path, chars, cell, ascent",
                         [(MONO, "latin-1", (8, 16), None), (LIBERATION, "latin-1", (8, 16), None), (SANS, "ascii", (9, 14), None),
                                                       (MONO, "ascii,box", (6, 12), 9), (SANS, "2e", (8, 6), None),
                                                       (MONO, "20ac", (30, 3), 3),
                                                       (SANS, "57", (5, 40), None)])
@pytest.mark.parametrize("hinted, dropout", [(True, False), (False, "left")])
def test_fit(path, chars, cell, ascent, hinted, dropout):
    """The size is the largest of all from 1 to 60 at which no glyph leaves the cell."""
    font = mkstrike.Font(path)
    fitting = [size for size in range(1, 61)
               if not font.strike(size, chars, hinted=hinted, dropout=dropout).cell(*cell, ascent=ascent).outside]
    assert font.fit(*cell, chars, hinted=hinted, dropout=dropout, ascent=ascent) == max(fitting)


def test_fit_of_nothing():
    """Blanks fit at any size, and some characters at none."""
    font = mkstrike.Font(SANS)
    for chars, match in (("20", "none of the characters has a pixel"), ("4e00", "none of the characters")):
        with pytest.raises(ValueError, match=match):
            font.fit(8, 16, chars)
    with pytest.raises(ValueError,
                       match=r"^at no size do all characters fit a cell of 1 x 1 pixels; at \d+ the fewest leave it, U"):
        font.fit(1, 1, "ascii", ascent=-5)
    for width, height in ((0, 16), (8, 1025)):
        with pytest.raises(ValueError, match="^a cell has 1 to 1024 columns and rows"):
            font.fit(width, height, "ascii")
    assert font.fit(8, 16, "41,19c,4e00") == font.fit(8, 16, "41")


def test_editing():
    """Fewer glyphs, other glyphs, and more."""
    strike = mkstrike.Font(SANS).strike(16, "20-7e,19c,4e00", x11=True)
    few = strike.subset("41-5a,e9,4e00", text="g")
    assert "".join(few) == "ABCDEFGHIJKLMNOPQRSTUVWXYZg" and few["g"] == strike["g"] and few.missing == ("é", "一")
    assert not few.refused
    assert list(strike.subset("all")) == list(strike) and set(strike.subset("41,19c").refused) == {"Ɯ"}
    assert few.box == (max(it.left + it.width for it in few.values()) - min(it.left for it in few.values()),
                       max(it.top for it in few.values()) - min(it.bottom for it in few.values()),
                       min(it.left for it in few.values()), min(it.bottom for it in few.values()))
    assert few.properties["AVERAGE_WIDTH"] == round(10 * sum(it.advance for it in few.values()) / 27)
    assert "DEFAULT_CHAR" in strike.properties
    text, number = mkstrike.Font(SANS).strike(16, "67").text, str(strike["g"])
    again = mkstrike.Glyph.drawn(number, left=strike["g"].left, bottom=strike["g"].bottom, advance=10)
    assert mkstrike.Font(SANS).strike(16, "67").replace({"g": again}).text.replace(b"SWIDTH 625 0", b"SWIDTH 635 0") == text
    more = strike.replace({"一": mkstrike.Glyph.drawn("..\n.#", left=3, bottom=-2, advance=7), "Ɯ": strike["W"]})
    assert (more["一"].width, more["一"].height, more["一"].left, more["一"].bottom, more["一"].advance,
            more["一"].swidth) == (1, 1, 4, -2, 7, 438)
    assert more.missing == () and not more.refused and more["Ɯ"].rows == strike["W"].rows and len(more) == 97
    assert b"STARTCHAR uni4E00\nENCODING 19968\nSWIDTH 438 0\nDWIDTH 7 0\nBBX 1 1 4 -2\nBITMAP\n80\nENDCHAR\n" in more.text
    assert mkstrike.Strike(more.text).text == more.text and more.parsed().encoded() == more.text
    blank = mkstrike.Glyph.drawn("..\n..", advance=3)
    assert (blank.width, blank.height, blank.advance, str(blank)) == (0, 0, 3, "")
    cell = strike.cell(9, 19)
    assert "W" in cell.outside and "W" not in cell.replace({"W": again}).outside and "W" not in cell.subset("41").outside


def test_many_glyphs_of_a_size():
    """All glyphs of a font are those of the program, also if their pixels don't fit the first buffer."""
    font = mkstrike.Font(SANS)
    many = font.at(250, hinted=False).glyphs("21-7e")
    status, out, _ = program(["make", "--ppem", "250", "--chars", "21-7e", *flags(hinted=False)], font_bytes(SANS))
    assert status == 0 and dict(mkstrike.Strike(out)) == many
    made = pytest.importorskip("made")
    data = made.Font([made.Empty(), made.Simple([(0, 0, 4000, 3000)])], {0x41: 1, 0x42: 1}, upem=1024).data()
    large = mkstrike.Font(data).at(1024, hinted=False).glyphs("41,42")
    assert large["A"].pixels.shape == (3000, 4000) and large["B"].tobytes() == large["A"].tobytes() == b"\xff" * 12000000
