"""How a font looks at sizes, and sizes by the rows that they give."""
import os
import re

import pytest
from shared import FOLDER, LIBERATION, MONO, SANS, needs_font, needs_pillow

import mkstrike
from mkstrike.glyph import Glyph
from mkstrike.looks import largest, parts, points, told


@pytest.mark.parametrize("picture, count", [
    (".", 0), ("#", 1), ("##\n##", 1), ("#.#", 2), ("#\n.\n#", 2), ("#.\n.#", 1), (".#\n#.",
     1), ("#..\n..#", 2), ("##..\n..##", 1), ("..##\n##..", 1), ("##...\n...##", 2),
    ("#.#\n###", 1), ("###\n#.#", 1), ("###\n#.#\n###", 1), ("#.#.#\n.#.#.",
     1), ("#.#.#\n.....\n#.#.#", 6), ("#...#\n#.#.#\n#...#", 3), ("#...#\n#.#.#\n#####", 1),
    ("#####\n#...#\n#.#.#\n#...#\n#####", 2), ("##.##.##\n########\n...##...\n........\n##....##", 3), ("#..#\n.##.\n#..#", 1)])
def test_parts_by_hand(picture, count):
    """Pixels that touch, also at a corner, are in one part."""
    assert parts(Glyph.drawn(picture)) == count


@needs_font(SANS, MONO)
@pytest.mark.parametrize("path, chars", [(SANS, "41"), (SANS, "69,6a,3a,3d,21,3f,22"), (MONO, "25,e4,f7,2026")])
def test_parts_of_letters(path, chars):
    """A is one part, i, j and signs of two strokes are two, the percent sign is three, as are ä, ÷ and the ellipsis."""
    due = {"A": 1, "%": 3, "ä": 3, "÷": 3, "…": 3}
    for char, glyph in mkstrike.Font(path).strike(64, chars).items():
        assert parts(glyph) == due.get(char, 2), char


@pytest.mark.parametrize("path, counts", [
    (LIBERATION, (41, 10, 14, 16, 17)), (FOLDER + "liberation/LiberationSans-Regular.ttf", (13, 9, 17, 5, 7)),
    (MONO, (0, 2, 6, 1, 2)), (SANS, (0, 1, 0, 1, 2)), (FOLDER + "noto/NotoSans-Regular.ttf", None),
    (FOLDER + "roboto/unhinted/RobotoTTF/Roboto-Regular.ttf", None)])
def test_letters_that_fall_apart(path, counts):
    """Of the 62 letters and digits; drop-out control leaves none. What it names has a row or a column without a pixel, or more
    parts."""
    if not os.path.exists(path):
        pytest.skip("%s is not installed" % path)
    font = mkstrike.Font(path)
    found = font.looks((8, 10, 12, 14, 16))
    assert {it.letters for it in found} == {62} and {it.apart for it in found} == {""}
    assert counts in (None, tuple(len(it.apart_without) for it in found))
    for look in found:
        plain, whole = (font.at(look.size, dropout=it) for it in (False, "font"))
        assert (look.width, look.height) == (max(it.advance for it in plain.glyphs("30-39,41-5a,61-7a").values()), plain.height)
        for char in look.apart_without:
            assert parts(plain[char]) > parts(whole[char]) or not plain[char].width, char


@needs_font(SANS)
def test_ways():
    """The ways of drawing, and characters that the font lacks or refuses, which don't count."""
    font = mkstrike.Font(SANS)
    (off,), (left,) = (font.looks([8], "41-5a", hinted=False, dropout=it) for it in (False, "left"))
    assert off.apart == off.apart_without == left.apart_without and off.apart and not left.apart
    (few,) = font.looks([16], "41,4e00,19c", text="é")
    assert few.letters == 2
    assert font.looks([], "41") == [] and font.looks([16], "4e00")[0] == (16, 0, 19, 0, "", "")
    assert told(few, "font") == "16: cell 11 x 19, 0 of 2 fall apart, 0 without drop-out control"
    assert told(off, False) == "8: cell 8 x 9, %d of 26 fall apart" % len(off.apart)


def test_blank_letters_fall_apart():
    """A letter without a pixel at a size has fallen apart, a space has not."""
    class Drawn:
        """A font that draws pictures by size."""

        def at(self, size, **_):
            self.size = size
            return self

        def glyphs(self, codes):
            return {char: Glyph.drawn(by_size[self.size > 100]) for char,
                    by_size in (("a", (".", "#")), (" ", (".", ".")), ("i", ("#.#", "#.#")), ("l", ("#.#", "#")))}

        def heights(self, size):
            return 5, 2, 9

    from mkstrike.looks import looks
    assert looks(Drawn(), [8], [], True, "font") == [(8, 3, 7, 4, "al", "al")]


@needs_font(SANS)
@needs_pillow
def test_sheet():
    """The picture has what is said of each size, in the font at 12 pixels, above the text at that size."""
    font = mkstrike.Font(SANS)
    made = font.sheet([9, 16], "Ag 一1", "41-5a", scale=2)
    due, top = [], 4
    for look in font.looks([9, 16], "41-5a"):
        for striker, text in ((font.at(12), told(look, "font")), (font.at(look.size), "Ag 1")):
            picture = striker.line(text)
            due.append((picture.crop((4, 4, picture.width - 4, picture.height - 4)), top))
            top += picture.height - 8
        top += 8
    assert made.size == (2 * (8 + max(it.width for it, _ in due)), 2 * (top - 4))
    small = made.resize((made.width // 2, made.height // 2))
    for picture, at in due:
        assert small.crop((4, at, 4 + picture.width, at + picture.height)).tobytes() == picture.tobytes()
    only = font.sheet([9], "Ag", "41", hinted=False, dropout=False)
    assert only.size[1] == 8 + font.at(12).height + font.at(9).height


# ---- sizes by rows

@needs_font(SANS, MONO, LIBERATION)
@pytest.mark.parametrize("path", [SANS, MONO, LIBERATION])
@pytest.mark.parametrize("rows", [1, 5, 9, 16, 40])
@pytest.mark.parametrize("how", [{}, {"hinted": False}, {"dropout": False}])
def test_sizes_for_rows(path, rows, how):
    """The size is the largest whose line, or whose H, has no more rows: the next one has more."""
    font = mkstrike.Font(path)
    size = font.size_for(height=rows, **how)
    assert sum(font.heights(size)[:2]) <= rows < sum(font.heights(size + 1)[:2])
    size = font.size_for(cap_height=rows, **how)
    assert font.glyph(size, "H", **how).height <= rows < font.glyph(size + 1, "H", **how).height


@needs_font(SANS)
def test_sizes_by_hand():
    """DejaVu Sans: ascender 1901, descender 483, H of 1493 units, of 2048 an em. At 13 pixels a line has 12 and 3 rows, at 14 13
    and 3, at 15 14 and 4; an H 10, 10 and 11 rows."""
    font = mkstrike.Font(SANS)
    assert [font.size_for(height=it) for it in (15, 16, 17, 18)] == [13, 14, 14, 15]
    assert [font.size_for(cap_height=it, hinted=False) for it in (9, 10, 11)] == [13, 14, 15]


@needs_font(SANS)
def test_limits_of_sizes():
    font = mkstrike.Font(SANS)
    for given, match in (({"height": 0}, "^there are no 0 rows"), ({"cap_height": -1}, "^there are no -1 rows")):
        with pytest.raises(ValueError, match=match):
            font.size_for(**given)
    for given in ({}, {"height": 1, "cap_height": 2}, {"height": "16"}, {"cap_height": 9.5}):
        with pytest.raises(TypeError):
            font.size_for(**given)
    assert largest(5, 512, lambda size: 6 - (size == 1)) == 1 and largest(2000, 512, lambda size: size) == 1024
    with pytest.raises(ValueError, match="^at each size there are more than 5 rows"):
        largest(5, 512, lambda size: 6)
    with pytest.raises(ValueError, match="^there are no 5 rows"):
        largest(5, 0, lambda size: 6)


@pytest.mark.parametrize("text, due", [("12pt@96", 16), ("12pt@72", 12), ("10.5pt@96", 14), ("8pt@100", 11), ("9pt@100dpi", 13),
                                       ("9pt@141", 18), ("7pt@75", 7)])
def test_points(text, due):
    """Points times the resolution, divided by 72, rounded: 8 * 100 / 72 is 11.1, 9 * 100 / 72 12.5, 9 * 141 / 72 17.6, 7 * 75 / 72
    7.3."""
    assert points(text) == due


@pytest.mark.parametrize("text", ["12pt", "12", "12pt@", "pt@96", "12pt@96x", "12 pt@96", "-12pt@96", "12pt@9.6", "1.pt@96",
                                  "\u0661pt@96"])
def test_wrong_points(text):
    with pytest.raises(ValueError,
                       match="^points are given with the resolution in dots an inch, as 12pt@96, not '%s'$" % re.escape(text)):
        points(text)
