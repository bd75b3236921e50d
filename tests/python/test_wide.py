"""Cells for terminals: two for the characters to which a terminal gives two."""
import pytest
from shared import MONO, needs_font, pixels, run_in_process
from test_layouts import SMALL

import mkstrike
from mkstrike.cell import _outside, halved, is_wide


@pytest.mark.parametrize("char, due", [("A", False), ("é", False), ("─", False), ("█", False), ("一", True), ("あ", True),
                                       ("ｱ", False), ("Ａ", True), ("한", True),
                                       ("😀", True), ("😐", True), ("☃", False), ("\u3000", True), ("α", False), ("\U00020000", True),
                                       ("€", False)])
def test_which_are_wide(char, due):
    """Wide and full-width characters; half-width ones, those that are wide in East Asian fonts alone, and all others are not."""
    assert is_wide(ord(char)) == due


@pytest.mark.parametrize("left", range(-3, 4))
@pytest.mark.parametrize("columns", [1, 2, 5, 8, 9])
@pytest.mark.parametrize("width", [2, 3, 4])
def test_halves(left, columns, width):
    """A half box leaves a cell exactly if the whole one leaves two."""
    box = columns, 3, left, 0, columns + left
    assert any(_outside(halved(box)[:4], width, 5, 5)) == any(_outside(box[:4], 2 * width, 5, 5))
    assert (halved(box)[4] <= width) == (box[4] <= 2 * width)


GLYPHS = {"A": mkstrike.Glyph.drawn("####\n####"), "一": mkstrike.Glyph.drawn("#########"),
          "あ": mkstrike.Glyph.drawn("##########\n#........#", left=-1)}


def test_cells_by_hand():
    """In cells of 4 columns the letter fits one; of 9 columns one is outside two cells, and clipped there."""
    strike = SMALL.subset("").replace(GLYPHS)
    cells = strike.cell(4, 9, wide=True)
    assert {char: it.advance for char, it in cells.items()} == {"A": 4, "一": 8, "あ": 8}
    assert cells.outside == {"一": (0, 0, 0, 1), "あ": (0, 0, 1, 1)} and (cells["A"].swidth, cells["一"].swidth) == (444, 889)
    clipped = strike.cell(4, 9, wide=True, clip=True)
    assert str(clipped["一"]) == "########" and (str(clipped["あ"]), clipped["あ"].left) == ("########", 0)
    assert {it.advance for it in strike.cell(4, 9).values()} == {4} and strike.cell(5, 9, wide=True).outside == {"あ": (0, 0, 1, 0)}


@needs_font(MONO)
def test_fit(tmp_path):
    """--fit looks at two cells for a wide character: a smiley of DejaVu Sans Mono that is wide does not make the letters
    smaller."""
    font = mkstrike.Font(MONO)
    has = [code for code in font.characters() if is_wide(code)]
    assert has
    narrow, wide = (font.fit(8, 16, [*range(0x41, 0x5B), *has], wide=it) for it in (False, True))
    letters = font.fit(8, 16, range(0x41, 0x5B))
    assert narrow <= wide <= letters
    status, out, err = run_in_process([MONO, "--fit", "8x16", "--chars", "41-5a,%x" % has[0], "--wide", "-o", "a.bdf"], tmp_path)
    strike = mkstrike.Strike.open(tmp_path / "a.bdf")
    assert status == 0 and {it.advance for it in strike.values()} == {8, 16} and strike[has[0]].advance == 16
    assert not strike.outside and all(0 <= x < it.advance for it in strike.values() for x, _ in pixels(it))


@needs_font(MONO)
@pytest.mark.parametrize("words, said", [(["--wide"], "--wide is for --cell and --fit"),
                                         (["--wide", "--cell", "8x16", "--format", "psf"], "--wide is for"),
                                         (["--wide", "--cell", "8x16", "--format", "raw"], "not for raw")])
def test_what_has_no_wide_cells(tmp_path, words, said):
    status, _, err = run_in_process([MONO, *words], tmp_path)
    assert status == 2 and said in err
