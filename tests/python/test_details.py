"""Small facts that are easily lost: orders of cells, faces, names, sizes of other programs' strikes."""
import warnings

import pytest
from shared import LIBERATION, MONO, SANS, needs_font, needs_fonttools, run_in_process
from test_cells import OTHER
from test_font_files import collected

import mkstrike
from mkstrike import bdf

pytestmark = needs_font(SANS, MONO, LIBERATION)
# Code page 437 from its first place, as its table of IBM has it; a space stands where it has none, or what has no picture.
CP437 = (
    " ☺☻♥♦♣♠•◘○◙♂♀♪♫☼►◄↕‼¶§▬↨↑↓→←∟↔▲▼ !\"#$%&'()*+,-./0123456789:;<=>?@ABCDEFGHIJKLMNOPQRSTUVWXYZ[\\]^_`abcdefghijklmnopqrstuvwxyz"
    "{|}~⌂ÇüéâäàåçêëèïîìÄÅÉæÆôöòûùÿÖÜ¢£¥₧ƒáíóúñÑªº¿⌐¬½¼¡«»░▒▓│┤╡╢╖╕╣║╗╝╜╛┐└┴┬├─┼╞╟╚╔╩╦╠═╬╧╨╤╥╙╘╒╓╫╪┘┌█▄▌▐▀αßΓπΣσµτΦΘΩδ∞φε∩≡±≥≤⌠⌡÷"
    "≈°∙·√ⁿ²■ ")


def test_order_of_cells():
    """Each of the 256 cells has its own character: the strike has another picture for each."""
    count = len(CP437)
    assert count == 256
    drawn = {char: mkstrike.Glyph.drawn("".join(".#"[at >> k & 1] for k in range(8)) + "\n########", advance=8) for at,
             char in enumerate(CP437) if char != " "}
    strike = mkstrike.Font(SANS).strike(8, "20").replace(drawn).cell(8, 8, ascent=8)
    with warnings.catch_warnings():
        warnings.simplefilter("ignore")
        data = strike.encode("raw", order="cp437")
    for at, char in enumerate(CP437):
        due = bytes(6) + bytes([sum((at >> k & 1) << (7 - k) for k in range(8)), 255]) if char != " " else bytes(8)
        assert data[8 * at:8 * at + 8] == due, char


@needs_fonttools
def test_faces(tmp_path):
    """A face has its own names, also if the font is an installed one; one that is not there is refused."""
    collected(tmp_path / "two.ttc", SANS, LIBERATION)
    assert [mkstrike.Font(tmp_path / "two.ttc", face=it).names.family for it in (0, 1)] == ["DejaVu Sans", "Liberation Mono"]
    status, _, err = run_in_process(["two.ttc", "--face", "1", "--x11", "--chars", "41", "-o", "a.bdf"], tmp_path)
    assert status == 0 and mkstrike.Strike.open(tmp_path / "a.bdf").properties["FAMILY_NAME"] == "Liberation Mono", err


def test_names(tmp_path):
    """A name with a slash names no folder; one of 255 bytes is taken, one of 256 not; --dropout may be the last word."""
    status, out, _ = run_in_process([SANS, "--chars", "41", "--name", "a/b", "--dropout"], tmp_path)
    assert status == 0 and out == b"./DejaVuSans-left-16.bdf: 1 glyphs\n" and mkstrike.Strike.open(
        tmp_path / "DejaVuSans-left-16.bdf").name == "a/b"
    status, out, err = run_in_process([SANS, "--chars", "41", "--name", "x" * 255, "-o", "a.bdf"], tmp_path)
    assert status == 0 and mkstrike.Strike.open(tmp_path / "a.bdf").name == "x" * 255
    strike = mkstrike.Font(SANS).strike(16, "41")
    assert strike.named("y" * 255).name == "y" * 255
    for name in ("x" * 256, "", " x", "é"):
        with pytest.raises(mkstrike.Refused, match="^62 BadName"):
            strike.named(name)
        assert run_in_process([SANS, "--name=" + name, "-o", "b.bdf"], tmp_path)[0] == 2


def test_cells_by_the_command(tmp_path):
    """--fit looks at --ascent."""
    font = mkstrike.Font(MONO)
    for ascent in (10, 13):
        run_in_process([MONO, "--fit", "9x16", "--ascent", ascent, "--chars", "ascii", "-o", "a.bdf"], tmp_path)
        strike = mkstrike.Strike.open(tmp_path / "a.bdf")
        assert (strike.size, strike.ascent) == (font.fit(9, 16, "ascii", ascent=ascent), ascent)


@pytest.mark.parametrize("line, size", [("SIZE 12 75 75", 13), ("SIZE 12 100 100", 17), ("SIZE 16 72 72", 16), ("SIZE 12", 12)])
def test_sizes_of_others(line, size):
    """Points times the resolution, divided by 72 and rounded, without PIXEL_SIZE."""
    text = OTHER.replace(b"PIXEL_SIZE 13\r\n", b"").replace(b"SIZE 12 75 75", line.encode())
    assert mkstrike.Strike(text).size == size


def test_glyphs_by_hand():
    """Where a drawn glyph is, and its advance."""
    glyph = mkstrike.Glyph.drawn("..#\n...", left=2, bottom=5)
    assert (glyph.left, glyph.bottom, glyph.width, glyph.height, glyph.advance) == (4, 6, 1, 1, 5)
    strike = mkstrike.Font(SANS).strike(16, "41,19c,4e00").cell(4, 20)
    assert strike.missing and strike.refused and strike.outside
    by_number = strike.replace({0x4E00: glyph, 0x19C: glyph, 0x41: glyph})
    assert by_number == strike.replace({"一": glyph, "Ɯ": glyph, "A": glyph})
    assert (by_number.missing, by_number.refused, by_number.outside) == ((), {}, {})


def test_properties_twice():
    """Properties that were given stay, also if those of X11 are added again."""
    strike = mkstrike.Font(SANS).strike(16, "41-43").with_properties({"SPACING": "C", "FOUNDRY": "me"}, x11=True)
    twice = strike.with_properties({"CAP_HEIGHT": 12}, x11=True)
    assert (twice.properties["SPACING"], twice.properties["FOUNDRY"], twice.properties["CAP_HEIGHT"]) == ("C", "me", 12)
    assert mkstrike.Font(SANS).strike(16, "41-44").with_properties(x11=True).properties["SPACING"] == "P"


def test_wide_maps_of_lvgl():
    """A map of LVGL spans less than 65,536 code points."""
    for last, lengths in ((0x1001E, [65535]), (0x1001F, [1, 1])):
        strike = mkstrike.Font(SANS).strike(9, "20").replace({last: mkstrike.Glyph.drawn("#")})
        text = strike.encode("lvgl", name="a").decode()
        assert [int(it.split(",")[0]) for it in text.split(".range_length = ")[1:]] == lengths


def test_nothing_is_read_that_was_written(tmp_path, monkeypatch):
    """A strike in BDF is not read by the command that makes it, nor by its size, its count, and what is missing and refused."""
    def fail(*_):
        raise AssertionError("a text is read")

    monkeypatch.setattr(bdf, "parse", fail)
    status, out, err = run_in_process([SANS, LIBERATION, "--chars", "latin-1,19c,4e00", "--size", "9,12", "--out", "made"],
                                      tmp_path)
    assert status == 0 and out.count(
        b": 191 glyphs\n") == 4 and err.count("1 missing: U+4E00") == 1 and err.count("refused: U+019C") == 2
    strike = mkstrike.Font(SANS).strike(16, "41,19c,4e00")
    assert (strike.size, len(strike), strike.missing, list(strike.refused)) == (16, 1, ("一",), ["Ɯ"])


def test_fonts_are_let_go(tmp_path, monkeypatch):
    """One font is held at a time: each is closed before the next is opened."""
    import gc
    import weakref
    from mkstrike import jobs
    alive, most = [], []
    opened = jobs.Asked.opened

    def counted(self, read):
        gc.collect()
        most.append(sum(it() is not None for it in alive))
        font = opened(self, read)
        alive.append(weakref.ref(font))
        return font

    monkeypatch.setattr(jobs.Asked, "opened", counted)
    status, _, err = run_in_process([SANS, MONO, LIBERATION, "--size", "8,9", "--chars", "41", "--jobs", "1"], tmp_path)
    assert status == 0 and len(most) == 3 and max(most) == 0, (most, err)
