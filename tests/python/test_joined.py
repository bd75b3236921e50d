"""Several fonts in one strike: every glyph is its font's, by the command and by Python."""
import pytest
from shared import LIBERATION, MONO, SANS, needs_font, pixels, run_in_process

import mkstrike

pytestmark = needs_font(SANS, MONO, LIBERATION)
SYMBOLS = "2600-2604"


def by_both(folder, words, parts, **common):
    """The strike that the command makes, which is the one that Python makes of the same; and what is said."""
    status, out, err = run_in_process([*words, "-o", "out.bdf", "--name", "all"], folder)
    assert status == 0, err
    strike = mkstrike.Strike.open(folder / "out.bdf")
    assert strike.text == mkstrike.merge(parts, name="all", **common).text
    return strike, out.decode(), err


def test_text_and_icons(tmp_path):
    """Each font gives the characters of its own, at its size, with other numbers; the lines say how many."""
    mono, sans = mkstrike.Font(MONO), mkstrike.Font(SANS)
    words = ["--font", MONO, "--chars", "ascii", "--font", SANS, "--size", "20", "--chars", "2600-2604=e000,4e00"]
    strike, out, err = by_both(tmp_path, words, [(mono, 16, "ascii"), (sans, 20, "2600-2604=e000,4e00")])
    assert out == "out.bdf: 100 glyphs\n  DejaVuSansMono: 95\n  DejaVuSans: 5\n"
    assert err == "strike: all: 1 missing of DejaVuSans: U+4E00\n"
    text, icons = mono.strike(16, "ascii"), sans.strike(20, SYMBOLS)
    assert strike.size == 16 and set(strike) == set(text) | {chr(0xE000 + k) for k in range(5)}
    for char in text:
        assert (pixels(strike[char]), strike[char].advance) == (pixels(text[char]), text[char].advance)
    for k in range(5):
        one, own = strike[chr(0xE000 + k)], icons[chr(0x2600 + k)]
        assert (pixels(one), one.advance) == (pixels(own), own.advance) and one.swidth == round(1000 * own.advance / 16)
    assert (strike.ascent, strike.descent) == (max(text.ascent, icons.ascent), max(text.descent, icons.descent))


def test_private_characters_are_of_their_font(tmp_path):
    """A font that is asked for a range gives it, also if a font before it has the same characters."""
    mono, sans = mkstrike.Font(MONO), mkstrike.Font(SANS)
    strike, _, _ = by_both(tmp_path, ["--font", SANS, "--chars", "20-7e,2600-2601", "--font", MONO, "--chars", SYMBOLS],
                           [(sans, 16, "20-7e,2600-2601"), (mono, 16, SYMBOLS)])
    assert all(strike[it] == mono.glyph(16, it) for it in map(chr, range(0x2600, 0x2605))) and strike["A"] == sans.glyph(16, "A")


def test_what_others_lack(tmp_path):
    """A font without characters of its own gives what the fonts before it lack, of what is for all and of their own."""
    liberation, mono, sans = map(mkstrike.Font, (LIBERATION, MONO, SANS))
    strike, out, err = by_both(tmp_path, ["--chars", "ascii,2603,4e00", "--font", LIBERATION, "--font", MONO, "--font", SANS],
                               [(liberation, 16), (mono, 16), (sans, 16)], chars="ascii,2603,4e00")
    assert strike["A"] == liberation.glyph(16, "A") and strike["☃"] == mono.glyph(16, "☃") and out.split("\n")[1:4] == [
        "  LiberationMono-Regular: 95", "  DejaVuSansMono: 1", "  DejaVuSans: 0"] and err == "strike: all: 1 missing: U+4E00\n"
    strike, _, _ = by_both(tmp_path, ["--font", LIBERATION, "--chars", "41,2603", "--font", SANS],
                           [(liberation, 16, "41,2603"), (sans, 16)])
    assert list(strike) == ["A", "☃"] and strike["☃"] == sans.glyph(16, "☃")
    strike, _, _ = by_both(tmp_path, ["--font", LIBERATION, "--font", SANS, "--chars", "2603"],
                           [(liberation, 16, "latin-1"), (sans, 16, "2603")])
    assert len(strike) == 192
    # a character that is moved is not asked of a font after it under its new number
    strike, _, err = by_both(tmp_path, ["--font", LIBERATION, "--chars", "41,4e00=2603", "--font", SANS],
                             [(liberation, 16, "41,4e00=2603"), (sans, 16)])
    assert list(strike) == ["A"] and "1 missing of LiberationMono-Regular: U+2603" in err


def test_options_of_each_font(tmp_path):
    """Options after a font are that font's, and those before the first are for all."""
    mono, sans = mkstrike.Font(MONO), mkstrike.Font(SANS)
    strike, _, _ = by_both(tmp_path,
                           ["--size", "18", "--unhinted", "--font", MONO, "--chars", "41", "--dropout", "off", "--font", SANS,
                            "--chars", "42", "--shift-y", "-3"],
                           [(mono, 18, "41", {"hinted": False, "dropout": None}),
                            (sans, 18, "42", {"hinted": False, "shift_y": -3})])
    assert strike["A"] == mono.glyph(18, "A", hinted=False, dropout=None)
    assert pixels(strike["B"]) == {(x, y - 3) for x, y in pixels(sans.glyph(18, "B", hinted=False))}
    (tmp_path / "icons.txt").write_text("☃", encoding="utf-8")
    strike, _, _ = by_both(tmp_path, ["--font", MONO, "--chars", "41", "--font", SANS, "--text", tmp_path / "icons.txt"],
                           [(mono, 16, "41"), (sans, 16, "", {"text": "☃"})])
    assert strike["☃"] == sans.glyph(16, "☃") and len(strike) == 2


def test_strikes_among_fonts(tmp_path):
    """A BDF gives all that it has, or what is chosen of it; other sizes are joined."""
    drawn = mkstrike.Font(SANS).strike(20, SYMBOLS).replace({"♥": mkstrike.Glyph.drawn("#.#\n###\n.#.", advance=5)})
    drawn.save(tmp_path / "icons.bdf")
    icons, mono = mkstrike.Strike.open(tmp_path / "icons.bdf"), mkstrike.Font(MONO)
    strike, out, _ = by_both(tmp_path, ["--font", MONO, "--chars", "ascii", "--font", tmp_path / "icons.bdf"],
                             [(mono, 16, "ascii"), icons])
    assert strike.size == 16 and str(strike["♥"]) == "#.#\n###\n.#." and out.split("\n")[2] == "  icons: 6"
    strike, _, _ = by_both(tmp_path, ["--font", MONO, "--chars", "ascii", "--font", tmp_path / "icons.bdf", "--chars", "2665=41"],
                           [(mono, 16, "ascii"), (icons, None, "2665=41")])
    assert str(strike["A"]) == "#.#\n###\n.#." and len(strike) == 95
    status, out, _ = run_in_process(["--font", "icons.bdf", "--font", "out.bdf", "--out", "both"], tmp_path)
    assert status == 0 and out == b"both/icons.bdf: 101 glyphs\n  icons: 6\n  out: 95\n"


def test_sizes_of_each(tmp_path):
    """Several sizes are as many strikes; a font with one size has it in all."""
    words = ["--size", "12,16", "--font", MONO, "--chars", "41", "--font", SANS, "--chars", "42", "--size", "20", "--font", SANS,
             "--chars", "43", "--size", "8,10"]
    status, _, err = run_in_process([*words, "-o", "a-%s.bdf"], tmp_path)
    assert status == 0, err
    for size, other in ((12, 8), (16, 10)):
        strike = mkstrike.Strike.open(tmp_path / ("a-%d.bdf" % size))
        fonts = {"A": (MONO, size), "B": (SANS, 20), "C": (SANS, other)}
        assert strike.size == size
        assert all(pixels(strike[char]) == pixels(mkstrike.Font(path).glyph(it, char)) for char, (path, it) in fonts.items())
    status, _, err = run_in_process([*words[:-1], "8,9,10", "-o", "a-%s.bdf"], tmp_path)
    assert status == 2 and "give one, or as many" in err


def test_cells_of_several(tmp_path):
    """--fit finds one size for all fonts, at which no glyph of any leaves the cell."""
    status, _, err = run_in_process(["--fit", "10x18", "--font", MONO, "--chars", "ascii", "--font", LIBERATION, "--chars",
                                     "c0-ff", "-o", "a.bdf"], tmp_path)
    assert (status, err) == (0, "")
    strike = mkstrike.Strike.open(tmp_path / "a.bdf")
    sizes = [size for size in range(4, 30)
             if not mkstrike.merge([(mkstrike.Font(MONO), size, "ascii"),
                                    (mkstrike.Font(LIBERATION), size, "c0-ff")]).cell(10, 18).outside]
    assert strike.size == max(sizes) and len(strike) == 95 + 64


@pytest.mark.parametrize("words, status, said", [
    ([SANS, "--font", MONO], 2, "fonts of one strike come after --font each: %s is not" % SANS),
    (["--font", MONO, "--font", "none.ttf", "--chars", "41"], 1, "none.ttf: there is no such file"),
    (["--merge", SANS, MONO], 2, "fonts of one strike come after --font each: strike --font A.ttf --chars ascii --font B.ttf"),
    (["--font", MONO, "--chars", "41=e000,42=e000"], 2, "two characters would get the number U+E000: U+0041 and U+0042"),
    (["--font", MONO, "--chars", "ascii=e000"], 2, "characters get other numbers as f000-f2e0=e000"),
    (["--shift-y", "2", "--font", MONO], 2, "give it after its --font"),
    (["--font", MONO, "--size", "8", "--size", "9"], 2, "--size is given twice")])
def test_mistakes(tmp_path, words, status, said):
    """What is wrong is told, and nothing is written without a font that was asked for."""
    found, _, err = run_in_process(words, tmp_path)
    assert (found, list(tmp_path.iterdir())) == (status, []) and said in err, err


@pytest.mark.parametrize("parts, said",
                         [([("DejaVuSans.ttf", 16)], "^parts: 'DejaVuSans.ttf' is no font and no strike$"),
                          ([("font",)], "no font and no strike")])
def test_wrong_parts(parts, said):
    """What is no part."""
    with pytest.raises(TypeError, match=said):
        mkstrike.merge(parts)


def test_wrong_options_of_parts():
    """A part's size and options are checked."""
    font = mkstrike.Font(SANS)
    strike = font.strike(16, "41")
    for part, kind, said in (((font, 16, "41", {"hint": False}), TypeError,
                              "'hint' is no option: there are dropout, glyphs, hinted"),
                             ((font,), ValueError, "has no size"),
                             ((strike, 17), ValueError, "a strike of 16 pixels can't be made at 17"),
                             ((font, 16), ValueError, "^nothing is asked of DejaVuSans: give")):
        with pytest.raises(kind, match=said):
            mkstrike.merge([part])
    assert mkstrike.merge([(font, 16, "41,19c", {"refused": "unhinted"})])["Ɯ"] == font.glyph(16, "Ɯ", hinted=False)
    assert font.strike(16, "41-42=e001")["\ue001"].rows == strike["A"].rows
