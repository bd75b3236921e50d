"""Lists of characters."""
import os
import re
import subprocess

import pytest
from shared import PROGRAM, SANS, TOP, font_at, needs_font

import mkstrike
from mkstrike import characters
from mkstrike.charsets import ranges
from mkstrike.sets import OTHERS, SETS


def test_sets():
    """The sets that have names."""
    assert mkstrike.character_sets() == {"ascii": 95, "latin-1": 191, "latin-9": 191, "wgl4": 652, "greek": 188, "cyrillic": 191,
                                         "box": 128,
                                         "blocks": 32, "braille": 256, "cp437": 255, "koi8-r": 223, "latin-extended-a": 128,
                                         "greek-block": 144,
                                         "cyrillic-block": 256, "hebrew": 112, "arabic": 256, "thai": 128, "punctuation": 112,
                                         "currency": 48, "arrows": 112, "math": 256,
                                         "shapes": 96, "kana": 192, "han": 20992, "hangul": 11172, "powerline": 7}
    for name, count in mkstrike.character_sets().items():
        assert len(characters(name)) == count
    assert characters("ascii") == list(range(0x20, 0x7F))
    assert characters("latin-1") == [it for it in range(256) if not (it < 32 or 127 <= it < 160)]
    cp437 = characters("cp437")
    some = "☺☻♥♦♣♠•◘○◙♂♀♪♫☼►◄↕‼¶§▬↨↑↓→←∟↔▲▼ ~⌂ÇüéâÿÜ¢£¥₧ƒáÑªº¿⌐¬½¼¡«»░▒▓│┤╡╬═█▄▌▐▀αßΓπΣσµτΦΘΩδ∞φε∩≡±≥≤⌠⌡÷≈°∙·√ⁿ²■\xa0"
    assert set(map(ord, some)) <= set(cp437)


@pytest.mark.parametrize("name, codec",
                         [("latin-1", "iso8859-1"), ("latin-9", "iso8859-15"), ("greek", "iso8859-7"), ("cyrillic", "iso8859-5"),
                          ("koi8-r", "koi8-r")])
def test_sets_are_those_of_standards(name, codec):
    """A set that is named after a character set of one byte has its characters, by Python's codec of it."""
    text = bytes(range(256)).decode(codec, "ignore")
    assert characters(name) == characters(codec) == characters(text=text)


def test_sets_of_the_command():
    """A set has the same characters here and for `mkstrike make --set`, by each of its names."""
    names = [*SETS, *OTHERS]
    font_at(SANS)
    for name in [*names, *map(str.upper, names)]:
        ran = subprocess.run([PROGRAM, "make", "--ppem", "8", "--set", name, "--unhinted", SANS], capture_output=True)
        assert ran.returncode == 0 and [int(it) for it in re.findall(rb"^ENCODING (\d+)$", ran.stdout, re.M)] == list(
            map(ord, mkstrike.Font(SANS).strike(8, name, hinted=False))), name


def test_table_of_sets():
    """docs/PYTHON.md has each set with its other names, its count, and whether ASCII is in it; what it says of Unicode is so."""
    with open(os.path.join(TOP, "docs/PYTHON.md"), encoding="utf-8") as file:
        rows = re.findall(r"^\| `([a-z0-9-]+)` \| ([^|]*)\| (\d+) \| ([^|]*) \|$", file.read(), re.M)
    assert [name for name, *_ in rows] == list(SETS)
    for name, others, count, said in rows:
        codes = characters(name)
        assert re.findall("`([^`]+)`", others) == [it for it, first in OTHERS.items() if first == name] and len(codes) == int(count)
        bounds = [int(it, 16) for it in re.findall(r"U\+([0-9A-F]{4})", said)]
        assert not bounds or [it for it in codes if bounds[0] <= it <= bounds[1]] == list(range(bounds[0], bounds[1] + 1))
        assert ("ASCII" in said or name == "ascii") == (set(characters("ascii")) <= set(codes)), name


def test_letters_and_numbers():
    """A string is a list of numbers and sets, as after --chars: a letter alone is a number there. In a text, and as one of many, it
    is itself."""
    assert characters("A") == [0xA] and characters("A,b") == [0xA, 0xB] and characters("8") == [8] and characters(",") == []
    assert characters(text="A") == characters(["A"]) == characters({"A"}) == characters("41") == [0x41]
    assert characters(["8", "20ac", "é", ","]) == [0x2C, 0x38, 0xE9, 0x20AC]
    for wrong in ("é", "Z", "ab c", "*"):
        with pytest.raises(ValueError, match="is no set of characters .* for the characters of a text use text="):
            characters(wrong)


@needs_font(SANS)
def test_all():
    """All are the characters of the font."""
    font = mkstrike.Font(SANS)
    with pytest.raises(ValueError, match="^'all' are the characters of a font"):
        characters("all")
    assert len(font.characters()) > 5800
    assert list(font.glyph_ids("all")) == list(map(chr, font.characters())) == list(font.glyph_ids(range(0x110000)))
    strike = font.strike(8, "All,4e00", hinted=False)
    assert list(strike) == list(font.glyph_ids("all")) and strike.missing == ("一",)


def test_codecs():
    """Character sets of one byte that Python has."""
    euro = 0x20AC
    assert euro in characters("iso8859-15") and euro in characters("cp1252") and 0x416 in characters("koi8-r")
    assert characters("ISO-8859-1") == characters("latin-1") and len(characters("cp850")) == 224 - 1
    for name in ("utf-8", "gbk", "idna", "rot13"):
        with pytest.raises(ValueError):
            characters(name)


def test_ranges_and_numbers():
    """Numbers and ranges, in strings and not."""
    assert characters("20-22,a0") == characters("U+20-U+22, U+00A0") == characters("0x20-0x22,0xa0") == [0x20, 0x21, 0x22, 0xA0]
    assert characters("41") == [0x41] and characters("") == []
    assert characters(0x41) == [0x41] and characters(range(3)) == [0, 1, 2]
    assert characters([5, "ascii", range(2), "é"])[:3] == [0, 1, 5]
    assert characters({"b", "a"}) == [0x61, 0x62]

    class Number:
        """As numpy has them."""

        def __index__(self):
            return 7

    assert characters(Number()) == characters([Number()]) == [7]
    for wrong in ("Hello", "22-20", "110000", "20-", "-20", "20--22", "U+", "0x", "2_0", "+20", "caf\u00e9s", "20 21", "١-٢",
                  "U+٤١",
                  "²²"):
        with pytest.raises(ValueError):
            characters(wrong)


def test_no_lists():
    """What is no list of characters, or no text, is said by the name of the argument."""
    for wrong in (None, 1.5, [1.5], ["A", None]):
        with pytest.raises(TypeError, match="^chars: .* is no list of characters$"):
            characters(wrong)
    with pytest.raises(TypeError, match="^text is a string, not bytes$"):
        characters(text=b"abc")


def test_texts():
    """The characters of a text."""
    assert characters(text="Café 😀\r\n\tCafé\x7f") == sorted(map(ord, set("Café 😀")))
    assert characters("ascii", text="é") == [*range(0x20, 0x7F), 0xE9]


def test_lists_of_bdf2psf(tmp_path):
    """Lists of bdf2psf, by path and by name."""
    path = tmp_path / "my.set"
    path.write_text("# a list\nU+0041 # A\nU+0007\n\nU+20AC\n")
    assert characters(str(path)) == [0x41, 0x20AC] and characters("42,%s" % path) == [0x41, 0x42, 0x20AC]
    path.write_text("U+0041\n41\n")
    with pytest.raises(ValueError, match="'41' is no character"):
        characters(str(path))
    with pytest.raises(FileNotFoundError):
        characters("./none.set")


def test_named_lists(monkeypatch, tmp_path):
    """A list by its name, from where Debian's package has them."""
    (tmp_path / "Mine.256").write_text("U+0041\nU+0042\n")
    monkeypatch.setattr("mkstrike.charsets.FOLDERS", (str(tmp_path),))
    assert characters("Mine") == characters("Mine.256") == [0x41, 0x42]
    with pytest.raises(ValueError, match="and no list of bdf2psf; for"):
        characters("Other")
    monkeypatch.setattr("mkstrike.charsets.FOLDERS", (str(tmp_path / "none"),))
    with pytest.raises(ValueError, match=r"and bdf2psf with its lists is not installed \(Debian: bdf2psf\); for"):
        characters("Mine")


@needs_font(SANS)
def test_strikes_as_lists(tmp_path):
    """What another strike uses."""
    strike = mkstrike.Font(SANS).strike(16, "20-40,20ac")
    strike.save(tmp_path / "a.bdf")
    assert characters(strike) == characters(str(tmp_path / "a.bdf")) == [*range(0x20, 0x41), 0x20AC]


def test_ranges_for_people():
    """Code points as people read them."""
    assert ranges([0x41, 0x43, 0x42, 0x20AC]) == "U+0041-U+0043, U+20AC" and ranges([]) == ""
    assert ranges(range(0, 200, 2), 3) == "U+0000, U+0002, U+0004 and 97 more"
# What is left out is counted by characters.
    runs = [code for first in range(0, 0x1000, 0x20) for code in range(first, first + 10)]
    assert ranges(runs, 2) == "U+0000-U+0009, U+0020-U+0029 and 1260 more"
