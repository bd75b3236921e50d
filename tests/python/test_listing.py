"""What is in a font: numbers, names and characters; and glyphs without a character as characters of a strike."""
import json
import struct

import pytest
from shared import LIBERATION, MONO, SANS, font_bytes, needs_font, needs_fonttools, run_in_process

import mkstrike
from mkstrike.listing import METRICS, STANDARD, as_data, names_of_glyphs, of_strike, table_of
from test_layouts import SMALL


def font_with(post):
    """A font of the table `post` alone."""
    return struct.pack(">IHHHH4sIII", 0x10000, 1, 0, 0, 0, b"post", 0, 28, len(post)) + post


def post_of(version, places=(), strings=b"", count=None):
    return struct.pack(">I28x", version) + struct.pack(">H%dH" % len(places), len(places) if count is None else count,
                                                       *places) + strings


@pytest.mark.parametrize("post, count, due", [
    (post_of(0x10000), 4, [".notdef", ".null", "nonmarkingreturn", "space"]),
    (post_of(0x20000, (0, 36, 258, 259, 35), b"\x01x\x05a.alt"), 5, [".notdef", "A", "x", "a.alt", "at"]),
    (post_of(0x20000, (0, 36, 258)), 3, [".notdef", "A", ""]),  # there are no strings
    (post_of(0x20000, (258, 259), b"\x02ab\x09c"), 2, ["ab", "c"]),  # the last string is cut off
    (post_of(0x20000, (257, 65535), b"\x01x"), 3, ["dcroat", "", ""]),  # fewer names than glyphs
    (post_of(0x20000, (3, 4, 5)), 2, ["space", "exclam"]),  # more names than glyphs
    (post_of(0x20000, (3,), count=9), 9, [""] * 9), (post_of(0x30000), 2,
     ["", ""]), (post_of(0x25000, (0, 0)), 2, ["", ""]), (b"", 1, [""]),
    (b"\0\2\0", 1, [""]), (post_of(0x10000), 260, STANDARD + ["", ""]), (post_of(0x10000), 0, [])])
def test_names_by_hand(post, count, due):
    """Names of both forms of `post`; where it is damaged or says nothing they are empty."""
    assert names_of_glyphs(font_with(post), 0, count) == due


@needs_fonttools
def test_standard_names():
    """The 258 names are those of fontTools."""
    from fontTools.ttLib.standardGlyphOrder import standardGlyphOrder
    assert STANDARD == standardGlyphOrder


@needs_font(SANS, MONO, LIBERATION)
@needs_fonttools
@pytest.mark.parametrize("path", [SANS, MONO, LIBERATION])
def test_listing_of_fonts(path):
    """Names and numbers are those of fontTools; each glyph is there, and each character once."""
    from fontTools.ttLib import TTFont
    font, known = mkstrike.Font(path), TTFont(path)
    assert font.glyph_names() == known.getGlyphOrder()
    listed = font.listing()
    numbers = {chr(code): known.getGlyphID(name) for code, name in known.getBestCmap().items()}
    assert {it.char: it.number for it in listed if it.char} == numbers and [it.char for it in listed if it.char] == sorted(numbers)
    rest = [it.number for it in listed if it.char is None]
    assert rest == sorted(set(range(font.glyph_count)) - set(numbers.values())) and {it.glyph for it in listed} == {None}
    assert all(it.name == known.getGlyphName(it.number) for it in listed)


@needs_font(SANS)
def test_listing_at_a_size():
    """Metrics are those of the glyphs; a refused one says why."""
    font = mkstrike.Font(SANS)
    at = font.at(13, hinted=False)
    for it in font.listing(13, hinted=False)[::97]:
        assert it.glyph == at.glyph(it.number)
    found = {it.char: it for it in font.listing(16) if it.char in ("A", "\u019c")}
    data = as_data(list(found.values()))
    assert data[0] == {"code": 65, "char": "A", "glyph": 36, "name": "A",
        "advance": 11, "width": 11, "height": 12, "left": 0, "bottom": 0}
    assert data[1] == {"code": 0x19C, "char": "\u019c", "glyph": 350, "name": "uni019C",
        "refused": "30 StackUnder during glyph 350 in glyph 350 at 73 opcode 39"}
    assert json.loads(json.dumps(data)) == data
    head, letter, refused = table_of(list(found.values()))
    assert head.split() == ["character", "glyph", "name", *METRICS] and letter.split() == ["U+0041",
                      "A", "36", "A", "11", "11", "12", "0", "0"]
    assert refused.split(None, 4) == ["U+019C", "\u019c", "350", "uni019C",
                         "30 StackUnder during glyph 350 in glyph 350 at 73 opcode 39"]


@needs_font(SANS)
def test_tables():
    """Columns begin in one place in each line; without a size there are no metrics, and a glyph without a character has a dash."""
    font = mkstrike.Font(SANS)
    lines = table_of(font.listing())
    assert lines[0].split() == ["character", "glyph", "name"] and len(lines) == 1 + len(font.listing())
    starts = [lines[0].index(it) for it in lines[0].split()]
    assert all(line[at - 1] == " " != line[at] for line in lines for at in starts[1:])
    assert lines[1].split() == ["U+0020", "3", "space"] and lines[-1].split()[0] == "-" and not any(line.endswith(" ")
                          for line in lines)
    assert table_of([]) == ["character  glyph  name"]


def test_listing_of_a_strike():
    """A strike has no numbers."""
    (it,) = of_strike(SMALL)
    assert (it.char, it.number, it.name, it.glyph) == ("A", None, "uni0041", SMALL["A"])
    assert as_data([it]) == [{"code": 65, "char": "A", "glyph": None, "name": "uni0041",
                   "advance": 10, "width": 10, "height": 9, "left": 0, "bottom": 0}]
    assert table_of([it])[1].split() == ["U+0041", "A", "-", "uni0041", "10", "10", "9", "0", "0"]


def test_hostile_names():
    """A name that would command a terminal is escaped."""
    post = post_of(0x20000, (258,), b"\x05\x1b[2J\n")
    (name,) = names_of_glyphs(font_with(post), 0, 1)
    from mkstrike.listing import Listed
    assert table_of([Listed("\x07", 0, name, None)])[1] == "U+0007     0      \\x1b[2J\\x0a"


# ---- glyphs without a character

@needs_font(SANS)
@pytest.mark.parametrize("how", [{}, {"hinted": False}, {"dropout": "left"}])
def test_glyphs_by_name_and_number(how):
    """They are those that have the numbers, and come into a strike as other characters."""
    font = mkstrike.Font(SANS)
    found = font.glyphs(16, {"\ue000": "uni2A1C.display", "\ue001": 6251, "\ue002": "A"}, **how)
    assert list(found) == ["\ue000", "\ue001", "\ue002"]
    due = [font.glyph_by_id(16, it, **how) for it in (6252, 6251, 36)]
    assert list(found.values()) == due
    strike = font.strike(16, "41", **how).replace(found)
    assert list(strike) == ["A", "\ue000", "\ue001", "\ue002"] and strike["\ue002"].tobytes() == strike["A"].tobytes()


@needs_font(SANS)
def test_wrong_names():
    font = mkstrike.Font(SANS)
    for name in ("", "nosuch", "a\x1b"):
        with pytest.raises(ValueError, match="^the font has no glyph named '"):
            font.glyphs(16, {"\ue000": name})
    data = bytearray(font_bytes(SANS))
    at = data.index(b"post")
    data[at:at + 4] = b"pos_"
    with pytest.raises(ValueError, match="named 'A': it names none, so give numbers$"):
        mkstrike.Font(bytes(data)).glyphs(16, {"\ue000": "A"})
    with pytest.raises(ValueError, match="^number is 65536"):
        font.glyphs(16, {"\ue000": 65536})
    with pytest.raises(mkstrike.Refused):
        font.glyphs(16, {"\ue000": 6253})


# ---- the fonts of a file

@needs_font(SANS, MONO)
@needs_fonttools
def test_faces(tmp_path):
    """The fonts of a file by their numbers: of a collection, of WOFF, of CFF outlines; as a table and as JSON."""
    from fontTools.ttLib import TTFont
    from test_font_files import collected
    path = tmp_path / "two.ttc"
    collected(path, SANS, MONO)
    assert [(it.family, it.style) for it in mkstrike.faces(path)] == [("DejaVu Sans", "Book"), ("DejaVu Sans Mono", "Book")]
    assert mkstrike.faces(font_bytes(MONO)) == [mkstrike.Font(MONO).names]
    status, out, err = run_in_process(["--faces", path], tmp_path)
    assert (status, err) == (0, "") and out.decode().splitlines() == [
        "face  family            style", "0     DejaVu Sans       Book", "1     DejaVu Sans Mono  Book"]
    _, out, _ = run_in_process(["--faces", "--json", path], tmp_path)
    assert [(it["face"], it["family"], it["is_monospace"]) for it in json.loads(out)] == [
        (0, "DejaVu Sans", False), (1, "DejaVu Sans Mono", True)]
    status, out, _ = run_in_process(["--faces", "-"], tmp_path, font_bytes(MONO))
    assert (status, out.decode().splitlines()[1:]) == (0, ["0     DejaVu Sans Mono  Book"])
    woff = TTFont(MONO)
    woff.flavor = "woff"
    woff.save(tmp_path / "mono.woff")
    assert [it.family for it in mkstrike.faces(tmp_path / "mono.woff")] == ["DejaVu Sans Mono"]
    for words in ([SANS], ["--size", "9"], ["--chars", "41"], ["--list"]):
        assert run_in_process(["--faces", path, *words], tmp_path)[0] == 2
    (tmp_path / "cut.ttc").write_bytes(font_bytes(path)[:10])
    assert run_in_process(["--faces", "cut.ttc"], tmp_path)[2].startswith("strike: cut.ttc: 10 NotTrueType\n")
