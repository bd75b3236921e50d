"""What a user is told of a font and a strike: blank strikes, variable fonts, bitmaps of its own, symbols, outlines of CFF."""
import io
import struct
import warnings

import pytest
from shared import LIBERATION, MONO, SANS, flags, font_bytes, needs_font, needs_fonttools, program, run_in_process
from test_font_files import MASTERS, built

import mkstrike
from mkstrike import tables


def told(folder, data, *words):
    """What the command says of a font, and what Python does."""
    (folder / "a.ttf").write_bytes(data)
    status, _, err = run_in_process([folder / "a.ttf", "-o", "a.bdf", *words], folder)
    assert status == 0
    return [it.partition(": ")[2].partition(": ")[2] for it in err.splitlines()]


def with_table(data, tag, table):
    """A font with a table more."""
    from fontTools.ttLib import TTFont, newTable
    font, out = TTFont(io.BytesIO(data), recalcTimestamp=False), io.BytesIO()
    font[tag] = made = newTable(tag)
    made.__class__ = type("Raw", (), {"compile": lambda self, font: table, "dependencies": [], "__init__": None})
    font.save(out)
    return out.getvalue()


@needs_fonttools
def test_variable_fonts(tmp_path):
    """A variable font without --axes says that it is at its default, by the numbers of its axes; an instance does not."""
    data = built(MASTERS[0], 400, with_axis=True)
    said = "a variable font at its default: wght=400 of 400 to 900 chooses another instance"
    assert told(tmp_path, data, "--chars", "41", "--size", "20") == [said]
    assert told(tmp_path, data, "--chars", "41", "--size", "20", "--axes", "wght=900") == [] and "chooses" not in said[:20]
    with pytest.warns(UserWarning, match=said):
        assert mkstrike.Font(data).strike(20, "41").notes == (said,)
    assert mkstrike.Font(data).axes() == {"wght": (400, 400, 900)} and mkstrike.Font(data, axes={"wght": 700}).axes() == {}
    assert tables.axes(data[:200], 0) == {} == tables.axes(b"", 0)


@needs_fonttools
def test_bitmaps_of_its_own(tmp_path):
    """A font that has bitmaps at this size says that they are not read; at another size it says nothing."""
    size = struct.pack(">IIII24xHHBBBB", 56, 0, 0, 0, 0, 1, 13, 13, 1, 1)
    for tag in ("EBLC", "bloc"):
        data = with_table(built(MASTERS[0], 400), tag, struct.pack(">II", 0x00020000, 1) + size)
        assert tables.bitmap_sizes(data, 0) == {13}
        assert told(tmp_path, data, "--chars", "41", "--size",
                    "13") == ["the font has bitmaps of its own at 13 pixels, which are not read: its outlines are drawn"]
        assert told(tmp_path, data, "--chars", "41", "--size", "14") == []


@needs_fonttools
def test_blank_strikes(tmp_path):
    """A strike without a set pixel says so, but not one of spaces."""
    data = built([(0, 0), (1, 0), (1, 1)], 400)
    assert told(tmp_path, data, "--chars", "41", "--dropout", "off") == [
        "no pixel of the strike is set: the outlines of these characters are empty, or too thin for this size"]
    with warnings.catch_warnings():
        warnings.simplefilter("error")
        assert mkstrike.Font(SANS).strike(16, "20,a0").notes == ()


@needs_fonttools
@needs_font(MONO)
def test_symbols(tmp_path):
    """A font of symbols says where its characters begin, and --symbol takes them by the places of ASCII."""
    from fontTools.ttLib import TTFont
    from making import fonts
    font, out = TTFont(io.BytesIO(fonts.part_of(font_bytes(MONO), range(0x41, 0x44)))), io.BytesIO()
    cmap = font["cmap"].tables[0]
    cmap.cmap = {0xF000 + code: name for code, name in font.getBestCmap().items()}
    cmap.platformID, cmap.platEncID, cmap.format, cmap.language = 3, 0, 4, 0
    font["cmap"].tables = [cmap]
    font.save(out)
    said = told(tmp_path, out.getvalue(), "--chars", "ascii")
    assert said[1] == "a font of symbols: its characters begin at U+F041; --symbol takes them by U+0020 to U+00FF"
    assert told(tmp_path, out.getvalue(), "--chars", "41-43", "--symbol") == []
    strike = mkstrike.Strike.open(tmp_path / "a.bdf")
    assert list(strike) == ["A", "B", "C"] and strike["B"].rows == mkstrike.Font(MONO).glyph(16, "B").rows
    assert list(mkstrike.Font(out.getvalue()).strike(16, "41", symbol=True)) == ["A"]


def cubic(points, advance):
    """A font with CFF outlines of one letter, of cubic curves."""
    from fontTools.fontBuilder import FontBuilder
    from fontTools.pens.t2CharStringPen import T2CharStringPen
    builder = FontBuilder(1000, isTTF=False)
    builder.setupGlyphOrder([".notdef", "A"])
    builder.setupCharacterMap({0x41: "A"})
    strings = {}
    for name in (".notdef", "A"):
        pen = T2CharStringPen(advance, None)
        pen.moveTo(points[0])
        for part in points[1:]:
            pen.curveTo(*part) if isinstance(part[0], tuple) else pen.lineTo(part)
        pen.closePath()
        strings[name] = pen.getCharString()
    builder.setupCFF("Made", {"FullName": "Made"}, strings, {})
    builder.setupHorizontalMetrics({name: (advance, 0) for name in strings})
    builder.setupHorizontalHeader(ascent=800, descent=-200)
    builder.setupNameTable({"familyName": "Made", "styleName": "Regular"})
    builder.setupOS2()
    builder.setupPost()
    out = io.BytesIO()
    builder.save(out)
    return out.getvalue()


@needs_fonttools
@pytest.mark.filterwarnings("ignore:the outlines are of CFF")
def test_cff(tmp_path):
    """Outlines of CFF are converted: straight ones exactly, curves at most 0.25 of 1,000 units away; a line says so."""
    straight = cubic([(100, 0), (300, 0), (300, 700), (100, 700)], 400)
    same, said = built(MASTERS[0],
                       400), "the outlines are of CFF: fontTools converted them, at most 0.25 of 1,000 units away, and unhinted"
    for size in (9, 20, 101):
        made = mkstrike.Font(straight).strike(size, "41")
        assert made.text == mkstrike.Font(same).strike(size, "41", hinted=False).text and made.notes == (said,)
    assert told(tmp_path, straight, "--chars", "41") == [said]
    assert mkstrike.faces(straight)[0][:2] == ("Made", "Regular")
    # a quarter of a circle of radius 1,000 by a cubic; its points are near those of the curve, worked out from its formula
    round_ = cubic([(0, 0), (1000, 0), ((1000, 552), (552, 1000), (0, 1000))], 1000)
    font = mkstrike.Font(round_)
    assert font.is_converted and not mkstrike.Font(same).is_converted
    from fontTools.ttLib import TTFont
    converted = TTFont(io.BytesIO(font.data))
    upem = converted["head"].unitsPerEm
    coordinates, _, on = converted["glyf"]["A"].getCoordinates(converted["glyf"])
    curve = [(3 * (1 - t) ** 2 * t * 1000 + (1 - t) ** 3 * 1000 + 3 * (1 - t) * t * t * 552,
              3 * (1 - t) ** 2 * t * 552 + 3 * (1 - t) * t * t * 1000 + t ** 3 * 1000)
             for t in (k / 4000 for k in range(4001))]
    points = [(x * 1000 / upem, y * 1000 / upem) for (x, y), flag in zip(coordinates, on) if flag & 1]
    assert upem == 8000 and len(coordinates) > 5
    assert all(min((x - p) ** 2 + (y - q) ** 2 for p, q in curve) < 0.25 ** 2 for x, y in points if x > 1 and y > 1)
    status, out, _ = program(["make", "--ppem", "40", "--chars", "41", *flags()], font.data)
    assert status == 0 and out == font.strike(40, "41").text


@needs_font(SANS)
def test_refused_in_python():
    """A character that is refused is left out, drawn unhinted, or refuses the strike; one that is missing is named, or refuses
    it."""
    font = mkstrike.Font(SANS)
    status, out, said = program(["make", "--ppem", "16", "--chars", "41,19c,250", "--refused", "unhinted", *flags()],
                                font_bytes(SANS))
    strike = font.strike(16, "41,19c,250", refused="unhinted")
    assert status == 0 and strike.text == out and not strike.refused
    assert {char: it.number for char, it in strike.unhinted.items()} == {"Ɯ": 30, "ɐ": 30}
    assert said == "mkstrike: unhinted U+019C: " + strike.unhinted["Ɯ"].line
    assert list(font.strike(16, "41,19c")) == ["A"]
    for more in ({"refused": "refuse"}, {"strict": True}):
        with pytest.raises(mkstrike.Refused, match="^30 "):
            font.strike(16, "41,19c", **more)
    for more in ({"require": True}, {"strict": True}):
        with pytest.raises(mkstrike.Missing, match="^there is no U\\+4E00-U\\+4E01$"):
            font.strike(16, "41,4e00-4e01", **more)
    assert font.strike(16, "41,4e00", refused="refuse").missing == ("一",)
    with pytest.raises(ValueError, match="^refused is 'leave-out', 'unhinted' or 'refuse', not 'draw'$"):
        font.strike(16, "41", refused="draw")


@needs_font(SANS)
@pytest.mark.parametrize("words, status, said", [
    (["--chars", "41,4e00"], 0, "1 missing: U+4E00"), (["--chars", "41,4e00", "--require"], 1, "1 missing: U+4E00"),
    (["--chars", "41,4e00", "--strict"], 1, "1 missing: U+4E00"),
    (["--chars", "41,19c", "--require"], 0, "refused: U+019C: 30"), (["--chars", "41,19c", "--strict"], 1, "30 StackUnder"),
    (["--chars", "41,19c", "--refused", "unhinted"], 0, "unhinted: U+019C: 30"),
    (["--chars", "41,19c", "--refused", "refuse"], 1, "30 StackUnder"),
    (["--preview", "A一", "--require"], 1, "1 missing: U+4E00"), (["--preview", "A", "--require"], 0, "")])
def test_refused_by_the_command(tmp_path, words, status, said):
    """The status, and that no file is there if it is 1."""
    found, _, err = run_in_process([SANS, *words, "--quiet"] if "--preview" not in words else [SANS, *words], tmp_path)
    assert found == status and said in err and bool(list(tmp_path.iterdir())) == (not status and "--preview" not in words), err


@needs_font(LIBERATION, SANS)
def test_uneven_advances(tmp_path):
    """At 10 pixels the cent sign of Liberation Mono has an advance of its own: with the properties of X11 a line says so."""
    said = ("SPACING is P, since the advance of U+00A2 is not that of the others: --unhinted or --cell can make all "
            "equal, --property SPACING=C says what you know")
    data = font_bytes(LIBERATION)
    widths = {char: it.advance for char, it in mkstrike.Font(data).strike(10, "latin-1").items()}
    assert {char for char, it in widths.items() if it != 6} == {"¢"}
    assert told(tmp_path, data, "--size", "10", "--x11") == told(tmp_path, data, "--size", "10", "--x11", "--name", "x") == [said]
    for words in ([], ["--x11", "--unhinted"], ["--x11", "--cell", "6x12", "--clip"], ["--x11", "--property", "SPACING=C"]):
        assert said not in told(tmp_path, data, "--size", "10", *words)
    assert told(tmp_path, font_bytes(SANS), "--size", "10", "--x11") == []
