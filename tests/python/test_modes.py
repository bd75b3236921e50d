"""What `strike` does beside strikes: sheets of sizes, lists, strikes compared; sizes by rows and points; glyphs without a
character; bytes."""
import json

import pytest
from shared import LIBERATION, MONO, SANS, needs_font, needs_pillow, run_in_process

import mkstrike
from mkstrike.looks import told

pytestmark = needs_font(SANS, MONO, LIBERATION)


def run(folder, *words, status=0):
    """What the command prints on both outputs."""
    found, out, err = run_in_process([str(it) for it in words], folder)
    assert found == status, err
    return out.decode(), err


# ---- sizes

@pytest.mark.parametrize("words, size, said", [
    (["--size", "12pt@96"], 16, "16 pixels per em: 12pt@96"), (["--size", "9pt@100"], 13, "13 pixels per em: 9pt@100"),
    (["--height", "16"], 14, "14 pixels per em: a line has 16 rows"), (["--height", "17"],
     14, "14 pixels per em: a line has 16 rows, and 18 at 15"),
    (["--cap-height", "9"], 13, "13 pixels per em: a capital H has 9 rows"),
    (["--cap-height", "9", "--unhinted"], 13, "13 pixels per em: a capital H has 9 rows")])
def test_sizes(tmp_path, words, size, said):
    """Sizes by points and by rows are computed, and told."""
    out, err = run(tmp_path, MONO, "--chars", "41,48", *words)
    stem = "DejaVuSansMono" + ("-unhinted" if "--unhinted" in words else "")
    assert out == "./%s-%d.bdf: 2 glyphs\n" % (stem, size) and err == "strike: %s: %s\n" % (stem, said)
    assert mkstrike.Strike.open(tmp_path / ("%s-%d.bdf" % (stem, size))).size == size


def test_sizes_of_several(tmp_path):
    """Points stand beside pixels; each font of a strike gets the size for its own rows."""
    out, err = run(tmp_path, MONO, "--chars", "41", "--size", "9,12pt@96,17-18")
    assert [it.split("-")[-1] for it in out.splitlines()] == ["9.bdf: 1 glyphs",
                     "16.bdf: 1 glyphs", "17.bdf: 1 glyphs", "18.bdf: 1 glyphs"]
    assert err == "strike: DejaVuSansMono: 16 pixels per em: 12pt@96\n"
    out, err = run(tmp_path, "--cap-height", "9", "--font", MONO, "--chars",
                   "41", "--font", LIBERATION, "--chars", "42", "-o", "a.bdf")
    assert out.splitlines() == ["a.bdf: 2 glyphs", "  DejaVuSansMono: 1", "  LiberationMono-Regular: 1"]
    strike, size = mkstrike.Strike.open(tmp_path / "a.bdf"), mkstrike.Font(LIBERATION).size_for(cap_height=9)
    assert size != 13 and strike["B"].tobytes() == mkstrike.Font(LIBERATION).glyph(size, "B").tobytes()
    assert strike["A"].tobytes() == mkstrike.Font(MONO).glyph(13, "A").tobytes()


@pytest.mark.parametrize("words, said", [
    (["--size", "12pt"], "points are given with the resolution in dots an inch, as 12pt@96, not '12pt'"),
    (["--size", "12pt@"], "as 12pt@96"),
    (["--size", "9", "--height", "9"], "--size, --height and --cap-height say the size: give one of them"),
    (["--cap-height", "9", "--height", "9"], "say the size: give one of them"),
    (["--fit", "8x16", "--height", "9"], "leave --height out"),
    (["--fit", "8x16", "--cap-height", "9"], "leave --cap-height out"), (["--height", "x"], "invalid int value"),
    (["--size", "a-b"], "as 12pt@96")])
def test_wrong_sizes(tmp_path, words, said):
    assert said in run(tmp_path, MONO, *words, status=2)[1]


@pytest.mark.parametrize("words, said", [(["--height", "0"], "there are no 0 rows"),
                                         (["--cap-height", "-2"], "there are no -2 rows")])
def test_sizes_that_are_not_there(tmp_path, words, said):
    assert said in run(tmp_path, MONO, *words, status=1)[1]


# ---- glyphs without a character

def test_glyphs(tmp_path):
    """By name and by number, alone or beside characters; also of one font of several."""
    run(tmp_path, SANS, "--glyph", "Eng.alt=e000, 36=U+E001", "--glyph", "l.alt=e002")
    strike, font = mkstrike.Strike.open(tmp_path / "DejaVuSans-16.bdf"), mkstrike.Font(SANS)
    assert list(strike) == ["\ue000", "\ue001", "\ue002"]
    assert [it.tobytes() for it in strike.values()] == [font.glyph_by_id(16, it).tobytes() for it in (5970, 36, 6005)]
    run(tmp_path, SANS, "--chars", "41", "--glyph", "36=42", "--name", "both")
    assert list(mkstrike.Strike.open(tmp_path / "both-16.bdf")) == ["A", "B"]
    out, _ = run(tmp_path, "--font", MONO, "--chars", "41", "--font", SANS,
                 "--size", "20", "--glyph", "Eng.alt=e000", "-o", "a.bdf")
    assert out.splitlines() == ["a.bdf: 2 glyphs", "  DejaVuSansMono: 1", "  DejaVuSans: 1"]
    assert mkstrike.Strike.open(tmp_path / "a.bdf")["\ue000"].tobytes() == font.glyph_by_id(20, 5970).tobytes()
    assert mkstrike.merge([(font, 16, "41", {"glyphs": {"\ue000": 36}}), (font, 16, "42")])[
                          "\ue000"].tobytes() == font.glyph(16, "A").tobytes()
    assert list(font.strike(16, "41", glyphs={"\ue000": "l.alt"})) == ["A", "\ue000"]


@pytest.mark.parametrize("given, said", [("A", "--glyph takes a glyph by name or number, and a character, as A.alt=e000, not 'A'"),
                                         ("A=", "not 'A='"), ("=e000", "not '=e000'"),
                                         ("A=xyz", "not 'A=xyz'"), ("A=e000-e001", "not 'A=e000-e001'"),
                                         ("A=ascii", "not 'A=ascii'"), ("A=e000,B=e000", "--glyph gives U+E000 two glyphs")])
def test_wrong_glyphs(tmp_path, given, said):
    assert said in run(tmp_path, SANS, "--glyph", given, status=2)[1]


def test_glyphs_that_are_not_there(tmp_path):
    assert "the font has no glyph named 'nosuch'" in run(tmp_path, SANS, "--glyph", "nosuch=e000", status=1)[1]
    assert "24 BadGlyphNumber 65000" in run(tmp_path, SANS, "--glyph", "65000=e000", status=1)[1]


# ---- a sheet of sizes

@needs_pillow
def test_sheet(tmp_path):
    """The picture of Font.sheet, and a line for each size."""
    from PIL import Image
    font = mkstrike.Font(SANS)
    out, err = run(tmp_path, SANS, "--sheet", "8-9,16")
    lines = [told(it, "font") for it in font.looks([8, 9, 16])]
    assert out.splitlines() == ["./DejaVuSans-sheet.png: 3 sizes", *lines] and err == ""
    assert Image.open(tmp_path / "DejaVuSans-sheet.png").tobytes() == font.sheet([8, 9, 16]).tobytes()
    out, err = run(tmp_path, SANS, "--sheet", "9", "--preview", "Hi 一", "--unhinted",
                   "--dropout", "off", "--chars", "48", "--scale", 2, "-o", "a.pbm")
    assert Image.open(tmp_path / "a.pbm").tobytes() == font.sheet([9], "Hi ", "48", hinted=False, dropout=None, scale=2).tobytes()
    assert out.splitlines()[1].startswith(
        "9: cell ") and "of 1 fall apart" in out and err == "strike: left out of the text, since DejaVuSans lacks it: 一\n"
    assert run(tmp_path, SANS, "--sheet", "9", "--quiet", "--out", "made") == ("",
               "") and (tmp_path / "made/DejaVuSans-sheet.png").exists()


@pytest.mark.parametrize("words, said", [
    ([SANS, "--sheet", "8-x"], "--sheet takes pixels per em, as 16 or 12,14 or 8-16, not '8-x'"), ([SANS,
     MONO, "--sheet", "8"], "--sheet takes one FONT"),
    ([SANS, "--sheet", "8", "--scale", "0"], "--scale is 1 or more"), (["--font",
     SANS, "--font", MONO, "--sheet", "8"], "--font is for files"),
    ([SANS, "--sheet", "8", "--list"], "--sheet and --list do two things"),
    ([SANS, "--sheet", "8", "--size", "9"], "--size is for files"),
    ([SANS, "--list", "--chars", "41"], "--chars is for files, not for --list"), ([SANS, "--json"],
     "--json is for --list"), ([SANS, MONO, "--list"], "--list takes one FONT"),
    ([SANS, "--list", "--size", "9,10"], "--list takes one --size"), ([SANS, "--list",
     "--unhinted"], "--unhinted and --dropout are for a list with metrics: give --size"),
    ([SANS, "--diff"], "--diff takes two strikes, or fonts"), ([SANS, MONO,
     "--diff", "--scale", "2"], "--scale is 1 or more, for a picture: -o FILE.png"),
    ([SANS, MONO, "--diff", "--cell", "8x16"], "--cell is for files")])
def test_what_does_not_go_together(tmp_path, words, said):
    assert said in run(tmp_path, *words, status=2)[1]
    assert not list(tmp_path.iterdir())


# ---- lists

def test_list(tmp_path):
    """The table and the JSON of a font and of a strike."""
    out, _ = run(tmp_path, MONO, "--list")
    lines = out.splitlines()
    assert lines[0].split() == ["character", "glyph", "name"] and len(lines) == 1 + len(mkstrike.Font(MONO).listing())
    assert [it.split() for it in lines if it.startswith("U+0041 ")] == [["U+0041", "A", "36", "A"]]
    out, _ = run(tmp_path, MONO, "--list", "--size", "12", "--unhinted")
    lines, glyph = out.splitlines(), mkstrike.Font(MONO).glyph(12, "A", hinted=False)
    assert lines[0] == "12 pixels per em, ascent 11, descent 3"
    due = [glyph.advance, glyph.width, glyph.height, glyph.left, glyph.bottom]
    assert [it.split()[4:] for it in lines if it.startswith("U+0041 ")] == [list(map(str, due))]
    out, _ = run(tmp_path, MONO, "--list", "--json", "--size", "12")
    data = json.loads(out)
    assert (data["size"], data["ascent"], data["descent"], len(data["glyphs"])) == (12, 11, 3, len(lines) - 2)
    assert "size" not in json.loads(run(tmp_path, MONO, "--list", "--json")[0])
    mkstrike.Font(MONO).strike(12, "41-43").save(tmp_path / "a.bdf")
    lines = run(tmp_path, "a.bdf", "--list")[0].splitlines()[2:]
    assert [it.split()[:4] for it in lines] == [["U+00%d" % it, chr(it - 41 + 65), "-", "uni00%d" % it] for it in (41, 42, 43)]


# ---- two strikes compared

@needs_pillow
def test_diff(tmp_path):
    """The lines of Strike.diff, and its picture; the status is 1 if something differs."""
    from PIL import Image
    font = mkstrike.Font(MONO)
    old, new = font.strike(10, "41-5a"), font.strike(10, "41-59", dropout=False)
    old.save(tmp_path / "old.bdf")
    new.save(tmp_path / "new.bdf")
    out, err = run(tmp_path, "--diff", "old.bdf", "new.bdf", "-o", "a.png", "--scale", 3, status=1)
    assert out.splitlines() == old.diff(new).lines() and err == ""
    assert Image.open(tmp_path / "a.png").tobytes() == old.diff(new).image(3).tobytes()
    assert run(tmp_path, "--diff", "old.bdf", "old.bdf") == ("26 glyphs are the same\n",
               "") and run(tmp_path, "--diff", "old.bdf", "old.bdf", "--quiet") == ("", "")
    assert run(tmp_path, "--diff", "old.bdf", "new.bdf", "--chars", "41-42") == ("2 glyphs are the same\n", "")


def test_diff_with_a_font(tmp_path):
    """A font is drawn at the size and with the characters of the strike that is there, unless options say others."""
    mkstrike.Font(MONO).strike(10, "41-5a").save(tmp_path / "old.bdf")
    assert run(tmp_path, "--diff", "old.bdf", MONO) == ("26 glyphs are the same\n", "") == run(tmp_path, "--diff", MONO, "old.bdf")
    assert "2 changed: U+0043, U+004E" in run(tmp_path, "--diff", "old.bdf", MONO, "--dropout", "off", status=1)[0]
    assert run(tmp_path, "--diff", "old.bdf", MONO, "--size", "11", status=1)[0].startswith("size: 10, 11\n")
    assert run(tmp_path, "--diff", MONO, MONO, "--chars", "ascii", "--size", "30")[0] == "95 glyphs are the same\n"


@needs_pillow
@pytest.mark.parametrize("output, said", [("old.bdf", "old.bdf is read here, and would be replaced"),
                                          ("a.gif", "a.gif: the ending says no format"),
                                          ("a.h", "a.h is no name of a picture: give it the ending .png or .pbm")])
def test_wrong_pictures(tmp_path, output, said):
    mkstrike.Font(MONO).strike(10, "41-42").save(tmp_path / "old.bdf")
    before = (tmp_path / "old.bdf").read_bytes()
    assert said in run(tmp_path, "--diff", "old.bdf", MONO, "-o", output, status=1)[1]
    assert (tmp_path / "old.bdf").read_bytes() == before and [it.name for it in tmp_path.iterdir()] == ["old.bdf"]


def test_what_can_not_be_read(tmp_path):
    for words in (["--diff", "no.ttf", MONO], ["--list", "no.ttf"], ["--sheet", "9", "no.ttf"]):
        assert "strike: no.ttf: there is no such file" in run(tmp_path, *words, status=1)[1]


# ---- forms

@needs_pillow
def test_forms(tmp_path):
    """Options of forms reach them; a module has a name that Python can import; each file is named."""
    out, _ = run(tmp_path, MONO, "--size", "13", "--chars", "41,43", "--cell", "9x17", "--format", "c,raw,py,fnt,gfx", "--bytes",
                 "columns", "--bits", "msb",
                 "--align", "right", "--attribute", "PROGMEM", "--padding", "2", "--dense")
    assert out == "./DejaVuSansMono-13.h ./DejaVuSansMono-13.raw ./DejaVuSansMono_13.py ./DejaVuSansMono-13.fnt " \
        "./DejaVuSansMono-13_0.png ./DejaVuSansMono-13-gfx.h: 2 glyphs\n"
    strike = mkstrike.Font(MONO).strike(13, "41,43", name="DejaVuSansMono").cell(9, 17)
    strike.names = mkstrike.Font(MONO).names
    layout = {"bytes": "columns", "bits": "msb"}
    due = {".h": strike.encode("c", name="DejaVuSansMono_13", attribute="PROGMEM", align="right", **layout),
           ".raw": strike.encode("raw", align="right", **layout),
           "-gfx.h": strike.encode("gfx", name="DejaVuSansMono_13_gfx", dense=True)}
    for ending, data in due.items():
        assert (tmp_path / ("DejaVuSansMono-13" + ending)).read_bytes().replace(b"_gfx", b"") == data.replace(b"_gfx", b""), ending
    assert (tmp_path / "DejaVuSansMono_13.py").read_bytes() == strike.encode("py", **layout)
    strike.save(tmp_path / "DejaVuSansMono-13b.fnt", padding=2)
    again = (tmp_path / "DejaVuSansMono-13b.fnt").read_bytes()
    assert (tmp_path / "DejaVuSansMono-13.fnt").read_bytes() == again.replace(b"13b", b"13")


def test_pictures_of_games_are_not_lost(tmp_path):
    """A picture that is read, or that another strike has, is not replaced."""
    assert "fnt is a text and pictures beside it: save it to a file" in run(
        tmp_path, MONO, "--format", "fnt", "-o", "-", status=1)[1]


# ---- help

def test_help(tmp_path, monkeypatch):
    """The help has the options by what they are for, the ten that most need first, in lines of 80 characters on each terminal."""
    monkeypatch.setenv("COLUMNS", "200")
    out, _ = run(tmp_path, "--help")
    lines = out.splitlines()
    assert max(map(len, lines)) <= 80 and "examples:" in lines
    heads = [it[:-1] for it in lines if it.endswith(":") and not it.startswith(" ")]
    assert heads[:3] == ["fonts", "most used", "characters"] and "how a font is drawn" in heads
    shown = [it.split()[0].rstrip(",") for it in lines if it.startswith("  -")]
    assert shown[:10] == ["--size", "--chars", "--text", "--format", "-o", "--out", "--fit", "--cell", "--font", "--preview"]
    from mkstrike.options import OPTIONS
    assert sorted(shown) == sorted([it.names[0] for it in OPTIONS] + ["-h", "--version"])


@needs_pillow
def test_examples(tmp_path):
    """The examples of the help run."""
    import shlex
    from mkstrike.options import EXAMPLES
    found = [it.split("strike ", 1)[1] for it in EXAMPLES.splitlines() if it.startswith("  strike ")]
    assert len(found) == 4
    for line in found:
        if "psf" not in line:
            run(tmp_path, *shlex.split(line.replace("FONT", MONO).replace('"DejaVu Sans Mono"', MONO)))
    assert len(list(tmp_path.iterdir())) == 6
