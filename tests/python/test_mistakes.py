"""Mistakes that users make with `strike` and with Python: each names its fault and what leads on, and none ends well with a wrong
result."""
import io
import os
import subprocess
import sys

import pytest
from shared import LIBERATION, MONO, SANS, font_bytes, needs, needs_font, needs_fontconfig, needs_fonttools

import mkstrike
from mkstrike import command

pytestmark = needs_font(SANS, MONO, LIBERATION)
# Files that are no TrueType font, by their first bytes.
FILES = {
    "cff.otf": b"OTTO\0\x0a\0\x80" + bytes(200), "type1.pfb": b"\x80\1\0\0\0\0", "type1.pfa": b"%!PS-AdobeFont-1.0: A",
    "page.ttf": b"<!DOCTYPE html>", "empty.ttf": b"",
    "a.pcf": b"\1fcp", "lfs.ttf": b"version https://git-lfs.github.com/spec/v1\n", "mac.dfont": b"\0\0\1\0\0\0",
    "a.gz": b"\x1f\x8b\x08\0" + bytes(40),
    "cut.ttf": b"\0\1\0\0\0\x10\1\0", "web.woff2": b"wOF2" + bytes(80), "web.woff": b"wOFF" + bytes(80),
    "a.bdf": b"STARTFONT 2.1\nFONT a\n", "text.ttf": b"this is text",
    "hello.txt": b"Hello\n", "latin.txt": b"\xe9\xff", "en.po": b'msgid "Hello"\n', "fr.po": b'msgstr "Bonjour"\n',
    "tab.txt": b"a\tb",
}
NO_GLYPH = ("the strike has no glyph: --chars takes sets by name and hexadecimal numbers, --text FILE a text's characters; "
            "--all takes what the font has")
# After `strike FONT`, unless the first word is a font of its own: the mistake, the arguments, the status, and a part of what is
# said.
ROWS = [
    # files that are no font
    ("an OTF", ["cff.otf"], 1, "10 NotTrueType"),
    ("a Type 1 font", ["type1.pfb"], 1, "Type 1 font"), ("a Type 1 font as text", ["type1.pfa"], 1, "Type 1 font"),
    ("a web page", ["page.ttf"], 1, "a web page or XML"),
    ("an empty file", ["empty.ttf"], 1, "the file is empty"), ("a PCF", ["a.pcf"], 1, "PCF font"),
    ("a Git LFS pointer", ["lfs.ttf"], 1, "git lfs pull"),
    (".dfont", ["mac.dfont"], 1, "Macintosh font"), ("gzip", ["a.gz"], 1, "unpack it first"),
    ("a truncated font", ["cut.ttf"], 1, "it is truncated"),
    ("a damaged WOFF2", ["web.woff2"], 1, "can't be unpacked from WOFF2: "),
    ("a damaged WOFF", ["web.woff"], 1, "16 pixels: 10 NotTrueType"),
    ("a damaged BDF", ["a.bdf"], 1, "no BDF file, or a damaged one: line 2: there is no CHARS"),
    ("text", ["text.ttf"], 1, "give a TrueType font"),
    ("a file that is not there", ["nosuch.ttf"], 1,
     "nosuch.ttf: there is no such file, and no installed font of this name (fc-list shows them)"),
    ("a family that is not there", ["No Such Sans"], 1, "no installed font of this name (fc-list shows them)"),
    ("help", ["help"], 2, "strike has no commands, as 'help'"),
    ("a folder", ["."], 1, "Is a directory"), ("no font", [], 2, "give a FONT"),
    ("the input, which is empty", ["-"], 1, "the file is empty"),
    ("the input, which is none", ["-", "--text", "-"], 2, "standard input is the font or the text, not both"),
    # sizes
    ("points", ["FONT", "--size", "12pt"], 2, "as 12pt@96, not '12pt'"),
    ("a word", ["FONT", "--ppem", "big"], 2, "not 'big'"),
    ("a cell as a size", ["FONT", "--ppem", "8x16"], 2, "not '8x16'"), ("a fraction", ["FONT", "--ppem", "12.5"], 2, "not '12.5'"),
    ("hexadecimal", ["FONT", "--size", "0x10"], 2, "not '0x10'"),
    ("a negative size", ["FONT", "--ppem=-5"], 2, "not '-5'"), ("0", ["FONT", "--ppem", "0"], 1, "give a size from 1 to 1024"),
    ("2000", ["FONT", "--ppem", "2000"], 1, "give a size from 1 to 1024"),
    ("a range that falls", ["FONT", "--ppem", "16-12"], 2, "not '16-12'"),
    ("too many sizes", ["FONT", "--ppem", "1-9999"], 2, "not '1-9999'"),
    ("--pt", ["FONT", "--pt", "12"], 2, "points times the resolution"),
    ("--dpi", ["FONT", "--dpi", "96"], 2, "points times the resolution"),
    ("-s", ["FONT", "-s", "16"], 2, "unrecognized arguments: -s"),
    ("--height", ["FONT", "--height", "16"], 0, "pixels per em: a line has 16 rows"),
    ("--fit and --ppem", ["FONT", "--fit", "8x16", "--ppem", "12"], 2,
     "--fit finds the size and makes the cells: leave --size out"),
     ("--fit of no cell", ["FONT", "--fit", "8"], 2, "--fit takes columns and rows, as 8x16, not '8'"),
    ("--fit of nothing", ["FONT", "--fit", "8x16", "--chars", "4e00"], 1, "none of the characters has a pixel"),
    ("--cell of no cell", ["FONT", "--cell", "8"], 2, "--cell takes columns and rows, as 8x16, not '8'"),
    ("--cell of letters", ["FONT", "--cell", "axb"], 2, "not 'axb'"),
    ("a cell of nothing", ["FONT", "--cell", "0x16"], 1, "a cell has 1 to 1024 columns and rows"),
    # characters
    ("a letter", ["FONT", "--chars", "A"], 0, "1 missing: U+000A\nstrike: DejaVuSans: " + NO_GLYPH),
    ("letters that are digits", ["FONT", "--chars", "ABC"], 0, "1 missing: U+0ABC"),
    ("the word face", ["FONT", "--chars", "face"], 0, NO_GLYPH), ("digits as numbers", ["FONT", "--chars", "0-9"], 0, NO_GLYPH),
    ("a word", ["FONT", "--chars", "Hello"], 2, "'Hello' is no set of characters (ascii, "),
    ("é", ["FONT", "--chars", "é"], 2, "for the characters of a text use --text FILE"),
    ("*", ["FONT", "--chars", "*"], 2, "'*' is no set of characters"),
    ("a range that falls", ["FONT", "--chars", "7e-20"], 2, "'7e-20' is no range of characters: they rise"),
    ("above Unicode", ["FONT", "--chars", "110000"], 2, "they rise from 0 to 10FFFF"),
    ("20..7e", ["FONT", "--chars", "20..7e"], 2, "'20..7e' is no set"),
    ("too many", ["FONT", "--chars", "0-10ffff"], 1, "chars has 1,114,112 characters: a strike has at most 65,536"),
    ("a list that is not there", ["FONT", "--chars", "./my.set"], 2, "No such file or directory: './my.set'"),
    ("a list by @", ["FONT", "--chars", "@list.txt"], 2, "'@list.txt' is no set"),
    ("glyph names", ["FONT", "--chars", "A,B,space"], 2, "'space' is no set"),
    ("what the font lacks", ["FONT", "--chars", "4e00"], 0, "--all takes what the font has"),
    ("some that it lacks", ["FONT", "--chars", "41,4e00-4e02"], 0, "3 missing: U+4E00-U+4E02"),
    ("only refused ones", ["FONT", "--chars", "19c"], 0,
     "the strike has no glyph: each character is refused; with --unhinted no program of the font runs"),
     ("--strict", ["FONT", "--chars", "19c", "--strict"], 1, "30 StackUnder during glyph 350"),
    ("all up to FFFF", ["FONT", "--chars", "0-ffff"], 0, "refused: U+0250: 30 StackUnder during glyph 530"),
    ("a text as --text", ["FONT", "--text", "Hello"], 2,
     "--text takes a file, and there is no 'Hello'; a text itself comes by a pipe"),
     ("a text in Latin-1", ["FONT", "--text", "latin.txt"], 2,
      "latin.txt is no text in UTF-8 (byte E9 at 0); convert it, as by iconv -f latin1 -t utf-8"),
    ("--encoding", ["FONT", "--encoding", "latin1"], 2, "--set takes sets of characters by name"),
    ("--set of no set", ["FONT", "--set", "klingon"], 2, "'klingon' is no set"),
    ("no list of bdf2psf", ["FONT", "--chars", "Lat99"], 2, "bdf2psf"),
    # outputs
    ("--out of a file", ["FONT", "--out", "a.psf"], 2, "--out takes a folder: -o a.psf writes one file"),
    ("-o and --out", ["FONT", "-o", "a.bdf", "--out", "x"], 2, "give one of them"),
    ("-o of two fonts", ["FONT", MONO, "-o", "a.bdf"], 2, "-o FILE is one file"),
    ("-o of two sizes", ["FONT", "-o", "a.bdf", "--ppem", "8,9"], 2, "%s in its name for several sizes"),
    ("-o of two formats", ["FONT", "-o", "a", "--format", "c,bdf"], 2, "-o FILE is one file"),
    ("-o without an ending", ["FONT", "-o", "a"], 2, "a: the ending says no format: there are .bdf"),
    ("-o of another ending", ["FONT", "-o", "a.fon"], 2, "a.fon: the ending says no format"),
    ("-o without a name", ["FONT", "-o"], 2, "-o: expected one argument"),
    ("--output", ["FONT", "--output", "a.bdf"], 2, "-o FILE writes one file"),
    ("--format h", ["FONT", "--format", "h"], 2, "--format h: there are bdf, png, pbm, c, gfx, lvgl, raw, fnt, py, psf, pcf, otb"),
    ("--format fon", ["FONT", "--format", "fon"], 2, "--format fon: there are"),
    ("--psf", ["FONT", "--psf"], 2, "unrecognized arguments: --psf; --format psf makes that"),
    ("psf without a cell", ["FONT", "-o", "a.psf"], 1, "make a cell first (cell, --cell)"),
    ("raw without a cell", ["FONT", "-o", "a.raw"], 1, "make a cell first (cell, --cell)"),
    ("raw that leaves the cell", ["FONT", "-o", "a.raw", "--cell", "8x16"], 1,
     "glyphs leave the cell: clip them (clip=True, --clip)"),
    ("--order of no set", ["FONT", "-o", "a.raw", "--cell", "8x16", "--clip", "--order", "big5"], 1,
     "order: 'big5' is no character set of one byte"),
     ("two fonts of one name", ["FONT", SANS], 2, "files of different fonts would have one name"),
    ("an output that is read", ["a.bdf", "-o", "a.bdf"], 1, "no BDF file"),
    ("--order without raw", ["FONT", "--order", "cp437"], 2, "--order is for --format raw"),
    ("--ascent alone", ["FONT", "--ascent", "12"], 2, "--ascent is for --cell and --fit"),
    ("--clip alone", ["FONT", "--clip"], 2, "--clip is for --cell and --fit"),
    ("a text for --preview as a file", ["FONT", "--preview", "Hello", "-o", "a.bdf"], 2,
     "--preview is printed, or with -o a picture in PNG or PBM"),
    ("a preview of what the font lacks", ["FONT", "--preview", "一"], 0, "1 missing: U+4E00"),
    ("-o into no folder", ["FONT", "-o", "nodir/a.bdf"], 1, "there is no folder for it: "),
    ("a file to write as a font", ["FONT", "out.bdf"], 2, "there is no out.bdf to read; to write it: -o out.bdf"),
    ("a size as a font", ["FONT", "12"], 2, "there is no font 12; a size is --size 12"),
    ("fontconvert's arguments", ["FONT", "18", "32", "126"], 2, "a size is --size 18, and characters are --chars 20-7e"),
    ("a cell as a font", ["FONT", "8x16"], 2, "a cell is --cell 8x16 or --fit 8x16"),
    ("more than a console's glyphs", ["FONT", "--unhinted", "--chars", "20-3ff", "--cell", "20x30", "--clip", "--format", "psf"],
     1, "a font of the console has at most 512 glyphs, not 9"),
    ("mkstrike's command", ["make", "FONT"], 2, "strike has no commands, as 'make'"),
    ("texts as fonts", ["--text", "en.po", "fr.po", "FONT"], 2,
     "fr.po is a text, and is taken for a font: give each text after its own --text"),
    # words of other programs
    ("lv_font_conv -r", ["--font", "FONT", "-r", "0x20-0x7e"], 2, "-r; --chars takes ranges of characters, as 20-7e"),
    ("otf2bdf -r", ["FONT", "-p", "12", "-r", "96"], 2, "points times the resolution"),
    ("--range", ["FONT", "--range", "20-7e"], 2, "--chars takes ranges of characters"),
    ("--symbols", ["FONT", "--symbols", "abc"], 2, "--text FILE takes the characters of a text"),
    ("--bpp", ["FONT", "--bpp", "4"], 2, "a strike has one bit a pixel"),
    ("--no-compress", ["FONT", "--no-compress"], 2, "nothing is compressed here"),
    ("--kerning", ["FONT", "--kerning"], 2, "BDF has no kerning"),
    ("--covers", ["FONT", "--covers"], 2, "--require refuses"), ("--coverage", ["FONT", "--coverage"], 2, "--require refuses"),
    ("--vertical", ["FONT", "--vertical"], 2, "--bytes rows|columns|pages and"),
    ("--exclude", ["FONT", "--exclude", "41"], 2, "--chars takes what is wanted"),
    ("--map", ["FONT", "--map", "x"], 2, "--order a set for raw cells"),
    ("-k", ["FONT", "-k", "chars.txt"], 2, "--text FILE takes"),
    ("-m", ["FONT", "-m", "32-126"], 2, "sets of characters by name"),
    ("-w", ["FONT", "-w", "Bold"], 2, "give the font of that style"), ("-n", ["FONT", "-n"], 2, "--unhinted draws without hinting"),
    ("--stride", ["FONT", "--stride", "1"], 2, "--bytes rows|columns|pages and"),
    ("--lv-fallback", ["FONT", "--lv-fallback", "x"], 2, "set its fallback in your program"),
    ("--use-color-info", ["FONT", "--use-color-info"], 2, "a strike has one bit a pixel"),
    ("a word that is close", ["FONT", "--colums", "8"], 2, "did you mean --columns?"),
    ("a word that is not", ["FONT", "--frobnicate"], 2, "strike --help lists the options"),
    ("--merge", ["FONT", "--merge"], 2, "fonts of one strike come after --font each"),
    # characters that are not there
    ("--set and --chars", ["FONT", "--set", "ascii", "--chars", "a0"], 0, ""),
    ("--require", ["FONT", "--chars", "41,4e00", "--require"], 1, "1 missing: U+4E00"),
    ("a preview from the right", ["FONT", "--preview", "שלום"], 0, "drawn character by character, from left to right"),
    ("a preview of Devanagari", ["FONT", "--preview", "कि"], 0, "programs that shape text draw this script otherwise"),
    # other options
    ("two instances", ["FONT", "--axes", "wght=400,wght=700"], 2, "--axes gives wght twice: each run makes one of them"),
    ("a style in the name", ["DejaVu Sans Mono Bold"], 1, "a style comes after a colon: 'DejaVu Sans Mono:bold'"),
    ("--bold", ["FONT", "--bold"], 2, "give the font of that style, as 'DejaVu Sans:bold'"),
    ("--italic", ["FONT", "--italic"], 2, "give the font of that style"),
    ("--weight", ["FONT", "--weight", "700"], 2, "--axes wght=700"),
    ("--hinted", ["FONT", "--hinted"], 2, "strikes are hinted by the font's programs if --unhinted is not given"),
    ("--no-hinting", ["FONT", "--no-hinting"], 2, "--unhinted does that"),
    ("--unhintd", ["FONT", "--unhintd"], 2, "did you mean --unhinted?"),
    ("--antialias", ["FONT", "--antialias"], 2, "a strike has one bit a pixel"),
    ("--mono", ["FONT", "--mono"], 2, "--cell WxH makes cells"),
    ("--dropout=middle", ["FONT", "--dropout=middle"], 2, "invalid choice: 'middle' (choose from 'font', 'left', 'near', 'off')"),
    ("--dropout on", ["FONT", "--dropout", "on"], 1, "on: there is no such file"),
    ("axes of a plain font", ["FONT", "--axes", "wght=700"], 1, "the font has no axes"),
    ("axes by a word", ["FONT", "--axes", "bold"], 2, "--axes bold: it has no ="),
    ("axes by a letter", ["FONT", "--axes", "wght=x"], 2, "'x' is no number"),
    ("--face of one font", ["FONT", "--face", "1"], 1, "25 NoFace"),
    ("--face of a name", ["FONT", "--face", "Bold"], 2, "--face: invalid int value: 'Bold'"),
    ("--name with an umlaut", ["FONT", "--name", "Grüße"], 2, "62 BadName: --name has 1 to 255 characters of ASCII"),
    ("--property in small letters", ["FONT", "--property", "a=1"], 1, "63 BadProperty 1"),
    ("--property without =", ["FONT", "--property", "A"], 2, "--property A: it has no ="),
    ("--scale 0", ["FONT", "-o", "a.png", "--scale", "0"], 2, "--scale and --columns are 1 or more"),
]


# What some of them need beside the package.
NEEDED = {"a damaged WOFF2": [needs_fonttools, needs("brotli", "python3-brotli")], "axes of a plain font": [needs_fonttools],
          **{it: [needs_fontconfig] for it in ("a file that is not there", "a family that is not there", "a style in the name")}}


@pytest.fixture
def strike(tmp_path, monkeypatch, capsysbinary):
    """Runs the command in a folder of its own. Returns the status, and what it prints on both outputs."""
    def run(words, data=b""):
        monkeypatch.chdir(tmp_path)
        monkeypatch.setattr(sys, "stdin", io.TextIOWrapper(io.BytesIO(data)))
        try:
            status = command.main(words)
        except SystemExit as end:
            status = end.code
        out, err = capsysbinary.readouterr()
        return status, out, err.decode()
    return run


@pytest.mark.parametrize("words, status, said", [pytest.param(*it[1:], id=it[0], marks=NEEDED.get(it[0], ())) for it in ROWS])
def test_mistakes_at_the_command(strike, tmp_path, words, status, said):
    """The status and what is said; the files that are there stay as they were."""
    for name, data in FILES.items():
        (tmp_path / name).write_bytes(data)
    found, out, err = strike([SANS if it == "FONT" else it for it in words])
    assert (found, said in err) == (status, True), err
    assert all((tmp_path / name).read_bytes() == data for name, data in FILES.items())
    assert status != 2 or not out, out


# What does what was meant: the arguments, and the files that are there afterwards.
DONE = [
    (["--ppem", "12,14"], ["DejaVuSans-12.bdf", "DejaVuSans-14.bdf"]),
    (["--size", "8-10"], ["DejaVuSans-10.bdf", "DejaVuSans-8.bdf", "DejaVuSans-9.bdf"]),
    (["--set", "latin1"], ["DejaVuSans-16.bdf"]), (["--set", "box", "--chars", "41"], ["DejaVuSans-16.bdf"]),
    (["--chars", "KOI8-R"], ["DejaVuSans-16.bdf"]),
    (["--all", "--unhinted", "--ppem", "6"], ["DejaVuSans-unhinted-6.bdf"]),
    (["--chars", "all", "--unhinted", "--ppem", "6"], ["DejaVuSans-unhinted-6.bdf"]), (["-o", "a.h"], ["a.h"]),
    (["-o", "a.BDF"], ["a.BDF"]), (["-o", "a-%s.c", "--format", "lvgl", "--ppem", "8,9"], ["a-8.c", "a-9.c"]),
    (["--dropout", "--chars", "41"], ["DejaVuSans-left-16.bdf"]), (["--dropout", "near", "-o", "a.bdf"], ["a.bdf"]),
    (["--dropout-font", "-o", "a.bdf"], ["a.bdf"]), (["--out", "x/y"], ["x/y/DejaVuSans-16.bdf"]),
    (["--fit", "12x16", "--format", "raw", "--order", "cp437", "--chars", "cp437"], ["DejaVuSans-8.raw"]),
    (["--preview", "Hello"], []), (["-o", "-"], []),
]


@pytest.mark.parametrize("words, files", DONE, ids=[" ".join(it) for it, _ in DONE])
def test_what_is_meant(strike, tmp_path, words, files):
    """Each way to say it makes its files, and no others."""
    status, out, err = strike([SANS, *words])
    assert status == 0, err
    found = [os.path.relpath(os.path.join(folder, it), tmp_path) for folder, _, names in os.walk(tmp_path) for it in names]
    assert sorted(found) == files and all(os.path.getsize(tmp_path / it) > 100 for it in files)
    dropout = {"--dropout": "near" if "near" in words else "left"}.get(words[0], "font")
    if words[0].startswith("--dropout"):
        chars = "41" if "41" in words else "latin-1"
        assert (tmp_path / files[0]).read_bytes() == mkstrike.Font(SANS).strike(16, chars, dropout=dropout, name="DejaVuSans").text
    if words == ["-o", "-"]:
        assert out == mkstrike.Font(SANS).strike(16, "latin-1", name="DejaVuSans").text


def test_font_by_a_pipe(strike, tmp_path):
    """A font comes by standard input, and a strike goes to standard output."""
    status, out, err = strike(["-", "--chars", "ascii", "-o", "-"], font_bytes(MONO))
    assert (status, err) == (0, "") and out == mkstrike.Font(MONO).strike(16, "ascii", name="font").text
    assert not os.listdir(tmp_path)


def test_tabs(strike):
    """A tab of a preview is blank up to the next place, and no character that is missing."""
    due = strike([MONO, "--preview", "a" + " " * 7 + "b"])
    assert strike([MONO, "--preview", "a\tb"]) == due and due[0] == 0 and not due[2]


def test_no_fontconfig(strike, monkeypatch):
    """Without fontconfig a name says what is missing."""
    monkeypatch.setenv("PATH", "/nonexistent")
    status, _, err = strike(["DejaVu Sans"])
    assert status == 1 and "fontconfig is not installed (Debian: fontconfig)" in err


def test_redirected(tmp_path):
    """After > the file has the strike, and what is said is on standard error; a file that has something, as a log, gets the
    lines."""
    due = mkstrike.Font(SANS).strike(16, "ascii", name="DejaVuSans").text
    words = [sys.executable, "-m", "mkstrike", SANS, "--chars", "ascii"]
    with open(tmp_path / "mine.bdf", "wb") as out:
        ran = subprocess.run(words, stdout=out, stderr=subprocess.PIPE, cwd=tmp_path, check=True)
    assert (tmp_path / "mine.bdf").read_bytes() == due and ran.stderr == b"standard output: 95 glyphs\n"
    assert os.listdir(tmp_path) == ["mine.bdf"]
    (tmp_path / "log").write_bytes(b"begun\n")
    for more, said in (([], b"begun\n./DejaVuSans-16.bdf: 95 glyphs\n"),
                       (["--size", "8,9"], b"begun\n./DejaVuSans-8.bdf: 95 glyphs\n./DejaVuSans-9.bdf: 95 glyphs\n")):
        with open(tmp_path / "log", "r+b") as out:
            out.seek(0, 2)
            subprocess.run([*words, *more], stdout=out, cwd=tmp_path, check=True)
        assert (tmp_path / "log").read_bytes() == said
        (tmp_path / "log").write_bytes(b"begun\n")


@needs_fonttools
def test_names_of_files(strike, tmp_path):
    """Two instances, two faces and two ways of drawing have files of their own."""
    from test_font_files import MASTERS, built, collected
    (tmp_path / "var.ttf").write_bytes(built(MASTERS[0], 400, with_axis=True))
    collected(tmp_path / "two.ttc", SANS, MONO)
    for words in (["var.ttf", "--axes", "wght=400"], ["var.ttf", "--axes", "wght=700"], ["two.ttc"], ["two.ttc", "--face", "1"],
                  ["two.ttc", "--unhinted"],
                  ["two.ttc", "--dropout=off"]):
        status, out, _ = strike([*words, "--chars", "41"])
        assert status == 0 and out.endswith(b": 1 glyphs\n")
    assert sorted(it.name for it in tmp_path.glob("*.bdf")) == ["two-16.bdf", "two-face1-16.bdf", "two-off-16.bdf",
                                                                "two-unhinted-16.bdf", "var-wght400-16.bdf",
                                                                 "var-wght700-16.bdf"]
    assert mkstrike.Strike.open(tmp_path / "var-wght700-16.bdf").name == "var-wght700"


def test_strikes_of_other_fonts(strike, tmp_path):
    """A second run replaces no strike of another font by the same name of a file; of the same font it does, also in cells."""
    for folder, path in (("one", SANS), ("two", MONO)):
        (tmp_path / folder).mkdir()
        os.symlink(path, tmp_path / folder / "Regular.ttf")
    assert strike(["one/Regular.ttf", "--chars", "ascii"])[0] == 0
    kept = (tmp_path / "Regular-16.bdf").read_bytes()
    status, _, err = strike(["two/Regular.ttf", "--chars", "latin-1"])
    assert status == 1
    assert "Regular-16.bdf is there, of another font: give another folder by --out, or replace it by -o ./Regular-16.bdf" in err
    assert (tmp_path / "Regular-16.bdf").read_bytes() == kept
    for words in (["--chars", "latin-1"], ["--cell", "12x20"], ["--chars", "ascii,2603"]):
        assert strike(["one/Regular.ttf", *words])[0] == 0
    assert strike(["two/Regular.ttf", "--chars", "ascii", "-o", "Regular-16.bdf"])[0] == 0
    assert (tmp_path / "Regular-16.bdf").read_bytes() != kept


def test_files_of_other_fonts(strike, tmp_path):
    """The same in each format, by an attribute of the file: `-o` replaces it, and a copy that has none is replaced."""
    for folder, path in (("one", SANS), ("two", MONO)):
        (tmp_path / folder).mkdir()
        os.symlink(path, tmp_path / folder / "Regular.ttf")
    if not has_attributes(tmp_path):
        pytest.skip("no attributes of files in %s" % tmp_path)
    for form in ("c", "gfx", "lvgl", "raw", "py", "bdf"):
        (tmp_path / form).mkdir()
        words = ["--format", form, "--out", form, "--cell", "12x20", "--chars", "41-45"]
        assert strike(["one/Regular.ttf", *words])[0] == 0
        (path,) = (tmp_path / form).iterdir()
        kept = path.read_bytes()
        assert os.getxattr(path, "user.mkstrike.font") == b"DejaVu Sans Book"
        status, out, err = strike(["two/Regular.ttf", *words])
        assert status == 1 and out == b"" and "%s/%s is there, of another font: " % (form, path.name) in err
        assert path.read_bytes() == kept
        assert strike(["one/Regular.ttf", *words[:-1], "41-46"])[0] == 0
        assert path.read_bytes() != kept
        if form != "bdf":
            os.removexattr(path, "user.mkstrike.font")
            assert strike(["two/Regular.ttf", *words])[0] == 0
            assert os.getxattr(path, "user.mkstrike.font") == b"DejaVu Sans Mono Book"
    assert strike(["one/Regular.ttf", "--format", "c", "-o", "c/Regular-16.h"])[0] == 0


def has_attributes(folder):
    """Whether files of a folder can have attributes of a user."""
    path = folder / "attribute"
    path.touch()
    try:
        os.setxattr(path, "user.any", b"1")
    except OSError:
        return False
    finally:
        path.unlink()
    return True


def mistakes_in_python():
    """What is wrong in Python: a call, the error, and its words."""
    font = mkstrike.Font(SANS)
    at, strike = font.at(16), font.strike(16, "ascii")
    return [
        (lambda: mkstrike.Font("No Such Sans"), FileNotFoundError, "no installed font of this name"),
        (lambda: mkstrike.Font(16), TypeError, "^source is a path, bytes"),
        (lambda: font.at("16"), TypeError, "^size is a whole number, not '16'$"),
        (lambda: font.heights("16"), TypeError, "^size is a whole number, not '16'$"),
        (lambda: font.strike(16.0, "41"), TypeError, "^size is a whole number, not 16.0$"),
        (lambda: font.glyph(None, "A"), TypeError, "^size is a whole number"),
        (lambda: font.glyph_by_id("1", 1), TypeError, "^size is"),
        (lambda: font.glyph(16, "ab"), TypeError, "^char is one character or a code point, not 'ab'$"),
        (lambda: font.glyph(16, 1.5), TypeError, "^char is"),
        (lambda: font.glyph_by_id(16, "1"), TypeError, "^number is a whole number"),
        (lambda: font.glyph_by_id(16, 99999), ValueError, "^number is 99999: glyphs have the numbers 0 to 65,535$"),
        (lambda: font.glyph_by_id(16, -1), ValueError, "^number is -1: "),
        (lambda: font.strike(16, "41", name=5), TypeError, "^name is a string"),
        (lambda: font.strike(16, range(65537)), ValueError, "^chars has 65,537 characters: a strike has at most 65,536$"),
        (lambda: font.strike(16, None), TypeError, "^chars: None is no list"),
        (lambda: font.strike(16, "41", dropout="middle"), ValueError, "^dropout is 'font', 'left', 'near' or None"),
        (lambda: font.at(16.0), TypeError, "^size is a whole number, not 16.0$"),
        (lambda: font.at(0), mkstrike.Refused, "^60 BadSize"), (lambda: font.at(2000), mkstrike.Refused, "^60 BadSize"),
        (lambda: font.at(16, dropout="middle"), ValueError, "^dropout is 'font', 'left', 'near' or None"),
        (lambda: font.at(16, dropout=[]), ValueError, "^dropout is 'font', 'left', 'near' or None"),
        (lambda: at["一"], KeyError, r"U\+4E00"), (lambda: at["ab"], KeyError, "there is no 'ab'"),
        (lambda: at.glyph("g"), TypeError, "^number is a whole number"), (lambda: at.measure("一"), mkstrike.Missing, r"U\+4E00"),
        (lambda: at.glyphs("Hello"), ValueError, "use text="),
        (lambda: at.measure(b"abc"), TypeError, "^text is a string, not bytes$"),
        (lambda: font.fit(8, 16, " "), ValueError, "none of the characters"),
        (lambda: strike.encode("exe"), ValueError, "'exe' is no format: there are bdf, png"),
        (lambda: strike.save("a.exe"), ValueError, "a.exe: the ending says no format"),
        (lambda: strike.subset("Hello"), ValueError, "use text="),
        (lambda: strike.replace({"ab": strike["a"]}), TypeError, "^a glyph is of one character, not 'ab'$"),
        (lambda: strike.replace({"a": "###"}), TypeError, "^the glyph of 'a' is a Glyph, not str$"),
        (lambda: mkstrike.Glyph.drawn("xx"), ValueError, r"^a picture has # and \.; not 'x'$"),
        (lambda: strike.sheet("x.png"), TypeError, "^columns is a whole number, not 'x.png'$"),
        (lambda: strike.sheet(0), ValueError, "^columns and scale are 1 or more"),
        (lambda: font.strike(16, "41", properties={"FOUNDRY": 1.5}), TypeError,
         "^properties: the value of 'FOUNDRY' is a whole number or a string, not 1.5$"),
        (lambda: strike.save("x.h", columns=4), TypeError,
         "^columns is no option of the format c: it has name, attribute, bytes, bits, align$"),
        (lambda: strike.encode("bdf", scale=2), TypeError, "^scale is no option of the format bdf$"),
        (lambda: strike.save("nodir/x.bdf"), FileNotFoundError, "there is no folder for it: 'nodir/x.bdf'"),
        (lambda: font.strike(16, "41,19c", refused="x"), ValueError, "^refused is 'leave-out'"),
        (lambda: mkstrike.merge([font]), ValueError, "^parts: <Font 'DejaVuSans', .* has no size$"),
        (lambda: strike.cell("8", 16), TypeError, "^width is a whole number, not '8'$"),
    ]


@pytest.mark.parametrize("k", range(43))
def test_mistakes_in_python(k):
    """An error of a documented type, which names the argument."""
    call, kind, match = mistakes_in_python()[k]
    with pytest.raises(kind, match=match):
        call()
