"""Strikes of other programs: what they claim, their character sets, and what is no BDF at all."""
import os
import subprocess
import sys
import warnings

import pytest
from shared import SANS, TOP, font_bytes, needs_font, needs_pillow, pixels, text_of

import mkstrike
from mkstrike import bdf


def text(glyphs, name="other", box="8 8 0 0", properties=()):
    """A text of another program. A glyph has its number, its box, and its rows in hexadecimal."""
    lines = ["STARTFONT 2.1", "FONT " + name, "SIZE 8 72 72", "FONTBOUNDINGBOX " + box, "STARTPROPERTIES %d" %
             (2 + len(properties))]
    lines += ["FONT_ASCENT 8", "FONT_DESCENT 0", *properties, "ENDPROPERTIES", "CHARS %d" % len(glyphs)]
    for at, (number, bbx, rows) in enumerate(glyphs):
        lines += ["STARTCHAR glyph%d" % at, "ENCODING %s" % number, "SWIDTH 500 0", "DWIDTH 8 0", "BBX " + bbx, "BITMAP", *rows,
                  "ENDCHAR"]
    return "\n".join(lines + ["ENDFONT", ""]).encode("utf-8", "surrogateescape")


def filled(width, height, left=0, bottom=0):
    """A box whose pixels are all set, with its rows."""
    size = (width + 7) // 8
    return "%d %d %d %d" % (width, height, left,
                            bottom), [("%x" % ((1 << width) - 1 << 8 * size - width)).rjust(2 * size, "0")] * height


def opened(folder, data):
    """The strike of a file."""
    path = folder / "other.bdf"
    path.write_bytes(data)
    return mkstrike.Strike.open(path)


@needs_pillow
@pytest.mark.parametrize("claim, box",
                         [("8 8 0 0", (8, 12, 0, -4)), ("1 1 0 0", (8, 8, 2, 0)), ("8 8 0 0", (8, 8, -3, 0)),
                          ("99999 99999 0 0", (8, 8, 0, 0))])
def test_box_is_that_of_the_glyphs(tmp_path, claim, box):
    """No pixel is lost, and none is made, if a file claims another box."""
    strike = opened(tmp_path, text([(65, *filled(*box)), (32, "0 0 0 0", [])], box=claim))
    assert strike.box == box
    assert sum(it == 0 for it in strike.sheet().getdata()) == box[0] * box[1] == len(pixels(strike["A"]))
    rows = strike.encode("c").decode().rpartition("_rows[")[2]
    assert sum(bin(int(it, 16)).count("1") for it in rows.replace(",", " ").replace("{", " ").replace("}", " ").split()
               if it.startswith("0x")) == box[0] * box[1]


@pytest.mark.parametrize("registry, encoding, number, char", [
    ("KOI8", "R", 193, "а"), ("ISO8859", "5", 0xD0, "а"), ("iso8859", "1", 0xE9, "é"), ("ISO8859", "15", 0xA4, "€"),
    ("IBM", "CP437", 0x80, "Ç"),
    ("cp", "437", 1, "☺"), ("ibm", "437", 127, "⌂"), ("MICROSOFT", "CP1252", 0x80, "€"), ("ISO10646", "1", 193, "Á"),
    ("ISO646.1991", "IRV", 65, "A")])
def test_character_sets(tmp_path, registry, encoding, number, char):
    """ENCODING is a place in the set that the properties name, or the last two fields of the name; a step's text has Unicode."""
    properties = ['CHARSET_REGISTRY "%s"' % registry, 'CHARSET_ENCODING "%s"' % encoding]
    name = "-a-b-medium-r-normal--8-80-72-72-c-80-"
    for data in (text([(number, *filled(8, 8))], properties=properties),
                 text([(number, *filled(8, 8))], name + registry + "-" + encoding),
                 text([(number, *filled(8, 8))], name + "fontspecific-0", properties=properties)):
        strike = opened(tmp_path, data)
        assert list(strike) == [char] and strike.text == data and mkstrike.characters(str(tmp_path / "other.bdf")) == [ord(char)]
        cell = strike.cell(8, 8)
        assert list(mkstrike.Strike(cell.text)) == [char] and b"ENCODING %d\n" % ord(char) in cell.text
        assert cell.name in ("other", name + "ISO10646-1") or registry == "ISO10646"
        assert cell.properties.get("CHARSET_REGISTRY", "ISO10646") == "ISO10646"


def test_unknown_character_sets(tmp_path):
    """A set that Python does not know, or of more than one byte, is refused by both its names."""
    for registry, encoding in (("ADOBE", "FontSpecific"), ("JISX0208.1983", "0"), ("BIG5", "ETEN-0"), ("x", "utf-8"),
                               ("../x", "\udc80")):
        properties = ['CHARSET_REGISTRY "%s"' % registry, 'CHARSET_ENCODING "%s"' % encoding]
        with pytest.raises(bdf.NotBdf, match="the character set '%s', '" % registry) as found:
            opened(tmp_path, text([(65, *filled(8, 8))], properties=properties))
        assert repr(encoding) in str(found.value)


@needs_font(SANS)
def test_own_names():
    """A strike that is made here has code points, whatever set its name has."""
    name = "-misc-dejavu-medium-r-normal--16-160-72-72-p-100-koi8-r"
    strike = mkstrike.Font(SANS).strike(16, "430-44f", name=name)
    assert list(strike) == list(map(chr, range(0x430, 0x450)))
    assert list(strike.cell(16, 16)) == list(strike) == list(mkstrike.merge([strike]))


@needs_pillow
def test_glyphs_without_a_character(tmp_path):
    """A step that leaves a glyph out names it; steps that keep it don't."""
    strike = opened(tmp_path, text([(-1, *filled(8, 8)), ("-1 7", *filled(8, 8)), (65, *filled(8, 8)), (300, *filled(8, 8))],
                                   properties=['CHARSET_REGISTRY "ISO8859"', 'CHARSET_ENCODING "1"']))
    assert list(strike) == ["A"]
    for step in (lambda: strike.cell(8, 8), lambda: mkstrike.merge([strike]), lambda: strike.with_properties({"A": 1}),
                 lambda: strike.encode("c"),
                 lambda: strike.encode("gfx"), lambda: strike.encode("png")):
        with pytest.warns(UserWarning, match="^left out, since ENCODING gives no character: glyph0, glyph1, glyph3$"):
            step()
    with warnings.catch_warnings():
        warnings.simplefilter("error")
        assert strike.encode("bdf") == strike.text


@pytest.mark.parametrize("bbx, rows",
                         [("16 2 0 0", ["F", "FFFF"]), ("16 2 0 0", ["FFFF", "FF F"]), ("16 2 0 0", ["FF F", "F FF"]),
                          ("8 2 0 0", ["FF"]), ("65535 65535 0 0", [""] * 9),
                                       ("8 1 99999 0", ["FF"]), ("8 1 0 -99999", ["FF"]), ("1_0 1 0 0", ["FF", "FF"]),
                                       ("١ 1 0 0", ["80"]), ("8 1 0", ["FF"])])
def test_rows_and_boxes(tmp_path, bbx, rows):
    """A row that is shorter than its glyph, or a box that can't be, is no BDF."""
    with pytest.raises(bdf.NotBdf, match="^no BDF file, or a damaged one: line [0-9]+: "):
        opened(tmp_path, text([(65, bbx, rows)]))


def test_cut_rows(tmp_path):
    """A file that ends within a glyph is no BDF."""
    data = text([(65, *filled(8, 8))])
    for cut in (data[:data.index(b"BITMAP") + 7 + 3 * 4], data[:data.index(b"BITMAP") + 7], data[:data.index(b"BBX")],
                data[:data.index(b"CHARS")]):
        with pytest.raises(bdf.NotBdf, match="the file ends within a glyph|has no BITMAP|no CHARS"):
            opened(tmp_path, cut)


def test_bits_beside_a_box(tmp_path):
    """Bits right of a box, and digits after them, don't count."""
    strike = opened(tmp_path, text([(65, "3 2 0 0", ["ff", "5fff"])]))
    assert str(strike["A"]) == "###\n.#." and strike["A"].rows == (b"\xe0",
                                                                   b"\x40") and b"\nE0\n40\n" in strike.with_properties({}).text


@pytest.mark.parametrize("what", ["\r", "\x1b]0;title\x07", "\x7f", "\x9b", "\x0c", "\0"])
def test_control_characters(tmp_path, what):
    """A line with a control character is no BDF, wherever it is."""
    good = text([(65, *filled(8, 8))], properties=['NOTICE "x"'])
    for place in (b"FONT other", b'NOTICE "x', b"STARTCHAR glyph0", b"ENCODING 65"):
        with pytest.raises(bdf.NotBdf, match=r"has the control character U\+00"):
            opened(tmp_path, good.replace(place, place + what.encode() + b"y"))
    assert list(opened(tmp_path, good.replace(b"\n", b"\r\n"))) == list(opened(tmp_path, good.replace(b"BBX ", b"BBX\t"))) == ["A"]


def test_messages(tmp_path):
    """What a message has of a damaged file is short, and can be printed."""
    for place in (b"FONT_ASCENT 8", b"BBX 8"):
        with pytest.raises(bdf.NotBdf) as found:
            opened(tmp_path, text([(65, *filled(8, 8))]).replace(place, place + 9999 * b"\xff"))
        assert str(found.value).isprintable() and len(str(found.value)) < 300


def test_room(tmp_path):
    """What a small file would unpack to is said before any glyph is made, and so are arrays and pictures of far glyphs."""
    row = "F" * 16384
    with pytest.raises(bdf.NotBdf, match="pixels, more than 67,108,864"):
        opened(tmp_path, text([(65 + k, "65535 1 0 0", [row]) for k in range(1025)]))
    far = opened(tmp_path, text([(65, *filled(8, 8, 60000, 60000)), (66, *filled(8, 8))]))
    with pytest.raises(ValueError, match="more than 67,108,864"):
        far.encode("c")
    pytest.importorskip("PIL", reason="PIL is not installed (Debian: python3-pil)")
    with pytest.raises(ValueError, match="a picture of .* one has at most 268,435,456"):
        far.sheet()


def test_names_on_terminals(tmp_path):
    """Names of files and glyphs reach a terminal with their control characters escaped: of `strike`, and of bin/show-bdf."""
    name = "a\x1b]0;title\x07.bdf"
    (tmp_path / name).write_bytes(text([(-1, *filled(8, 8)), (65, *filled(8, 8))]))
    ran = subprocess.run([sys.executable, "-m", "mkstrike", name, "none\x1b.ttf", "--format", "c"], cwd=tmp_path,
                         capture_output=True)
    assert b"\x1b" not in ran.stdout + ran.stderr and b"\x07" not in ran.stdout + ran.stderr
    assert rb"a\x1b]0;title\x07.h: 1 glyphs" in ran.stdout and rb"none\x1b.ttf: " in ran.stderr
    ran = subprocess.run([sys.executable, "-m", "mkstrike", SANS, "--x\x1b"], cwd=tmp_path, capture_output=True)
    assert ran.returncode == 2 and b"\x1b" not in ran.stderr and rb"--x\x1b" in ran.stderr
    shown = text([(65, *filled(8, 8))]).replace(b"glyph0", b"a\x1b]0;x\x07\x9b\xc2\x9bz")
    ran = subprocess.run([os.path.join(TOP, "bin/show-bdf")], input=shown, capture_output=True)
    first = ran.stdout.split(b"\n")[0]
    assert ran.returncode == 0 and first.startswith(rb"a\x1b]0;x\x07") and first.endswith(b"z") and first.isascii()
    assert first.decode().isprintable()
    assert ran.stdout.split(b"\n")[1:9] == [b"########"] * 8


@needs_font(SANS)
def test_show_bdf(tmp_path):
    """bin/show-bdf prints the pictures of glyphs, and says so if a file is no BDF, or is not there."""
    strike = mkstrike.Font(SANS).strike(16, "20-7e")
    strike.save(tmp_path / "a=b.bdf")

    def run(*words):
        ran = subprocess.run([os.path.join(TOP, "bin/show-bdf"), *words], cwd=tmp_path, input=strike.text, capture_output=True)
        return ran.returncode, ran.stdout.decode(), ran.stderr.decode()

    due = "".join("uni%04X\n%s\n" % (ord(char), "".join(line + "\n" for line in str(it).split("\n") if line)) for char,
                  it in strike.items())
    assert run() == run("a=b.bdf") == (0, due, "") and run("a=b.bdf", "a=b.bdf") == (0, 2 * due, "")
    status, out, said = run(SANS)
    assert (status, out) == (1, "") and "no bitmap font in BDF; mkstrike show prints a glyph of a TrueType font" in said
    for words in (("nosuch.bdf",), ("a=b.bdf", "41")):
        status, out, said = run(*words)
        assert (status, out) == (1, "") and "show-bdf: there is no file %s; all glyphs of each FILE" % words[-1] in said
    assert run("-") == run()
    assert run("--help")[:2] == (0, "show-bdf [FILE].. prints the glyphs of bitmap fonts (BDF) as pictures; without FILE those of "
                                 "standard input\n")


@needs_font(SANS)
def test_box_and_blanks():
    """A glyph without a pixel has no box: the text of one strike is that of its merge, of glyphs right of and above the origin."""
    for chars in ("20,2e", "20,27", "20-7e", "20"):
        strike = mkstrike.Font(SANS).strike(16, chars)
        assert mkstrike.merge([strike]).text == strike.text == text_of(["--ppem", "16", "--chars", chars], font_bytes(SANS))
        assert b"FONTBOUNDINGBOX %d %d %d %d\n" % strike.box in strike.text
