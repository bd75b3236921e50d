"""Real readers of BDF see in strikes with the properties of X11 what is there, under names of X11's form and plain ones."""
import contextlib
import ctypes
import ctypes.util
import os
import re
import struct
import subprocess
import sys

import pytest
from needs import FOLDER, left_out, tool
from prebuilt import TOP

sys.path.append(os.path.join(TOP, "python"))
import mkstrike  # noqa: E402

SANS, MONO = (FOLDER + "dejavu/%s.ttf" % it for it in ("DejaVuSans", "DejaVuSansMono"))
LATIN_9 = "20-7e,a0-ff,152,153,160,161,178,17d,17e,20ac"
X_NAME = "-misc-%s-medium-r-normal--16-160-72-72-%s-%d-ISO10646-1"
STRIKES = ((MONO, LATIN_9, X_NAME % ("dejavu sans mono", "m", 100)), (MONO, LATIN_9 + ",2500-259f,fffd", "strike"),
           (SANS, LATIN_9 + ",fffd", X_NAME % ("dejavu sans", "p", 95)), (SANS, "41-5a,400-45f", "Sans, some letters"),
           (SANS, "391-3c9", X_NAME % ("greek", "p", 100)))


class Strike:
    """A strike's file, and what its text says: its name, its characters with their advances, and its height."""

    def __init__(self, folder):
        self.folder, self.path = folder, str(folder / "strike.bdf")
        read = mkstrike.Strike.open(self.path)
        self.name, self.widths, self.height = (read.name, {ord(it): glyph.advance for it, glyph in read.items()},
                                               read.ascent + read.descent)
        self.codes, self.is_monospaced = set(self.widths), len(set(self.widths.values())) == 1

    def beside(self, name):
        """The path of a file in the strike's folder."""
        return str(self.folder / name)


@pytest.fixture(name="strikes", scope="module")
def strikes_for_x11(program, tmp_path_factory):
    """The strikes that are read, at 16 pixels, each in a folder of its own."""
    made = []
    for font, chars, name in STRIKES:
        if not os.path.exists(font):
            left_out("DejaVuSans")
        folder = tmp_path_factory.mktemp("strike")
        told(program, "make", "--ppem", "16", "--chars", chars, "--name=" + name, "--x11", font, "-o", folder / "strike.bdf")
        made.append(Strike(folder))
    return made


def told(*words, **how):
    """What a command prints, which must end well."""
    ran = subprocess.run([tool(words[0]), *words[1:]], capture_output=True, text=True, errors="replace", timeout=60, check=False,
                         **how)
    assert ran.returncode == 0, "%s: %s" % (words[0], ran.stderr + ran.stdout)
    return ran.stdout


def characters(path):
    """The characters that fontconfig sees in a font's file."""
    ends = [[int(it, 16) for it in part.split("-")] for part in told("fc-scan", "-f", "%{charset}", path).split()]
    return {code for it in ends for code in range(it[0], it[-1] + 1)}


def fonttosfnt(it):
    """An OpenType font with bitmaps."""
    told("fonttosfnt", "-o", it.beside("strike.otb"), it.path)
    assert characters(it.beside("strike.otb")) == it.codes


def fontconfig(it):
    """The strike as it is; 100 is monospaced."""
    assert characters(it.path) == it.codes
    assert (told("fc-scan", "-f", "%{spacing}", it.path) == "100") == it.is_monospaced


@contextlib.contextmanager
def x_server():
    """The display of an X server without a screen. It keeps its fonts' folders while nobody is connected."""
    words = [tool("Xvfb"), "-noreset", "-displayfd", "1", "-nolisten", "tcp", "-screen", "0", "64x64x8"]
    with subprocess.Popen(words, stdout=subprocess.PIPE, stderr=subprocess.DEVNULL, text=True) as server:
        try:
            yield ":" + server.stdout.readline().strip()
        finally:
            server.terminate()


def x11(it):
    """The X server lists the font that bdftopcf makes, and opens it."""
    os.mkdir(it.beside("x11"))
    told("bdftopcf", "-o", it.beside("x11/strike.pcf"), it.path)
    told("mkfontdir", it.beside("x11"))
    with x_server() as display:
        told("xset", "-display", display, "+fp", it.beside("x11"))
        listed, about = (told("xlsfonts", "-display", display, *more, "-fn", it.name) for more in ([], ["-ll"]))
    assert listed.split("\n")[0] == it.name.lower()
    # a name of X11's form stands for the font at other sizes too, which is told first and at this size is the same
    ascent, descent, default = (int(re.search(what + r":.*?(-?\d+)\)?$", about, re.M).group(1))
                                for what in (r"\sascent", r"\sdescent", "default char"))
    assert (ascent + descent, default) == (it.height, next((code for code in (0xFFFD, 0x20) if code in it.codes), 0))


def freetype(it):
    """FreeType's map of Unicode."""
    if not ctypes.util.find_library("freetype"):
        left_out("libfreetype6")
    library, opened, face, glyph = ctypes.CDLL("libfreetype.so.6"), ctypes.c_void_p(), ctypes.c_void_p(), ctypes.c_uint()
    library.FT_Get_First_Char.restype = library.FT_Get_Next_Char.restype = ctypes.c_ulong
    library.FT_Get_Next_Char.argtypes = [ctypes.c_void_p, ctypes.c_ulong, ctypes.c_void_p]
    assert library.FT_Init_FreeType(ctypes.byref(opened)) == library.FT_New_Face(opened, it.path.encode(), ctypes.c_long(0),
                                                                                 ctypes.byref(face)) == 0
    assert library.FT_Select_Charmap(face, int.from_bytes(b"unic", "big")) == 0
    seen, code = set(), library.FT_Get_First_Char(face, ctypes.byref(glyph))
    while glyph.value:
        seen.add(code)
        code = library.FT_Get_Next_Char(face, code, ctypes.byref(glyph))
    assert seen == it.codes


def fontforge(it):
    """FontForge's glyphs by their code points."""
    script = "import fontforge, sys; print('codes', *(it.unicode for it in fontforge.open(sys.argv[1]).glyphs('encoding')))"
    found = re.search(r"^codes(.*)", told("fontforge", "-quiet", "-lang=py", "-c", script, it.path), re.M)
    assert set(map(int, found.group(1).split())) == it.codes


def bdf2psf(it):
    """A font of the console: its cell is as wide as the advance, and as high as ascent and descent."""
    if it.is_monospaced:
        sets = "/usr/share/bdf2psf/"
        told("bdf2psf", "--fb", it.path, sets + "standard.equivalents", sets + "fontsets/Lat15.256", "256", it.beside("strike.psf"))
        magic, _, _, _, length, _, height, width = struct.unpack("<8L", (it.folder / "strike.psf").read_bytes()[:32])
        assert (magic, length, height, width) == (0x864AB572, 256, it.height, max(it.widths.values()))


def ucs2any(it):
    """The strike in ISO 8859-15, which is in its text already; the tool takes a name of X11's form."""
    if it.name.startswith("-") and 0x41 in it.codes:
        told("ucs2any", it.path, "/usr/share/fonts/X11/util/map-ISO8859-15", "ISO8859-15", cwd=it.folder)
        text = (it.folder / "strike-ISO8859-15.bdf").read_text()
        assert re.findall(r'^CHARSET_\w+ "(.*)"', text, re.M) == ["ISO8859",
                                                                  "15"] and len(re.findall("^STARTCHAR", text, re.M)) >= 191


def grub(it):
    """A font of GRUB's: its index of characters."""
    told("grub-mkfont", "-s", "16", "-o", it.beside("strike.pf2"), it.path)
    data = (it.folder / "strike.pf2").read_bytes()
    at = data.index(b"CHIX") + 4
    assert {struct.unpack_from(">L", data, at + 4 + k)[0] for k in range(0, int.from_bytes(data[at:at + 4], "big"), 9)} == it.codes


@pytest.mark.parametrize("reader", [fonttosfnt, fontconfig, x11, freetype, fontforge, bdf2psf, ucs2any, grub])
def test_reader(reader, strikes):
    """A reader sees just the strike's characters, and what it tells of them is right."""
    for it in strikes:
        reader(it)
