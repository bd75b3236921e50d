"""What fonts call themselves, fonts by their names, and the names of X11."""
import io
import os
import random
import re
import shutil
import subprocess
import sys

import pytest
from shared import FOLDER, MONO, SANS, font_at, font_bytes, needs_font, needs_fonttools, strike_by_command

import mkstrike

BOLD = FOLDER + "liberation/LiberationMono-Bold.ttf"
ITALIC = FOLDER + "liberation/LiberationSansNarrow-BoldItalic.ttf"
OBLIQUE = FOLDER + "dejavu/DejaVuSans-Oblique.ttf"


@pytest.mark.parametrize("path, names, name", [
    (SANS, ("DejaVu Sans", "Book", 400, 5, "R", False), "-misc-DejaVu Sans-Medium-R-Normal--16-160-72-72-p"),
    (BOLD, ("Liberation Mono", "Bold", 700, 5, "R", True), "-misc-Liberation Mono-Bold-R-Normal--16-160-72-72-m"),
    (ITALIC, ("Liberation Sans Narrow", "Bold Italic", 700, 3, "I", False),
     "-misc-Liberation Sans Narrow-Bold-I-Condensed--16-160-72-72-p"),
    (OBLIQUE, ("DejaVu Sans", "Oblique", 400, 5, "O", False), "-misc-DejaVu Sans-Medium-O-Normal--16-160-72-72-p")])
def test_names(path, names, name):
    """Family, style, weight, width, slant and spacing; X11's name has them, and the size."""
    font = font_at(path)
    assert tuple(font.names) == names and font.names.family == names[0]
    strike = font.strike(16, "41-43,61-63", x11=True)
    average = (20 * sum(it.advance for it in strike.values()) + 6) // 12
    assert strike.name == "%s-%d-ISO10646-1" % (name, average) and strike.properties["FAMILY_NAME"] == names[0]
    assert strike.properties["SLANT"] == names[4]
    assert strike.properties["WEIGHT_NAME"] == name.split("-")[3]


@needs_font(BOLD)
def test_names_of_strikes():
    """Each size and each cell has its own name; a strike with a name of its own keeps it."""
    font = mkstrike.Font(BOLD)
    assert [font.strike(size, "ascii", x11=True).name.split("-")[7:9] for size in (10, 12)] == [["10", "100"], ["12", "120"]]
    strike = font.strike(16, "ascii")
    assert strike.name == "strike"
    assert strike.with_properties(x11=True).cell(8, 16).with_properties(x11=True).name.endswith("-m-80-ISO10646-1")
    assert font.strike(16, "ascii", name="mine",
                       x11=True).name == "mine" == mkstrike.merge([strike], name="mine").with_properties(x11=True).name
    assert mkstrike.merge([strike]).with_properties(x11=True).name == strike.with_properties(x11=True).name


@needs_font(BOLD)
def test_fonts_of_the_x_server(tmp_path):
    """Three sizes are three fonts of the X server, without --name and --x11."""
    for program, package in (("bdftopcf", "xfonts-utils"), ("mkfontdir", "xfonts-utils")):
        if not shutil.which(program):
            pytest.skip("%s is not installed (Debian: %s)" % (program, package))
    strike_by_command(tmp_path, BOLD, "--size", "10,12,14", "--format", "pcf", "--quiet")
    subprocess.run(["mkfontdir", "."], cwd=tmp_path, check=True)
    lines = (tmp_path / "fonts.dir").read_text().split("\n")
    assert lines[0] == "3" and sorted(re.sub(r"-[mp]-\d+-iso10646-1$", "", it.partition(" ")[2]) for it in lines[1:4]) == [
        "-misc-liberation mono-bold-r-normal--%d-%d-72-72" % (size, 10 * size) for size in (10, 12, 14)]


def named(family, style="Regular", large=(), **os2):
    """A font of such names, by fontTools."""
    from test_font_files import MASTERS, built
    from fontTools.ttLib import TTFont
    font, out = TTFont(io.BytesIO(built(MASTERS[0], 400))), io.BytesIO()
    font["name"].names = []
    font["name"].setName(family, 1, 3, 1, 0x409)
    font["name"].setName(style, 2, 3, 1, 0x409)
    font["name"].setName("Other", 1, 3, 1, 0x407)
    font["name"].setName("Mac", 1, 1, 0, 0)
    for number, text in large:
        font["name"].setName(text, number, 3, 1, 0x409)
    for name, value in os2.items():
        setattr(font["OS/2"], name, value)
    font.save(out)
    return out.getvalue()


@needs_fonttools
def test_odd_names():
    """A family reaches X11's name without what would part it; weights have X11's words."""
    for family, due in (("A-B*?\"C,D", "A B   C D"), ("Gr\xfc\xdfe", "Gr  e"), ("一二", "strike"), ("x" * 300, "x" * 60)):
        strike = mkstrike.Font(named(family)).strike(16, "41", x11=True)
        assert strike.name.split("-")[2] == due and strike.name.count("-") == 14
        assert mkstrike.Font(named(family)).names.family == family
    for weight, due in ((100, "Thin"), (300, "Light"), (400, "Medium"), (500, "Medium"), (600, "DemiBold"), (700, "Bold"),
                        (900, "Black"), (0, "Thin")):
        assert mkstrike.Font(named("A", usWeightClass=weight)).strike(16, "41", x11=True).name.split("-")[3] == due
    assert mkstrike.Font(named("A", fsSelection=32)).names.weight == 700
    assert mkstrike.Font(named("A", fsSelection=1)).names.slant == "I"
    assert mkstrike.Font(named("A Thin", large=((16, "A"), (17, "Thin")))).names[:2] == ("A", "Thin")
    assert mkstrike.Font(named("A", large=((16, " "),))).names[:2] == ("A", "Regular")
    assert mkstrike.Font(named("A", usWidthClass=9)).names.width == 9
    assert mkstrike.Font(named("A\x1b[2J")).names.family == "A\\x1b[2J"


@needs_font(SANS)
def test_damaged_names():
    """Damage in the tables of names says nothing, or something else; it is never an error."""
    from making import fonts
    from damage import Damaged
    part, choose = fonts.part_of(font_bytes(SANS), [0x41]), random.Random(2)
    for _ in range(500):
        data = bytes(Damaged(part, choose, [part]).data)
        names = mkstrike.Font(data, face=choose.choice((0, 1, 1 << 40))).names
        assert names.family.isprintable() and names.style.isprintable() and isinstance(names.is_monospace, bool)
    assert mkstrike.Font(b"", face=-9).names == ("font", "Regular", 400, 5, "R", False)


@needs_font(SANS, MONO)
@pytest.mark.skipif(not shutil.which("fc-match"), reason="fc-match is not installed (Debian: fontconfig)")
def test_installed_fonts(tmp_path, monkeypatch):
    """A font by its name, if no file has that name; fontconfig's next best is no answer."""
    assert mkstrike.Font("DejaVu Sans Mono").data == font_bytes(MONO) and mkstrike.Font("dejavu sans mono").name == "DejaVuSansMono"
    assert mkstrike.Font("DejaVu Sans:bold").names[1:3] == ("Bold", 700)
    for name in ("No Such Font", "DejaVuSans.ttf", "", ":bold", "-o"):
        with pytest.raises(FileNotFoundError, match="there is no such file, and no installed font of this name"):
            mkstrike.Font(name)
    with pytest.raises(FileNotFoundError):
        mkstrike.Font("./DejaVu Sans")
    monkeypatch.chdir(tmp_path)
    (tmp_path / "DejaVu Sans").write_bytes(font_bytes(MONO))
    assert mkstrike.Font("DejaVu Sans").data == font_bytes(MONO)
    monkeypatch.setenv("PATH", "/nonexistent")
    with pytest.raises(FileNotFoundError):
        mkstrike.Font("DejaVu Sans Mono")


@needs_font(MONO)
@pytest.mark.skipif(not shutil.which("fc-match"), reason="fc-match is not installed (Debian: fontconfig)")
def test_installed_fonts_stay(tmp_path):
    """A font that is found by its name is never written over: this one is a copy, which a configuration of its own names."""
    shutil.copy(MONO, tmp_path / "copy.ttf")
    (tmp_path / "fonts.conf").write_text("<fontconfig><dir>%s</dir><cachedir>%s/cache</cachedir></fontconfig>" %
                                         (tmp_path, tmp_path))
    ran = subprocess.run([sys.executable, "-m", "mkstrike", "DejaVu Sans Mono", "-o", "copy.ttf", "--format", "bdf"], cwd=tmp_path,
                         capture_output=True,
                         env={**os.environ, "FONTCONFIG_FILE": str(tmp_path / "fonts.conf")})
    assert ran.returncode == 1 and b"copy.ttf is read here, and would be replaced" in ran.stderr
    assert (tmp_path / "copy.ttf").read_bytes() == font_bytes(MONO)
