"""The command `strike`."""
import argparse
import os
import re
import subprocess
import sys

import pytest
from shared import LIBERATION, MONO, SANS, TOP, font_bytes, needs_font, needs_fontconfig, needs_pillow, text_of
from shared import strike_by_command as run

import mkstrike
from mkstrike import command, options, report

pytestmark = needs_font(SANS, MONO, LIBERATION)


@needs_pillow
def test_sizes_and_formats(tmp_path):
    """Files for each font, size and format."""
    out, err = run(tmp_path, SANS, MONO, "--size", "12,16", "--chars", "ascii", "--format", "bdf,png,pbm,c,gfx", "--out", "made",
                   "--scale", 2)
    assert out.splitlines()[0] == "made/DejaVuSans-12.bdf made/DejaVuSans-12.png made/DejaVuSans-12.pbm made/DejaVuSans-12.h " \
        "made/DejaVuSans-12-gfx.h: 95 glyphs" and err == ""
    assert len(os.listdir(tmp_path / "made")) == 20
    for path in (SANS, MONO):
        for size in (12, 16):
            stem = os.path.basename(path)[:-4]
            due = text_of(["--ppem", str(size), "--chars", "20-7e", "--name", stem], font_bytes(path))
            assert (tmp_path / "made" / ("%s-%d.bdf" % (stem, size))).read_bytes() == due
    header = (tmp_path / "made/DejaVuSans-12.h").read_text()
    assert header == mkstrike.Font(SANS).strike(12, "ascii", name="DejaVuSans").encode("c", name="DejaVuSans_12").decode()
    assert run(tmp_path, SANS, "--quiet") == ("", "")
    assert (tmp_path / "DejaVuSans-16.bdf").read_bytes() == text_of(["--ppem", "16", "--chars", "20-7e,a0-ff", "--name",
                                                                     "DejaVuSans"],
                                                                    font_bytes(SANS))


def test_options(tmp_path):
    """Modes, names, properties, texts."""
    name = "-misc-dejavu-medium-r-normal--16-160-72-72-m-100-ISO10646-1"
    run(tmp_path, MONO, "--chars", "41", "--text", "-", "--unhinted", "--dropout", "--x11", "--name=" + name, "--property",
        "CAP_HEIGHT=12",
        "--property", "FOUNDRY=misc", data="é\n€".encode())
    assert (tmp_path / "DejaVuSansMono-unhinted-left-16.bdf").read_bytes() == text_of(
        ["--ppem", "16", "--chars", "41,e9,20ac", "--unhinted", "--x11", "--name=" + name, "--property=CAP_HEIGHT=12",
         "--property=FOUNDRY=misc"], font_bytes(MONO), "left")
    (tmp_path / "text").write_text("abc\n", encoding="utf-8")
    run(tmp_path, SANS, "--text", "text", "--name", "x")
    assert list(mkstrike.Strike.open(tmp_path / "x-16.bdf")) == ["a", "b", "c"]


def test_what_is_left_out(tmp_path):
    """What is missing, refused, and outside the cell is named."""
    out, err = run(tmp_path, SANS, "--chars", "19c,250,4e00-4e02,41,57", "--cell", "9x18")
    assert out == "./DejaVuSans-16.bdf: 2 glyphs\n"
    assert err.splitlines() == [
        "strike: DejaVuSans: 3 missing: U+4E00-U+4E02",
        "strike: DejaVuSans-16: refused: U+019C: 30 StackUnder during glyph 350 in glyph 350 at 73 opcode 39",
        "strike: DejaVuSans-16: refused: U+0250: 30 StackUnder during glyph 530 in glyph 530 at 177 opcode 5D",
        "strike: DejaVuSans-16: outside the cell by 2 right: U+0041",
        "strike: DejaVuSans-16: outside the cell by 7 right: U+0057"]
    strike = mkstrike.Strike.open(tmp_path / "DejaVuSans-16.bdf")
    assert {it.advance for it in strike.values()} == {9} and strike.height == 18
    out, err = run(tmp_path, SANS, "--chars", "0-20,4e00", "--size", "8,16")
    assert err == "strike: DejaVuSans: 33 missing: U+0000-U+001F, U+4E00\n"
    out, err = run(tmp_path, SANS, "--chars", "19c", "--strict", status=1)
    assert out == ""
    assert err.splitlines() == [
        "strike: %s at 16 pixels: 30 StackUnder during glyph 350 in glyph 350 at 73 opcode 39" % SANS,
        "strike: with --unhinted no program of the font runs; to fix the font, push enough numbers before this instruction: each "
        "program begins with an empty stack"]


def test_many_refused(tmp_path):
    """Twelve refused characters have a line each, and the others one line with their number."""
    import test_refusals as made
    damaged = next(run.data for case in made.test_refusals.functions for run in case()
                   if run.due.err.startswith(b"mkstrike: 18 GlyphShort"))
    (tmp_path / "a.ttf").write_bytes(damaged)
    with pytest.raises(mkstrike.Refused, match="^18 ") as found:
        mkstrike.Font(damaged).glyph(16, "A")
    glyph = found.value
    refused = {chr(code): glyph for code in range(0x41, 0x55)}
    strike = mkstrike.Strike(mkstrike.Font(SANS).strike(16, "20").text, refused=refused, is_own=True)
    lines = report.of_strike(strike, False)
    assert [it for it in lines if it.startswith("refused")] == ["refused: U+%04X: %s" % (0x41 + k, glyph.line)
                                                                for k in range(12)] + [
        "refused: 8 more: U+004D-U+0054"]


def test_options_alone(tmp_path):
    """Options that go without a partner: --property without --x11, --scale and --columns for pbm."""
    run(tmp_path, MONO, "--chars", "41", "--property", "CAP_HEIGHT=12", "--property", "NOTICE=mine")
    assert mkstrike.Strike.open(tmp_path / "DejaVuSansMono-16.bdf").properties == {"CAP_HEIGHT": 12, "NOTICE": "mine"}


@needs_pillow
@pytest.mark.parametrize("form", ["pbm", "png"])
def test_pictures(tmp_path, form):
    """--scale and --columns are those of the sheet, in both forms."""
    from PIL import Image
    run(tmp_path, MONO, "--chars", "ascii", "--format", form, "--scale", "3", "--columns", "7")
    due = mkstrike.Font(MONO).strike(16, "ascii").sheet(columns=7, scale=3)
    assert Image.open(tmp_path / ("DejaVuSansMono-16." + form)).convert("1").tobytes() == due.tobytes()


def test_merging(tmp_path):
    """Fonts, and a strike that is there already, merged."""
    run(tmp_path, "--chars", "ascii,2603,2500", "--size", "12,16", "--name", "both", "--font", LIBERATION, "--font", MONO)
    for size in (12, 16):
        strikes = [mkstrike.Font(it).strike(size, "ascii,2603,2500", name="both") for it in (LIBERATION, MONO)]
        assert (tmp_path / ("both-%d.bdf" % size)).read_bytes() == mkstrike.merge(strikes).text
    run(tmp_path, "--font", "both-16.bdf", "--font", SANS, "--chars", "1f600", "--out", "more")
    merged = mkstrike.Strike.open(tmp_path / "more/both-16.bdf")
    assert len(merged) == 98 and merged["😀"] == mkstrike.Font(SANS).strike(16, "1f600")["😀"]
    out, _ = run(tmp_path, "both-12.bdf", "both-16.bdf", "--format", "c", "--out", "c")
    assert out == "c/both-12.h: 97 glyphs\nc/both-16.h: 97 glyphs\n"


@needs_fontconfig
def test_mistakes(tmp_path):
    """A font that fails is status 1, and the others are made."""
    (tmp_path / "bad.ttf").write_bytes(b"OTTO" + bytes(100))
    out, err = run(tmp_path, "bad.ttf", "none.ttf", SANS, "--size", "16,2000", status=1)
    assert out == "./DejaVuSans-16.bdf: 191 glyphs\n"
    lines = [it.split(": ", 1)[1] for it in err.splitlines()]
    assert lines.pop(1) == "the file looks like an OpenType font with CFF outlines, which is not read: give a TrueType font, " \
        "or convert it: strike of the package python3-mkstrike does so"
    assert lines == ["bad.ttf at 16 pixels: 10 NotTrueType", "bad.ttf at 2000 pixels: 60 BadSize", "give a size from 1 to 1024",
                     "none.ttf: there is no such file, and no installed font of this name (fc-list shows them)",
                     "%s at 2000 pixels: 60 BadSize" % SANS,
                     "give a size from 1 to 1024"]
    out, err = run(tmp_path, SANS, "--format", "bdf,psf", status=1)
    assert "one advance" in err or "not installed" in err


def test_module():
    """python3 -m mkstrike is the same command."""
    ran = subprocess.run([sys.executable, "-m", "mkstrike", "--help"], capture_output=True, text=True)
    assert ran.returncode == 0 and ran.stdout.startswith("usage: strike")


def test_page():
    """The man page has the options of the command."""
    with open(os.path.join(TOP, "docs/strike.1"), encoding="utf-8") as file:
        page = file.read().replace("\\-", "-").partition(".SH CHARACTERS")[2]
    shown = [name for head in re.findall(r"^\.TP\n(.*)$", page, re.M)
             for name in re.findall(r"(?<![\w-])--?[a-z]+[\w-]*", re.sub(r"\\f[BIR]", "", head))]
    due = [name for action in options.parser()._actions if action.help != argparse.SUPPRESS for name in action.option_strings]
    assert sorted(shown) == sorted(due)
    assert all(name in page for name in mkstrike.character_sets())


@pytest.mark.parametrize("words, left, bottom", [(["--ascent", "15"], 15, 3), ([], 14, 4)])
def test_ascent(tmp_path, words, left, bottom):
    """--ascent places the baseline."""
    run(tmp_path, MONO, "--chars", "ascii", "--cell", "10x18", *words)
    strike = mkstrike.Strike.open(tmp_path / "DejaVuSansMono-16.bdf")
    assert (strike.ascent, strike.descent) == (left, bottom)


def test_version(capsys):
    """In a checkout the release is that of the file VERSION."""
    with open(os.path.join(TOP, "VERSION"), encoding="utf-8") as file:
        due = file.read().strip()
    with pytest.raises(SystemExit):
        command.main(["--version"])
    assert capsys.readouterr().out == "strike of mkstrike %s\n" % due and mkstrike.__version__ == due
