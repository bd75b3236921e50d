"""Every option of `strike`, with each kind of FONT and each kind of output: it changes what is made or said, or is an error."""
import os

import pytest
from shared import MONO, SANS, needs_font, needs_pillow, run_in_process

import mkstrike
from mkstrike import options

pytestmark = [needs_font(SANS, MONO), needs_pillow]
INPUTS = {"font": ["in.ttf"], "BDF": ["in.bdf"], "joined": ["--font", "in.ttf", "--font", "in.bdf"]}
# The words that make each kind of output; its file, if it has one.
OUTPUTS = {**{it: ["-o", "out", "--format", it] for it in options.FILES}, options.TERMINAL: ["--preview", "AWkƜ一█☔"],
           options.PICTURE: ["-o", "out.png", "--preview", "AWkƜ一█☔"], options.SHEET: ["--sheet", "9,16", "--out", "."],
           options.LIST: ["--list"], options.FACES: ["--faces"], options.DIFF: ["--diff", "in.bdf"]}
WITHOUT_CHARS = (options.TERMINAL, options.PICTURE, options.LIST, options.FACES)
CELLS = ["--cell", "8x14"]  # in which some glyphs leave the cell, and raw cells can be made
# From each option to its words, which change the output beside those words that come with it.
WORDS = {
    "chars": ["--chars", "61-63"], "all": ["--all"], "text": ["--text", "text.txt"], "symbol": ["--symbol"],
    "size": ["--size", "13"], "fit": ["--fit", "9x19"],
    "cell": ["--cell", "7x12"], "ascent": ["--ascent", "11"], "clip": ["--clip"], "join": ["--join"], "wide": ["--wide"],
    "shift_y": ["--shift-y", "2"],
    "unhinted": ["--unhinted"], "dropout": ["--dropout=off"], "face": ["--face", "1"], "axes": ["--axes", "wght=700"],
    "careful": ["--careful"], "refused": ["--refused", "unhinted"],
    "out": ["--out", "folder"], "format": ["--format", "pbm"], "order": ["--order", "koi8-r"], "preview": ["--preview", "B2"],
    "name": ["--name", "other"],
    "x11": ["--x11"], "property": ["--property", "FAMILY_NAME=Other"], "scale": ["--scale", "3"], "columns": ["--columns", "5"],
    "output": ["-o", "other"],
    "bytes": ["--bytes", "columns"], "bits": ["--bits", "lsb"], "align": ["--align", "right"],
    "attribute": ["--attribute", "PROGMEM"],
    "dense": ["--dense"], "padding": ["--padding", "2"], "glyph": ["--glyph", "B=41"], "height": ["--height", "15"],
    "cap_height": ["--cap-height", "9"], "sheet": ["--sheet", "8-9"], "list": ["--list"], "faces": ["--faces"], "json": ["--json"],
    "diff": ["--diff", "in.bdf"],
    "require": ["--require"], "strict": ["--strict"], "quiet": ["--quiet"], "font": ["--font", "in.bdf"],
    "jobs": ["--jobs", "2"], "depfile": ["--depfile", "it.d"],
}
SILENT = ("jobs", "careful")  # options that change nothing of these inputs: their fonts take little work
# Options that are in effect already, for these outputs: these formats always have the properties, and a sheet shows no cells.
SAME = {("x11", it) for it in ("pcf", "otb", "psf")} | {("jobs", "otb")}  # fonttosfnt writes the time of day
BESIDE = {"align": ["--bytes", "columns"]}  # words for which an option makes a difference
NEEDED = {"ascent": CELLS, "clip": CELLS, "join": CELLS, "wide": CELLS}
# One of them is refused, one is missing, some have lines that can be joined, and one is wide.
LETTERS = "41-5a,19c,2500-2502,2588,2614,4e00,20,31"


@pytest.fixture(name="folder", scope="module")
def folder_with_inputs(tmp_path_factory):
    """A folder with a font, a strike and a text."""
    folder = tmp_path_factory.mktemp("options")
    os.symlink(SANS, folder / "in.ttf")
    mkstrike.Font(MONO).strike(16, LETTERS + ",61-7a").save(folder / "in.bdf")
    (folder / "text.txt").write_text("xyz", encoding="utf-8")
    return folder


def made(folder, words):
    """What the command makes and says: its status, both outputs, and the files. Names of files count only if the words say them."""
    for name in os.listdir(folder):
        if not name.startswith("in.") and name != "text.txt":
            path = folder / name
            for it in path.iterdir() if path.is_dir() else [path]:
                it.unlink()
    status, out, err = run_in_process(words, folder)
    files = {os.path.relpath(os.path.join(at, it), folder): open(os.path.join(at, it), "rb").read()
             for at, _, names in os.walk(folder) for it in names if not it.startswith("in.") and it != "text.txt"}
    return status, out, err, files


def test_each_has_words():
    """No option of the table is without a try."""
    assert {"all" if it.names == ["--all"] else it.dest for it in options.OPTIONS} == set(WORDS)


@pytest.mark.parametrize("output", OUTPUTS)
@pytest.mark.parametrize("kind", INPUTS)
def test_pairs(folder, kind, output):
    """No option is ignored; --jobs, and --careful for these fonts, change nothing of what is made and said."""
    ignored = []
    asked = [] if output in WITHOUT_CHARS else ["--chars", LETTERS]
    for name, words in WORDS.items():
        common = asked if name not in ("chars", "all", "text", "fit") else ["--chars",
                                                                            LETTERS] if output not in WITHOUT_CHARS else []
        cells = [] if output not in ("raw", "psf") or name in ("cell", "fit") else CELLS if name == "clip" else [*CELLS, "--clip"]
        before = [*common, *OUTPUTS[output], *(cells or NEEDED.get(name, [])), *BESIDE.get(name, [])]
        if name in ("out", "name"):
            before = [it for it in before if it not in ("-o", "out")]  # without a file of its own
        if name in ("preview", "format", "output", "list", "faces", "diff") and words[0] in before:
            continue  # the output is made by this option
        base, found = made(folder, [*before, *INPUTS[kind]]), made(folder, [*words, *before, *INPUTS[kind]])
        if found[0] == 2 or found[0] == 1 and found[2] and not found[3]:
            continue  # an error that is told
        if base[0] == 1 and found[0] == 1:
            continue
        if (found == base) == (name not in SILENT) and (name, output) not in SAME:
            ignored.append(words + before + INPUTS[kind])
    assert not ignored


@pytest.mark.parametrize("option", [it for it in options.OPTIONS if options.BDF not in it.inputs], ids=lambda it: it.names[0])
def test_what_a_bdf_cannot_have(folder, option):
    """Options for fonts are errors with a BDF, before anything is made; in one strike with a font they are for the font."""
    words = WORDS[option.dest]
    status, _, err, files = made(folder, [*words, "in.bdf"])
    assert (status, files) == (2, {})
    assert "says how a font is drawn, and in.bdf is a strike that is drawn already: leave it out" in err
    if option.is_of_font:
        status, _, err, files = made(folder, ["--chars", "41", "--font", "in.ttf", "--font", "in.bdf", *words, "-o", "a.bdf"])
        assert (status, files) == (2, {}) and "in.bdf is a strike" in err


@pytest.mark.parametrize("words, said", [
    (["--columns", "3"], "--columns is for --format png,pbm, not for bdf"),
    (["--scale", "2"], "--scale is for --format png,pbm and --preview with -o, not for bdf; twice"),
    (["--order", "cp437"], "--order is for --format raw, not for bdf"),
    (["--x11", "--format", "c"], "--x11 is for --format bdf,pcf,otb,psf, not for c"),
    (["--property", "A=1", "--format", "png"], "--property is for --format bdf,pcf,otb, not for png"),
    (["--clip"], "--clip is for --cell and --fit"),
    (["--preview", "A", "--chars", "41"], "--chars is for files, not for --preview on the terminal"),
    (["--preview", "A", "--name", "x"], "--name is for files"),
    (["--preview", "A", "--out", "x"], "--out is for files"),
    (["--preview", "A", "--format", "png"], "--format is for files and --preview with -o"),
    (["--size", "12", "--size", "14"], "--size is given twice"), (["--cell", "8x16", "--cell", "9x16"], "--cell is given twice"),
    (["--axes", "wght=400,wght=700"], "--axes gives wght twice"),
    (["--property", "A=1", "--property", "A=2"], "--property gives A twice")])
def test_what_is_said(folder, words, said):
    """The errors name what the option is for."""
    status, _, err, files = made(folder, ["in.ttf", *words])
    assert (status, files) == (2, {}) and said in err, err


def test_chosen_of_a_bdf(folder):
    """--chars, --text, --name and --property choose from a BDF, and rename it."""
    status, _, err, files = made(folder,
                                 ["in.bdf", "--chars", "41-43,4e01", "--text", "text.txt", "--name", "some", "--property",
                                  "FOUNDRY=me", "-o", "a.bdf"])
    strike = mkstrike.Strike(files["a.bdf"])
    assert status == 0 and list(strike) == ["A", "B", "C", "x", "y", "z"]
    assert (strike.name, strike.properties["FOUNDRY"]) == ("some", "me") and "1 missing: U+4E01" in err
    assert strike["B"] == mkstrike.Font(MONO).glyph(16, "B")
