"""Frames in cells: lines of box drawing join over the edges of cells, blocks and shades fill their parts."""
import os
import unicodedata

import pytest
from shared import FOLDER, LIBERATION, MONO, font_at, needs_font, strike_by_command

import mkstrike

FONTS = [MONO, LIBERATION, FOLDER + "hack/Hack-Regular.ttf", FOLDER + "jetbrains-mono/JetBrainsMono-Regular.ttf",
         FOLDER + "dejavu/DejaVuSansMono-Bold.ttf"]
CELLS = [(6, 12), (8, 14), (8, 16), (10, 20), (16, 32)]
EDGES = {"LEFT": ("left",), "RIGHT": ("right",), "UP": ("up",), "DOWN": ("down",), "HORIZONTAL": ("left", "right"),
         "VERTICAL": ("up", "down")}
KINDS = {"LIGHT": "light", "SINGLE": "light", "HEAVY": "heavy", "DOUBLE": "double"}
OPPOSITE = {"left": "right", "right": "left", "up": "down", "down": "up"}
BOX = [chr(code) for code in range(0x2500, 0x2580) if not {"DASH", "DIAGONAL"} & set(unicodedata.name(chr(code)).split())]


def arms(char):
    """From each edge that a character's lines reach to their kind, by its name: DOWN LIGHT AND RIGHT HEAVY, or DOUBLE UP AND
    LEFT."""
    phrases = [it.split() for it in unicodedata.name(char)[len("BOX DRAWINGS "):].split(" AND ")]
    kinds = [next((KINDS[it] for it in phrase if it in KINDS), None) for phrase in phrases]
    kind = next(it for it in kinds if it)
    return {edge: own or kind for phrase, own in zip(phrases, kinds) for word in phrase for edge in EDGES.get(word, ())}


def edge_of(strike, char, side, width):
    """The places of the set pixels at an edge of a character's cell, from the top or the left."""
    glyph = strike[char]
    found = {(glyph.left + x, strike.ascent - glyph.top + y) for y, row in enumerate(glyph) for x, it in enumerate(row) if it}
    height = strike.height
    assert all(0 <= x < width and 0 <= y < height for x, y in found), "%s leaves its cell" % char
    at = {"left": (0, None), "right": (width - 1, None), "up": (None, 0), "down": (None, height - 1)}[side]
    return frozenset(y if at[0] is not None else x for x, y in found if x == at[0] or y == at[1])


def runs(places):
    """The lines that end at places of an edge: places that are next to each other."""
    found = []
    for it in sorted(places):
        if not found or it - 1 not in found[-1]:
            found.append(set())
        found[-1].add(it)
    return found


def test_names():
    """The names are read as they mean."""
    assert arms("┍") == {"down": "light", "right": "heavy"} and arms("╔") == {"down": "double", "right": "double"}
    assert arms("╼") == {"left": "light", "right": "heavy"}
    assert arms("┽") == {"left": "heavy", "right": "light", "up": "light", "down": "light"}
    assert arms("╓") == {"down": "double", "right": "light"} and len(BOX) == 128 - 12 - 3


@pytest.mark.parametrize("cell", CELLS, ids=str)
@pytest.mark.parametrize("path", FONTS, ids=os.path.basename)
def test_frames_join(path, cell):
    """Each line that reaches an edge meets each line of its kind that comes from the other side; a double one with both of its
    lines."""
    font = font_at(path)
    made = font.strike(font.fit(*cell, "ascii,box"), "ascii,box").cell(*cell, join=True)
    assert not made.outside and {it.advance for it in made.values()} == {cell[0]}
    there = [it for it in BOX if it in made]
    assert len(there) > 30
    ends = {(char, side): edge_of(made, char, side, cell[0]) for char in there for side in arms(char)}
    assert [key for key, places in ends.items() if not places] == []
    for (char, side), places in ends.items():
        for (other, facing), beyond in ends.items():
            if facing == OPPOSITE[side] and arms(char)[side] == arms(other)[facing]:
                assert all(it & beyond for it in runs(places)), "%s and %s, %s" % (char, other, side)


@needs_font(MONO)
def test_blocks():
    """Blocks and shades by what their names say, in cells of even and odd sides: worked out by hand."""
    font = mkstrike.Font(MONO)
    made = font.strike(10, "2580-259f").cell(8, 16, join=True)
    boxes = {"█": (8, 16, 0, 0), "▀": (8, 8, 0, 8), "▄": (8, 8, 0, 0), "▌": (4, 16, 0, 0), "▐": (4, 16, 4, 0), "▂": (8, 4, 0, 0),
             "▊": (6, 16, 0, 0), "▔": (8, 2, 0, 14),
             "▕": (1, 16, 7, 0), "▗": (4, 8, 4, 0), "▘": (4, 8, 0, 8)}
    for char, (width, height, left, bottom) in boxes.items():
        it = made[char]
        assert (it.width, it.height, it.left,
                it.bottom + made.descent) == (width, height, left, bottom) and set(it.tobytes()) == {255}, char
    assert str(
        made["▚"]) == "\n".join(
            ["####...."] * 8 + ["....####"] * 8) and str(made["▟"]) == "\n".join(["....####"] * 8 + ["########"] * 8)
    counts = {char: str(made[char]).count("#") for char in "░▒▓"}
    assert counts == {"░": 32, "▒": 64, "▓": 96} and str(made["▒"]).split("\n")[:2] == ["#.#.#.#.", ".#.#.#.#"]
    odd = font.strike(10, "2580-259f").cell(7, 13, join=True)
    assert odd["▀"].height + odd["▄"].height == 13 and odd["▌"].width + odd["▐"].width == 7
    assert odd["▔"].height + odd["▇"].height == 13


@needs_font(MONO)
def test_lines_by_hand():
    """An arm goes on as it ends; without an arm nothing is drawn; what leaves the cell is cut."""
    font = mkstrike.Font(MONO).strike(16, "20").subset("20")
    drawn = {"─": mkstrike.Glyph.drawn("###", left=2, bottom=3), "┐": mkstrike.Glyph.drawn("##.\n..#\n..#", left=1, bottom=1),
             "│": mkstrike.Glyph.drawn("#\n#", left=3, bottom=4), "╱": mkstrike.Glyph.drawn(".#\n#.", left=2, bottom=2),
             "┃": mkstrike.Glyph.drawn("##\n" * 19 + "##", left=3, bottom=-6)}
    made = font.replace(drawn).cell(7, 8, ascent=6, join=True)
    assert (str(made["─"]), made["─"].left, made["─"].bottom) == ("#######", 0, 3)
    assert (str(made["┐"]), made["┐"].left, made["┐"].bottom) == ("###.\n...#\n...#\n...#\n...#\n...#", 0, -2)
    assert (str(made["│"]), made["│"].left, made["│"].bottom) == ("\n".join("#" * 8), 3, -2)
    assert made["╱"].rows == drawn["╱"].rows and str(made["┃"]) == "\n".join(["##"] * 8) and not made.outside


@needs_font(MONO)
def test_the_command_joins(tmp_path):
    """--fit joins, --cell with --join too, and --cell alone does not."""
    for words in (["--fit", "8x16"], ["--size", "12", "--cell", "8x16", "--join"], ["--size", "12", "--cell", "8x16"]):
        strike_by_command(tmp_path, MONO, "--chars", "latin-1,2500-257f,2588", "-o", "a.bdf", *words)
        made = mkstrike.Strike.open(tmp_path / "a.bdf")
        is_joined = (made["█"].width, made["█"].height) == (8, 16) and made["│"].height == 16
        assert made.size == 12 and is_joined == ("--cell" not in words or "--join" in words)


@needs_font(MONO)
def test_fitting(tmp_path):
    """With --clip a line fits and glyphs lose pixels; a size that no cell has is told with the nearest."""
    font = mkstrike.Font(MONO)
    size = font.fit(8, 16, "latin-1,box", clip=True)
    fitting = [it for it in range(1, 40) if sum(font.heights(it)[:2]) <= 16
               and max(glyph.advance for glyph in font.at(it).glyphs("latin-1,box").values()) <= 8]
    assert size == max(fitting) > font.fit(8, 16, "latin-1,box")
    with pytest.raises(ValueError,
                       match=r"^at no size do all characters fit a cell of 5 x 8 pixels; at 7 only U\+0052 leaves it, by 1 "
                       r"right: make that size and clip it \(--size 7 --cell 5x8 --clip\)$"):
        font.fit(5, 8, "ascii")
    assert list(font.strike(7, "ascii").cell(5, 8).outside) == ["R"]
    strike_by_command(tmp_path, MONO, "--fit", "8x16", "--clip", "--chars", "latin-1,box", "-o", "a.bdf")
    made = mkstrike.Strike.open(tmp_path / "a.bdf")
    assert made.size == size and all(it.left >= 0 and it.left + it.width <= 8 for it in made.values() if it.width)
    assert font.fit(8, 16, "2500-257f") > 0
