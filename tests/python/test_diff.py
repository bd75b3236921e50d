"""Two strikes compared."""
import pytest
from shared import SANS, needs_font, needs_pillow
from test_layouts import SMALL

import mkstrike

STEP = mkstrike.Glyph.drawn("#.\n##", advance=3)


def strike(**glyphs):
    """A strike of 9 pixels with glyphs by their letters."""
    return SMALL.subset("").replace(glyphs)


def drawn(picture, **more):
    return mkstrike.Glyph.drawn(picture, **{"advance": 3, **more})


@pytest.mark.parametrize("other", [drawn("#.\n.#"), drawn("##\n##"), drawn("#.\n##", left=1), drawn("#.\n##", bottom=-1),
                                   drawn("#.\n##", advance=4), drawn(".", advance=3)])
def test_what_changes(other):
    """Pixels, place and advance."""
    found = strike(a=STEP, b=STEP).diff(strike(a=STEP, b=other))
    assert found and list(found.changed) == ["b"] and (found.removed, found.added, found.same) == ("", "", 1)
    assert found.changed["b"][0].tobytes() == STEP.tobytes() and found.changed["b"][1].tobytes() == other.tobytes()
    assert not strike(b=other).diff(strike(b=other)) and not found.lines()[0].startswith("size")


def test_what_does_not_change():
    """Names, properties, the advance in 1/1000 em, and where an empty box is."""
    one = strike(a=STEP, b=drawn(".", advance=3))
    parsed = one.with_properties({"FOUNDRY": "misc"}).parsed()
    entry = parsed.entries[ord("a")]._replace(swidth=77, name="letter")
    blank = parsed.entries[ord("b")]._replace(left=5, bottom=7)
    parsed.name = "other"
    other = mkstrike.Strike(parsed.with_entries({ord("a"): entry, ord("b"): blank}).encoded())
    found = one.diff(other)
    assert other.text != one.text and not found and found.lines() == [] and found.same == 2
    assert repr(found) == "<Diff: 0 removed, 0 added, 0 changed, 2 the same>"


def test_characters_of_one():
    found = strike(a=STEP, b=STEP, c=STEP).diff(strike(b=STEP, d=STEP))
    assert found and (found.removed, found.added, found.changed, found.same) == ("ac", "d", {}, 1)
    assert found.lines() == ["2 removed: U+0061, U+0063", "1 added: U+0064"]


def test_lines():
    """Two strikes of cells: the line's numbers, and the pictures beside each other, on one baseline, from the pen to the
    advance."""
    old, new = strike(a=drawn("#.\n##", bottom=-1)).cell(3, 8,
                      ascent=6), strike(a=drawn("#.\n##", left=-1, advance=4)).cell(4, 9, ascent=6)
    found = old.diff(new)
    assert (found.old, found.new) == ((9, 6, 2), (9, 6, 3))
    assert found.lines() == ["descent: 2, 3", "1 changed: U+0061", "", "U+0061 a: advance 3, 4",
                       ".....    #....", ".#...    ##...", ".##..    ....."]


def test_many_changes():
    """The first 24 are drawn."""
    old = SMALL.subset("").replace({code: STEP for code in range(0x41, 0x41 + 30)})
    new = SMALL.subset("").replace({code: drawn("#") for code in range(0x41, 0x41 + 30)})
    lines = old.diff(new).lines()
    assert lines[0] == "30 changed: U+0041-U+005E" and lines[-2:] == ["",
        "and 6 more"] and sum(it.startswith("U+") for it in lines) == 24
    assert old.subset("41-58").diff(new.subset("41-58")).lines()[-1] == "##.    #.."


@needs_pillow
def test_picture():
    """A line for each changed character, the old glyph on the left: a step of 3 x 2 with its advance, four pixels, a dot."""
    found = strike(a=STEP, b=STEP, c=STEP).diff(strike(a=drawn("#"), b=STEP, c=drawn("#\n#")))
    made = found.image()
    rows = ["".join(".#"[not made.getpixel((x, y))] for x in range(made.width)) for y in range(made.height)]
    assert [row[4:-4] for row in rows[4:-4]] == ["#.........", "##.....#..", "..........",
        "..........", "..........", "..........", "#......#..", "##.....#.."]
    assert found.image(3).size == (3 * made.width, 3 * made.height) and strike(a=STEP).diff(strike(a=STEP)).image().size[1] == 9


@needs_font(SANS)
def test_of_fonts():
    """Hinted and unhinted."""
    font = mkstrike.Font(SANS)
    one, other = (font.strike(16, "20-7e", hinted=it) for it in (True, False))
    found = one.diff(other)
    assert " " not in found.changed and "A" in found.changed and found.same == 95 - len(found.changed)
    assert all(found.changed[it] == (one[it], other[it]) for it in found.changed)
