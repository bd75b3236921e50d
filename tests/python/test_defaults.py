"""What `strike` and Python draw as they come: thin strokes stay whole, by the rule that the font asks for."""
import os

import pytest
from shared import FOLDER, LIBERATION, MONO, SANS, flags, font_at, font_bytes, needs_font, pixels, program, strike_by_command
from shared import text_of

import mkstrike

SIZES = (8, 10, 12, 14, 16)
LETTERS = "30-39,41-5a,61-7a"
FONTS = [LIBERATION, FOLDER + "liberation/LiberationSans-Regular.ttf", MONO, SANS, FOLDER + "noto/NotoSans-Regular.ttf",
         FOLDER + "roboto/unhinted/RobotoTTF/Roboto-Regular.ttf"]


def parts(glyph):
    """How many parts the set pixels of a glyph have; pixels that touch by a corner are one part."""
    left, count = pixels(glyph), 0
    while left:
        count, found = count + 1, [left.pop()]
        while found:
            x, y = found.pop()
            near = {(x + dx, y + dy) for dx in (-1, 0, 1) for dy in (-1, 0, 1)} & left
            left -= near
            found += near
    return count


def broken(strike):
    """The letters that have more parts than a letter has, or none; in these two fonts 0 has a dot in it."""
    two = "ij0" if "Mono" in strike.name else "ij"
    return [char for char, glyph in strike.items() if not 1 <= parts(glyph) <= (2 if char in two else 1)]


@pytest.mark.parametrize("path", FONTS, ids=os.path.basename)
def test_letters_stay_whole(tmp_path, path):
    """None of the 62 letters and digits falls apart at five sizes, by the command and by Python, as they come."""
    font = font_at(path)
    strike_by_command(tmp_path, path, "--size", ",".join(map(str, SIZES)), "--chars", LETTERS)
    for size in SIZES:
        (made,) = tmp_path.glob("*-%d.bdf" % size)
        strike = mkstrike.Strike.open(made)
        assert len(strike) == 62 and not broken(strike)
        assert dict(strike) == font.at(size).glyphs(LETTERS)


@needs_font(LIBERATION)
@pytest.mark.parametrize("words, dropout",
                         [(["--dropout=off"], None), (["--dropout", "off"], "off"), (["--dropout"], "left"),
                          (["--dropout=near"], "near"), ([], "font")])
def test_ways_to_draw(tmp_path, words, dropout):
    """Each way is the program's; off is the rule alone, which breaks letters of this font at 16 pixels."""
    strike_by_command(tmp_path, LIBERATION, "--chars", "ascii", "-o", "a.bdf", *words)
    text = (tmp_path / "a.bdf").read_bytes()
    assert text == text_of(["--ppem", "16", "--chars", "20-7e", "--name", "LiberationMono-Regular"], font_bytes(LIBERATION),
                           dropout)
    assert bool(broken(mkstrike.Strike(text).subset(LETTERS))) == (dropout in (None, "off"))


@needs_font(LIBERATION)
def test_default_of_each_call():
    """The calls of Python that draw have one default."""
    font = mkstrike.Font(LIBERATION)
    status, out, _ = program(["make", "--ppem", "16", "--chars", "77", *flags()], font_bytes(LIBERATION))
    due = mkstrike.Strike(out)["w"]
    assert status == 0 and font.strike(16, "77")["w"] == font.glyph(16, "w") == font.at(16)["w"] == due
    assert font.glyph_by_id(16, font.glyph_ids("77")["w"]).rows == due.rows != font.glyph(16, "w", dropout=None).rows
