"""BMFont: read by the rules of its document, and by LÖVE."""
import re
import subprocess

import pytest
from needs import tool
from shared import MONO, SANS, needs_font, needs_pillow, pixels

import mkstrike

pytestmark = needs_pillow
# Prints of each glyph that LÖVE finds its numbers and its pixels.
CONF = """\
function love.conf(t)
    t.window = false
    local kept = { font = true, image = true, data = true, event = true, filesystem = true }
    for name in pairs(t.modules) do t.modules[name] = kept[name] == true end
end
"""
MAIN = """\
local font = love.font.newRasterizer("game.fnt")
print(font:getHeight(), font:getAscent(), font:getGlyphCount())
for code in love.filesystem.lines("codes") do
    local glyph = font:getGlyphData(tonumber(code))
    local left, top = glyph:getBearing()
    local width, height = glyph:getDimensions()
    local bytes, bits = glyph:getString(), {}
    for k = 1, width * height do bits[k] = bytes:byte(4 * k) > 0 and "#" or "." end
    print(code, left, top, width, height, glyph:getAdvance(), table.concat(bits) .. ";")
end
love.event.quit()
"""


def read(folder):
    """The lines of a text: a list for each word that begins one, with what the line says."""
    found = {}
    for line in (folder / "game.fnt").read_text().splitlines():
        word, _, rest = line.partition(" ")
        found.setdefault(word, []).append({name: text.strip('"') for name, text in re.findall(r'(\w+)=("[^"]*"|\S*)', rest)})
    return found


def images(folder, said):
    """The pictures that a text names, in their order."""
    from PIL import Image
    assert [it["id"] for it in said["page"]] == list(map(str, range(len(said["page"]))))
    return [Image.open(folder / it["file"]) for it in said["page"]]


def drawn(char, common, pictures):
    """The pixels of a glyph from the origin, when its rectangle is copied as the document of BMFont says."""
    x, y, width, height, left, down = (int(char[name]) for name in ("x", "y", "width", "height", "xoffset", "yoffset"))
    bits = pictures[int(char["page"])].crop((x, y, x + width, y + height)).getchannel("A").tobytes()
    return {(left + at % width, int(common["base"]) - down - at // width - 1) for at, it in enumerate(bits) if it}


@needs_font(SANS, MONO)
@pytest.mark.parametrize("path, size, chars, padding", [(SANS, 16, "latin-1", 0), (SANS, 16, "20-7e,20ac,1f600", 2),
                                                        (MONO, 60, "latin-1", 0),
                                                        (SANS, 200, "latin-1", 3), (SANS, 16, "20", 1)])
def test_read_by_its_document(tmp_path, path, size, chars, padding):
    """Each glyph is found in its picture, alone, and comes to its place."""
    from PIL import Image
    strike = mkstrike.Font(path).strike(size, chars)
    strike.save(tmp_path / "game.fnt", padding=padding)
    said = read(tmp_path)
    (common,), (info,), pictures = said["common"], said["info"], images(tmp_path, said)
    # a picture is full to four fifths and more before the next one begins
    area = sum((it.width + 2 * padding + 1) * (it.height + 2 * padding + 1) for it in strike.values() if it.width)
    assert len(pictures) == int(common["pages"]) and area <= len(pictures) << 20 and (
        len(pictures) == 1 or area > (len(pictures) - 1) * 4 / 5 * (1 << 20))
    assert sorted(it.name for it in tmp_path.iterdir()) == ["game.fnt"] + ["game_%d.png" % k for k in range(len(pictures))]
    assert (common["lineHeight"], common["base"], info["size"]) == tuple(map(str, (strike.height, strike.ascent, size)))
    assert info["padding"] == ",".join([str(padding)] * 4) and info["face"] == mkstrike.Font(path).names.family
    for it in pictures:
        assert it.mode == "RGBA" and it.size == (int(common["scaleW"]), int(common["scaleH"])) and max(it.size) <= 1024
        assert {bin(side).count("1") for side in it.size} == {1}
        assert {color for _, color in it.getcolors()} <= {(255, 255, 255, 0), (255, 255, 255, 255)}
    assert said["chars"] == [{"count": str(len(strike))}] and [int(it["id"]) for it in said["char"]] == list(map(ord, strike))
    seen = [Image.new("1", it.size) for it in pictures]
    for it in said["char"]:
        glyph = strike[int(it["id"])]
        assert int(it["xadvance"]) == glyph.advance and drawn(it, common, pictures) == pixels(glyph)
        far = padding if glyph.width else 0
        x, y, width, height = (int(it[name]) for name in ("x", "y", "width", "height"))
        assert (width, height) == (glyph.width + 2 * far, glyph.height + 2 * far)
        if width:
            # a rectangle and the pixels right of it and below meet no other one
            page, around = seen[int(it["page"])], (x, y, min(x + width + 1, pictures[0].width),
                                    min(y + height + 1, pictures[0].height))
            assert not page.crop(around).getbbox() and x + width <= page.width and y + height <= page.height
            page.paste(1, around)


@needs_font(SANS)
@pytest.mark.parametrize("chars, side", [("20", (64, 1)), ("49", (64, 16)), ("41-5a", (128, 64)), ("ascii", (128, 128))])
def test_smallest_picture(tmp_path, chars, side):
    """One picture is as small as the glyphs allow, its sides powers of two: 26 capitals of 12 rows need six shelves of 64 columns,
    which is too high for a square, and three of 128."""
    mkstrike.Font(SANS).strike(16, chars).save(tmp_path / "game.fnt")
    (common,) = read(tmp_path)["common"]
    assert (int(common["scaleW"]), int(common["scaleH"])) == side


@needs_font(SANS)
@pytest.mark.parametrize("padding", [0, 1])
def test_read_by_love(tmp_path, padding):
    """LÖVE finds each glyph with its numbers and its pixels."""
    tool("love")
    strike = mkstrike.Font(SANS).strike(16, "latin-1,20ac,1f600")
    strike.save(tmp_path / "game.fnt", padding=padding)
    for name, text in (("conf.lua", CONF), ("main.lua", MAIN), ("codes", "".join("%d\n" % ord(it) for it in strike))):
        (tmp_path / name).write_text(text)
    out = subprocess.run(["love", "."], cwd=tmp_path, check=True, capture_output=True, text=True, timeout=60).stdout.splitlines()
    assert out[0].split() == [str(it) for it in (strike.height, strike.ascent, len(strike))]
    assert len(out) == 1 + len(strike)
    for line, glyph in zip(out[1:], strike.values()):
        _, left, top, width, height, advance, bits = line.split()
        rows = [bits[at:at + int(width)] for at in range(0, int(width) * int(height), int(width) or 1)]
        # LÖVE counts rows from the top of the line
        found = {(int(left) + x, strike.ascent + int(top) - 1 - y)
                  for y, row in enumerate(rows) for x, it in enumerate(row) if it == "#"}
        assert found == pixels(glyph) and int(advance) == glyph.advance


@needs_font(SANS)
def test_limits(tmp_path):
    """What can't be written is said, and leaves no file."""
    font = mkstrike.Font(SANS)
    strike = font.strike(16, "ascii")
    with pytest.raises(ValueError, match="^fnt is a text and pictures beside it: save it to a file"):
        strike.encode("fnt")
    with pytest.raises(ValueError, match="^padding is 0 or more pixels, not -1"):
        strike.save(tmp_path / "game.fnt", padding=-1)
    with pytest.raises(ValueError, match=r"^U\+0020 does not fit a picture|^U\+0021 does not fit a picture of 1024 x 1024 pixels"):
        strike.save(tmp_path / "game.fnt", padding=512)
    with pytest.raises(ValueError, match="can't stand in a BMFont"):
        strike.save(tmp_path / 'a"b.fnt')
    assert not list(tmp_path.iterdir())
    quoted = font.strike(16, "41", name='a "b" c')
    quoted.names = None
    quoted.save(tmp_path / "game.fnt")
    assert read(tmp_path)["info"][0]["face"] == "a _b_ c"
