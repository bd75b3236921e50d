"""Strikes for engines of games: AngelCode's BMFont, a text with the place of each glyph in pictures, white on clear."""
from __future__ import annotations

from collections.abc import Sequence
from typing import TYPE_CHECKING

from .formats import picture
from .picture import pillow
from .refused import code_name

if TYPE_CHECKING:
    from PIL.Image import Image

    from .glyph import Glyph
    from .strike import Strike

    Place = tuple[int, int, int]  # the page, and the column and the row there

SIDES = (64, 128, 256, 512, 1024)  # of a picture
GAP = 1  # pixels between two glyphs, so that none bleeds into the next when it is scaled
HEAD = """\
info face="{face}" size={size} bold=0 italic=0 charset="" unicode=1 stretchH=100 smooth=0 aa=1 \
padding={pad},{pad},{pad},{pad} spacing={gap},{gap} outline=0
common lineHeight={line} base={base} scaleW={width} scaleH={height} pages={pages} packed=0 alphaChnl=0 \
redChnl=4 greenChnl=4 blueChnl=4
"""
CHAR = "char id=%d x=%d y=%d width=%d height=%d xoffset=%d yoffset=%d xadvance=%d page=%d chnl=15\n"


def files(strike: Strike, name: str, padding: int = 0) -> dict[str, bytes]:
    """The text, and the pictures that it names `name_0.png` and so on, by the names of their files. `padding` columns and rows on
    each side of a glyph are clear, and belong to its place."""
    if not 0 <= padding <= SIDES[-1]:
        raise ValueError("padding is 0 or more pixels, not %d" % padding)
    if '"' in name or not name.isprintable():
        raise ValueError("the name %r can't stand in a BMFont" % name)
    glyphs = list(strike.values())
    boxes = [(it.width + 2 * padding, it.height + 2 * padding) if it.width else (0, 0) for it in glyphs]
    for it, box in zip(glyphs, boxes):
        if max(box) > SIDES[-1]:
            raise ValueError("%s does not fit a picture of %d x %d pixels" % (code_name(ord(it.char or "")), SIDES[-1], SIDES[-1]))
    places, width = _placed(boxes)
    height = _power(max([y + box[1] for (_, _, y), box in zip(places, boxes)] + [1]))
    pages = 1 + max([page for page, _, _ in places] + [0])
    drawn = [[(x + padding, y + padding, it) for (at, x, y), it in zip(places, glyphs) if at == page and it.width]
             for page in range(pages)]
    made = {"%s_%d.png" % (name, page): _picture(width, height, them) for page, them in enumerate(drawn)}
    family = strike.names.family if strike.names else strike.name
    face = "".join(it if it.isprintable() and it != '"' else "_" for it in family)
    text = HEAD.format(face=face, size=strike.size, pad=padding, gap=GAP, line=strike.height, base=strike.ascent, width=width,
                       height=height, pages=pages)
    text += "".join('page id=%d file="%s"\n' % it for it in enumerate(made)) + "chars count=%d\n" % len(glyphs)
    for it, (page, x, y), box in zip(glyphs, places, boxes):
        left, down = (it.left - padding, strike.ascent - it.top - padding) if it.width else (0, 0)
        text += CHAR % (ord(it.char or ""), x, y, *box, left, down, it.advance, page)
    return {**made, name + ".fnt": text.encode("utf-8", "surrogateescape")}


def _placed(boxes: Sequence[tuple[int, int]]) -> tuple[list[Place], int]:
    """A place for each box, and the width of the pictures: one picture, as small as can be, or several of the greatest size."""
    for side in SIDES:
        places = _shelved(boxes, side)
        if all(page == 0 for page, _, _ in places):
            break
    return places, side


def _shelved(boxes: Sequence[tuple[int, int]], side: int) -> list[Place]:
    """A place for each box on shelves, the highest boxes first; those without a pixel are at the origin."""
    places = [(0, 0, 0)] * len(boxes)
    page = x = y = shelf = 0
    for k in sorted((k for k, it in enumerate(boxes) if it[0]), key=lambda k: (-boxes[k][1], -boxes[k][0], k)):
        width, height = boxes[k]
        if x + width > side:
            x, y, shelf = 0, y + shelf + GAP, 0
        if y + height > side:
            page, x, y, shelf = page + 1, 0, 0, 0
        places[k] = page, x, y
        x, shelf = x + width + GAP, max(shelf, height)
    return places


def _power(rows: int) -> int:
    """The least power of two that is not less."""
    return 1 << (rows - 1).bit_length()


def _picture(width: int, height: int, placed: list[tuple[int, int, Glyph]]) -> bytes:
    """A picture with glyphs at places, white where they have pixels, and clear elsewhere."""
    image = pillow()
    made: Image = image.new("RGBA", (width, height), (255, 255, 255, 0))
    for x, y, it in placed:
        made.paste((255, 255, 255, 255), (x, y), image.frombytes("L", (it.width, it.height), it.tobytes()))
    return picture(made, "png")
