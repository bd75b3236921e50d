"""Pictures of strikes, by Pillow: black on white, a bit a pixel."""
from __future__ import annotations

from collections.abc import Iterable
from typing import TYPE_CHECKING, Any

from ._library import whole
from .refused import NotInstalled

if TYPE_CHECKING:
    from PIL.Image import Image

    from .glyph import Glyph
    from .strike import Strike

MARGIN = 4  # pixels of the strike around all
MOST = 1 << 28  # pixels of a picture, which take a byte each


def of_glyph(glyph: Glyph, scale: int) -> Image:
    """The box of a glyph."""
    return drawn(glyph.width, glyph.height, [(0, 0, glyph)], scale)


def sheet(strike: Strike, columns: int, scale: int) -> Image:
    """All glyphs in rising order, in cells with a margin around them."""
    columns, scale = whole(columns, "columns"), whole(scale, "scale")
    if min(columns, scale) < 1:
        raise ValueError("columns and scale are 1 or more, not %d and %d" % (columns, scale))
    width, height, placed = cells(strike, max(1, min(columns, len(strike))))
    return drawn(max(width, 0), max(height, 0), placed, scale, MARGIN)


def cells(strike: Strike, columns: int) -> tuple[int, int, list[tuple[int, int, Glyph]]]:
    """The width and the height of all glyphs in cells of the strike's box, with a pixel between cells; and the glyphs, each with
    the column and the row of its upper left pixel."""
    width, height, left, bottom = strike.box
    placed = [(k % columns * (width + 1) + glyph.left - left, k // columns * (height + 1) + bottom + height - glyph.top, glyph)
              for k, glyph in enumerate(strike.values())]
    return columns * (width + 1) - 1, -(-len(strike) // columns) * (height + 1) - 1, placed


def pillow() -> Any:
    """Pillow's module of pictures."""
    try:
        from PIL import Image
    except ImportError as fault:
        raise NotInstalled("pictures need Pillow (Debian: python3-pil; pip install Pillow)") from fault
    return Image


def check_size(width: int, height: int) -> None:
    """Refuses a picture that would take much memory."""
    if width * height > MOST:
        raise ValueError("a picture of %d x %d pixels: one has at most %s" % (width, height, format(MOST, ",")))


def drawn(width: int, height: int, placed: Iterable[tuple[int, int, Glyph]], scale: int, margin: int = 0) -> Image:
    """A picture with glyphs at places, counted from the top left, and a margin around them; each pixel becomes a square."""
    image = pillow()
    width, height = width + 2 * margin, height + 2 * margin
    check_size(width * scale, height * scale)
    made: Image = image.new("1", (max(width, 1), max(height, 1)), 1)
    for x, y, glyph in placed:
        if glyph.width and glyph.height:
            made.paste(0, (x + margin, y + margin), image.frombytes("1", (glyph.width, glyph.height), b"".join(glyph.rows)))
    return made if scale == 1 else made.resize((made.width * scale, made.height * scale), image.NEAREST)
