"""How a font looks at sizes: its cells, and the letters that fall apart. And sizes by the rows that they give."""
from __future__ import annotations

import re
from collections import namedtuple
from collections.abc import Iterable

from ._library import MOST_SIZE
from .texts import Glyphs

TYPE_CHECKING = False  # as in glyph.py
if TYPE_CHECKING:
    from typing import Callable, NamedTuple

    from PIL.Image import Image

    from .font import Dropout, Font
    from .glyph import Glyph

    class Look(NamedTuple):
        """A font at a size: the columns and rows of its cell, which are the widest advance and the rows of a line; how many
        characters were looked at; and which of them fall apart or vanish, as they are drawn and without drop-out control."""
        size: int
        width: int
        height: int
        letters: int
        apart: str
        apart_without: str
else:
    Look = namedtuple("Look", "size width height letters apart apart_without")

LARGE = 512  # pixels per em of the drawing that tells how many parts a glyph has
RUN = re.compile(b"\xff+")
LABEL = 12  # pixels per em of what a picture says of a size
GAP = 8  # rows between a text and what is said of the next one


def looks(font: Font, sizes: Iterable[int], codes: list[int], hinted: bool, dropout: Dropout) -> list[Look]:
    """What a font is at each size: see `Font.looks`."""
    whole = {char: parts(it) for char, it in font.at(LARGE, hinted=False, dropout="left").glyphs(codes).items()}
    found = []
    for size in sizes:
        ways = [font.at(size, hinted=hinted, dropout=way).glyphs(codes) for way in (dropout, False)]
        apart = ["".join(char for char, it in way.items() if _is_apart(parts(it), whole.get(char, 0))) for way in ways]
        height = sum(font.heights(size)[:2])
        found.append(Look(size, max([it.advance for it in ways[0].values()] + [0]), height, len(ways[0]), *apart))
    return found


def _is_apart(count: int, due: int) -> bool:
    return count > due or count == 0 < due


def parts(glyph: Glyph) -> int:
    """How many parts the pixels of a glyph are in; pixels that touch, also at a corner, are in one."""
    joined: list[int] = []  # of each run of pixels in a row a later one that it touches, or itself

    def last(run: int) -> int:
        while joined[run] != run:
            run = joined[run]
        return run

    above: list[tuple[int, int, int]] = []
    for row in glyph:
        here = [(*it.span(), len(joined) + k) for k, it in enumerate(RUN.finditer(row))]
        joined += [run for _, _, run in here]
        for start, end, run in here:
            for first, after, other in above:
                if first <= end and start <= after:
                    joined[last(other)] = last(run)
        above = here
    return sum(run == it for run, it in enumerate(joined))


def told(look: Look, dropout: Dropout) -> str:
    """A line that says what a font is at a size."""
    line = "%d: cell %d x %d, %d of %d fall apart" % (look.size, look.width, look.height, len(look.apart), look.letters)
    return line + ("" if dropout in (None, False, "off") else ", %d without drop-out control" % len(look.apart_without))


def sheet(font: Font, found: list[Look], text: str, hinted: bool, dropout: Dropout, scale: int) -> Image:
    """A picture of a text at all sizes, below what is said of each, as far as the font has the letters for that."""
    from . import picture
    labels, placed, width, height = font.at(LABEL, dropout="font"), [], 0, 0
    for look in found:
        said = told(look, dropout)
        lines: list[tuple[Glyphs, str]] = [(labels, said)] if all(it in labels for it in said) else []
        lines.append((font.at(look.size, hinted=hinted, dropout=dropout), text))
        for glyphs, line in lines:
            across, down, them = glyphs._placed("".join(it for it in line if it in glyphs), None)
            placed += [(x, y + height, it) for x, y, it in them]
            width, height = max(width, across), height + down
        height += GAP
    return picture.drawn(width, height - GAP, placed, scale, picture.MARGIN)


def largest(rows: int, large: int, rows_at: Callable[[int], int]) -> int:
    """The largest size at which a font has at most so many rows: `large` are those at LARGE pixels per em, unhinted."""
    if rows < 1 or large < 1:
        raise ValueError("there are no %d rows at any size" % rows)
    # hinting can make a glyph lower, but not by half
    for size in range(min(2 * LARGE * rows // large + 2, MOST_SIZE), 0, -1):
        if rows_at(size) <= rows:
            return size
    raise ValueError("at each size there are more than %d rows" % rows)


def points(text: str) -> int:
    """The pixels per em of points at a resolution, as 12pt@96."""
    found = re.fullmatch(r"(\d+(?:\.\d+)?)pt@(\d+)(?:dpi)?", text, re.ASCII)
    if found is None:
        raise ValueError("points are given with the resolution in dots an inch, as 12pt@96, not '%s'" % text)
    return int(float(found.group(1)) * int(found.group(2)) / 72 + 0.5)
