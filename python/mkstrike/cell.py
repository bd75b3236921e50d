"""A strike in cells of one size, as consoles and terminals want it."""
from __future__ import annotations

from collections import namedtuple

from . import bdf
from ._library import whole
from .charsets import ranges
from .frames import drawn_out, is_drawn_out

TYPE_CHECKING = False  # as in glyph.py
if TYPE_CHECKING:
    from collections.abc import Mapping, Sequence
    from typing import Callable, NamedTuple, Tuple

    from .strike import Strike

    Box = Tuple[int, int, int, int, int]  # width, height, left, bottom and advance of a glyph
    Line = Tuple[int, int, Mapping[int, Box]]  # ascent, descent, and the boxes of characters

    class Outside(NamedTuple):
        """How far a glyph leaves its cell: rows above and below, columns at the left and at the right."""
        above: int
        below: int
        left: int
        right: int
else:
    Outside = namedtuple("Outside", "above below left right")

NEAREST = ("at no size do all characters fit a cell of %d x %d pixels; at %d %s, by %s: make that size and clip it "
           "(--size %d --cell %dx%d%s --clip)")
MOST = 1024  # columns or rows of a cell, and pixels per em


def is_wide(code: int) -> bool:
    """Whether a terminal gives a character two cells: its East Asian Width is wide or full."""
    from unicodedata import east_asian_width
    return east_asian_width(chr(code)) in ("W", "F")


def halved(box: Box) -> Box:
    """A box with half the columns: it fits one cell exactly if the whole box fits two."""
    columns, rows, left, bottom, advance = box
    return -(-(left + columns) // 2) - left // 2, rows, left // 2, bottom, -(-advance // 2)


def in_cell(strike: Strike, width: int, height: int, ascent: int | None, clip: bool, join: bool, wide: bool) -> Strike:
    """The strike in cells: see `Strike.cell`."""
    text = strike.parsed()
    above = _above(width, height, text.ascent, text.descent, ascent)
    outside, entries = {}, {}
    full = drawn_out({code: _picture(it, width, height, above) for code, it in text.entries.items() if is_drawn_out(code)}, width,
                     height) if join else {}
    for code, entry in text.entries.items():
        columns = 2 * width if wide and is_wide(code) else width
        far = _outside(entry[4:8], columns, above, height - above)
        if code in full:
            entry = _boxed(entry, full[code], width, above)
        elif any(far):
            outside[chr(code)] = far
            entry = _boxed(entry, _picture(entry, columns, height, above), columns, above) if clip else entry
        entries[code] = entry._replace(dwidth=columns, swidth=bdf.swidth_of(columns, text.size))
    changed = bdf.Text(text.name, text.size, above, height - above, text.properties, entries)
    bdf.settle(changed)
    return strike._with(changed, outside=outside)


def largest_size(at: Callable[[int], Line], look: Line, size: int, width: int, height: int, ascent: int | None, clip: bool,
                 wide: bool) -> int:
    """The largest size at which the glyphs of a line don't leave its cells: see `Font.fit`. `look` is the line at some size,
    unhinted."""
    _above(width, height, 0, 0, ascent)
    codes = _counted(look[2])
    columns, rows = _needed(look, codes, clip)
    # hinting can make a glyph smaller, but not by half
    most = min(2 * size * min(height * columns, width * rows) // (rows * columns) + 2, MOST)
    left: dict[int, dict[int, Outside]] = {}
    for size in range(most, 0, -1):
        line = at(size)
        above = _above(width, height, line[0], line[1], ascent)
        if clip and line[0] <= above and line[1] <= height - above and all(it[4] <= width for it in line[2].values()):
            return size
        found = {code: _outside(box[:4], width, above, height - above) for code, box in line[2].items() if code in codes}
        left[size] = {code: far for code, far in found.items() if any(far)}
        if not clip and not left[size]:
            return size
    words = "" if ascent is None else " --ascent %d" % ascent
    words += " --wide" * wide + " --join" * any(map(is_drawn_out, look[2]))
    raise ValueError(_nearest(left, width, height, words))


def _counted(boxes: Mapping[int, Box]) -> set[int]:
    """The characters that have to fit: those with pixels that are not drawn out to the edges, if there are any."""
    seen = {code for code, box in boxes.items() if box[0]}
    if not seen:
        raise ValueError("none of the characters has a pixel, so any size fits")
    return {code for code in seen if not is_drawn_out(code)} or seen


def _needed(line: Line, codes: set[int], clip: bool) -> tuple[int, int]:
    """The columns and rows that a line needs at least, of its glyphs or, if they are clipped, of their advances."""
    ascent, descent, boxes = line
    if clip:
        return max(1, *(it[4] for it in boxes.values())), max(1, ascent + descent)
    return max(boxes[it][0] for it in codes), max(boxes[it][1] for it in codes)


def _nearest(left: Mapping[int, Mapping[int, Outside]], width: int, height: int, words: str) -> str:
    """That no size fits, and the one at which the fewest characters leave the cell, with the words of the command for it."""
    size = min(left, key=lambda it: (len(left[it]), -it))
    far = {side: max(getattr(it, side) for it in left[size].values()) for side in Outside._fields}
    which = ("only %s leaves it" if len(left[size]) == 1 else "the fewest leave it, %s") % ranges(left[size], 8)
    return NEAREST % (
        width, height, size, which, ", ".join("%d %s" % (count, side) for side, count in far.items() if count), size, width,
        height, words)


def _above(width: int, height: int, ascent: int, descent: int, given: int | None) -> int:
    """The rows of a cell above the baseline: what is too much or too little is shared by above and below."""
    if not (0 < whole(width, "width") <= MOST and 0 < whole(height, "height") <= MOST):
        raise ValueError("a cell has 1 to %d columns and rows, not %d x %d" % (MOST, width, height))
    return ascent + (height - ascent - descent) // 2 if given is None else given


def _outside(box: Sequence[int], width: int, above: int, below: int) -> Outside:
    """How far a glyph leaves the cell."""
    columns, rows, left, bottom = box
    if not (columns and rows):
        return Outside(0, 0, 0, 0)
    return Outside(max(bottom + rows - above, 0), max(-below - bottom, 0), max(-left, 0), max(left + columns - width, 0))


def _picture(it: bdf.Entry, width: int, height: int, above: int) -> list[int]:
    """The rows of a cell with a glyph in it, without its pixels outside: the leftmost column is the highest bit."""
    size, every = (it.width + 7) // 8, (1 << width) - 1
    shift = width - it.left - 8 * size
    rows = [0] * height
    for at in range(it.height if size else 0):
        place = above - it.bottom - it.height + at
        if 0 <= place < height:
            row = int.from_bytes(it.rows[at * size:(at + 1) * size], "big")
            rows[place] = (row << shift if shift >= 0 else row >> -shift) & every
    return rows


def _boxed(it: bdf.Entry, rows: list[int], width: int, above: int) -> bdf.Entry:
    """A glyph with the pixels of a cell, in the least box that holds them."""
    kept = [at for at, row in enumerate(rows) if row]
    if not kept:
        return it._replace(width=0, height=0, left=0, bottom=0, rows=b"")
    together = 0
    for row in rows:
        together |= row
    last, first = (together & -together).bit_length() - 1, together.bit_length()
    size = (first - last + 7) // 8
    packed = b"".join((row >> last << (8 * size - first + last)).to_bytes(size, "big") for row in rows[kept[0]:kept[-1] + 1])
    return it._replace(width=first - last, height=kept[-1] - kept[0] + 1, left=width - first, bottom=above - 1 - kept[-1],
                       rows=packed)
