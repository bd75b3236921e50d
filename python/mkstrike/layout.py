"""The bytes of a cell, as displays take them: by rows, by columns or by pages, from either end of a byte."""
from __future__ import annotations

from .glyph import DIGITS

TYPE_CHECKING = False  # as in glyph.py
if TYPE_CHECKING:
    from .glyph import Glyph

WAYS = ("rows", "columns", "pages")
ENDS = ("msb", "lsb")
SIDES = ("left", "right")


class Layout:
    """How the pixels of a cell become bytes.

    - `by`: "rows", each of whole bytes, from the top; "columns", each of whole bytes, from the left; or "pages" of eight rows from
      the top, each a byte a column
    - `bits`: "msb" if the first pixel of a byte, the leftmost or the topmost, is the highest bit, "lsb" if it is the lowest;
      without it "msb" for rows and "lsb" for columns and pages
    - `align`: "left" if the bits that a row or a column leaves over come after its pixels, "right" if they come before
    """

    def __init__(self, bytes: str = "rows", bits: str | None = None, align: str = "left") -> None:
        for name, given, known in (("bytes", bytes, WAYS), ("bits", bits or "msb", ENDS), ("align", align, SIDES)):
            if given not in known:
                raise ValueError("%s is %s, not %r" % (name, " or ".join(known), given))
        self.by, self.bits, self.align = bytes, bits or ("msb" if bytes == "rows" else "lsb"), align

    def size(self, width: int, height: int) -> int:
        """The bytes of a cell."""
        return height * ((width + 7) // 8) if self.by == "rows" else width * ((height + 7) // 8)

    def packed(self, rows: list[str]) -> bytes:
        """The bytes of a cell, whose rows are given as digits."""
        lines = [self._line(it) for it in (rows if self.by == "rows" else map("".join, zip(*rows)))]
        return b"".join(lines if self.by != "pages" else map(bytes, zip(*lines)))

    def _line(self, digits: str) -> bytes:
        """A row or a column in whole bytes."""
        size = (len(digits) + 7) // 8
        filled = digits.ljust(8 * size, "0") if self.align == "left" else digits.rjust(8 * size, "0")
        if self.bits == "lsb":
            return int(filled[::-1] or "0", 2).to_bytes(size, "little")
        return int(filled or "0", 2).to_bytes(size, "big")


def in_cell(glyph: Glyph, width: int, height: int, left: int, bottom: int) -> list[str]:
    """The rows of a cell with a glyph in it, from the top, a digit a pixel; `left` and `bottom` are the cell's lower left pixel."""
    before = "0" * (glyph.left - left)
    given = {glyph.top - 1 - k: (before + row.translate(DIGITS).decode()).ljust(width, "0") for k, row in enumerate(glyph)}
    return [given.get(row, "0" * width) for row in range(bottom + height - 1, bottom - 1, -1)]
