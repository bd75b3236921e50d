"""Texts made of glyphs of one size: what strikes, and fonts at a size, have in common."""
from __future__ import annotations

from abc import abstractmethod
from collections.abc import Iterator, Mapping

from .glyph import Glyph
from .refused import Missing

TYPE_CHECKING = False  # as in glyph.py
if TYPE_CHECKING:
    from PIL.Image import Image

HALVES = " ▀▄█"  # of two pixels, one above the other: neither, the upper, the lower, both


class Glyphs(Mapping[str, Glyph]):
    """From characters to glyphs of one size, in pixels.

    A text has a line for each of its lines. `missing` is the character that is drawn for one that is not there; without it such a
    character raises `Missing`."""

    @property
    @abstractmethod
    def ascent(self) -> int:
        """The rows above the baseline."""

    @property
    @abstractmethod
    def descent(self) -> int:
        """The rows below the baseline."""

    @property
    def line_gap(self) -> int:
        """The rows that the font adds between two lines."""
        return 0

    @property
    def height(self) -> int:
        """The rows of a line: ascent and descent together."""
        return self.ascent + self.descent

    @property
    @abstractmethod
    def _rows(self) -> tuple[int, int]:
        """The rows above the baseline, and below it, that a picture of one line has at least."""

    @abstractmethod
    def _has(self, code: int) -> bool:
        """Whether the character of a code point is there."""

    def __contains__(self, char: object) -> bool:
        code = code_of(char)
        return code is not None and 0 <= code <= 0x10FFFF and self._has(code)

    def measure(self, text: str, *, missing: str | None = None) -> tuple[int, int]:
        """How many pixels a text takes: the longest line's advances, and the rows of all lines with the gaps between them."""
        lines = _lines(text)
        widths = [sum(it.advance for it in self._glyphs_of(line, missing)) for line in lines]
        return max(widths), len(lines) * (self.height + self.line_gap) - self.line_gap

    def line(self, text: str, scale: int = 1, *, missing: str | None = None) -> Image:
        """A text as a picture of Pillow, black on white, with a margin of four pixels; each pixel is a square of `scale` pixels."""
        from . import picture
        return picture.drawn(*self._placed(text, missing), scale, picture.MARGIN)

    def blocks(self, text: str, *, missing: str | None = None) -> str:
        """A text as lines for a terminal: a character of half blocks is two pixels, one above the other."""
        from . import picture
        width, height, placed = self._placed(text, missing)
        picture.check_size(width, height)
        cells = [bytearray(width) for _ in range((height + 1) // 2)]
        for left, top, glyph in placed:
            for y, row in enumerate(glyph, top):
                cell = cells[y // 2]
                for x, is_set in enumerate(row, left):
                    if is_set:
                        cell[x] |= 1 << y % 2
        return "\n".join("".join(map(HALVES.__getitem__, it)).rstrip() for it in cells)

    def _glyphs_of(self, line: str, missing: str | None) -> Iterator[Glyph]:
        """The glyphs of a line."""
        for char in line:
            try:
                yield self[char]
            except Missing:
                if missing is None:
                    raise
                yield self[missing]

    def _placed(self, text: str, missing: str | None) -> tuple[int, int, list[tuple[int, int, Glyph]]]:
        """The width and the height of a text's picture, and its glyphs, each with the column and the row of its upper left
        pixel."""
        lines = [list(self._glyphs_of(line, missing)) for line in _lines(text)]
        (above, below), pitch = self._rows, self.height + self.line_gap
        placed, end = [], 0
        for at, line in enumerate(lines):
            pen, baseline = 0, above + at * pitch
            for glyph in line:
                if glyph.width:
                    placed.append((pen + glyph.left, baseline - glyph.top, glyph))
                pen += glyph.advance
            end = max(end, pen)
        left, top = min([x for x, _, _ in placed] + [0]), min([y for _, y, _ in placed] + [0])
        width = max([x + it.width for x, _, it in placed] + [end]) - left
        height = max([y + it.height for _, y, it in placed] + [baseline + below]) - top
        return width, height, [(x - left, y - top, it) for x, y, it in placed]


def _lines(text: str) -> list[str]:
    if not isinstance(text, str):
        raise TypeError("text is a string, not %s" % type(text).__name__)
    return text.splitlines() or [""]


def code_of(char: object) -> int | None:
    """The code point of one character, given as such or as a number; None if it is neither."""
    if isinstance(char, str):
        return ord(char) if len(char) == 1 else None
    return int(char.__index__()) if hasattr(char, "__index__") else None
