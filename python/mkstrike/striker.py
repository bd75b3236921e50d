"""A font at a size: glyphs one by one, without a strike."""
from __future__ import annotations

from collections.abc import Iterator, Mapping

from . import _library
from .charsets import listed
from .glyph import Glyph
from .refused import Missing
from .texts import Glyphs, code_of

TYPE_CHECKING = False  # as in glyph.py
if TYPE_CHECKING:
    from .charsets import Chars
    from .font import Font

MOST_GLYPH = 0xFFFF  # the greatest number of a glyph


class Striker(Glyphs):
    """A font at a size, from each character that the font has to its glyph: see `Font.at`.

    The font is opened, and its `fpgm` and `prep` run, once for all glyphs. A glyph is made when it is asked for. A character that
    the font lacks raises `Missing`, one that is refused `Refused`.

    - `font`, `size`: the font, and the size in pixels per em
    """

    def __init__(self, font: Font, block: _library.Block, dropout: int) -> None:
        """By the block of a font at a size, and the bits of drop-out control: see `Font.at`."""
        self.font, self.size, self._block, self._dropout = font, block.size, block, dropout
        self._heights: tuple[int, int, int] | None = None

    def __repr__(self) -> str:
        return "<Striker %r, %d pixels>" % (self.font.name, self.size)

    def __getitem__(self, char: str | int) -> Glyph:
        code = code_of(char)
        if code is None:
            raise Missing(str(char))
        return glyph_of(self._block, self._dropout, code)

    def __eq__(self, other: object) -> bool:
        return self is other

    def __hash__(self) -> int:
        return id(self)

    def __iter__(self) -> Iterator[str]:
        return map(chr, self.font.characters())

    def __len__(self) -> int:
        return len(self.font.characters())

    def _has(self, code: int) -> bool:
        return bool(self.font.glyph_ids(code))

    def glyph(self, number: int) -> Glyph:
        """The glyph of a number, for programs that shape text. Glyph 0 is the font's box for what it lacks."""
        number = _library.whole(number, "number")
        if not 0 <= number <= MOST_GLYPH:
            raise ValueError("number is %d: glyphs have the numbers 0 to %s" % (number, format(MOST_GLYPH, ",")))
        made = self._block.glyph(self._dropout, number, by_id=True)
        assert made is not None
        return Glyph(None, *made)

    def glyphs(self, chars: Chars = "", *, text: str = "") -> dict[str, Glyph]:
        """The glyphs of many characters at once, which is faster than one by one: see `characters`; "all" are those of the font.
        What is missing or refused is left out."""
        codes = listed(chars, text, self.font.characters)
        return {chr(code): Glyph(chr(code), *made) for code, status, made in self._block.glyphs(self._dropout, codes) if not status}

    def boxes(self, given: Mapping[int, int]) -> dict[int, tuple[int, int, int, int, int]]:
        """Width, height, left, bottom and advance of glyphs, but those that are missing or refused, each by the character that gets
        it."""
        found = {code: made[:5] for code, status,
                 made in self._block.glyphs(self._dropout, sorted(set(given.values())), with_pixels=False)
                 if not status}
        return {new: found[old] for new, old in given.items() if old in found}

    @property
    def heights(self) -> tuple[int, int, int]:
        """Ascent, descent and line gap in pixels."""
        if self._heights is None:
            self._heights = self.font.heights(self.size)
        return self._heights

    @property
    def ascent(self) -> int:
        return self.heights[0]

    @property
    def descent(self) -> int:
        return self.heights[1]

    @property
    def line_gap(self) -> int:
        return self.heights[2]

    @property
    def _rows(self) -> tuple[int, int]:
        return self.ascent, self.descent


def glyph_of(block: _library.Block, dropout: int, code: int) -> Glyph:
    """The glyph of a character of a font at a size."""
    made = block.glyph(dropout, code)
    if made is None:
        raise Missing(chr(code))
    return Glyph(chr(code), *made)
