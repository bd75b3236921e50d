"""Two strikes compared: which characters differ, and how they look beside each other."""
from __future__ import annotations

from collections import namedtuple

from .charsets import ranges
from .refused import code_name

TYPE_CHECKING = False  # as in glyph.py
if TYPE_CHECKING:
    from typing import NamedTuple

    from PIL.Image import Image

    from .glyph import Glyph
    from .strike import Strike

    class Numbers(NamedTuple):
        """What is compared beside the glyphs."""
        size: int
        ascent: int
        descent: int
else:
    Numbers = namedtuple("Numbers", "size ascent descent")

SHOWN = 24  # characters whose pictures are printed
APART = 4  # columns between two pictures


class Diff:
    """How two strikes differ; it is false if they don't. Names and properties are not compared.

    - `old`, `new`: size, ascent and descent of both
    - `removed`, `added`: the characters that one of them has alone
    - `changed`: from each character that differs in its pixels, its place or its advance to its two glyphs
    """

    def __init__(self, old: Strike, new: Strike) -> None:
        self.old, self.new = (Numbers(it.size, it.ascent, it.descent) for it in (old, new))
        self.removed, self.added = ("".join(it for it in one if it not in other) for one, other in ((old, new), (new, old)))
        self.changed: dict[str, tuple[Glyph, Glyph]] = {
            char: (old[char], new[char]) for char in old if char in new and _seen(old[char]) != _seen(new[char])}
        self.same = len(old) - len(self.removed) - len(self.changed)

    def __bool__(self) -> bool:
        return bool(self.removed or self.added or self.changed or self.old != self.new)

    def __repr__(self) -> str:
        return "<Diff: %d removed, %d added, %d changed, %d the same>" % (len(self.removed), len(self.added), len(self.changed),
                                                                          self.same)

    def lines(self) -> list[str]:
        """Lines that name what differs; then the changed glyphs as pictures beside each other, the old one on the left, at most 24
        of them."""
        found = ["%s: %d, %d" % (name, one, other) for name, one, other in zip(Numbers._fields, self.old, self.new) if one != other]
        for what, chars in (("removed", self.removed), ("added", self.added), ("changed", "".join(self.changed))):
            if chars:
                found.append("%d %s: %s" % (len(chars), what, ranges(map(ord, chars))))
        for char, pair in list(self.changed.items())[:SHOWN]:
            found += ["", _title(char, *pair), *_beside(*pair)]
        more = len(self.changed) - SHOWN
        return found + (["", "and %d more" % more] if more > 0 else [])

    def image(self, scale: int = 1) -> Image:
        """A picture of Pillow of the changed glyphs, each line one character, the old glyph on the left."""
        from . import picture
        boxes = {char: _box(*pair) for char, pair in self.changed.items()}
        second = max([right - left for left, right, _, _ in boxes.values()] + [0]) + APART
        placed, row = [], 0
        for char, (left, _, bottom, top) in boxes.items():
            placed += [(column + it.left - left, row + top - it.top, it) for column, it in zip((0, second), self.changed[char])]
            row += top - bottom + APART
        return picture.drawn(2 * second - APART, max(row - APART, 1), placed, scale, picture.MARGIN)


def _seen(it: Glyph) -> tuple[object, ...]:
    """What a glyph shows: its pixels, their place and the advance."""
    return it.advance, it.width, it.height, it.width and it.left, it.height and it.bottom, it.tobytes()


def _box(*pair: Glyph) -> tuple[int, int, int, int]:
    """The first column, the one after the last, the lowest row and the one above the highest that two glyphs and their advances
    take."""
    with_pixels = [it for it in pair if it.width]
    return (min([it.left for it in with_pixels] + [0]),
            max([it.left + it.width for it in with_pixels] + [it.advance for it in pair] + [1]),
            min([it.bottom for it in with_pixels] + [0]), max([it.top for it in with_pixels] + [1]))


def _title(char: str, old: Glyph, new: Glyph) -> str:
    """The character, and its advance if that differs."""
    shown = " " + char if char.isprintable() and not char.isspace() else ""
    return code_name(ord(char)) + shown + (": advance %d, %d" % (old.advance, new.advance) if old.advance != new.advance else "")


def _beside(*pair: Glyph) -> list[str]:
    """The pictures of two glyphs beside each other."""
    from .layout import in_cell
    left, right, bottom, top = _box(*pair)
    rows = zip(*(in_cell(it, right - left, top - bottom, left, bottom) for it in pair))
    return [(" " * APART).join(it.replace("0", ".").replace("1", "#") for it in row) for row in rows]
