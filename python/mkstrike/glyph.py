"""One glyph: its numbers, and its pixels as rows and columns that nobody can write to."""
from __future__ import annotations

from collections.abc import Iterator

TYPE_CHECKING = False  # true for type checkers: `typing` takes longer to import than all of this package
if TYPE_CHECKING:
    from typing import NoReturn

    from PIL.Image import Image

SET = 255  # the byte of a set pixel; 0 is that of one that is not
_EIGHT = [bytes(SET if byte >> (7 - k) & 1 else 0 for k in range(8)) for byte in range(256)]
DIGITS = bytes.maketrans(bytes([SET, 0]), b"10")


class Glyph:
    """A glyph at a size. It can't be changed. Its pixels are bytes, 255 for a set pixel and 0 for another, in rows from the top:
    `glyph[row][column]` is one pixel, `glyph.pixels` and `numpy.asarray(glyph)` are all of them without a copy, and `print(glyph)`
    shows the picture.

    - `char`: the character, or None if the glyph was asked for by its number
    - `width`, `height`: the least box that holds every set pixel; 0 and 0 if none is set
    - `left`, `bottom`: the column and the row of the box's lower left pixel, counted from the origin on the baseline
    - `advance`: how many pixels further the next glyph begins; `swidth` is the same in 1/1000 of an em
    """

    __slots__ = ("char", "width", "height", "left", "bottom", "advance", "swidth", "_data")
    char: str | None
    width: int
    height: int
    left: int
    bottom: int
    advance: int
    swidth: int
    _data: bytes

    def __init__(self, char: str | None, width: int, height: int, left: int, bottom: int, advance: int, swidth: int,
                 data: bytes) -> None:
        """A glyph of its numbers and its pixels, a byte a pixel."""
        if len(data) != width * height:
            raise ValueError("%d bytes are no %d x %d pixels" % (len(data), width, height))
        for put, value in zip(_SLOTS, (char, width, height, left, bottom, advance, swidth, bytes(data))):
            put(self, value)

    @classmethod
    def drawn(cls, picture: str, *, left: int = 0, bottom: int = 0, advance: int | None = None) -> Glyph:
        """A glyph of lines from the top, as `print` shows one: "#" is a set pixel. `left` and `bottom` are the column and the row
        of the picture's lower left pixel; without `advance` the next glyph begins where the picture ends. Such a glyph has no
        character yet."""
        lines = picture.split("\n")
        width = max(map(len, lines))
        for it in picture:
            if it not in "#.\n":
                raise ValueError("a picture has # and .; not %r" % it)
        found = [(x, y) for y, line in enumerate(lines) for x, it in enumerate(line) if it == "#"]
        advance = left + width if advance is None else advance
        if not found:
            return cls(None, 0, 0, 0, 0, advance, 0, b"")
        first, last = (tuple(way(it[k] for it in found) for k in (0, 1)) for way in (min, max))
        rows = (line.ljust(width)[first[0]:last[0] + 1] for line in lines[first[1]:last[1] + 1])
        data = bytes(SET if it == "#" else 0 for row in rows for it in row)
        return cls(None, last[0] - first[0] + 1, last[1] - first[1] + 1, left + first[0], bottom + len(lines) - 1 - last[1],
                   advance, 0, data)

    def __setattr__(self, name: str, value: object) -> NoReturn:
        raise AttributeError("a glyph can't be changed")

    def __delattr__(self, name: str) -> NoReturn:
        raise AttributeError("a glyph can't be changed")

    # ---- its pixels

    @property
    def pixels(self) -> memoryview:
        """The pixels as a memoryview of rows and columns, without a copy; it has no pixel if none is set."""
        view = memoryview(self._data)
        return view.cast("B", (self.height, self.width)) if self._data else view

    @property
    def __array_interface__(self) -> dict[str, object]:
        """What numpy asks for."""
        return {"version": 3, "shape": (self.height, self.width), "typestr": "|u1", "data": self._data}

    def __len__(self) -> int:
        return self.height

    def __getitem__(self, row: int) -> bytes:
        at = range(self.height)[row] * self.width
        return self._data[at:at + self.width]

    def __iter__(self) -> Iterator[bytes]:
        return map(self.__getitem__, range(self.height))

    @property
    def rows(self) -> tuple[bytes, ...]:
        """The rows from the top, eight pixels a byte: the leftmost is the highest bit, as in BDF and in C arrays."""
        size = (self.width + 7) // 8
        padding = b"0" * (8 * size - self.width)
        digits = self._data.translate(DIGITS)
        lines = (digits[at:at + self.width] for at in range(0, len(digits), self.width or 1))
        return tuple(int(line + padding, 2).to_bytes(size, "big") for line in lines)

    @property
    def top(self) -> int:
        """The row above the highest one of the box."""
        return self.bottom + self.height

    def tobytes(self) -> bytes:
        """The pixels, a byte a pixel, row by row from the top."""
        return self._data

    def image(self, scale: int = 1) -> Image:
        """The box as a picture of Pillow, black on white."""
        from . import picture
        return picture.of_glyph(self, scale)

    # ---- as a value

    def __str__(self) -> str:
        pixels = self._data.replace(b"\xff", b"#").replace(b"\0", b".").decode()
        return "\n".join(pixels[at:at + self.width] for at in range(0, len(pixels), self.width or 1))

    def __repr__(self) -> str:
        return "<Glyph %r, %d x %d at %d, %d, advance %d>" % (self.char, self.width, self.height, self.left, self.bottom,
                                                              self.advance)

    def __bool__(self) -> bool:
        return True

    def __eq__(self, other: object) -> bool:
        return isinstance(other, Glyph) and self._all() == other._all()

    def __hash__(self) -> int:
        return hash(self._all())

    def __reduce__(self) -> tuple[object, ...]:
        return Glyph, self._all()

    def _all(self) -> tuple[object, ...]:
        return self.char, self.width, self.height, self.left, self.bottom, self.advance, self.swidth, self._data


_SLOTS = [getattr(Glyph, name).__set__ for name in Glyph.__slots__]  # writes each field, once


def unpacked(rows: bytes, width: int, height: int) -> bytes:
    """Rows of eight pixels a byte, as a byte a pixel."""
    size = (width + 7) // 8
    return b"".join(b"".join([_EIGHT[it] for it in rows[at:at + size]])[:width] for at in range(0, size * height, size or 1))
