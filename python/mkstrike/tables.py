"""The tables of a font's file, as far as this package reads them: names, axes, the underline, sizes of bitmaps. A damaged table
says nothing."""
from __future__ import annotations

import struct

TYPE_CHECKING = False  # as in glyph.py
if TYPE_CHECKING:
    from typing import Tuple

    Axis = Tuple[float, float, float]  # least value, default and greatest value

CFF = b"OTTO"  # the version of a font with CFF outlines
BITMAPS = (b"EBLC", b"bloc")
PLACES_OF_SYMBOLS = range(0xF020, 0xF100)  # where a map of symbols has what ASCII and Latin-1 have at U+0020 to U+00FF


def numbers(form: str, data: bytes, at: int) -> tuple[int, ...] | None:
    """The numbers of a table at an offset; None if it ends before."""
    return struct.unpack_from(form, data, at) if 0 <= at <= len(data) - struct.calcsize(form) else None


def directory(data: bytes, face: int) -> int:
    """Where the table directory of a font is in its file."""
    return ((numbers(">I", data, 12 + 4 * face) if data[:4] == b"ttcf" else None) or (0,))[0]


def table(data: bytes, face: int, tag: bytes) -> bytes:
    """The bytes of a table; none if it is not there."""
    start = directory(data, face)
    (count,) = numbers(">H", data, start + 4) or (0,)
    for k in range(count):
        at = start + 12 + 16 * k
        if data[at:at + 4] == tag:
            offset, length = numbers(">II", data, at + 8) or (0, 0)
            return data[offset:offset + length]
    return b""


def is_cff(data: bytes, face: int) -> bool:
    """Whether the outlines of a font are of CFF."""
    start = directory(data, face)
    return data[start:start + 4] == CFF and any(table(data, face, it) for it in (b"CFF ", b"CFF2"))


def axes(data: bytes, face: int) -> dict[str, Axis]:
    """The axes of a variable font; nothing of another."""
    fvar = table(data, face, b"fvar")
    first, _, count, size = numbers(">HHHH", fvar, 4) or (0, 0, 0, 0)
    found = {}
    for k in range(count):
        places = numbers(">iii", fvar, first + size * k + 4)
        if places and size >= 20:
            tag = fvar[first + size * k:first + size * k + 4].decode("latin-1")
            least, default, greatest = (it / 65536 for it in places)
            found[tag] = least, default, greatest
    return found


def underline(data: bytes, face: int, size: int) -> tuple[int, int] | None:
    """Where the upper edge of an underline is, in rows above the baseline, and how many rows it has, by the tables `post` and
    `head`."""
    (em,) = numbers(">H", table(data, face, b"head"), 18) or (0,)
    position, thickness = numbers(">hh", table(data, face, b"post"), 8) or (0, 0)
    if em == 0 or thickness <= 0:
        return None
    row, rows = ((2 * it * size + em) // (2 * em) for it in (position, thickness))
    return row, max(rows, 1)


def bitmap_sizes(data: bytes, face: int) -> set[int]:
    """The sizes in pixels per em at which a font has bitmaps of its own (OpenType, EBLC: ppemX), as the program has them."""
    found: set[int] = set()
    for tag in BITMAPS:
        known = table(data, face, tag)
        (count,) = numbers(">I", known, 4) or (0,)
        for k in range(min(count, len(known) // 48)):
            found.update(numbers(">B", known, 8 + 48 * k + 44) or ())
    return found
