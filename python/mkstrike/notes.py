"""What a user should know of a strike, and of its font: what is drawn in place of what was meant, and why nothing is."""
from __future__ import annotations

from bisect import bisect_left

from . import tables
from .charsets import OF_TEXT

TYPE_CHECKING = False  # as in glyph.py
if TYPE_CHECKING:
    from .font import Font
    from .strike import Strike

BLANK = b"\nFONTBOUNDINGBOX 0 0 0 0\n"
HEADER = 1024  # bytes of a text that have this line


def notes_of(font: Font, strike: Strike, codes: list[int]) -> tuple[str, ...]:
    """A line for each thing to know."""
    notes = []
    if font.is_converted:
        notes.append("the outlines are of CFF: fontTools converted them, at most 0.25 of 1,000 units away, and unhinted")
    axes = tables.axes(font.data, font.face)
    if axes:
        notes.append("a variable font at its default: %s chooses another instance" % ", ".join(
            "%s=%g of %g to %g" % (tag, default, least, greatest) for tag, (least, default, greatest) in axes.items()))
    if strike.size in tables.bitmap_sizes(font.data, font.face):
        notes.append("the font has bitmaps of its own at %d pixels, which are not read: its outlines are drawn" % strike.size)
    if strike.missing:
        notes += _symbols(font, codes)
    if not len(strike):
        notes.append("the strike has no glyph: " + why_empty(strike, codes))
    elif BLANK in strike.text[:HEADER] and any(map(_is_visible, strike.parsed().entries)):
        notes.append("no pixel of the strike is set: the outlines of these characters are empty, or too thin for this size")
    return tuple(notes)


def _is_visible(code: int) -> bool:
    """Whether a character is one that has a picture."""
    return chr(code).isprintable() and not chr(code).isspace()


def _symbols(font: Font, codes: list[int]) -> list[str]:
    """A line that says where the characters of a font of symbols are, if those that are asked for are not there."""
    has, places = font.characters(), tables.PLACES_OF_SYMBOLS
    at = bisect_left(has, places[0])
    if at == len(has) or has[at] not in places or not any(0xF000 + it in places for it in codes) or set(codes) & set(has):
        return []
    return ["a font of symbols: its characters begin at U+%04X; symbol=True, or --symbol, takes them by U+0020 to U+00FF" % has[at]]


def why_empty(strike: Strike, codes: list[int]) -> str:
    """Why a strike of these characters has no glyph, and what to do."""
    if not codes:
        return "no character was asked for; give chars=\"latin-1\" or text="
    if len(strike.refused) == len(codes):
        return "each character is refused; " + next(iter(strike.refused.values())).to_do()
    return "the font has none of the characters; a string names a set, or has hexadecimal numbers: " + OF_TEXT
