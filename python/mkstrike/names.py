"""What a font calls itself, by its tables `name`, `OS/2` and `post`, and its long name in X11. A damaged table says nothing."""
from __future__ import annotations

from collections import namedtuple

from . import _library, sources
from .refused import shown
from .tables import is_cff, numbers, table

TYPE_CHECKING = False  # as in glyph.py
if TYPE_CHECKING:
    from typing import NamedTuple

    class Names(NamedTuple):
        """Names of a font: `weight` is 1 to 1,000, 400 for Regular and 700 for Bold; `width` 1 to 9, 5 for normal; `slant` "R", "I"
        or "O" for upright, italic or oblique, as in X11."""
        family: str
        style: str
        weight: int
        width: int
        slant: str
        is_monospace: bool
else:
    Names = namedtuple("Names", "family style weight width slant is_monospace")

LONGEST = 60  # characters of a family in X11's name
FAMILY, STYLE = (16, 1), (17, 2)  # numbers of names in `name`; the first wins
ITALIC, BOLD, OBLIQUE = 1, 32, 512  # bits of fsSelection in `OS/2`
# X11's words, each from its weight on (OS/2, usWeightClass), and for each width from 1 on.
WEIGHTS = ((0, "Thin"), (150, "ExtraLight"), (250, "Light"), (350, "Medium"), (550, "DemiBold"), (650, "Bold"), (750, "ExtraBold"),
           (850, "Black"))
WIDTHS = ("UltraCondensed", "ExtraCondensed", "Condensed", "SemiCondensed", "Normal", "SemiExpanded", "Expanded", "ExtraExpanded",
          "UltraExpanded")


def names_of(data: bytes, face: int, otherwise: str) -> Names:
    """The names of a font of a file; its family is `otherwise` if it has none."""
    os2, post = (table(data, face, tag) for tag in (b"OS/2", b"post"))
    weight, width = numbers(">HH", os2, 4) or (400, 5)
    (selection,) = numbers(">H", os2, 62) or (0,)
    (fixed,) = numbers(">I", post, 12) or (0,)
    family, style = (next(filter(None, (_said(data, face, it) for it in which)), "") for which in (FAMILY, STYLE))
    slant = "O" if selection & OBLIQUE or "oblique" in style.lower() else "I" if selection & ITALIC else "R"
    is_bold = selection & BOLD and not 550 <= weight <= 1000
    return Names(family or otherwise, style or "Regular", 700 if is_bold else weight, width, slant, bool(fixed))


def faces(source: sources.Source) -> list[Names]:
    """The fonts of a file by their numbers, each as it calls itself: of a collection each of its fonts, else one. `source` is as of
    `Font`."""
    data, name = sources.read(sources.located(source, 0)[0])
    data = sources.unpacked(data)
    return [names_of(data, face, name) for face in range(_library.faces(data))]


def x11_name(names: Names, size: int, spacing: str, average: int) -> str:
    """The name of 14 fields of a strike: `size` is in pixels per em, `average` in tenths of a pixel."""
    family = "".join(it if " " <= it <= "~" and it not in '-?*,"' else " " for it in names.family[:LONGEST]).strip() or "strike"
    weight = [word for least, word in WEIGHTS if least <= names.weight][-1]
    width = WIDTHS[names.width - 1] if 1 <= names.width <= 9 else "Normal"
    return "-misc-%s-%s-%s-%s--%d-%d-72-72-%s-%d-ISO10646-1" % (family, weight, names.slant, width, size, 10 * size,
                                                                spacing.lower(), average)


def _said(data: bytes, face: int, number: int) -> str:
    """A name by its number, on one line; the library reads no font with CFF outlines, so fontTools tells that of one."""
    if is_cff(data, face):
        font = sources.opened(data, face, "names of fonts with CFF outlines need")
        said = sources.by_fonttools(lambda: str(font["name"].getDebugName(number) or ""), data)
    else:
        said = _library.name(data, face, number)
    return shown(" ".join(said.split()))
