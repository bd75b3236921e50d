"""A font, and what it makes."""
from __future__ import annotations

import warnings
from collections.abc import Iterable, Mapping

from . import _library, sources
from .charsets import listed, mapped
from .glyph import Glyph
from .names import Names, names_of
from .notes import notes_of
from .refused import Missing, Refused
from .strike import Strike
from .striker import Striker, glyph_of
from .tables import PLACES_OF_SYMBOLS, axes as axes_of, underline
from .texts import code_of

TYPE_CHECKING = False  # as in glyph.py
if TYPE_CHECKING:
    from typing import Literal, Union

    from PIL.Image import Image

    from .bdf import Value
    from .charsets import Chars
    from .listing import Listed
    from .looks import Look

    Refusing = Literal["leave-out", "unhinted", "refuse"]
    Dropout = Union[bool, None, Literal["font", "left", "near", "off"]]

NAME = "strike"  # of a strike, as the program has it
REFUSING = ("leave-out", "unhinted", "refuse")  # what becomes of a character that is refused, or of the strike
LOOK = 256  # pixels per em at which `fit` looks how large glyphs are
LETTERS, TEXT = "30-39,41-5a,61-7a", "Hamburgefonstiv 0123456789 AVWX kvwxyz"  # of `looks` and `sheet`, if none are given
MOST_BLOCKS = 32  # sizes of a font that are kept, 4 KB each


class Font:
    """A TrueType font: `source` is a path, its bytes, an open file, or a TTFont of fontTools.

    If no file has the name, as "DejaVu Sans:bold", fontconfig finds an installed font. `face` is the number of a font in a
    collection, from 0; `axes` chooses an instance of a variable font, as {"wght": 700}. fontTools unpacks WOFF2, makes these
    instances and converts CFF outlines, and must be installed for them. A file, and what is unpacked from it, has at most 64 MiB.
    Nothing else is checked before a strike or a glyph is made. `careful` is for fonts from strangers: a character that would take
    too much work is refused by 53 `TooMuchWork`, so that each call ends soon (docs/LIMITS.md has the times).

    - `name`: the file's name without its ending
    - `careful`: as it was given
    - `is_converted`: whether the font has CFF outlines, from which fontTools made others: at most 0.25 of 1,000 units away, and
      unhinted
    """

    def __init__(self, source: sources.Source, *, face: int = 0, axes: Mapping[str, float] | None = None,
                 careful: bool = False) -> None:
        face, self.careful = _library.whole(face, "face"), bool(careful)
        source, face = sources.located(source, face)
        data, self.name = sources.read(source)
        self.data, self.face, self.is_converted = sources.plain(data, face, axes)
        self._blocks: dict[tuple[int, bool], _library.Block] = {}
        self._characters: list[int] | None = None
        self._names: Names | None = None

    def __repr__(self) -> str:
        return "<Font %r, %d bytes>" % (self.name, len(self.data))

    def strike(self, size: int, chars: Chars = "", *, text: str = "", glyphs: Mapping[str, int | str] | None = None,
               hinted: bool = True,
               dropout: Dropout = "font", symbol: bool = False,
               name: str | None = None, x11: bool = False, properties: Mapping[str, Value] | None = None,
               refused: Refusing = "leave-out",
               require: bool = False, strict: bool = False) -> Strike:
        """Makes a strike of characters at a size in pixels per em.

        `chars` and `text` say which: see `characters`. With `hinted` the font's own programs run. With `dropout` thin strokes stay
        whole: `"font"` sets the pixels beside them that the font asks for, `"left"` the left or the lower one, `"near"` the nearer
        one. `None` is the rule alone, as `mkstrike make` has it: a pixel is set if its centre is inside. With `symbol` U+0020 to
        U+00FF have the glyphs that a font of symbols has at U+F020 to U+F0FF. `glyphs` gives characters other glyphs of the font,
        by number or name, as {"\\ue000": "A.alt"}. `name`, `x11` and `properties` are what `mkstrike make` calls `--name`, `--x11`
        and `--property`. Without `name` the strike is called "strike"; with `x11` it then gets the long name of X11, with the
        font's family, weight and slant and the size.

        What the font lacks is in `missing` of the strike; with `require` it is raised, as `Missing`. A character that is refused is
        left out and in `refused`; with `refused="unhinted"` it is drawn without hinting and in `unhinted`, and with
        `refused="refuse"`, as for `mkstrike make`, its refusal is raised. `strict` is that and `require`. A refusal that meets all
        characters is always raised, as `Refused`. What else there is to know, as that no pixel is set, is in `notes` and a
        warning."""
        given = symbols(mapped(chars, text, self.characters), symbol)
        strike = self._strike_of(size, given, glyphs=glyphs, hinted=hinted, dropout=dropout,
                                 name=name, refused="refuse" if strict else refused)
        if strike.missing and (require or strict):
            raise Missing(strike.missing[0], strike.missing)
        for note in strike.notes:
            warnings.warn(note, stacklevel=2)
        return strike.with_properties(properties, x11=x11) if x11 or properties else strike

    def _strike_of(self, size: int, given: Mapping[int, int], *, hinted: bool = True, dropout: Dropout = "font",
                   name: str | None = None,
                   refused: Refusing = "leave-out", glyphs: Mapping[str, int | str] | None = None) -> Strike:
        """The strike of characters, each with that of its glyph."""
        if name is not None and not isinstance(name, str):
            raise TypeError("name is a string, not %r" % (name,))
        if refused not in REFUSING:
            raise ValueError("refused is 'leave-out', 'unhinted' or 'refuse', not %r" % (refused,))
        if len(given) > _library.MOST_CHARS:
            raise ValueError("chars has %s characters: a strike has at most %s" % (
                format(len(given), ","), format(_library.MOST_CHARS, ",")))
        strike = self._made(size, sorted(set(given.values())), hinted, dropout, NAME if name is None else name, refused)
        strike = strike if all(new == old for new, old in given.items()) else strike._chosen(given)
        strike = strike.replace(self.glyphs(size, glyphs, hinted=hinted, dropout=dropout)) if glyphs else strike
        strike.names = self.names if name is None else None
        strike.notes = notes_of(self, strike, list(given))
        return strike

    def _made(self, size: int, codes: list[int], hinted: bool, dropout: Dropout, name: str, refusing: Refusing) -> Strike:
        """The strike of code points. It is made again without those that are refused, which are drawn unhinted or left out."""
        mode, encoded = self._mode(dropout, hinted), name.encode("utf-8", "surrogateescape")
        refused: dict[int, Refused] = {}
        try:
            text, told = _library.make(self.data, self.face, size, mode, codes, encoded)
        except Refused as why:
            if not why.is_of_character:
                raise
            refused = self._block(size, hinted).refused(self._mode(dropout), codes)
            if refusing == "refuse":
                raise refused[min(refused)] from None
            text, told = _library.make(self.data, self.face, size, mode, [it for it in codes if it not in refused], encoded)
        missing: tuple[str, ...] = ()
        if told.missing:
            numbers = _library.glyph_ids(self.data, self.face, codes)
            missing = tuple(chr(code) for code, number in zip(codes, numbers) if not number and code not in refused)
        strike = Strike(text, size=size, count=told.glyphs, missing=missing, refused={chr(it): why for it, why in refused.items()},
                        underline=underline(self.data, self.face, size), strays=told.strays, steps=told.steps, is_own=True)
        if not (refused and refusing == "unhinted" and hinted):
            return strike
        drawn = self._made(size, sorted(refused), False, dropout, name, "leave-out")
        return strike._with(strike.parsed().with_entries({**strike.parsed().entries, **drawn.parsed().entries}),
                            refused=drawn.refused,
                            unhinted={char: why for char, why in strike.refused.items() if char in drawn})

    def at(self, size: int, *, hinted: bool = True, dropout: Dropout = "font") -> Striker:
        """The font at a size in pixels per em: a mapping from the characters that it has to their glyphs, which measures and draws
        texts.

        Hinted, the font's `fpgm` and `prep` run once for a size; what they left is kept for later calls."""
        return Striker(self, self._block(size, hinted), self._mode(dropout))

    def _mode(self, dropout: Dropout, hinted: bool = False) -> int:
        """A mode of the library; with care if the font is opened so."""
        return _library.mode_of(hinted, dropout, self.careful)

    def _block(self, size: int, hinted: bool) -> _library.Block:
        """What the font is at a size, made once."""
        key = _library.whole(size, "size"), bool(hinted)
        block = self._blocks.get(key)
        if block is None:
            block = _library.Block(self.data, self.face, key[0], self._mode(None, key[1]))
            if len(self._blocks) >= MOST_BLOCKS:
                self._blocks.clear()
            self._blocks[key] = block
        return block

    def fit(self, width: int, height: int, chars: Chars = "", *, text: str = "", hinted: bool = True, dropout: Dropout = "font",
            symbol: bool = False, ascent: int | None = None, clip: bool = False, wide: bool = False) -> int:
        """The largest size, in pixels per em, at which no glyph of the characters leaves a cell of this width and height: see
        `Strike.cell`, which has the same `ascent`, and `characters`. What the font lacks or refuses does not count, and neither do
        U+2500 to U+259F, which `cell` draws out to the edges by `join`. With `clip` the largest at which a line and all advances
        fit, so that some glyphs may lose pixels. With `wide` the characters to which a terminal gives two cells fit two."""
        from .merge import Part, fitting
        options = {"text": text, "hinted": hinted, "dropout": dropout, "symbol": symbol}
        return fitting([Part(self, LOOK, chars, options)], width, height, "", "", ascent, clip, wide)

    def size_for(self, *, height: int | None = None, cap_height: int | None = None, hinted: bool = True,
                 dropout: Dropout = "font") -> int:
        """The largest size, in pixels per em, at which a line has at most `height` rows, ascent and descent together, or an H at
        most `cap_height`."""
        from .looks import LARGE, largest
        if (height is None) == (cap_height is None):
            raise TypeError("give height or cap_height")
        what, rows = ("height", height) if cap_height is None else ("cap_height", cap_height)
        return largest(_library.whole(rows, what), self.rows_at(LARGE, what, hinted=False),
                       lambda size: self.rows_at(size, what, hinted=hinted, dropout=dropout))

    def rows_at(self, size: int, what: str, *, hinted: bool = True, dropout: Dropout = "font") -> int:
        """The rows of a line ("height"), ascent and descent together, or of a capital H ("cap_height") at a size."""
        return sum(self.heights(size)[:2]) if what == "height" else self.glyph(size, "H", hinted=hinted, dropout=dropout).height

    def looks(self, sizes: Iterable[int], chars: Chars = LETTERS, *, text: str = "", hinted: bool = True,
              dropout: Dropout = "font") -> list[Look]:
        """What the font is at sizes: its cell, and which of the characters fall apart or vanish, drawn as told and without drop-out
        control. A glyph falls apart if its pixels are in more parts than when it is drawn large."""
        from .looks import looks
        return looks(self, sizes, listed(chars, text, self.characters), hinted, dropout)

    def sheet(self, sizes: Iterable[int], text: str = TEXT, chars: Chars = LETTERS, *, hinted: bool = True,
              dropout: Dropout = "font",
              scale: int = 1) -> Image:
        """A text at sizes as one picture of Pillow, below what `looks` finds of each. What the font lacks is left out of the
        text."""
        from .looks import sheet
        return sheet(self, self.looks(sizes, chars, hinted=hinted, dropout=dropout), text, hinted, dropout, scale)

    def glyph(self, size: int, char: str | int, *, hinted: bool = True, dropout: Dropout = "font") -> Glyph:
        """Makes the glyph of one character, given as such or as a code point. Raises `Missing` if the font lacks it."""
        code = code_of(char)
        if code is None:
            raise TypeError("char is one character or a code point, not %r" % (char,))
        return glyph_of(self._block(size, hinted), self._mode(dropout), code)

    def glyph_by_id(self, size: int, number: int, *, hinted: bool = True, dropout: Dropout = "font") -> Glyph:
        """Makes a glyph by its number, for programs that shape text: see `Striker.glyph`."""
        return self.at(size, hinted=hinted, dropout=dropout).glyph(number)

    def glyph_ids(self, chars: Chars = "", *, text: str = "") -> dict[str, int]:
        """The numbers of the characters' glyphs, as far as the font has them: `font.glyph_ids("all")` are all."""
        codes = listed(chars, text, self.characters)
        return {chr(code): number for code, number in zip(codes, _library.glyph_ids(self.data, self.face, codes)) if number}

    def glyph_names(self) -> list[str]:
        """The names of all glyphs by their numbers, as the table `post` has them; nothing where it has none."""
        from .listing import names_of_glyphs
        return names_of_glyphs(self.data, self.face, self.glyph_count)

    def glyphs(self, size: int, given: Mapping[str, int | str], *, hinted: bool = True, dropout: Dropout = "font") -> dict[str,
                                                                                                                           Glyph]:
        """Glyphs by their numbers or names, for characters that the font has not: from each character to its glyph, for
        `Strike.replace`."""
        at, names = self.at(size, hinted=hinted, dropout=dropout), self.glyph_names()
        for name in given.values():
            if isinstance(name, str) and (not name or name not in names):
                raise ValueError("the font has no glyph named %r%s" %
                                 (name, "" if any(names) else ": it names none, so give numbers"))
        return {char: at.glyph(names.index(it) if isinstance(it, str) else it) for char, it in given.items()}

    def listing(self, size: int | None = None, *, hinted: bool = True, dropout: Dropout = "font") -> list[Listed]:
        """What is in the font: the glyphs of its characters, then those without a character, with their numbers and names, and at a
        size with their pictures."""
        from .listing import of_font
        return of_font(self, None if size is None else self.at(size, hinted=hinted, dropout=dropout))

    def characters(self) -> list[int]:
        """The code points of all characters that the font has, in rising order."""
        if self._characters is None:
            self._characters = _library.characters(self.data, self.face)
        return list(self._characters)

    def heights(self, size: int) -> tuple[int, int, int]:
        """Ascent and descent in pixels, as each strike of this size has them, and what the font adds between lines."""
        info = _library.info(self.data, self.face, size)
        return info.ascent, info.descent, info.line_gap

    @property
    def names(self) -> Names:
        """What the font calls itself: family, style, weight, width, slant, and whether all its advances are equal."""
        if self._names is None:
            self._names = names_of(self.data, self.face, self.name)
        return self._names

    @property
    def glyph_count(self) -> int:
        """How many glyphs the font has."""
        return int(_library.info(self.data, self.face, 1).glyphs)

    def axes(self) -> dict[str, tuple[float, float, float]]:
        """The axes of a variable font: least value, default and greatest value of each; nothing of a font without axes."""
        return axes_of(self.data, self.face)


def symbols(given: dict[int, int], is_symbol: bool) -> dict[int, int]:
    """The characters of a strike with the glyphs that they have in a font of symbols."""
    return {new: 0xF000 + old if is_symbol and 0xF000 + old in PLACES_OF_SYMBOLS else old for new, old in given.items()}
