"""A strike: the pictures of characters at one size."""
from __future__ import annotations

import os
import warnings
from collections.abc import Iterator, Mapping, Sequence

from . import bdf, glyph as glyphs
from .charsets import mapped
from .refused import Missing, shown
from .sources import read_file
from .texts import Glyphs, code_of

SHOWN = 12  # names of glyphs that a warning has
TYPE_CHECKING = False  # as in glyph.py
if TYPE_CHECKING:
    from typing import Any

    from PIL.Image import Image

    from .charsets import Chars
    from .names import Names
    from .refused import Refused


class Strike(Glyphs):
    """A strike: from each character to its glyph, in rising order of the characters.

    - `text`: the strike in BDF, as bytes
    - `missing`: the characters that were asked for and that the font lacks
    - `refused`: from each character that was refused, and left out, to its refusal
    - `unhinted`: from each character that was refused, and drawn without hinting, to its refusal
    - `outside`: from each character that left its cell to how far (see `cell`)
    - `names`: what its font calls itself, from which `with_properties` makes the long name of X11; None if it has a name of its own
    - `underline`: where the upper edge of an underline is, in rows above the baseline, and how many rows it has; None if nothing
      says
    - `notes`: what else there is to know of it, a line each, as that no pixel is set
    - `strays`, `steps`: what the font's programs did, if the strike was made here, else 0
    """

    def __init__(self, text: bytes | bdf.Text, *, size: int | None = None, count: int | None = None, missing: tuple[str, ...] = (),
                 refused: Mapping[str, Refused] | None = None, unhinted: Mapping[str, Refused] | None = None,
                 outside: Mapping[str, Outside] | None = None, names: Names | None = None, notes: tuple[str, ...] = (),
                 underline: tuple[int, int] | None = None, strays: int = 0, steps: int = 0, is_own: bool = False,
                 given: Mapping[str, bdf.Value] | None = None) -> None:
        """A strike of its text, with what is known of it: its size and how many glyphs it has are read if they are not. `is_own`
        says that this package or the program wrote the text (see `bdf.parse`), `given` which properties its user gave."""
        self._text = text if isinstance(text, bytes) else None
        self._parsed = None if isinstance(text, bytes) else text
        self._is_own, self._size, self._count = is_own, size, count
        self.missing, self.notes = missing, notes
        self.refused: dict[str, Refused] = dict(refused or {})
        self.unhinted: dict[str, Refused] = dict(unhinted or {})
        self.outside: dict[str, Outside] = dict(outside or {})
        self.names, self.strays, self.steps = names, strays, steps
        self._underline = underline
        self._given: dict[str, bdf.Value] = dict(given or {})
        self._made: dict[int | None, glyphs.Glyph] = {}

    @classmethod
    def open(cls, path: str | os.PathLike[str]) -> Strike:
        """Reads a strike in BDF from a file, also one of another program."""
        strike = cls(read_file(path))
        bdf.check_room(strike.parsed())
        return strike

    # ---- what it says

    @property
    def text(self) -> bytes:
        """The strike in BDF."""
        if self._text is None:
            self._text = self.parsed().encoded()
        return self._text

    def parsed(self) -> bdf.Text:
        """What the text says, read once."""
        if self._parsed is None:
            self._parsed = bdf.parse(self.text, self._is_own)
        return self._parsed

    @property
    def name(self) -> str:
        """The name of the font in the text."""
        return self.parsed().name

    @property
    def size(self) -> int:
        """The size in pixels per em."""
        return self.parsed().size if self._size is None else self._size

    @property
    def ascent(self) -> int:
        """The rows above the baseline."""
        return self.parsed().ascent

    @property
    def descent(self) -> int:
        """The rows below the baseline."""
        return self.parsed().descent

    @property
    def box(self) -> tuple[int, int, int, int]:
        """The least box that holds all glyphs: width, height, and the column and the row of its lower left pixel."""
        return self.parsed().box

    @property
    def properties(self) -> dict[str, bdf.Value]:
        """The properties of the text beside FONT_ASCENT and FONT_DESCENT."""
        return dict(self.parsed().properties)

    @property
    def underline(self) -> tuple[int, int] | None:
        """Where the upper edge of an underline is, in rows above the baseline, and how many rows it has: by the properties of X11,
        or the font."""
        position, thickness = (self.parsed().properties.get("UNDERLINE_" + name) for name in ("POSITION", "THICKNESS"))
        return (-position, thickness) if isinstance(position, int) and isinstance(thickness, int) else self._underline

    def __getitem__(self, char: str | int) -> glyphs.Glyph:
        code = code_of(char)
        if code not in self._made:
            entry = self.parsed().entries.get(code) if code is not None else None
            if entry is None or code is None:
                raise Missing(str(char) if code is None else chr(code))
            pixels = glyphs.unpacked(entry.rows, entry.width, entry.height)
            self._made[code] = glyphs.Glyph(chr(code), entry.width, entry.height, entry.left, entry.bottom, entry.dwidth,
                                            entry.swidth, pixels)
        return self._made[code]

    def _has(self, code: int) -> bool:
        return code in self.parsed().entries

    @property
    def _rows(self) -> tuple[int, int]:
        _, height, _, bottom = self.box
        return bottom + height, -bottom

    def __iter__(self) -> Iterator[str]:
        return map(chr, sorted(self.parsed().entries))

    def __len__(self) -> int:
        return len(self.parsed().entries) if self._count is None else self._count

    def __eq__(self, other: object) -> bool:
        return isinstance(other, Strike) and self.text == other.text

    def __hash__(self) -> int:
        return hash(self.text)

    def __repr__(self) -> str:
        return "<Strike %r, %d pixels, %d glyphs>" % (self.name, self.size, len(self))

    # ---- what becomes of it

    def save(self, path: str | os.PathLike[str], format: str | None = None, **options: object) -> None:
        """Writes a file in the format that its ending says, or that is named: see `encode`. An older file stays if this fails."""
        from . import formats
        formats.save(self, os.fspath(path), format, options)

    def encode(self, format: str, **options: object) -> bytes:
        """The strike in another format, as bytes:

        - "bdf": its text
        - "png", "pbm": the sheet; the options are those of `sheet`
        - "c": rows of bytes in C, every glyph in a cell; "gfx", "lvgl": a font for Adafruit GFX or LVGL; `name` is the name in C
        - "raw": the cells alone; with `order`, such as "cp437", 256 of them in the order of that character set
        - "psf", "pcf", "otb": by bdf2psf, bdftopcf and fonttosfnt, which must be installed
        """
        from . import formats
        return formats.encode(self, format, options)

    def sheet(self, columns: int = 32, scale: int = 1) -> Image:
        """All glyphs as a picture of Pillow, black on white, each in a cell of the strike's box; `save` writes it to a file."""
        from . import picture
        return picture.sheet(self, columns, scale)

    def subset(self, chars: Chars = "", *, text: str = "") -> Strike:
        """The strike of fewer characters: see `characters`; "all" are those of this strike. `missing` has those that it lacks."""
        has = self.parsed().entries
        return self._chosen(mapped(chars, text, lambda: has))

    def _chosen(self, given: Mapping[int, int]) -> Strike:
        """The strike of characters, each with the glyph of one of this strike; what this strike lacks is missing."""
        has = self.parsed().entries
        kept = {new: bdf.renumbered(has[old], new) for new, old in given.items() if old in has}
        return self._with(self.parsed().with_entries(kept), missing=tuple(
            chr(new) for new, old in given.items() if old not in has and chr(old) not in self.refused), **{
                which: {chr(new): found[chr(old)] for new, old in given.items() if chr(old) in found} for which,
                found in self._told()})

    def _told(self) -> list[tuple[str, dict[str, Any]]]:
        """What is told of characters, each with its name."""
        return [("outside", self.outside), ("refused", self.refused), ("unhinted", self.unhinted)]

    def replace(self, given: Mapping[str, glyphs.Glyph] | Mapping[int, glyphs.Glyph]) -> Strike:
        """The strike with other glyphs of characters, or with more characters: from each to its glyph, as of another strike or of
        `Glyph.drawn`."""
        text = self.parsed()
        more = {}
        for char, it in given.items():
            code = code_of(char)
            if code is None:
                raise TypeError("a glyph is of one character, not %r" % (char,))
            if not isinstance(it, glyphs.Glyph):
                raise TypeError("the glyph of %r is a Glyph, not %s" % (char, type(it).__name__))
            more[code] = bdf.entry_of(code, it, text.size)
        return self._with(text.with_entries({**text.entries, **more}),
                          missing=tuple(it for it in self.missing if ord(it) not in more), **{
            which: {char: it for char, it in found.items() if ord(char) not in more} for which, found in self._told()})

    def cell(self, width: int, height: int, *, ascent: int | None = None, clip: bool = False, join: bool = False,
             wide: bool = False) -> Strike:
        """The same glyphs in a cell: each has the advance `width`, and ascent and descent together are `height`.

        `ascent` says how many rows of the cell are above the baseline; without it the rows that are too many or too few are shared
        by above and below. Glyphs keep their place from the origin. `outside` names those that leave the cell; with `clip` they
        lose the pixels there. With `join` the lines of box drawing reach the edges of the cell, and block elements and shades fill
        their parts of it (U+2500 to U+259F), so that neighbours join. With `wide` the characters to which a terminal
        gives two cells (East Asian Width) have twice the advance."""
        from . import cell
        return cell.in_cell(self, width, height, ascent, clip, join, wide)

    def diff(self, other: Strike) -> Diff:
        """How another strike differs: in its characters, their pixels, places and advances, in size, ascent and descent."""
        from .diff import Diff
        return Diff(self, other)

    def with_properties(self, properties: Mapping[str, bdf.Value] | None = None, *, x11: bool = False) -> Strike:
        """The strike with more properties; with `x11` those that X11, fontconfig and bdf2psf look for, which given ones replace. A
        strike without a name of its own then gets the long name of X11."""
        bdf.check(properties or {})
        given = {**self._given, **(properties or {})}
        text = self.parsed()
        if x11 and self.names is not None:
            text = bdf.Text(bdf.x11_name(text, self.names), text.size, text.ascent, text.descent, text.properties, text.entries)
        more = {name: value for name, value in (bdf.x11(text) if x11 else {}).items() if name not in given}
        kept = {name: value for name, value in text.properties.items() if name not in more and name not in given}
        return self._with(bdf.Text(text.name, text.size, text.ascent, text.descent, {**kept, **more, **given}, text.entries),
                          given=given)

    def named(self, name: str) -> Strike:
        """The strike with a name of its own."""
        text = self.parsed()
        bdf.check_name(name)
        return self._with(bdf.Text(name, text.size, text.ascent, text.descent, text.properties, text.entries), names=None)

    def _with(self, text: bdf.Text, **changed: Any) -> Strike:
        """A strike of another text, of which the same is known as here but for what changed."""
        tell_of_unnamed(self.parsed().unnamed)
        known: dict[str, Any] = {name: getattr(self, name) for name in (
            "missing", "names", "notes", "underline", "strays", "steps")}
        known.update(self._told(), given=self._given)
        known.update(changed)
        return Strike(text, is_own=True, **known)


def tell_of_unnamed(names: Sequence[str]) -> None:
    """Warns of the glyphs that a step leaves out, since they are no character's: those of another program's text."""
    if names:
        more = " and %d more" % (len(names) - SHOWN) if len(names) > SHOWN else ""
        warnings.warn("left out, since ENCODING gives no character: %s%s" % (", ".join(map(shown, names[:SHOWN])), more),
                      stacklevel=4)


if TYPE_CHECKING:
    from .cell import Outside
    from .diff import Diff
