"""Several fonts and strikes in one strike: which gives which characters, the strike of all, and the size at which all fit a
cell."""
from __future__ import annotations

import warnings
from collections.abc import Iterable, Mapping

from . import bdf
from .charsets import mapped
from .font import LOOK, Font, symbols
from .strike import Strike, tell_of_unnamed

TYPE_CHECKING = False  # as in glyph.py
if TYPE_CHECKING:
    from typing import Any, Tuple, Union

    from .cell import Line
    from .charsets import Chars

    Given = Union[Strike, Tuple[Any, ...]]
OPTIONS = {"text", "shift_y", "hinted", "dropout", "symbol", "refused", "glyphs"}  # of a part, beside its characters


class Part:
    """What one font or strike gives, at a size: the characters of its own, or what the parts before it lack."""

    def __init__(self, source: Font | Strike, size: int | None = None, chars: Chars = "",
                 options: Mapping[str, Any] | None = None) -> None:
        more = dict(options or {})
        if not isinstance(source, (Font, Strike)):
            raise TypeError("parts: %r is no font and no strike" % (source,))
        if set(more) - OPTIONS:
            raise TypeError("parts: %r is no option: there are %s" % (min(set(more) - OPTIONS), ", ".join(sorted(OPTIONS))))
        if isinstance(source, Strike) and size not in (None, source.size):
            raise ValueError("parts: a strike of %d pixels can't be made at %s" % (source.size, size))
        if isinstance(source, Font) and size is None:
            raise ValueError("parts: %r has no size" % source)
        self.source, self.size = source, source.size if isinstance(source, Strike) else int(size or 0)
        self.chars, self.text, self.shift = chars, more.pop("text", ""), more.pop("shift_y", 0)
        self.is_symbol, self.options, self.name = more.pop("symbol", False), more, source.name
        self.has_own = bool(self.text or more.get("glyphs")) or not isinstance(chars, str) or chars != ""

    def own(self) -> dict[int, int]:
        """The characters of its own, each with that of the font's glyph."""
        return symbols(mapped(self.chars, self.text, self.characters), self.is_symbol)

    def characters(self) -> Iterable[int]:
        """The code points that it has."""
        return self.source.characters() if isinstance(self.source, Font) else self.source.parsed().entries

    def strike(self, given: Mapping[int, int]) -> Strike:
        """Its strike of characters."""
        if isinstance(self.source, Strike):
            return self.source._chosen(given)
        return self.source._strike_of(self.size, given, **self.options)

    def line(self, size: int, given: Mapping[int, int], hinted: bool = True) -> Line:
        """Its ascent, its descent and the boxes of characters at a size; a strike has one size."""
        if isinstance(self.source, Strike):
            text = self.source.parsed()
            found = {code: (it.width, it.height, it.left, it.bottom, it.dwidth) for code, it in text.entries.items()}
            ascent, descent, boxes = text.ascent, text.descent, {new: found[old] for new, old in given.items() if old in found}
        else:
            at = self.source.at(size, hinted=hinted and self.options.get("hinted", True),
                                dropout=self.options.get("dropout", "font"))
            ascent, descent, boxes = at.ascent, at.descent, at.boxes(given)
        lifted = {new: (width, height, left, bottom + self.shift, dwidth)
                  for new, (width, height, left, bottom, dwidth) in boxes.items()}
        return ascent, descent, lifted


class Wanted:
    """Which characters are asked for, as the parts come one after the other."""

    def __init__(self, parts: list[Part], chars: Chars, text: str) -> None:
        self.common: dict[int, int] | None = None
        if chars or text:
            self.common = mapped(chars, text, lambda: {code for it in parts for code in it.characters()})
        self.asked = dict(self.common or {})

    def of(self, part: Part, taken: Iterable[int]) -> dict[int, int]:
        """What a part is asked for. One without characters of its own gives what is asked for, and what the parts before it lack; a
        strike all that it has, if nobody says which."""
        if part.has_own:
            own = part.own()
            self.asked.update(own)
            return own
        if isinstance(part.source, Strike) and self.common is None:
            told = map(ord, [*part.source.missing, *part.source.refused])
            every = {it: it for it in [*part.characters(), *told] if it not in taken}
            self.asked.update(every)
            return every
        if not self.asked:
            raise ValueError("nothing is asked of %s: give characters of its own, or for all" % part.name)
        has = set(part.characters())
        left = {new: new for new, old in self.asked.items() if new == old and new not in taken}
        return {new: old for new, old in symbols(left, part.is_symbol).items() if old in has}


class Told:
    """What is told of a part of a strike: how many glyphs are of it, which characters of its own it lacks, and what else there
    is."""

    def __init__(self, part: Part, count: int, missing: tuple[str, ...], notes: tuple[str, ...]) -> None:
        self.name = part.name
        self.count, self.missing, self.notes = count, missing, notes


def merge(parts: Iterable[Given], *, chars: Chars = "", text: str = "", name: str | None = None) -> Strike:
    """One strike of several fonts and strikes.

    A part is a strike, or a tuple: a font (or a strike), its size (None for a strike's), its characters, and a dict of options, of
    which the last ones may be left out: `(font, 16)`, `(font, 20, "f000-f2e0=e000")`, `(font, 16, "", {"text": "abc", "hinted":
    False})`. The options are `text`, `hinted`, `dropout`, `symbol`, `refused` and `glyphs` as of `Font.strike`, and `shift_y`,
    which lifts the glyphs by rows.

    A part gives the characters of its own, also those that a part before it has. One without gives what the parts before it lack of
    `chars` and `text`, which are for all, and of the other parts' characters; a strike gives all that it has, if `chars` and `text`
    don't say which. Name, size and properties are those of the first part, ascent and descent the greatest. `missing` and `refused`
    name what no part has."""
    merged, _ = joined([Part(*it) if isinstance(it, tuple) else Part(it) for it in parts], chars, text, name)
    for note in merged.notes:
        warnings.warn(note, stacklevel=2)
    return merged


def joined(parts: list[Part], chars: Chars = "", text: str = "", name: str | None = None) -> tuple[Strike, list[Told]]:
    """The strike of all parts, and what is told of each."""
    if not parts:
        raise ValueError("there is no strike to merge")
    wanted, strikes = Wanted(parts, chars, text), []
    owners: dict[int, int] = {}
    entries: dict[int, bdf.Entry] = {}
    for at, part in enumerate(parts):
        given = wanted.of(part, owners)
        strike = part.strike(given)
        strike.notes = strike.notes if given else ()
        strikes.append(strike)
        owners.update(dict.fromkeys(strike.parsed().entries, at))
        entries.update((code, _placed(it, part, parts[0].size)) for code, it in strike.parsed().entries.items())
    merged = _of(strikes, entries, owners, name)
    merged.missing = tuple(chr(it) for it in sorted(wanted.asked) if it not in owners and chr(it) not in merged.refused)
    told = [Told(part, sum(it == at for it in owners.values()), tuple(it for it in strike.missing if it in merged.missing),
                 strike.notes)
            for at, (part, strike) in enumerate(zip(parts, strikes))]
    merged.notes = tuple("%s: %s" % (it.name, note) for it in told for note in it.notes)
    return merged, told


def _placed(entry: bdf.Entry, part: Part, size: int) -> bdf.Entry:
    """A glyph of a part in a strike of a size."""
    if part.shift and entry.height:
        entry = entry._replace(bottom=entry.bottom + part.shift)
    return entry if part.size == size else entry._replace(swidth=bdf.swidth_of(entry.dwidth, size))


def _of(strikes: list[Strike], entries: Mapping[int, bdf.Entry], owners: Mapping[int, int], name: str | None) -> Strike:
    """A strike of glyphs, with what else the strikes of its parts have."""
    texts, first = [it.parsed() for it in strikes], strikes[0].parsed()
    above, below = max(it.ascent for it in texts), max(it.descent for it in texts)
    merged = bdf.Text(name or first.name, first.size, above, below, first.properties, entries)
    bdf.settle(merged)
    tell_of_unnamed([it for text in texts for it in text.unnamed])
    outside, unhinted = ({char: it for at, strike in enumerate(strikes) for char, it in getattr(strike, which).items()
                          if owners[ord(char)] == at}
                         for which in ("outside", "unhinted"))
    refused = {char: why for strike in reversed(strikes) for char, why in strike.refused.items() if ord(char) not in entries}
    return Strike(merged, is_own=True, names=None if name else strikes[0].names, refused=refused, unhinted=unhinted,
                  outside=outside,
                  underline=strikes[0].underline, given=strikes[0]._given, strays=sum(it.strays for it in strikes),
                  steps=sum(it.steps for it in strikes))


def fitting(parts: list[Part], width: int, height: int, chars: Chars, text: str, ascent: int | None, clip: bool,
            wide: bool = False) -> int:
    """The largest size of the fonts at which no glyph leaves its cell: see `Font.fit`."""
    from .cell import halved, is_wide, largest_size
    wanted = Wanted(parts, chars, text)
    owners: dict[int, tuple[int, int]] = {}
    for at, part in enumerate(parts):
        has = set(part.characters())
        owners.update((new, (at, old)) for new, old in wanted.of(part, owners).items() if old in has)
    shares = [{new: old for new, (owner, old) in owners.items() if owner == at} for at in range(len(parts))]

    def line(size: int, hinted: bool = True) -> Line:
        lines = [part.line(size, share, hinted) for part, share in zip(parts, shares)]
        boxes = {code: halved(box) if wide and is_wide(code) else box for it in lines for code, box in it[2].items()}
        return max(it[0] for it in lines), max(it[1] for it in lines), boxes

    return largest_size(line, line(LOOK, False), LOOK, width, height, ascent, clip, wide)
