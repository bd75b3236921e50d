"""Lists of characters: sets by name, ranges, texts, other strikes."""
from __future__ import annotations

import codecs
import os
from collections.abc import Iterable

from .sets import OTHERS, SETS

TYPE_CHECKING = False  # as in glyph.py
if TYPE_CHECKING:
    from typing import Callable, Union

    Chars = Union[str, int, range, Iterable[Union[str, int]]]
    Font = Callable[[], Iterable[int]]

FOLDERS = ("/usr/share/bdf2psf/fontsets", "/usr/share/bdf2psf")  # of Debian's package bdf2psf
LAST = 0x10FFFF
UNDEFINED = "\ufffe"  # in a codec's table: no character
# What code page 437 shows for 1 to 31 and for 127; the codec has control characters there.
CP437_LOW = "☺☻♥♦♣♠•◘○◙♂♀♪♫☼►◄↕‼¶§▬↨↑↓→←∟↔▲▼⌂"
ALL = "all"  # stands for every character of a font
OF_TEXT = "for the characters of a text use text="  # the command says it by its own option


def character_sets() -> dict[str, int]:
    """The sets that have names here, and how many characters each has."""
    return {name: len(characters(name)) for name in SETS}


def characters(chars: Chars = "", *, text: str = "") -> list[int]:
    """The code points of a list of characters, in rising order, each once.

    `chars` is one of these:

    - a string of items that commas join: a set (`character_sets()` names them, and each character set of one byte that Python has
      is one, such as "iso8859-7"), a number or a range in hexadecimal ("20-7e", "U+20AC", "41"), the name or the path of a list for
      bdf2psf ("Lat15", "./my.set"), or the path of a strike ("other.bdf")
    - a number or a range of numbers
    - any number of these, as a list or a set; there a string of one character is that character. A strike is such a list

    `text` adds the characters of a text without its line ends and other control characters. Where a font is known, as in
    `Font.strike`, "all" stands for its characters, and "f000-f2e0=e000" gives the glyphs of a range other numbers, from U+E000 on.
    """
    return listed(chars, text)


def listed(chars: Chars, text: str, font: Font | None = None) -> list[int]:
    """The code points of what `characters` takes, and if `font` tells its characters, of "all"."""
    found = _Listed(chars, text, font)
    if found.moved:
        raise ValueError("characters get other numbers in strikes alone: %r" % (chars,))
    return sorted(found.codes)


def mapped(chars: Chars, text: str, font: Font | None = None) -> dict[int, int]:
    """From each code point of a strike to that of the font's glyph which it has, in rising order: another one after "=" in a
    string."""
    found = _Listed(chars, text, font)
    for new, old in found.moved.items():
        if new in found.codes and new != old:
            raise ValueError("two characters would get the number U+%04X: U+%04X and U+%04X" % (new, new, old))
    return {code: found.moved.get(code, code) for code in sorted(found.codes.union(found.moved))}


class _Listed:
    """What a list of characters has: code points, and those of other glyphs with the code points that they get."""

    def __init__(self, chars: Chars, text: str, font: Font | None) -> None:
        if not isinstance(text, str):
            raise TypeError("text is a string, not %s" % type(text).__name__)
        self.codes = {code for code in map(ord, text) if not _is_control(code)}
        self.moved: dict[int, int] = {}
        self._font = font
        self._add(chars)

    def _add(self, chars: Chars) -> None:
        """Adds what `characters` takes."""
        if isinstance(chars, str):
            for item in filter(None, map(str.strip, chars.split(","))):
                self._add_item(item)
        elif hasattr(chars, "__index__"):
            self.codes.add(chars.__index__())
        elif isinstance(chars, range):
            self.codes.update(chars)
        elif isinstance(chars, Iterable):
            for it in chars:
                self._add(ord(it) if isinstance(it, str) and len(it) == 1 else it)
        else:
            raise TypeError("chars: %r is no list of characters" % (chars,))

    def _add_item(self, item: str) -> None:
        """Adds an item of a string: as `characters` has it, or a range, "=" and its new first number."""
        given, is_moved, first = item.partition("=")
        if not is_moved or os.sep in item:
            self.codes.update(_codes(item, self._font))
            return
        old, new = _range(given.strip()), _range(first.lstrip(">").strip())
        if old is None or new is None or len(new) != 1 or new[0] + len(old) - 1 > LAST:
            raise ValueError("%r: characters get other numbers as f000-f2e0=e000, in hexadecimal" % item)
        for code, it in enumerate(old, new[0]):
            if self.moved.setdefault(code, it) != it:
                raise ValueError("two characters would get the number U+%04X: U+%04X and U+%04X" % (code, self.moved[code], it))


def _is_control(code: int) -> bool:
    return code < 32 or 127 <= code < 160


def _codes(item: str, font: Font | None) -> Iterable[int]:
    """The code points of one item of a string that keeps its numbers."""
    if item.lower() == ALL:
        if font is None:
            raise ValueError("'all' are the characters of a font, and none is known here")
        return font()
    if os.sep in item or item.endswith(".bdf"):
        return _of_file(item)
    for found in (_named, _range, _listed, _of_codec):
        codes = found(item)
        if codes is not None:
            return codes
    lists = "no list of bdf2psf" if any(map(os.path.isdir,
                                            FOLDERS)) else "bdf2psf with its lists is not installed (Debian: bdf2psf)"
    raise ValueError("%r is no set of characters (%s), no hexadecimal number or range, and %s; %s" %
                     (item, ", ".join(SETS), lists, OF_TEXT))


def _named(name: str) -> list[int] | None:
    """The characters of a set that has a name here."""
    name = OTHERS.get(name.lower(), name.lower())
    return [code for it in SETS[name].split(",") for code in _range(it) or ()] if name in SETS else None


def _range(item: str) -> range | None:
    """The numbers of a hexadecimal number or range, or None if it is no such."""
    first, has_end, last = item.partition("-")
    try:
        numbers = [int(_bare(it), 16) for it in ((first, last) if has_end else (first,))]
    except ValueError:
        return None
    if numbers[-1] < numbers[0] or numbers[-1] > LAST:
        raise ValueError("%r is no range of characters: they rise from 0 to 10FFFF" % item)
    return range(numbers[0], numbers[-1] + 1)


def _bare(number: str) -> str:
    """The digits of a number such as U+20AC; nothing if there are other characters, which int() would take."""
    digits = number[2:] if number[:2].upper() in ("U+", "0X") else number
    return digits if digits.isascii() and digits.isalnum() else ""


def _of_codec(name: str) -> list[int] | None:
    """The characters of a character set of one byte that Python has, without control characters."""
    table = _table(name)
    return None if table is None else characters(text=table.replace(UNDEFINED, ""))


def _table(name: str) -> str | None:
    """The characters of a character set of one byte that Python has, by their places."""
    import importlib
    try:
        name = codecs.lookup(name).name
        table = str(importlib.import_module("encodings." + name.replace("-", "_")).decoding_table)
    except (LookupError, ImportError, AttributeError, ValueError):
        return None
    return table[0] + CP437_LOW[:31] + table[32:127] + CP437_LOW[31:] + table[128:] if name == "cp437" else table


def table_of(registry: str, encoding: str) -> str | None:
    """The characters of a character set by its two names in X11, as KOI8 and R, by their places."""
    name = registry.lower() + "-" + encoding.lower()
    if name in ("iso646.1991-irv", "ascii-0", "us-ascii"):
        return "".join(map(chr, range(128)))
    names = [name, name.replace("-", ""), encoding.lower()] + (["cp" + encoding.lower()]
                                                               if registry.lower() in ("ibm", "microsoft") else [])
    return next((it for it in map(_table, names) if it is not None), None)  # as iso8859-2, cp-437, microsoft-cp1252, ibm-437


def in_order(name: str) -> list[int | None]:
    """The code points of the places of a character set of one byte; None where it has no character with a picture."""
    table = _table(name)
    if table is None:
        raise ValueError("order: %r is no character set of one byte that Python knows, as cp437 or koi8-r" % name)
    return [None if it == UNDEFINED or _is_control(ord(it)) else ord(it) for it in table]


def _listed(name: str) -> list[int] | None:
    """The characters of a list of bdf2psf by its name, with or without its ending."""
    for folder in FOLDERS:
        for ending in ("", ".256", ".512", ".set"):
            path = os.path.join(folder, name + ending)
            if os.path.isfile(path):
                return _of_file(path)
    return None


def _of_file(path: str) -> list[int]:
    """The characters of a strike, or of a list as bdf2psf takes it."""
    from . import sources
    data = sources.read_file(path)
    if path.endswith(".bdf"):
        from . import bdf
        return sorted(bdf.parse(data).entries)
    codes: list[int] = []
    for line in data.decode("utf-8").split("\n"):
        for word in line.partition("#")[0].split():
            numbers = _range(word)
            if numbers is None or not word.upper().startswith("U+"):
                raise ValueError("%s: %r is no character as U+0041" % (path, word))
            codes += numbers
    return [it for it in codes if not _is_control(it)]


def ranges(codes: Iterable[int], most: int = 40) -> str:
    """Code points as ranges that people read, `U+0041-U+005A, U+20AC`: the first ones, and how many more there are."""
    runs: list[list[int]] = []
    for code in sorted(codes):
        if runs and code == runs[-1][1] + 1:
            runs[-1][1] = code
        else:
            runs.append([code, code])
    more = sum(last - first + 1 for first, last in runs[most:])
    shown = ["U+%04X" % first + ("-U+%04X" % last if last != first else "") for first, last in runs[:most]]
    return ", ".join(shown) + (" and %d more" % more if more else "")
