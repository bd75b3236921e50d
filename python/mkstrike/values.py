"""The values of the options of `strike`: what their words mean."""
from __future__ import annotations

import os
import re
import stat
import sys

from . import bdf, sources
from .charsets import OF_TEXT, characters, mapped
from .looks import points
from .refused import Refused, shown

TYPE_CHECKING = False  # as in glyph.py
if TYPE_CHECKING:
    from collections.abc import Callable
    from typing import Any

ASK_OF_TEXT = "for the characters of a text use --text FILE"


def characters_of(given: dict[str, Any]) -> tuple[str, str]:
    """The characters that options ask for: a list, and a text."""
    chars, text = ",".join(given.get("chars", [])), "".join(map(_text_of, given.get("text", [])))
    try:
        mapped(chars, text, lambda: ())
    except ValueError as why:
        raise ValueError(str(why).replace(OF_TEXT, ASK_OF_TEXT)) from None
    return chars, text


def _text_of(path: str) -> str:
    if path != "-" and not os.path.exists(path):
        raise ValueError(
            "--text takes a file, and there is no '%s'; a text itself comes by a pipe: printf '%%s' '%s' | strike --text - .." %
            (path, path))
    data = sources.read(sys.stdin.buffer)[0] if path == "-" else sources.read_file(path)
    try:
        return data.decode("utf-8")
    except UnicodeDecodeError as why:
        raise ValueError("%s is no text in UTF-8 (byte %02X at %d); convert it, as by iconv -f latin1 -t utf-8" % (
            shown(path), data[why.start], why.start)) from None


def is_text(path: str) -> bool:
    """Whether a file begins as a text does."""
    if not os.path.isfile(path):
        return False
    with open(path, "rb") as file:
        start = file.read(64)
    return bool(start) and not start.startswith(b"STARTFONT") and all(it >= 32 or it in (9, 10, 13) for it in start)


def is_empty_file(stream: Any) -> bool:
    """Whether a stream is a file without a byte, as after `> FILE`."""
    try:
        found = os.fstat(stream.fileno())
    except (OSError, ValueError, AttributeError):
        return False
    return stat.S_ISREG(found.st_mode) and not found.st_size


def sizes_of(text: str, option: str = "--size") -> list[int]:
    """The sizes of an option, numbers and ranges that commas join."""
    found: list[int] = []
    for item in text.split(","):
        if "pt" in item:
            found.append(points(item))
            continue
        bounds = item.split("-")
        if len(bounds) > 2 or not all(it.isascii() and it.isdigit() for it in bounds) or (
                int(bounds[-1]) - int(bounds[0]) not in range(1024)):
            raise ValueError("%s takes pixels per em, as 16 or 12,14 or 8-16, not '%s'; points come with a resolution, as 12pt@96" %
                             (option, item))
        found += range(int(bounds[0]), int(bounds[-1]) + 1)
    return list(dict.fromkeys(found))


def points_of(text: str) -> dict[int, str]:
    """From sizes to the points that they were given as."""
    return {points(item): item for item in text.split(",") if "pt" in item}


def glyphs_of(text: str) -> dict[str, int | str]:
    """From characters to the glyphs that they get, by number or name."""
    found: dict[str, int | str] = {}
    for item in filter(None, map(str.strip, text.split(","))):
        name, _, char = item.rpartition("=")
        if not name or not re.fullmatch(r"(?:U\+)?[0-9A-F]{1,6}", char, re.IGNORECASE):
            raise ValueError("--glyph takes a glyph by name or number, and a character, as A.alt=e000, not '%s'" % item)
        (code,) = characters(char)
        if chr(code) in found:
            raise ValueError("--glyph gives U+%04X two glyphs" % code)
        found[chr(code)] = int(name) if name.isascii() and name.isdigit() else name
    return found


def cell_of(text: str | None, option: str) -> tuple[int, int] | None:
    """Columns and rows of a cell."""
    if text is None:
        return None
    width, _, height = text.lower().partition("x")
    if not all(it.isascii() and it.isdigit() for it in (width, height)):
        raise ValueError("%s takes columns and rows, as 8x16, not '%s'" % (option, text))
    return int(width), int(height)


def check_name(name: str) -> None:
    """Refuses a name that a strike can't have, and says which it can."""
    try:
        bdf.check_name(name)
    except Refused as why:
        raise ValueError("%s: --name has 1 to 255 characters of ASCII, without a space at either end" % why.line) from None


def _number(text: str, option: str, kind: Callable[[str], float]) -> float:
    """A number of an option."""
    try:
        return kind(text)
    except ValueError:
        raise ValueError("%s: %r is no number" % (option, text)) from None


def _pairs(items: list[str], option: str) -> dict[str, str]:
    """Names and values that = joins, each name once."""
    found: dict[str, str] = {}
    for item in items:
        name, is_there, value = item.partition("=")
        if not is_there:
            raise ValueError("%s %s: it has no =" % (option, item))
        if name in found:
            raise ValueError("%s gives %s twice: each run makes one of them" % (option, name))
        found[name] = value
    return found


def axes_of(text: str) -> dict[str, float]:
    """The places of axes."""
    return {tag: _number(value, "--axes", float) for tag, value in _pairs([it for it in text.split(",") if it], "--axes").items()}


def properties_of(items: list[str]) -> dict[str, bdf.Value]:
    """Properties, whose values are numbers if they look like them, as for `mkstrike make`."""
    return {name: bdf.number_or_text(value) for name, value in _pairs(items, "--property").items()}
