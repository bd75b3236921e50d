"""Strikes as modules of MicroPython, with the functions that font_to_py's modules have for its Writer."""
from __future__ import annotations

import warnings
from typing import TYPE_CHECKING

from .carray import comment
from .charsets import ranges
from .layout import Layout, in_cell
from .refused import code_name

if TYPE_CHECKING:
    from .strike import Strike

MODULE = '''\
# {count} glyphs of {font} at {size} pixels per em: made by mkstrike. The functions are those of font_to_py's modules.

def height():
    return {height}

def baseline():
    return {baseline}

def max_width():
    return {max_width}

def hmap():
    return {hmap}

def reverse():
    return {reverse}

def monospaced():
    return {monospaced}

def min_ch():
    return {min_ch}

def max_ch():
    return {max_ch}

# The first and the last character of each run of characters, and the number of the first one's glyph.
_runs = (
{runs}
)

# The bytes before each glyph, in three bytes, the lowest first; and the width of each, in two.
_starts = memoryview(
{starts})
_widths = memoryview(
{widths})
_glyphs = memoryview(
{glyphs})

def _number(view, at, size):
    found = 0
    for k in range(size):
        found |= view[at * size + k] << 8 * k
    return found

# The bytes of a character's glyph, its height and its width; of {other} for a character that is not here.
def get_ch(ch):
    code, at = ord(ch), {default}
    for first, last, start in _runs:
        if first <= code <= last:
            at = code - first + start
    return _glyphs[_number(_starts, at, 3):_number(_starts, at + 1, 3)], {height}, _number(_widths, at, 2)
'''
MOST = 1 << 24  # bytes of all glyphs


def module(strike: Strike, bytes: str = "rows", bits: str | None = None) -> str:
    """The text of the module: each glyph is as wide as its advance, and all are as high as a line; `bytes` is "rows" or
    "columns"."""
    glyphs, layout = list(strike.values()), Layout(bytes, bits)
    if not glyphs:
        raise ValueError("the strike has no glyph")
    if layout.by == "pages":
        raise ValueError("a module of MicroPython has bytes by rows or by columns, not by pages")
    bottom, top = min([-strike.descent] + [it.bottom for it in glyphs]), max([strike.ascent] + [it.top for it in glyphs])
    lefts = [min(it.left, 0) for it in glyphs]
    widths = [max(it.advance, it.left + it.width) - left for it, left in zip(glyphs, lefts)]
    data = [layout.packed(in_cell(it, width, top - bottom, left, bottom)) for it, width, left in zip(glyphs, widths, lefts)]
    starts = [0]
    for it in data:
        starts.append(starts[-1] + len(it))
    if starts[-1] >= MOST or max(widths) > 0xFFFF:
        raise ValueError("a module of MicroPython has less than %s bytes of glyphs, not %s" %
                         tuple(format(it, ",") for it in (MOST, starts[-1])))
    wider = [ord(it.char or "") for it, width in zip(glyphs, widths) if width > it.advance]
    if wider:
        warnings.warn("wider than their advance, since a module of MicroPython has nothing outside it: " + ranges(wider),
                      stacklevel=4)
    codes = list(map(ord, strike))
    default = codes.index(63) if 63 in codes else 0
    return MODULE.format(
        count=len(glyphs), font=comment(strike.name), size=strike.size, height=top - bottom, baseline=top,
        max_width=max(widths), hmap=layout.by == "rows", reverse=layout.bits != Layout(layout.by).bits,
        monospaced=len(set(widths)) == 1, min_ch=codes[0], max_ch=codes[-1], default=default, other=code_name(codes[default]),
        runs="\n".join("    (%d, %d, %d)," % it for it in _runs(codes)), starts=_written(starts, 3), widths=_written(widths, 2),
        glyphs=_literal(b"".join(data)))


def _runs(codes: list[int]) -> list[tuple[int, int, int]]:
    """The first and the last of each run of code points, and where the run begins among all."""
    firsts = [k for k, code in enumerate(codes) if not k or code != codes[k - 1] + 1]
    return [(codes[k], codes[end - 1], k) for k, end in zip(firsts, [*firsts[1:], len(codes)])]


def _written(numbers: list[int], size: int) -> str:
    return _literal(b"".join(it.to_bytes(size, "little") for it in numbers))


def _literal(data: bytes) -> str:
    """Bytes as Python has them, in lines of sixteen."""
    return "\n".join("    b'%s'" % "".join("\\x%02x" % it for it in data[at:at + 16]) for at in range(0, max(len(data), 1), 16))
