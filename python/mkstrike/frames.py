"""Box drawing, block elements and shades (U+2500 to U+259F) drawn out to the edges of a cell, so that neighbours join.

What a character is comes from its name in Unicode: the arms of a line and their kinds, the part of a cell that a block fills, how
dark a shade is. A line keeps the pixels that its font has. It is moved to where the first line of its kind is, since hinting may
put them into different rows, and each arm goes on to the edge as it ends. A picture of a cell is a list of rows from the top, each
a number whose highest bit is the leftmost column. """
from __future__ import annotations

import unicodedata
from collections.abc import Iterable, Mapping
from functools import lru_cache

LINES, BLOCKS = range(0x2500, 0x2580), range(0x2580, 0x25A0)
ARMS = {"LEFT": ("left",), "RIGHT": ("right",), "UP": ("up",), "DOWN": ("down",), "HORIZONTAL": ("left", "right"),
        "VERTICAL": ("up", "down")}
KINDS = {"LIGHT": "light", "SINGLE": "light", "HEAVY": "heavy", "DOUBLE": "double"}
ACROSS, DOWN = ("left", "right"), ("up", "down")
APART = {"DASH", "DIAGONAL"}  # lines with gaps, and those that meet in corners: they stay as they are
EIGHTHS = {"ONE EIGHTH": 1, "ONE QUARTER": 2, "THREE EIGHTHS": 3, "HALF": 4, "FIVE EIGHTHS": 5, "THREE QUARTERS": 6,
           "SEVEN EIGHTHS": 7}
# Two rows of a shade that go on in both directions: a quarter, a half and three quarters of the pixels.
SHADES = {"LIGHT": ("#...", "..#."), "MEDIUM": ("#.#.", ".#.#"), "DARK": (".###", "##.#")}


def is_drawn_out(code: int) -> bool:
    """Whether a character reaches the edges of its cell by what it means."""
    return code in LINES or code in BLOCKS


def drawn_out(pictures: Mapping[int, list[int]], width: int, height: int) -> dict[int, list[int]]:
    """The pictures of cells with each character drawn out to the edges."""
    due: dict[tuple[str, bool], set[int]] = {}  # the places at an edge of the first line of each kind and direction
    made = {}
    for code in sorted(pictures):
        if code in BLOCKS:
            made[code] = _block(unicodedata.name(chr(code)), width, height)
            continue
        edges, rows = arms(code), pictures[code]
        if any(rows):
            rows = _moved(rows, width, edges, due)
            for side, kind in edges.items():
                rows = _met(rows, width, side, due.setdefault((kind, side in ACROSS), _places(rows, width, side)))
        made[code] = rows
    return made


@lru_cache(maxsize=None)
def arms(code: int) -> dict[str, str]:
    """From each edge that the lines of a character reach to their kind, as of DOWN LIGHT AND RIGHT HEAVY, or DOUBLE UP AND LEFT."""
    phrases = [it.split() for it in unicodedata.name(chr(code))[len("BOX DRAWINGS "):].split(" AND ")]
    if APART & set(phrases[0]):
        return {}
    kinds = [[KINDS[it] for it in phrase if it in KINDS] for phrase in phrases]
    first = next(it for it in kinds if it)
    return {edge: (own or first)[0] for phrase, own in zip(phrases, kinds) for word in phrase for edge in ARMS.get(word, ())}


def _moved(rows: list[int], width: int, edges: Mapping[str, str], due: Mapping[tuple[str, bool], set[int]]) -> list[int]:
    """A picture whose arms go on to the edges, moved first to where the lines of their kinds are."""
    full = _extended(rows, width, edges)
    down, across = (_way(full, width, edges, sides, due) for sides in (ACROSS, DOWN))
    if not down and not across:
        return full
    count = len(rows)
    shifted = [rows[at - down] if 0 <= at - down < count else 0 for at in range(count)]
    every = (1 << width) - 1
    return _extended([(it >> across if across >= 0 else it << -across) & every for it in shifted], width, edges)


def _way(rows: list[int], width: int, edges: Mapping[str, str], sides: tuple[str, str],
         due: Mapping[tuple[str, bool], set[int]]) -> int:
    """How far the first arm to one of these sides is from where the lines of its kind are."""
    for side in sides:
        there, own = due.get((edges.get(side, ""), side in ACROSS)), _places(rows, width, side)
        if there and own:
            return 0 if _meet(own, there) else min(there) - min(own)
    return 0


def _places(rows: list[int], width: int, side: str) -> set[int]:
    """The places of the set pixels at an edge, from the top or the left."""
    if side in ACROSS:
        bit = width - 1 if side == "left" else 0
        return {at for at, row in enumerate(rows) if row >> bit & 1}
    row = rows[0 if side == "up" else -1]
    return {x for x in range(width) if row >> (width - 1 - x) & 1}


def _runs(places: set[int]) -> list[set[int]]:
    """Places in parts that are next to each other."""
    found: list[set[int]] = []
    for it in sorted(places):
        if not found or it - 1 not in found[-1]:
            found.append(set())
        found[-1].add(it)
    return found


def _meet(own: set[int], due: set[int]) -> bool:
    """Whether the first place of each line that is due is there, so that all that meet it meet each other, and no line comes from
    elsewhere."""
    return all(it & due for it in _runs(own)) and all(min(it) in own for it in _runs(due))


def _met(rows: list[int], width: int, side: str, due: set[int]) -> list[int]:
    """A picture whose lines at an edge reach those that are due there: in the row or the column at the edge they go on to them."""
    own = _places(rows, width, side)
    if _meet(own, due) or not due:
        return rows
    pairs = list(zip(_runs(own), _runs(due)))
    if len(_runs(own)) != len(_runs(due)):
        pairs = [(own or due, due)]
    more = {at for one, other in pairs for at in range(min(one | other), max(one | other) + 1)}
    if side in ACROSS:
        bit = 1 << (width - 1 if side == "left" else 0)
        return [row | bit if at in more else row for at, row in enumerate(rows)]
    at = 0 if side == "up" else len(rows) - 1
    return [*rows[:at], rows[at] | sum(1 << (width - 1 - x) for x in more), *rows[at + 1:]]


def _extended(rows: list[int], width: int, edges: Mapping[str, str]) -> list[int]:
    """A picture whose arms go on to the edges as they end."""
    return _down(_across(rows, width, set(edges)), set(edges))


def _across(rows: list[int], width: int, edges: set[str]) -> list[int]:
    """Each row that has a pixel in the outermost column goes on from there to the edge."""
    together = 0
    for row in rows:
        together |= row
    if not together:
        return rows
    first, last = width - together.bit_length(), (together & -together).bit_length() - 1
    left = ((1 << first) - 1) << (width - first) if "left" in edges else 0
    right = (1 << last) - 1 if "right" in edges else 0
    return [row | (left if row >> (width - 1 - first) & 1 else 0) | (right if row >> last & 1 else 0) for row in rows]


def _down(rows: list[int], edges: set[str]) -> list[int]:
    """The outermost rows are repeated up to the edges."""
    set_rows = [at for at, row in enumerate(rows) if row]
    if not set_rows:
        return rows
    first, last = set_rows[0], set_rows[-1]
    above = [rows[first] if "up" in edges else 0] * first
    below = [rows[last] if "down" in edges else 0] * (len(rows) - 1 - last)
    return above + rows[first:last + 1] + below


def _block(name: str, width: int, height: int) -> list[int]:
    """The picture of a block element by its name, as LOWER THREE EIGHTHS BLOCK, QUADRANT UPPER LEFT AND LOWER RIGHT or MEDIUM
    SHADE."""
    if name.endswith("SHADE"):
        pattern = SHADES[name.split()[0]]
        return [_row(pattern[y % 2][x % 4] == "#" for x in range(width)) for y in range(height)]
    if name.startswith("QUADRANT"):
        boxes = [_part(it, 4, width, height) for it in name[len("QUADRANT "):].split(" AND ")]
    else:
        count = next((it for words, it in EIGHTHS.items() if words in name), 8)
        boxes = [_part(name, count, width, height)]
    return [_row(any(left <= x < right and top <= y < bottom for left, right, top, bottom in boxes) for x in range(width))
            for y in range(height)]


def _row(pixels: Iterable[bool]) -> int:
    """A row of pixels from the left."""
    row = 0
    for it in pixels:
        row = 2 * row + it
    return row


def _part(name: str, eighths: int, width: int, height: int) -> tuple[int, int, int, int]:
    """A part of a cell: its first column and the one after its last, its first row and the one after its last. Two parts that make
    up the cell by their names do so by their pixels."""
    words = name.split()
    right = max(_share(width, eighths), 1) if "LEFT" in words else width
    left = min(_share(width, 8 - eighths), width - 1) if "RIGHT" in words else 0
    bottom = max(height - _share(height, 8 - eighths), 1) if "UPPER" in words else height
    top = min(height - _share(height, eighths), height - 1) if "LOWER" in words else 0
    return left, right, top, bottom


def _share(pixels: int, eighths: int) -> int:
    """So many eighths of a number of pixels, rounded."""
    return (2 * pixels * eighths + 8) // 16
