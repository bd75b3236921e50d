"""The C library: all that include/mkstrike.h declares and this package uses. A change of the header is a change of this file alone.

The calls of C are declared in `_declared`. The functions below them take and return what Python has, and raise `Refused`. A call of
C lets other threads of Python run meanwhile. """
from __future__ import annotations

import ctypes
import os
import struct
from array import array
from collections.abc import Iterator, Sequence
from ctypes import POINTER, byref, c_char, c_char_p, c_int32, c_size_t, c_uint16, c_uint32, c_uint64, c_void_p
from functools import lru_cache

from .refused import TOO_MUCH_WORK, Refused

TYPE_CHECKING = False  # as in glyph.py
if TYPE_CHECKING:
    from typing import Tuple

    Made = Tuple[int, int, int, int, int, int, bytes]  # width, height, left, bottom, advance, swidth, pixels

FILE, SONAME = "libmkstrike.so", "libmkstrike.so.1"  # beside this module, and of the system
ABI = 1  # the form of structs and calls that is declared here: MKSTRIKE_ABI
DONE, MISSING = 0, 1  # what a call returns, beside the numbers of refusals
HINTED, CAREFUL, DROPOUT = 1, 16, {None: 0, False: 0, "off": 0, True: 2, "left": 2, "near": 4, "font": 8}  # the bits of a mode
NONE = 0xFFFFFFFF  # in a refusal: no glyph, no program, no character
PROGRAMS = {0x10000: "fpgm", 0x10001: "prep"}  # the programs that belong to no glyph
MOST_SIZE, MOST_CODE, MOST_FACE, MOST_CHARS = 1024, 0x10FFFF, 0xFFFFFFFF, 0x10000
START = 16  # bytes of a file that tell what it is
MOST_ROOM = 1 << 22  # bytes that a first call hands over at most; a second one hands over what the first asked for
WORDS = 1024  # of a block, in the same way
NAME = 256  # bytes of a name, in the same way


class _Refused(ctypes.Structure):
    """struct mkstrike_refused"""
    _fields_ = [(name, c_uint32) for name in ("number", "table", "glyph", "during", "program", "opcode", "index", "code")] + [
        ("address", c_uint64)]


class Info(ctypes.Structure):
    """struct mkstrike_font_info"""
    _fields_ = [("ascent", c_int32), ("descent", c_int32), ("line_gap", c_int32), ("glyphs", c_uint32)]


class _Glyph(ctypes.Structure):
    """struct mkstrike_glyph_info"""
    _fields_ = [("width", c_uint32), ("height", c_uint32), ("left", c_int32), ("bottom", c_int32), ("stride", c_uint32),
                ("dwidth", c_int32), ("swidth", c_int32)]


PLACED = "@IIiiIiiIN"  # struct mkstrike_placed: struct mkstrike_glyph_info, the status and the offset


class _Drawn(ctypes.Structure):
    """struct mkstrike_drawn"""
    _fields_ = [("bytes", c_size_t), ("glyphs", c_uint32), ("missing", c_uint32), ("refused", c_uint32)]


class Told(ctypes.Structure):
    """struct mkstrike_told"""
    _fields_ = [("bytes", c_size_t), ("glyphs", c_uint32), ("missing", c_uint32), ("strays", c_uint64), ("steps", c_uint64)]


FONT = [c_char_p, c_size_t, c_uint32]
PREPARED = FONT + [c_uint16, c_uint32, c_void_p, c_size_t]
ONE = PREPARED + [c_uint32, c_void_p, c_size_t, POINTER(_Glyph), POINTER(_Refused)]
# From each call to what it returns and what it takes.
_declared = {
    "mkstrike_reason": (c_size_t, [c_uint32, c_char_p, c_size_t]),
    "mkstrike_advice": (c_size_t, [c_uint32, c_char_p, c_size_t]),
    "mkstrike_font": (c_uint32, FONT + [c_uint16, POINTER(Info), POINTER(_Refused)]),
    "mkstrike_faces": (c_uint32, [c_char_p, c_size_t, POINTER(c_uint32), POINTER(_Refused)]),
    "mkstrike_name": (c_uint32, FONT + [c_uint32, c_char_p, c_size_t, POINTER(c_size_t), POINTER(_Refused)]),
    "mkstrike_characters": (c_uint32, FONT + [c_void_p, c_size_t, POINTER(c_size_t), POINTER(_Refused)]),
    "mkstrike_glyph_ids": (c_uint32, FONT + [c_void_p, c_size_t, c_void_p, c_size_t, POINTER(_Refused)]),
    "mkstrike_make": (c_uint32,
                      FONT + [c_uint16, c_uint32, c_void_p, c_size_t, c_char_p, c_size_t, c_void_p, c_size_t, POINTER(Told),
                                        POINTER(_Refused)]),
    "mkstrike_prepare": (c_uint32, PREPARED + [POINTER(c_size_t), POINTER(_Refused)]),
    "mkstrike_glyph_prepared": (c_uint32, ONE),
    "mkstrike_glyph_by_id_prepared": (c_uint32, ONE),
    "mkstrike_glyphs_prepared": (c_uint32, PREPARED + [c_void_p, c_size_t, c_void_p, c_size_t, c_void_p, c_size_t, POINTER(_Drawn),
                                                       POINTER(_Refused)]),
}


@lru_cache(maxsize=None)
def _c() -> ctypes.CDLL:
    """The library: the file that MKSTRIKE_LIBRARY names, or the one beside this module, or the system's."""
    beside = os.path.join(os.path.dirname(os.path.abspath(__file__)), FILE)
    path = os.environ.get("MKSTRIKE_LIBRARY") or (beside if os.path.exists(beside) else SONAME)
    try:
        library = ctypes.CDLL(path)
        for name, (result, arguments) in _declared.items():
            call = getattr(library, name)
            call.restype, call.argtypes = result, arguments
    except (OSError, AttributeError) as fault:
        raise ImportError("mkstrike can't load its C library %s: %s. Install the wheel of this machine, or name the library by "
                          "MKSTRIKE_LIBRARY" % (path, fault)) from fault
    return library


# ---- numbers, as the library takes them

def whole(value: object, name: str) -> int:
    """A whole number, as an argument of this name gives it."""
    if not hasattr(value, "__index__"):
        raise TypeError("%s is a whole number, not %r" % (name, value))
    return int(value.__index__())


def _size(size: int) -> int:
    """A size; one that no 16 bits hold, or that is below 0, is one that the library refuses."""
    size = whole(size, "size")
    return size if 0 <= size <= MOST_SIZE else 0


def _face(face: int) -> int:
    """Which font of a collection; a number that no 32 bits hold is one that the library refuses."""
    return face if 0 <= face <= MOST_FACE else MOST_FACE


def _codes(codes: Sequence[int]) -> array[int]:
    """Code points as the library takes them."""
    are_in_range = not codes or 0 <= min(codes) and max(codes) <= MOST_CODE
    return array("I", codes if are_in_range else map(_code, codes))


def _code(code: int) -> int:
    """A code point; a number that is none is one that the library refuses."""
    return code if 0 <= code <= MOST_CODE else NONE


def mode_of(hinted: bool, dropout: bool | str | None, careful: bool) -> int:
    """The mode of the library."""
    try:
        return HINTED * bool(hinted) | CAREFUL * bool(careful) | DROPOUT[dropout]
    except (KeyError, TypeError):
        raise ValueError("dropout is 'font', 'left', 'near' or None, not %r" % (dropout,)) from None


# ---- refusals

def reason(number: int) -> str:
    """The name of a number that a call returned."""
    name = ctypes.create_string_buffer(32)
    _c().mkstrike_reason(number, name, len(name))
    return name.value.decode()


def advice(number: int) -> str:
    """What to do after a refusal of this number; nothing if there is none."""
    text = ctypes.create_string_buffer(128)
    _c().mkstrike_advice(number, text, len(text))
    return text.value.decode()


def _program(number: int) -> int | str:
    return PROGRAMS.get(number, number)


def _raised(it: _Refused, font: bytes, code: int | None = None) -> Refused:
    """The refusal as an exception."""
    char = None if code is None or not 0 <= code <= MOST_CODE else chr(code)
    table = it.table.to_bytes(4, "big").decode("latin-1") if it.table else None
    if it.during != NONE:
        return Refused(it.number, reason(it.number), during=_program(it.during), program=_program(it.program), address=it.address,
                       opcode=it.opcode, char=char)
    return Refused(it.number, reason(it.number), table=table, glyph=None if it.glyph == NONE else it.glyph, char=char,
                   start=font[:START])


# ---- calls

def info(font: bytes, face: int, size: int) -> Info:
    """Ascent, descent and line gap in pixels, and the number of glyphs."""
    told, refused = Info(), _Refused()
    if _c().mkstrike_font(font, len(font), _face(face), _size(size), byref(told), byref(refused)):
        raise _raised(refused, font)
    return told


def glyph_ids(font: bytes, face: int, codes: Sequence[int]) -> array[int]:
    """The numbers of the characters' glyphs, 0 if the font lacks one."""
    found = array("H")
    for at in range(0, len(codes), MOST_CHARS):
        part = codes[at:at + MOST_CHARS]
        chars, numbers, refused = _codes(part), array("H", bytes(2 * len(part))), _Refused()
        if _c().mkstrike_glyph_ids(font, len(font), _face(face), chars.buffer_info()[0], len(part), numbers.buffer_info()[0],
                                   len(part),
                                   byref(refused)):
            raise _raised(refused, font)
        found += numbers
    return found


def make(font: bytes, face: int, size: int, mode: int, codes: Sequence[int], name: bytes) -> tuple[bytes, Told]:
    """The text of a strike, and what is told of it."""
    size = whole(size, "size")
    chars, told, refused = _codes(codes), Told(), _Refused()
    room = min(4096 + len(codes) * (120 + (size * 3 // 2) * (size // 3 + 4)), MOST_ROOM)
    while True:
        out = ctypes.create_string_buffer(room)
        if _c().mkstrike_make(font, len(font), _face(face), _size(size), mode, chars.buffer_info()[0], len(codes), name, len(name),
                              out,
                              room, byref(told), byref(refused)):
            raise _raised(refused, font)
        if told.bytes <= room:
            return memoryview(out)[:told.bytes].tobytes(), told
        room = told.bytes


def characters(font: bytes, face: int) -> list[int]:
    """The characters that the font has, in rising order."""
    count, refused, room = c_size_t(0), _Refused(), MOST_CHARS
    while True:
        found = array("I", bytes(4 * room))
        if _c().mkstrike_characters(font, len(font), _face(face), found.buffer_info()[0], room, byref(count), byref(refused)):
            raise _raised(refused, font)
        if count.value <= room:
            return found[:count.value].tolist()
        room = count.value


def faces(font: bytes) -> int:
    """How many fonts a file has: those of a collection, else 1."""
    count, refused = c_uint32(0), _Refused()
    if _c().mkstrike_faces(font, len(font), byref(count), byref(refused)):
        raise _raised(refused, font)
    return count.value


def name(font: bytes, face: int, number: int) -> str:
    """A name of the font by its number in the table `name`; nothing if it has none, or is refused."""
    count, room = c_size_t(0), NAME
    while True:
        text = ctypes.create_string_buffer(room)
        if _c().mkstrike_name(font, len(font), _face(face), number, text, room, byref(count), None):
            return ""
        if count.value < room:
            return text.raw[:count.value].decode()
        room = count.value + 1


class Block:
    """A font that was opened at a size: hinted, its `fpgm` and `prep` have run. Any number of threads can use one."""

    def __init__(self, font: bytes, face: int, size: int, mode: int) -> None:
        """With the bits of hinting and of care of a mode."""
        self.size, self._given, self._mode = size, (font, len(font), _face(face), _size(size)), mode
        need, refused, room = c_size_t(0), _Refused(), WORDS
        while True:
            self._words = array("I", bytes(4 * room))
            if _c().mkstrike_prepare(*self._given, mode, self._words.buffer_info()[0], room, byref(need), byref(refused)):
                raise _raised(refused, font)
            if need.value <= room:
                break
            room = need.value
        self._place = self._words.buffer_info()
        self._room = min(max(4096, 2 * self.size * self.size), MOST_ROOM)

    def _before(self, dropout: int) -> tuple[object, ...]:
        """The first arguments of a call by this block."""
        return (*self._given, self._mode | dropout, *self._place)

    def glyph(self, dropout: int, number: int, by_id: bool = False) -> Made | None:
        """A glyph, of a character or by its own number. None if the font lacks the character."""
        info, refused = _Glyph(), _Refused()
        call = _c().mkstrike_glyph_by_id_prepared if by_id else _c().mkstrike_glyph_prepared
        room = self._room
        while True:
            out = (c_char * room)()
            status = call(*self._before(dropout), _code(number), out, room, byref(info), byref(refused))
            if status == MISSING:
                return None
            if status != DONE:
                raise _raised(refused, self._given[0], None if by_id else number)
            size = info.stride * info.height
            if size <= room:
                return info.width, info.height, info.left, info.bottom, info.dwidth, info.swidth, out.raw[:size]
            room = size

    def glyphs(self, dropout: int, codes: Sequence[int], with_pixels: bool = True) -> Iterator[tuple[int, int, Made]]:
        """The glyphs of the characters that the font has, each with its code point and its status. With `with_pixels` the bytes of
        their pixels are there."""
        some = max(MOST_ROOM // (2 * self.size * self.size), 1)
        for at in range(0, len(codes), min(some, MOST_CHARS)):
            part = codes[at:at + min(some, MOST_CHARS)]
            placed, pixels = self._drawn(dropout, part, MOST_ROOM if with_pixels else 0)
            for code, it in zip(part, struct.iter_unpack(PLACED, placed)):
                width, height, left, bottom, stride, dwidth, swidth, status, offset = it
                if status != MISSING:
                    yield code, status, (width, height, left, bottom, dwidth, swidth, pixels[offset:offset + stride * height])

    def _drawn(self, dropout: int, codes: Sequence[int], room: int) -> tuple[bytes, bytes]:
        """The entries of characters, and their pixels if there is room for any."""
        chars, drawn, refused = _codes(codes), _Drawn(), _Refused()
        placed = ctypes.create_string_buffer(struct.calcsize(PLACED) * len(codes))
        while True:
            pixels = ctypes.create_string_buffer(room)
            if _c().mkstrike_glyphs_prepared(*self._before(dropout), chars.buffer_info()[0], len(codes), placed, len(codes),
                                             pixels, room,
                                             byref(drawn), byref(refused)):
                raise _raised(refused, self._given[0])
            if drawn.bytes <= room or not room:
                return placed.raw, ctypes.string_at(pixels, min(drawn.bytes, room))
            room = drawn.bytes

    def refused(self, dropout: int, codes: Sequence[int]) -> dict[int, Refused]:
        """Which characters are refused, and why."""
        found: dict[int, Refused] = {}
        for code, status, _ in self.glyphs(dropout, codes, with_pixels=False):
            if status == TOO_MUCH_WORK:
                found[code] = Refused(status, reason(status), char=chr(code))
            elif status != DONE:
                try:
                    self.glyph(dropout, code)
                except Refused as why:
                    found[code] = why
        return found
