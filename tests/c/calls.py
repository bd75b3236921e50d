"""The calls of the C library's shared object by ctypes: those that the Python package declares, and the others. tools/fuzz_c.c
looks at what agrees from call to call, and at what they leave in buffers."""
import ctypes
import os
import sys
from array import array
from ctypes import POINTER, byref, c_char_p, c_int32, c_size_t, c_uint16, c_uint32, c_void_p

from prebuilt import TOP

sys.path.append(os.path.join(TOP, "python"))
from mkstrike import Refused, _library  # noqa: E402, F401


class Point(ctypes.Structure):
    """struct mkstrike_outline_point"""
    _fields_ = [("x", c_int32), ("y", c_int32), ("on_curve", c_uint32)]


class Outlined(ctypes.Structure):
    """struct mkstrike_outlined"""
    _fields_ = [("points", c_size_t), ("contours", c_size_t), ("advance", c_int32)]


SIZED, BUFFER, REFUSED = _library.FONT + [c_uint16, c_uint32], [c_void_p, c_size_t], [POINTER(_library._Refused)]
ONE = SIZED + [c_uint32] + BUFFER + [POINTER(_library._Glyph)] + REFUSED
MORE = {
    "mkstrike_faces": [c_char_p, c_size_t, POINTER(c_uint32)] + REFUSED, "mkstrike_glyph": ONE, "mkstrike_glyph_by_id": ONE,
    "mkstrike_outline": SIZED + [c_uint32] + BUFFER * 2 + [POINTER(Outlined)] + REFUSED,
    "mkstrike_glyphs": SIZED + BUFFER * 3 + [POINTER(_library._Drawn)] + REFUSED,
}


class Calls:
    """The calls of a shared object, which raise Refused."""
    MISSING = _library.MISSING

    def __init__(self, path):
        os.environ["MKSTRIKE_LIBRARY"] = path
        self.c, self.refused = _library._c(), _library._Refused()
        del os.environ["MKSTRIKE_LIBRARY"]
        for name, arguments in MORE.items():
            getattr(self.c, name).argtypes = arguments

    def done(self, status, font):
        """Raises what a call refused."""
        assert status in (0, self.refused.number)
        if status:
            raise _library._raised(self.refused, font)

    def outline(self, font, ppem, is_hinted, glyph):
        """The lines of a glyph's outline, in buffers of just its size."""
        told, again, words = Outlined(), Outlined(), (font, len(font), 0, ppem, int(is_hinted), glyph)
        self.done(self.c.mkstrike_outline(*words, None, 0, None, 0, byref(told), byref(self.refused)), font)
        points, ends = (Point * told.points)(), (c_uint16 * told.contours)()
        self.done(self.c.mkstrike_outline(*words, points, told.points, ends, told.contours, byref(again), byref(self.refused)),
                  font)
        assert bytes(again) == bytes(told)
        firsts = [0, *(end + 1 for end in ends)]
        of = [contour for contour, (first, end) in enumerate(zip(firsts, ends)) for _ in range(first, end + 1)]
        return ["%d %d %s %d %d" % (of[k], k, "on" if it.on_curve == 1 else "off", it.x, it.y) for k, it in enumerate(points)] + [
            "advance %d" % told.advance]

    def faces(self, font):
        """How many fonts a file has."""
        count = c_uint32()
        self.done(self.c.mkstrike_faces(font, len(font), byref(count), byref(self.refused)), font)
        return count.value

    def characters(self, font):
        """The characters of a file's first font, in a buffer with room for one more, and in smaller ones."""
        count = c_size_t(7)
        status = self.c.mkstrike_characters(font, len(font), 0, None, 0, byref(count), byref(self.refused))
        assert not status or count.value == 7
        self.done(status, font)
        length, blank, found = count.value, array("I", [7]), None
        for room in (length + 1, *range(0, length, 1 + length // 7)):
            some = blank * (length + 1)
            assert not self.c.mkstrike_characters(font, len(font), 0, some.buffer_info()[0], room, None, None)
            found = some[:length] if found is None else found
            assert some == found[:room] + blank * (length + 1 - min(room, length))
        return found

    def name(self, font, face, number):
        """A name of a font, in buffers that are large enough, too small and none; None if there is none."""
        count, again = c_size_t(7), c_size_t()
        status = self.c.mkstrike_name(font, len(font), face, number, None, 0, byref(count), byref(self.refused))
        assert not status or count.value == 7
        if status == self.MISSING:
            return None
        self.done(status, font)
        length, text = count.value, ctypes.create_string_buffer(b"\7" * (count.value + 2), count.value + 2)
        assert not self.c.mkstrike_name(font, len(font), face, number, text, length, byref(again), None)
        assert again.value == length and text.raw == b"\7" * (length + 2)
        assert not self.c.mkstrike_name(font, len(font), face, number, text, length + 2, None, None)
        assert text.raw[length:] == b"\0\7"
        return text.raw[:length]
