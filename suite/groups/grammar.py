"""`loca` and `glyf`: forms of offsets, flags and deltas of points, and bytes that end early."""
import struct

from making.boxes import with_box
from making.fontmaker import FontMaker, fonts
from making.suite import OPENTYPE

SIMPLE = OPENTYPE + "glyf, simple glyph description: %s"
LOCA = OPENTYPE + "loca"
LENIENT = "what follows the last coordinate is not looked at"
FALLING = "end points that decrease refuse the glyph"
CUT = "a glyph whose bytes end early is refused"
RUN = "a run of flags past the last point stops there"
EMPTY = "a glyph of 0 contours is empty, whatever follows"
EQUAL = "equal end points make an empty contour"
WORDS = "coordinates are words: a sum that needs more bits is taken modulo 65536"
NEGATIVE = "any numberOfContours below 0 is that of a composite"
ON, XS, YS, REPEAT, XP, YP = 1, 2, 4, 8, 16, 32
AS_THEY_ARE = ("box-ignored", "x-min")  # glyphs whose boxes are wrong on purpose


def glyph(ends, flags, xs, ys, program=b"", box=(0, 0, 0, 0), count=None, more=b""):
    """The bytes of a simple glyph, each part as given."""
    return (struct.pack(">hhhhh", len(ends) if count is None else count, *box) + b"".join(struct.pack(">H", end) for end in ends)
            + struct.pack(">H", len(program)) + program + bytes(flags) + xs + ys + more)


SQUARE = ([ON | XS | YS, ON | XP | YS | YP, ON | XS | XP | YP, ON | XP | YS], bytes([10, 200]), bytes([20, 180, 180]))


def square(**more):
    """A square in bytes, with one part changed."""
    flags, xs, ys = SQUARE
    parts = {"ends": [3], "flags": flags, "xs": xs, "ys": ys, **more}
    return glyph(**parts)


def make(suite):
    """The cases of the group."""
    suite.group = "grammar"
    font = suite.font(FontMaker("grammar"))
    for name, data, part, own in tries():
        number = font.add(data if name in AS_THEY_ARE else with_box(data), bearing=0 if name in AS_THEY_ARE else None)
        for hinted in (False, True):
            suite.case("%s-%s" % (name, "hinted" if hinted else "unhinted"), font, SIMPLE % part, number, hinted=hinted, own=own,
                       bits=name != "wrap-down")  # which is large
    make_cuts(suite)
    make_loca(suite)
    make_tables(suite)
    make_directory(suite)


def tries():
    """Glyphs by name, with the part of the description that they are about."""
    word = [ON] * 4
    yield "shorts", square(), "flags", None
    yield "words", glyph([3], word, struct.pack(">4h", 10, 0, 300, 0),
                         struct.pack(">4h", -20, 200, 0, -200)), "coordinates as words", None
    for name, flag in [("x-short-positive", XS | XP), ("x-short-negative", XS), ("y-short-positive", YS | YP),
                       ("y-short-negative", YS), ("x-same", XP), ("y-same", YP)]:
        flags = [ON | flag, ON, ON, ON]
        xs = (bytes([77]) if flag & XS else b"" if flag & XP else struct.pack(">h", 5)) + struct.pack(">3h", 100, 200, -50)
        ys = (bytes([88]) if flag & YS else b"" if flag & YP else struct.pack(">h", -9)) + struct.pack(">3h", 150, -40, 70)
        yield name, glyph([3], flags, xs, ys), "X_SHORT_VECTOR, X_IS_SAME, and the same of y", None
    yield "repeat", glyph([3], [ON | REPEAT, 3], struct.pack(">4h", 10, 0, 300, 0),
                          struct.pack(">4h", -20, 200, 0, -200)), "REPEAT_FLAG", None
    yield "repeat-zero", glyph([3], [ON | REPEAT, 0, ON, ON, ON], struct.pack(">4h", 10, 0, 300, 0),
                               struct.pack(">4h", -20, 200, 0, -200)), "REPEAT_FLAG", None
    yield "repeat-two-runs", glyph([4], [ON | XS | XP | YP | REPEAT, 1, ON | YS | YP | XP | REPEAT, 2], bytes([10, 200]),
                                   bytes([90, 80, 70])), "REPEAT_FLAG", None
    yield "repeat-last", glyph([3], [ON, ON, ON, ON | REPEAT, 0], struct.pack(">4h", 10, 0, 300, 0),
                               struct.pack(">4h", -20, 200, 0, -200)), "REPEAT_FLAG", None
    yield "repeat-past-the-end", glyph([3], [ON | REPEAT, 9], struct.pack(">4h", 10, 0, 300, 0),
                                       struct.pack(">4h", -20, 200, 0, -200)), "REPEAT_FLAG", RUN
    yield from more_tries()


def more_tries():
    """Points off the curve, contours, programs, boxes, and what is not looked at."""
    yield "off-curve", glyph([3], [ON, 0, ON, 0], struct.pack(">4h", 10, 100, 200, 0),
                             struct.pack(">4h", -20, 200, 0, -200)), "ON_CURVE_POINT", None
    yield "all-off", glyph([3], [0] * 4, struct.pack(">4h", 10, 0, 300, 0),
                           struct.pack(">4h", -20, 200, 0, -200)), "ON_CURVE_POINT", None
    for flag in (0x40, 0x80, 0xC0):
        yield "flag-%02x" % flag, square(flags=[f | flag for f in SQUARE[0]]), "OVERLAP_SIMPLE and the reserved flag", None
    yield "two-contours", glyph([3, 6], [ON] * 7, struct.pack(">7h", 10, 0, 300, 0, -200, 100, 50),
                                struct.pack(">7h", -20, 200, 0, -200, 50, 90, -60)), "endPtsOfContours", None
    yield "point-contour", glyph([0, 4], [ON] * 5, struct.pack(">5h", 10, 0, 300, 0, -200),
                                 struct.pack(">5h", -20, 200, 0, -200, 50)), "endPtsOfContours", None
    yield "equal-ends", glyph([3, 3], *SQUARE), "endPtsOfContours", EQUAL
    yield "falling-ends", glyph([3, 2], *SQUARE), "endPtsOfContours", FALLING
    yield "falling-first", glyph([5, 2, 3], *SQUARE), "endPtsOfContours", FALLING
    yield "program", square(program=bytes([0x01, 0xB0, 0x01, 0x2F])), "instructions", None
    yield "program-of-no-effect", square(program=bytes([0x18])), "instructions", None
    yield "bytes-after", square(more=b"\xA5" * 9), "bytes after the coordinates", LENIENT
    yield "zero-contours", square(ends=[], count=0), "numberOfContours", EMPTY
    yield "zero-contours-header", square(ends=[], count=0)[:10], "numberOfContours", EMPTY
    yield "wrap", glyph([3], [ON] * 4, struct.pack(">4h", 32767, -32767, 300, 0),
                        struct.pack(">4h", -20, 200, 0, -200)), "coordinates", None
    yield "wrap-down", glyph([3], [ON] * 4, struct.pack(">4h", 20000, 20000, -20000, 100),
                             struct.pack(">4h", -20000, -20000, 20000, 0)), "coordinates", WORDS
    for count in (-2, -32768):
        data = struct.pack(">h", count) + fonts.components([(fonts.OFFSETS, 0, (30, 20))])[2:]
        yield "composite-of%d" % count, data, "numberOfContours", NEGATIVE
    yield "box-ignored", square(box=(0, 999, -5, 7)), "yMin, xMax, yMax", None
    yield "x-min", square(box=(64, 0, 0, 0)), "xMin, with a left side bearing of 0", None
    yield "far-words", glyph([3], [ON] * 4, struct.pack(">4h", 2000, 0, 300, 0),
                             struct.pack(">4h", -1500, 200, 0, -200)), "coordinates as words", None


def make_cuts(suite):
    """A glyph cut at each place: it must be a table's or a font's own length that cuts it."""
    whole = square()
    font = suite.font(FontMaker("cuts"))
    for length in range(1, len(whole)):
        data = whole[:length]
        number = font.add(data, bearing=0)
        suite.case("cut-%d" % length, font, SIMPLE % "length", number, hinted=False, own=CUT)
    flags = [ON | REPEAT]
    for name, data in [("repeat-count", glyph([3], flags, b"", b"")), ("repeat-count-of-one", glyph([0], flags, b"", b"")),
                       ("program", square(program=b"\x01\x02")[:13])]:
        suite.case("cut-%s" % name, font, SIMPLE % "length", font.add(data, bearing=0), hinted=False, own=CUT)


def make_loca(suite):
    """Short and long offsets, equal ones, offsets that fall, and offsets past `glyf`."""
    for long in (False, True):
        kind = "long" if long else "short"
        font = suite.font(FontMaker("loca-" + kind, long=long))
        for k in range(3):
            font.add(with_box(square()))
        size, unit = len(b"".join(g.data for g in font.glyphs)), 1 if long else 2
        first = len(font.glyphs[0].data)
        ends = [0, first, first, first + 32, first + 64, size + 400]
        assert len(square()) <= 32
        for k in range(2, 5):
            suite.case("loca-%s-%d" % (kind, k), font, LOCA, k, hinted=False)
        broken = suite.font(FontMaker("loca-%s-broken" % kind, long=long))
        for k in range(8):
            broken.add(with_box(square()))
        length = len(b"".join(g.data for g in broken.glyphs))
        one = len(broken.glyphs[2].data)
        ends = [0, first, first, first + one, first, first + one, length + 400, length + 400, length + 600, length, length + 400]
        broken.tables["loca"] = struct.pack(">%d%s" % (len(ends), "L" if long else "H"), *(e // unit for e in ends))
        names = {2: "usual", 3: "falling", 4: "after-falling", 5: "end-past-glyf", 6: "equal-past-glyf", 7: "start-past-glyf",
                 8: "start-past-and-falling", 9: "start-at-the-end"}
        for k, name in names.items():
            own = (None if k == 2
                   else "offsets that decrease or begin past glyf refuse the glyph; an end past glyf is moved to its end")
            suite.case("loca-%s-%s" % (kind, name), broken, LOCA, k, hinted=False, own=own)
        cut = suite.font(FontMaker("loca-%s-cut" % kind, long=long))
        for k in range(3):
            cut.add(with_box(square()))
        cut.tables["loca"] = cut.loca()[:-1]
        for k in (2, 3, 4):
            own = "a truncated offset refuses the glyph" if k == 4 else "a loca that is too short serves the glyphs that it has"
            suite.case("loca-%s-cut-%d" % (kind, k), cut, LOCA, k, hinted=False, own=own)
    font = suite.fonts["grammar"]
    suite.case("no-such-glyph", font, LOCA, 60000, hinted=False)


class Changed:
    """A font whose bytes are those of another, changed by a function."""

    def __init__(self, name, font, change):
        self.name, self.file, self.font, self.change = name, name + ".ttf", font, change

    def bytes(self):
        """The font's bytes."""
        return self.change(self.font.bytes())


def make_directory(suite):
    """A tag that is there twice, a last table that ends past the file, and a file that begins with `true`."""
    about = OPENTYPE + "Organization of an OpenType font"
    for name, tag, change, own in [
            ("twice", "hhez", lambda data: data.replace(b"hhez", b"hhea"),
             "of two directory records with one tag the first counts"),
            ("past-the-file", "zzzz", lambda data: data[:-4], "a table that ends past the file ends with it"),
            ("true", None, lambda data: b"true" + data[4:], None)]:
        font = FontMaker("directory-" + name)
        font.simple([[(0, 0, 1), (0, 64, 1), (64, 0, 1)]])
        font.tables.update({tag: bytes(36)} if tag else {})
        changed = suite.font(Changed(font.name, font, change))
        suite.case("directory-" + name, changed, about, 2, hinted=False, own=own)


def make_tables(suite):
    """Tables that are missing, cut or bad. Each of these refuses the font."""
    own = "a font with a bad required table is refused"
    changes = [("missing-" + tag, tag, None) for tag in ("head", "maxp", "hhea", "hmtx", "loca", "glyf")]
    base = FontMaker("base")
    changes += [("short-head", "head", base.head()[:53]), ("short-hhea", "hhea", bytes(35)),
                ("short-maxp", "maxp", base.maxp()[:31]), ("no-pairs", "hhea", bytes(36)),
                ("bad-magic", "head", base.head()[:12] + bytes(4) + base.head()[16:]),
                ("em-15", "head", base.head()[:18] + struct.pack(">H", 15) + base.head()[20:]),
                ("em-16385", "head", base.head()[:18] + struct.pack(">H", 16385) + base.head()[20:]),
                ("bad-loca-format", "head", base.head()[:50] + b"\0\2" + base.head()[52:]),
                ("bad-maxp", "maxp", b"\0\2\0\0" + base.maxp()[4:]),
                ("no-glyphs", "maxp", base.maxp()[:4] + bytes(2) + base.maxp()[6:]), ("short-hmtx", "hmtx", bytes(7))]
    for name, tag, data in changes:
        font = suite.font(FontMaker("table-" + name))
        font.simple([[(0, 0, 1), (0, 64, 1), (64, 0, 1)]])
        font.tables[tag] = data
        suite.case("table-" + name, font, OPENTYPE + tag, 2, hinted=False, own=own)
    make_orders(suite, {name: (tag, data) for name, tag, data in changes})


def make_orders(suite, changes):
    """Two faults in one font: the refusal names the first in order."""
    tags = ("head", "maxp", "hhea", "hmtx", "loca", "glyf")
    pairs = [("missing-" + one, "missing-" + other) for one, other in zip(tags, tags[1:])]
    pairs += [("missing-glyf", "bad-magic"), ("bad-magic", "short-maxp"), ("bad-maxp", "short-hhea"), ("short-hhea", "short-hmtx")]
    for one, other in pairs:
        font = suite.font(FontMaker("table-%s-and-%s" % (one, other)))
        font.tables.update([changes[one], changes[other]])
        suite.case(font.name, font, OPENTYPE + changes[one][0], 0, hinted=False, own="the first fault in order is the refusal")
