"""Cases of the program: how faces of collections are asked for and listed, and very many of them. What a collection is the suite
says."""
import struct

import due
import runs
from cases import cases
from due import listed, refused
from made import Composite, Empty, Font, Simple, square
from making import fonts
from making.collection import Collection
from runs import Run
from strikes import A, B, C
from test_programs import NOTHING

ASKED = "make --ppem 16 --chars 41-43"
EACH = (ASKED, "show --ppem 16 --char 41", "outline --ppem 16 --glyph 1", "dump --of 1", "trace --ppem 16 --glyph 1")
NONE, BAD = refused("25 NoFace"), refused("10 NotTrueType")
# of NOTHING
LISTING, TRACE = ["0000 B0 PUSHB 1", "0002 21 POP"], ["glyph 1 begins", "glyph 1 0000 B0 PUSHB 1 | 1", "glyph 1 0002 21 POP |"]


def some_fonts():
    """Three fonts that differ in outlines, sizes of the em square, maps and programs."""
    return [Font([Empty(), square(500)], {A: 1}),
            Font([Empty(), square(300, NOTHING), Simple([(0, 0, 900, 90)])], {A: 2, B: 1}, upem=2048, stack=9),
            Font([Empty(), square(700), Composite([(1, 50, 60)])], {A: 1, C: 2}, upem=512)]


def collection(made, offsets=None):
    """A collection of these fonts, or of these of them in turn."""
    return Collection("", made, offsets=offsets).bytes()


def ways_to_ask():
    """A face by hexadecimal text and by a first line; none is the first."""
    made = some_fonts()
    data, answer = collection(made), made[1].make((A, B, C), 16)
    yield Run("none", ASKED, data, made[0].make((A, B, C), 16))
    yield Run("hexadecimal text", ASKED + " --hex --face 1", data.hex().encode(), answer)
    yield Run("a first line", "", (ASKED + " --face 1\n").encode() + data, answer)
    yield Run("another spelling", ASKED + " --face=+01", data, answer)


def each_command():
    """Each command has the face that is asked for, and refuses one that is not there and one whose directory is past the end."""
    made = some_fonts()
    data = collection(made)
    for k, font in enumerate(made):
        listing, trace = (LISTING, TRACE) if k == 1 else ([], [])
        answers = font.make((A, B, C), 16), font.show(A, 16), font.outline(1, 16), listed(listing), listed(trace)
        for words, answer in zip(EACH, answers):
            yield Run("%s of face %d" % (words, k), "%s --face %d" % (words, k), data, answer)
    past = data[:16] + struct.pack(">L", len(data)) + data[20:]
    for words in EACH:
        for number in (3, 65535, 4294967295):
            yield Run("%s of face %d" % (words, number), "%s --face %d" % (words, number), data, NONE)
        yield Run("%s of a face past the end" % words, words + " --face 1", past, BAD)
        yield Run("%s of a font" % words, words + " --face 1", made[0].data(), NONE)
        yield Run("%s of no font" % words, words + " --face 1", b"ttc", NONE)


def many_faces():
    """65,535 faces, whose directories are three in turn."""
    made, count = some_fonts(), 65535
    data = collection(made, [k % 3 for k in range(count)])
    for number in (0, 1, 2, 3, 32768, 65533, 65534):
        yield Run("face %d of 65,535" % number, "%s --face %d" % (ASKED, number), data, made[number % 3].make((A, B, C), 16))
    for number in (65535, 65536):
        yield Run("face %d of 65,535" % number, "%s --face %d" % (ASKED, number), data, NONE)


class Named:
    """A font with these names by their numbers, in English of Windows, or without a table of names."""

    def __init__(self, names, font=None):
        self.names, self.font = names, font or some_fonts()[0]

    def all_tables(self):
        """The font's tables, for a collection."""
        records = [(3, 1, 0x409, number, text.encode("utf-16-be")) for number, text in sorted((self.names or {}).items())]
        return self.font.all_tables() | ({} if self.names is None else {"name": fonts.name_table(*records)})

    def data(self):
        """The font's bytes."""
        return fonts.assemble(self.all_tables())


# The names of a font, and what its line has after the number.
NAMES = (
    ({1: "Made", 2: "Bold"}, "Made\tBold"), ({1: "Made"}, "Made\tRegular"), ({2: "Bold"}, "-\tBold"), ({}, "-\tRegular"),
    (None, "-\tRegular"), ({1: "Made Thin", 2: "Regular", 16: "Made", 17: "Thin"}, "Made\tThin"),
    ({1: "Made", 2: "Bold", 16: "Other"}, "Other\tBold"), ({1: "Made", 2: "Bold", 17: "Black"}, "Made\tBlack"),
    ({1: "\u00e9\u3042\U00010000", 2: " a  b "}, "\u00e9\u3042\U00010000\t a  b "),
    ({1: "a\tb\nc", 2: "\0\x1b[31m\x7f~"}, "a?b?c\t??[31m?~"), ({1: "m" * 1024, 2: "\u3042" * 341 + "x"}, "%s\t%sx" % (
        "m" * 1024, "\u3042" * 341)), ({1: "m" * 1025, 2: "\u3042" * 341 + "xy"}, "-\tRegular"),
    ({1: "One", 16: "m" * 1025, 2: "Two"}, "-\tTwo"))


def listed_names():
    """A line for each font of a file, with its names. A later one that is refused has marks; the first refuses the file."""
    for names, line in NAMES:
        yield Run("a font with the names %.60r" % names, "faces", Named(names).data(), listed(["0\t" + line]))
    made = [Named(names, font) for (names, _), font in zip(NAMES, some_fonts())]
    lines = ["%d\t%s" % (k, line) for k, (_, line) in zip(range(3), NAMES)]
    data = collection(made)
    yield Run("a collection", "faces", data, listed(lines))
    yield Run("a collection as text", "faces --hex", data.hex().encode(), listed(lines))
    yield Run("a collection after a first line", "", b"faces\n" + data, listed(lines))
    for refused_face in (1, 2):
        past = data[:12 + 4 * refused_face] + struct.pack(">L", len(data)) + data[16 + 4 * refused_face:]
        yield Run("font %d is refused" % refused_face, "faces", past, listed(
            [line if k != refused_face else "%d\t-\t-" % k for k, line in enumerate(lines)]))
    yield Run("the first is refused", "faces", data[:12] + struct.pack(">L", len(data)) + data[16:], BAD)
    yield Run("no font", "faces", data[:8] + bytes(4) + data[12:], NONE)
    yield Run("a collection whose header is cut", "faces", data[:20], BAD)
    no_map = fonts.with_tables(made[0].data(), cmap=b"")
    for given, answer in ((b"", BAD), (b"OTTO", BAD), (b"ttc", BAD), (no_map, listed(lines[:1])), (made[0].data()[:30], BAD)):
        yield Run("of %.4r.. with %d bytes" % (given, len(given)), "faces", given, answer)
    yield Run("text that is none", "faces --hex", b"4", refused("72 BadHex"))
    yield Run("an input that fails", "faces", b"", refused("71 ReadFailed"), way=runs.failing_after(data[:10]))
    for words in ("faces --face 0", "faces --ppem 16", "faces --hex --hex", "faces a b", "faces --hex=1"):
        yield Run(words, words, data, due.usage())


def many_names():
    """The lines of 2,000 fonts, whole and cut."""
    made, count = [Named(names) for names, _ in NAMES[:3]], 2000
    data = collection(made, [k % 3 for k in range(count)])
    whole = listed(["%d\t%s" % (k, NAMES[k % 3][1]) for k in range(count)])
    yield Run("2,000 fonts", "faces", data, whole)
    for size in (0, 1, 11, 1983, 1984, 1985, 20000, len(whole.out) - 1):
        yield Run("2,000 fonts and %d bytes" % size, "faces", data, due.cut_after(whole, size), way=runs.into_file(size))


test_faces = cases(many_faces, each_command, ways_to_ask, listed_names, many_names)
