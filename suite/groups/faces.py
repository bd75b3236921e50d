"""Collections: the header of both versions, faces that share tables, and headers and directories that are cut."""
import struct

from making.charmaps import LAST, segments, table
from making.collection import Collection
from making.fontmaker import FontMaker
from making.suite import OPENTYPE

HEADER = OPENTYPE + "Font Collections: TTC header, %s"
CUT = "a collection whose header the file does not wholly include is refused, whichever face is asked for"
VERSION = "a collection of another version than 1.0 and 2.0 is refused"
SIGNATURE = "a header of version 2.0 may end before its signature fields"
ANYWHERE = "a directory may begin at any offset"
TWO = 0x00020000
SIGNED = bytes(12)  # dsigTag, dsigLength, dsigOffset: no signature
GLYPHS = (2, 3, 4)


def make(suite):
    """The cases of the group."""
    suite.group = "faces"
    make_whole(suite)
    make_shared(suite)
    make_offsets(suite)
    make_refused(suite)


def face(name="", wide=1, **more):
    """A face of three squares; another `wide` makes them wider."""
    font = FontMaker(name, **more)
    for k in GLYPHS:
        font.simple([[(0, 0, 1), (0, 64 * k, 1), (64 * wide, 64 * k, 1), (64 * wide, 0, 1)]])
    return font


def mapped(font, first):
    """The face with another map: the three squares are the characters from `first` on, the last one first."""
    font.tables["cmap"] = table((3, 1, segments([(first, first, 4 - first, 0), (first + 1, first + 1, 2 - first, 0),
                                                 (first + 2, first + 2, -first, 0), LAST])))
    return font


def ask(suite, font, name, about, faces, own=None, hinted=(False,), glyphs=GLYPHS, chars=()):
    """A case of each glyph and character of some faces. Not every map has all glyphs, so of glyphs the outline alone is asked
    for."""
    for number in faces:
        for mode in hinted:
            for glyph in glyphs:
                suite.case("%s-%d-glyph-%d%s" % (name, number, glyph, "-hinted" if mode else ""), font, about, glyph, face=number,
                           hinted=mode, own=own, bits=False)
        for char in chars:
            suite.case("%s-%d-%x" % (name, number, char), font, about, char=char, face=number, hinted=False, own=own)


def make_whole(suite):
    """Both versions; one face, two and three; and a file of one font."""
    faces = [face(), face(wide=3), mapped(face(wide=5), 0x41)]
    for name, version, more in (("one", 0x00010000, b""), ("two", TWO, SIGNED)):
        font = suite.font(Collection("faces-version-" + name, faces, version, more=more))
        ask(suite, font, "version-" + name, HEADER % "version", range(3), glyphs=(2, 4), chars=(0x41, 0xE002))
        ask(suite, font, "version-" + name, HEADER % "numFonts", (3, 65535), glyphs=(2,))
    alone = suite.font(Collection("faces-alone", [face(wide=7)]))
    ask(suite, alone, "alone", HEADER % "numFonts", (0, 1), glyphs=(2,), chars=(0xE003,))
    single = suite.font(face("faces-single"))
    ask(suite, single, "single", OPENTYPE + "Organization of an OpenType font", (0, 1, 2), glyphs=(2,), chars=(0xE003,))


def make_shared(suite):
    """Faces that share some tables, and differ in the others."""
    maps = suite.font(Collection("faces-maps", [mapped(face(), 0x41), mapped(face(), 0x43)]))
    ask(suite, maps, "maps", HEADER % "shared tables", (0, 1), chars=range(0x41, 0x46), glyphs=(2,))
    metrics = [face(), face(upem=2048), face()]
    metrics[2].pairs = 1
    metrics[2].glyphs[0].advance = 333
    ask(suite, suite.font(Collection("faces-metrics", metrics)), "metrics", HEADER % "shared tables", range(3),
        hinted=(False, True), glyphs=(2, 4))
    programs = [FontMaker("", cvt=[100 + 64 * k], prep="0 %d WCVTP" % (40 * k) if k > 1 else "", fpgm="") for k in range(3)]
    for font in programs:
        font.simple([[(0, 0, 1), (0, 128, 1), (64, 128, 1), (64, 0, 1)]], "SVTCA:1 2 0 MIAP:0 3 SHP:0")
        font.simple([[(0, 0, 1), (0, 128, 1), (64, 128, 1), (64, 0, 1)]], "SVTCA:0 1 0 RCVT SHPIX")
    ask(suite, suite.font(Collection("faces-programs", programs)), "programs", HEADER % "shared tables", range(3), hinted=(True,),
        glyphs=(2, 3))


def make_offsets(suite):
    """Directories in another order, at odd offsets, twice, and in the middle of the file."""
    faces = [face(), face(wide=3), face(wide=5)]
    about = HEADER % "tableDirectoryOffsets"
    ask(suite, suite.font(Collection("faces-order", faces, offsets=[2, 0, 1])), "order", about, range(3), glyphs=(3,))
    ask(suite, suite.font(Collection("faces-twice", faces[:2], offsets=[1, 1, 0])), "twice", about, range(3), glyphs=(3,))
    ask(suite, suite.font(Collection("faces-gap", faces, gap=64)), "gap", about, range(3), glyphs=(3,))
    ask(suite, suite.font(Collection("faces-odd", faces, gap=3)), "odd", about, range(3), ANYWHERE, glyphs=(3,))
    unsigned = Collection("faces-unsigned", faces, TWO)
    ask(suite, suite.font(unsigned), "unsigned", HEADER % "version 2.0", range(3), SIGNATURE, glyphs=(3,))
    signed = Collection("faces-signed", faces, TWO, more=struct.pack(">4sLL", b"DSIG", 8, 24))
    ask(suite, suite.font(signed), "signed", HEADER % "version 2.0", range(3), "a digital signature is not looked at", glyphs=(3,))


def make_refused(suite):
    """Headers that are cut or of another version, directories that are not there, and faces that are no TrueType font."""
    faces = [face(), face(wide=3)]
    for version in (0, 0x00010001, 0x00020001, 0x00030000, 0x4F54544F):
        font = suite.font(Collection("faces-version-%08x" % version, faces, version))
        ask(suite, font, "version-%08x" % version, HEADER % "version", (0, 1), VERSION, glyphs=(2,))
    for size in (4, 8, 11, 12, 15, 16, 19):
        font = suite.font(Collection("faces-cut-%d" % size, faces, size=size))
        ask(suite, font, "cut-%d" % size, HEADER % "length", (0, 1), CUT, glyphs=(2,))
    for name, count, asked in (("none", 0, (0, 1)), ("fewer", 1, (0, 1)), ("more", 1000, (0, 1, 2))):
        font = suite.font(Collection("faces-" + name, faces, count=count))
        ask(suite, font, name, HEADER % "numFonts", asked, CUT if name == "more" else None, glyphs=(2,))
    no_font = struct.pack(">LHHHH", 0x4F54544F, 0, 0, 0, 0)
    mixed = suite.font(Collection("faces-mixed", [no_font, faces[1]], offsets=[0, 1, "0", "99999", "4294967295"]))
    ask(suite, mixed, "mixed", HEADER % "tableDirectoryOffsets", range(5), glyphs=(3,))
    for size in (20, 31, 32, 200):
        font = suite.font(Collection("faces-directory-%d" % size, faces, size=size))
        ask(suite, font, "directory-%d" % size, HEADER % "length", (0, 1), glyphs=(2,))
