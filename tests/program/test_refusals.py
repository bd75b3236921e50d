"""Cases of the program: refusals, with nothing on standard output, and which of several comes first. The suite has more of each."""
import struct

import due
from cases import cases
from due import halted, refused
from made import Empty, Font, square
from making import fonts
from runs import Run
from strikes import A, B

WORDS = "make --ppem 16 --chars 41"
PLAIN = WORDS + " --unhinted"
TABLES = fonts.tables_of(fonts.FIXTURE)
TRIANGLE = fonts.simple([[(0, 0, 1), (90, 0, 1), (90, 90, 1)]])


def word(number):
    """Two bytes."""
    return struct.pack(">H", number & 0xFFFF)


def long(number):
    """Four bytes."""
    return struct.pack(">L", number)


def put(tag, at, data):
    """The fixture with bytes of a table put in place of its own."""
    table = TABLES[tag]
    return fonts.with_tables(fonts.FIXTURE, **{tag.strip(): table[:at] + data + table[at + len(data):]})


def cut(tag, length):
    """The fixture with a table that ends early."""
    return fonts.with_tables(fonts.FIXTURE, **{tag.strip(): TABLES[tag][:length]})


def lacking(tag):
    """The fixture without a table."""
    return fonts.assemble({name: data for name, data in TABLES.items() if name != tag})


def both(name, data, text):
    """The refusal of a strike of A, hinted and not."""
    for words in (WORDS, PLAIN):
        yield Run("%s: %s" % (text, name), words, data, refused(text))


# ---- files and tables ----

def refusals_of_files():
    """10 to 14 and 16: the directory and the tables that every font needs, for a strike, a picture and a listing."""
    fixture = fonts.FIXTURE
    for name, data, text in (("OTTO", b"OTTO" + fixture[4:], "10 NotTrueType"), ("text", fixture.hex().encode(), "10 NotTrueType"),
                             *(("none", lacking(tag), "11 TableMissing " + tag)
                               for tag in ("head", "maxp", "hhea", "hmtx", "loca", "glyf")),
                             ("53 bytes", cut("head", 53), "12 TableShort head"),
                             ("another magic number", put("head", 12, b"\0"), "13 BadHead"),
                             ("no glyph", put("maxp", 4, word(0)), "14 BadMaxp")):
        yield from both(name, data, text)
        for words in ("dump --of prep", "show --ppem 16 --char 20"):
            yield Run("%s: %s: %s" % (text, name, words), words, data, refused(text))
    wide = struct.pack(">HHHHLHHLLL", 0, 1, 3, 10, 12, 12, 0, 16, 0, 0xFFFFFFFF)
    yield from both("2^32 - 1 groups", fonts.with_tables(fixture, cmap=wide), "16 BadCharMap")


# ---- glyphs ----

def font_with(data, *more):
    """A font with these bytes as glyph 2 and A, after a triangle, and further glyphs after it."""
    return fonts.font_of([b"", TRIANGLE, data, *more], fonts.map_of([(A, 2), (B, 1)]), stack=9)


def bad_glyphs():
    """Glyphs whose bytes are cut or bad, and bad components, beside those of the suite."""
    matrix = struct.pack(">h8xHHhh4h", -1, 0x183, 1, 5, 5, 0, 0x4000, 0x4000, 0) + b"\0\1\x4F"
    for k in range(1, len(matrix)):
        yield "%d bytes of a component" % k, font_with(matrix[:k]), "18 GlyphShort 2"
    yield "of a component", font_with(fonts.composite([(1, 0, 0), (3, 0, 0)]), TRIANGLE[:12]), "18 GlyphShort 3"
    yield "a component of none", font_with(fonts.composite([(9, 0, 0)])), "24 BadGlyphNumber 9"
    yield "a component of itself", font_with(fonts.composite([(2, 0, 0)])), "20 ComponentDepth 2"
    two = font_with(fonts.composite([(3, 0, 0)]), fonts.composite([(2, 0, 0)]))
    yield "two of each other", two, "20 ComponentDepth 3"


def refusals_of_glyphs():
    """18, 20 and 24 of glyphs and their components; a listing looks at no map, and at no other glyph."""
    for name, data, text in bad_glyphs():
        yield from both(name, data, text)
    short, data = refused("18 GlyphShort 2"), font_with(TRIANGLE[:9])
    yield Run("its listing", "dump --of 2", data, short)
    yield Run("its picture", "show --ppem 16 --char 41", data, short)
    yield Run("another listing", "dump --of 1", fonts.with_tables(data, cmap=b""), due.listed([]))
    yield Run("a listing of no glyph", "dump --of 3", data, refused("24 BadGlyphNumber 3"))


# ---- programs ----

def programmed(fpgm=b"", prep=b"", glyph=b"", **numbers):
    """A font with programs: a square with one is A, and a composite of it B."""
    box = [[(0, 0, 1), (90, 0, 1), (90, 90, 1), (0, 90, 1)]]
    made = [b"", fonts.simple(box, glyph), fonts.composite([(1, 5, 5)])]
    return fonts.font_of(made, fonts.map_of([(A, 1), (B, 2)]), fpgm=fpgm, prep=prep, **numbers)


def which_programs_run():
    """What halts depends on hinting, and on the characters that are asked for."""
    square_font, pop = Font([Empty(), square(90)], {A: 1}), b"\x21"
    places = ("fpgm", "prep", "glyph 1")
    in_fpgm, in_prep, in_glyph = (halted("30 StackUnder", where, where, 0, 0x21) for where in places)
    nothing = ["make", "--ppem", "16", "--chars", ""]
    yield Run("a component's program", "make --ppem 16 --chars 42", programmed(glyph=pop), in_glyph)
    yield Run("no program, unhinted", PLAIN, programmed(pop, pop, pop), square_font.make([A], 16, False))
    yield Run("fpgm for no glyph", "make --ppem 16 --chars 43", programmed(fpgm=pop), in_fpgm)
    yield Run("prep for no character", nothing, programmed(prep=pop), in_prep)
    yield Run("no glyph for no character", nothing, programmed(glyph=pop), square_font.make([], 16))
    yield Run("fpgm before prep", WORDS, programmed(fpgm=pop, prep=b"\x28"), in_fpgm)
    yield Run("prep before a glyph", WORDS, programmed(prep=pop, glyph=b"\x28"), in_prep)


def orders():
    """Requests with several faults: the first in order is named."""
    bad = programmed(fpgm=b"\x21")
    for words, data, text in (
            ("make --ppem 0 --chars 42-41", b"", "61 BadChars"),
            ("make --ppem 0 --chars 110000 --hex", b"g", "72 BadHex"),
            ("make --ppem 0 --chars 110000 --name=", b"", "60 BadSize"),
            ("make --ppem 9 --chars 110000 --name=", b"", "61 BadChars"),
            ("make --ppem 9 --chars 41 --name=", b"", "62 BadName"),
            ("make --ppem 9 --chars 41 --name= --property a=1", b"", "62 BadName"),
            ("make --ppem 9 --chars 41 --property a=1", b"", "63 BadProperty 1"),
            ("make --ppem 9 --chars 41", b"", "10 NotTrueType"),
            ("make --ppem 0 --chars 41", bad, "60 BadSize"),
            ("show --ppem 0 --char 110000", b"", "60 BadSize"),
            ("show --ppem 0 --char 42-41", b"", "61 BadChars"),
            (WORDS, fonts.with_tables(bad, cmap=b""), "16 BadCharMap"),
            (WORDS, bad, "30 StackUnder during fpgm in fpgm at 0 opcode 21")):
        yield Run("%s first: %s" % (text, words), words, data, refused(text))
    line = fonts.simple([[(0, 0, 1), (90, 0, 1)]], b"\x21")
    several = fonts.font_of([b"", TRIANGLE[:5], line], fonts.map_of([(A, 2), (B, 1)]))
    in_glyph = halted("30 StackUnder", "glyph 2", "glyph 2", 0, 0x21)
    yield Run("the lower character first", "make --ppem 16 --chars 42,41", several, in_glyph)
    yield Run("the other, unhinted", "make --ppem 16 --chars 42,41 --unhinted", several, refused("18 GlyphShort 1"))


test_refusals = cases(refusals_of_files, refusals_of_glyphs, which_programs_run, orders)
