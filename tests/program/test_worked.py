"""Cases of the program: worked examples, whose text is written out here, from the public formats and by arithmetic by hand.

Fonts are the fixture with a glyph, a table or a few bytes in place of its own. At 16 pixels an em a unit of it is 1/64 pixel, so
the centres of columns and rows are at 32, 96, 160 and so on.
"""
import struct

import due
import runs
from cases import cases
from due import Ends, counted, glyph_lines, halted, listed, refused
from instructions import steps_of
from making import fonts
from making.assembler import assemble
from making.fonts import ARC, FIXTURE, fixture_with, patched
from runs import Run


def drawn(lines, **counts):
    """What is due of a strike whose last glyph has these lines from BBX on, without BITMAP; a slash separates them."""
    box, *rows = lines.split("/")
    text = "\n".join([box, "BITMAP", *rows, "ENDCHAR\nENDFONT\n"])
    return Ends(due.DONE, counted(**counts), text.encode())


def hexed(text):
    """The bytes of hexadecimal text."""
    return bytes.fromhex(text)


def asked(chars="42", ppem=16, more=" --unhinted"):
    """The words of a strike."""
    return "make --ppem %d --chars %s%s" % (ppem, chars, more)


# ---- whole strikes ----

def strike(*glyphs, ppem=16, box="0 0 0 0", ascent=13, descent=4, name="F1", properties=()):
    """The text of a strike."""
    return "".join([due.header(ppem, name, box, ascent, descent, len(glyphs), properties), *glyphs, "ENDFONT\n"]).encode()


SPACE = glyph_lines(0x20, "0 0 0 0")
OF_RING = glyph_lines(0x41, "5 5 0 0", "F8", "F8", "D8", "F8", "F8")
OF_ARC = glyph_lines(0x42, "2 1 0 0", "C0")
STRIKE = strike(SPACE, OF_RING, OF_ARC, box="5 5 0 0")
assert len(STRIKE) == 399
NAMED = " --name F1 --unhinted"


def the_fixture():
    """The whole strike of the fixture, and of some of its characters."""
    past_ffff = mapped((0x41, 2), (0x42, 3), (0x1F600, 3))
    for name, words, data, text, counts in (
            ("its three characters", asked("20,41-42", more=NAMED), FIXTURE, STRIKE, (3,)),
            ("hinted", asked("20,41-42", more=" --name F1"), FIXTURE, STRIKE, (3,)),
            ("at half the size", asked("42", 8, NAMED), FIXTURE,
             strike(glyph_lines(0x42, "1 1 0 0", "80", dwidth=3), ppem=8, box="1 1 0 0", ascent=6, descent=2), (1,)),
            ("an empty list", ["make", "--ppem", "16", "--chars", "", "--name", "F1"], FIXTURE, strike(), (0,)),
            ("a character that it lacks", asked("21", more=NAMED), FIXTURE, strike(), (0, 1)),
            ("one past FFFF that it lacks", asked("1f600", more=NAMED), FIXTURE, strike(), (0, 1)),
            ("one past FFFF, by a map of format 12", asked("20,41,1f600"), past_ffff,
             strike(OF_RING, glyph_lines(0x1F600, "2 1 0 0", "C0"), box="5 5 0 0", name="strike"), (2, 1)),
            ("a program that names a point that is not there", asked("21,41", more=""), fixture_with(STRAY),
             strike(glyph_lines(0x41, "2 1 0 0", "C0"), box="2 1 0 0", name="strike"), (1, 1, 1, 2)),
            ("the same unhinted", asked("21,41"), fixture_with(STRAY),
             strike(glyph_lines(0x41, "2 1 0 0", "C0"), box="2 1 0 0", name="strike"), (1, 1)),
            ("a font whose control value program does not end, unhinted", asked("20,41-42", more=NAMED), LOOPING, STRIKE, (3,))):
        yield Run(name, words, data, due.Due(due.DONE, counted(*counts), text))
    line = b"make --hex --ppem 16 --chars 20,41-42 --name F1 --unhinted\n"
    yield Run("in pieces of 50 bytes", [], line + FIXTURE.hex(" ", 4).encode(), due.Due(due.DONE, counted(3), STRIKE), feed=[50])
    ring = "BBX 3 3 0 0/E0/A0/E0"
    yield Run("the ring at half the size", asked("41", 8), FIXTURE, drawn(ring))
    for chars, glyphs, missing in (("41,41", 1, 0), ("21,41", 1, 1), ("ffff,ffff", 0, 1), ("42,41", 2, 0), ("42,1f600", 1, 1)):
        yield Run("the list %s" % chars, asked(chars), FIXTURE, Ends(due.DONE, counted(glyphs, missing), b"ENDFONT\n"))


# An arc whose program moves point 8, which is not there.
STRAY = hexed("0001 0000 0000 0080 0080 0002 0003 B0 08 2E 31 36 17 40 40 80 80 00")

# The control value program pushes -3 and jumps back by it.
LOOPING = fixture_with(prep=hexed("B8 FF FD 1C"))


def mapped(*pairs):
    """The fixture with a map of format 12."""
    return fonts.with_tables(FIXTURE, cmap=fonts.wide_map_of(pairs))


def names_of_characters():
    """Up to U+FFFF a name has four digits, past it five or six."""
    for code, head in ((0xFFFF, "uniFFFF\nENCODING 65535"), (0x10000, "u10000\nENCODING 65536"),
                       (0x1F600, "u1F600\nENCODING 128512"),
                       (0x10FFFF, "u10FFFF\nENCODING 1114111")):
        end = "STARTCHAR %s\nSWIDTH 375 0\nDWIDTH 6 0\nBBX 2 1 0 0\nBITMAP\nC0\nENDCHAR\nENDFONT\n" % head
        yield Run(head, asked("%x" % code), mapped((code, 3)), Ends(due.DONE, counted(), end.encode()))


# ---- drop-out control ----

# A hairline between two rows; and a stem on a bar, nearer to the right one of two columns, with its lines by what sets them.
HAIRLINE = hexed("0001 0000 0000 0000 0000 0003 0000 01010101 0000 0000 0100 0000 0028 0008 0000 fff8")
STEM = [[(x, y, 1) for x, y in ((0, 0), (0, 64), (80, 64), (80, 192), (88, 192), (88, 64), (256, 64), (256, 0))]]
LINES = {"off": ("4 1 0 0", "F0"), "left": ("4 3 0 0", "80", "80", "F0"), "near": ("4 3 0 0", "40", "40", "F0")}
NEAR, OFF, LEFT = "511 SCANCTRL 4 SCANTYPE", "0 SCANCTRL", "511 SCANCTRL 0 SCANTYPE"
PROGRAMS = ("", OFF, "", NEAR, "", LEFT, "", NEAR + " #28")


def stems(prep):
    """A font with the stem under each of these programs, and a composite of the one whose program turns drop-out control off."""
    glyphs = [b"", *(fonts.simple(STEM, assemble(program)) for program in PROGRAMS), fonts.composite([(2, 0, 0)])]
    codes = [(0x41 + k, 1 + k) for k in range(len(PROGRAMS) + 1)]
    return fonts.font_of(glyphs, fonts.map_of(codes), upem=1024, stack=9, prep=assemble(prep))


def strikes_with_drop_out_control():
    """The common box and a picture have what it sets. With --dropout=font each glyph of a strike has what its own program asks for,
    or else `prep`: not what a glyph before it or a component asked for. One that is drawn without hinting asks for nothing."""
    whole = strike(glyph_lines(0x42, "4 1 0 0", "F0"), box="4 1 0 0")
    yield Run("the common box", asked(more=NAMED + " --dropout"), fixture_with(third=HAIRLINE), due.Due(due.DONE, counted(), whole))
    for more, picture in (("", ["empty"]), (" --dropout", ["####"])):
        yield Run("a picture" + more, "show --ppem 16 --char 42 --unhinted" + more, fixture_with(third=HAIRLINE), listed(picture))
    told = b"mkstrike: unhinted U+0048: 32 BadOpcode during glyph 8 in glyph 8 at 7 opcode 28\n"
    for prep, else_ in (("", "left"), (NEAR, "near")):
        each = [else_, "off", else_, "near", else_, "left", else_, "left", else_]
        steps = steps_of(prep) + sum(steps_of(program) for program in PROGRAMS[:7]) + steps_of(OFF)
        for words, line, kinds in (("--refused unhinted --dropout=font", told + counted(9, steps=steps), each),
                                   ("--unhinted --dropout=font", counted(9), ["left"] * 9), ("--unhinted", counted(9), ["off"] * 9),
                                   ("--refused unhinted --dropout", told + counted(9, steps=steps), ["left"] * 9)):
            glyphs = [glyph_lines(0x41 + k, *LINES[kind], swidth=1000, dwidth=16) for k, kind in enumerate(kinds)]
            yield Run("prep %r, %s" % (prep, words), "make --ppem 16 --chars 41-49 " + words, stems(prep),
                      Ends(due.DONE, line, "".join([*glyphs, "ENDFONT\n"]).encode()))


# ---- the fixture cut and damaged ----

# The first length of the fixture from which a strike of 41 gives an answer.
FRONTS = ((0, "10 NotTrueType"), (124, "12 TableShort head"), (178, "12 TableShort maxp"), (212, "12 TableShort hhea"),
          (248, "12 TableShort hmtx"), (256, "16 BadCharMap"), (272, "15 NoCharMap"), (274, "16 BadCharMap"), (312, "17 BadLoca 2"),
          (320, "BBX 0 0 0 0"), (325, "18 GlyphShort 2"), (359, "BBX 5 5 0 0/F8/F8/D8/F8/F8"), (383, None))


def every_front_of_the_fixture():
    """The fixture cut after each of its bytes."""
    for (first, answer), (past, _) in zip(FRONTS, FRONTS[1:]):
        for length in range(first, past):
            whole = drawn(answer) if answer.startswith("BBX") else refused(answer)
            yield Run("%d bytes" % length, asked("41"), FIXTURE[:length], whole)


# ---- listings ----

BRANCH = "b0 00 58 b1 59 1b 1b b0 07 59"
OF_BRANCH = ["0000 B0 PUSHB 0", "0002 58 IF", "0003 B1 PUSHB 89 27", "0006 1B ELSE", "0007 B0 PUSHB 7", "0009 59 EIF"]
CUT = OF_BRANCH[:4] + ["0007 B0 CUT"]


def arc_with(program):
    """The arc with a program."""
    code = hexed(program)
    return ARC[:12] + struct.pack(">H", len(code)) + code + ARC[14:]


# Programs, and their listings.
LISTINGS = (
    (BRANCH, OF_BRANCH), (BRANCH[:-6], CUT), ("", []),
    ("40 00 41 00 41 02 ff fd 80 00 91 40",
     ["0000 40 NPUSHB", "0002 41 NPUSHW", "0004 41 NPUSHW -3 -32768", "000A 91 UNDEFINED", "000B 40 CUT"]),
    ("b9 ff fd 00 01 b2 00", ["0000 B9 PUSHW -3 1", "0005 B2 CUT"]), ("b1 01 fd", ["0000 B1 PUSHB 1 253"]),
    ("b8 ff fd", ["0000 B8 PUSHW -3"]),
    ("40 ff" + " fd" * 255, ["0000 40 NPUSHB" + " 253" * 255]),
    ("41 ff" + " fdfd" * 254 + " 0102", ["0000 41 NPUSHW" + " -515" * 254 + " 258"]),
    ("41 ff" + " fdfd" * 254 + " 8002", ["0000 41 NPUSHW" + " -515" * 254 + " -32766"]),
    ("41 ff" + " fdfd" * 254 + " 80", ["0000 41 CUT"]),
    ("00 0f 16 28 3f 4a 5d 6c 75 8e b7 00 00 00 00 00 00 00 00 bf" + " 0000" * 8 + " df ff",
     ["0000 00 SVTCA", "0001 0F ISECT", "0002 16 SZPS", "0003 28 UNDEFINED", "0004 3F MIAP", "0005 4A MD", "0006 5D DELTAP1",
      "0007 6C NROUND", "0008 75 DELTAC3", "0009 8E INSTCTRL", "000A B7 PUSHB" + " 0" * 8, "0013 BF PUSHW" + " 0" * 8,
      "0024 DF MDRP", "0025 FF MIRP"]))


def worked_listings():
    """Listings of glyphs and of tables, of programs that are not there, and of damaged glyphs."""
    for program, lines in LISTINGS:
        yield Run("the program %.30s" % program, "dump --of 3", fixture_with(third=arc_with(program)), listed(lines))
    composite = hexed("ffff 0000 0000 0080 0080 0102 0003 00 00 0003 b8 ff fd")
    yield Run("of a composite, after its components", "dump --of 2", fixture_with(composite), listed(["0000 B8 PUSHW -3"]))
    two = hexed("ffff 0040 0020 00c0 00a0 0122 0003 01 02 0002 0003 03 04 0002 2f 2e")
    yield Run("which the first of two announces", "dump --of 2", fixture_with(two), listed(["0000 2F MDAP", "0001 2E MDAP"]))
    function = ["0000 B0 PUSHB 0", "0002 2C FDEF", "0003 21 POP", "0004 2D ENDF", "0005 B1 PUSHB 5 0", "0008 2B CALL"]
    for tag, other in (("fpgm", "prep"), ("prep", "fpgm")):
        data = fonts.with_tables(FIXTURE, **{tag: hexed("b0 00 2c 21 2d b1 05 00 2b")})
        yield Run(tag, "dump --of " + tag, data, listed(function))
        yield Run("%s alone" % tag, "dump --of " + other, data, listed([]))
        yield Run("%s, and no character map" % tag, "dump --of " + tag, fonts.with_tables(data, cmap=b""), listed(function))
    for what in ("fpgm", "prep", "0", "1", "2", "00003"):
        yield Run("no program of %s" % what, "dump --of " + what, FIXTURE, listed([]))
    for what in ("4", "65535"):
        yield Run("no glyph %s" % what, "dump --of " + what, FIXTURE, refused("24 BadGlyphNumber " + what))
    yield Run("no font", "dump --of prep", b"OTTO", refused("10 NotTrueType"))
    for length, text in ((200, "12 TableShort maxp"), (319, "17 BadLoca 2"), (350, "18 GlyphShort 2")):
        yield Run(text, "dump --of 2", FIXTURE[:length], refused(text))
    falling = fixture_with(hexed("0002 0000 0000 0140 0140 0003 0001 0000"))
    yield Run("end points that fall", "dump --of 2", falling, refused("19 BadContours 2"))
    whole = listed(CUT)
    for count in range(len(whole.out)):
        yield Run("a file of %d bytes" % count, "dump --of 3", fixture_with(third=arc_with(BRANCH[:-6])),
                  due.cut_after(whole, count), way=runs.into_file(count))


# ---- outlines and pictures ----

OUTLINE_OF_RING = listed(["0 0 on 0 0", "0 1 on 320 0", "0 2 on 320 320", "0 3 on 0 320", "1 4 on 96 96", "1 5 on 96 224",
                          "1 6 on 224 224",
                          "1 7 on 224 96", "advance 384"])
OF_ARC_AT_16 = ["0 0 on 0 0", "0 1 off 64 128", "0 2 on 128 0", "advance 384"]
OF_ARC_AT_4 = ["0 0 on 0 0", "0 1 off 16 32", "0 2 on 32 0"]
PICTURE = ["#####", "#####", "##.##", "#####", "#####"]
SHOWN = (
    ("outline --hex --ppem 16 --char 41 --unhinted", OUTLINE_OF_RING), ("outline --glyph=0002 --hex --ppem=16", OUTLINE_OF_RING),
    ("outline --ppem 16 --hex --face 0 --char 42", listed(OF_ARC_AT_16)),
    ("outline --ppem 16 --glyph +3 --hex --unhinted", listed(OF_ARC_AT_16)),
    ("outline --hex --ppem 4 --char 42 --unhinted", listed(OF_ARC_AT_4 + ["advance 96"])),
    ("outline --hex --ppem 4 --char 42", listed(OF_ARC_AT_4 + ["advance 128"])),
    ("outline --hex --ppem 16 --char 20", listed(["advance 384"])), ("outline --hex --ppem 16 --glyph 0", listed(["advance 256"])),
    ("outline --hex --ppem 16 --char 21", listed(["missing"])),
    ("outline --hex --ppem 16 --glyph 4", refused("24 BadGlyphNumber 4")),
    ("outline --hex --ppem 16 --glyph 65535", refused("24 BadGlyphNumber 65535")),
    ("outline --hex --ppem 0 --glyph 4", refused("60 BadSize")), ("show --hex --ppem 1025 --glyph 4", refused("60 BadSize")),
    ("show --hex --ppem 16 --glyph 65535", refused("24 BadGlyphNumber 65535")),
    ("outline --hex --ppem 16 --char 110000", refused("61 BadChars")),
    ("outline --hex --ppem 16 --char 4g", refused("61 BadChars")), ("show --hex --ppem 16 --glyph 3", listed(["##"])),
    ("show --hex --ppem 16 --glyph 0 --dropout", listed(["empty"])),
    ("show --hex --ppem 16 --glyph 4 --unhinted", refused("24 BadGlyphNumber 4")),
    ("outline --ppem 16 --glyph 0", refused("10 NotTrueType")), ("show --hex --ppem 16 --char 41 --unhinted", listed(PICTURE)),
    ("show --char=0042 --hex --ppem=16", listed(["##"])), ("show --hex --ppem 16 --char 20 --unhinted", listed(["empty"])),
    ("show --hex --ppem 16 --char 21 --unhinted", listed(["missing"])),
    ("show --hex --ppem 4 --char 42 --unhinted", listed(["empty"])),
    ("show --hex --ppem 4 --char 42 --unhinted --dropout", listed(["#"])),
    ("show --hex --ppem 16 --char 110000", refused("61 BadChars")),
    ("show --ppem 16 --char 41 --unhinted", refused("10 NotTrueType")),
    ("show --hex --ppem 32 --char 42 --unhinted", listed([".##.", "####"])), ("dump --hex --of fpgm", listed([])),
    ("dump --of=prep --hex", listed([])), ("dump --of 00003 --hex", listed([])),
    ("dump --of 4 --hex", refused("24 BadGlyphNumber 4")), ("dump --of prep", refused("10 NotTrueType")),
    (["make", "--hex", "--ppem", "16", "--chars", "41", "--name", ""], refused("62 BadName")),
    ("make --hex --ppem 16 --chars 110000", refused("61 BadChars")), ("make --ppem 16 --chars 41", refused("10 NotTrueType")))


def pictures_and_outlines():
    """Of the fixture as hexadecimal text, by characters and by numbers; scaled, the advance rounded to whole pixels if hinted;
    glyphs without points, and none; what is refused, also since the text is no font without --hex."""
    text = FIXTURE.hex(" ", 4).encode()
    for words, answer in SHOWN:
        yield Run("%s" % words, words, text, answer)
    yield Run("on the first line", [], b"show --hex --ppem 32 --char 42 --unhinted\n" + text, listed([".##.", "####"]))
    yield Run("no font on the first line", [], b"dump --of 65535", refused("10 NotTrueType"))
    yield Run("a font that fails after 10 bytes", "dump --of prep", b"", refused("71 ReadFailed"),
              way=runs.failing_after(text[:10]))
    shown = ("0 0 on 0 0/0 1 on 320 0/0 2 on 320 320/0 3 on 0 320/0 4 on 96 96/0 5 on 96 224/0 6 on 224 224/0 7 on 224 96/advance "
             "384")
    yield Run("the second contour has no point", "outline --ppem 16 --char 41", patched(FIXTURE, 334, b"\0\7"),
              listed(shown.split("/")))
    halt = halted("37 StepLimit", "prep", "prep", 0, 0xB8)
    for words, answer in (("outline --ppem 16 --glyph 9", halt), ("show --ppem 16 --char 41", halt),
                          ("make --ppem 16 --chars 41", halt), ("outline --ppem 16 --glyph 3 --unhinted", listed(OF_ARC_AT_16)),
                          ("show --ppem 16 --char 42 --unhinted", listed(["##"]))):
        yield Run("prep does not end: %s" % words, words, LOOPING, answer)
    for words, answer in (("dump --of prep --hex", refused("72 BadHex")),
                          ("make --hex --ppem 16 --chars 110000", refused("72 BadHex"))):
        yield Run("half a byte: %s" % words, words, b"4", answer)


test_worked = cases(every_front_of_the_fixture, worked_listings, strikes_with_drop_out_control, the_fixture, names_of_characters,
                    pictures_and_outlines)
