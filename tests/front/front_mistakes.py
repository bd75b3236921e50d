"""Mistakes that users make, each with the status and the lines on standard error that are due. Files of another kind are in
front.py.

A row has the mistake in words, the arguments or a list of characters alone, the standard input, the status, the form of the first
line, and a part of the second line. The input is a file of FILES, SANS for a real font, or bytes. A second line of '' means that
there is none.
"""
import collections
import os
import struct

from making.fonts import FIXTURE, assemble, font_of, map_of, tables_of, wide_map_of, with_tables

Mistake = collections.namedtuple("Mistake", "what words given status first second needs_font")

# What stands for files that are no TrueType font: their first bytes.
FILES = {
    "empty": b"", "cff.otf": b"OTTO\0\x0a\0\x80" + bytes(200), "two.ttc": b"ttcf\0\1\0\0\0\0\0\2" + bytes(200),
    "none.ttc": b"ttcf\0\1\0\0" + bytes(200), "a.bdf": b"STARTFONT 2.1\nFONT a\n", "cut.ttf": b"\0\1\0\0\0\x10\1\0",
    "text": b"this is text, and no font\n",
    "more.ttf": with_tables(FIXTURE, cmap=wide_map_of((code, 1 + code % 2) for code in range(65537))),
    "none.ttf": with_tables(FIXTURE, cmap=wide_map_of([])),
    "symbol.ttf": with_tables(FIXTURE, cmap=map_of([(0xF041, 1)]).replace(b"\0\3\0\1", b"\0\3\0\0", 1)),
    "blank.otb": with_tables(font_of([b""] * 2, map_of([(0x41, 1)])), EBLC=bytes(9)),
    # two sizes, 12 and 16; what follows the records is none, though its 45th byte is 17
    "bitmaps.ttf": with_tables(FIXTURE, EBLC=struct.pack(">HHI", 2, 0, 2)
                               + b"".join(bytes(44) + bytes((size, size, 1, 1)) for size in (12, 16, 17))),
    "color.ttf": assemble({tag: it for tag, it in tables_of(FIXTURE).items() if tag not in ("glyf", "loca")}),
    "a.afm": b"StartFontMetrics 4.1\n", "list.txt": b"41\n",
}
SANS = object()
COUNTS = r"mkstrike: glyphs \d+ missing \d+ strays \d+ steps \d+"
USAGE, BAD_LIST, NONE = "mkstrike: usage", "mkstrike: 61 BadChars", ""
NO_TEXT = "an argument is not UTF-8 text: read a font of such a name by < FONT, and write to such a name by > FILE"
NO_GLYPH = "--chars is hexadecimal, and the letter A is 41"
SEVERAL = "41," + ",".join("4e%02x" % it for it in range(0, 20, 2))
MANY = ",".join("%x" % it for it in range(0x100, 0x200)) + ",0-ffff"

# After `make --ppem 16 --chars 41`, unless the arguments name a command.
ROWS = [
    # the font and the output
    ("font as argument", ["FONT"], b"", 0, COUNTS, ""),
    ("font as argument, with an input", ["FONT"], SANS, 0, COUNTS, ""),
    ("-o out.bdf", ["-o", "out.bdf"], SANS, 0, COUNTS, ""),
    ("-o without a name", ["-o"], SANS, 2, USAGE, "-o takes the name of a file"),
    ("two outputs", ["-o", "a", "-o", "b"], SANS, 2, USAGE, "-o takes the name of a file, and is given once"),
    ("two fonts", ["FONT", "other.ttf"], b"", 2, USAGE, "one word too many, 'other.ttf'"),
    ("a font whose name is not UTF-8", ["f\udcfc.ttf"], b"", 2, USAGE, NO_TEXT),
    ("an output whose name is not UTF-8", ["-o", "f\udcfc.bdf"], SANS, 2, USAGE, NO_TEXT),
    ("wrong path", ["nosuch.ttf"], b"", 1, "mkstrike: can't open the font 'nosuch.ttf': there is no such file", "names the font"),
    ("font of a package", ["/usr/share/fonts/truetype/freefont/nosuch.ttf"], b"", 1,
     "mkstrike: can't open the font '/usr/share/fonts/truetype/freefont/nosuch.ttf': there is no such file",
     "on Debian and Ubuntu 'sudo apt install fonts-freefont-ttf' installs it"),
    ("font of another package", ["/usr/share/fonts/nosuch.ttf"], b"", 1,
     "mkstrike: can't open the font '/usr/share/fonts/nosuch.ttf': there is no such file", "install the font's package"),
    ("directory as font", ["."], b"", 1, r"mkstrike: can't open the font '\.': it is a folder", "names the font"),
    ("empty stdin, by a pipe", [], b"", 1, "mkstrike: 10 NotTrueType", "the file is empty"),
    ("empty stdin, a file", [], "empty", 1, "mkstrike: 10 NotTrueType", "the file is empty"),
    (".otf by its name", ["cff.otf"], b"", 1, "mkstrike: 10 NotTrueType", "OpenType font with CFF outlines"),
    (".ttc without fonts that are read", [], "two.ttc", 1, "mkstrike: 10 NotTrueType", "--face chooses another"),
    (".ttc, and a face too far", ["--face", "2"], "two.ttc", 1, "mkstrike: 25 NoFace",
     "the collection has 2 fonts: --face takes 0 to 1"),
    (".ttc without a font", [], "none.ttc", 1, "mkstrike: 25 NoFace", "the collection has no font"),
    ("--face 1 of one font", ["--face", "1"], SANS, 1, "mkstrike: 25 NoFace", "the file is no collection: leave --face out"),
    ("--face by a pipe", ["--face", "1"], b"SANS", 1, "mkstrike: 25 NoFace", "the file is no collection: leave --face out"),
    ("--face of a name", ["--face", "Bold"], SANS, 2, USAGE, "--face takes a whole number, counted from 0, not 'Bold'"),
    ("--face without a number", ["--face"], SANS, 2, USAGE, "--face takes a value"),
    ("--index", ["--index", "1"], SANS, 2, USAGE, "unknown option '--index'; did you mean '--face'?"),
    ("text as font", [], "text", 1, "mkstrike: 10 NotTrueType", "give a TrueType font"),
    ("hex of binary", ["--hex"], SANS, 1, "mkstrike: 72 BadHex", "give the font without --hex"),
    ("no cmap", [], "no cmap.ttf", 1, "mkstrike: 15 NoCharMap",
     "the font needs a Unicode character map: add a cmap subtable of format 4 or 12"),
    # the list of characters
    ("letter instead of hex: A", "A", SANS, 0, COUNTS, NO_GLYPH),
    ("letter: Z", "Z", SANS, 1, BAD_LIST, "'Z' in the list is no hexadecimal number"),
    ("letters: A-Z", "A-Z", SANS, 1, BAD_LIST, "'A-Z' in the list is no hex"),
    ("a-f (letters meant)", "a-f", SANS, 0, COUNTS, NO_GLYPH),
    ("show --char g", ["show", "--ppem", "16", "--char", "g"], SANS, 1, BAD_LIST,
     "--char takes one hexadecimal number up to 10FFFF, not 'g'"),
    ("show --char A", ["show", "--ppem", "16", "--char", "A"], SANS, 0, "", NONE),
    ("decimal range 32-126", "32-126", SANS, 0, COUNTS, "33 of the requested characters are missing in the font: 7f-9f"),
    ("0x20-0x7e", "0x20-0x7e", SANS, 1, BAD_LIST, "'0x20-0x7e' in the list is no hexadecimal number or range, but 20-7e is"),
    ("U+20-U+7E", "U+20-U+7E", SANS, 1, BAD_LIST, "'U+20-U+7E' in the list is no hexadecimal number or range, but 20-7E is"),
    ("space in list (quoted)", "20-7e, a0", SANS, 1, BAD_LIST, "' a0' in the list"),
    ("space in list (unquoted)", ["make", "--ppem", "16", "--chars", "20-7e,", "a0"], SANS, 1,
     "mkstrike: can't open the font 'a0': there is no such file", "names the font"),
    ("trailing comma", "41,", SANS, 1, BAD_LIST, "the list has a comma too many"),
    ("two commas", ["make", "--ppem", "16", "--chars=41,,42"], SANS, 1, BAD_LIST, "the list has a comma too many"),
    ("empty list", "", SANS, 0, COUNTS, "the list of characters is empty"),
    ("reversed range", "7e-20", SANS, 1, BAD_LIST, "'7e-20' in the list ends before it begins"),
    ("110000", "110000", SANS, 1, BAD_LIST, "'110000' in the list is above 10FFFF"),
    ("0-10ffff", "0-10ffff", SANS, 1, BAD_LIST, "the list has more than 65,536 numbers"),
    ("0-1ffff", "0-1ffff", SANS, 1, BAD_LIST, "the list has more than 65,536 numbers"),
    ("many numbers", MANY, SANS, 1, BAD_LIST, "the list has more than 65,536 numbers"),
    ("seven digits", "0000041", SANS, 1, BAD_LIST, "more than six digits"),
    ("show of several", ["show", "--ppem", "16", "--char", "41,42"], SANS, 1, BAD_LIST, "--char takes one hexadecimal number"),
    ("make all missing", "4e00-4e10", SANS, 0, COUNTS, NO_GLYPH),
    ("one missing", "41,4e00", SANS, 0, COUNTS, "1 of the requested characters is missing in the font: 4e00"),
    ("some missing, through a pipe", "41,4e00,4e02", b"SANS", 0, COUNTS, "2 of the requested characters are missing in the font"),
    ("some missing, with an output", ["make", "--ppem", "16", "--chars", "4e00,41,4e01", "FONT", "-o", "some.bdf"], b"", 0, COUNTS,
     "are missing in the font: 4e00-4e01"),
    ("many missing", SEVERAL, SANS, 0, COUNTS,
     "are missing in the font: 4e00,4e02,4e04,4e06,4e08,4e0a,4e0c,4e0e,..; --missing names all"),
    ("all that are missing", ["make", "--missing", "--ppem", "16", "--chars", SEVERAL], SANS, 0, COUNTS, "4e0c,4e0e,4e10,4e12"),
    ("only refused", ["make", "--ppem", "16", "--chars", "19c", "--refused", "unhinted"], SANS, 0,
     r"mkstrike: unhinted U\+019C: .*", "mkstrike: glyphs 1 missing 0"),
    ("--missing for show", ["show", "--missing", "--ppem", "16", "--char", "41"], SANS, 2, USAGE, "unknown option '--missing'"),
    ("no pixel", ["make", "--ppem", "16", "--chars", "20,a0", "FONT", "-o", "blank.bdf"], b"", 0, COUNTS,
     "no pixel of the strike is set"),
    ("variable font", ["variable.ttf"], b"", 0, COUNTS, "the font is a variable font, and this is its default instance"),
    ("show of a variable font", ["show", "--ppem", "16", "--char", "41", "variable.ttf"], b"", 0,
     "mkstrike: the font is a variable font, and this is its default instance", ""),
    ("a variable font that is refused", ["make", "--ppem", "0", "--chars", "41", "variable.ttf"], b"", 1, "mkstrike: 60 BadSize",
     "give a size"),
    ("show of missing", ["show", "--ppem", "16", "--char", "4e00"], SANS, 0, "", NONE),
    # the size
    ("ppem 0", ["make", "--ppem", "0", "--chars", "41"], SANS, 1, "mkstrike: 60 BadSize", "give a size from 1 to 1024"),
    ("ppem 2000", ["make", "--ppem", "2000", "--chars", "41"], SANS, 1, "mkstrike: 60 BadSize", "give a size from 1 to 1024"),
    ("ppem 1,000", ["make", "--ppem", "1,000", "--chars", "41"], SANS, 2, USAGE,
     "--ppem takes a whole number from 1 to 1024, not '1,000'"),
    ("ppem 12.5", ["make", "--ppem", "12.5", "--chars", "41"], SANS, 2, USAGE, "1 to 1024, not '12.5'"),
    ("ppem 12px", ["make", "--ppem", "12px", "--chars", "41"], SANS, 2, USAGE, "1 to 1024, not '12px'"),
    ("ppem -5", ["make", "--ppem", "-5", "--chars", "41"], SANS, 2, USAGE,
     "--ppem takes a value; one that begins with '-' is given as --ppem=-5"),
    ("ppem 99999999999", ["make", "--ppem", "99999999999", "--chars", "41"], SANS, 2, USAGE, "1 to 1024, not '99999999999'"),
    ("ppem missing", ["make", "--chars", "41"], SANS, 2, USAGE, "--ppem is missing; 'mkstrike help make'"),
    ("ppem without value", ["make", "--chars", "41", "--ppem"], SANS, 2, USAGE, "--ppem takes a value"),
    ("ppem before another option", ["make", "--ppem", "--chars", "41"], SANS, 2, USAGE, "--ppem takes a value"),
    ("chars missing", ["make", "--ppem", "16"], SANS, 2, USAGE, "--chars or --all is missing"),
    # options and commands
    ("unknown option", ["--frobnicate"], SANS, 2, USAGE, "unknown option '--frobnicate'; 'mkstrike help make'"),
    ("--size", ["make", "--size", "16", "--chars", "41"], SANS, 2, USAGE, "unknown option '--size'; did you mean '--ppem'?"),
    ("--verbose", ["--verbose"], SANS, 2, USAGE, "unknown option '--verbose'"),
    ("-v", ["-v"], SANS, 2, USAGE, "unknown option '-v'"),
    ("short -p 16", ["make", "-p", "16", "--chars", "41"], SANS, 2, USAGE, "unknown option '-p'; did you mean '--ppem'?"),
    ("--char for make", ["make", "--ppem", "16", "--char", "41"], SANS, 2, USAGE,
     "unknown option '--char'; did you mean '--chars'?"),
    ("--unhintd", ["--unhintd"], SANS, 2, USAGE, "did you mean '--unhinted'?"),
    ("--carefull", ["--carefull"], SANS, 2, USAGE, "did you mean '--careful'?"),
    ("= form", ["make", "--ppem=16", "--chars=41"], SANS, 0, COUNTS, ""),
    ("flag with =", ["--unhinted=1"], SANS, 2, USAGE, "--unhinted takes no value"),
    ("duplicate --ppem", ["--ppem", "16"], SANS, 2, USAGE, "--ppem is given twice"),
    ("duplicate --chars", ["--chars", "41"], SANS, 2, USAGE, "--chars is given twice"),
    ("duplicate with =", ["--chars=41"], SANS, 2, USAGE, "'--chars=41' is given twice"),
    ("duplicate flag", ["--hex", "--hex"], SANS, 2, USAGE, "'--hex' is given twice"),
    ("command missing", ["--ppem", "16", "--chars", "41"], SANS, 2, USAGE,
     "the first word is the command, make, show, outline, dump, trace, faces, explain, or help, not '--ppem'"),
    ("command misspelt", ["mkae", "--ppem", "16"], SANS, 2, USAGE, "unknown command 'mkae'; did you mean 'make'?"),
    ("font in place of the command", ["font.ttf"], SANS, 2, USAGE, "'mkstrike make --ppem 16 --set ascii FONT' makes a strike"),
    ("a font that is there in place of the command", ["cut.ttf", "16"], SANS, 2, USAGE,
     "'mkstrike make --ppem 16 --set ascii FONT' makes a strike"),
    ("explain misspelt", ["explian", "make"], SANS, 2, USAGE, "unknown command 'explian'; did you mean 'explain'?"),
    ("version", ["version"], SANS, 2, USAGE, "unknown command 'version'; did you mean '--version'?"),
    ("--PPEM", ["make", "--PPEM", "16", "--chars", "41"], SANS, 2, USAGE, "did you mean '--ppem'?"),
    ("options before command", ["--ppem", "16", "make", "--chars", "41"], SANS, 2, USAGE, "the first word is the command"),
    ("no args, font in", None, SANS, 2, USAGE, "without arguments the first line of the input is the command line"),
    # names and properties
    ("--name -misc (no =)", ["--name", "-misc-a"], SANS, 2, USAGE,
     "--name takes a value; one that begins with '-' is given as --name=-misc-a"),
    ("--name with umlaut", ["--name", "Gr\xfc\xdfe"], SANS, 1, "mkstrike: 62 BadName", "1 to 255 printable ASCII characters"),
    ("--property no =", ["--property", "A"], SANS, 2, USAGE, "--property takes KEY=VALUE, not 'A'"),
    ("--property lower", ["--property", "a=1"], SANS, 1, "mkstrike: 63 BadProperty 1", "another text of printable ASCII"),
    ("--property FONT_ASCENT", ["--property", "FONT_ASCENT=1"], SANS, 1, "mkstrike: 63 BadProperty 1",
     "another text of printable ASCII characters"),
    ("--property dup", ["--property", "A=1", "--property", "A=2"], SANS, 1, "mkstrike: 63 BadProperty 2",
     "another text of printable ASCII characters"),
    ("huge property", ["--property", "A=" + "x" * 40000], SANS, 1, "mkstrike: 63 BadProperty 1",
     "another text of printable ASCII characters"),
    ("umlaut property", ["--property", "A=\xe4"], SANS, 1, "mkstrike: 63 BadProperty 1", "another text of printable ASCII"),
    # what the front takes
    ("--help", ["--help"], b"", 0, "", NONE), ("-h", ["-h"], b"", 0, "", NONE), ("help make", ["help", "make"], b"", 0, "", NONE),
    ("help sets", ["help", "sets"], b"", 0, "", NONE), ("--version", ["--version"], b"", 0, "", NONE),
    ("-V", ["-V"], b"", 0, "", NONE), ("make --help", ["--help"], b"", 0, "", NONE),
    # wishes that lead elsewhere
    ("font by its family name", ["DejaVu Sans"], b"", 1, "mkstrike: can't open the font 'DejaVu Sans': there is no such file",
     "'fc-list' shows the files"),
    ("--weight", ["--weight", "700", "FONT"], b"", 2, USAGE, "the command strike"),
    ("points: 12pt", ["make", "--ppem", "12pt", "--chars", "41"], SANS, 2, USAGE,
     "pixels are points times the resolution, divided by 72"),
    ("--pt", ["make", "--pt", "12", "--chars", "41"], SANS, 2, USAGE, "points times the resolution, divided by 72"),
    ("--dpi", ["--dpi", "96"], SANS, 2, USAGE, "points times the resolution, divided by 72"),
    ("a cell as size", ["make", "--ppem", "8x16", "--chars", "41"], SANS, 2, USAGE, "strike --cell"),
    ("several sizes", ["make", "--ppem", "12,14,16", "--chars", "41"], SANS, 2, USAGE, "strike --size"),
    ("a range of sizes", ["make", "--ppem", "8-16", "--chars", "41"], SANS, 2, USAGE, "strike --size"),
    ("--sizes", ["make", "--sizes", "12,16", "--chars", "41"], SANS, 2, USAGE, "the command strike"),
    ("--chars all", "all", SANS, 1, "mkstrike: 61 BadChars", "--all takes all characters of the font"),
    ("--chars *", "*", SANS, 1, "mkstrike: 61 BadChars", "--all takes all characters of the font"),
    ("--all", ["make", "--ppem", "16", "--all", "--unhinted"], SANS, 0, r"mkstrike: glyphs \d+ missing 0 strays \d+ steps 0", NONE),
    ("--all of a font that has more", ["make", "--ppem", "16", "--all", "-o", "all.bdf"], "more.ttf", 0,
     "mkstrike: glyphs 65536 missing 0 strays 0 steps 0",
     "the font has more than 65,536 characters, and the strike has only the first of them"),
    ("--all of a font without any", ["make", "--ppem", "16", "--all"], "none.ttf", 0,
     "mkstrike: glyphs 0 missing 0 strays 0 steps 0",
     "the strike has no glyph: the font has no character, or all are refused"),
    ("--all beside --chars", ["--all"], SANS, 2, USAGE, "--chars and --all can't be given together"),
    ("--all beside --set", ["make", "--ppem", "16", "--all", "--set", "ascii"], SANS, 2, USAGE,
     "--set and --all can't be given together"),
    ("--chars ascii", "ascii", SANS, 1, "mkstrike: 61 BadChars", "--set ascii takes that set"),
    ("--chars latin1", "latin1", SANS, 1, "mkstrike: 61 BadChars", "--set latin1 takes that set"),
    ("--set of no set", ["make", "--ppem", "16", "--set", "klingon"], SANS, 1, "mkstrike: 61 BadChars",
     "no set of characters has the name 'klingon'; 'mkstrike help sets' lists the sets"),
    ("--set with a wrong letter", ["make", "--ppem", "16", "--set=box,Latn-1"], SANS, 1, BAD_LIST,
     "has the name 'Latn-1'; did you mean 'latin-1'?"),
    ("--set of a wrong number", ["make", "--ppem", "16", "--set", "box,110000"], SANS, 1, BAD_LIST,
     "'110000' in the list is above 10FFFF"),
    ("--set and --chars", ["--set", "ascii"], SANS, 0, COUNTS, ""),
    ("two sets", ["make", "--ppem", "16", "--set", "ascii", "--set=box,a0"], SANS, 0, "mkstrike: glyphs 224 missing 0 .*", ""),
    ("--set without a value", ["make", "--ppem", "16", "--set"], SANS, 2, USAGE, "--set takes a value"),
    ("--set for show", ["show", "--ppem", "16", "--set", "ascii"], SANS, 2, USAGE, "unknown option '--set'"),
    ("--encoding", ["make", "--ppem", "16", "--encoding", "latin1"], SANS, 2, USAGE, "--set takes sets of characters by name"),
    ("a letter outside ASCII", "\xe9", SANS, 1, "mkstrike: 61 BadChars", "strike --text"),
    ("a file of characters", "@list.txt", SANS, 1, "mkstrike: 61 BadChars", "strike --text"),
    ("--text", ["make", "--ppem", "16", "--text", "a.txt"], SANS, 2, USAGE, "the command strike"),
    ("-o of a console font", ["FONT", "-o", "a.psf"], b"", 0, COUNTS, "'a.psf' is BDF, like every strike; strike --format"),
    ("-o of a picture", ["FONT", "-o", "a.png"], b"", 0, COUNTS, "'a.png' is BDF, like every strike; strike --format"),
    ("-o of C", ["FONT", "-o", "a.h"], b"", 0, COUNTS, "'a.h' is BDF, like every strike; strike --format"),
    ("--format", ["--format", "pcf"], SANS, 2, USAGE, "the command strike"),
    ("--psf", ["--psf"], SANS, 2, USAGE, "the command strike"),
    ("--cell", ["--cell", "8x16"], SANS, 2, USAGE, "the command strike"),
    ("--mono", ["--mono"], SANS, 2, USAGE, "the command strike"),
    ("--bold", ["--bold"], SANS, 2, USAGE, "give the font's file of that style"),
    ("--antialias", ["--antialias"], SANS, 2, USAGE, "one bit a pixel"),
    ("--hinted", ["--hinted"], SANS, 2, USAGE, "strikes are hinted if --unhinted is not given"),
    ("--dropout on", ["--dropout", "on", "FONT"], b"", 2, USAGE, "--dropout takes left, near or font, not 'on'"),
    ("--dropout near", ["--dropout", "near", "FONT"], b"", 0, COUNTS, ""),
    ("--dropout font", ["--dropout", "font", "FONT"], b"", 0, COUNTS, ""),
    ("--dropout FONT", ["--dropout", "FONT"], b"", 0, COUNTS, ""),
    ("-o joined by =", ["FONT", "-o=joined.bdf"], b"", 0, COUNTS, ""),
    ("-o without letters", ["FONT", "-o", ""], b"", 2, USAGE, "-o takes the name of a file"),
    ("output as a second word", ["FONT", "out.bdf"], b"", 2, USAGE, "one word too many, 'out.bdf'"),
    # what else was tried: none ends well with a wrong strike, or the second line tells of it
    ("a symbol font", ["symbol.ttf"], b"", 0, "mkstrike: glyphs 0 missing 1 strays 0 steps 0",
     NO_GLYPH + "; the font's characters begin at U+F041"),
    ("a font with bitmaps at this size", ["bitmaps.ttf"], b"", 0, "mkstrike: glyphs 1 missing 0 strays 0 steps 0",
     "the font has bitmaps of its own at this size"),
    ("a font with bitmaps at another size", ["make", "--ppem", "17", "--chars", "41", "bitmaps.ttf"], b"", 0,
     "mkstrike: glyphs 1 missing 0 strays 0 steps 0", NONE),
    ("bitmaps alone (.otb)", ["blank.otb", "-o", "blank.bdf"], b"", 0, COUNTS, "no pixel of the strike is set"),
    ("a color font", ["color.ttf"], b"", 1, "mkstrike: 11 TableMissing loca", "the font is damaged, or"),
    ("metrics as font", ["a.afm"], b"", 1, "mkstrike: 10 NotTrueType", "give a TrueType font"),
    ("a font by its file's name alone", ["DejaVuSans.ttf"], b"", 1, "mkstrike: can't open the font 'DejaVuSans.ttf': .*",
     "'fc-list' shows the files"),
    ("a tilde in quotes", ["~/a.ttf"], b"", 1, "mkstrike: can't open the font '~/a.ttf': .*", "names the font"),
    ("fonts by *", ["FONT", "b.ttf", "c.ttf"], b"", 2, USAGE, "one word too many, 'b.ttf'"),
    ("a space in a name", ["my", "font.ttf"], b"", 2, USAGE, "one word too many, 'font.ttf': 'my' names the font"),
    ("a font whose name begins with -", ["-a.ttf"], b"", 2, USAGE, "unknown option '-a.ttf'"),
    ("an output whose name does", ["FONT", "-o", "-a.bdf"], b"", 2, USAGE, "-o takes the name of a file"),
    ("--px", ["make", "--px", "16", "--chars", "41"], SANS, 2, USAGE, "did you mean '--ppem'?"),
    ("--height", ["make", "--height", "16", "--chars", "41"], SANS, 2, USAGE, "did you mean '--ppem'?"),
    ("ppem 0x10", ["make", "--ppem", "0x10", "--chars", "41"], SANS, 2, USAGE, "not '0x10'"),
    ("size and list by position", ["make", "16", "20-7e", "FONT"], b"", 2, USAGE,
     "one word too many, '20-7e': '16' names the font"),
    ("--ppem:16", ["make", "--ppem:16", "--chars", "41"], SANS, 2, USAGE, "unknown option '--ppem:16'"),
    ("-ppem", ["make", "-ppem", "16", "-chars", "41"], SANS, 2, USAGE, "did you mean '--ppem'?"),
    ("--pp", ["make", "--pp", "16", "--ch", "41"], SANS, 2, USAGE, "unknown option '--pp'"),
    ("no option", ["make", "FONT"], b"", 2, USAGE, "--ppem is missing"),
    ("make help", ["make", "help"], b"", 2, USAGE, "'mkstrike help make'"),
    ("--chars -", ["make", "--ppem", "16", "--chars=-"], SANS, 1, BAD_LIST, "'-' in the list"),
    ("an open range", "20-", SANS, 1, BAD_LIST, "'20-' in the list is no hexadecimal number or range, but 20 is"),
    ("emoji too", "0-1f9ff", SANS, 1, BAD_LIST, "more than 65,536 numbers"),
    ("--chars cp437", "cp437", SANS, 1, BAD_LIST, "--set cp437 takes that set"),
    ("--chars koi8-r", "koi8-r", SANS, 1, BAD_LIST, "--set koi8-r takes that set"),
    ("ten digits", "0123456789", SANS, 1, BAD_LIST, "more than six digits"),
    ("20..7e", "20..7e", SANS, 1, BAD_LIST, "'20..7e' in the list"), ("20:7e", "20:7e", SANS, 1, BAD_LIST, "'20:7e' in the list"),
    ("an en dash", "20\u20137e", SANS, 1, BAD_LIST, "strike --text"),
    ("a semicolon", "20-7e;a0-ff", SANS, 1, BAD_LIST, "'20-7e;a0-ff' in the list"),
    ("lines", "41\n42", SANS, 1, BAD_LIST, "'41?42' in the list"),
    ("a file's name as list", "list.txt", SANS, 1, BAD_LIST, "strike --text"),
    ("names of glyphs", "A,B,space", SANS, 1, BAD_LIST, "'space' in the list"),
    ("letters that are digits", "abc", SANS, 0, COUNTS, NO_GLYPH), ("the word face", "face", SANS, 0, COUNTS, NO_GLYPH),
    ("digits", "0-9", SANS, 0, COUNTS, NO_GLYPH), ("surrogates", "d83d-de00", SANS, 0, COUNTS, NO_GLYPH),
    ("160-255, as decimal", "160-255", SANS, 1, "mkstrike: 30 StackUnder .*", "--refused unhinted draws such characters"),
    ("--italic", ["--italic"], SANS, 2, USAGE, "give the font's file of that style"),
    ("--no-hinting", ["--no-hinting"], SANS, 2, USAGE, "did you mean '--unhinted'?"),
    ("--dropout-near", ["--dropout-near"], SANS, 2, USAGE, "the command strike"),
    ("--output", ["--output", "a.bdf"], SANS, 2, USAGE, "did you mean '-o'?"),
    ("a property in two words", ["--property", "FOUNDRY", "misc", "FONT"], b"", 2, USAGE, "'misc' names the font"),
    ("-o of a packed PCF", ["FONT", "-o", "a.pcf.gz"], b"", 0, COUNTS, "'a.pcf.gz' is BDF, "),
    ("-oj.bdf, joined", ["FONT", "-oj.bdf"], b"", 0, COUNTS, ""), ("--name with a space", ["--name", "a b"], SANS, 0, COUNTS, ""),
    ("--name empty", ["--name", ""], SANS, 1, "mkstrike: 62 BadName", "1 to 255 printable ASCII characters"),
    ("command MAKE", ["MAKE", "--ppem", "16"], b"", 2, USAGE, "did you mean 'make'?"),
    ("command convert", ["convert", "a.ttf", "a.bdf"], b"", 2, USAGE, "unknown command 'convert'"),
    ("command list", ["list", "a.ttf"], b"", 2, USAGE, "unknown command 'list'"),
    ("command info", ["info", "a.ttf"], b"", 2, USAGE, "unknown command 'info'"),
    ("command -help", ["-help"], b"", 2, USAGE, "the first word is the command"),
    ("command -?", ["-?"], b"", 2, USAGE, "the first word is the command"),
    ("help --ppem", ["help", "--ppem"], b"", 2, USAGE, "there is no help for '--ppem'"),
    ("help chars", ["help", "chars"], b"", 2, USAGE, "there is no help for 'chars'"),
    ("help help", ["help", "help"], b"", 2, USAGE, "'mkstrike help' lists the commands"),
    ("show of a text", ["show", "--ppem", "16", "--text", "Hello"], SANS, 2, USAGE, "the command strike"),
    ("show of nothing", ["show", "--ppem", "16"], SANS, 2, USAGE, "--char or --glyph is missing"),
    ("show --glyph A", ["show", "--ppem", "16", "--glyph", "A"], SANS, 2, USAGE, "not 'A'"),
    ("show of \xe9", ["show", "--ppem", "16", "--char", "\xe9"], SANS, 1, BAD_LIST, "--char takes one hexadecimal number"),
    ("show of a strike", ["show", "--ppem", "16", "--char", "41", "a.bdf"], b"", 1, "mkstrike: 10 NotTrueType",
     "it is a bitmap font already"),
    # the font's programs
    ("dump of what is not there", ["dump", "--of", "gpos"], SANS, 2, USAGE,
     "--of takes fpgm, prep or the number of a glyph, not 'gpos'; 'mkstrike help dump'"),
    ("dump glyph 99999", ["dump", "--of", "99999"], SANS, 2, USAGE, "the number of a glyph, not '99999'"),
    ("dump of a glyph that is not there", ["dump", "--of", "65000"], SANS, 1, "mkstrike: 24 BadGlyphNumber 65000",
     "the font has no glyph of that number"),
    ("dump glyph name", ["dump", "--of", "Aacute"], SANS, 2, USAGE, "the number of a glyph, not 'Aacute'"),
    # the fonts of a file
    ("faces with --face", ["faces", "--face", "0"], SANS, 2, USAGE, "unknown option '--face'; 'mkstrike help faces'"),
    ("faces misspelt", ["fases"], SANS, 2, USAGE, "unknown command 'fases'; did you mean 'faces'?"),
    ("faces of a collection without a font", ["faces", "none.ttc"], b"", 1, "mkstrike: 25 NoFace", "the collection has no font"),
    ("faces of a strike", ["faces", "a.bdf"], b"", 1, "mkstrike: 10 NotTrueType", "it is a bitmap font already"),
    ("faces of a variable font", ["faces", "variable.ttf"], b"", 0, "", NONE),
    ("a glyph whose program halts", "19c", SANS, 1, "mkstrike: 30 StackUnder .*", "with --unhinted no program"),
]
ALONE = ("make", "show", "dump", "mkae", "explian", "font.ttf", "cut.ttf", "version", "-h", "help", "--version", "-V", "outline",
         "faces", "fases")


def mistakes(sans):
    """The rows, with the arguments as they are given."""
    for what, words, given, status, first, second in ROWS:
        if words is None:
            words = []
        elif isinstance(words, str):
            words = ["make", "--ppem", "16", "--chars", words]
        elif not (words and (words[0] in ALONE or what.startswith(("command", "options before", "--help")))):
            words = ["make", "--ppem", "16", "--chars", "41"] + words
        needs = given in (SANS, b"SANS", "no cmap.ttf") or "FONT" in words or "variable.ttf" in words
        given = sans if given is SANS else open(sans, "rb").read() if given == b"SANS" and os.path.exists(sans) else given
        yield Mistake(what, [sans if it == "FONT" else it for it in words], given, status, first, second, needs)


def write_files(folder, sans):
    """Puts the files of the mistakes into a folder."""
    if os.path.exists(sans):
        for name, table, other in (("copy.ttf", b"", b""), ("no cmap.ttf", b"cmap", b"cmaq"), ("variable.ttf", b"gasp", b"fvar")):
            with open(sans, "rb") as font, open(os.path.join(folder, name), "wb") as file:
                file.write(font.read().replace(table, other, 1))
    for name, data in FILES.items():
        with open(os.path.join(folder, name), "wb") as file:
            file.write(data)
