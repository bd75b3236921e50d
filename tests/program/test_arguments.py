"""Cases of the program: command lines by hand, which are valid and which not, and properties, whose lines are written out here.

In lists of command lines a bar separates the arguments, since some are empty or have spaces.
"""
import due
import runs
from cases import cases
from due import counted, glyph_lines, listed, refused, usage
from making.fonts import FIXTURE, fixture_with, patched, simple, wide_map_of, with_tables
from runs import Run
from test_worked import NAMED, OF_ARC, OF_RING, SPACE, hexed, strike

BAD_SIZE, BAD_CHARS, BAD_HEX = refused("60 BadSize"), refused("61 BadChars"), refused("72 BadHex")
READ_FAILED = refused("71 ReadFailed")


def parted(line):
    """The arguments of a command line."""
    return line.split("|")


# ---- command lines ----

# Arguments that are valid, of size 0 or 1025: they are refused for it.
VALID = (
    "make|--ppem|0|--chars|41", "make|--chars=41|--ppem=0", "make|--hex|--name=a b|--unhinted|--chars|20,41-42|--ppem|00000000",
    "make|--ppem|0|--chars|", "make|--ppem|0|--chars=", "make|--ppem|0|--chars|110000", "make|--ppem=1025|--chars=41|--name=-",
    "make|--ppem|0|--chars|41|--name=-misc-fixed-medium-r-normal--16-160-72-72-c-80-iso10646-1",
    "make|--dropout|--ppem|0|--unhinted|--chars|41", "make|--dropout=near|--ppem|0|--unhinted|--chars|41",
    "make|--ppem|0|--chars|41|--dropout|font", "make|--ppem|0|--refused|stop|--chars|41",
    "make|--ppem|0|--refused=leave-out|--chars|41|--unhinted", "make|--refused|unhinted|--ppem|0|--chars|41",
    "show|--ppem|0|--char|41", "show|--ppem|0|--char|41|--dropout", "show|--ppem|0|--dropout=left|--char|41",
    "show|--hex|--char=0000fF|--unhinted|--ppem=0", "show|--ppem|1025|--char|110000", "make|--face|0|--ppem|0|--chars|41",
    "make|--ppem|0|--chars|41|--face|4294967295",
    "show|--ppem|0|--char|41|--face=00007", "show|--face|+7|--ppem|0|--char|41",
    "make|--ppem|0|--all", "make|--all|--name=a|--ppem=0|--hex", "make|--careful|--ppem|0|--chars|41",
    "show|--ppem|0|--char|41|--careful", "outline|--careful|--ppem|0|--glyph|0", "trace|--ppem|0|--of|fpgm|--careful")

# every option, but those that may be given more than once
WHOLE = "make|--ppem|16|--chars|41|--name|F1|--x11|--dropout|--unhinted|--careful|--hex"

# Arguments that are not valid.
NOT_VALID = (
    "make", "", "Make", "x|" + WHOLE, "make|--ppem|16", "make|--ppem|16|--chars", "make|--chars|41", "--ppem|16|--chars|41",
    *(WHOLE + more for more in ("|x|y", "|", "|-|-", "|--|x|y", "|--unhinted", "|--careful", "|--x11", "|--hex")),
    *("make|--ppem|16|--chars|41|" + more for more in (
        "--ppem|16", "--chars|41", "--name", "--name|-x", "--name|-|--hex", "--unhinted=yes", "--hex=", "--x11=1", "--X11",
        "--careful=1", "--version", "--char|41", "--of|prep", "--unhint", "font|more", "-o", "-o|a|-o|b", "--property",
        "--property|A", "--property=A", "--property=", "--property|-B=1")),
    *("make|--chars|41|--ppem|" + size for size in ("65536", "-1", "1.0", "", "16x", " 16", "0x10", "99999999999999999999")),
    "make|--ppem|16|--chars|-41", "make|--ppem|16|--chars|--hex", "show", "show|--ppem|16", "show|--char|41",
    "show|--ppem|16|--chars|41", "show|--ppem|16|--char|41|42|43", "show|--ppem|65536|--char|41", "show|--ppem|16|--char|41|--x11",
    "outline|--of|1", "dump", "dump|--of", "dump|--of|cvt", "dump|--of|65536", "dump|--of|-1", "dump|--of|2|--ppem|16",
    "dump|--of|2|--of|2", "dump|--of|1|--x11", "dump|2",
    "show|--ppem|0|--char", "show|--ppem|0|--char|-41", "show|--ppem|0|--char|41|--char|41",
    "show|--ppem|0|--char|41|--name|F1", "show|--ppem|0|--char|41|--of|prep", "show|--ppem||--char|41",
    "show|--ppem|0|--char|41|--refused|stop",
    "dump|--of|glyf", "dump|--of|", "dump|--of|3A", "dump|--of|prep|--of|prep", "dump|--of|prep|--ppem|16",
    "dump|prep", "dump|--of|prep|--face", "dump|--of|prep|--face|1a", "dump|--of|prep|--face|4294967296", "dump|--face|0",
    "show|--ppem|0|--char|41|--face|", "show|--ppem|0|--char|41|--face|-1", "make|--ppem|0|--chars|41|--face|x",
    "make|--ppem|0|--chars|41|--face|0|--face|0", "make|--ppem|0|--chars|41|", "make|--ppem|0|--chars|41|--name|-",
    "make|--ppem|0|--chars|-x", "make|--pp|0|--chars|41", "make|--ppem|0|--chars|41|--dropout=3",
    "make|--ppem|0|--chars|41|--dropout=Near", "make|--ppem|0|--chars|41|--dropout|3", "make|--ppem|0|--chars|41|--refused|",
    "make|--ppem|0|--chars|41|--refused|leave-outs", "make|--ppem|0|--chars|41|--refused|hinted",
    "show|--ppem|0|--char|41|--dropout|--dropout", "dump|--of|prep|--dropout", "make|--ppem=-1|--chars|41",
    "make|--ppem=-0|--chars|41", "make|--ppem|16.0|--chars|41", "MAKE|--ppem|0|--chars|41", "outline", "outline|--ppem|0",
    "outline|--glyph|0", "outline|--ppem|0|--char|41|--glyph|0", "show|--ppem|0|--glyph|0|--char|41",
    "show|--ppem|0|--glyph|0|--glyph|0", "outline|--ppem|0|--glyph|-1", "outline|--ppem|0|--glyph=-1",
    "outline|--ppem|0|--glyph|65536", "show|--ppem|0|--glyph|1a", "outline|--ppem|0|--glyph|",
    "outline|--ppem|0|--glyph|0|--dropout", "outline|--ppem|65536|--glyph|0", "make|--ppem|0|--glyph|0",
    "make|--ppem|0|--all|--chars|41", "make|--chars=|--ppem|0|--all", "make|--ppem|0|--all|--all",
    "make|--ppem|0|--all=", "show|--ppem|0|--all", "make|--ppem|0|--hex", "make|--ppem|0|--char|41|--all",
    "faces|--ppem|16", "faces|--face|0", "faces|x|y", "faces|--hex=1", "Faces", "face", "faces|--careful",
    "show|--ppem|0|--char|41|--careful|--careful", "outline|--ppem|0|--glyph|0|--careful=", "trace|--ppem|0|--of|fpgm|--careful=no",
    "dump|--of|prep|--careful")


def command_lines():
    """Valid arguments are refused for their size, and all others are a usage fault; what is wrong first with some."""
    for line in VALID:
        yield Run(line, parted(line), b"", BAD_SIZE)
    for line in NOT_VALID:
        yield Run(line, parted(line), FIXTURE, usage())
    for line, text in (
            ("outline --ppem 16", "--char or --glyph is missing"),
            ("show --ppem 16 --char 41 --glyph 36", "--char and --glyph can't be given together"),
            ("outline --ppem 16 --glyph A", "--glyph takes a whole number from 0 to 65535, not 'A'"),
            ("outline --ppem 16 --glyph 36 --dropout", "unknown option '--dropout'"), ("outline --glyph 36", "--ppem is missing"),
            ("make --ppem 16", "--chars or --all is missing"),
            ("make --ppem 16 --all --chars 41", "--chars and --all can't be given together"),
            ("make --ppem 16 --all=x", "--all takes no value"), ("faces --face 1", "unknown option '--face'")):
        yield Run("explain " + line, "explain " + line, b"", listed([text]))
    yield Run("explain what is right", "explain outline --ppem 16 --glyph 36 --hex", b"", listed([]))


# Arguments, and how a run ends whose input can't be read.
UNREAD = (
    ("make|--ppem|16", usage()), ("show|--ppem|16", usage()), ("dump|--of|glyf", usage()), ("faces|--face|0", usage()),
    ("make|--ppem|0|--chars|42-41", BAD_CHARS), ("make|--hex|--ppem|16|--chars|4x", BAD_CHARS),
    ("show|--ppem|0|--char|", BAD_CHARS), ("show|--ppem|0|--char=", BAD_CHARS), ("show|--ppem|0|--char|0000041", BAD_CHARS),
    ("show|--ppem|0|--char|41-41", BAD_CHARS), ("show|--ppem|0|--char|41,41", BAD_CHARS), ("show|--ppem|0|--char|+41", BAD_CHARS),
    ("show|--ppem|0|--char|4g", BAD_CHARS), ("show|--ppem|0|--char|41", READ_FAILED), ("show|--ppem|16|--char|110000", READ_FAILED),
    ("make|--ppem|0|--chars|41", READ_FAILED), ("make|--ppem|16|--chars|110000", READ_FAILED), ("dump|--of|prep", READ_FAILED),
    ("faces", READ_FAILED), ("faces|--hex", READ_FAILED),
    ("mak", usage()), ("make", usage()), ("make|--ppem|16|--chars|41|--x", usage()), ("make|--ppem|16|--chars|41|x|y", usage()),
    ("dump|--of|cvt", usage()), ("show|--ppem|16|--char|41-42", BAD_CHARS))


def what_is_refused_unread():
    """Usage faults and a wrong form of the list are found before the input is read, which fails, or into which nothing is typed.
    All other faults are found later; last of all that the input is no hexadecimal text."""
    for line, answer in UNREAD:
        yield Run(line, parted(line), b"", answer, way=runs.failing_after(b""))
        if answer is not READ_FAILED:
            yield Run("%s, and nothing is typed" % line, parted(line), b"", answer, way=runs.from_silent_pipe)
    for given, answer in ((b"", READ_FAILED), (b"make\n", usage()), (b"make --ppem 16 --chars 41,\n", BAD_CHARS),
                          (b" " * 4097, usage())):
        yield Run("no arguments, failing after %d bytes" % len(given), [], b"", answer, way=runs.failing_after(given))
    for line, answer in (("make --hex --ppem 16 --chars 4x", BAD_CHARS), ("make --hex --ppem 16 --chars 41", BAD_HEX),
                         ("show --hex --ppem 16 --char 4x", BAD_CHARS), ("show --hex --ppem 0 --char 110000", BAD_HEX)):
        yield Run("%s, of no text" % line, line, b"4x", answer)
    yield Run("text that fails", "make --hex --ppem 16 --chars 41", b"", READ_FAILED, way=runs.failing_after(b"4x"))


# ---- properties ----

def words_with(more, name="F1", chars="21"):
    """The arguments of a strike of the fixture, which lacks 21, with more arguments."""
    return ["make", "--ppem", "16", "--chars", chars, "--name=" + name, *more]


def with_lines(name, *lines):
    """What is due of a strike without glyphs that has these properties after the first two."""
    return due.Due(due.DONE, counted(0, 1), strike(name=name, properties=lines))


# Properties that are given, and their lines.
GIVEN = (
    ((), ()), (("DEFAULT_CHAR=32",), ("DEFAULT_CHAR 32",)),
    (("CHARSET_REGISTRY=ISO10646", 'CHARSET_ENCODING="1"'), ('CHARSET_REGISTRY "ISO10646"', 'CHARSET_ENCODING "1"')),
    (("B=-2147483648", "A_9=2147483647", "C=007", "D=-0"), ("B -2147483648", "A_9 2147483647", "C 7", "D 0")),
    (("N=2147483647", "X_=-7", "A1=0", "E=%s7" % ("0" * 40), "F=-007"), ("N 2147483647", "X_ -7", "A1 0", "E 7", "F -7")),
    (('A=say "hi"', 'B=a b ', 'C=""""'), ('A "say ""hi"""', 'B "a b "', 'C """"""')),
    (("L" * 64 + "=" + "x" * 32000,), ("L" * 64 + ' "' + "x" * 32000 + '"',)),
    (("A=2147483648", "B=+1", "C=", "D=-", "E=a=b"), ('A "2147483648"', 'B "+1"', 'C ""', 'D "-"', 'E "a=b"')),
    (('A="', 'B=""', 'C="""', 'D=a"b"', 'E=" "', "F=x y~"), ('A """"', 'B ""', 'C """"', 'D "a""b"""', 'E " "', 'F "x y~"')),
    (("COMMENTS=1", "COMMEN=2", "ENDPROPERTY=3", "ENDPROPERTIES_=4", "CHARS=5"),
     ("COMMENTS 1", "COMMEN 2", "ENDPROPERTY 3", "ENDPROPERTIES_ 4", "CHARS 5")),
    (tuple("P%d=%d" % (k, k) for k in range(64)), tuple("P%d %d" % (k, k) for k in range(64))))

# Properties of which one is bad, and which one.
BAD = (
    (("L" * 65 + "=1",), 1), (("A=" + "x" * 32001,), 1), (("A=a\tb",), 1), (("1A=1",), 1), (("_=1",), 1), (("-B=1",), 1),
    (("A=1", "b=1", "A=2"), 2), (("=1",), 1), (("a=1",), 1), (("9A=1",), 1), (("_A=1",), 1), (("A-B=1",), 1),
    (("A=1", "FONT_ASCENT=1"), 2), (("FONT_DESCENT=1", "=1"), 1), (("A=1", "B=1", "A=2", "b=1"), 3), (("A=1", "B=\x7f"), 2),
    (("A=\x1f",), 1), (("ENDPROPERTIES=1",), 1), (("A=1", "COMMENT=x"), 2),
    (tuple("P%d=%d" % (k, k) for k in range(65)), 65))


def properties_by_hand():
    """Those that are given, in one argument or in two, and those that are refused, after the size, the characters and the name."""
    for given, lines in GIVEN:
        yield Run("%.40s" % (given,), words_with("--property=" + text for text in given), FIXTURE, with_lines("F1", *lines))
        twice = [word for text in given for word in ("--property", text)]
        yield Run("%.40s, apart" % (given,), words_with(twice), FIXTURE, with_lines("F1", *lines))
    for given, place in BAD:
        words = words_with("--property=" + text for text in given)
        yield Run("%.40s" % (given,), words, FIXTURE, refused("63 BadProperty %d" % place))
    both = ["--x11", '--property=COMMENT=""', "--property=ENDPROPERTIES="]
    yield Run("with X11", words_with(both), FIXTURE, refused("63 BadProperty 1"))
    yield Run("no KEY=VALUE", words_with(["--property", "=1", "--property", "A"]), FIXTURE, usage())
    yield Run("in the first line", [], b"make --ppem 16 --chars 21 --name F1 --property A=1\n" + FIXTURE, with_lines("F1", "A 1"))
    yield Run("more than X11 has room for", words_with(["--x11", *("--property=P%d=%d" % (k, k) for k in range(65))]), FIXTURE,
              refused("63 BadProperty 65"))
    for line, text in (("make|--ppem|0|--chars|21|--property|=|--name|", "60 BadSize"),
                       ("make|--ppem|1|--chars|110000|--property|=|--name|", "61 BadChars"),
                       ("make|--ppem|1|--chars|21|--property|=|--name|", "62 BadName")):
        yield Run(line, parted(line), b"", refused(text))


# ---- properties of X11 ----

X11_NAME = "-misc-mine-bold-i-normal--16-160-72-72-c-80-iso10646-1"
OF_SIZE = ("PIXEL_SIZE 16", "POINT_SIZE 160", "RESOLUTION_X 72", "RESOLUTION_Y 72")
OF_CHARS = ('CHARSET_REGISTRY "ISO10646"', 'CHARSET_ENCODING "1"')

# Names, and FAMILY_NAME, WEIGHT_NAME and SLANT: one of X11's begins with a hyphen and has 14.
PARTS = (
    ("-misc-mine-bold-i-normal--7-70-72-72-c-60-iso10646-1", "mine", "bold", "i"),
    ("-misc-my own-bold-i-normal--7-70-72-72-c-60-iso10646-1", "my own", "bold", "i"), ("-" * 14, "", "", ""),
    ("F", "F", "Medium", "R"),
    ("-misc-mine-bold-i-normal--7-70-72-72-c-60-iso10646", "-misc-mine-bold-i-normal--7-70-72-72-c-60-iso10646", "Medium", "R"),
    ("-" * 15, "-" * 15, "Medium", "R"), ("x" + "-" * 14, "x" + "-" * 14, "Medium", "R"))


def x11_by_hand():
    """What a name settles; a property that is given takes the place of X11's of its name, and stands after them."""
    for name, family, weight, slant in PARTS:
        lines = ['FAMILY_NAME "%s"' % family, 'WEIGHT_NAME "%s"' % weight, 'SLANT "%s"' % slant, *OF_SIZE, 'SPACING "M"',
                 "AVERAGE_WIDTH 0", *OF_CHARS]
        yield Run("the name %s" % name, words_with(["--x11"], name), FIXTURE, with_lines(name, *lines))
    for name, given, lines in (
            ("F1", (), ('FAMILY_NAME "F1"', 'WEIGHT_NAME "Medium"', 'SLANT "R"', *OF_SIZE, 'SPACING "M"', "AVERAGE_WIDTH 0",
                        *OF_CHARS)),
            (X11_NAME, ("SPACING=C", "FOUNDRY=misc", "PIXEL_SIZE=17"),
             ('FAMILY_NAME "mine"', 'WEIGHT_NAME "bold"', 'SLANT "i"', *OF_SIZE[1:], "AVERAGE_WIDTH 0", *OF_CHARS, 'SPACING "C"',
              'FOUNDRY "misc"',
              "PIXEL_SIZE 17")),
            ('a"b', ("DEFAULT_CHAR=65",),
             ('FAMILY_NAME "a""b"', 'WEIGHT_NAME "Medium"', 'SLANT "R"', *OF_SIZE, 'SPACING "M"', "AVERAGE_WIDTH 0", *OF_CHARS,
              "DEFAULT_CHAR 65")),
            ("F", ("SLANT=3", "FOUNDRY=misc"),
             ('FAMILY_NAME "F"', 'WEIGHT_NAME "Medium"', *OF_SIZE, 'SPACING "M"', "AVERAGE_WIDTH 0", *OF_CHARS, "SLANT 3",
              'FOUNDRY "misc"'))):
        words = words_with(["--x11", *("--property=" + text for text in given)], name)
        yield Run("%s, %s" % (name, given), words, FIXTURE, with_lines(name, *lines))


def x11_and_spaces():
    """Another space, or a neighbour of U+0020 or U+FFFD, stands for no other character; and the mean of a very wide space."""
    lines = ['FAMILY_NAME "F1"', 'WEIGHT_NAME "Medium"', 'SLANT "R"', *OF_SIZE, 'SPACING "M"', "AVERAGE_WIDTH 60", *OF_CHARS]
    with_space = strike(SPACE, OF_RING, OF_ARC, box="5 5 0 0", properties=lines + ["DEFAULT_CHAR 32"])
    yield Run("a whole strike", ["make", "--ppem", "16", "--chars", "20,41-42", *NAMED.split(), "--x11"], FIXTURE,
              due.Due(due.DONE, counted(3), with_space))
    others = (0x1F, 0x21, 0xA0, 0x2000, 0x3000, 0xFFFC, 0xFFFE)
    text = strike(*[glyph_lines(code, "5 5 0 0", "F8", "F8", "D8", "F8", "F8") for code in others], box="5 5 0 0", properties=lines)
    yield Run("other spaces", words_with(["--x11"], chars=",".join("%x" % code for code in others)),
              with_tables(FIXTURE, cmap=wide_map_of([(code, 2) for code in others])), due.Due(due.DONE, counted(len(others)), text))
    # 65,535 units of an em of 16 are 4,194,240 pixels at 1,024 pixels an em
    wide = patched(patched(FIXTURE, 142, b"\0\x10"), 252, b"\xFF\xFF")
    lines = ['FAMILY_NAME "F1"', 'WEIGHT_NAME "Medium"', 'SLANT "R"', "PIXEL_SIZE 1024", "POINT_SIZE 10240", *OF_SIZE[2:],
             'SPACING "M"',
             "AVERAGE_WIDTH 41942400", *OF_CHARS, "DEFAULT_CHAR 32"]
    empty = glyph_lines(0x20, "0 0 0 0", swidth=4095938, dwidth=4194240)
    text = strike(empty, ppem=1024, ascent=51200, descent=14336, properties=lines)
    yield Run("a wide space", ["make", "--ppem", "1024", "--chars", "20", "--name", "F1", "--x11"], wide,
              due.Due(due.DONE, counted(), text))


def x11_backwards():
    """Programs set point 5, which tells the advance, to -320/64 and 320/64 pixels: the advances are two, and the mean of their
    sizes is 5. SWIDTH stays that of `hmtx`."""
    square = [[(0, 0, 1), (0, 320, 1), (320, 320, 1), (320, 0, 1)]]
    font = fixture_with(*[simple(square, hexed("01 B0 05 B8 %s 48" % place)) for place in ("FEC0", "0140")])
    back, forth = [glyph_lines(code, "5 5 0 0", *["F8"] * 5, dwidth=dwidth) for code, dwidth in ((0x41, -5), (0x42, 5))]
    for chars, spacing, glyphs in (("41", "M", [back]), ("42", "M", [forth]), ("41-42", "P", [back, forth])):
        lines = ['FAMILY_NAME "F1"', 'WEIGHT_NAME "Medium"', 'SLANT "R"', *OF_SIZE, 'SPACING "%s"' % spacing, "AVERAGE_WIDTH 50",
                 *OF_CHARS]
        yield Run("advances to the left, %s" % chars, words_with(["--x11"], chars=chars), font, due.Due(
            due.DONE, counted(len(glyphs), steps=4 * len(glyphs)), strike(*glyphs, box="5 5 0 0", properties=lines)))


test_arguments = cases(command_lines, what_is_refused_unread, properties_by_hand, x11_by_hand, x11_and_spaces, x11_backwards)
