"""Deltas: at which size a pair acts, and by how much."""
from making.fontmaker import FontMaker
from making.probe import OFF_AXES, VECTORS, picture, shown
from making.suite import APPLE

ABOUT = APPLE + "Instruction set, Managing exceptions: %s"
ADVANCE = "an advance that a program leaves between pixels is answered as it is"
LOW_BYTE = "only the argument's low byte counts"
STRAY = "a pair that names a point or control value outside its table is dropped"
STEPS = {"1": 0, "2": 16, "3": 32}


def make(suite):
    """The cases of the group."""
    suite.group = "deltas"
    font = suite.font(FontMaker("deltas", cvt=[100, 200, -300]))
    for form, first in STEPS.items():
        for nibble in range(16):
            both(suite, font, form, "amount-%x" % nibble, "", [(0x70 + nibble, 1)], 16 + first)
        for high in (0, 1, 8, 15):
            for apart in (-1, 0, 1):
                ppem = 9 + first + high + apart
                both(suite, font, form, "size-%x-at-%d" % (high, ppem), "", [(high * 16 + 15, 1)], ppem)
        for shift in range(7):
            both(suite, font, form, "shift-%d" % shift, "%d SDS" % shift, [(0x70, 1), (0x7B, 2)], 16 + first)
        for base in (0, 1, 16, 30, -3, 255):
            both(suite, font, form, "base-%d" % base, "%d SDB" % base, [(0x70, 1), (0x3F, 2)],
                 base + first + 7 if base + first + 7 > 0 else 16, "a delta base below 0 counts as it is" if base < 0 else None)
        both(suite, font, form, "many", "", [(0x7F, 1), (0x70, 1), (0x7C, 2), (0x6F, 0)], 16 + first)
        both(suite, font, form, "none", "", [], 16)
    for vector, setting, slanted in VECTORS:
        glyph = picture(font, "%s 120 5 112 1 2 DELTAP1" % setting)
        suite.case("deltap1-%s" % vector.replace(" ", "-"), font, ABOUT % "DELTAP1", glyph, own=OFF_AXES if slanted else None,
                   within=3 if slanted else None)
    for k, row in enumerate(["120 5 1 DELTAP1 IUP:1", "0 SZP0 120 3 1 DELTAP1 0 SZP2 3 GC:0 1 SZP2 4 SWAP SCFS", "120 12 1 DELTAP1",
                             "104 99 1 DELTAP1", "376 5 1 DELTAP1"]):
        own = next((own for word, own in (("376", LOW_BYTE), (" 12 ", ADVANCE), (" 99 ", STRAY)) if word in row), None)
        suite.case("deltap1-more-%d" % k, font, ABOUT % "DELTAP1", picture(font, "SVTCA:1 " + row), own=own)
    for k, row in enumerate(["120 99 1 DELTAP1", "120 -1 112 5 2 DELTAP1"]):
        suite.case("deltap1-stray-%d" % k, font, ABOUT % "DELTAP1", picture(font, "SVTCA:1 " + row), own=STRAY)
    for k, row in enumerate(["120 3 1 DELTAC1 2 RCVT", "120 -1 112 0 2 DELTAC1 0 RCVT"]):
        suite.case("deltac1-stray-%d" % k, font, ABOUT % "DELTAC1", picture(font, shown(row, 1)), own=STRAY)


def both(suite, font, form, name, before, pairs, ppem, own=None):
    """A case of DELTAP and one of DELTAC with these pairs."""
    words = " ".join("%d %d" % pair for pair in pairs)
    point = "SVTCA:1 %s %s %d DELTAP%s" % (before, words, len(pairs), form)
    suite.case("deltap%s-%s" % (form, name), font, ABOUT % ("DELTAP" + form), picture(font, point), ppem=ppem, bits=ppem < 70,
               own=own)
    value = "%s %s %d DELTAC%s 0 RCVT 1 RCVT 2 RCVT" % (before, words, len(pairs), form)
    suite.case("deltac%s-%s" % (form, name), font, ABOUT % ("DELTAC" + form), picture(font, shown(value, 3)), ppem=ppem,
               bits=False, own=own)
