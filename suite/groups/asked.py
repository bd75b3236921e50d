"""What a font's programs ask of drop-out control: SCANCTRL's threshold and flags, SCANTYPE's types, in `prep` and in glyphs."""
from itertools import product

from making import fonts
from making.assembler import assemble, number
from making.fontmaker import FontMaker
from making.suite import APPLE

from .scan import box

CONTROL = APPLE + "Instruction set, Managing the Graphics State: SCANCTRL, %s"
TYPE = APPLE + "Instruction set, Managing the Graphics State: SCANTYPE, %s"
NOTHING = "a font that asks for nothing has the left or the lower pixel of a gap set"
SAME = "if no flag turns it on or off, drop-out control stays as it was, and before the first SCANCTRL it was off"
RESERVED = "bits above 13 of SCANCTRL's word mean nothing"
ANY_TYPE = "a type of SCANTYPE outside 0 to 8 changes nothing"
STUBS = "types 1 and 5 keep stubs, as no text defines a stub"
PARTS = "a composite is drawn as its own program and `prep` ask; its components have no part in it"
LOST = "what `fpgm` asked for is lost before `prep`"
# Between the centres of columns 0 and 1 there is a stem, nearer to that of column 1, on a bar: by the left pixel it is in column 0,
# by the nearer one in column 1, and without drop-out control it is nowhere.
STEM = [box(80, 0, 86, 320), box(0, -120, 300, -40)]
ON, OFF, NEAR, THRESHOLD = "511 SCANCTRL", "0 SCANCTRL", "4 SCANTYPE", 16
# bits 9 and 10 are for turned and stretched glyphs alone
UP_TO, ABOVE, NOT_ROTATED, NOT_STRETCHED = 1 << 8, 1 << 11, 1 << 12, 1 << 13


def make(suite):
    """The cases of the group."""
    suite.group = "asked"
    off = suite.font(FontMaker("asked-off", prep="%s %s" % (OFF, NEAR)))
    on = suite.font(FontMaker("asked-on", prep="%s %s" % (ON, NEAR)))
    silent = suite.font(FontMaker("asked-nothing"))
    make_flags(suite, off, on)
    make_thresholds(suite, off, on)
    make_words(suite, off)
    make_types(suite, on, silent)
    make_orders(suite, silent)
    make_in_prep(suite)
    make_elsewhere(suite, on, silent)
    make_ignored(suite, on)


def ask(suite, font, name, about, program="", ppem=16, own=None, dropout="font", **more):
    """A case of the stem with a program."""
    suite.case(name, font, about, font.simple(STEM, program), ppem=ppem, own=own, dropout=dropout, **more)


def is_open(flags, ppem):
    """Whether no flag turns drop-out control on or off, at a size and the threshold 16."""
    return (not flags & (NOT_ROTATED | NOT_STRETCHED) and not (flags & ABOVE and ppem > THRESHOLD)
            and not (flags & UP_TO and ppem <= THRESHOLD))


def make_flags(suite, off, on):
    """Each choice of the six flags at the threshold, and of the four that can act here above it."""
    for bits in range(64):
        flags = bits << 8
        ask(suite, off, "flags-%02x-at-16" % bits, CONTROL % "flags", "%d SCANCTRL" % (flags | THRESHOLD),
            own=SAME if is_open(flags, 16) else None)
    for flags in map(sum, product((0, UP_TO), (0, ABOVE), (0, NOT_ROTATED), (0, NOT_STRETCHED))):
        ask(suite, on, "flags-%02x-at-17" % (flags >> 8), CONTROL % "flags", "%d SCANCTRL" % (flags | THRESHOLD), 17,
            SAME if is_open(flags, 17) else None)


def make_thresholds(suite, off, on):
    """Thresholds at and beside the size, and the two that mean all sizes and none."""
    for threshold in (0, 1, 15, 16, 17, 254, 255):
        for flags in (0, UP_TO, UP_TO | ABOVE, 0x3F00):
            own = SAME if flags == 0 and threshold not in (0, 255) or flags == UP_TO and 0 < threshold < 16 else None
            ask(suite, off, "threshold-%d-%02x" % (threshold, flags >> 8), CONTROL % "threshold",
                "%d SCANCTRL" % (flags | threshold), own=own)
        own = None if threshold in (0, 255) or threshold < 16 else SAME
        ask(suite, on, "threshold-%d-off-above" % threshold, CONTROL % "threshold", "%d SCANCTRL" % (ABOVE | threshold), own=own)


def make_words(suite, off):
    """Bits that mean nothing, and numbers of more than a word."""
    for name, value in (("4110", 0x4110), ("8110", -0x8000 + 0x110), ("c110", -0x4000 + 0x110), ("ffff", -1), ("ff00", -256),
                        ("10110", 0x10110), ("10000", 0x10000), ("fff01000", 0x1000 - (1 << 20) + 16)):
        ask(suite, off, "word-" + name, CONTROL % "bits", "%s SCANCTRL" % number(value), own=RESERVED)


def make_types(suite, on, silent):
    """Each type, in a font that is on with another type, in one with SCANCTRL in the glyph, and without SCANCTRL."""
    for kind in (*range(-1, 11), 256, 260, 32767):
        own = STUBS if kind in (1, 5) else None if 0 <= kind <= 8 else ANY_TYPE
        ask(suite, on, "type-%d-after-4" % kind, TYPE % "types", "%d SCANTYPE" % kind, own=own)
        ask(suite, silent, "type-%d" % kind, TYPE % "types", "%s %d SCANTYPE" % (ON, kind), own=own)
    for kind in (0, 2, 4):
        ask(suite, silent, "type-%d-alone" % kind, TYPE % "without SCANCTRL", "%d SCANTYPE" % kind, own=NOTHING)


def make_orders(suite, silent):
    """Several of both, in a glyph's program."""
    for k, (program, own) in enumerate([("4 SCANTYPE 511 SCANCTRL", None), ("511 SCANCTRL 4 SCANTYPE 0 SCANCTRL", None),
                                        ("0 SCANCTRL 4 SCANTYPE 511 SCANCTRL", None), ("511 SCANCTRL 4 SCANTYPE 0 SCANTYPE", None),
                                        ("511 SCANCTRL 2 SCANTYPE 4 SCANTYPE", None),
                                        ("272 SCANCTRL 4 SCANTYPE 271 SCANCTRL", SAME),
                                        ("511 SCANCTRL 4 SCANTYPE 9 SCANTYPE", ANY_TYPE), ("16 SCANCTRL 4 SCANTYPE", SAME),
                                        ("511 SCANCTRL", None), ("0 SCANCTRL", None), ("", NOTHING)]):
        ask(suite, silent, "order-%d" % k, CONTROL % "and SCANTYPE", program, own=own)


def make_in_prep(suite):
    """What `prep` asked for holds for glyphs with a program that says nothing of it, and for those without a program."""
    for k, (prep, own) in enumerate([("511 SCANCTRL 4 SCANTYPE", None), ("511 SCANCTRL", None), ("511 SCANCTRL 2 SCANTYPE", None),
                                     ("0 SCANCTRL", None), ("272 SCANCTRL 4 SCANTYPE", SAME), ("2320 SCANCTRL 4 SCANTYPE", None),
                                     ("4368 SCANCTRL 4 SCANTYPE", None), ("8464 SCANCTRL 4 SCANTYPE", None),
                                     ("16 SCANCTRL 4 SCANTYPE", SAME), ("4 SCANTYPE", NOTHING)]):
        font = suite.font(FontMaker("asked-prep-%d" % k, prep=prep))
        for ppem in (16, 17):
            decided = own if own != SAME or ppem == 17 or k == 8 else None
            ask(suite, font, "prep-%d-at-%d" % (k, ppem), CONTROL % "in prep", ppem=ppem, own=decided)
        ask(suite, font, "prep-%d-program" % k, CONTROL % "in prep", "1 POP", 17, decided)


def make_elsewhere(suite, on, silent):
    """In `fpgm`, with INSTCTRL, in components, without hinting, and from one glyph to the next."""
    lost = suite.font(FontMaker("asked-fpgm", fpgm="0 SCANCTRL 2 SCANTYPE"))
    ask(suite, lost, "fpgm", CONTROL % "in fpgm", own=LOST)
    ask(suite, lost, "fpgm-on", CONTROL % "in fpgm", ON, own=LOST)
    for name, prep in (("no-programs", "511 SCANCTRL 4 SCANTYPE 1 1 INSTCTRL"),
                       ("default-state", "511 SCANCTRL 4 SCANTYPE 2 2 INSTCTRL")):
        font = suite.font(FontMaker("asked-" + name, prep=prep))
        own = None if name == "no-programs" else NOTHING
        ask(suite, font, name, CONTROL % "with INSTCTRL", own=own)
        ask(suite, font, name + "-program", CONTROL % "with INSTCTRL", "0 SCANCTRL", own=None)
        ask(suite, font, name + "-type", CONTROL % "with INSTCTRL", "4 SCANTYPE", own=own)
    for font, name in ((on, "on"), (silent, "nothing")):
        part = font.simple(STEM, "0 SCANCTRL")
        for k, program in enumerate(("", "1 POP", "511 SCANCTRL 0 SCANTYPE", "0 SCANCTRL")):
            glyph = font.add(fonts.composite([(part, 0, 0)], assemble(program)), bearing=0)
            suite.case("composite-%s-%d" % (name, k), font, CONTROL % "in composites", glyph, dropout="font", own=PARTS)
        ask(suite, font, "unhinted-" + name, CONTROL % "without hinting", "0 SCANCTRL", hinted=False, own=NOTHING)
        ask(suite, font, "next-glyph-" + name, CONTROL % "glyph by glyph", "1 POP", own=None if font is on else NOTHING)


def make_ignored(suite, on):
    """Other drop-out control is the same whatever the font asks for."""
    for dropout, program in product((False, "left", "near"), ("", "0 SCANCTRL", "0 SCANTYPE", "2 SCANTYPE")):
        name = "ignored-%s-%s" % (dropout or "off", program.replace(" ", "-").lower() or "prep")
        ask(suite, on, name, CONTROL % "drop-out control that does not heed the font", program, dropout=dropout)
