"""Cases of the program: strikes that are made in spite of characters that are refused (`make --refused`)."""
import due
import runs
from cases import cases
from due import refused
from made import Composite, Empty, Font, Simple, comb, fixture, list_of, square
from making import fonts
from runs import Run
from strikes import A, B, C
from test_refusals import TABLES, TRIANGLE, long, word

WAYS = ("leave-out", "unhinted")
POP = b"\x21"


class Bad(Empty):
    """A glyph that is refused: its bytes, the cause with hinting, the cause without or None, and what it is drawn like then."""

    def __init__(self, data, cause, plain=None, like=None):
        self.bytes, self.cause, self.plain, self.like = data, cause, plain, like
        self.x_min = like.x_min if like else 0

    def data(self):
        return self.bytes

    def boxes(self, font, ppem, hinted):
        return self.like.boxes(font, ppem, hinted)

    def placed(self, font, ppem):
        return self.like.placed(font, ppem)


def halting(number, program=POP, cause="30 StackUnder", at=0, opcode=0x21, side=90):
    """A square whose program halts."""
    box = [[(0, 0, 1), (side, 0, 1), (side, side, 1), (0, side, 1)]]
    text = "%s during glyph %d in glyph %d at %d opcode %02X" % (cause, number, number, at, opcode)
    return Bad(fonts.simple(box, program), text, like=square(side))


def always(data, text):
    """A glyph that is refused with hinting and without."""
    return Bad(data, text, text)


def words(ppem, codes, way, more=""):
    """The words of a strike in spite of refused characters."""
    return "make --ppem %d --chars %s --refused %s%s" % (ppem, list_of(codes), way, more)


def fate(font, code, ppem, way, hinted, closed):
    """A character's glyph, or None; and the line that tells of it, or None."""
    number = font.number_of(code)
    model = font.glyphs[number]
    cause = (model.cause if hinted else model.plain) if isinstance(model, Bad) else None
    if cause is None:
        return font.glyph(number, ppem, hinted, closed), None
    if way == "unhinted" and 30 <= int(cause.split()[0]) <= 41:
        if model.plain is None:
            return font.glyph(number, ppem, False, closed), "unhinted U+%04X: %s" % (code, cause)
        cause = model.plain
    return None, "left out U+%04X: %s" % (code, cause)


def answer(font, codes, ppem, way, hinted=True, x11=False, closed=False):
    """What is due of a strike that is made in spite of refused characters."""
    codes = sorted(set(codes))
    fates = [(code, *fate(font, code, ppem, way, hinted, closed)) for code in codes if font.number_of(code)]
    drawn = [(code, glyph) for code, glyph, _ in fates if glyph]
    whole = due.strike(font, ppem, drawn, len(codes) - len(fates), x11=x11)
    whole.err = b"".join(b"mkstrike: %s\n" % line.encode() for _, _, line in fates if line) + whole.err
    return whole


def in_spite(name, font, codes, ppem=16, data=None, **more):
    """The strikes of a font in both ways, with hinting and without, and with drop-out control."""
    data = data or font.data()
    for way in WAYS:
        for text, hinted, closed in (("", True, False), (" --unhinted", False, False), (" --dropout", True, True)):
            yield Run("%s, %s%s" % (name, way, text), words(ppem, codes, way, text), data,
                      answer(font, codes, ppem, way, hinted, closed=closed), **more)


# ---- which characters are refused ----

def each_place():
    """The first, the last, two, all and none of three characters are refused."""
    for bad in ((), (A,), (B,), (C,), (A, C), (A, B), (A, B, C)):
        glyphs = [Empty()] + [halting(k) if code in bad else square(80 + k) for k, code in enumerate((A, B, C), 1)]
        font = Font(glyphs, {A: 1, B: 2, C: 3})
        yield from in_spite("%d refused of three: %s" % (len(bad), bad), font, (A, B, C, 0x44))
        yield from in_spite("one that is not asked for: %s" % (bad,), font, (A,))


# Of each cause one, of which the suite has more: a program, and the address and the opcode of the instruction at which it halts.
HALTS = (("30 StackUnder", "21", 0, 0x21), ("31 StackOver", "41 29" + " 0007" * 41, 0, 0x41),
         ("32 BadOpcode", "B0 00 4F 91", 3, 0x91), ("33 CodeEnd", "B0 00 58", 2, 0x58), ("34 BadJump", "B0 02 1C", 2, 0x1C),
         ("35 NoFunction", "B0 05 2B", 2, 0x2B),
         ("36 CallDepth", "B0 00 2C B0 00 2B 2D B0 00 2B", 5, 0x2B), ("37 StepLimit", "B8 FF FD 1C", 0, 0xB8),
         ("38 DivideByZero", "B1 40 00 62", 3, 0x62), ("39 BadArgument", "B0 00 25", 2, 0x25),
         ("40 NestedDefinition", "B1 01 00 2C 2C 2D 2D", 3, 0x2C), ("41 StrayEnd", "2D", 0, 0x2D))


def each_halt():
    """30 to 41 in one strike, each between glyphs that are drawn."""
    glyphs, codes = [Empty()], {}
    for cause, text, at, opcode in HALTS:
        for model in (halting(len(glyphs), bytes.fromhex(text), cause, at, opcode), square(60)):
            codes[0x100 + len(glyphs)] = len(glyphs)
            glyphs.append(model)
    yield from in_spite("each halt", Font(glyphs, codes), list(codes))


def bad_glyphs():
    """Glyphs by their number that are refused, hinted or not, whatever the size."""
    yield lambda n: always(TRIANGLE[:9], "18 GlyphShort %d" % n)
    yield lambda n: always(b"\0\2" + bytes(8) + b"\0\5\0\3" + bytes(99), "19 BadContours %d" % n)
    yield lambda n: always(fonts.composite([(n, 0, 0)]), "20 ComponentDepth %d" % n)
    yield lambda n: always(fonts.composite([(1, 0, 0)] * 257), "21 TooManyComponents %d" % n)
    yield lambda n: always(comb(16385).data(), "22 TooManyPoints %d" % n)
    yield lambda n: always(b"\xFF\xFF" + bytes(8) + b"\0\x22\0\1\0\0" + b"\0\0\0\1\x09\0", "23 BadPointMatch %d" % n)
    yield lambda n: always(fonts.composite([(999, 0, 0)]), "24 BadGlyphNumber 999")


def each_glyph():
    """18 to 24 in one strike, each between glyphs that are drawn, and each alone."""
    glyphs, codes = [Empty(), square(90)], {}
    for make in bad_glyphs():
        bad = make(len(glyphs))
        for model in (bad, square(60)):
            codes[0x100 + len(glyphs)] = len(glyphs)
            glyphs.append(model)
        alone = Font([Empty(), square(90), make(2)], {A: 2}, upem=16384, stack=9)
        yield from in_spite(bad.cause, alone, (A,))
    yield from in_spite("each bad glyph", Font(glyphs, codes, upem=16384, stack=9), list(codes))


def bad_offsets():
    """17, of a glyph with another after it."""
    head = TABLES["head"][:50] + word(1) + TABLES["head"][52:]
    data, font = fonts.with_tables(fonts.FIXTURE, loca=b"".join(map(long, [0, 0, 59, 36, 58])), head=head), fixture()
    for way in WAYS:
        whole = font.make([0x42], 16)
        whole.err = b"mkstrike: left out U+0041: 17 BadLoca 2\n" + whole.err
        yield Run("offsets that fall, %s" % way, words(16, (A, B), way), data, whole)


def far_and_large():
    """51 and 52, of a size at which other glyphs are drawn."""
    for model in (always(Simple([(0, 513, 1, 514)]).data(), "51 TooFar 2"),
                  always(Simple([(0, 0, 129, 1)]).data(), "52 GlyphTooLarge 2")):
        font = Font([Empty(), square(2), model, square(3)], {A: 1, B: 2, C: 3}, upem=16)
        yield from in_spite(model.cause, font, (A, B, C), 1024)


def components():
    """Composites of a component whose program halts: drawn without hinting, or refused even so."""
    halts = halting(1)
    line = "30 StackUnder during glyph 1 in glyph 1 at 0 opcode 21"
    whole = Composite([(1, 30, 0), (2, 0, 200)])
    drawn = Bad(whole.data(), line, like=Composite([(1, 30, 0), (2, 0, 200)]))
    lacking = Bad(fonts.composite([(1, 0, 0), (999, 0, 0)]), line, "24 BadGlyphNumber 999")
    font = Font([Empty(), halts, square(50), drawn, lacking], {A: 3, B: 4, C: 2}, stack=9)
    yield from in_spite("a component halts", font, (A, B, C))


def properties_of_the_drawn():
    """The properties of X11 are those of the characters that are in the strike."""
    glyphs = [Empty(), square(90), halting(2), always(TRIANGLE[:9], "18 GlyphShort 3")]
    font = Font(glyphs, {0x20: 3, A: 1, B: 2, 0xFFFD: 3}, metrics=[(500, 0), (500, 0), (700, 0), (900, 0)])
    codes = (0x20, A, B, 0xFFFD)
    for way in WAYS:
        yield Run("X11, %s" % way, words(16, codes, way, " --x11"), font.data(), answer(font, codes, 16, way, x11=True))


def many():
    """65,536 characters, all of them refused."""
    for model in (halting(1), always(TRIANGLE[:9], "18 GlyphShort 1")):
        font, codes = Font([Empty(), model], 1), range(65536)
        for way in WAYS:
            yield Run("65,536 times %s, %s" % (model.cause, way), words(12, codes, way), font.data(), answer(font, codes, 12, way),
                      limits={"RLIMIT_AS": 20000 * runs.KIB})


# ---- what refuses the strike as ever ----

def stopped():
    """`stop` is what is done without the option; and faults of the font itself refuse the strike in each way."""
    font = Font([Empty(), square(9), halting(2)], {A: 1, B: 2})
    data, text = font.data(), refused("30 StackUnder during glyph 2 in glyph 2 at 0 opcode 21")
    yield Run("stop", words(16, (A, B), "stop"), data, text)
    yield Run("stop, none refused", words(16, (A,), "stop"), data, font.make([A], 16))
    yield Run("no option", "make --ppem 16 --chars 41,42", data, text)
    for way in WAYS:
        for where in ("fpgm", "prep"):
            bad = fonts.with_tables(data, **{where: POP})
            yield Run("%s halts, %s" % (where, way), words(16, (A, B), way), bad,
                      refused("30 StackUnder during %s in %s at 0 opcode 21" % (where, where)))
        for tables, text in (({"cmap": b""}, "16 BadCharMap"), ({"head": b""}, "12 TableShort head")):
            yield Run("%s, %s" % (text, way), words(16, (A, B), way), fonts.with_tables(data, **tables), refused(text))
        yield Run("no font, %s" % way, words(16, (A, B), way), b"", refused("10 NotTrueType"))
        yield Run("no size, %s" % way, words(0, (A, B), way), data, refused("60 BadSize"))


# ---- for outputs that fail and little memory ----

def some_refused(codes):
    """Strikes of characters of which each third halts and each third is refused in each way: words, input, and what is due."""
    font = Font([Empty(), square(600), halting(2, side=500), always(TRIANGLE[:9], "18 GlyphShort 3")],
                {0x20 + k: 1 + k % 3 for k in range(512)})
    for way in WAYS:
        yield words(40, codes, way), font.data(), answer(font, codes, 40, way)


test_refused = cases(many, each_place, each_halt, each_glyph, bad_offsets, far_and_large, components, properties_of_the_drawn,
                     stopped)
