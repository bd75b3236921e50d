"""Cases of the program: whole real fonts at many sizes, of which the status and the counts are known beforehand.

A refusal for one size or one number of points would pass all fonts that are made here; so whole fonts are drawn at every small
size."""
from cases import cases
from due import Counted
from made import list_of
from making import fonts
from needs import real_font
from runs import Run

SIZES = [*range(6, 41), 47, 48, 55, 64, 72, 96, 100, 127, 128, 200, 255, 256]
HALTING = (0x19C, 0x250)  # two characters of DejaVu Sans, whose glyphs have programs that halt
WAYS = ("", "--unhinted", "--dropout --x11")


def whole_font(name, halting):
    """All characters up to FFFF of a font at each size: hinted, not, and at a quarter of the sizes with drop-out control."""
    data = real_font(name)
    codes = [code for code in range(0x10000) if code not in halting]
    found = sum(code not in halting for code in fonts.glyph_numbers(data))
    for k, ppem in enumerate(SIZES):
        for way in WAYS[:2] if k % 8 > 1 else WAYS:
            asked = "make --ppem %d --chars %s %s" % (ppem, list_of(codes), way)
            yield Run("%s at %d %s" % (name, ppem, way), asked, data,
                      Counted(found, len(codes) - found, hinted="unhinted" not in way))


def dejavu():
    """DejaVu Sans at every small size."""
    return whole_font("DejaVuSans", HALTING)


def liberation():
    """Liberation Sans at every small size."""
    return whole_font("LiberationSans-Regular", ())


def in_spite_of_two_characters():
    """DejaVu Sans with the two characters whose programs halt: left out, or drawn without hinting."""
    data = real_font("DejaVuSans")
    found = len(set(fonts.glyph_numbers(data)) & set(range(0x10000)))
    causes = ("30 StackUnder during glyph 350 in glyph 350 at 73 opcode 39",
              "30 StackUnder during glyph 530 in glyph 530 at 177 opcode 5D")
    for way, text, count in (("leave-out", "left out", found - 2), ("unhinted", "unhinted", found)):
        lines = "".join("mkstrike: %s U+%04X: %s\n" % (text, code, cause) for code, cause in zip(HALTING, causes))
        yield Run("DejaVu Sans, %s" % way, "make --ppem 16 --chars 0-ffff --refused %s" % way, data,
                  Counted(count, 0x10000 - found, True, lines.encode()))


def windows_glyph_list():
    """Liberation Sans, which was made to Windows Glyph List 4, has each of its 652 characters."""
    yield Run("wgl4", "make --ppem 9 --set wgl4", real_font("LiberationSans-Regular"), Counted(652, 0, hinted=True))


test_real_fonts = cases(dejavu, liberation, in_spite_of_two_characters, windows_glyph_list)
