"""The bytes of a cell: by rows, columns and pages, from either end of a byte; and the arrays in C that have them."""
import io
import re
import subprocess

import pytest
from shared import LIBERATION, MONO, needs_font, needs_pillow
from test_others import CC, DRAW_ROWS, bits_of, drawn

import mkstrike

# A cell of 10 x 9 pixels; rows leave 6 bits over, columns 7.
CELL = """\
##########
#.........
#........#
..........
.#........
..........
..........
..........
.........#"""
LINES = ["STARTFONT 2.1", "FONT small", "SIZE 9 72 72", "FONTBOUNDINGBOX 10 9 0 0", "STARTPROPERTIES 2", "FONT_ASCENT 9",
         "FONT_DESCENT 0",
         "ENDPROPERTIES", "CHARS 0", "ENDFONT", ""]
SMALL = mkstrike.Strike("\n".join(LINES).encode()).replace({"A": mkstrike.Glyph.drawn(CELL)})
LAYOUTS = [(by, bits, align) for by in ("rows", "columns", "pages") for bits in ("msb", "lsb") for align in ("left", "right")]
# Worked out by hand, a row, a column or a page a line.
DUE = {
    ("rows", "msb", "left"): "FFC0 8000 8040 0000 4000 0000 0000 0000 0040",
    ("rows", "lsb", "left"): "FF03 0100 0102 0000 0200 0000 0000 0000 0002",
    ("rows", "msb", "right"): "03FF 0200 0201 0000 0100 0000 0000 0000 0001",
    ("rows", "lsb", "right"): "C0FF 4000 4080 0000 8000 0000 0000 0000 0080",
    ("columns", "msb", "left"): "E000 8800 8000 8000 8000 8000 8000 8000 8000 A080",
    ("columns", "lsb", "left"): "0700 1100 0100 0100 0100 0100 0100 0100 0100 0501",
    ("columns", "msb", "right"): "01C0 0110 0100 0100 0100 0100 0100 0100 0100 0141",
    ("columns", "lsb", "right"): "8003 8008 8000 8000 8000 8000 8000 8000 8000 8082",
    ("pages", "msb", "left"): "E08880808080808080A0 00000000000000000080",
    ("pages", "lsb", "left"): "07110101010101010105 00000000000000000001",
    ("pages", "msb", "right"): "01010101010101010101 C0100000000000000041",
    ("pages", "lsb", "right"): "80808080808080808080 03080000000000000082",
}


def options(by, bits, align):
    return {"bytes": by, "bits": bits, "align": align}


@pytest.mark.parametrize("by, bits, align", LAYOUTS)
def test_by_hand(by, bits, align):
    """Every layout of one cell, and the same bytes in C."""
    due = bytes.fromhex(DUE[by, bits, align].replace(" ", ""))
    assert SMALL.encode("raw", **options(by, bits, align)) == due
    text = SMALL.encode("c", name="s", **options(by, bits, align)).decode()
    assert "    {%s}, /* U+0041 A */" % ", ".join("0x%02X" % it for it in due) in text
    end = {"msb": "highest", "lsb": "lowest"}[bits] + " bit" + {"left": ".", "right": ", the bits left over before it."}[align]
    assert ("the leftmost pixel the " if by == "rows" else "the topmost pixel the ") + end in text
    assert {"rows": "s_STRIDE = 2,", "columns": "s_STRIDE = 2,", "pages": "s_PAGES = 2,"}[by] in text


@pytest.mark.parametrize("by, bits", [("rows", "msb"), ("columns", "lsb"), ("pages", "lsb")])
def test_what_is_taken(by, bits):
    """Without `bits` the first pixel is where most displays want it; without `bytes` there are rows."""
    due = SMALL.encode("raw", **options(by, bits, "left"))
    assert SMALL.encode("raw", bytes=by) == due and (by != "rows" or SMALL.encode("raw") == due)


@pytest.mark.parametrize("name, value", [("bytes", "row"), ("bits", "MSB"), ("align", "top"), ("bytes", ""), ("align", None)])
@pytest.mark.parametrize("form", ["c", "raw"])
def test_wrong_words(form, name, value):
    with pytest.raises(ValueError, match="^%s is .* or .*, not %s$" % (name, re.escape(repr(value)))):
        SMALL.encode(form, **{name: value})


# ---- readers

def ram(data, width, height, by):
    """The pixels of a display's memory with a bank of eight rows a byte, bit D0 at the top, as the data sheets of SSD1306 and
    PCD8544 draw it. A byte goes to the next column, and after the last to the next bank; in vertical addressing to the next bank,
    and after the last to the next column."""
    banks = (height + 7) // 8
    places = [(bank, x) for bank in range(banks) for x in range(width)] if by == "pages" else [(bank, x)
               for x in range(width) for bank in range(banks)]
    memory = dict(zip(places, data))
    return ["".join(".#"[memory[y // 8, x] >> y % 8 & 1] for x in range(width)) for y in range(height)]


def cells_of(path, size, cell):
    strike = mkstrike.Font(path).strike(size, "21-7e").cell(*cell, clip=True)
    return strike, [bits_of(it, cell[0], strike.ascent, strike.descent) for it in strike.values()]


@needs_font(MONO, LIBERATION)
@pytest.mark.parametrize("by", ["columns", "pages"])
@pytest.mark.parametrize("path, size, cell", [(MONO, 7, (6, 8)), (LIBERATION, 14, (8, 16)), (MONO, 16, (10, 19))])
def test_memory_of_displays(path, size, cell, by):
    """Drawn by the memory of SSD1306 in its two ways of addressing, each cell is the glyph."""
    strike, due = cells_of(path, size, cell)
    data = strike.encode("raw", bytes=by)
    step = len(data) // len(strike)
    assert [ram(data[at:at + step], *cell, by) for at in range(0, len(data), step)] == due


@needs_font(MONO)
def test_memory_of_hd44780():
    """A row of a character of HD44780 is a byte, whose five low bits are its pixels, the leftmost the highest of them."""
    strike, due = cells_of(MONO, 7, (5, 8))
    data = strike.encode("raw", align="right")
    assert [[format(it, "05b").replace("0", ".").replace("1", "#") for it in data[at:at + 8]]
                    for at in range(0, len(data), 8)] == due


@needs_font(MONO)
@needs_pillow
@pytest.mark.parametrize("bits", ["msb", "lsb"])
def test_rows_in_pictures(bits):
    """Rows are those of a portable bitmap from the highest bit, and of XBM from the lowest: Pillow reads both."""
    from PIL import Image
    strike, due = cells_of(MONO, 16, (10, 19))
    data = strike.encode("raw", bits=bits)
    for at, rows in zip(range(0, len(data), 38), due):
        cell = data[at:at + 38]
        numbers = ", ".join("0x%02x" % it for it in cell)
        text = b"P4\n10 19\n" + cell if bits == "msb" else (
            "#define x_width 10\n#define x_height 19\nstatic unsigned char x_bits[] = {\n%s};\n" % numbers).encode()
        picture = Image.open(io.BytesIO(text)).convert("1")
        assert ["".join(".#"[not picture.getpixel((x, y))] if bits == "msb" else ".#"[bool(picture.getpixel((x, y)))]
                        for x in range(10)) for y in range(19)] == rows


# ---- C

DRAW_BITS = """\
#define COUNT small_COUNT
static int has(unsigned k) { (void)k; return 1; }
static void draw(unsigned k, int x, int y) {
    for (int row = 0; row < small_HEIGHT; row++)
        for (int column = 0; column < small_WIDTH; column++)
            if (%s & 1)
                set(x + small_LEFT + column, y - small_ASCENT + 1 + row);
}
"""
BITS = {"rows": "small_rows[k][row * small_STRIDE + column / 8] >> column % 8",
        "columns": "small_columns[k][column * small_STRIDE + row / 8] >> row % 8",
        "pages": "small_pages[k][row / 8 * small_WIDTH + column] >> row % 8"}


@CC
@needs_pillow
@needs_font(MONO)
@pytest.mark.parametrize("by", ["rows", "columns", "pages"])
@pytest.mark.parametrize("attribute", ["", "PROGMEM", "__attribute__((section(\".fonts\")))"])
def test_arrays(tmp_path, by, attribute):
    """Compiled and drawn, the arrays are the sheet, in the section that the attribute names."""
    strike = mkstrike.Font(MONO).strike(13, "20-7e,3a9")
    text = strike.encode("c", name="small", bytes=by, bits="lsb", attribute=attribute).decode()
    before = '#define PROGMEM __attribute__((section(".fonts")))\n' if attribute == "PROGMEM" else ""
    assert drawn(tmp_path, text, DRAW_BITS % BITS[by], strike, before).tobytes() == strike.sheet().tobytes()
    said = subprocess.run(["objdump", "-h", "draw"], cwd=tmp_path, check=True, capture_output=True, text=True).stdout
    assert (".fonts" in said) == bool(attribute)
    assert text.count(" = {\n") == 3 and (not attribute or text.count("] %s = {\n" % attribute) == 3)


@CC
def test_program_memory(tmp_path):
    """PROGMEM is that of the machine's library if there is one, and else nothing."""
    text = SMALL.encode("c", name="small", attribute="PROGMEM").decode()
    (tmp_path / "avr").mkdir()
    for name in ("avr/pgmspace.h", "Arduino.h"):
        (tmp_path / name).write_text('#define PROGMEM __attribute__((section(".%s")))\n' % name[0])
    for words, section in (([], None), (["-D__AVR__"], ".a"), (["-DARDUINO=100"], ".A")):
        main = "int main(void) { return small_rows[0][0] + small_chars[0] + small_advances[0]; }\n"
        (tmp_path / "main.c").write_text(text + main)
        subprocess.run(["gcc", "-I.", *words, "-Wall", "-Wextra", "-Werror", "main.c", "-o", "main"], cwd=tmp_path, check=True)
        said = subprocess.run(["objdump", "-h", "main"], cwd=tmp_path, check=True, capture_output=True, text=True).stdout
        assert [it for it in (".a", ".A") if " %s " % it in said] == ([section] if section else [])


@pytest.mark.parametrize("attribute", ["PROGMEM = {0}; int x[1]", "a b", "1a", "x(\n)", "x;", "x{}", "*/", "/**/", "#", "x(", "x)",
                                       "x(){", "x(/* */)"])
def test_wrong_attributes(attribute):
    with pytest.raises(ValueError, match="^attribute is a word of C such as PROGMEM"):
        SMALL.encode("c", attribute=attribute)


def test_rows_of_the_old_reader():
    """What reads the rows of earlier releases still does: the names and the comment are the same."""
    text = SMALL.encode("c", name="small").decode()
    for name in re.findall(r"small_[A-Za-z]+", DRAW_ROWS):
        assert name in text
    assert ("small_rows[k] are its rows from the top: small_HEIGHT rows of small_STRIDE\n * bytes, the leftmost pixel the highest "
            "bit. Draw" in text)
