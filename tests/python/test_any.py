"""What holds for any strike, cell, list of characters and command line: Hypothesis draws the inputs, the same in each run."""
import os
import tempfile

import pytest
from shared import MONO, SANS, font_bytes, needs_font, pixels, program, run_in_process

import mkstrike
from mkstrike import bdf, charsets, options

hypothesis = pytest.importorskip("hypothesis", reason="hypothesis is not installed (Debian: python3-hypothesis)")
some = hypothesis.strategies
hypothesis.settings.register_profile("same", max_examples=60, deadline=None, derandomize=True, database=None,
                                     suppress_health_check=list(hypothesis.HealthCheck))
hypothesis.settings.load_profile("same")
HOME = tempfile.TemporaryDirectory()  # of Hypothesis, which would have one in the repository
hypothesis.configuration.set_hypothesis_home_dir(HOME.name)
pytestmark = pytest.mark.filterwarnings("ignore:the strike has no glyph")

CODES = some.integers(0x21, 0x7E) | some.integers(0xA0, 0xD7FF) | some.integers(0x10000, 0x10FFFF)
ASCII = "".join(map(chr, range(32, 127)))
WORDS = some.text(ASCII, max_size=9)
KEYS = some.text("ABCXYZ_019", min_size=1, max_size=9).filter(lambda it: it[0].isalpha() and it not in bdf.RESERVED)
NAMES = some.text(ASCII, min_size=1, max_size=20).filter(lambda it: it.strip() == it and not bdf.is_xlfd(it))


@some.composite
def glyphs(draw):
    """A glyph by its picture."""
    width, height = draw(some.integers(1, 19)), draw(some.integers(1, 11))
    rows = draw(some.lists(some.text("#.", min_size=width, max_size=width), min_size=height, max_size=height))
    return mkstrike.Glyph.drawn("\n".join(rows), left=draw(some.integers(-20, 20)), bottom=draw(some.integers(-20, 20)),
                                advance=draw(some.integers(-5, 40)))


@some.composite
def strikes(draw, codes=CODES):
    """A strike with any glyphs, ascent, descent, name and properties."""
    size = draw(some.integers(1, 99))
    given = draw(some.dictionaries(codes, glyphs(), max_size=8))
    more = draw(some.dictionaries(KEYS, WORDS | some.integers(-2**31, 2**31 - 1), max_size=3))
    entries = {code: bdf.entry_of(code, it, size) for code, it in given.items()}
    text = bdf.Text(draw(NAMES), size, draw(some.integers(-9, 30)), draw(some.integers(-9, 30)), {}, entries)
    return mkstrike.Strike(text, is_own=True).with_properties(more)


def moved(glyph, columns, rows):
    """The set pixels of a glyph, moved."""
    return {(x + columns, y + rows) for x, y in pixels(glyph)}


@hypothesis.given(strikes())
def test_a_text_is_read_as_written(strike):
    """What a text says is what it was made of, also if another program might have written it."""
    due = strike.parsed()
    for read in (mkstrike.Strike(strike.text), mkstrike.Strike(strike.text, is_own=True)):
        text = read.parsed()
        assert (text.name, text.size, text.ascent, text.descent, text.properties) == (due.name, due.size, due.ascent, due.descent,
                                                                                     due.properties)
        assert dict(read) == dict(strike) and read.box == strike.box and text.entries == due.entries
        assert text.encoded() == strike.text


@hypothesis.given(strikes(), some.integers(1, 24), some.integers(1, 24), some.none() | some.integers(0, 24), some.booleans())
def test_cells(strike, width, height, ascent, clip):
    """A glyph keeps its place in a cell, and loses exactly the pixels outside if it is clipped; how far it leaves is told."""
    hypothesis.assume(ascent is None or ascent <= height)
    made = strike.cell(width, height, ascent=ascent, clip=clip)
    assert made.ascent + made.descent == height and (ascent is None or made.ascent == ascent)
    if ascent is None and strike.ascent + strike.descent <= height:
        assert made.ascent >= strike.ascent and made.descent >= strike.descent
    for char, glyph in strike.items():
        old = pixels(glyph)
        inside = {(x, y) for x, y in old if 0 <= x < width and -made.descent <= y < made.ascent}
        assert made[char].advance == width and pixels(made[char]) == (inside if clip else old)
        far = (max([y - made.ascent + 1 for _, y in old] + [0]), max([-made.descent - y for _, y in old] + [0]),
               max([-x for x, _ in old] + [0]), max([x - width + 1 for x, _ in old] + [0]))
        assert made.outside.get(char, (0, 0, 0, 0)) == far


PARTS = some.tuples(strikes(some.integers(0x41, 0x4A)), some.integers(-5, 5))


@hypothesis.given(some.lists(PARTS, min_size=1, max_size=4))
def test_merged(parts):
    """Each character is that of the first part that has it, lifted by the rows of that part; a line holds all parts."""
    made = mkstrike.merge([(strike, None, "", {"shift_y": lift}) for strike, lift in parts])
    assert set(made) == {char for strike, _ in parts for char in strike}
    for char, glyph in made.items():
        strike, lift = next(it for it in parts if char in it[0])
        assert pixels(glyph) == moved(strike[char], 0, lift) and glyph.advance == strike[char].advance
    assert (made.ascent, made.descent) == tuple(max(getattr(it, which) for it, _ in parts) for which in ("ascent", "descent"))
    assert (made.name, made.size) == (parts[0][0].name, parts[0][0].size)


@hypothesis.given(strikes(), some.data())
def test_subset_and_replaced(strike, data):
    """A subset has the glyphs that are asked for, under their new numbers; what is put in is there, and the rest stays."""
    asked = data.draw(some.lists(CODES | some.sampled_from([ord(it) for it in strike] or [0x41]), unique=True, max_size=6))
    few = strike.subset(asked)
    assert dict(few) == {char: it for char, it in strike.items() if ord(char) in asked}
    assert set(few.missing) == {chr(it) for it in asked} - set(strike)
    new = data.draw(some.dictionaries(CODES, glyphs(), max_size=4))
    full = strike.replace(new)
    assert set(full) == set(strike) | set(map(chr, new))
    for char, it in full.items():
        due = new.get(ord(char)) or strike[char]
        assert pixels(it) == pixels(due) and it.advance == due.advance
    assert not set(few.replace({it: mkstrike.Glyph.drawn("#") for it in asked}).missing)


@hypothesis.given(glyphs(), some.integers(1, 21), some.integers(1, 21), some.sampled_from(["rows", "columns", "pages"]),
                  some.sampled_from([None, "msb", "lsb"]), some.sampled_from(["left", "right"]))
def test_bytes_of_displays(glyph, width, height, way, bits, align):
    """The bit of each pixel of a cell is where the layout says."""
    strike = mkstrike.Strike(bdf.Text("it", 9, height, 0, {}, {0x41: bdf.entry_of(0x41, glyph, 9)})).cell(width, height, clip=True)
    align = "left" if way == "pages" else align
    data = strike.encode("raw", bytes=way, bits=bits, align=align)
    line, count = (width, height) if way == "rows" else (height, width)
    stride = (line + 7) // 8
    assert len(data) == stride * count
    found = set()
    for x in range(width):
        for y in range(height):  # from the top
            at, of = (x, y) if way == "rows" else (y, x)
            at += (8 * stride - line) * (align == "right")
            byte = at // 8 * width + of if way == "pages" else of * stride + at // 8
            is_lsb = bits == "lsb" or bits is None and way != "rows"
            found |= {(x, strike.ascent - 1 - y)} if data[byte] >> (at % 8 if is_lsb else 7 - at % 8) & 1 else set()
    assert found == pixels(strike["A"]) and sum(bin(it).count("1") for it in data) == len(found)


@hypothesis.given(some.lists(some.tuples(some.integers(0, 0x10FFFF), some.integers(0, 300),
                                         some.sampled_from(["%x", "%X", "U+%04X", "0x%x"])), max_size=9),
                  some.sampled_from([",", " , ", ",,"]))
def test_lists_of_characters(given, comma):
    """A list has the numbers of its items, in rising order; what ranges() says of them is a list of the same."""
    ends = [(first, min(first + more, 0x10FFFF), form) for first, more, form in given]
    listed = comma.join(form % first + ("-" + form % last if last > first else "") for first, last, form in ends)
    due = sorted({code for first, last, _ in ends for code in range(first, last + 1)})
    assert mkstrike.characters(listed) == due
    assert mkstrike.characters(charsets.ranges(due).replace(", ", ",")) == due


@hypothesis.given(some.integers(0, 0x10FF00), some.integers(0, 0xFF), some.integers(0, 0x10FF00))
def test_other_numbers(first, more, new):
    """A range gets other numbers in its order."""
    assert charsets.mapped("%x-%x=%x" % (first, first + more, new), "", None) == {new + k: first + k for k in range(more + 1)}


@needs_font(SANS, MONO)
@hypothesis.settings(max_examples=40)
@hypothesis.given(some.sampled_from([SANS, MONO]), some.integers(1, 60),
                  some.sets(some.integers(0x20, 0x250) | some.just(0x2665), min_size=1, max_size=9), some.booleans(),
                  some.sampled_from([None, "left", "near", "font"]))
def test_requests(path, size, codes, hinted, dropout):
    """Strikes, glyphs one by one and all at once are those of the program; it refuses what they name."""
    font, data = mkstrike.Font(path), font_bytes(path)
    words = ["make", "--ppem", str(size), "--chars", ",".join("%x" % it for it in sorted(codes)), "--refused", "leave-out"]
    status, out, said = program(words + ["--unhinted"] * (not hinted) + ["--dropout=%s" % dropout] * bool(dropout), data)
    assert status == 0, said
    strike = font.strike(size, codes, hinted=hinted, dropout=dropout)
    assert strike.text == out
    at = font.at(size, hinted=hinted, dropout=dropout)
    assert at.glyphs(codes) == dict(strike)
    for char, it in strike.items():
        assert font.glyph(size, char, hinted=hinted, dropout=dropout) == it == at[char]
    for char in strike.refused:
        with pytest.raises(mkstrike.Refused):
            font.glyph(size, char, hinted=hinted, dropout=dropout)


VALUES = {
    "chars": ["41-43", "ascii", "4e00", "g"], "text": ["text.txt", "none.txt"], "size": ["9", "0", "9-11", "12pt@96", "x"],
    "fit": ["8x16", "1x1", "x"], "cell": ["8x16", "0x1"], "ascent": ["3", "-1"], "format": ["bdf", "c,raw", "png", "bad"],
    "out": ["new"], "output": ["a.bdf", "a.h", "%s.bdf", "-", "a.xyz"], "name": ["me", "a/b", ""], "preview": ["Ab"],
    "property": ["A=1", "1"], "order": ["cp437", "none"], "scale": ["2", "0"], "columns": ["3"], "jobs": ["1", "2"],
    "face": ["0", "1"], "axes": ["wght=4"], "glyph": ["A=e000", "none=1"], "height": ["9"], "cap_height": ["9", "0"],
    "shift_y": ["2"], "sheet": ["9"], "bytes": ["pages"], "bits": ["lsb"], "align": ["right"], "attribute": ["PROGMEM"],
    "padding": ["1"], "depfile": ["it.d"], "font": ["in.ttf", "in.bdf"]}


@some.composite
def command_lines(draw):
    """Some options of the table, with values, and a font."""
    words = []
    for it in draw(some.lists(some.sampled_from(options.OPTIONS), max_size=4)):
        takes = "const" not in it.more and it.more.get("action") != "store_true"
        words += [draw(some.sampled_from(it.names))]
        words += [draw(some.sampled_from(it.more.get("choices") or VALUES[it.dest]))] if takes else []
    return words + draw(some.sampled_from([["in.ttf"], ["in.bdf"], ["in.ttf", "in.bdf"], []]))


@needs_font(SANS)
@hypothesis.settings(max_examples=150)
@hypothesis.given(words=command_lines())
def test_command_lines(tmp_path_factory, words):
    """Any options: all that is written is told and whole if the status is 0; else something is said. Twice the same."""
    found = []
    for _ in range(2):
        folder = tmp_path_factory.mktemp("any")
        os.symlink(SANS, folder / "in.ttf")
        (folder / "in.bdf").write_bytes(mkstrike.Font(SANS).strike(9, "41-44").text)
        (folder / "text.txt").write_text("Aé", encoding="utf-8")
        there = {it.name for it in folder.iterdir()}
        status, out, err = run_in_process(words, folder)
        files = {str(it.relative_to(folder)): it.read_bytes() for it in folder.rglob("*")
                 if it.is_file() and it.name not in there}
        found.append((status, out, err, {name: it for name, it in files.items() if not name.endswith(".otb")}))
    assert found[0] == found[1]
    assert status in (0, 1, 2) and (err or status != 2) and not (status == 2 and files), (words, status, err, files)
    assert out or files or err or status == 0 and "--quiet" in words, words
    for name, data in files.items():
        assert data and (not name.endswith(".bdf") or data.endswith(b"ENDFONT\n")), name
        assert "--quiet" in words or name in out.decode().replace("./", "") or status == 1 or name == "it.d", (words, name, out)
