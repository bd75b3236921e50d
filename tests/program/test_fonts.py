"""Cases of the program: fonts along each axis of their size to its limit and one past it, hinted and not."""
import due
from cases import cases
from instructions import Code
from made import Composite, Empty, Font, Simple, comb, grid, square
from runs import KIB, Run
from strikes import A, B, C, MODES, both, both_refused, one, strike, words
from test_programs import NOTHING

POINTS, COMPONENTS, DEPTH, SIDE, CHARACTERS, INPUT = 16384, 256, 8, 8192, 65536, 67108864


# ---- bytes and glyphs ----

def sizes_of_fonts():
    """The glyph that is asked for is the last, and tables that are needed stand after it."""
    for size in (32767, 32768, 32769, 65535, 65536, 65537, 1 << 20, 8 << 20):
        least = len(Font([Empty(), square(500), square(900)], {A: 2}).data())
        font = Font([Empty(), square(500, length=size - least - 16), square(900)], {A: 2})
        yield from both("a font of %d bytes" % size, font, 16, data=font.data().ljust(size, b"\xA5"))


def greatest_inputs():
    """As many bytes as an input may have, and one more: a font, hexadecimal text, and a first line."""
    font, over = Font([Empty(), square(900)], {A: 1}), due.refused("73 InputTooLarge")
    data, text, made = font.data(), font.data().hex().encode(), font.make([A], 16)
    asked = words(16, [A])
    line = asked.encode() + b"\n"
    yield Run("64 MiB", asked, data.ljust(INPUT, b"\xA5"), made)
    yield Run("64 MiB and a byte", asked, data.ljust(INPUT + 1, b"\xA5"), over)
    yield Run("64 MiB of digits", asked + " --hex", text.ljust(INPUT, b"0"), made)
    yield Run("64 MiB of digits and blanks", asked + " --hex", text.rjust(INPUT, b" "), made)
    yield Run("a blank more", asked + " --hex", text.rjust(INPUT + 1, b" "), over)
    yield Run("64 MiB with a first line", "", line + data.ljust(INPUT - len(line), b"\0"), made)
    yield Run("a first line and a byte too many", "", line + data.ljust(INPUT - len(line) + 1, b"\0"), over)


def glyphs_of_a_font():
    """As many glyphs as a font may number; the last is asked for."""
    for count in (2, 256, 257, 16385, 65535):
        font = Font([Empty()] + [square(100)] * (count - 2) + [square(900)], {A: count - 1, B: 1})
        yield from both("a font of %d glyphs" % count, font, 16, (A, B, C))


# ---- outlines ----

def contours():
    """Squares in a grid, each a contour, at one pixel a unit and smaller."""
    for count in (1, 2, 300, 301, 600, 601, 1024, 4096):
        font = one(grid(count, 64 if count > 1024 else 32), upem=1024)
        data = font.data()
        for ppem in (1024, 100):
            yield from both("%d contours at %d" % (count, ppem), font, ppem, data=data)
    yield from both_refused("4,097 contours of 4 points", one(grid(4097, 64), upem=1024), "22 TooManyPoints 2")


def points():
    """A comb of one contour."""
    for count in (4, 5, 80, 81, 255, 256, 257, 800, 801, 4097, 16383, POINTS):
        font = one(comb(count), upem=8192)
        data = font.data()
        for ppem in (1024, 50):
            yield from both("%d points at %d" % (count, ppem), font, ppem, data=data)
    yield from both_refused("16,385 points", one(comb(POINTS + 1), upem=8192), "22 TooManyPoints 2")


def composites_of_contours():
    """Composites of two simple glyphs of many contours over many rows."""
    for count in (150, 301, 1024):
        glyphs = [Empty(), grid(count), grid(count), Composite([(1, 0, 0), (2, 5, 5)])]
        font = Font(glyphs, {A: 3, B: 1, C: 2}, upem=1024)
        data = font.data()
        for ppem in (1024, 300, 100):
            yield from both("two components of %d contours at %d" % (count, ppem), font, ppem, (A, B, C), data)


def composites_of_points():
    """Composites of fewer and more than 800 points, and of as many as there may be."""
    for first, second in ((400, 400), (400, 401), (800, 801), (8192, 8192)):
        font = Font([Empty(), comb(first), comb(second), Composite([(1, 0, 0), (2, 0, 20)])], {A: 3, B: 1}, upem=8192)
        yield from both("components of %d and %d points" % (first, second), font, 1024, (A, B))
    font = Font([Empty(), comb(8192), comb(8193), Composite([(1, 0, 0), (2, 0, 20)])], {A: 3}, upem=8192)
    yield from both_refused("components of 16,385 points", font, "22 TooManyPoints 3")


def components():
    """As many components as a character may have, in one composite and in a tree, and one more."""
    spots = [(1, 30 * (k % 32), 30 * (k // 32)) for k in range(COMPONENTS + 1)]
    for count in (1, 2, 9, 255, COMPONENTS):
        font = Font([Empty(), square(20), Composite(spots[:count])], {A: 2}, upem=1024)
        yield from both("%d components" % count, font, 256)
    font = Font([Empty(), square(20), Composite(spots)], {A: 2}, upem=1024)
    yield from both_refused("257 components", font, "21 TooManyComponents 2")
    branches = [(2, 0, 31 * k) for k in range(16)]
    tree = [Empty(), square(20, NOTHING), Composite(spots[:15])]
    font = Font(tree + [Composite(branches)], {A: 3}, upem=1024, stack=9)
    yield from both("a tree of 256 components", font, 256)
    font = Font(tree + [Composite(branches + [(1, 500, 0)])], {A: 3}, upem=1024, stack=9)
    yield from both_refused("a tree of 257 components", font, "21 TooManyComponents 3")


def depth():
    """A chain of as many composites as there may be, each with a program, and one more."""
    chain = [Empty(), square(300, NOTHING)] + [Composite([(k, 10, 5)], NOTHING) for k in range(1, DEPTH + 2)]
    codes = {A + k: k + 1 for k in range(DEPTH + 1)}
    yield from both("a chain of 8 composites", Font(chain, codes, upem=1024, stack=9), 200, codes)
    font = Font(chain, {A: DEPTH + 2}, upem=1024, stack=9)
    yield from both_refused("a chain of 9 composites", font, "20 ComponentDepth 1")


def kept_components():
    """Many components, each a large glyph of its own number, with too little memory to keep all of them."""
    for count, size, kib in ((200, 4000, 16000), (3000, 300, 20000)):
        glyphs = [Empty()] + [comb(size, NOTHING)] * count + [Composite([(1 + k, 0, 0)]) for k in range(count)]
        font = Font(glyphs, {0x100 + k: 1 + count + k for k in range(count)}, upem=8192, stack=9)
        limits = {"RLIMIT_AS": kib * KIB}
        name = "%d components of %d points" % (count, size)
        yield from both(name, font, 16, sorted(font.codes), limits=limits)


def outlines():
    """`outline` of as many points and contours as a glyph may have, and of coordinates of all sizes."""
    for name, glyph in (("16,384 points in a contour", comb(POINTS)), ("4,096 contours", grid(4096, 64))):
        font = one(glyph, upem=8192)
        for hinted, mode in MODES:
            asked = "outline --ppem 1024 --glyph 2" + ("" if hinted else " --unhinted")
            yield Run("%s, %s" % (name, mode), asked, font.data(), font.outline(2, 1024, hinted))
    far = one(Simple([(0, 0, 32767, 32767), (-32768, -32768, 0, 0)]), upem=16)
    for ppem in (1, 2, 100, 1024):
        yield Run("coordinates at %d" % ppem, "outline --ppem %d --glyph 2" % ppem, far.data(), far.outline(2, ppem))
    yield Run("whose pixels are refused", "show --ppem 1024 --glyph 2", far.data(), due.refused("51 TooFar 2"))


# ---- pixels ----

def sides():
    """Glyphs of each height and width to the limit, and one pixel past it."""
    some = (1, 2, 31, 32, 33, 63, 64, 65, 127, 128, 129, 255, 256, 257, 300, 511, 512, 513, 1024, 2047, 2048, 2049,
            4096, 7936, 7937, SIDE - 1, SIDE)
    large = [(SIDE, SIDE), (SIDE, 300), (300, SIDE)]
    for width, height in [(3, n) for n in some] + [(n, 3) for n in some] + large:
        font = one(Simple([(0, 0, width, height)]), upem=1024)
        yield strike("%d by %d pixels" % (width, height), font, 1024, hinted=width == 3)
    for width, height in ((3, SIDE + 1), (SIDE + 1, 3)):
        font = one(Simple([(0, 0, width, height)]), upem=1024)
        yield from both_refused("%d by %d pixels" % (width, height), font, "52 GlyphTooLarge 2", 1024)
    font = one(Simple([(0, 0, SIDE, 300)]), upem=1024)
    yield Run("a picture of 8,192 by 300 pixels", "show --ppem 1024 --char 41", font.data(), font.show(A, 1024))


def all_sides():
    """A font with a glyph of each width to 300 pixels, and of each height."""
    glyphs = [Simple([(0, 0, n, 2)]) for n in range(1, 301)] + [Simple([(0, 0, 2, n)]) for n in range(1, 301)]
    font = Font([Empty()] + glyphs, {0x101 + k: k + 1 for k in range(len(glyphs))}, upem=1024)
    yield from both("widths and heights to 300 pixels", font, 1024, sorted(font.codes))


def distances():
    """Points as far out as they may lie, and a unit farther. What holds no pixel's centre is never too large."""
    for box in ((0, 0, 512, 0), (0, -512, 0, 512)):
        yield from both("a point 32,768 pixels out", one(Simple([box]), upem=16), 1024)
    for box in ((0, 0, 513, 0), (0, -513, 0, 0), (0, 0, 0, 513)):
        yield from both_refused("a point farther out", one(Simple([box]), upem=16), "51 TooFar 2", 1024)
    lone = [one(Simple([], [[(0, 0, 1)], [(x, 0, 1)]]), upem=16) for x in (512, 513)]  # contours that draw nothing
    yield from both("a lone point 32,768 pixels out", lone[0], 1024)
    yield from both_refused("a lone point farther out", lone[1], "51 TooFar 2", 1024)


# ---- characters ----

def characters():
    """As many characters as a request may have, and one more."""
    font = Font([Empty(), square(900, NOTHING)], 1, stack=9)
    data = font.data()
    for count in (1, 2, 255, 256, 257, 16384, 16385, 65535, CHARACTERS):
        yield from both("%d characters" % count, font, 12, range(count), data)
    made = font.make(range(CHARACTERS), 12)
    yield Run("the upper half first", "make --ppem 12 --chars 8000-ffff,0-7fff", data, made)
    for text in ("0-ffff,41", "0-10000"):
        yield Run("65,537 numbers: %s" % text, "make --ppem 12 --chars " + text, data, due.refused("61 BadChars"))


def characters_past_ffff():
    """As many characters with numbers past FFFF, by a map of format 12."""
    wide = {code: 1 + code % 2 for code in range(0xFFF8, 0x10FFF8, 17)}
    wide[0x10FFFF] = 2
    font = Font([Empty(), square(400), square(800)], wide, wide=True)
    codes = [*range(0x100000, 0x10FFFD), 0x41, 0x1F600, 0x10FFFF]
    assert len(codes) == CHARACTERS
    yield from both("65,536 characters past FFFF", font, 17, codes)
    yield Run("all characters of that font", "make --ppem 17 --all", font.data(), font.make(sorted(wide), 17))


def more_characters():
    """A map with more characters than a request may have: a strike of all of them has the first ones."""
    font = Font([Empty(), square(900)], dict.fromkeys(range(2, CHARACTERS + 3), 1), wide=True)
    yield Run("65,537 characters", "make --ppem 12 --all", font.data(), font.make(range(2, CHARACTERS + 2), 12))


def arcs_far_to_the_right():
    """Many arcs over many rows, far from the left side of the box that they lie in. What a row costs must not grow with
    how far from the left its pieces lie: 400 arcs in 1,024 rows have 2,400 million columns before them."""
    lenses = [[(x, 0, 1), (x + 9, 512, 0), (x, 1024, 1), (x - 9, 512, 0)] for x in range(SIDE - 4100, SIDE - 100, 20)]
    box = [(0, 0, 1), (SIDE, 0, 1), (SIDE, 1024, 1), (0, 1024, 1)]
    font = one(Simple([(0, 0, SIDE, 1024)], [box] + lenses), upem=1024)
    yield strike("200 lenses in a box", font, 1024, limits={"RLIMIT_CPU": 5})


# ---- the large font ----

def large_font(size):
    """A font of so many bytes and thousands of glyphs: grids and bars, most with programs, and composites of them."""
    shapes = [grid(60 + k, 11, 80, 30 + k % 9, NOTHING if k % 2 else None) for k in range(20)]
    shapes += [Simple([(30 * k, 0, 30 * k + 20 + j, 700) for k in range(15)], code=NOTHING) for j in range(20)]
    shapes += [Composite([(1 + j, 0, 0), (20 + j, 15, 100)], NOTHING if j % 3 else None) for j in range(20)]
    average = sum(len(shape.data()) for shape in shapes) / len(shapes)
    count = int(size / (average + 12))
    tables = {"cvt": bytes(600), "storage": 100, "functions": 100, "twilight": 100, "stack": 500}
    glyphs = [Empty()] + [shapes[k % len(shapes)] for k in range(count)]
    codes = {0x100 + k: k + 1 for k in range(count)}
    return Font(glyphs, codes, upem=1024, fpgm=Code().fill(300), prep=Code().fill(3000), **tables)


def the_large_font(ppem):
    """The large font at a size, hinted and not, with little memory and little stack."""
    font = large_font(8 << 20)
    limits = {"RLIMIT_STACK": 96 * KIB, "RLIMIT_AS": 200000 * KIB}
    yield from both("%d glyphs at %d" % (len(font.codes), ppem), font, ppem, sorted(font.codes), limits=limits)


def memory_and_stack_at_16():
    """The whole of a large font."""
    yield from the_large_font(16)


def memory_and_stack_at_128():
    """The same at a larger size."""
    yield from the_large_font(128)


test_fonts = cases(memory_and_stack_at_128, characters, memory_and_stack_at_16, kept_components, sides, characters_past_ffff,
                   more_characters, points, contours, glyphs_of_a_font, composites_of_contours, composites_of_points,
                   arcs_far_to_the_right, greatest_inputs, outlines, sizes_of_fonts, components, depth, all_sides, distances)
