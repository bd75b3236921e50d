"""Makes fonts together with what is due of them: models of glyphs that give their bytes, and their bits at a size."""
import functools

import due
from making import fonts
from reference import dropout, numbers, scan


def pieces_of(contours):
    """The lines and arcs of contours of points (x, y, on) in 1/64 pixels, with coordinates in 1/128 pixels."""
    points, ends = [point for contour in contours for point in contour], []
    for contour in contours:
        ends.append(len(contour) + (ends[-1] if ends else -1))
    return scan.pieces_of([point[:2] for point in points], [point[2] for point in points], ends)


def bits_of_pixels(pixels):
    """The bits of pixels (column, row)."""
    return due.bits_of([(64 * i + 32, 64 * j + 32) * 2 for i, j in pixels])


class Empty:
    """A glyph without bytes."""
    x_min, code = 0, None

    def data(self):
        """The glyph's bytes."""
        return b""

    def boxes(self, _font, _ppem, _hinted):
        """Its rectangles in 1/64 pixels."""
        return []

    def counts(self, _font):
        """The steps and strays of its programs."""
        return (0, 0)

    def bits(self, font, ppem, hinted, move):
        """Its pixels, when its outline is moved to the right by so many 1/64 pixels."""
        return due.bits_of([(x0 + move, y0, x1 + move, y1) for x0, y0, x1, y1 in self.boxes(font, ppem, hinted)])

    def placed(self, _font, _ppem):
        """Its contours of points (x, y, on) in 1/64 pixels, if its program moves none."""
        return []

    def closed_bits(self, font, ppem, move):
        """Its pixels with drop-out control by left pixels, found one by one."""
        return bits_of_pixels(dropout.bits(self.pieces(font, ppem, move), "left"))

    def pieces(self, font, ppem, move=0):
        """The lines and arcs of its contours."""
        return pieces_of([[(x + move, y, on) for x, y, on in contour] for contour in self.placed(font, ppem)])


class Simple(Empty):
    """A glyph of rectangles (x0, y0, x1, y1) in FUnits. Each is a contour, or contours of the same inside are given.

    `after` gives its rectangles after its program, from those before. The bytes are filled up to a
    length, if one is given, by bytes that no reader looks at."""

    def __init__(self, boxes, contours=None, code=None, after=None, length=0):
        self.in_units, self.contours, self.code, self.after, self.length = boxes, contours, code, after, length
        self.x_min = min([x for contour in self.outline() for x, _, _ in contour] or [0])

    def outline(self):
        """The contours of points (x, y, on)."""
        if self.contours is not None:
            return self.contours
        return [[(x0, y0, 1), (x1, y0, 1), (x1, y1, 1), (x0, y1, 1)] for x0, y0, x1, y1 in self.in_units]

    def data(self):
        return fonts.simple(self.outline(), self.code.bytes if self.code else b"").ljust(self.length, b"\xA5")

    def boxes(self, font, ppem, hinted):
        placed = [tuple(numbers.scaled(v, ppem, font.upem) for v in box) for box in self.in_units]
        return self.after(placed) if hinted and self.after else placed

    def placed(self, font, ppem):
        def place(value):
            return numbers.scaled(value, ppem, font.upem)
        assert self.after is None
        return [[(place(x), place(y), on) for x, y, on in contour] for contour in self.outline()]

    def counts(self, _font):
        return (self.code.steps, self.code.strays) if self.code else (0, 0)


class Curved(Simple):
    """A simple glyph of contours with points off the curve, whose pixels are found one by one."""

    def __init__(self, contours):
        Simple.__init__(self, [], contours)

    def bits(self, font, ppem, hinted, move):
        return bits_of_pixels(scan.bits(self.pieces(font, ppem, move)))


class Composite(Empty):
    """A glyph of components (glyph number, dx, dy), with a program that moves nothing."""

    def __init__(self, parts, code=None):
        self.parts, self.code = parts, code

    def data(self):
        return fonts.composite(self.parts, self.code.bytes if self.code else b"")

    def moves(self, font, ppem):
        """Each component's glyph, and how far it is moved, in 1/64 pixels."""
        return [(glyph, *(numbers.scaled(it, ppem, font.upem) for it in moved)) for glyph, *moved in self.parts]

    def boxes(self, font, ppem, hinted):
        return [(x0 + right, y0 + up, x1 + right, y1 + up) for glyph, right, up in self.moves(font, ppem)
                for x0, y0, x1, y1 in font.boxes_of(glyph, ppem, hinted)]

    def placed(self, font, ppem):
        return [[(x + right, y + up, on) for x, y, on in contour] for glyph, right, up in self.moves(font, ppem)
                for contour in font.glyphs[glyph].placed(font, ppem)]

    def counts(self, font):
        steps, strays = (self.code.steps, self.code.strays) if self.code else (0, 0)
        for glyph, _, _ in self.parts:
            more = font.counts_of(glyph)
            steps, strays = steps + more[0], strays + more[1]
        return (steps, strays)


class Font:
    """A font of models of glyphs. `codes` is a dict from code points to glyph numbers, or one number for all to FFFF.

    `fpgm` and `prep` are programs, `cvt` is bytes, and the numbers are those of `maxp`. `metrics` are pairs of an advance and a
    left side bearing, one for each glyph; else each has the font's advance, and the bearing 0."""

    def __init__(self, glyphs, codes, upem=1000, fpgm=None, prep=None, cvt=None, wide=False, metrics=None, **numbers):
        self.glyphs, self.codes, self.upem, self.fpgm, self.prep = glyphs, codes, upem, fpgm, prep
        self.cvt, self.wide, self.metrics, self.numbers = cvt, wide, metrics, numbers
        self.ascender, self.descender, self.advance = 800, -200, upem & 0x7FFF
        # by the model, since many glyphs of a font may be of one
        self.boxes_of_model = functools.cache(lambda model, ppem, hinted: model.boxes(self, ppem, hinted))
        self.counts_of_model = functools.cache(lambda model: model.counts(self))
        self.glyph_of_model = functools.cache(self.look_of)

    def data(self):
        """The font's bytes."""
        programs = {tag: code.bytes for tag, code in (("fpgm", self.fpgm), ("prep", self.prep)) if code}
        if self.cvt is not None:
            programs["cvt"] = self.cvt
        data_of = functools.cache(lambda model: model.data())
        data = [data_of(model) for model in self.glyphs]
        return fonts.font_of(data, self.cmap(), upem=self.upem, metrics=self.metrics, **self.numbers, **programs)

    def all_tables(self):
        """The font's tables, for a collection."""
        return fonts.tables_of(self.data())

    def cmap(self):
        """Its character map: of format 12 if it is wide."""
        if isinstance(self.codes, int):
            return fonts.map_to_one(self.codes)
        return (fonts.wide_map_of if self.wide else fonts.map_of)(self.codes.items())

    def number_of(self, code):
        """The glyph number of a code point, 0 if it has none."""
        return (self.codes if code < 0x10000 else 0) if isinstance(self.codes, int) else self.codes.get(code, 0)

    def boxes_of(self, number, ppem, hinted):
        """A glyph's rectangles in 1/64 pixels."""
        return self.boxes_of_model(self.glyphs[number], ppem, hinted)

    def counts_of(self, number):
        """The steps and strays of a glyph's programs."""
        return self.counts_of_model(self.glyphs[number])

    def glyph(self, number, ppem, hinted, closed=False):
        """A glyph at a size as the text has it; `closed` says whether with drop-out control."""
        advance, bearing = self.metrics_of(number)
        return self.glyph_of_model(self.glyphs[number], ppem, hinted, closed, advance, bearing)

    def metrics_of(self, number):
        """A glyph's advance and left side bearing."""
        return self.metrics[number] if self.metrics else (self.advance, 0)

    def span(self, model, ppem, hinted, advance, bearing):
        """Where a glyph's origin and the next one's lie, in 1/64 pixels."""
        start = numbers.scaled(model.x_min - bearing, ppem, self.upem)
        end = start + numbers.scaled(advance, ppem, self.upem)
        return (numbers.to_pixel(start), numbers.to_pixel(end)) if hinted else (start, end)

    def look_of(self, model, ppem, hinted, closed, advance, bearing):
        """The same of a glyph's model, advance and left side bearing."""
        start, end = self.span(model, ppem, hinted, advance, bearing)
        steps, strays = self.counts_of_model(model) if hinted else (0, 0)
        bits = model.closed_bits(self, ppem, -start) if closed else model.bits(self, ppem, hinted, -start)
        return due.Glyph(bits, advance, end - start, steps, strays)

    def make(self, codes, ppem, hinted=True, name=due.STRIKE, properties=(), x11=False, closed=False):
        """What is due of the strike of these code points.

        `properties` are lines, `x11` says whether there are those of X11 too, `closed` whether there is drop-out control."""
        codes = sorted(set(codes))
        found = [(code, self.glyph(self.number_of(code), ppem, hinted, closed)) for code in codes if self.number_of(code)]
        before = [code for code in (self.fpgm, self.prep) if code and hinted]
        prelude = (sum(code.steps for code in before), sum(code.strays for code in before))
        return due.strike(self, ppem, found, len(codes) - len(found), name, prelude, properties, x11)

    def show(self, code, ppem, hinted=True, closed=False):
        """What is due of a character's picture."""
        number = self.number_of(code)
        return self.show_number(number, ppem, hinted, closed) if number else due.listed(["missing"])

    def show_number(self, number, ppem, hinted=True, closed=False):
        """What is due of a glyph's picture."""
        return due.picture(self.glyph(number, ppem, hinted, closed).bits)

    def outline(self, number, ppem, hinted=True):
        """What is due of a glyph's outline, if its program moves no point."""
        start, end = self.span(self.glyphs[number], ppem, hinted, *self.metrics_of(number))
        contours, lines = self.glyphs[number].placed(self, ppem), []
        for k, contour in enumerate(contours):
            for x, y, on in contour:
                lines.append("%d %d %s %d %d" % (k, len(lines), "on" if on else "off", x - start, y))
        return due.listed(lines + ["advance %d" % (end - start)])


def fixture():
    """The model of the fixture of fonts.py: two empty glyphs, a ring and an arc."""
    ring = [[(0, 0, 1), (320, 0, 1), (320, 320, 1), (0, 320, 1)],
            [(96, 96, 1), (96, 224, 1), (224, 224, 1), (224, 96, 1)]]
    arc = [[(0, 0, 1), (64, 128, 0), (128, 0, 1)]]
    font = Font([Empty(), Empty(), Curved(ring), Curved(arc)], {0x20: 1, 0x41: 2, 0x42: 3}, upem=1024)
    font.advance, font.descender = 384, -224
    return font


# ---- shapes ----

def square(side, code=None, after=None, length=0):
    """A square with its lower left corner at (0, 0)."""
    return Simple([(0, 0, side, side)], code=code, after=after, length=length)


def grid(count, across=32, pitch=10, side=5, code=None):
    """Squares in rows, each a contour."""
    corners = [(pitch * (k % across), pitch * (k // across)) for k in range(count)]
    return Simple([(x, y, x + side, y + side) for x, y in corners], code=code)


def comb(points, code=None, after=None):
    """One contour of so many points: a bar with teeth of several heights."""
    teeth, more = divmod(points - 4, 4)
    width = 2 * teeth + 1
    tops = [3 + k % 5 for k in range(teeth)]
    boxes = [(0, 0, width, 1)] + [(2 * k + 1, 1, 2 * k + 2, top) for k, top in enumerate(tops)]
    contour = [(0, 0)] * (1 + more) + [(width, 0), (width, 1)]
    for k in reversed(range(teeth)):
        contour += [(2 * k + 2, 1), (2 * k + 2, tops[k]), (2 * k + 1, tops[k]), (2 * k + 1, 1)]
    contour.append((0, 1))
    return Simple(boxes, [[(x, y, 1) for x, y in contour]], code, after)


def list_of(codes):
    """A list of characters for the command line: ranges of code points."""
    return ",".join("%x" % low if low == high else "%x-%x" % (low, high)
                    for low, high, _ in fonts.runs_of((it, it) for it in codes))
