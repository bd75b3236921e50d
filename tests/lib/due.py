"""What is due of mkstrike, worked out from the definitions of its documents and not by the program.

An outline here is made of rectangles with sides along the axes, all turning the same way. So a pixel is set exactly
when its centre lies in one of them, its sides included, and bits, boxes and texts follow by whole numbers alone. The
pixels of lines and arcs in general are those of the suite's reference.
"""
import functools
import re

from reference.numbers import near

DONE, REFUSED, USAGE_STATUS = 0, 1, 2
USAGE = b"mkstrike: usage\n"
STRIKE = "strike"
# Lines for people, after the line that is due. They have other forms than the lines that a run ends with.
FURTHER = re.compile(rb"(mkstrike: (?!usage\n|\d+ [A-Z]|glyphs |left U|unhinted U)[^\x00-\x1f\x7f]+\n){0,2}")


def own_lines(err):
    """Standard error without the lines for people at its end."""
    return re.fullmatch(rb"((?:[^\n]*\n)*?[^\n]*)" + FURTHER.pattern, err).group(1)


# ---- numbers ----

def first_from(place):
    """The first pixel whose centre does not lie before a place in 1/64 pixels."""
    return -((32 - place) // 64)


def last_until(place):
    """The last pixel whose centre does not lie past a place in 1/64 pixels."""
    return (place - 32) // 64


# ---- answers ----

class Due:
    """What is due of a run: its status, its line on standard error, and what is on standard output.

    After that line there may be at most two further ones, which say what to do."""

    def __init__(self, status, err, out=b""):
        self.status, self.err, self.out = status, err, out

    def wrong(self, answer):
        """What is wrong with an answer (status, output, errors), or None."""
        status, out, err = answer
        if status != self.status:
            return "status %d, and %d is due; standard error: %r" % (status, self.status, err[:200])
        if not (err.startswith(self.err) and FURTHER.fullmatch(err[len(self.err):])):
            return "the line %r, and %r is due" % (err[:200], self.err)
        return None if out == self.out else difference(out, self.out)


class Ends(Due):
    """What is due of a request that is done: its line on standard error, and how its output ends."""

    def wrong(self, answer):
        ends = answer[1].endswith(self.out)
        return Due.wrong(self, (answer[0], self.out if ends else answer[1], answer[2]))


class Cut(Due):
    """What is due where the output fails at a place that the system chooses: exactly the bytes told of were taken."""

    def wrong(self, answer):
        count = len(answer[1])
        if count >= len(self.out):
            return "an output of %d bytes of %d: it did not fail" % (count, len(self.out))
        return cut_after(self, count).wrong(answer)

    @staticmethod
    def of(whole):
        """The same request as one that is done."""
        return Cut(REFUSED, whole.err, whole.out)


class FewCalls(Due):
    """What is due of a request that is done, where the answer says too how often the system was called to write."""

    def __init__(self, whole, most):
        Due.__init__(self, whole.status, whole.err, whole.out)
        self.most = most

    def wrong(self, answer):
        fault = Due.wrong(self, answer[:3])
        if fault or answer[3] <= self.most:
            return fault
        return "the system was called %d times to write, and at most %d are due" % (answer[3], self.most)


class Counted(Due):
    """What is due of the strike of a font whose bits are not known beforehand: its status and counts, and a text of so many glyphs.

    Without hinting no program runs, so that no instruction is counted; with it, some are. `told` is the lines before the counts."""

    def __init__(self, glyphs, missing, hinted, told=b""):
        Due.__init__(self, DONE, b"")
        self.glyphs, self.line = glyphs, re.escape(told) + rb"mkstrike: glyphs %d missing %d strays %s steps %s\n" % (
            glyphs, missing, *((rb"\d+", rb"[1-9]\d*") if hinted else (b"0", b"0")))

    def wrong(self, answer):
        status, out, err = answer
        if status != self.status or not re.fullmatch(self.line + FURTHER.pattern, err):
            return "status %d and the line %r, and %d and %r are due" % (status, err[:200], self.status, self.line)
        counted = [out.count(b"\n%s " % word) for word in (b"STARTCHAR", b"ENCODING", b"BBX")] + [out.count(b"\nENDCHAR\n")]
        whole = out.startswith(b"STARTFONT 2.1\n") and out.endswith(b"ENDFONT\n") and b"\nCHARS %d\n" % self.glyphs in out
        return None if whole and counted == [self.glyphs] * 4 else "a text of %s glyphs, and %d are due" % (counted, self.glyphs)


def cut_after(whole, count):
    """What is due where the output takes so many bytes and then fails, after what is told of characters."""
    cut = refused("70 WriteFailed %d" % count, whole.out[:count])
    cut.err = b"".join(whole.err.splitlines(True)[:-1]) + cut.err
    return cut


def difference(out, due):
    """Where an output begins to differ from what is due."""
    at = next((k for k, (a, b) in enumerate(zip(out, due)) if a != b), min(len(out), len(due)))
    line = due[:at].count(b"\n") + 1
    return "output of %d bytes, and %d are due; from byte %d, in line %d: %r, and %r is due" % (
        len(out), len(due), at, line, out[at:at + 60], due[at:at + 60])


def usage():
    """A command line that does not parse."""
    return Due(USAGE_STATUS, USAGE)


def refused(text, out=b""):
    """A refusal by its number, name and fields."""
    return Due(REFUSED, b"mkstrike: " + text.encode() + b"\n", out)


def counted(glyphs=1, missing=0, strays=0, steps=0):
    """The line of a strike with these counts."""
    return b"mkstrike: glyphs %d missing %d strays %d steps %d\n" % (glyphs, missing, strays, steps)


def halted(cause, during, where, at, opcode):
    """A font program that halted."""
    return refused("%s during %s in %s at %d opcode %02X" % (cause, during, where, at, opcode))


def listed(lines):
    """A listing or a picture: its lines go to standard output, and there is none on standard error."""
    return Due(DONE, b"", b"".join(line.encode() + b"\n" for line in lines))


# ---- bits ----

class Bits:
    """The set pixels of a glyph: the rows of the tight box from the bottom, the leftmost pixel the highest bit."""

    def __init__(self, left, bottom, width, rows):
        self.left, self.bottom, self.width, self.rows = left, bottom, width, rows

    @property
    def box(self):
        """Width, height, and the lower left pixel; zeros if no pixel is set."""
        return (self.width, len(self.rows), self.left, self.bottom)


NO_BITS = Bits(0, 0, 0, [])


def bits_of(boxes):
    """The pixels whose centres lie in some of these rectangles (x0, y0, x1, y1) in 1/64 pixels."""
    spans = [(first_from(x0), first_from(y0), last_until(x1), last_until(y1)) for x0, y0, x1, y1 in boxes]
    spans = [s for s in spans if s[0] <= s[2] and s[1] <= s[3]]
    if not spans:
        return NO_BITS
    left, right = min(s[0] for s in spans), max(s[2] for s in spans)
    bottom, top = min(s[1] for s in spans), max(s[3] for s in spans)
    rows = [0] * (top - bottom + 1)
    for x0, y0, x1, y1 in spans:
        mask = ((1 << (x1 - x0 + 1)) - 1) << (right - x1)
        for row in range(y0 - bottom, y1 - bottom + 1):
            rows[row] |= mask
    return Bits(left, bottom, right - left + 1, rows)


# ---- texts ----

def row_lines(bits):
    """The lines of a glyph's rows, from the top, in hexadecimal digits."""
    digits = -(-bits.width // 8) * 2
    texts = {row: "%0*X" % (digits, row << (4 * digits - bits.width)) for row in set(bits.rows)}
    return [texts[row] for row in reversed(bits.rows)]


def picture(bits):
    """What is due of `show` for a glyph's bits."""
    if not bits.rows:
        return listed(["empty"])
    texts = {row: "{:0{}b}".format(row, bits.width).replace("0", ".").replace("1", "#") for row in set(bits.rows)}
    return listed([texts[row] for row in reversed(bits.rows)])


def hull(boxes):
    """The least box that holds all boxes (w, h, x, y) that are not empty."""
    boxes = [box for box in boxes if box[0]]
    if not boxes:
        return (0, 0, 0, 0)
    left, bottom = min(b[2] for b in boxes), min(b[3] for b in boxes)
    return (max(b[2] + b[0] for b in boxes) - left, max(b[3] + b[1] for b in boxes) - bottom, left, bottom)


def name_of(code):
    """The name of a character."""
    return ("uni%04X" if code < 0x10000 else "u%X") % code


def glyph_lines(code, box, *rows, swidth=375, dwidth=6):
    """The lines of a glyph."""
    head = ["STARTCHAR " + name_of(code), "ENCODING %d" % code, "SWIDTH %d 0" % swidth, "DWIDTH %d 0" % dwidth, "BBX " + box,
            "BITMAP"]
    return "\n".join([*head, *rows, "ENDCHAR\n"])


class Glyph:
    """A glyph as the text has it: bits, the advance of `hmtx` in FUnits, that of the outline, steps and strays."""

    def __init__(self, bits, advance, moved, steps=0, strays=0):
        self.bits, self.advance, self.moved, self.steps, self.strays = bits, advance, moved, steps, strays

    @property
    def width(self):
        """The advance in pixels."""
        return near(self.moved, 64)

    def tail(self, upem):
        """The lines after the code point."""
        lines = glyph_lines(0, "%d %d %d %d" % self.bits.box, *row_lines(self.bits), swidth=near(self.advance * 1000, upem),
                            dwidth=self.width)
        return lines[lines.index("SWIDTH"):]


def x11_properties(name, ppem, widths):
    """What the X logical font description has of a strike, as lines. `widths` are the advances in pixels by code point."""
    fields = name.split("-")
    family, weight, slant = fields[2:5] if fields[0] == "" and len(fields) == 15 else (name, "Medium", "R")
    spacing = "M" if len(set(widths.values())) < 2 else "P"
    average = near(10 * sum(abs(width) for width in widths.values()), len(widths)) if widths else 0
    lines = ['FAMILY_NAME "%s"' % family.replace('"', '""'), 'WEIGHT_NAME "%s"' % weight.replace('"', '""'),
             'SLANT "%s"' % slant.replace('"', '""'), "PIXEL_SIZE %d" % ppem, "POINT_SIZE %d" % (10 * ppem), "RESOLUTION_X 72",
             "RESOLUTION_Y 72", 'SPACING "%s"' % spacing, "AVERAGE_WIDTH %d" % average, 'CHARSET_REGISTRY "ISO10646"',
             'CHARSET_ENCODING "1"']
    return lines + ["DEFAULT_CHAR %d" % code for code in (0xFFFD, 0x20) if code in widths][:1]


def with_x11(given, name, ppem, found):
    """The lines of all properties with `--x11`: those of the names that the given ones do not have, and the given ones."""
    more = x11_properties(name, ppem, {code: glyph.width for code, glyph in found})
    taken = {line.split(" ")[0] for line in given}
    return [line for line in more if line.split(" ")[0] not in taken] + list(given)


def header(ppem, name, box, ascent, descent, count, properties):
    """The lines before the glyphs; `properties` are the lines of those beside the first two."""
    return "\n".join([
        "STARTFONT 2.1", "FONT %s" % name, "SIZE %d 72 72" % ppem, "FONTBOUNDINGBOX %s" % box,
        "STARTPROPERTIES %d" % (2 + len(properties)), "FONT_ASCENT %d" % ascent, "FONT_DESCENT %d" % descent, *properties,
        "ENDPROPERTIES", "CHARS %d\n" % count])


def strike(font, ppem, found, missing, name=STRIKE, prelude=(0, 0), properties=(), x11=False):
    """What is due of `make`: of the glyphs that are found for code points, a list of (code, glyph) in rising order.

    `prelude` is the steps and strays of the font program and the control value program, `properties` are lines, and `x11` says
    whether there are those of X11 too."""
    properties = with_x11(properties, name, ppem, found) if x11 else properties
    tail = functools.cache(lambda glyph: glyph.tail(font.upem))
    box = hull([glyph.bits.box for glyph in {glyph for _, glyph in found}])
    ascent, descent = near(font.ascender * ppem, font.upem), near(-font.descender * ppem, font.upem)
    text = [header(ppem, name, "%d %d %d %d" % box, ascent, descent, len(found), properties)]
    text += ["STARTCHAR %s\nENCODING %d\n%s" % (name_of(code), code, tail(glyph)) for code, glyph in found]
    text.append("ENDFONT\n")
    steps, strays = (prelude[0] + sum(g.steps for _, g in found), prelude[1] + sum(g.strays for _, g in found))
    return Due(DONE, counted(len(found), missing, strays, steps), "".join(text).encode())
