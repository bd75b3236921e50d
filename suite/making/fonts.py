"""Makes fonts for tools and tests: a small fixture, parts of real fonts, and fonts written from nothing."""
import struct

from reference.charmap import CharMap
from reference.fontfile import FOUR, MORE, OFFSETS, PROGRAM, SCALE, TWO, WORDS, Font

from . import charmaps

# A font of four glyphs: two are empty, one is a square ring, one a single arc. Its map has 20, 41 and 42.
FIXTURE = bytes.fromhex("""
    00010000 0007 0040 0002 0030
    636d6170 00000000 00000104 00000034  676c7966 00000000 00000144 0000003a  68656164 00000000 0000007c 00000036
    68686561 00000000 000000d4 00000024  686d7478 00000000 000000f8 0000000c  6c6f6361 00000000 00000138 0000000a
    6d617870 00000000 000000b4 00000020
    00010000 00000000 00000000 5f0f3cf5 0000 0400 00000000 00000000 00000000 00000000
    00000000 00000000 00000000 00000000 00000000
    00010000 0004 0000 0000 0000 0000 0000 0001 0001 0000 0000 0000 0000 0000 0000
    00010000 0320 ff20 0000 00000000 00000000 00000000 00000000 00000000 00000000 0002
    0100 0000 0180 0000 0000 0000
    0000 0001 0003 0001 0000000c 0004 0028 0000 0006 0004 0001 0002 0020 0042 ffff 0000 0020 0041 ffff ffe1 ffc1 0001
    0000 0000 0000
    0000 0000 0000 0012 001d 0000
    0002 0000 0000 0140 0140 0003 0007 0000 31 21 11 21 17 35 33 15 0140 fec0 60 80 0140 e0 80 80 00
    0001 0000 0000 0080 0080 0002 0000 31 36 17 40 40 80 80 00
""")
assert len(FIXTURE) == 382
RING, ARC = FIXTURE[324:359], FIXTURE[360:381]  # its glyphs 2 and 3


def tables_of(font):
    """The tables of a font, by tag, in the directory's order."""
    return Font.directory(font, 0)


def assemble(tables):
    """The bytes of a font with these tables, in this order. Checksums and search fields are 0."""
    records, bodies, at = [], [], 12 + 16 * len(tables)
    for tag, data in tables.items():
        records.append(struct.pack(">4sLLL", tag.encode("latin-1"), 0, at, len(data)))
        bodies.append(data + bytes(-len(data) % 4))
        at += len(bodies[-1])
    return b"".join([struct.pack(">LHHHH", 0x10000, len(tables), 0, 0, 0)] + records + bodies)


def with_tables(font, **changed):
    """The font with tables put in place of its own or added; `cvt` stands for the tag with a space."""
    tables = tables_of(font)
    for tag, data in changed.items():
        tables[tag.ljust(4)] = data
    return assemble(tables)


def fixture_with(second=RING, third=ARC, bearing=0, **tables):
    """The fixture with these bytes as glyphs 2 and 3, this left side bearing of glyph 2, and these tables."""
    glyf, loca = b"", [0, 0, 0]
    for glyph in (second, third):
        glyf += glyph + bytes(len(glyph) % 2)
        loca.append(len(glyf) // 2)
    hmtx = tables_of(FIXTURE)["hmtx"]
    tables = {"hmtx": hmtx[:8] + struct.pack(">h", bearing) + hmtx[10:], **tables}
    return with_tables(FIXTURE, glyf=glyf, loca=struct.pack(">5H", *loca), **tables)


def patched(font, at, data):
    """The font with other bytes at a place."""
    return font[:at] + data + font[at + len(data):]


def runs_of(pairs):
    """The runs of pairs (code, glyph) in which both rise by one: the first code, the last, and the first glyph."""
    runs = []
    for code, glyph in sorted(pairs):
        if runs and code == runs[-1][1] + 1 and glyph - code == runs[-1][2] - runs[-1][0]:
            runs[-1][1] = code
        else:
            runs.append([code, code, glyph])
    return runs


def map_of(pairs):
    """A map of format 4, of pairs (code, glyph)."""
    rows = [(first, last, glyph - first, 0) for first, last, glyph in runs_of(pairs)]
    return charmaps.table((3, 1, charmaps.segments(rows + [charmaps.LAST] * (not rows or rows[-1][1] != 0xFFFF))))


def map_to_one(glyph):
    """A map that gives this glyph for each of the 65,536 codes: one segment, and its numbers one by one."""
    return struct.pack(">HHHHLHHHHHHHHHHHH", 0, 1, 3, 1, 12, 4, 24, 0, 2, 0, 0, 0, 0xFFFF, 0, 0, 0,
                       2) + struct.pack(">H", glyph) * 65536


def wide_map_of(pairs):
    """A map of format 12, of pairs (code, glyph)."""
    return charmaps.table((3, 10, charmaps.groups(runs_of(pairs))))


def simple(contours, program=b""):
    """The bytes of a simple glyph. A contour is a list of points (x, y, on)."""
    points = [point for contour in contours for point in contour]
    xs, ys = [p[0] for p in points] or [0], [p[1] for p in points] or [0]
    out = struct.pack(">hhhhh", len(contours), min(xs), min(ys), max(xs), max(ys))
    end = -1
    for contour in contours:
        end += len(contour)
        out += struct.pack(">H", end)
    out += struct.pack(">H", len(program)) + program
    out += bytes(1 if on else 0 for _, _, on in points)
    for values in (xs, ys):
        before = 0
        for value in values[:len(points)]:
            out += struct.pack(">H", (value - before) & 0xFFFF)
            before = value
    return out + bytes(len(out) % 2)


def components(records, program=b""):
    """The bytes of a composite of records: flags, a glyph, two arguments, and the numbers of a matrix. MORE_COMPONENTS is set
    here."""
    out = struct.pack(">hhhhh", -1, 0, 0, 0, 0)
    for k, (flags, glyph, args, *matrix) in enumerate(records):
        form = ("hh" if flags & OFFSETS else "HH") if flags & WORDS else ("bb" if flags & OFFSETS else "BB")
        flags |= MORE if k + 1 < len(records) else PROGRAM if program else 0
        out += struct.pack(">HH" + form, flags, glyph, *args) + b"".join(struct.pack(">h", int(it)) for numbers in matrix
                                                                         for it in numbers)
    return out + (struct.pack(">H", len(program)) + program if program else b"")


def composite(parts, program=b""):
    """The bytes of a composite. A part is (glyph, dx, dy), or (glyph, dx, dy, scale) with the scale in 1/16384."""
    out = components([(WORDS | OFFSETS | (SCALE if scale else 0), glyph, (dx, dy), scale) for glyph, dx, dy, *scale in parts],
                     program)
    return out + bytes(len(out) % 2)


def head_of(upem, long=True):
    """`head`: the em square and the form of `loca`."""
    return struct.pack(">LLLLHH", 0x10000, 0, 0, 0x5F0F3CF5, 0, upem) + bytes(30) + struct.pack(">hh", int(long), 0)


def hhea_of(ascender, descender, pairs):
    """`hhea`: the heights and the number of pairs in `hmtx`."""
    return struct.pack(">Lhh", 0x10000, ascender, descender) + bytes(26) + struct.pack(">H", pairs)


def font_of(glyphs, cmap, upem=1000, twilight=0, storage=0, functions=0, stack=0, metrics=None, **programs):
    """A font of these glyphs, each its bytes; glyph 0 is the first. `programs` are fpgm, prep and cvt.

    `metrics` are pairs of an advance and a left side bearing, one for each glyph; else all have one advance, and the bearing 0."""
    at, loca = 0, b""
    for glyph in glyphs:
        loca += struct.pack(">L", at)
        at += len(glyph)
    loca += struct.pack(">L", at)
    maxp = struct.pack(">LHHHHHHHHHHHHHH", 0x10000, len(glyphs), 0, 0, 0, 0, 2, twilight, storage, functions, 0, stack, 0, 0, 0)
    hhea = hhea_of(800, -200, len(metrics) if metrics else 1)
    hmtx = struct.pack(">Hh", upem & 0x7FFF, 0) + bytes(2 * (len(glyphs) - 1))
    if metrics:
        hmtx = b"".join(struct.pack(">Hh", *pair) for pair in metrics)
    tables = {"cmap": cmap, "glyf": b"".join(glyphs), "head": head_of(upem), "hhea": hhea, "hmtx": hmtx, "loca": loca, "maxp": maxp}
    for tag, data in programs.items():
        tables[tag.ljust(4)] = data
    return assemble(tables)


def halting():
    """Fonts with a program that halts at opcode 28, some in the bytes of another: a font, its character, which was started, and
    which halts."""
    body, call = bytes.fromhex("B0 00 2C B0 07 28 2D"), bytes.fromhex("B0 00 2B")
    for fpgm, prep, glyph, code, during, where in (
            (body, b"", call, 0x41, "glyph 1", "fpgm"), (b"", body, call, 0x41, "glyph 1", "prep"),
            (body, call, b"", 0x41, "prep", "fpgm"), (body, b"", call, 0x42, "glyph 1", "fpgm"),
            (body[3:], b"", b"", 0x41, "fpgm", "fpgm"), (b"", b"", body[3:], 0x41, "glyph 1", "glyph 1")):
        glyphs = [b"", simple([[(0, 0, 1), (90, 0, 1), (90, 90, 1)]], glyph), composite([(1, 0, 0)])]
        yield font_of(glyphs, map_of([(0x41, 1), (0x42, 2)]), functions=1, stack=9, fpgm=fpgm, prep=prep), code, during, where


def name_table(*records, count=None, storage=None):
    """A table `name`: records of a platform, an encoding, a language, a number and bytes; with another count, or another
    storageOffset."""
    texts = b"".join(it[-1] for it in records)
    ends = [sum(len(it[-1]) for it in records[:k]) for k in range(len(records))]
    header = 0, len(records) if count is None else count, 6 + 12 * len(records) if storage is None else storage
    return struct.pack(">HHH", *header) + b"".join(
        struct.pack(">HHHHHH", *it[:4], len(it[-1]), at) for it, at in zip(records, ends)) + texts


def components_at(glyph):
    """The places in a glyph's bytes that hold a component's glyph number."""
    if len(glyph) < 10 or glyph[0] < 0x80:
        return []
    at, places = 10, []
    while True:
        flags, = struct.unpack_from(">H", glyph, at)
        places.append(at + 2)
        at += 8 if flags & WORDS else 6
        at += 2 if flags & SCALE else 4 if flags & TWO else 8 if flags & FOUR else 0
        if not flags & MORE:
            return places


def glyph_numbers(font):
    """The font's map of format 4, as a dict from code to glyph."""
    found = CharMap(Font(font), (4,))
    pairs = ((code, found.by_segment(k, code)) for k, end in enumerate(found.end_codes) for code in range(found.start(k), end + 1))
    return {code: glyph for code, glyph in pairs if glyph}


def part_of(font, codes, short=False):
    """The font with the glyphs of these codes alone, and their components, numbered anew. Its programs stay."""
    tables, numbers, whole = tables_of(font), glyph_numbers(font), Font(font)
    kept = [0] + sorted({numbers[code] for code in codes if code in numbers})
    for g in kept:  # grows while it is walked
        for at in components_at(whole.glyph_bytes(g)):
            part, = struct.unpack_from(">H", whole.glyph_bytes(g), at)
            if part not in kept:
                kept.append(part)
    glyf, loca = b"", []
    for g in kept:
        data = bytearray(whole.glyph_bytes(g))
        for at in components_at(data):
            struct.pack_into(">H", data, at, kept.index(struct.unpack_from(">H", data, at)[0]))
        loca.append(len(glyf))
        glyf += bytes(data) + bytes(-len(data) % 4)
    loca.append(len(glyf))
    hmtx = b"".join(struct.pack(">Hh", whole.advance(g), whole.bearing(g)) for g in kept)
    head, hhea, maxp = (bytearray(tables[tag]) for tag in ("head", "hhea", "maxp"))
    struct.pack_into(">h", head, 50, 0 if short else 1)
    struct.pack_into(">H", hhea, 34, len(kept))
    struct.pack_into(">H", maxp, 4, len(kept))
    made = {"cmap": map_of([(code, kept.index(numbers[code])) for code in codes if code in numbers]), "glyf": glyf,
            "head": bytes(head),
            "hhea": bytes(hhea), "hmtx": hmtx, "maxp": bytes(maxp),
            "loca": struct.pack(">%dH" % len(loca), *(at // 2 for at in loca)) if short else struct.pack(">%dL" % len(loca), *loca)}
    for tag in ("cvt ", "fpgm", "prep"):
        if tag in tables:
            made[tag] = tables[tag]
    order = ["head", "maxp", "hhea", "hmtx", "cmap", "cvt ", "fpgm", "prep", "loca", "glyf"]
    return assemble({tag: made[tag] for tag in order if tag in made})
