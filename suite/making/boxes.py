"""Fills in the boxes of glyphs, for tools that draw no more than what a glyph's header says."""
import struct

from reference.faults import Refused
from reference.fontfile import Composite, Font, Simple, read_glyph
from reference.outline import Maker


def box_of(points):
    """The least box of points: xMin, yMin, xMax, yMax."""
    xs, ys = [p[0] for p in points], [p[1] for p in points]
    return (min(xs), min(ys), max(xs), max(ys)) if points else (0, 0, 0, 0)


def with_box(data):
    """The bytes of a simple glyph with its box, if they can be read."""
    try:
        glyph = read_glyph(data, 0)
    except Refused:
        return data
    return data[:2] + struct.pack(">4h", *box_of(glyph.points)) + data[10:] if isinstance(glyph, Simple) else data


def fill_boxes(font):
    """Fills in the boxes of a font's composites, and moves their bearings with xMin.

    The em square is 1024 units, so that at 16 pixels a unit is 1/64 pixel."""
    maker = Maker(Font(font.bytes()), 16, False)
    for number, glyph in enumerate(font.glyphs):
        maker.root, maker.records, maker.count = number, 0, 0
        try:
            is_composite = isinstance(read_glyph(glyph.data, number), Composite)
            box = box_of(maker.make(number, 0).points) if is_composite else None
        except Refused:
            continue
        if box:
            glyph.data = glyph.data[:2] + struct.pack(">4h", *box) + glyph.data[10:]
            glyph.bearing += box[0]
