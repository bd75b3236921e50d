"""Writes `cmap` and its subtables of formats 4 and 12."""
import struct

LAST = (0xFFFF, 0xFFFF, 1, 0)


def segments(rows, ids=(), count=None, cut=0):
    """A subtable of format 4, of rows (start, end, delta, offset). The last bytes can be cut."""
    columns = [[row[1] for row in rows], [0], [row[0] for row in rows], [row[2] for row in rows], [row[3] for row in rows], ids]
    body = b"".join(struct.pack(">H", value & 0xFFFF) for column in columns for value in column)
    power = len(rows).bit_length() - 1
    search = (2 << power, power, 2 * len(rows) - (2 << power))
    data = struct.pack(">HHHHHHH", 4, 14 + len(body), 0, 2 * len(rows) if count is None else count, *search) + body
    return data[:len(data) - cut]


def groups(rows, cut=0):
    """A subtable of format 12, of rows (first, last, glyph)."""
    data = struct.pack(">HHLLL", 12, 0, 16 + 12 * len(rows), 0, len(rows)) + b"".join(struct.pack(">LLL", *row) for row in rows)
    return data[:len(data) - cut]


def table(*records):
    """`cmap` of records (platform, encoding, subtable)."""
    at, head, body = 4 + 8 * len(records), struct.pack(">HH", 0, len(records)), b""
    for platform, encoding, data in records:
        head += struct.pack(">HHL", platform, encoding, at + len(body))
        body += data
    return head + body


def in_order(first, count):
    """A map from so many characters, in order from the first, to the glyphs from 1 on."""
    rows = [(first, first + count - 1, 1 - first, 0)] if count else []
    return table((3, 1, segments(rows + [LAST])))
