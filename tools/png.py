"""Pictures of one bit a pixel as PNG files. A picture is a list of rows, a row a list of 0 (white) and 1 (black)."""
import struct
import zlib

SIGNATURE = b"\x89PNG\r\n\x1a\n"


class NoPicture(Exception):
    """Bytes that are not a picture of the form that `png_of` writes."""


def chunk(kind, data):
    """A chunk of a PNG file: its length, its kind, its bytes and their checksum."""
    return struct.pack(">I", len(data)) + kind + data + struct.pack(">I", zlib.crc32(kind + data))


def png_of(picture):
    """The bytes of a PNG file: one bit a pixel, grey, each row without a filter."""
    width = len(picture[0])
    rows = bytearray()
    for row in picture:
        # in PNG a bit of 1 is white
        bits = "".join("0" if bit else "1" for bit in row).ljust((width + 7) // 8 * 8, "0")
        rows += b"\0" + int(bits, 2).to_bytes(len(bits) // 8, "big")
    header = struct.pack(">IIBBBBB", width, len(picture), 1, 0, 0, 0, 0)
    return SIGNATURE + chunk(b"IHDR", header) + chunk(b"IDAT", zlib.compress(bytes(rows), 9)) + chunk(b"IEND", b"")


def pixels_of(data):
    """The width, the height and the bytes of the rows of a file that `png_of` wrote. Compressors differ, so files are compared by
    this."""
    try:
        if data[:8] != SIGNATURE or data[12:16] != b"IHDR":
            raise NoPicture("it is not a PNG file")
        width, height, *form = struct.unpack(">IIBBBBB", data[16:29])
        at, packed = 33, b""
        while data[at + 4:at + 8] == b"IDAT":
            length = struct.unpack(">I", data[at:at + 4])[0]
            packed += data[at + 8:at + 8 + length]
            at += 12 + length
        rows = zlib.decompress(packed)
    except (struct.error, zlib.error) as fault:
        raise NoPicture(str(fault))
    if form != [1, 0, 0, 0, 0] or len(rows) != height * (1 + (width + 7) // 8):
        raise NoPicture("it does not have one bit a pixel")
    return width, height, rows
