"""Damages fonts by chances: bytes, words and longs, tables and records of the directory, programs, what is cut, taken away or put
in."""
import struct

USUAL = {1: (0x00, 0x01, 0x7F, 0x80, 0xFF, 0xFE), 2: (0, 1, 2, 0x7FFF, 0x8000, 0x8001, 0xFFFF, 0xFFFE, 0x100, 0x4000),
         4: (0x7FFFFFFF, 0x80000000, 0xFFFFFFFF)}
PROGRAMS = (b"fpgm", b"prep", b"glyf")
RECORD = 16  # bytes of a record of the directory


class Damaged:
    """A font's bytes, which become damaged. `draw` has the chances, and `others` are fonts of which bytes may come."""

    def __init__(self, font, draw, others):
        self.data, self.draw, self.others = bytearray(font), draw, others
        ways = [(self.number, 10), (self.fill, 2), (self.cut, 1), (self.put_in, 2), (self.take_away, 1), (self.record, 1),
                (self.program, 3)]
        for _ in range(draw.choice((1, 1, 2, 3 + draw.randrange(6)))):
            if self.data:
                draw.choices([it for it, _ in ways], [it for _, it in ways])[0]()

    def once_in(self, count):
        """Whether a chance of one in so many comes."""
        return self.draw.randrange(count) == 0

    def records(self):
        """The places of the directory's records."""
        count = int.from_bytes(self.data[4:6], "big")
        return range(12, 12 + RECORD * count, RECORD) if 0 < count < 64 and 12 + RECORD * count <= len(self.data) else range(0)

    def table(self, at):
        """Where the table of a record begins, and how long it is, cut to the file."""
        start, length = struct.unpack_from(">LL", self.data, at + 8)
        return start, max(0, min(length, len(self.data) - start))

    def some_table(self):
        """A table, or the whole file. Tables whose every damage is refused at once (head, hhea, hmtx, maxp) come less often."""
        for last in (False, False, True):
            if self.records():
                at = self.draw.choice(self.records())
                start, length = self.table(at)
                if length and (last or self.data[at] not in b"hm"):
                    return start, length
        return 0, len(self.data)

    def place(self):
        """A place in the file: often in a table, and there among the fields in front."""
        directory = min(len(self.records()) * RECORD + 12, len(self.data) - 1)
        if self.once_in(16):
            return self.draw.randrange(len(self.data))
        if self.once_in(4):
            return self.draw.randrange(directory, len(self.data))
        start, length = self.some_table()
        return start + self.draw.randrange(min(length, 64) if self.once_in(3) else length)

    def number(self):
        """A byte, a word or a long becomes a usual one, a random one, one more or less, twice as much, or loses a bit."""
        size = self.draw.choices((1, 2, 4), (5, 4, 1))[0]
        at = self.place() // size * size
        was, most = int.from_bytes(self.data[at:at + size], "big"), (1 << 8 * size) - 1
        number = self.draw.choice((self.draw.choice(USUAL[size]), self.draw.randint(0, most),
                                   was ^ 1 << self.draw.randrange(8 * size), was + self.draw.choice((-1, 1)), 2 * was,
                                   len(self.data) - self.draw.randrange(3)))
        if at + size <= len(self.data):
            self.data[at:at + size] = (number & most).to_bytes(size, "big")

    def fill(self):
        """Some bytes become one value, or random ones."""
        at, count, value = self.place(), 1 + self.draw.randrange(64), self.draw.randrange(256)
        is_one, count = self.once_in(2), min(count, len(self.data) - at)
        self.data[at:at + count] = bytes([value] * count) if is_one else self.draw.randbytes(count)

    def cut(self):
        """The file ends early, often in or after a table."""
        start, length = self.some_table()
        del self.data[self.draw.choice((self.draw.randrange(len(self.data) + 1), start + length,
                                        start + self.draw.randrange(length + 1), start + length - 1)):]

    def put_in(self):
        """Bytes of some font come over bytes, or between them."""
        other, at = self.draw.choice(self.others), self.place()
        start = self.draw.randrange(len(other))
        some = other[start:start + 1 + self.draw.randrange(4096 if self.once_in(3) else 64)]
        self.data[at:at + len(some) if self.once_in(2) else at] = some

    def take_away(self):
        """Some bytes go."""
        at = self.place()
        del self.data[at:at + 1 + self.draw.randrange(1024 if self.once_in(3) else 16)]

    def record(self):
        """Two records of the directory are exchanged but for their tags, or a table begins elsewhere or has another length."""
        if not self.records():
            return
        one, other = self.draw.choice(self.records()), self.draw.choice(self.records())
        if self.once_in(2):
            a, b = self.data[one + 4:one + RECORD], self.data[other + 4:other + RECORD]
            self.data[one + 4:one + RECORD], self.data[other + 4:other + RECORD] = b, a
            return
        at = one + self.draw.choice((8, 12))
        was, = struct.unpack_from(">L", self.data, at)
        number = self.draw.choice((was + self.draw.randrange(9) - 4, self.draw.randrange(len(self.data) + 8), was // 2, 2 * was))
        struct.pack_into(">L", self.data, at, number & 0xFFFFFFFF)

    def program(self):
        """Random instructions come over a program, or somewhere into the glyphs. Numbers are pushed often, so that the others have
        some."""
        tag = self.draw.choice(PROGRAMS)
        start, length = next((self.table(at) for at in self.records() if self.data[at:at + 4] == tag), (0, 0))
        if length and tag == b"glyf":
            start, length = start + self.draw.randrange(length), 48
        code = b""
        while len(code) < length:
            count, most = 1 + self.draw.randrange(8), 256 if self.once_in(4) else 12
            code += bytes([0xAF + count, *(self.draw.randrange(most) for _ in range(count))]) if self.once_in(
                2) else self.draw.randbytes(1)
        code = code[:max(0, min(length, len(self.data) - start))]
        self.data[start:start + len(code)] = code
