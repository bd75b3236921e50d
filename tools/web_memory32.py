"""Makes of a WebAssembly module with 64-bit memory one with 32-bit memory, which every engine has.

Addresses stay numbers of 64 bits in the code and for the caller: each is cut to 32 bits before the instruction that takes it.
memory.grow returns -1 as before if it fails, so the module never has an address past 4 GiB, and no cut changes one. This knows the
instructions that the kit's clang and linker write, and refuses others.
"""
from prebuilt import Fault

NAMES, TYPES, IMPORTS, FUNCTIONS, TABLE, MEMORY, ELEMENTS, CODE, DATA = 0, 1, 2, 3, 4, 5, 9, 10, 11  # sections
CUT, WIDEN, WIDEN_SIGNED = b"\xa7", b"\xad", b"\xac"  # i32.wrap_i64, i64.extend_i32_u, i64.extend_i32_s
UNREACHABLE, BLOCK, LOOP, IF, ELSE, END, BR, BR_IF, BR_TABLE, RETURN, CALL = (0x00, 0x02, 0x03, 0x04, 0x05, 0x0B, 0x0C, 0x0D, 0x0E,
                                                                              0x0F, 0x10)
MEMORY_SIZE, MEMORY_GROW, MORE, MEMORY_COPY, MEMORY_FILL = 0x3F, 0x40, 0xFC, 10, 11  # the last two come after MORE
LOADS, STORES, CONSTANTS = range(0x28, 0x36), range(0x36, 0x3F), {0x43: 4, 0x44: 8}  # constants with a point, and their bytes


def ranges(*ends):
    """The numbers of ranges, each from its first to its last."""
    return [code for first, last in ends for code in range(first, last + 1)]


# How many values other instructions take and give: those without operands in the code, and those with one number.
PLAIN = {0x01: (0, 0), 0x1A: (1, 0), 0x1B: (3, 1), UNREACHABLE: (0, 0), RETURN: (0, 0), ELSE: (0, 0), END: (0, 0)}
PLAIN.update(dict.fromkeys(ranges((0x45, 0x45), (0x50, 0x50), (0x67, 0x69), (0x79, 0x7B), (0x8B, 0x91), (0x99, 0x9F), (0xA7, 0xC4)),
                           (1, 1)))
PLAIN.update(dict.fromkeys(ranges((0x46, 0x4F), (0x51, 0x66), (0x6A, 0x78), (0x7C, 0x8A), (0x92, 0x98), (0xA0, 0xA6)), (2, 1)))
NUMBERED = {BLOCK: (0, 0), LOOP: (0, 0), IF: (1, 0), BR: (0, 0), BR_IF: (1, 0), 0x20: (0, 1), 0x21: (1, 0), 0x22: (1, 1),
            0x23: (0, 1),
            0x24: (1, 0), 0x41: (0, 1), 0x42: (0, 1)}
BEGINS, ENDS = (BLOCK, LOOP, IF), (UNREACHABLE, ELSE, END, BR, BR_TABLE, RETURN)


class Reader:
    """Bytes, read from the front."""

    def __init__(self, data, at=0):
        self.data, self.at = data, at

    def has_more(self):
        return self.at < len(self.data)

    def take(self, size):
        self.at += size
        return self.data[self.at - size:self.at]

    def byte(self):
        return self.take(1)[0]

    def number(self):
        """A number in LEB128. One with a sign is as long."""
        value = shift = 0
        while True:
            byte = self.byte()
            value, shift = value | (byte & 127) << shift, shift + 7
            if byte < 128:
                return value

    def part(self):
        """Bytes whose count stands before them."""
        return self.take(self.number())


def leb(value):
    """A number in LEB128."""
    made = b""
    while value >= 128:
        made, value = made + bytes([value & 127 | 128]), value >> 7
    return made + bytes([value])


def counted(data):
    """Bytes with their count before them."""
    return leb(len(data)) + data


class Body:
    """The code of a function. It knows which instruction made each value on the stack: an address is cut after that. No value stays
    there from before a block into it, or from it on."""

    def __init__(self, module, data):
        self.module, self.read, self.made, self.stack = module, Reader(data), [], []

    def change(self, taken, given, cut=()):
        """Takes values from the stack, cuts those that are addresses, counted from the lowest, and gives values."""
        at = len(self.stack) - taken
        if at < 0:
            raise Fault("a function takes more values than there are")
        for it in cut:
            self.made[self.stack[at + it]] += CUT
        self.stack[at:] = [len(self.made)] * given

    def lowered(self):
        """The code with each address cut."""
        for _ in range(self.read.number()):
            self.read.number()
            self.read.byte()
        self.made.append(self.read.data[:self.read.at])
        while self.read.has_more():
            start = self.read.at
            after = self.step(self.read.byte())
            self.made.append(self.read.data[start:self.read.at] + after)
        return b"".join(self.made)

    def step(self, code):
        """Goes over an instruction. Returns what has to follow it."""
        read = self.read
        if code in PLAIN:
            self.change(*PLAIN[code])
        elif code in NUMBERED:
            read.number()
            self.change(*NUMBERED[code])
        elif code == BR_TABLE:
            for _ in range(read.number() + 1):
                read.number()
            self.change(1, 0)
        elif code == CALL:
            self.change(*self.module.types[self.module.functions[read.number()]])
        elif code in CONSTANTS:
            read.take(CONSTANTS[code])
            self.change(0, 1)
        elif code in LOADS or code in STORES:
            self.access()
            self.change(*((1, 1) if code in LOADS else (2, 0)), cut=(0,))
        elif code in (MEMORY_SIZE, MEMORY_GROW):
            read.number()
            self.change(*((0, 1, ()) if code == MEMORY_SIZE else (1, 1, (0,))))
            return WIDEN if code == MEMORY_SIZE else WIDEN_SIGNED
        elif code == MORE:
            self.more(read.number())
        else:
            raise Fault("an instruction %02X, which this does not know" % code)
        if code in BEGINS and self.stack:
            raise Fault("a value that stays while a block runs")
        if code in ENDS:
            self.stack.clear()
        return b""

    def access(self):
        """The alignment and the offset of a load or a store."""
        if self.read.number() >= 64 or self.read.number() >= 1 << 32:
            raise Fault("an access to a second memory, or past 4 GiB")

    def more(self, kind):
        """Copies or fills memory: the count and each place are addresses."""
        if kind not in (MEMORY_COPY, MEMORY_FILL):
            raise Fault("an instruction FC %d, which this does not know" % kind)
        self.read.take(2 if kind == MEMORY_COPY else 1)
        self.change(3, 0, (0, 1, 2) if kind == MEMORY_COPY else (0, 2))


class Module:
    """A module, section by section."""

    def __init__(self):
        self.types, self.functions = [], []

    def note_types(self, read):
        for _ in range(read.number()):
            if read.byte() != 0x60:
                raise Fault("a type of another kind than a function's")
            self.types.append((len(read.part()), len(read.part())))

    def note_imports(self, read):
        for _ in range(read.number()):
            read.part()
            read.part()
            if read.byte():
                raise Fault("an import that is no function")
            self.functions.append(read.number())

    def note_functions(self, read):
        self.functions += [read.number() for _ in range(read.number())]

    def memory(self, read):
        """The memory's limits, without the flag of 64 bits."""
        count, flags = read.number(), read.number()
        if count != 1 or flags & ~1 != 4:
            raise Fault("the module has not just one memory, of 64 bits")
        return bytes([count, flags & 1]) + read.data[read.at:]

    def code(self, read):
        count = read.number()
        return leb(count) + b"".join(counted(Body(self, read.part()).lowered()) for _ in range(count))

    def data(self, read):
        """The data, with places of 32 bits: those below 2 GiB have the same number."""
        count, made = read.number(), b""
        for _ in range(count):
            flags, code, start = read.byte(), read.byte(), read.at
            place = read.number()
            if flags or code != 0x42 or place >= 1 << 31 or read.data[read.at] != END:
                raise Fault("data at a place that is not a number below 2 GiB")
            made += bytes([flags, 0x41]) + read.data[start:read.at] + read.take(1) + counted(read.part())
        return leb(count) + made

    def section(self, kind, data):
        """What the section becomes."""
        for_this = {TYPES: self.note_types, IMPORTS: self.note_imports, FUNCTIONS: self.note_functions, MEMORY: self.memory,
                    CODE: self.code,
                    DATA: self.data}.get(kind)
        return for_this and for_this(Reader(data)) or data


def with_memory32(module):
    """The module with 32-bit memory, and without its names and its table, which no call goes through."""
    read, made, low = Reader(module, 8), module[:8], Module()
    while read.has_more():
        kind, data = read.byte(), read.part()
        if kind == ELEMENTS:
            raise Fault("a table with functions, which this does not know")
        if kind not in (NAMES, TABLE):
            made += bytes([kind]) + counted(low.section(kind, data))
    return made
