"""The TrueType machine: programs, calls, jumps and halts. The rows of the instruction table are in the modules beside this one."""
from .faults import Halt
from .state import Graphics, Zone

STEPS, CALLS = 250000, 32
IF, ELSE, EIF, FDEF, ENDF, IDEF = 0x58, 0x1B, 0x59, 0x2C, 0x2D, 0x89


class Frame:
    """An open call: where it came from, and how often the function is still to run."""

    def __init__(self, name, code, after, function, left):
        self.name, self.code, self.after, self.function, self.left = name, code, after, function, left


class Machine:
    """A machine of a font at a size."""

    def __init__(self, table, ppem, scale, cvt, storage, twilight, functions, room):
        self.table, self.ppem, self.scale, self.room, self.function_count = table, ppem, scale, room, functions
        self.cvt, self.storage = list(cvt), [0] * storage
        self.zones = [Zone([(0, 0)] * twilight, [(0, 0)] * twilight), Zone([], [])]
        self.functions, self.idefs, self.stack = {}, {}, []
        self.gs, self.during, self.no_programs, self.default_state = Graphics(), None, False, False

    def zone(self, k):
        """The zone of a zone pointer."""
        return self.zones[self.gs.zp[k]]

    def fork(self):
        """A machine that begins where this one is, and shares nothing that changes."""
        other = Machine(self.table, self.ppem, self.scale, self.cvt, 0, 0, self.function_count, self.room)
        other.storage, other.zones = list(self.storage), [zone.copy() for zone in self.zones]
        other.functions, other.idefs, other.gs = dict(self.functions), dict(self.idefs), self.gs.copy()
        other.no_programs, other.default_state = self.no_programs, self.default_state
        return other

    def run(self, name, code):
        """Runs a program from its first byte to its end."""
        self.during, self.name, self.code, self.at, self.frames, self.steps = name, name, code, 0, [], 0
        self.stack = []
        while self.at < len(self.code) or self.frames:
            self.opcode = self.code[self.at] if self.at < len(self.code) else 0
            self.start = self.at
            home = self.name
            try:
                self.step()
            except Halt as halt:
                halt.place = {"during": self.during, "program": home, "address": self.start, "opcode": self.opcode}
                raise
            self.steps += 1

    def step(self):
        """One instruction."""
        if self.steps >= STEPS:
            raise Halt("StepLimit")
        if self.start >= len(self.code):
            raise Halt("StrayEnd")
        self.at = next_place(self.code, self.start)
        if self.at is None:
            raise Halt("CodeEnd")
        row = self.table.get(self.opcode)
        if row is None:
            self.run_defined()
        else:
            row(self)
        if len(self.stack) > self.room:
            raise Halt("StackOver")

    def run_defined(self):
        """Runs the IDEF of an opcode that has no row."""
        if self.opcode not in self.idefs:
            raise Halt("BadOpcode")
        self.enter(self.idefs[self.opcode], 1)

    def enter(self, function, times):
        """Opens a call of a function, to be run so many times."""
        if len(self.frames) >= CALLS:
            raise Halt("CallDepth")
        self.frames.append(Frame(self.name, self.code, self.at, function, times))
        self.name, self.code, self.at = function

    def leave(self):
        """ENDF: the function again, or back to after the call."""
        if not self.frames:
            raise Halt("StrayEnd")
        frame = self.frames[-1]
        frame.left -= 1
        if frame.left > 0:
            self.name, self.code, self.at = frame.function
        else:
            self.frames.pop()
            self.name, self.code, self.at = frame.name, frame.code, frame.after

    def jump(self, offset):
        """Goes to a place counted from the instruction's own."""
        if not 0 <= self.start + offset <= len(self.code):
            raise Halt("BadJump")
        self.at = self.start + offset

    def pop(self, count):
        """The operands of a row, deepest first."""
        if len(self.stack) < count:
            raise Halt("StackUnder")
        values = self.stack[len(self.stack) - count:]
        del self.stack[len(self.stack) - count:]
        return values

    def push(self, *values):
        """Pushes results."""
        self.stack += values

    def skip_if(self, stops):
        """Goes on after the ELSE or EIF of the instruction's own level."""
        place, level = self.at, 0
        while True:
            after = next_place(self.code, place)
            if after is None:
                raise Halt("CodeEnd")
            opcode = self.code[place]
            if level == 0 and opcode in stops:
                self.at = after
                return
            level += {IF: 1, EIF: -1}.get(opcode, 0)
            place = after

    def skip_definition(self):
        """Goes on after the ENDF of a definition."""
        place = self.at
        while True:
            after = next_place(self.code, place)
            if after is None:
                raise Halt("CodeEnd")
            if self.code[place] in (FDEF, IDEF):
                raise Halt("NestedDefinition")
            if self.code[place] == ENDF:
                self.at = after
                return
            place = after


def pushed(code, place):
    """The numbers that a push has in its bytes; no other instruction has any."""
    opcode = code[place]
    if opcode not in (0x40, 0x41) and not 0xB0 <= opcode <= 0xBF:
        return []
    data = code[place + (2 if opcode < 0xB0 else 1):next_place(code, place)]
    if opcode == 0x41 or opcode >= 0xB8:
        return [int.from_bytes(data[k:k + 2], "big", signed=True) for k in range(0, len(data), 2)]
    return list(data)


def next_place(code, place):
    """The place after an instruction and its data, or None if these are cut."""
    if place >= len(code):
        return None
    opcode, size = code[place], 1
    if opcode in (0x40, 0x41):
        if place + 1 >= len(code):
            return None
        size = 2 + code[place + 1] * (opcode - 0x3F)
    elif 0xB0 <= opcode <= 0xBF:
        size = 1 + ((opcode & 7) + 1) * (1 if opcode < 0xB8 else 2)
    return place + size if place + size <= len(code) else None
