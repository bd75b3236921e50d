"""Traces of programs, in the form of docs/TRACE.md: a line for each instruction that is executed, with what it changed."""
from making.assembler import NAMES

from .faults import Halt, Refused
from .machine import Machine, pushed
from .outline import TABLE, Maker

ROUNDS = {0x18: "grid", 0x19: "half-grid", 0x3D: "double-grid", 0x7D: "down", 0x7C: "up", 0x7A: "off", 0x76: "super", 0x77: "super"}
POINT = ("point", "original", "touched-x", "touched-y", "on-curve")
STATE = ("rp0", "rp1", "rp2", "zp0", "zp1", "zp2", "auto-flip", "cut-in", "minimum-distance", "single-width", "single-width-cut-in",
         "delta-base", "delta-shift", "scan-control", "scan-type", "freedom", "projection", "dual", "loop", "round", "no-programs",
         "default-state")


def names():
    """The name of each opcode that the table has, with all flags; of others it is UNDEFINED."""
    found, last = [], "UNDEFINED"
    by_opcode = {opcode: name for name, opcode in NAMES.items()}
    for opcode in range(256):
        last = by_opcode.get(opcode, last)
        found.append(last if opcode in TABLE else "UNDEFINED")
    return found


OPCODES = names()


def where(name):
    """How a line names a program."""
    return name if isinstance(name, str) else "glyph %d" % name


def shown(value):
    """A value as a line has it: a pair with a comma, a name, or a number."""
    return value if isinstance(value, str) else "%d,%d" % tuple(value) if isinstance(value, (tuple, list)) else str(int(value))


def scan(gs):
    """What SCANCTRL and SCANTYPE set, as numbers."""
    return {None: -1, False: 0, True: 1}[gs.scan_control], {"left": 0, "near": 4, False: 2}[gs.scan_type]


def marks(zone):
    """What a line tells of each point of a zone, in the order of POINT."""
    return list(zip(zone.cur, zone.org, [it[0] for it in zone.touched], [it[1] for it in zone.touched], zone.on))


class Tracer(Machine):
    """A machine that writes lines."""
    lines, component, round_name, before = None, None, "grid", None

    def fork(self):
        other = super().fork()
        other.__class__, other.lines, other.component = Tracer, self.lines, self.component
        return other

    def run(self, name, code):
        self.round_name = "grid"
        if code:  # a program without bytes does not begin
            self.lines.append("%s begins%s" % (where(name), ", component %d of glyph %d" % self.component if self.component
                                               else ""))
        self.stack, self.before = [], None
        super().run(name, code)

    def step(self):
        name, code, at = self.name, self.code, self.start
        before = self.before or self.snapshot()
        super().step()
        self.round_name = ROUNDS.get(code[at], self.round_name)
        self.before = self.snapshot()
        line = " ".join([where(name), "%04X" % at, "%02X" % code[at], OPCODES[code[at]], *map(str, pushed(code, at)), "|",
                         *map(str, self.stack[-8:])])
        self.lines.append("; ".join([line, *changes(before, self.before)]))

    def snapshot(self):
        """All that a line compares: the points of both zones, storage, control values and the graphics state."""
        gs = self.gs
        state = (*gs.rp, *gs.zp, gs.flip, gs.cut_in, gs.minimum, gs.width, gs.width_cut_in, gs.base, gs.shift, *scan(gs),
                 gs.fv, gs.pv, gs.dv, gs.loop, self.round_name, self.no_programs, self.default_state)
        return marks(self.zones[0]), marks(self.zones[1]), list(self.storage), list(self.cvt), state


def changes(before, after):
    """The changes between two snapshots, in the order of a line."""
    for zone in (0, 1):
        if before[zone] != after[zone]:
            for number, (was, now) in enumerate(zip(before[zone], after[zone])):
                for name, one, other in zip(POINT, was, now):
                    if one != other:
                        yield "%s %d %d %s %s" % (name, zone, number, shown(one), shown(other))
    for name, was, now in (("storage", before[2], after[2]), ("cvt", before[3], after[3])):
        if was != now:
            yield from ("%s %d %d %d" % (name, k, one, other) for k, (one, other) in enumerate(zip(was, now)) if one != other)
    for name, one, other in zip(STATE, before[4], after[4]):
        if one != other:
            yield "%s %s %s" % (name, shown(one), shown(other))


class Traces(Maker):
    """The traces of a font at a size: of `fpgm`, of `prep`, and of its glyphs."""
    machine_of = Tracer

    def __init__(self, font, ppem):
        self.prelude, self.faults, self.places = {}, {}, []
        super().__init__(font, ppem, True)

    def prepare(self, machine, name, code):
        machine.lines = self.prelude[name] = []
        if not self.faults:
            try:
                super().prepare(machine, name, code)
            except Halt as halt:
                self.faults[name] = halt

    def trace(self, of):
        """The lines of "fpgm", "prep" or a glyph's number, until a halt or a refusal."""
        if of in self.prelude:
            return self.prelude[of]
        self.machine.lines, self.places = [], []
        if not self.faults.keys() & self.prelude.keys():
            self.begin(of)
            self.faults.clear()
            try:
                self.make(of, 0)
            except (Halt, Refused) as fault:
                self.faults[of] = fault
        return self.machine.lines

    def told(self, of):
        """How the refusal after a trace is told, without its number; or nothing."""
        before = ("fpgm",) if of == "fpgm" else ("fpgm", "prep", of)
        fault = next((self.faults[it] for it in before if it in self.faults), None)
        if not isinstance(fault, Halt):
            return fault and fault.name
        place = fault.place
        return "%s during %s in %s at %d opcode %02X" % (fault, where(place["during"]), where(place["program"]), place["address"],
                                                         place["opcode"])

    def add_part(self, made, number, part, depth):
        made.parts += 1
        self.places.append((made.parts, number))
        super().add_part(made, number, part, depth)
        self.places.pop()

    def run(self, made, number, program):
        self.machine.component = self.places[-1] if self.places else None
        return super().run(made, number, program)
