"""From a glyph to its outline in 26.6: scaling, phantom points, components, and the programs of glyphs."""
from .faults import Refused
from .fontfile import METRICS, OFFSETS, ROUND, Composite, i16
from .machine import Machine
from .numbers import ONE, near, scaled, to_pixel, w32
from .rows_points import ROWS as POINT_ROWS
from .rows_stack import ROWS as STACK_ROWS
from .rows_state import ROWS as STATE_ROWS
from .state import Graphics, Zone

DEPTH, COMPONENTS, POINTS = 8, 256, 16384
TABLE = {**STACK_ROWS, **STATE_ROWS, **POINT_ROWS}


class Made:
    """An assembled glyph: points, flags, contour ends, and original and current phantom points."""

    def __init__(self, points, on, ends, phantoms, current):
        self.points, self.on, self.ends, self.phantoms, self.current = points, on, ends, phantoms, current
        self.parts = 0  # the components that were joined so far


class Maker:
    """Makes the outlines of a font at a size, hinted or not."""
    machine_of = Machine

    def __init__(self, font, ppem, hinted):
        self.font, self.ppem, self.hinted, self.machine, self.asked = font, ppem, hinted, None, None
        if hinted:
            self.machine = self.prepared()

    def scale(self, value):
        """FUnits as 26.6."""
        return w32(scaled(value, self.ppem, self.font.upem))

    def prepared(self):
        """The machine as `fpgm` and `prep` leave it."""
        font, tables = self.font, self.font.tables
        cvt = tables.get("cvt ", b"")
        values = [self.scale(i16(cvt, 2 * k)) for k in range(len(cvt) // 2)]
        machine = self.machine_of(TABLE, self.ppem, self.scale, values, font.storage, font.twilight, font.functions, font.room)
        for name in ("fpgm", "prep"):
            self.prepare(machine, name, tables.get(name, b""))
        return machine

    def prepare(self, machine, name, code):
        """Runs `fpgm` or `prep`."""
        machine.gs = Graphics()
        machine.run(name, code)

    def begin(self, glyph):
        """Begins a character's outline, whose root is a glyph."""
        self.root, self.records, self.count = glyph, 0, 0

    def outline(self, glyph):
        """A character's outline: moved to its origin, with its advance."""
        self.begin(glyph)
        self.asked = asked_by(self.initial()) if self.hinted else None
        made = self.make(glyph, 0)
        left = made.current[0][0]
        points = [(w32(x - left), y) for x, y in made.points]
        return points, made.on, made.ends, w32(made.current[1][0] - left)

    def phantoms(self, glyph, x_min):
        """The four phantom points, original and current."""
        font = self.font
        left = self.scale(x_min - font.bearing(glyph))
        places = [(left, 0), (w32(left + self.scale(font.advance(glyph))), 0), (0, self.scale(font.ascender)),
                  (0, self.scale(font.descender))]
        if not self.hinted:
            return places, list(places)
        return places, [(w32(to_pixel(x)), w32(to_pixel(y))) for x, y in places]

    def make(self, number, depth):
        """A glyph with its components, by its own rule."""
        glyph = self.font.glyph(number)
        phantoms, current = self.phantoms(number, glyph.x_min if glyph else 0)
        made = Made([], [], [], phantoms, current)
        if glyph is None:
            return made
        if isinstance(glyph, Composite):
            for part in glyph.parts:
                self.add_part(made, number, part, depth)
        else:
            self.count += len(glyph.points)
            if self.count > POINTS:
                raise Refused("TooManyPoints", glyph=self.root)
            made.points = [(self.scale(x), self.scale(y)) for x, y, _ in glyph.points]
            made.on, made.ends = [on for _, _, on in glyph.points], list(glyph.ends)
        if self.hinted and glyph.program and not self.machine.no_programs:
            gs = self.run(made, number, glyph.program)
            if depth == 0:
                self.asked = asked_by(gs)
        return made

    def add_part(self, made, number, part, depth):
        """Joins a component to a composite."""
        if depth + 1 > DEPTH:
            raise Refused("ComponentDepth", glyph=part.glyph)
        self.records += 1
        if self.records > COMPONENTS:
            raise Refused("TooManyComponents", glyph=self.root)
        child = self.make(part.glyph, depth + 1)
        points = [transformed(place, part.matrix) for place in child.points]
        dx, dy = self.offset(made, number, part, points)
        first = len(made.points)
        made.points += [(w32(x + dx), w32(y + dy)) for x, y in points]
        made.on += child.on
        made.ends += [first + end for end in child.ends]
        if part.flags & METRICS:
            made.phantoms, made.current = child.phantoms, child.current

    def offset(self, made, number, part, points):
        """How far a component is moved: by its offset, or so that two points meet."""
        a, b = part.args
        if part.flags & OFFSETS:
            offset = self.scale(a), self.scale(b)
            return tuple(w32(to_pixel(v)) for v in offset) if part.flags & ROUND and self.hinted else offset
        if a >= len(made.points) or b >= len(points):
            raise Refused("BadPointMatch", glyph=number)
        return made.points[a][0] - points[b][0], made.points[a][1] - points[b][1]

    def initial(self):
        """The graphics state from which a glyph's program starts."""
        gs = Graphics() if self.machine.default_state else self.machine.gs.copy()
        for name in ("pv", "fv", "dv", "rp", "zp", "loop", "round"):
            setattr(gs, name, getattr(Graphics, name))
        return gs

    def run(self, made, number, program):
        """Runs a glyph's program on its points and phantom points. Returns the graphics state that it leaves."""
        machine = self.machine.fork()
        machine.gs = self.initial()
        zone = Zone(made.points + made.phantoms, made.points + made.current, made.on + [0] * 4, made.ends)
        machine.zones[1] = zone
        machine.run(number, program)
        made.points, made.on, made.current = zone.cur[:-4], zone.on[:-4], zone.cur[-4:]
        return machine.gs


def asked_by(gs):
    """What a graphics state asks of drop-out control: nothing (None), none (False), "left" or "near"."""
    return gs.scan_type if gs.scan_control else gs.scan_control


def transformed(place, matrix):
    """A place by a component's matrix."""
    (x, y), (a, b, c, d) = place, matrix
    return w32(near(a * x + c * y, ONE)), w32(near(b * x + d * y, ONE))
