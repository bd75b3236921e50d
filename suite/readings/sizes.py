"""Wrong readings of scaling, control values, original distances, phantom points, and the places of components."""
from .base import Reading

SCALED, OUTLINE, POINTS, STATE = "return near(value * ppem * 64, upem)", "outline", "rows_points", "rows_state"
VALUES, FIXED = "values = [self.scale(i16(cvt, 2 * k)) for k in range(len(cvt) // 2)]", "near(self.ppem << 22, font.upem)"
OF_VALUE = "for value in (i16(cvt, 2 * k) for k in range(len(cvt) // 2))]"
PLACES = "[(w32(to_pixel(x)), w32(to_pixel(y))) for x, y in places]"
HEIGHTS = "(0, self.scale(font.ascender)),\n                  (0, self.scale(font.descender))]"
ZONE = "Zone(made.points + made.phantoms, made.points + made.current,"
LEFT = "made.on, made.current = zone.cur[:-4], zone.on[:-4], zone.cur[-4:]"
PRODUCTS = "w32(near(a * x + c * y, ONE)), w32(near(b * x + d * y, ONE))"
MATCHED = "        return made.points[a][0] - points[b][0], made.points[a][1] - points[b][1]"
TAKEN = "made.current = child.phantoms, child.current"
# The points of a simple glyph in FUnits are given to the zone, and a row measures these.
UNITS = (OUTLINE, "            made.on, made.ends = [on",
"            made.units = [it[:2] for it in glyph.points]\n            made.on, made.ends = [on",
         OUTLINE, "        machine.zones[1] = zone\n",
         '        machine.zones[1] = zone\n        zone.units = getattr(made, "units", None)\n')
BETWEEN = '''def by_units(zone, axis, p, before, after):
    """Interpolates by FUnits."""
    units, o = [place[axis] for place in zone.units or zone.org], zone.org[p][axis]
    low, high = sorted((before, after), key=lambda p: units[p])
    if not units[low] < units[p] < units[high]:
        end = high if units[p] >= units[high] else low
        return o + zone.cur[end][axis] - zone.org[end][axis]
    return zone.cur[low][axis] + near((units[p] - units[low]) * (zone.cur[high][axis] - zone.cur[low][axis]),
    units[high] - units[low])


def between(zone'''
MEASURED = '''def by_units(m, one, p, other, q, scaled_one):
    """The distance of two points by FUnits, if both zones have them."""
    units = [getattr(m.zone(k), "units", None) for k in (one, other)]
    if not all(units) or not 0 <= p < len(units[0]) or not 0 <= q < len(units[1]):
        return scaled_one
    return m.scale(dot(m.gs.dv, minus(units[0][p], units[1][q])))


'''


def measured(name, text, place, of):
    """A reading of a row that measures original distances in FUnits: where its function begins, and the distance there."""
    return Reading(name, "scaling", text, *UNITS, POINTS, place, MEASURED + place, POINTS, *of)


def values(name, text, value):
    """A reading of how a control value is scaled."""
    return Reading(name, "scaling", text, OUTLINE, VALUES, "values = [%s %s" % (value, OF_VALUE))


READINGS = [Reading(*row) for row in (
    # the scale, and halves
    ("scale_of_16_bits", "scaling", "a place is scaled by a 16.16 factor", "numbers", SCALED,
     "return near(value * near(ppem << 22, upem), 1 << 16)"),
    ("scale_cut_short", "scaling", "a place is scaled by a 16.16 factor without its last six bits",
     "numbers", SCALED, "return near(64 * value * (near(ppem << 22, upem) >> 6), 1 << 16)"),
    ("scaled_toward_zero", "scaling", "a scaled value is cut, toward zero", "numbers", SCALED,
     "return cut(value * ppem * 64, upem)"),
    ("scaled_halves_up", "scaling", "a scaled value halfway goes up, also below zero", "numbers", SCALED,
     "return (value * ppem * 128 + upem) // (2 * upem)"),
    ("scaled_halves_down", "scaling", "a scaled value halfway goes toward zero",
     "numbers", SCALED,
     "return -((upem - value * ppem * 128) // (2 * upem)) if value > 0 else (value * ppem * 128 + upem) // (2 * upem)"),
    ("scaled_halves_even", "scaling", "a scaled value halfway goes to the even number",
     "numbers", SCALED, "return round(value * ppem * 64 / upem)"),
    ("wcvtf_not_scaled", "scaling", "WCVTF writes its operand as it is", "rows_stack", "m.scale(value)", "value"),
    ("width_not_scaled", "scaling", "SSW takes its operand as pixels", STATE, "m.scale(m.pop(1)[0])", "m.pop(1)[0]"),
    ("rows_scale_of_16_bits", "scaling", "WCVTF and SSW scale by a 16.16 factor",
     OUTLINE, "self.ppem, self.scale, values,", "self.ppem, lambda value: near(value * %s, 1 << 16), values," % FIXED),
    # phantom points
    ("phantoms_halves_up", "phantoms", "a phantom point halfway between pixels goes up", OUTLINE, PLACES,
     "[((x + 32) // 64 * 64, (y + 32) // 64 * 64) for x, y in places]"),
    ("phantoms_floored", "phantoms", "a hinted phantom point goes to the pixel below", OUTLINE, PLACES,
     "[(x // 64 * 64, y // 64 * 64) for x, y in places]"),
    ("phantoms_away", "phantoms", "a hinted phantom point goes to the pixel above", OUTLINE, PLACES,
     "[(-(-x // 64) * 64, -(-y // 64) * 64) for x, y in places]"),
    ("origin_unrounded", "phantoms", "of a hinted glyph the advance alone is rounded", OUTLINE, PLACES,
     "[places[0], (w32(places[0][0] + to_pixel(places[1][0] - places[0][0])), 0), *places[2:]]"),
    ("heights_unrounded", "points", "the two phantom points of height are not rounded", OUTLINE, PLACES,
     "[(to_pixel(x), y) for x, y in places]"),
    ("originals_rounded", "points", "a phantom point's original place is rounded too",
     OUTLINE, "return places, " + PLACES, "return (%s,) * 2" % PLACES),
    ("phantoms_swapped", "points", "the advance's phantom point comes before the origin's",
     OUTLINE, ZONE, "Zone(*(made.points + [it[1], it[0], *it[2:]] for it in (made.phantoms, made.current)),",
     OUTLINE, LEFT, LEFT.replace("zone.cur[-4:]", "[zone.cur[-3], zone.cur[-4], *zone.cur[-2:]]")),
    ("heights_first", "points", "the phantom points of height come before those of width",
     OUTLINE, ZONE, "Zone(*(made.points + it[2:] + it[:2] for it in (made.phantoms, made.current)),",
     OUTLINE, LEFT, LEFT.replace("zone.cur[-4:]", "zone.cur[-2:] + zone.cur[-4:-2]")),
    ("heights_swapped", "points", "the descender's phantom point comes before the ascender's", OUTLINE, HEIGHTS,
     "(0, self.scale(font.descender)), (0, self.scale(font.ascender))]"),
    ("heights_at_zero", "points", "the last two phantom points lie at the origin's height", OUTLINE, HEIGHTS, "(0, 0), (0, 0)]"),
    ("empty_at_zero", "phantoms", "the origin of an empty glyph is at 0, whatever its bearing", OUTLINE,
     "glyph.x_min if glyph else 0", "glyph.x_min if glyph else self.font.bearing(number)"),
    ("bearing_of_the_last", "phantoms", "a bearing past hmtx is the last one there",
     "fontfile", "if at + 2 <= len(self.hmtx) else 0", "if at + 2 <= len(self.hmtx) else i16(self.hmtx, len(self.hmtx) - 2)"),
    ("advance_of_hdmx", "phantoms", "an advance is that of hdmx, if it has one for the size",
     OUTLINE, "made.ends, w32(made.current[1][0] - left)",
     'made.ends, 64 * self.font.tables["hdmx"][10 + glyph] if self.hinted and "hdmx" in self.font.tables '
     "else w32(made.current[1][0] - left)"),
    # components
    ("offsets_halves_up", "composites", "an offset halfway between pixels goes up", OUTLINE,
     "tuple(w32(to_pixel(v)) for v in offset)", "tuple((v + 32) // 64 * 64 for v in offset)"),
    ("offset_scaled_by_flag", "composites", "SCALED_COMPONENT_OFFSET transforms an offset",
     OUTLINE, "            offset = self.scale(a), self.scale(b)\n",
     "            offset = self.scale(a), self.scale(b)\n"
     "            offset = transformed(offset, part.matrix) if part.flags & 0x800 else offset\n"),
    ("products_apart", "composites", "each product of a matrix is rounded by itself",
     OUTLINE, PRODUCTS, "w32(near(a * x, ONE) + near(c * y, ONE)), w32(near(b * x, ONE) + near(d * y, ONE))"),
    ("products_floored", "composites", "the products of a matrix drop the fraction", OUTLINE, PRODUCTS,
     "w32((a * x + c * y) // ONE), w32((b * x + d * y) // ONE)"),
    ("products_halves_up", "composites", "the products of a matrix round halves up",
     OUTLINE, PRODUCTS, "w32((a * x + c * y + ONE // 2) // ONE), w32((b * x + d * y + ONE // 2) // ONE)"),
    ("match_counts_phantoms", "composites", "point matching counts the composite's phantom points",
     OUTLINE, "if a >= len(made.points) or", "if a >= len(made.points) + 4 or",
     OUTLINE, MATCHED, "        at = (made.points + made.current)[a]\n        return at[0] - points[b][0], at[1] - points[b][1]"),
    ("match_rounded", "composites", "ROUND_XY_TO_GRID rounds the way of a matched component",
     OUTLINE, MATCHED, MATCHED.replace("return ",
     "way = ") + "\n        return tuple(to_pixel(v) for v in way) if part.flags & ROUND and self.hinted else way"),
    ("metrics_of_the_first", "composites", "of two components with USE_MY_METRICS the first counts",
     OUTLINE, "if part.flags & METRICS:\n",
     'if part.flags & METRICS and not hasattr(made, "taken"):\n            made.taken = True\n'),
    ("metrics_before_its_program", "composites", "USE_MY_METRICS takes a component's metrics before its program",
     OUTLINE, TAKEN,
     "made.current = child.phantoms, [(to_pixel(x), to_pixel(y)) if self.hinted else (x, y) for x, y in child.phantoms]"),
    ("metrics_with_the_offset", "composites", "USE_MY_METRICS moves the metrics by the component's offset",
     OUTLINE, TAKEN, "made.current = child.phantoms, [(w32(x + dx), y) for x, y in child.current[:1]] + child.current[1:]"),
    ("metrics_advance_alone", "composites", "USE_MY_METRICS takes the advance, and leaves the origin",
     OUTLINE, TAKEN,
     "made.current = made.phantoms, [made.current[0], "
     "(made.current[0][0] + child.current[1][0] - child.current[0][0], 0), *made.current[2:]]"),
    ("program_of_the_last_flag", "composites", "WE_HAVE_INSTRUCTIONS counts at the last component alone",
     "fontfile", "any_program = bool(flags & MORE), any_program or bool(flags & PROGRAM)",
     "any_program = bool(flags & MORE), bool(flags & PROGRAM)"),
    ("originals_of_components", "composites",
     "a composite's program sees the places of its components' outlines as the original ones",
     OUTLINE, "        self.parts = 0  # the", "        self.before, self.parts = [], 0  # the",
     OUTLINE, "            made.on, made.ends = [on",
     "            made.before = list(made.points)\n            made.on, made.ends = [on",
     OUTLINE, "        made.on += child.on\n", "        before = [transformed(place, part.matrix) for place in child.before]\n"
     "        made.before += [(w32(x + dx), w32(y + dy)) for x, y in before]\n        made.on += child.on\n",
     OUTLINE, ZONE, ZONE.replace("made.points", "made.before", 1)),
    ("components_stay_touched", "composites", "a composite's points are touched at first",
     OUTLINE, "            for part in glyph.parts:\n", "            made.joined = True\n            for part in glyph.parts:\n",
     OUTLINE, "        machine.zones[1] = zone\n",
     '        machine.zones[1] = zone\n        zone.touched = [[hasattr(made, "joined")] * 2 for _ in zone.org]\n'),
    ("no_points_no_program", "composites", "a composite without points does not run its program", OUTLINE,
     "if self.hinted and glyph.program and", "if self.hinted and glyph.program and made.points and"),
    ("arguments_unsigned", "composites", "offsets in bytes are not negative", "fontfile", '("b" if flags & OFFSETS else "B")',
     '"B"'),
    ("numbers_signed", "composites", "numbers of matched points are signed", "fontfile", '("b" if flags & OFFSETS else "B")',
     '"b"'),
    ("seven_deep", "composites", "composites are at most 7 deep", OUTLINE, "DEPTH, COMPONENTS, POINTS = 8, 256, 16384",
     "DEPTH, COMPONENTS, POINTS = 7, 256, 16384"),
    ("nine_deep", "composites", "composites are at most 9 deep", OUTLINE, "DEPTH, COMPONENTS, POINTS = 8, 256, 16384",
     "DEPTH, COMPONENTS, POINTS = 9, 256, 16384"),
    ("fewer_components", "composites", "a character has at most 255 component records", OUTLINE,
     "DEPTH, COMPONENTS, POINTS = 8, 256, 16384", "DEPTH, COMPONENTS, POINTS = 8, 255, 16384"),
    ("more_components", "composites", "a character has at most 257 component records", OUTLINE,
     "DEPTH, COMPONENTS, POINTS = 8, 256, 16384", "DEPTH, COMPONENTS, POINTS = 8, 257, 16384"),
    ("fewer_points", "composites", "a character has at most 16,383 points", OUTLINE, "DEPTH, COMPONENTS, POINTS = 8, 256, 16384",
     "DEPTH, COMPONENTS, POINTS = 8, 256, 16383"),
    ("more_points", "composites", "a character has at most 16,385 points", OUTLINE, "DEPTH, COMPONENTS, POINTS = 8, 256, 16384",
     "DEPTH, COMPONENTS, POINTS = 8, 256, 16385"),
)] + [
    # control values, and what is measured in FUnits
    values("cvt_scale_cut_short", "control values are scaled by a 16.16 factor without its last six bits",
    "near(64 * value * (%s >> 6), 1 << 16)" % FIXED),
    values("cvt_scale_of_16_bits", "control values are scaled by a 16.16 factor", "near(value * %s, 1 << 16)" % FIXED),
    values("cvt_floored", "control values are scaled without rounding", "value * self.ppem * 64 // font.upem"),
    values("cvt_halves_up", "a control value halfway goes up, also below zero",
    "(value * self.ppem * 128 + font.upem) // (2 * font.upem)"),
    values("cvt_unscaled", "control values are in pixels", "value"),
    values("cvt_unsigned", "control values are not negative", "self.scale(value & 0xFFFF)"),
    values("cvt_in_whole_pixels", "control values are scaled to whole pixels", "64 * near(value * self.ppem, font.upem)"),
    Reading("iup_by_units", "scaling", "IUP measures original distances in FUnits", *UNITS, POINTS, "def between(zone", BETWEEN,
            POINTS, "between(zone, axis, zone.org[p][axis],", "by_units(zone, axis, p,"),
    measured("mdrp_by_units", "MDRP measures original distances in FUnits", "def move_relative(m):",
             ("original = with_width(m.gs, original_distance(m, p))",
              "original = with_width(m.gs, by_units(m, 1, p, 0, m.gs.rp[0], original_distance(m, p)))")),
    measured("md_by_units", "MD:1 measures original distances in FUnits", "def measure(m):",
             ("m.push(dot(m.gs.dv if old", "m.push(by_units(m, 0, p, 1, q, 0) if old and m.zone(0).ends else dot(m.gs.dv if old")),
    measured("ip_by_units", "IP measures original distances in FUnits", "def interpolate(m):",
             ("        o = dot(m.gs.dv, minus(m.zone(2).get(p, True), m.zone(0).get(rp1, True)))",
              "        o = by_units(m, 2, p, 0, rp1, 0)\n        ob = by_units(m, 1, rp2, 0, rp1, 0)")),
]
