"""Wrong readings of what programs ask of drop-out control, and of the nearer pixel."""
from .base import Reading

CONTROL, ELSE, TYPE = ("    if threshold in (0, 255):\n", "    elif threshold in (0, 255):\n",
                       "    m.gs.scan_type = SCAN_TYPES.get(m.pop(1)[0], m.gs.scan_type)")
NOT_ON, BY_FONT, FONT = ("off_unless_turned or off_above and m.ppem > threshold", '"left" if by_font is None else by_font',
                         '    if dropout_asked == "font":')
STATE, CLOSED, ASKS = "rows_state", "dropout.bits(pieces, kind) if kind", "self.machine.gs.scan_control, self.machine.gs.scan_type"


def by_request(condition, kind):
    """What goes before the choice of drop-out control: under a condition it is this kind."""
    return "    if %s:\n        return %r\n%s" % (condition, kind, FONT)


READINGS = [Reading(name, "asked", text, *edits) for name, text, *edits in (
    # SCANCTRL
    ("control_ignored", "SCANCTRL does nothing", STATE, CONTROL, "    return\n" + CONTROL),
    ("control_always_on", "SCANCTRL turns it on, whatever its operand", STATE, CONTROL,
     "    m.gs.scan_control = True\n    return\n" + CONTROL),
    ("control_turns_all_off", "SCANCTRL turns it off, whatever its operand", STATE, CONTROL,
     "    m.gs.scan_control = False\n    return\n" + CONTROL),
    ("on_below", "bit 8 turns it on below the threshold, not at it", STATE, "on and m.ppem <= threshold",
     "on and m.ppem < threshold"),
    ("on_at_all_sizes", "bit 8 turns it on at any size", STATE, CONTROL,
     "    if on and threshold:\n        m.gs.scan_control = True\n" + ELSE),
    ("off_from", "bit 11 turns it off at the threshold too", STATE, "off_above and m.ppem > threshold",
     "off_above and m.ppem >= threshold"),
    ("off_above_ignored", "bit 11 does nothing", STATE, NOT_ON, "off_unless_turned"),
    ("threshold_255_is_a_size", "the threshold 255 is a size as others", STATE, CONTROL, "    if threshold == 0:\n"),
    ("threshold_0_is_a_size", "the threshold 0 is a size as others", STATE, CONTROL,
     "    if threshold == 0 and not value & 0x3800:\n        return\n" + CONTROL),
    ("on_goes_first", "a flag that turns it on goes before one that turns it off", STATE, NOT_ON,
     "(%s) and not (on and m.ppem <= threshold)" % NOT_ON),
    ("bit_12_ignored", "bit 12 turns it off only for a glyph that is turned", STATE, "value & 0x3000", "value & 0x2000"),
    ("bit_13_ignored", "bit 13 turns it off only for a glyph that is stretched", STATE, "value & 0x3000", "value & 0x1000"),
    ("bits_9_and_10_on", "bits 9 and 10 turn it on for any glyph", STATE, "value & 0x100", "value & 0x700"),
    ("no_flag_is_off", "without a flag that acts it is off", STATE, "bool(m.gs.scan_control)", "False"),
    ("no_flag_is_on", "without a flag it is on up to the threshold", STATE, "value & 0x100", "value & 0x100 or not value & 0x3F00"),
    ("high_bits_refused", "a word with a bit above 13 is passed over", STATE, CONTROL,
     "    if not 0 <= value < 0x4000:\n        return\n" + CONTROL),
    ("high_bits_turn_off", "bits 14 and 15 turn it off", STATE, CONTROL,
     "    if value & 0xC000:\n        m.gs.scan_control = False\n" + ELSE),
    # SCANTYPE
    ("type_0_is_near", "type 0 is the nearer pixel", STATE, '0: "left"', '0: "near"'),
    ("type_1_is_none", "type 1 is none", STATE, '1: "left"', "1: False"),
    ("type_2_is_left", "type 2 is the left pixel", STATE, " 2: False", ' 2: "left"'),
    ("type_3_is_left", "type 3 is the left pixel", STATE, " 3: False", ' 3: "left"'),
    ("type_4_is_left", "smart drop-out control is the left pixel", STATE, '4: "near"', '4: "left"'),
    ("type_5_is_left", "type 5 is the left pixel", STATE, '5: "near"', '5: "left"'),
    ("types_from_6_are_near", "types 6 to 8 are the nearer pixel", STATE, "6: False, 7: False, 8: False",
     '6: "near", 7: "near", 8: "near"'),
    ("other_types_off", "a number that is no type turns it off", STATE, "[0], m.gs.scan_type)", "[0], False)"),
    ("other_types_left", "a number that is no type is type 0", STATE, "[0], m.gs.scan_type)", '[0], "left")'),
    ("type_ignored", "SCANTYPE does nothing", STATE, TYPE, "    m.pop(1)"),
    ("type_turns_on", "SCANTYPE turns it on", STATE, TYPE, TYPE + "\n    m.gs.scan_control = True"),
    # what the drawing heeds
    ("font_not_heeded", "the left pixel is set, whatever the font asks for", "answer", BY_FONT, '"left"'),
    ("font_turns_it_off", "none is the default, also where the font asks for it", "answer", BY_FONT, "False"),
    ("nothing_is_off", "a font that asks for nothing asks for none", "answer", BY_FONT, "False if by_font is None else by_font"),
    ("left_heeds_off", "the left pixel is set unless the font asks for none",
     "answer", FONT, by_request('dropout_asked == "left" and by_font is False', False)),
    ("near_heeds_off", "the nearer pixel is set unless the font asks for none",
     "answer", FONT, by_request('dropout_asked == "near" and by_font is False', False)),
    ("near_heeds_left", "the nearer pixel is set unless the font asks for the left one",
     "answer", FONT, by_request('dropout_asked == "near" and by_font == "left"', "left")),
    ("left_is_near", "the nearer pixel is set in place of the left one", "answer", FONT,
     by_request('dropout_asked == "left"', "near")),
    ("off_heeds_the_font", "what a font asks for is done without being asked for",
     "answer", FONT, "    if dropout_asked is False and by_font:\n        return by_font\n" + FONT),
    ("near_is_left", "there is only the left pixel", "dropout", 'nearer_pixel if kind == "near" else left_pixel', "left_pixel"),
    ("type_alone_asks", "SCANTYPE without SCANCTRL asks for its type", "outline", "return gs.scan_type if gs.scan_control else",
     'return gs.scan_type if gs.scan_control or gs.scan_control is None and gs.scan_type != "left" else'),
    ("components_ask", "a composite is drawn as its last component's program asks", "outline", "            if depth == 0:",
     "            if True:"),
    ("fpgm_asks", "what fpgm asked for holds until prep asks for something else", "outline", "        machine.gs = Graphics()\n",
     ""),
    ("default_state_asks", "with the default state what prep asked of drop-out control stays",
     "outline", "        return gs\n", "        gs.scan_control, gs.scan_type = %s\n        return gs\n" % ASKS),
    ("glyph_to_glyph", "a glyph's program leaves what it asked for to the next glyph",
     "outline", "        return machine.gs\n",
     "        %s = machine.gs.scan_control, machine.gs.scan_type\n        return machine.gs\n" % ASKS),
)] + [Reading(name, "nearer", text, *edits) for name, text, *edits in (
    ("nearer_is_left", "the nearer pixel is the left one", "dropout", "    return i + (sum", "    return i\n    return i + (sum"),
    ("nearer_is_right", "the nearer pixel is the right one", "dropout", "    return i + (sum",
     "    return i + 1\n    return i + (sum"),
    ("farther_pixel", "the farther pixel is set", "dropout", " > left)", " <= left)"),
    ("nearer_by_the_first_crossing", "the pixel is set that is nearer to the stroke's first edge",
     "dropout", "    return i + (sum",
     "    return i + (next((n for n in range(1, 128) if covered(pieces, (x + n, y))), 0) > 64)\n    return i + (sum"),
    ("ties_to_the_right", "of two pixels that are equally near the right or upper one is set", "dropout", " > left)", " >= left)"),
    ("gaps_one_by_one", "gaps of a row are closed one after the other, from the left", "dropout", "is_gap(here, so_far, i, j)",
     "is_gap(here, so_far | found, i, j)"),
    ("columns_first", "gaps of columns are closed before those of rows",
     "answer", CLOSED, "{(i, j) for j, i in dropout.bits([tuple(map(dropout.turned, it)) for it in pieces], kind)} if kind"),
    ("rows_alone_by_the_nearer", "gaps of columns are closed by the lower pixel", "dropout", "for i, j in so_far}, pixel)",
     "for i, j in so_far}, left_pixel)"),
)]
