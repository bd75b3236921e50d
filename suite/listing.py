"""Lists the programs that a case runs: a line for each instruction, with its address. An opcode that is not defined is a byte, as
#28."""
import os

from making.assembler import NAMES
from reference.charmap import CharMap
from reference.faults import Halt, Refused
from reference.fontfile import Composite, Font, read_glyph
from reference.machine import next_place, pushed
from reference.trace import OPCODES

HERE = os.path.dirname(os.path.realpath(__file__))
DEEPEST = 8  # of components


def listed(code):
    """Pairs of an address and an instruction with its data; what is cut is shown as bytes."""
    at = 0
    while at < len(code):
        after = next_place(code, at)
        if after is None:
            yield at, "#" + code[at:].hex().upper()
            return
        yield at, instruction(code[at:after])
        at = after


def instruction(code):
    """An instruction as the assembler of the suite has it: a mnemonic, its flags after a colon, and what it pushes."""
    opcode, name = code[0], OPCODES[code[0]]
    if name == "UNDEFINED":
        return "#%02X" % opcode
    flags = opcode - NAMES[name]
    has_flags = not pushed(code, 0) and (flags or OPCODES[opcode + 1:opcode + 2] == [name])
    return " ".join([name + (":%X" % flags if has_flags else ""), *map(str, pushed(code, 0))])


def programs(case):
    """Pairs of a title and a listing: the glyph's program, those of its components, `prep` and `fpgm`. Empty ones are left out."""
    with open(os.path.join(HERE, "fonts", case["font"]), "rb") as file:
        data = file.read()
    if not case["hinted"]:
        return []
    try:
        font = Font(data, case.get("face", 0))
    except Refused:
        return []
    found = of_glyph(font, glyph_of(font, case), 0)
    found += [(name, font.tables.get(name, b"")) for name in ("prep", "fpgm")]
    return [(title, list(listed(code))) for title, code in found if code]


def glyph_of(font, case):
    """The number of a case's glyph; 0 if its character can't be looked up."""
    if "glyph" in case:
        return case["glyph"]
    try:
        return CharMap(font).glyph(case["char"])
    except Refused:
        return 0


def of_glyph(font, number, depth):
    """The programs of a glyph and of its components."""
    try:
        glyph = read_glyph(font.glyph_bytes(number), number)
    except (Refused, Halt):
        return []
    own = [("glyph %d" % number, glyph.program)] if glyph else []
    parts = glyph.parts if isinstance(glyph, Composite) and depth < DEEPEST else []
    return own + [it for part in parts for it in of_glyph(font, part.glyph, depth + 1)]
