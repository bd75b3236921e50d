"""Programs that a rasterizer has to stop: each cause, in a glyph's program, in a function, in `prep` and in `fpgm`."""
from making.fontmaker import FontMaker
from making.probe import picture, shown
from making.suite import APPLE

ABOUT = APPLE + "Instruction set: %s"
NO_TEXT = "the manual does not say what follows: the program halts, and the glyph is refused"
LIMIT = "a program may execute 250,000 instructions"
NO_FUNCTION = "a function that is not there goes before the depth of calls"
DEPTH = "32 calls may be open"
OPEN = "an IF or ELSE whose EIF is missing halts only if the program has to find it"
END = "a program that ends within a function, or returns without a call, halts"
# Operands of each row: one number less than these is too few.
OPERANDS = {
    1: "DUP POP CINDEX MINDEX SRP0 SRP1 SRP2 SZP0 SZP1 SZP2 SZPS SLOOP SMD SCVTCI SSWCI SSW NOT ABS NEG FLOOR CEILING ROUND NROUND "
       "ODD EVEN RS RCVT IF JMPR CALL FDEF IDEF SROUND S45ROUND SDB SDS MDAP UTP SHP SHC SHZ ALIGNRP IP FLIPPT GC MDRP DELTAP1 "
       "DELTAP2 DELTAP3 DELTAC1 DELTAC2 DELTAC3 GETINFO SCANCTRL SCANTYPE DEBUG AA SANGW",
    2: "SWAP ADD SUB DIV MUL MAX MIN LT LTEQ GT GTEQ EQ NEQ AND OR WS WCVTP WCVTF JROT JROF LOOPCALL SPVTL SFVTL SDPVTL SPVFS "
       "SFVFS "
       "MIAP MSIRP MIRP SCFS MD ALIGNPTS FLIPRGON FLIPRGOFF SHPIX INSTCTRL",
    3: "ROLL", 5: "ISECT",
}
BAD = ["0 CINDEX", "-1 CINDEX", "5 6 3 CINDEX", "0 MINDEX", "5 6 3 MINDEX", "2 SZP0", "-1 SZP1", "2 SZP2", "2 SZPS", "-1 SLOOP",
       "7 SDS", "-1 SDS", "2 SHZ", "-1 SHZ:1",
       "64 FDEF ENDF", "-1 FDEF ENDF", "256 IDEF ENDF", "-1 IDEF ENDF", "-1 DELTAP1", "-1 DELTAC1", "64 FDEF 1"]
CUTS = ["#B0", "#B1 #01", "#B8", "#B8 #01", "#40", "#40 #02 #01", "#41", "#41 #01 #05", "#BF #00 #01", "0 IF", "1 IF 5 ELSE",
        "0 IF #B0 #59", "0 IF 1 IF EIF", "0 IF #41 #02 #59 #59", "5 FDEF", "5 FDEF 1", "5 FDEF #B0 #2D", "145 IDEF 1"]
JUMPS = ["-3 JMPR", "-100 JMPR", "2 JMPR", "100 JMPR", "100 1 JROT", "-100 1 JROT", "100 0 JROF", "3 0 JROF", "32767 JMPR"]
NESTED = ["5 FDEF 6 FDEF ENDF ENDF", "5 FDEF 145 IDEF ENDF ENDF", "145 IDEF 5 FDEF ENDF", "5 FDEF 6 FDEF", "145 IDEF 146 IDEF ENDF"]
FUNCTIONS = ["5 CALL", "-1 CALL", "64 CALL", "3 5 LOOPCALL", "1 64 LOOPCALL", "10000 CALL"]
ENDS = ["ENDF", "1 CALL", "0 IF ENDF EIF ENDF", "2 CALL"]
FPGM = "2 FDEF 2 CALL ENDF 4 FDEF POP ENDF 6 FDEF 5 0 DIV ENDF 7 FDEF #28 ENDF 1 FDEF 2 JMPR ENDF"


def make(suite):
    """The cases of the group."""
    suite.group = "halts"
    font = suite.font(FontMaker("halts", fpgm=FPGM))
    for count, names in OPERANDS.items():
        for name in names.split():
            for given in {count - 1, 0}:
                program = "%s %s" % (" ".join(["1"] * given), name)
                halt(suite, font, "%s-of-%d" % (name.lower(), given), program, name, NO_TEXT)
    for name, programs, part, own in [("argument", BAD, "arguments that are not allowed", NO_TEXT),
                                      ("cut", CUTS, "programs that end early", NO_TEXT), ("jump", JUMPS, "jumps", NO_TEXT),
                                      ("nested", NESTED, "nested definitions", NO_TEXT),
            ("function", FUNCTIONS, "calls of functions that are not there", NO_TEXT), ("end", ENDS, "ENDF", END)]:
        for k, program in enumerate(programs):
            halt(suite, font, "%s-%d" % (name, k), program, part, own)
    for k, program in enumerate(["1 0 DIV", "0 0 DIV", "-5 0 DIV", "6 CALL"]):
        halt(suite, font, "divide-%d" % k, program, "DIV by 0", NO_TEXT)
    for opcode in sorted(set([0x28, 0x7B, 0x83, 0x84] + list(range(0x8F, 0xB0, 3)))):
        halt(suite, font, "opcode-%02x" % opcode, "#%02X" % opcode, "opcodes that are not defined", NO_TEXT)
    for k, program in enumerate(["1 IF 40", "0 IF 90 ELSE 40", "1 IF 1 IF 40 EIF"]):
        halt(suite, font, "open-%d" % k, "SVTCA:1 0 %s SCFS" % program, "IF without EIF", OPEN)
    halt(suite, font, "opcode-in-function", "7 CALL", "opcodes that are not defined", NO_TEXT)
    for k, program in enumerate(["5 SLOOP 1 2 ALIGNRP", "3 SLOOP 1 2 SHP:0", "2 SLOOP 5 40 SHPIX", "4 SLOOP IP",
                                 "2 SLOOP 1 FLIPPT", "120 1 2 DELTAP1", "1 DELTAC1", "100 DELTAP3", "4 CALL", "3 4 LOOPCALL"]):
        halt(suite, font, "loop-%d" % k, program, "too few operands", NO_TEXT)
    make_limits(suite, font)
    make_preludes(suite)


def halt(suite, font, name, program, part, own, **more):
    """A case of a program that halts."""
    suite.case(name, font, ABOUT % part, picture(font, program), own=own, **more)


def make_limits(suite, font):
    """Room of the stack, calls that are open, and instructions that are executed."""
    small = suite.font(FontMaker("small-stack", stack=4, fpgm=FPGM))
    for k, count in enumerate((4, 36, 37, 40)):
        own = "the stack has room for maxStackElements and 32 more" if count > 4 else None
        halt(suite, small, "room-%d" % k, " ".join(["1"] * count), "room of the stack", own)
    halt(suite, small, "room-loop", "1 DUP -4 JMPR", "room of the stack", LIMIT)
    fpgm = "1 FDEF DUP IF 1 SUB SWAP 1 ADD SWAP 1 CALL ELSE POP EIF ENDF 2 FDEF 2 CALL ENDF " \
        "3 FDEF DUP IF 1 SUB 3 CALL ELSE 50 CALL EIF ENDF"
    calls = suite.font(FontMaker("calls", fpgm=fpgm))
    for depth in (1, 30, 31, 32, 60):
        own = DEPTH if depth > 31 else None
        halt(suite, calls, "depth-%d" % depth, shown("0 %d 1 CALL" % depth, 1), "calls that are open", own)
    halt(suite, calls, "depth-endless", "2 CALL", "calls that are open", DEPTH)
    halt(suite, calls, "depth-of-no-function", "31 3 CALL", "calls that are open", NO_FUNCTION)
    steps = suite.font(FontMaker("steps", fpgm="1 FDEF %s ENDF" % " ".join(["SVTCA:1"] * 6)))
    for name, count, last in (("just", 250000, ""), ("one-more", 250001, ""), ("cut", 250000, "#B0")):
        program = "%s %s" % (of_steps(count), last)
        halt(suite, steps, "steps-%s" % name, program, "instructions that are executed", LIMIT, bits=False)
    halt(suite, font, "endless", "#B8 #FF #FD #1C", "a loop without end", LIMIT)
    halt(suite, font, "endless-if", "1 #B8 #FF #FD #1C", "a loop without end", LIMIT)


def of_steps(count):
    """A program of so many instructions: calls of a function that has seven, and some more."""
    times, more = divmod(count - 140007, 7)
    return "SVTCA:1 0 MDAP:1 20000 1 LOOPCALL %d 1 LOOPCALL %s" % (times, " ".join(["SVTCA:1"] * more))


def make_preludes(suite):
    """Faults of `prep` and `fpgm` refuse all glyphs."""
    own = "a font whose fpgm or prep halts is refused at every glyph"
    for where in ("fpgm", "prep"):
        for k, program in enumerate(["ADD", "1 0 DIV", "#28", "5 CALL", "#B0", "3 SZPS", "0 IF", "ENDF", "100 JMPR",
                                     "1 FDEF 2 FDEF ENDF ENDF"]):
            font = suite.font(FontMaker("%s-%d" % (where, k), **{where: program}))
            glyph = picture(font, "SVTCA:1 0 MDAP:1")
            for hinted in (False, True):
                suite.case("%s-%d-%s" % (where, k, "hinted" if hinted else "unhinted"), font, ABOUT % ("a fault in " + where),
                           glyph, hinted=hinted, own=own if hinted else None)
