"""Conditions, jumps, functions and definitions of opcodes."""
from making.fontmaker import FontMaker
from making.probe import picture, shown
from making.suite import APPLE

FLOW = APPLE + "Instruction set, Managing the flow of control: %s"
FUNCTIONS = APPLE + "Instruction set, Defining and using functions and instructions: %s"

CONDITIONS = {
    "IF": [("1 IF 5 EIF 6", 2), ("0 IF 5 EIF 6", 1), ("-1 IF 5 EIF", 1), ("256 IF 5 EIF", 1), ("0 IF 5 ELSE 7 EIF", 1),
           ("1 IF 5 ELSE 7 EIF", 1),
           ("9 0 IF 0 IF 1 EIF 2 EIF", 1), ("1 IF 0 IF 1 ELSE 2 EIF 3 EIF", 2), ("0 IF 1 IF 1 ELSE 2 EIF ELSE 3 EIF", 1),
           ("1 IF 1 IF 1 IF 4 EIF EIF EIF", 1), ("0 IF EIF 8", 1), ("0 0 IF #B1 #59 #1B ELSE POP 7 EIF", 1),
           ("0 IF #B8 #1B #59 ELSE 3 EIF", 1),
           ("0 IF #40 #03 #59 #59 #58 ELSE 3 EIF", 1), ("0 IF #41 #01 #59 #1B ELSE 3 EIF", 1)],
    "ELSE": [("1 IF 5 ELSE 6 EIF 7", 2), ("0 IF 5 ELSE 6 EIF 7", 2), ("1 IF 5 ELSE 0 IF 1 ELSE 2 EIF EIF", 1),
             ("1 IF 5 ELSE #B0 #59 EIF 7", 2),
             ("0 IF 5 ELSE 1 IF 3 ELSE 4 EIF EIF", 1), ("1 IF ELSE 6 EIF 7", 1)],
    "EIF": [("EIF 5", 1), ("5 EIF EIF", 1), ("1 IF 5 EIF EIF 6", 2)],
}
# An offset counts from the jump's own opcode.
JUMPS = {
    "JMPR": [("3 JMPR #B0 #09 5", 1), ("1 JMPR 5", 1), ("4 3 JMPR POP POP 5", 2), ("8 2 JMPR POP", 1),
             ("9 4 JMPR #B1 #01 #02 5", 2)],
    "JROT": [("3 1 JROT #B0 #09 5", 1), ("3 0 JROT #B0 #09 5", 2), ("3 -1 JROT #B0 #09 5", 1), ("9999 0 JROT 5", 1),
             ("1 1 JROT 5", 1)],
    "JROF": [("3 0 JROF #B0 #09 5", 1), ("3 1 JROF #B0 #09 5", 2), ("3 -1 JROF #B0 #09 5", 2), ("9999 1 JROF 5", 1),
             ("1 0 JROF 5", 1)],
}
# A loop by a jump back: counts 4 down to 0 and adds 10 each time.
BACK = "0 4 SWAP 10 ADD SWAP 1 SUB DUP -13 SWAP JROT POP"
FPGM = "0 FDEF 5 ENDF 1 FDEF 2 ADD ENDF 2 FDEF 1 CALL 1 CALL ENDF 3 FDEF 1 IF 4 ELSE 6 EIF ENDF 4 FDEF ENDF " \
    "5 FDEF DUP 1 SUB DUP IF 5 CALL EIF ENDF 6 FDEF 1 ENDF 6 FDEF 2 ENDF 63 FDEF 63 ENDF 7 FDEF 3 1 1 LOOPCALL ADD ENDF"
INSTCTRL = APPLE + "Instruction set, Managing the graphics state: INSTCTRL"
ANY_VALUE = "any value but 0 sets the flag of INSTCTRL"
PASSED = "storage, control values and twilight points pass from fpgm to prep"
IN_GLYPH = "a glyph's program may define functions and opcodes, which are forgotten at its end"
NO_TURN = "LOOPCALL with a count below 1 does nothing and does not look at the function"
CALLS = {
    "CALL": [("0 CALL", 1), ("7 1 CALL", 1), ("7 2 CALL", 1), ("3 CALL", 1), ("9 4 CALL", 1), ("4 5 CALL", 4), ("6 CALL", 1),
             ("63 CALL", 1),
             ("0 CALL 0 CALL", 2), ("5 7 CALL", 1)],
    "LOOPCALL": [("7 1 1 LOOPCALL", 1), ("7 5 1 LOOPCALL", 1), ("3 0 LOOPCALL", 3), ("7 40 1 LOOPCALL", 1), ("7 3 2 LOOPCALL", 1)],
    "FDEF": [("8 FDEF 77 ENDF 8 CALL", 1), ("0 FDEF 77 ENDF 0 CALL", 1), ("8 FDEF 0 IF 1 ELSE 2 EIF ENDF 8 CALL", 1),
             ("8 FDEF #B0 #2D ENDF 8 CALL", 1), ("8 FDEF 1 ENDF 8 FDEF 2 ENDF 8 CALL", 1)],
    "IDEF": [("145 IDEF 7 ENDF #91", 1), ("163 IDEF DUP ADD ENDF 21 #A3", 1), ("123 IDEF 3 ENDF #7B #7B", 2),
             ("145 IDEF 1 ENDF 145 IDEF 2 ENDF #91", 1),
             ("40 IDEF 9 ENDF #28 1 #28", 3)],
}
OWN_CALLS = [("LOOPCALL", "7 0 1 LOOPCALL", 1, NO_TURN), ("LOOPCALL", "7 -3 1 LOOPCALL", 1, NO_TURN),
             ("LOOPCALL", "7 0 60 LOOPCALL", 1, NO_TURN),
             ("IDEF", "96 IDEF 9 ENDF 1 2 ADD", 1, "an IDEF of an opcode that the manual defines is kept and never used"),
             ("IDEF", "32 IDEF 9 ENDF 5 DUP", 2, "an IDEF of an opcode that the manual defines is kept and never used")]


def make(suite):
    """The cases of the two groups."""
    font = suite.font(FontMaker("flow", fpgm=FPGM))
    suite.group = "flow"
    for table in (CONDITIONS, JUMPS):
        for name, tries in table.items():
            for k, (program, left) in enumerate(tries):
                suite.case("%s-%d" % (name.lower(), k), font, FLOW % name, picture(font, shown(program + " DEPTH", left + 1)),
                           bits=False)
    suite.case("jrot-back", font, FLOW % "JROT", picture(font, shown(BACK + " DEPTH", 2)), bits=False)
    suite.group = "functions"
    for name, tries in CALLS.items():
        for k, (program, left) in enumerate(tries):
            own = IN_GLYPH if name.endswith("DEF") else None
            suite.case("%s-%d" % (name.lower(), k), font, FUNCTIONS % name, picture(font, shown(program + " DEPTH", left + 1)),
                       own=own, bits=False)
    for k, (name, program, left, own) in enumerate(OWN_CALLS):
        suite.case("%s-own-%d" % (name.lower(), k), font, FUNCTIONS % name, picture(font, shown(program + " DEPTH", left + 1)),
                   own=own, bits=False)
    make_definitions(suite)
    make_inherited(suite)


def make_definitions(suite):
    """FDEF and IDEF in `fpgm`, and replaced in `prep`."""
    fpgm = "20 FDEF 77 ENDF 21 FDEF 0 IF 1 ELSE 2 EIF ENDF 22 FDEF #B0 #2D ENDF 0 FDEF 5 ENDF 23 FDEF 1 ENDF 23 FDEF 2 ENDF " \
        "24 FDEF 1 ENDF 145 IDEF 7 ENDF 163 IDEF DUP ADD ENDF 123 IDEF 3 ENDF 143 IDEF 1 ENDF 143 IDEF 2 ENDF 40 IDEF 9 ENDF " \
        "144 IDEF 1 ENDF 151 IDEF #91 #91 ADD ENDF"
    font = suite.font(FontMaker("definitions", fpgm=fpgm, prep="24 FDEF 3 ENDF 144 IDEF 4 ENDF 25 FDEF 8 ENDF"))
    for name, tries in {"FDEF": ["20 CALL", "21 CALL", "22 CALL", "0 CALL", "23 CALL", "24 CALL", "25 CALL"],
                        "IDEF": ["#91", "21 #A3", "#7B 5", "#8F", "#28 1", "#90", "#97"]}.items():
        for k, program in enumerate(tries):
            suite.case("%s-defined-%d" % (name.lower(), k), font, FUNCTIONS % name, picture(font, shown(program, 1)), bits=False)


def make_inherited(suite):
    """What passes from `fpgm` and `prep` to a glyph's program, and what does not pass from glyph to glyph."""
    font = suite.font(FontMaker("inherited", cvt=[100, 200, -50],
                                fpgm="3 7 WS 9 FDEF 44 ENDF 2 FDEF 1 ENDF 145 IDEF 6 ENDF 0 555 WCVTP "
                                     "0 SZPS 6 192 MSIRP 1 SZPS",
                                prep="2 FDEF 3 ENDF 4 9 WS 10 FDEF 4 RS ENDF 1 777 WCVTP 0 SZPS 2 64 MSIRP 1 SZPS "
                                     "96 SCVTCI 32 SMD"))
    about = APPLE + "Instruction set, font program and control value program: %s"
    tries = [("functions-of-fpgm", "9 CALL", 1), ("storage-of-fpgm", "3 RS", 1), ("storage-of-prep", "4 RS", 1),
             ("cvt-of-prep", "1 RCVT", 1),
             ("cvt-of-fpgm", "0 RCVT", 1), ("functions-of-prep", "10 CALL", 1), ("replaced-by-prep", "2 CALL", 1),
             ("opcodes-of-fpgm", "#91", 1),
             ("twilight-of-prep", "0 SZPS 2 GC 1 SZPS", 1), ("twilight-of-fpgm", "0 SZPS 6 GC 1 SZPS", 1)]
    for name, program, left in tries:
        own = PASSED if name.endswith(("storage-of-fpgm", "cvt-of-fpgm", "twilight-of-fpgm")) else None
        suite.case(name, font, about % name.replace("-", " "), picture(font, shown(program + " DEPTH", left + 1)), own=own,
                   bits=False)
    own = "nothing passes from one glyph's program to another's"
    for name, program in [("storage", "5 RS 5 9 WS"), ("cvt", "2 RCVT 2 9 WCVTP"), ("function", "1 11 FDEF 9 ENDF"),
                          ("twilight", "0 SZPS 5 GC 5 64 SCFS 1 SZPS")]:
        for turn in (0, 1):
            glyph = picture(font, shown(program, 1))
            suite.case("glyph-to-glyph-%s-%d" % (name, turn), font, about % "glyph programs", glyph, own=own, bits=False)
    for name, prep, own in [("no-programs", "1 1 INSTCTRL", None), ("programs-again", "1 1 INSTCTRL 0 1 INSTCTRL", None),
                            ("default-state", "200 SCVTCI 96 SMD 5 SDB 2 2 INSTCTRL", None),
                            ("other-selector", "1 4 INSTCTRL", "INSTCTRL with another selector does nothing")]:
        font = suite.font(FontMaker("instctrl-" + name, cvt=[300], prep=prep))
        for k, program in enumerate(["SVTCA:1 0 MDAP:1 4 0 MIAP:1", "SVTCA:1 0 SRP0 1 MDRP:0C", "SVTCA:0 120 1 1 DELTAP1",
                                     "1 1 INSTCTRL SVTCA:1 0 SRP0 1 MDRP:0C 2 64 SHPIX"]):
            suite.case("instctrl-%s-%d" % (name, k), font, INSTCTRL, picture(font, program), own=own)
        if name == "default-state":
            suite.case("instctrl-default-state-values", font, INSTCTRL, picture(font, shown("0 RCVT", 1)),
                       own="selector 2 leaves the control values", bits=False)
    make_instctrl(suite)


def make_instctrl(suite):
    """Where INSTCTRL acts, and by which values."""
    for name, programs, own in [("fpgm", {"fpgm": "1 1 INSTCTRL"}, "INSTCTRL acts while prep runs alone"),
                                ("by-function", {"fpgm": "0 FDEF 1 1 INSTCTRL ENDF", "prep": "0 CALL"}, None),
                                ("value-2", {"prep": "2 1 INSTCTRL"}, ANY_VALUE),
                                ("default-by-1", {"prep": "200 SCVTCI 96 SMD 1 2 INSTCTRL"}, ANY_VALUE)]:
        font = suite.font(FontMaker("instctrl-" + name, cvt=[300], **programs))
        suite.case("instctrl-" + name, font, INSTCTRL, picture(font, "SVTCA:1 0 SRP0 1 MDRP:0C"), own=own)
