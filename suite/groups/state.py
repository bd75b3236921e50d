"""Storage, control values and the graphics state: each instruction that sets a part of it, seen by what a later row does."""
from making.fontmaker import FontMaker
from making.probe import picture, shown
from making.suite import APPLE

from .relative import SIZE

STORAGE = APPLE + "Instruction set, Managing the Storage Area: %s"
VALUES = APPLE + "Instruction set, Managing the Control Value Table: %s"
STATE = APPLE + "Instruction set, Managing the Graphics State: %s"
INFO = APPLE + "Instruction set, %s"
ONE_PLACE = "IP gives a point its original distance from reference point 1, if both reference points were in one place"
STRAY = "a number outside a table reads as 0, and a write there is dropped"

TABLES = {
    (STORAGE, "RS"): [("3 99 WS 3 RS", 1), ("4 RS", 1), ("0 1 WS 31 2 WS 0 RS 31 RS", 2), ("3 5 WS 3 6 WS 3 RS", 1)],
    (STORAGE, "WS"): [("3 -99 WS 3 RS", 1), ("0 -32768 WS 0 RS", 1), ("31 32767 WS 31 RS", 1), ("1 7 WS 2 8 WS 1 RS 2 RS", 2)],
    (VALUES, "RCVT"): [("0 RCVT", 1), ("1 RCVT", 1), ("7 RCVT", 1), ("2 RCVT 3 RCVT ADD", 1)],
    (VALUES, "WCVTP"): [("0 99 WCVTP 0 RCVT", 1), ("1 -99 WCVTP 1 RCVT", 1), ("7 64 WCVTP 7 RCVT", 1),
                        ("2 5 WCVTP 2 6 WCVTP 2 RCVT", 1)],
    (VALUES, "WCVTF"): [("0 99 WCVTF 0 RCVT", 1), ("1 -99 WCVTF 1 RCVT", 1), ("7 640 WCVTF 7 RCVT", 1), ("2 1 WCVTF 2 RCVT", 1),
                        ("2 0 WCVTF 2 RCVT", 1)],
}
STRAYS = [(STORAGE, "RS", "32 RS", 1), (STORAGE, "RS", "-1 RS", 1), (STORAGE, "WS", "32 9 WS 31 RS 0 RS", 2),
          (STORAGE, "WS", "-1 9 WS 31 RS", 1),
          (VALUES, "RCVT", "8 RCVT", 1), (VALUES, "RCVT", "-1 RCVT", 1), (VALUES, "WCVTP", "8 9 WCVTP 7 RCVT", 1),
          (VALUES, "WCVTF", "-1 9 WCVTF 7 RCVT 0 RCVT", 2)]

# What a state is seen by: point 5 moved from point 0 by MDRP and MIRP, and point 9 to a control value by MIAP.
SEEN = "SVTCA:1 0 SRP0 5 MDRP:0C 0 SRP0 9 0 MIRP:0C 0 SRP0 2 1 MIRP:04 7 2 MIAP:1 3 MDAP:1 0 SRP0 10 MDRP:04 0 SRP0 6 2 MIRP:00"
SETTERS = {
    "SMD": ["%d SMD" % v for v in (0, 64, 100, 400, 1000, -100)],
    "SCVTCI": ["%d SCVTCI" % v for v in (0, 1, 16, 68, 200, 2000)],
    "SSWCI": ["300 SSW %d SSWCI" % v for v in (0, 1, 40, 100, 2000)],
    "SSW": ["%d SSW 100 SSWCI" % v for v in (0, 300, 360, 400, -300)],
    "FLIPON": ["FLIPON", "FLIPOFF FLIPON", "FLIPON FLIPON"],
    "FLIPOFF": ["FLIPOFF", "FLIPON FLIPOFF", "FLIPOFF 0 SCVTCI", "FLIPOFF 2000 SCVTCI"],
    "RTG": ["RTG", "ROFF RTG", "RUTG RTG"], "RTHG": ["RTHG", "ROFF RTHG", "RTG RTHG"], "RTDG": ["RTDG", "ROFF RTDG", "RTG RTDG"],
    "RDTG": ["RDTG", "ROFF RDTG", "RTG RDTG"], "RUTG": ["RUTG", "ROFF RUTG", "RTG RUTG"], "ROFF": ["ROFF", "RTG ROFF", "RTHG ROFF"],
}
POINTERS = {
    "SRP0": ["1 SRP0 1 40 SHPIX 5 MDRP:0", "5 SRP0 1 MDRP:4", "20 SRP0 5 40 MSIRP:0", "0 SRP0 7 SRP0 2 100 MSIRP:1 3 100 MSIRP:0",
             "6 SRP0 1 ALIGNRP"],
    "SRP1": ["1 SRP1 6 SRP2 1 40 SHPIX 4 IP", "5 SRP1 5 40 SHPIX 1 SHP:1", "2 30 SHPIX 6 -20 SHPIX 20 SRP1 6 SRP2 2 IP",
             "2 SRP1 2 -30 SHPIX 1 SHC:1"],
    "SRP2": ["1 SRP1 6 SRP2 6 40 SHPIX 4 IP", "5 SRP2 5 40 SHPIX 1 SHP:0", "2 30 SHPIX 1 -20 SHPIX 1 SRP1 20 SRP2 2 IP",
             "2 SRP2 2 -30 SHPIX 1 SHC:0"],
    "SZP0": ["0 SZP0 3 MDAP:1 5 MDRP:0", "0 SZP0 3 1 MIAP:0 5 MDRP:0", "1 SZP0 3 MDAP:1", "0 SZP0 1 SZP0 3 MDAP:1"],
    "SZP1": ["0 SZP1 0 SRP0 3 50 MSIRP:0 0 SZP0 1 SZP1 3 SRP0 5 MDRP:0", "0 SZP1 1 SZP1 5 SRP0 3 MDRP:4",
             "0 SZP1 5 SRP0 2 1 MIRP:0 0 SZP2 2 GC 1 SZP2 1 SWAP SCFS"],
    "SZP2": ["0 SZP2 3 77 SCFS 3 GC 1 SZP2 1 SWAP SCFS", "0 SZP2 1 SZP2 3 77 SCFS", "0 SZP2 3 40 SHPIX 3 GC 1 SZP2 1 SWAP SCFS"],
    "SZPS": ["0 SZPS 3 77 SCFS 1 SZPS", "1 SZPS 3 77 SCFS", "0 SZPS 2 1 MIAP:0 1 SZPS 0 SZP0 5 MDRP:0"],
    "SLOOP": ["3 SLOOP 1 2 5 40 SHPIX", "1 SLOOP 1 40 SHPIX", "0 40 SHPIX 0 SRP2 2 SLOOP 1 2 SHP:0",
              "3 SLOOP 2 SLOOP 9 1 2 40 SHPIX POP",
              "2 SLOOP 4 5 ALIGNRP 2 ALIGNRP"],
    "SFVTPV": ["SPVTCA:0 SFVTPV 1 MDAP:1", "SFVTCA:0 SPVTCA:1 SFVTPV 1 MDAP:1", "SVTCA:0 SPVTCA:1 SFVTPV 2 40 SHPIX"],
}
NOTHING = {"DEBUG": "debugging", "SANGW": "obsolete", "AA": "obsolete", "SCANCTRL": "Managing the Graphics State",
           "SCANTYPE": "Managing the Graphics State"}


def make(suite):
    """The cases of the groups."""
    font = suite.font(FontMaker("state", cvt=[350, 180, -300, 500, 2, 0, 33, -64]))
    suite.group = "tables"
    for (about, name), tries in TABLES.items():
        for k, (program, left) in enumerate(tries):
            suite.case("%s-%d" % (name.lower(), k), font, about % name, picture(font, shown(program, left)), bits=False)
    for k, (about, name, program, left) in enumerate(STRAYS):
        suite.case("stray-%d" % k, font, about % name, picture(font, shown(program, left)), own=STRAY, bits=False)
    suite.group = "state"
    for name, tries in SETTERS.items():
        for k, program in enumerate(tries):
            own = SIZE if name == "SSW" else None
            suite.case("%s-%d" % (name.lower(), k), font, STATE % name, picture(font, program + " " + SEEN), own=own)
    for name, tries in POINTERS.items():
        for k, program in enumerate(tries):
            own = STRAY if "20 SRP" in program else None
            suite.case("%s-%d" % (name.lower(), k), font, STATE % name, picture(font, program), own=own)
    make_zero_loop(suite, font)
    make_information(suite, font)
    make_defaults(suite, font)


def make_zero_loop(suite, font):
    """A loop of 0 takes no point."""
    for k, program in enumerate(["0 SLOOP 40 SHPIX 1 90 SHPIX", "0 SLOOP ALIGNRP 1 ALIGNRP",
                                 "5 40 SHPIX 1 SRP1 6 SRP2 0 SLOOP IP 7 IP"]):
        suite.case("sloop-zero-%d" % k, font, STATE % "SLOOP", picture(font, program),
                   own="a loop of 0 takes no point, and goes back to 1")


def make_information(suite, font):
    """Sizes, the version, and the instructions that only take their operand."""
    for ppem in (8, 16, 37):
        suite.case("mppem-%d" % ppem, font, STATE % "MPPEM", picture(font, shown("MPPEM", 1)), ppem=ppem, bits=False)
        suite.case("mps-%d" % ppem, font, STATE % "MPS", picture(font, shown("MPS", 1)), ppem=ppem, bits=False,
                   own="MPS gives the pixels per em too")
    for axis in (0, 1):
        suite.case("mppem-axis-%d" % axis, font, STATE % "MPPEM", picture(font, shown("SVTCA:%d MPPEM" % axis, 1)), bits=False)
    for selector in (0, 1, 2, 3, 4, 32, 33, 64):
        own = "the version of the interpreter is 35, and all else is 0"
        suite.case("getinfo-%d" % selector, font, STATE % "GETINFO", picture(font, shown("%d GETINFO" % selector, 1)), own=own,
                   bits=False)
    for name, part in NOTHING.items():
        for k, value in enumerate((0, 1, 511)):
            own = "debugging is off" if name == "DEBUG" else None
            glyph = picture(font, shown("7 %d %s" % (value, name), 1))
            suite.case("%s-%d" % (name.lower(), k), font, INFO % ("%s: %s" % (part, name)), glyph, own=own, bits=False)


def make_defaults(suite, font):
    """The state that a glyph's program starts from, after what `prep` set."""
    for k, program in enumerate([SEEN, "0 40 SHPIX 4 IP", "0 40 SHPIX 1 SHP:0 2 SHP:1", "0 64 SHPIX 5 40 SHPIX",
                                 "7 1 MIRP:1F 6 0 MIRP:1F"]):
        suite.case("default-%d" % k, font, STATE % "default values", picture(font, program), own=ONE_PLACE if k == 1 else None)
    kept = [("cut-in", "200 SCVTCI"), ("minimum", "200 SMD"), ("width", "300 SSW 100 SSWCI"), ("flip", "FLIPOFF"),
            ("base", "5 SDB 2 SDS")]
    reset = [("vectors", "SVTCA:0"), ("points", "5 SRP0 5 SRP1 5 SRP2"), ("zones", "0 SZPS"), ("loop", "5 SLOOP"),
             ("round", "ROFF"), ("rthg", "RTHG")]
    for name, prep in kept + reset:
        font = suite.font(FontMaker("prep-" + name, cvt=[350, 180, -300, 500, 2, 0, 33, -64], prep=prep))
        for k, program in enumerate([SEEN, "1 0 MIRP:1F 5 MDRP:1F", "0 MDAP:1 113 4 113 7 2 DELTAP1 2 40 SHPIX"]):
            suite.case("prep-%s-%d" % (name, k), font, STATE % "defaults and prep", picture(font, program))
    font = suite.font(FontMaker("fpgm-state", cvt=[350, 180, -300, 500, 2, 0, 33, -64], fpgm="200 SCVTCI 200 SMD FLIPOFF 5 SDB"))
    suite.case("fpgm-state", font, STATE % "defaults and fpgm", picture(font, SEEN), own="prep starts from the default state")
