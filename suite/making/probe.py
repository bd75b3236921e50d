"""Glyphs of the cases of instructions: an outline whose points a program moves, and numbers shown as places of points."""

# Three contours of four points; at 16 pixels of 1024 units to the em a unit is 1/64 pixel.
CONTOURS = [
    [(37, 23, 1), (37, 611, 1), (301, 640, 1), (322, 29, 1)],
    [(420, 90, 1), (433, 505, 1), (700, 498, 1), (688, 77, 1)],
    [(100, -130, 1), (250, -170, 1), (510, -145, 1), (330, -90, 1)],
]
POINTS = 12

# Vectors that a row is tried with: a name, instructions, and whether they leave the axes.
VECTORS = [
    ("x", "SVTCA:1", False), ("y", "SVTCA:0", False), ("right angle", "SPVTCA:1 SFVTCA:0", True),
    ("slanted", "8192 14189 SPVFS SFVTPV", True), ("slanted projection", "SVTCA:0 -5604 15395 SPVFS", True),
    ("slanted freedom", "SVTCA:1 13107 9830 SFVFS", True), ("dual", "SVTCA:1 2 250 SCFS 2 6 SDPVTL:0 SFVTCA:1", True),
]
OFF_AXES = "projections and moves along a slanted vector are exact products, rounded once to 1/64 pixel"


def shown(program, values):
    """A program, and instructions that put so many numbers from the stack into the x of the points from 0 on, the top first."""
    return "%s SVTCA:1 1 SZPS %s" % (program, " ".join("%d SWAP SCFS" % k for k in range(values)))


def shown_wide(program):
    """The same for one number of 32 bits: the x of point 1 is its quotient by 65536, that of point 0 what is left."""
    high = "DUP 16384 16384 MUL DIV DUP 1 SWAP SCFS 16384 16384 MUL MUL"
    return "%s SVTCA:1 1 SZPS %s SUB 0 SWAP SCFS" % (program, high)


def picture(font, program, **more):
    """Adds a glyph of the fixed outline with a program."""
    return font.simple(CONTOURS, program, **more)
