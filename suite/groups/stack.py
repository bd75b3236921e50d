"""Pushes and the rows that manage the stack."""
from making.fontmaker import FontMaker
from making.probe import picture, shown
from making.suite import APPLE

PUSHING = APPLE + "Instruction set, Pushing data onto the interpreter stack: %s"
MANAGING = APPLE + "Instruction set, Managing the stack: %s"

# Instructions, and how many numbers they leave.
MANAGED = {
    "DUP": [("7 DUP", 2), ("-3 0 DUP", 3), ("5 6 DUP ADD", 2), ("1 2 3 DUP DUP", 5)],
    "POP": [("7 8 POP", 1), ("-3 0 POP", 1), ("1 2 3 POP POP", 1), ("4 9 POP DUP", 2)],
    "CLEAR": [("7 CLEAR 3", 1), ("1 2 3 4 CLEAR DEPTH", 1), ("CLEAR 5 6", 2), ("CLEAR CLEAR DEPTH", 1)],
    "SWAP": [("7 8 SWAP", 2), ("1 2 3 SWAP", 3), ("-1 1 SWAP SUB", 1), ("5 6 SWAP SWAP", 2), ("0 -32768 SWAP", 2)],
    "DEPTH": [("DEPTH", 1), ("9 9 DEPTH", 3), ("DEPTH DEPTH DEPTH", 3), ("1 2 3 POP DEPTH", 3)],
    "CINDEX": [("7 8 9 1 CINDEX", 4), ("7 8 9 3 CINDEX", 4), ("7 8 9 2 CINDEX", 4), ("5 1 CINDEX", 2), ("1 2 3 4 5 5 CINDEX", 6)],
    "MINDEX": [("7 8 9 1 MINDEX", 3), ("7 8 9 3 MINDEX", 3), ("7 8 9 2 MINDEX", 3), ("5 1 MINDEX", 1), ("1 2 3 4 5 5 MINDEX", 5)],
    "ROLL": [("7 8 9 ROLL", 3), ("1 2 3 4 ROLL", 4), ("7 8 9 ROLL ROLL", 3), ("7 8 9 ROLL ROLL ROLL", 3), ("-1 0 1 ROLL", 3)],
}


def make(suite):
    """The cases of the two groups."""
    font = suite.font(FontMaker("stack"))
    suite.group = "push"
    make_pushes(suite, font)
    suite.group = "stack"
    for name, tries in MANAGED.items():
        for k, (program, left) in enumerate(tries):
            glyph = picture(font, shown(program + " DEPTH", left + 1))
            suite.case("%s-%d" % (name.lower(), k), font, MANAGING % name, glyph, bits=False)


def make_pushes(suite, font):
    """Each form of push, with bytes and words at the ends of their ranges, and counts of 0 and many."""
    tries = []
    for count in range(1, 9):
        bytes_ = [[17 * k % 251 for k in range(1, count + 1)], [255] * count, [0, 128] * 4]
        words = [[1000 * k + 7 for k in range(1, count + 1)], [0x8000, 0xFFFF] * 4, [0x7FFF, 0x0100] * 4]
        for k in range(3):
            tries.append(("PUSHB", "pushb%d-%d" % (count, k), bytes([0xAF + count, *bytes_[k][:count]]), count))
            data = b"".join(word.to_bytes(2, "big") for word in words[k][:count])
            tries.append(("PUSHW", "pushw%d-%d" % (count, k), bytes([0xB7 + count]) + data, count))
    for k, values in enumerate([[5], list(range(200, 212)), [], [255, 0, 128, 127]]):
        tries.append(("NPUSHB", "npushb-%d" % k, bytes([0x40, len(values), *values]), len(values)))
        data = b"".join((value * 257 & 0xFFFF).to_bytes(2, "big") for value in values)
        tries.append(("NPUSHW", "npushw-%d" % k, bytes([0x41, len(values)]) + data, len(values)))
    for name, case, code, left in tries:
        program = " ".join("#%02X" % byte for byte in code)
        glyph = picture(font, shown(program + (" DEPTH" if left < 12 else ""), left + (left < 12)))
        suite.case(case, font, PUSHING % name, glyph, bits=False)
