"""Writes programs of fonts, and counts what they do: instructions executed, and numbers outside their tables."""
import re

from making import assembler
from making.assembler import NAMES

X_AXIS, IUP_X = NAMES["SVTCA"] + 1, NAMES["IUP"] + 1
DUP, POP, CLEAR, CINDEX, LOOPCALL, CALL, FDEF, ENDF, IDEF = map(
    NAMES.get, "DUP POP CLEAR CINDEX LOOPCALL CALL FDEF ENDF IDEF".split())
WS, RS, RCVT, GC, SCFS, SZP2, SZPS, SLOOP, EIF, ADD, MUL, MIAP, SHPIX = map(
    NAMES.get, "WS RS RCVT GC SCFS SZP2 SZPS SLOOP EIF ADD MUL MIAP SHPIX".split())
GREATEST_WORD = 32767


def steps_of(text):
    """How many instructions the text of a program has that is run once from end to end; numbers beside each other are one push."""
    return len(re.findall(r"-?\d+(?: -?\d+)*|[A-Z]\S*", text))


class Code:
    """A program: its bytes, and its instructions and strays when it is run once from end to end."""

    def __init__(self):
        self.parts, self.length, self.steps, self.strays = [], 0, 0, 0

    @property
    def bytes(self):
        """The program's bytes."""
        return b"".join(self.parts)

    def add(self, data, steps):
        """Appends bytes that hold so many executed instructions."""
        self.parts.append(data)
        self.length += len(data)
        self.steps += steps
        return self

    def do(self, *opcodes, strays=0):
        """Appends instructions without data. `strays` are the numbers outside their tables that they name."""
        self.strays += strays
        return self.add(bytes(opcodes), len(opcodes))

    def push(self, *numbers):
        """Pushes signed words, the last on top, 255 by an instruction."""
        for at in range(0, len(numbers), 255):
            self.add(assembler.pushed(numbers[at:at + 255]), 1)
        return self

    def number(self, number):
        """Pushes a number that may be greater than a word."""
        self.push(min(number, GREATEST_WORD))
        while number > GREATEST_WORD:
            number -= GREATEST_WORD
            self.push(min(number, GREATEST_WORD)).do(ADD)
        return self

    def fill(self, length):
        """Appends instructions that do nothing, until the program has so many bytes."""
        assert self.length <= length
        return self.add(bytes([EIF]) * (length - self.length), length - self.length)

    def define(self, function, body):
        """Defines a function by a program; its instructions count where it is called."""
        return self.number(function).add(bytes([FDEF]) + body.bytes + bytes([ENDF]), 1)

    def call(self, function, body):
        """Calls a function of this body."""
        self.strays += body.strays
        self.number(function).do(CALL)
        self.steps += body.steps + 1
        return self

    def call_times(self, times, function, body):
        """Calls it so many times by one instruction."""
        self.strays += body.strays * times
        self.number(times).number(function).do(LOOPCALL)
        self.steps += (body.steps + 1) * times
        return self

    def right_side(self, value, first=0):
        """Puts the right side of the rectangle with this first point at the x that a program leaves."""
        self.do(X_AXIS)
        for point in (first + 1, first + 2):
            self.push(point).join(value).do(SCFS)
        return self

    def join(self, other):
        """Appends another program."""
        self.strays += other.strays
        return self.add(other.bytes, other.steps)
