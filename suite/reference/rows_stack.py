"""Rows of the instruction table that touch the stack, storage, control values and the flow of a program."""
from .faults import Halt
from .machine import EIF, ELSE, pushed
from .numbers import cut, near, w32
from .state import rounded


def read(table, k):
    """An entry of a table; 0 if it is outside."""
    return table[k] if 0 <= k < len(table) else 0


def write(table, k, value):
    """Sets an entry of a table; outside it is dropped."""
    if 0 <= k < len(table):
        table[k] = w32(value)


def computed(count, function):
    """A row that pops operands and pushes what a function gives of them."""
    def row(m):
        m.push(w32(function(*m.pop(count))))
    return row


def push_data(m):
    """NPUSHB, NPUSHW, PUSHB, PUSHW."""
    m.push(*pushed(m.code, m.start))


def divide(a, b):
    """DIV: 26.6, without the fraction."""
    if b == 0:
        raise Halt("DivideByZero")
    return cut(64 * a, b)


def multiply(a, b):
    """MUL: 26.6, to the nearest."""
    return near(a * b, 64)


def parity(gs, value):
    """Whether a rounded value is an odd number of pixels (64), an even one (0), or neither."""
    return rounded(gs, value) % 128


def dup(m):
    """DUP."""
    a, = m.pop(1)
    m.push(a, a)


def swap(m):
    """SWAP."""
    a, b = m.pop(2)
    m.push(b, a)


def roll(m):
    """ROLL."""
    a, b, c = m.pop(3)
    m.push(b, c, a)


def indexed(m):
    """CINDEX copies, MINDEX moves an element counted from the top."""
    k, = m.pop(1)
    if not 1 <= k <= len(m.stack):
        raise Halt("BadArgument")
    value = m.stack[-k]
    if m.opcode == 0x26:
        del m.stack[-k]
    m.push(value)


def branch(m):
    """IF."""
    if m.pop(1)[0] == 0:
        m.skip_if((ELSE, EIF))


def jump_if(wanted):
    """JROT and JROF."""
    def row(m):
        offset, flag = m.pop(2)
        if (flag != 0) == wanted:
            m.jump(offset)
    return row


def function_of(m, number):
    """The function of a number."""
    if number not in m.functions:
        raise Halt("NoFunction")
    return m.functions[number]


def call(m):
    """CALL."""
    m.enter(function_of(m, m.pop(1)[0]), 1)


def loop_call(m):
    """LOOPCALL: the function is looked up once."""
    times, number = m.pop(2)
    if times >= 1:
        m.enter(function_of(m, number), times)


def define(m):
    """FDEF and IDEF."""
    number, = m.pop(1)
    table, count = (m.functions, m.function_count) if m.opcode == 0x2C else (m.idefs, 256)
    if not 0 <= number < count:
        raise Halt("BadArgument")
    place = m.at
    m.skip_definition()
    table[number] = (m.name, m.code, place)


def write_cvt_units(m):
    """WCVTF: a control value in FUnits."""
    k, value = m.pop(2)
    write(m.cvt, k, m.scale(value))


def get_info(m):
    """GETINFO: the version, if it is asked for."""
    m.push(35 if m.pop(1)[0] & 1 else 0)


def control(m):
    """INSTCTRL: acts while `prep` runs."""
    value, selector = m.pop(2)
    if m.during == "prep" and selector == 1:
        m.no_programs = value != 0
    elif m.during == "prep" and selector == 2:
        m.default_state = value != 0


ROWS = {
    0x20: dup, 0x21: lambda m: m.pop(1), 0x22: lambda m: m.stack.clear(), 0x23: swap, 0x24: lambda m: m.push(len(m.stack)),
    0x25: indexed, 0x26: indexed, 0x8A: roll,
    0x50: computed(2, lambda a, b: a < b), 0x51: computed(2, lambda a, b: a <= b), 0x52: computed(2, lambda a, b: a > b),
    0x53: computed(2, lambda a, b: a >= b), 0x54: computed(2, lambda a, b: a == b), 0x55: computed(2, lambda a, b: a != b),
    0x5A: computed(2, lambda a, b: a != 0 and b != 0), 0x5B: computed(2, lambda a, b: a != 0 or b != 0),
        0x5C: computed(1, lambda a: a == 0),
    0x56: lambda m: m.push(int(parity(m.gs, m.pop(1)[0]) == 64)), 0x57: lambda m: m.push(int(parity(m.gs, m.pop(1)[0]) == 0)),
    0x60: computed(2, lambda a, b: a + b), 0x61: computed(2, lambda a, b: a - b), 0x62: computed(2, divide),
        0x63: computed(2, multiply),
    0x64: computed(1, abs), 0x65: computed(1, lambda a: -a), 0x66: computed(1, lambda a: a // 64 * 64),
    0x67: computed(1, lambda a: -(-a // 64) * 64), 0x8B: computed(2, max), 0x8C: computed(2, min),
    0x42: lambda m: write(m.storage, *m.pop(2)), 0x43: lambda m: m.push(read(m.storage, m.pop(1)[0])),
    0x44: lambda m: write(m.cvt, *m.pop(2)), 0x45: lambda m: m.push(read(m.cvt, m.pop(1)[0])), 0x70: write_cvt_units,
    0x4B: lambda m: m.push(m.ppem), 0x4C: lambda m: m.push(m.ppem), 0x88: get_info, 0x8E: control,
    0x58: branch, 0x1B: lambda m: m.skip_if((EIF,)), 0x59: lambda m: None,
    0x1C: lambda m: m.jump(m.pop(1)[0]), 0x78: jump_if(True), 0x79: jump_if(False),
    0x2A: loop_call, 0x2B: call, 0x2C: define, 0x89: define, 0x2D: lambda m: m.leave(),
}
for _opcode in (0x40, 0x41, *range(0xB0, 0xC0)):
    ROWS[_opcode] = push_data
for _opcode in (0x4F, 0x7E, 0x7F):  # DEBUG, SANGW, AA: one operand, nothing else
    ROWS[_opcode] = lambda m: m.pop(1)
for _opcode in range(0x68, 0x6C):  # ROUND; without compensation by distance
    ROWS[_opcode] = lambda m: m.push(rounded(m.gs, m.pop(1)[0]))
for _opcode in range(0x6C, 0x70):  # NROUND
    ROWS[_opcode] = lambda m: m.push(*m.pop(1))
