"""Cases of the program: requests under a limit of processor time that they keep many times over, unless work is done twice.

Time is no part of a contract. Each request here has one thing that is there once and could be done for each glyph or each
number."""
import random

from cases import cases
from instructions import Code
from made import Composite, Empty, Font, comb, square
from runs import Run
from strikes import strike
from test_input import LONG, MAKE
from test_programs import NOTHING, STEPS


def seconds(count):
    """A limit of processor time."""
    return {"RLIMIT_CPU": count}


def programs_that_run_once():
    """`fpgm` and `prep` of nearly as many steps as there may be: they run once, and not for each of 4,000 glyphs."""
    long = Code().fill(STEPS - 1)
    font = Font([Empty(), square(900, NOTHING)], 1, stack=9, fpgm=long, prep=long)
    yield strike("fpgm and prep of 249,999 steps", font, 12, range(4000), limits=seconds(2))


def tables_that_are_made_once():
    """Functions, storage, control values and twilight points, as many as there may be: they are not copied for each glyph that has
    no program, and not walked for each that has one."""
    fpgm, sizes = Code().define(0, Code()), {"functions": 65535, "storage": 65535, "twilight": 65535, "cvt": bytes(2 * 65535)}
    bare = Font([Empty(), square(900)], 1, stack=65535, fpgm=fpgm, **sizes)
    yield strike("large tables and no programs", bare, 12, range(16384), limits=seconds(2))
    functions = Font([Empty(), square(900, NOTHING)], 1, stack=9, fpgm=fpgm, functions=65535)
    yield strike("65,535 functions", functions, 12, range(16384), limits=seconds(2))


def characters_in_no_order():
    """Lists of as many numbers as an argument has room for, in no order, and of as many as there may be, in falling ranges."""
    codes = list(range(0x1000, 0x1000 + 26000))
    random.Random(59).shuffle(codes)
    text = ",".join("%x" % code for code in codes)
    yield Run("26,000 numbers in no order", MAKE[:4] + [text], LONG.data(), LONG.make(codes, 16), limits=seconds(1))
    font = Font([Empty(), square(900)], 1)
    falling = ",".join("%x-%x" % (at, at + 15) for at in range(0xFFF0, -1, -16))
    yield Run("65,536 numbers in falling ranges", "make --ppem 12 --chars " + falling, font.data(), font.make(range(65536), 12),
              limits=seconds(1))


def components_that_come_again():
    """A component with a long program, in each of 2,000 composites: it runs once."""
    body = Code().fill(9)
    fpgm, slow = Code().define(0, body), Code().call_times(24000, 0, body)
    parts = [Composite([(1, 0, 0), (2, 3 * (k % 300), k // 4)]) for k in range(2000)]
    font = Font([Empty(), square(90, slow), square(60)] + parts, {0x100 + k: 3 + k for k in range(2000)}, upem=1024, stack=9,
                fpgm=fpgm, functions=1)
    yield strike("a slow component in 2,000 composites", font, 12, sorted(font.codes), limits=seconds(2))


def outlines_that_are_moved_once():
    """Composites in composites, of many points: each point is moved a few times, and not once for each component of the whole."""
    glyphs = [Empty(), comb(60)] + [Composite([(1, k % 9, k // 9)] * 250) for k in range(40)]
    font = Font(glyphs, {0x100 + k: 2 + k for k in range(40)}, upem=8192)
    yield strike("250 components of 60 points", font, 16, sorted(font.codes), limits=seconds(2))


test_time = cases(programs_that_run_once, tables_that_are_made_once, characters_in_no_order, components_that_come_again,
                  outlines_that_are_moved_once)
