"""Cases of the program: programs of fonts, and what they have, to its limit and one past it. What each instruction does the suite
says."""
import due
import instructions as ins
from cases import cases
from due import Ends, counted, glyph_lines
from instructions import Code, steps_of
from made import Composite, Empty, Font, Simple, comb, square
from making import fonts
from making.assembler import assemble
from reference.numbers import scaled
from runs import Run
from strikes import A, B, both, one, refusal, strike, words

POINTS, STEPS, CALLS = 16384, 250000, 32
UPEM = 1000
SEEN = 640  # where the right side of a rectangle goes, in 1/64 pixels
NOTHING = Code().push(1).do(ins.POP)


def shown(read, place):
    """A rectangle whose program puts its right side at the number that a program leaves; `place` is due there."""
    def after(boxes):
        return [boxes[0][:2] + (place, boxes[0][3])] + boxes[1:]
    return Simple([(0, 0, 300, 500)], code=Code().right_side(read), after=after)


def with_stray(count, opcode):
    """Reads the last entry of a table of so many, adds the one past it, which is a stray and 0, and leaves the sum."""
    last = Code().number(max(count - 1, 0)).do(opcode, strays=int(count == 0))
    return last.number(count).do(opcode, strays=1).do(ins.ADD)


# ---- tables ----

def greatest_tables():
    """The last entry of each table, and the one past it, which is 0 and a stray: of tables that are as large as may be, and of
    none."""
    for count in (0, 65535):
        last, values, none = max(count - 1, 0), count // 2, int(count == 0)
        prep = Code().number(last).push(100).do(ins.WS, strays=none).number(count).push(64).do(ins.WS, strays=1)
        prep.do(ins.X_AXIS).push(0).do(ins.SZPS).number(last).push(max(values - 1, 0)).do(ins.MIAP, strays=2 * none)
        prep.number(count).push(max(values - 1, 0)).do(ins.MIAP, strays=1 + none)
        body = Code().push(50)
        read = with_stray(count, ins.RS).join(with_stray(values, ins.RCVT)).do(ins.ADD).push(0).do(ins.SZP2).join(
            with_stray(count, ins.GC))
        read.do(ins.ADD).push(1).do(ins.SZP2).call(max(63, last), body).do(ins.ADD)
        place = 50 + (100 + 2 * scaled(700, 16, UPEM) if count else 0)
        cvt = bytes(2 * max(values - 1, 0)) + (700).to_bytes(2, "big") * min(values, 1) + b"\x7F" * (count % 2)
        font = one(shown(read, place), prep=prep, fpgm=Code().define(max(63, last), body), cvt=cvt, storage=count, twilight=count,
                   functions=count, stack=16)
        yield from both("tables of %d" % count, font, 16)


def many_functions():
    """4,000 functions, each called once."""
    fpgm, prep = Code(), Code()
    for k in range(4000):
        body = Code().push(k % 7).do(ins.POP)
        fpgm.define(k, body)
        prep.call(k, body)
    yield from both("4,000 functions", one(square(900), fpgm=fpgm, prep=prep, functions=4000, stack=16), 16)


# Programs on a square, whose points are 0 to 3 and the phantom points 4 to 7, with four cells, four control values and two twilight
# points; and how many numbers they name that are not there.
STRAYS = (("8 MDAP:0", 1), ("12 0 -1 2 3 ISECT", 2), ("104 9 120 1 2 DELTAP1", 0), ("120 9 1 DELTAP1", 1), ("1 -1 MIRP:0", 0),
          ("2 SLOOP 8 5 ALIGNRP", 1), ("4 SLOOP 1 2 1 8 FLIPPT", 1), ("3 8 FLIPRGOFF", 1), ("3 0 FLIPRGON", 0), ("9 SRP2", 0),
          ("9 SRP2 2 SLOOP 8 2 SHP:0", 2), ("9 SRP2 0 SLOOP SHP:0", 1), ("0 SZPS 0 SHC:0", 1), ("1 8 MD:0", 1), ("9 GC:0", 1),
          ("4 9 WS", 1), ("3 9 WS", 0), ("-1 RS", 1), ("4 9 WCVTP", 1), ("4 RCVT", 1), ("3 RCVT", 0), ("120 9 104 9 2 DELTAC1", 1))
SQUARE = [[(0, 0, 1), (90, 0, 1), (90, 90, 1), (0, 90, 1)]]


def strays():
    """A number that is not in its table is counted each time that an instruction names it, one of a delta only if the delta
    acts."""
    for program, count in STRAYS:
        data = fonts.font_of([b"", fonts.simple(SQUARE, assemble(program))], fonts.map_of([(A, 1)]), upem=1024, stack=4, storage=4,
                             twilight=2, cvt=bytes(8))
        yield Run(program, words(16, (A,)), data, Ends(due.DONE, counted(strays=count, steps=steps_of(program)), b"ENDFONT\n"))


# Programs that shift point 1 by a storage cell, by a control value and by the place of the twilight point, one that calls function
# 1, one that writes all of these, and one that asks for no programs.
BY_STORAGE, BY_CONTROL, BY_FUNCTION = "1 0 RS SHPIX", "1 0 RCVT SHPIX", "1 CALL"
BY_TWILIGHT = "1 0 SZP2 0 GC:0 1 SZP2 SHPIX"
WRITING = "1 FDEF ENDF 0 64 WS 0 64 WCVTP 0 SZPS 0 64 MSIRP:0"
NO_PROGRAMS = "1 1 INSTCTRL"


def nothing_is_kept_between_glyphs():
    """A function, storage, a control value and the twilight point are written by one glyph, also by one that halts then; the glyphs
    after it see nothing of it. So does a glyph that asks for no programs."""
    programs = [WRITING, BY_STORAGE, BY_CONTROL, BY_TWILIGHT, BY_FUNCTION, WRITING + " #91", BY_STORAGE, BY_CONTROL, BY_TWILIGHT,
                BY_FUNCTION,
                NO_PROGRAMS, BY_STORAGE]
    glyphs = [fonts.simple(SQUARE, assemble(program)) for program in programs]
    codes = {A + k: 1 + k for k in range(len(programs))}
    data = fonts.font_of([b"", *glyphs], fonts.map_of(codes.items()), upem=1024, functions=2, stack=9, storage=1, twilight=1,
                         metrics=[(384, 0)] * 13, cvt=bytes(2))
    told = b"".join(b"mkstrike: left out U+%04X: %s\n" % (A + k, text) for k, text in (
        (4, b"35 NoFunction during glyph 5 in glyph 5 at 2 opcode 2B"),
        (5, b"32 BadOpcode during glyph 6 in glyph 6 at 19 opcode 91"),
        (9, b"35 NoFunction during glyph 10 in glyph 10 at 2 opcode 2B")))
    text = "".join(glyph_lines(code, "1 1 0 0", "80") for code in codes if code - A not in (4, 5, 9)) + "ENDFONT\n"
    yield Run("one after the other", "make --ppem 16 --chars 41-4c --refused leave-out", data,
              Ends(due.DONE, told + counted(9, steps=10 + 3 + 3 + 7 + 3 + 3 + 7 + 2 + 3), text.encode()))


# ---- lengths, steps and calls ----

def lengths_of_programs():
    """Programs of a length, whose last instructions do what is seen."""
    body, read, write = Code().push(SEEN), Code().push(0).do(ins.RS), Code().push(0).push(SEEN).do(ins.WS)
    for length in (255, 256, 257, 4096, 60000):
        fpgm = Code().fill(length - Code().define(3, body).length).define(3, body)
        font = one(shown(Code().call(3, body), SEEN), fpgm=fpgm, stack=9)
        yield from both("a font program of %d bytes" % length, font, 16)
        prep = Code().fill(length - write.length).join(write)
        font = one(shown(read, SEEN), prep=prep, storage=1, stack=9)
        yield from both("a control value program of %d bytes" % length, font, 16)
        glyph = shown(read, SEEN)
        glyph.code = Code().fill(length - glyph.code.length).join(glyph.code)
        font = one(glyph, prep=write, storage=1, stack=9)
        yield from both("a glyph's program of %d bytes" % length, font, 16)
    yield from both("a glyph's program of 65,535 bytes", one(square(900, Code().fill(65535)), stack=9), 16)


def steps():
    """As many instructions as a program may execute, in fpgm, prep and a glyph, and one more."""
    for where in ("fpgm", "prep"):
        font = one(square(900), **{where: Code().fill(STEPS)}, stack=9)
        yield from both("%s of 250,000 instructions" % where, font, 16)
        font = one(square(900), **{where: Code().fill(STEPS + 1)}, stack=9)
        text = "37 StepLimit during %s in %s at %d opcode 59" % (where, where, STEPS)
        yield refusal("%s of one more" % where, font, text)
    body = Code().fill(60000)
    fpgm, most = Code().define(0, body), Code().call_times(4, 0, body)
    most.fill(most.length + STEPS - most.steps)
    yield from both("a glyph of 250,000 instructions", one(square(900, most), fpgm=fpgm, stack=9), 16)
    three = Font([Empty(), square(900, most), Composite([(1, 0, 0)] * 3)], {A: 2, B: 1}, fpgm=fpgm, stack=9)
    yield from both("components of 250,000 instructions, each of them", three, 16, (A, B))
    over = Code().join(most).do(ins.EIF)
    text = "37 StepLimit during glyph 2 in glyph 2 at %d opcode 59" % most.length
    yield refusal("a glyph of one more", one(square(900, over), fpgm=fpgm, stack=9), text)


def calls():
    """As many open calls as there may be, and one more; a loop of 30,000 calls."""
    bodies, fpgm = [Code().push(SEEN)], Code()
    for k in range(CALLS):
        bodies.append(Code().call(k, bodies[-1]))
    for k, body in enumerate(bodies):
        fpgm.define(k, body)
    last = CALLS - 1
    yield from both("32 open calls", one(shown(Code().call(last, bodies[last]), SEEN), fpgm=fpgm, stack=9), 16)
    # the call that is too deep is in function 1: after the definition of function 0, FDEF with its number, and a push
    at = Code().define(0, bodies[0]).number(1).length + 1 + Code().number(0).length
    text = "36 CallDepth during glyph 2 in fpgm at %d opcode 2B" % at
    yield refusal("33 open calls", one(square(9, Code().call(CALLS, bodies[CALLS])), fpgm=fpgm, stack=9), text)
    font = one(square(900, Code().call_times(30000, 0, NOTHING)), fpgm=Code().define(0, NOTHING), stack=9)
    yield from both("a loop of 30,000 calls", font, 16)
    # a function that is called twice jumps to the definition of another one of its number, which its second turn does not run
    again = bytes.fromhex("b0 00 2c b0 09 1c 2d b1 02 00 2a b0 08 1c b0 00 2c b0 09 2d 2d")
    data = fonts.with_tables(one(square(90), stack=9).data(), fpgm=again)
    yield Run("a function that is defined anew while it runs", words(16, (A,)), data,
              Ends(due.DONE, counted(steps=16), b"ENDFONT\n"))


# ---- points ----

def programmed_points():
    """Programs over many points: the last are moved by their numbers, all by a loop, and a contour by one point."""
    for count in (80, 81, 800, 801, POINTS):
        bar = comb(count - 4)
        edge = [[(x, y, 1) for x, y in ((0, 10), (40, 10), (40, 30), (0, 30))]]
        boxes, contours = bar.in_units + [(0, 10, 40, 30)], bar.contours + edge

        def font(code, after):
            return one(Simple(boxes, contours, code, after), upem=8192, stack=POINTS)

        side = Code().right_side(Code().push(SEEN), count - 4)
        yield from both("the last of %d points moved" % count, font(side, last_widened), 1024)
        loop = Code().do(ins.X_AXIS).push(*range(count)).push(count).do(ins.SLOOP).push(128).do(ins.SHPIX)
        yield from both("%d points moved by a loop" % count, font(loop, all_moved), 1024)
        drawn = Code().do(ins.X_AXIS).push(count // 2, 128).do(ins.SHPIX, ins.IUP_X)
        yield from both("%d points drawn after one" % count, font(drawn, all_but_the_last_moved), 1024)
    far = Code().do(ins.X_AXIS).push(0, 32767, 32767).do(ins.MUL, ins.SHPIX)
    yield refusal("a point moved too far", one(square(90, far), stack=9), "51 TooFar 2")


def last_widened(boxes):
    """The last rectangle has its right side elsewhere."""
    return boxes[:-1] + [boxes[-1][:2] + (SEEN, boxes[-1][3])]


def all_moved(boxes):
    """All rectangles moved by two pixels."""
    return [(x0 + 128, y0, x1 + 128, y1) for x0, y0, x1, y1 in boxes]


def all_but_the_last_moved(boxes):
    """The same of all but the last."""
    return all_moved(boxes[:-1]) + boxes[-1:]


def loops_of_many_points():
    """Instructions that take 32,000 points each, twenty times: the work is so many points, and no square of them. FLIPPT turns
    each of 16,000 points twice, and SHPIX shifts it by 0."""
    for name, more, opcode in (("FLIPPT", [], 0x80), ("SHPIX", [0], ins.SHPIX)):
        body = Code().push(*range(16000), *range(16000)).push(32000).do(ins.SLOOP).push(*more).do(opcode)
        font = one(comb(16000, Code().call_times(20, 0, body)), fpgm=Code().define(0, body), stack=32010, upem=8192)
        yield strike("%s of 32,000 points" % name, font, 1024, limits={"RLIMIT_CPU": 2})
    touched = Code().push(*range(0, 8000, 2)).push(4000).do(ins.SLOOP).push(0).do(ins.SHPIX)
    body = Code().do(ins.IUP_X)
    font = one(comb(16000, touched.call_times(400, 0, body)), fpgm=Code().define(0, body), stack=4010, upem=8192)
    yield strike("IUP of 16,000 points", font, 1024, limits={"RLIMIT_CPU": 3})


test_programs = cases(programmed_points, loops_of_many_points, lengths_of_programs, greatest_tables, many_functions, steps, calls,
                      strays, nothing_is_kept_between_glyphs)
