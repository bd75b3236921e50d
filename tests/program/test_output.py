"""Cases of the program: outputs that fail, errors that fail, and little memory."""
import os

import due
import runs
from cases import cases
from due import cut_after, refused, usage
from instructions import Code
from made import Composite, Empty, Font, Simple, comb, square
from runs import KIB, Run
from strikes import A, both, strike, words
from test_input import LONG, MAKE, SHORT
from test_programs import NOTHING
from test_refused import some_refused


def requests_with_output():
    """Requests that write much: words, input, and what is due when all is written."""
    codes = range(0x20, 0x220)
    for hinted in (True, False):
        yield words(16, codes, hinted), LONG.data(), LONG.make(codes, 16, hinted)
    large = Font([Empty(), Simple([(0, 0, 1024, 512)])], {A: 1}, upem=1024)
    yield "make --ppem 1024 --chars 41", large.data(), large.make([A], 1024)
    yield "show --ppem 1024 --char 41", large.data(), large.show(A, 1024)
    listed = Font([Empty(), square(9, Code().fill(9000))], {A: 1})
    yield "dump --of 1", listed.data(), due.listed(["%04X 59 EIF" % k for k in range(9000)])
    drawn, traced = Font([Empty(), comb(3201)], {A: 1}, upem=8192), Font([Empty(), square(9, Code().fill(3000))], {A: 1})
    yield "outline --ppem 64 --glyph 1", drawn.data(), drawn.outline(1, 64)
    yield "trace --ppem 16 --char 41", traced.data(), due.listed(["glyph 1 begins",
                                                                  *("glyph 1 %04X 59 EIF |" % k for k in range(3000))])
    yield from some_refused(codes)


def full_devices():
    """Devices that are full, and outputs that can't be written: 70, and no byte was taken."""
    for asked, data, whole in requests_with_output():
        for name, way in (("a full device", runs.with_files(out=("/dev/full", os.O_WRONLY))),
                          ("no output", runs.without(1)),
                          ("a file opened to read", runs.with_files(out=("/dev/null", os.O_RDONLY)))):
            yield Run("%s: %s" % (name, asked), asked, data, cut_after(whole, 0), way=way)


def limited_files():
    """Files that may not grow past a size: 70, with the bytes that stand in the file."""
    for asked, data, whole in requests_with_output():
        size = len(whole.out)
        for count in (0, 1, 13, 14, 150, 399, 1983, 1984, 1985, 4096, 8192, 32768, 40000, size - 1):
            name = "a file of %d bytes: %s" % (count, asked)
            yield Run(name, asked, data, cut_after(whole, count), way=runs.into_file(count))
        yield Run("a file of just all bytes: %s" % asked, asked, data, whole, way=runs.into_file(size))


def closed_pipes():
    """Pipes that are closed before and while they are written to: 70, with the bytes that the pipe took."""
    for asked, data, whole in requests_with_output():
        for count in (0, 1, 100, 5000, 20000):
            name = "a pipe closed after %d bytes: %s" % (count, asked)
            yield Run(name, asked, data, due.Cut.of(whole), way=runs.into_closed_pipe(count))


def calls_of_the_system():
    """Outputs are written in few calls: a glyph through a buffer of 1,984 bytes, other lines by two calls or one."""
    for asked, data, whole in requests_with_output():
        lines, glyphs = whole.out.count(b"\n"), whole.out.count(b"STARTCHAR")
        most = 32 + glyphs + len(whole.out) // 1984 if glyphs else 2 * lines
        yield Run(asked, asked, data, due.FewCalls(whole, most), way=runs.into_records)


def errors_that_fail():
    """Standard error that takes nothing changes neither the status nor the output."""
    short = [(asked, SHORT.data(), it)
             for asked, it in ((MAKE, SHORT.make([A], 16)), ("make", usage()), ("make --ppem 0 --chars 41", refused("60 BadSize")))]
    for asked, data, answer in short + list(some_refused(range(0x20, 0x220))):
        silent = due.Due(answer.status, b"", answer.out)
        yield Run("a full device for errors", asked, data, silent, way=runs.with_files(err=("/dev/full", os.O_WRONLY)))
        yield Run("no standard error", asked, data, silent, way=runs.without(2))


def limited(kib):
    """Limits of memory, and a small stack."""
    return {"RLIMIT_AS": kib * KIB, "RLIMIT_STACK": 96 * KIB}


def little_memory():
    """Requests under limits of memory that suffice."""
    yield from both("512 characters", LONG, 64, range(0x20, 0x220), limits=limited(20000))
    large = Font([Empty(), Simple([(0, 0, 8192, 8192)])], {A: 1}, upem=1024)
    yield strike("8,192 by 8,192 pixels", large, 1024, limits=limited(40000))
    everywhere = Font([Empty(), square(900)], 1)
    yield strike("65,536 characters", everywhere, 12, range(65536), limits=limited(20000))
    two = Font([Empty(), comb(8192, NOTHING), comb(8192, NOTHING), Composite([(1, 0, 0), (2, 0, 20)])], {A: 3}, upem=8192, stack=9)
    yield from both("two components of 8,192 points", two, 1024, limits=limited(12000))
    some = [comb(4 + k, NOTHING) for k in range(100)]
    parts = [Composite([(1 + k, 0, 0)]) for k in range(100)]
    few = Font([Empty(), *some, *parts], {0x100 + k: 101 + k for k in range(100)}, upem=1024, stack=9)
    yield from both("100 components of few points", few, 16, sorted(few.codes), limits=limited(5000))
    data = SHORT.data().ljust(1 << 26, b"\0")
    yield strike("an input of 64 MiB", SHORT, 16, data=data, limits=limited(200000))


def too_little_memory():
    """Inputs that are larger than the memory there is: nothing is written."""
    for kib in (16000, 40000):
        for asked in (MAKE, "dump --of fpgm", "show --ppem 16 --char 41"):
            name = "64 MiB with %d KiB: %s" % (kib, asked)
            yield Run(name, asked, bytes(1 << 26), refused("90 OutOfMemory"), limits=limited(kib))


test_output = cases(limited_files, little_memory, closed_pipes, full_devices, calls_of_the_system, errors_that_fail,
                    too_little_memory)
