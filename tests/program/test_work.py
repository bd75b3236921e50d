"""Counts what no contract speaks of: the memory that a request takes, its calls that read, how often programs of glyphs run, and
costs.

A small library is preloaded that counts. At the end of each request no byte may be out; at no time more than the request's number
in REQUESTS may be, which is what it took when the number was set, and a tenth; and an input is read in pieces of 32 KiB. If a
change needs more on purpose, set the numbers anew, and say so in docs/LIMITS.md and docs/LIBRARY.md.

Then valgrind counts the machine instructions of strikes of a font whose glyphs run long programs: each program runs once if the
lines of all glyphs are kept between the two passes, and twice if they do not fit; one of a component that comes again runs once.
What one run of the programs takes is what a picture takes with them and not without. An instruction of a font may cost STEP machine
instructions.

At last what fourteen requests cost, in machine instructions, is compared with counted_work.txt, within 2 %: work that is done twice
shows there, wherever it is. After a change that is meant to cost another number, `MKSTRIKE_WRITE=1 pytest
tests/program/test_work.py -k costs` writes that table anew.
"""
import os
import re
import subprocess
import tempfile

import pytest
from instructions import Code
from made import Composite, Empty, Font, comb, list_of, square
from needs import REAL, compiled, real_font, tool

HERE = os.path.dirname(__file__)
DEJAVU, LIBERATION = REAL
# All that DejaVu Sans has up to FFFF, but for two glyphs whose programs halt.
WHOLE = "0-19b,19d-24f,251-ffff"
KIB = 1024
# A font, words, and the most KiB at a time. The font's own bytes are among them: 1 MiB for both, as a list that grows has them.
REQUESTS = [
    (DEJAVU, "make --ppem 16 --chars 20-7e", 1220),
    (DEJAVU, "make --ppem 16 --chars 20-7e --unhinted", 1170),
    (DEJAVU, "make --ppem 8 --chars 20-7e --dropout --x11 --property A=1 --property B=x", 1225),
    (DEJAVU, "make --ppem 128 --chars %s" % WHOLE, 10880),
    (DEJAVU, "make --ppem 128 --chars %s --dropout --x11" % WHOLE, 10890),
    (LIBERATION, "make --ppem 1024 --chars 40-57 --dropout --x11", 5720),
    (LIBERATION, "show --ppem 200 --char 41 --dropout", 450),
    (LIBERATION, "dump --of fpgm", 300),
    ("16,000 points", "make --ppem 1024 --chars 41-42 --dropout", 1380),
    ("a square for all", "make --ppem 12 --chars 0-ffff --dropout --x11", 10180),
]
# Fonts that are made here: as many points as a glyph may have, in two glyphs; one glyph for each of 65,536 characters, or of each
# ninth; and a glyph that branches.
MADE = {"16,000 points": lambda: Font([Empty(), comb(16000, Code().fill(9)), comb(16000)], {0x41: 1, 0x42: 2}, upem=8192, stack=9),
        "a square for all": lambda: Font([Empty(), square(900)], 1),
        "branches": lambda: branches(2000, 1000),
        "gaps": lambda: Font([Empty(), square(900)], dict.fromkeys(range(0, 0xFFFF, 9), 1))}
READ = 64 * KIB  # bytes that a call has room for
BODY = Code().fill(9)  # of the function that the programs of glyphs call, each CALLS times
CALLS, GLYPHS = 10000, 12
COSTS = os.path.join(HERE, "counted_work.txt")
# A font and words: strikes that are hinted and not, of few and of many glyphs, of composites, with each kind of drop-out control,
# large ones; the other commands; a function that branches past many bytes; all characters, and those that are missing, of a font
# and of a map with many gaps.
COUNTED = [
    (DEJAVU, "make --ppem 16 --chars 20-7e"),
    (DEJAVU, "make --ppem 16 --chars 20-17f"),
    (DEJAVU, "make --ppem 16 --chars 20-7e --unhinted"),
    (DEJAVU, "make --ppem 16 --chars 20-7e --dropout=near"),
    (DEJAVU, "make --ppem 16 --chars 1e00-1eff --dropout"),
    (LIBERATION, "make --ppem 13 --chars 20-ff --dropout=font --x11"),
    (LIBERATION, "make --ppem 200 --chars 20-5f --unhinted"),
    (DEJAVU, "show --ppem 32 --char 1eb4"),
    (DEJAVU, "trace --ppem 16 --char 41"),
    ("branches", "outline --ppem 16 --char 41"),
    (DEJAVU, "make --ppem 12 --all --unhinted"),
    (DEJAVU, "make --ppem 12 --chars 0-ffff --missing --unhinted"),
    ("gaps", "make --ppem 12 --all"),
    ("gaps", "make --ppem 12 --chars 0-ffff --missing"),
]
# libc sets and copies memory by what the processor has, which makes a quarter of a count: not so, so that all machines count alike.
PLAIN = "glibc.cpu.hwcaps=-AVX2,-AVX2_Usable,-AVX_Fast_Unaligned_Load,-ERMS,-FSRM,-BMI2"
WITHIN = 0.02  # of a count, by which another may differ
X_AXIS, IF, ELSE, EIF = 0x01, 0x58, 0x1B, 0x59
STEP = 28  # the most machine instructions that an instruction of a font without operands may cost


def branches(times, length):
    """A font whose glyph calls a function so many times, which passes over so many bytes by ELSE, and again by IF."""
    past = bytes([X_AXIS] * length + [EIF])
    body = Code().push(1).do(IF, ELSE).add(past, 0).push(0).do(IF).add(past, 0)
    return Font([Empty(), square(500, Code().call_times(times, 0, body))], {0x41: 1}, fpgm=Code().define(0, body), functions=1,
                stack=9)


def counted(program, library, words, font):
    """The bytes out at the end, the most at a time, and the number of calls that read."""
    with open(font, "rb") as given, tempfile.TemporaryFile() as told:
        done = subprocess.run([program] + words.split(), stdin=given, stdout=subprocess.DEVNULL, stderr=subprocess.PIPE,
                              timeout=120, env={"LD_PRELOAD": library, "COUNT_TO": str(told.fileno())}, pass_fds=[told.fileno()])
        told.seek(0)
        out, most, reads = map(int, told.read().split())
    if done.returncode:
        raise RuntimeError("status %d: %r" % (done.returncode, done.stderr[-200:]))
    return out, most, reads


@pytest.fixture(name="folder", scope="module")
def folder_of_fonts(tmp_path_factory):
    """A folder for the fonts that are made."""
    return tmp_path_factory.mktemp("fonts")


@pytest.fixture(name="library", scope="module")
def library_that_counts(folder):
    """The library that counts."""
    return compiled(os.path.join(HERE, "memory.c"), folder / "memory.so", "-shared", "-fPIC")


def path_of(font, folder):
    """The path of a font, which is made if it is one of MADE."""
    if font not in MADE:
        real_font(font)
        return REAL[font]
    path = folder / (font + ".ttf")
    if not path.exists():
        path.write_bytes(MADE[font]().data())
    return str(path)


@pytest.mark.parametrize("number", range(len(REQUESTS)))
def test_memory(number, program, library, folder):
    """The memory of a request, and its calls that read."""
    font, words, most_kib = REQUESTS[number]
    path = path_of(font, folder)
    out, most, reads = counted(program, library, words, path)
    print("%s of %s: %d KiB at most, %d allowed; %d reads" % (words, font, -(-most // KIB), most_kib, reads))
    assert most >= os.path.getsize(path), "less memory than the font was seen: does the program take its memory another way?"
    assert out == 0, "%d bytes were not given back" % out
    assert most <= most_kib * KIB, "%d KiB at a time, and %d are allowed" % (-(-most // KIB), most_kib)
    assert reads <= os.path.getsize(path) // READ + 2


# ---- programs

def instructions(program, words, path):
    """The machine instructions of a request to a font, by callgrind: those of `main`, since what comes before depends on the
    system."""
    count = ["valgrind", "--tool=callgrind", "--callgrind-out-file=/dev/null", "--toggle-collect=main"]
    with open(path, "rb") as given:
        done = subprocess.run([*count, program] + words.split(), stdin=given, stdout=subprocess.DEVNULL, stderr=subprocess.PIPE,
                              timeout=300, text=True, env={**os.environ, "GLIBC_TUNABLES": PLAIN})
    found = re.search(r"Collected : (\d+)", done.stderr)
    if done.returncode or not found:
        raise RuntimeError("valgrind: status %d: %s" % (done.returncode, done.stderr[-300:]))
    return int(found.group(1))


def fonts_to_run(code):
    """Fonts whose glyphs have a program, or none: a name, the font, its characters, and how often its programs are due to run."""
    codes, more = range(0x100, 0x100 + GLYPHS), {"fpgm": Code().define(0, BODY), "functions": 1, "stack": 9}
    # The lines of these three have more bytes than a strike keeps: 4,000 rows of 4,000 pixels each.
    large, each = [square(16000)] * 3, [square(500, code)] * GLYPHS
    all_codes = range(0x100, 0x103 + GLYPHS)
    yield "lines that fit", Font([Empty()] + each, {it: 1 + k for k, it in enumerate(codes)}, upem=1024, **more), codes, GLYPHS
    yield "lines that don't fit", Font([Empty()] + large + each, {it: 1 + k for k, it in enumerate(all_codes)}, upem=64,
                                       **more), all_codes, 2 * GLYPHS
    twice = [Composite([(1, 0, 0), (1, 100 + 9 * k, 300)]) for k in range(GLYPHS)]
    yield "a component that comes again", Font([Empty(), square(90, code)] + twice, {it: 2 + k for k, it in enumerate(codes)},
                                               upem=1024, **more), codes, 1


def instructions_of(program, words, font, folder):
    """The machine instructions of a request to a made font."""
    path = folder / "font.ttf"
    path.write_bytes(font.data())
    return instructions(program, words, path)


@pytest.fixture(name="one", scope="module")
def one_run(program, folder):
    """What one run of the programs takes, as a picture takes it: with them and not without."""
    tool("valgrind")
    (_, font, codes, _), (_, bare, _, _) = next(fonts_to_run(Code().call_times(CALLS, 0, BODY))), next(fonts_to_run(None))
    show = "show --ppem 16 --char %x" % codes[-1]
    return instructions_of(program, show, font, folder) - instructions_of(program, show, bare, folder)


def test_an_instruction(one):
    """What an instruction of a font costs."""
    step = one / Code().call_times(CALLS, 0, BODY).steps
    assert step <= STEP, "an instruction of a font costs %.1f machine instructions, and %d are allowed" % (step, STEP)


@pytest.mark.parametrize("number", range(3))
def test_programs(number, program, one, folder):
    """How often programs run in a strike: what it takes with its programs and not without, in runs of one."""
    (name, font, codes, due), (_, bare, _, _) = (list(fonts_to_run(code))[number]
                                                 for code in (Code().call_times(CALLS, 0, BODY), None))
    make = "make --ppem 16 --chars %s" % list_of(codes)
    ran = (instructions_of(program, make, font, folder) - instructions_of(program, make, bare, folder)) / one
    assert abs(ran - due) <= 0.5, "%s: programs ran %.1f times, and %d are due" % (name, ran, due)


# ---- costs

def counts_written():
    """From each request of the table to its count, and to the bytes of the font that was counted."""
    with open(COSTS, encoding="utf-8") as file:
        rows = [line.rstrip("\n").split(" ", 2) for line in file]
    return {request: (int(count), int(size)) for count, size, request in rows}


def written(rows):
    """Writes the table anew."""
    with open(COSTS, "w", encoding="utf-8") as file:
        file.writelines("%d %d %s\n" % (*numbers, request) for request, numbers in rows.items())


@pytest.mark.parametrize("number", range(len(COUNTED)))
def test_costs(number, program, folder):
    """What a request costs, compared with the table."""
    font, words = COUNTED[number]
    tool("valgrind")
    path, rows = path_of(font, folder), counts_written()
    request, count = "%s: %s" % (os.path.basename(REAL.get(font, font)), words), instructions(program, words, path)
    if os.environ.get("MKSTRIKE_WRITE"):
        written({**rows, request: (count, os.path.getsize(path))})
    due, size = rows.get(request, (count, os.path.getsize(path)))
    if size != os.path.getsize(path):
        pytest.skip("the font is of another version")
    assert abs(count - due) <= WITHIN * due, "%s: %d machine instructions, and %d are due: is the change meant?" % (
        request, count, due)
