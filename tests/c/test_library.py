"""Builds programs with the C library, and compares what it gives with what the program gives.

The archive is the one that MKSTRIKE_ARCHIVE names, else dist/libmkstrike_c.a, if that is of these sources; else the one that `rt
lib` makes, if the libraries below it are kept and that takes at most three minutes; else all is left out. The programs are the
examples and check_c.c, as C99 and as C++, with all warnings as errors. Strikes of real and of damaged fonts must be the program's
byte for byte, and refusals its lines; many glyphs in one call must be those of the strike; other calls are made through the shared
object (calls.py), and tools/fuzz_c.c looks at what agrees from call to call, with each request for memory refused in turn; then
eight threads, a small stack, a program without a C library, AddressSanitizer and valgrind. c/arena.c is looked at by calls of its
own, and with c/heap.c each request of malloc and realloc is refused in turn. The archive for 64-bit ARM, that of dist/ or of
MKSTRIKE_ARM_ARCHIVE, runs under qemu-user. With MKSTRIKE_LONG=1 fuzz_c.c looks at every font that is installed.
"""
import ctypes
import glob
import itertools
import os
import random
import re
import shutil
import signal
import subprocess
import sys
from array import array
from ctypes import byref

import compile_lines
import prebuilt
import pytest
import stack
from calls import Calls, Refused, _library
from damage import Damaged
from due import own_lines
from made import Empty, Font, Simple
from making import fonts
from making import charmaps
from making.assembler import pushed
from making.collection import Collection
from mkstrike import Strike
from needs import REAL, left_out, real_font, tool
from prebuilt import TOP
from runs import run_refusing

HERE = os.path.dirname(__file__)
CRATE = os.path.join(TOP, "crates/mkstrike_c")
C = ["-O2", "-Wall", "-Wextra", "-Werror", "-I" + os.path.join(TOP, "include"), "-I" + os.path.join(TOP, "c")]
BESIDE = [os.path.join(TOP, "c/calls.c"), os.path.join(TOP, "c/heap.c")]  # what a program links beside the archive
CALLER = ["-std=gnu99", "-DALONE", *C, os.path.join(TOP, "tools/fuzz_c.c"), BESIDE[0]]  # what looks at the calls of an input
C99, CPP = ["cc", "-std=c99"], ["c++", "-x", "c++", "-std=c++11"]
ARM_CC, ARM_RUN = ["aarch64-linux-gnu-gcc"], "qemu-aarch64"
CALLS = prebuilt.calls_of_header()
PROVED = {"proved_" + it for it in CALLS}  # those of the archive
NEEDS = {"memcpy", "memmove", "memset", "__udivti3", "rattle_alloc", "rattle_realloc", "rattle_dealloc"}
DAMAGED, SEED, LONG = 150, 41, os.environ.get("MKSTRIKE_LONG")
SECONDS = 180  # that `rt lib` may take
STACK = 26 << 9  # bytes that docs/LIBRARY.md promises to be enough for a call, beside those of memcpy and malloc
# A mode is the letters of its bits, which check_c.c takes by the names of include/mkstrike.h.
HINTED, DROPOUT, NEAR, ASKED, CAREFUL, X11 = "h", "d", "n", "f", "c", "x"
MODES = [hinted + closed for closed in ("", DROPOUT, NEAR, ASKED) for hinted in ("", HINTED)]
EXAMPLES = HINTED + ASKED


class Wrong(AssertionError):
    """What is wrong, in one line."""


def run(words, data=None, status=0, **more):
    """Runs a command, which must end with this status, if one is named; returns the finished process."""
    done = subprocess.run(words, input=data, capture_output=True, timeout=600, **more)
    if status is not None and done.returncode != status:
        said = (done.stdout[-300:] + done.stderr[-900:]).decode("latin-1").strip()
        raise Wrong("%s: status %d: %s" % (" ".join(os.path.basename(it) for it in words[:8]), done.returncode, said))
    return done


def flags(mode):
    """The flags of mkstrike for a mode of the library."""
    closed = (["--dropout"] if DROPOUT in mode else ["--dropout=near"] if NEAR in mode else ["--dropout=font"] if ASKED in mode
              else [])
    closed += ["--careful"] if CAREFUL in mode else []
    return ([] if HINTED in mode else ["--unhinted"]) + closed + (["--x11"] if X11 in mode else [])


class Library:
    """The programs built in a folder, and what was seen of them."""

    def __init__(self, folder, program, archive):
        self.folder, self.program, self.archive = str(folder), program, archive
        self.real = [it for it in REAL.values() if os.path.exists(it)]

    def at(self, name):
        return os.path.join(self.folder, name)

    def part(self, name, codes=(0x20, 0x41, 0x67, 0xE9, 0x25, 0x1EB4)):
        """A file with a part of a real font, or the fixture where there is none."""
        path = self.at("part of " + name)
        with open(path, "wb") as file:
            found = [it for it in self.real if os.path.basename(it) == name]
            file.write(fonts.part_of(open(found[0], "rb").read(), list(codes)) if found else fonts.FIXTURE)
        return path

    def letters(self):
        """A file with the ASCII of a real font, whose `A` has gaps at 16 pixels if it is Liberation Sans."""
        name = "LiberationSans-Regular" if REAL["LiberationSans-Regular"] in self.real else "DejaVuSans"
        real_font(name)
        return self.part(name + ".ttf", range(0x20, 0x7F))

    def compile(self, compiler, source, name, *words):
        """Compiles a source to an object file."""
        run(compiler + C + list(words) + ["-c", os.path.join(TOP, source), "-o", self.at(name)])
        return self.at(name)

    def build(self):
        """Builds all programs, and checks that they compile as C++ too."""
        sources = ("c/calls.c", "c/heap.c", "c/arena.c", "examples/show.c", "examples/console.c", "tests/c/check_c.c",
                   "tests/c/check_c_arena.c",
                   "tests/c/check_c_heap.c")
        for source in sources:
            name = os.path.basename(source)[:-2] + ".o"
            self.compile(C99, source, name)
        if shutil.which("c++"):
            for source in sources:
                self.compile(CPP, source, os.path.basename(source)[:-2] + "++.o")
            run(["c++", *map(self.at, ("show++.o", "calls++.o", "heap++.o")), self.archive, "-o", self.at("show++")])
        for name, other in (("show", "heap.o"), ("console", "arena.o"), ("check_c", "heap.o")):
            run(["cc", "-pthread", *map(self.at, (name + ".o", "calls.o", other)), self.archive, "-o", self.at(name)])
        run(["cc", *CALLER, self.archive, "-o", self.at("caller")])

    def make(self, font, ppem, mode, first, last, status=0):
        """What mkstrike gives: status, text and line."""
        words = [self.program, "make", "--ppem", str(ppem), "--chars", "%x-%x" % (first, last), "--name", "mkstrike"]
        with open(font, "rb") as file:
            done = run(words + flags(mode), file.read(), status)
        return done.returncode, done.stdout, own_lines(done.stderr)

    def same(self, font, ppem, mode, first, last, checker="check_c", status=0):
        """A strike is the program's; returns the status of both."""
        words = [self.at(checker), "strike", font, str(ppem), mode, "%x" % first, "%x" % last]
        done = run(words, status=None)
        due = self.make(font, ppem, mode, first, last, status=status)
        if (done.returncode, done.stdout, done.stderr) != due:
            raise Wrong("a strike of %s at %d that is not the program's: status %d %r, and %d %r is due" % (
                os.path.basename(font), ppem, done.returncode, done.stderr[-200:] or done.stdout[-200:], due[0], due[2]))
        return due[0]

    def each_damaged(self):
        """Damaged fonts one after the other: their path, a size, and a mode."""
        draw, bases = random.Random(SEED), [fonts.FIXTURE]
        bases += [open(self.part(os.path.basename(it)), "rb").read() for it in self.real]
        path = self.at("damaged.ttf")
        for k in range(DAMAGED):
            with open(path, "wb") as file:
                file.write(Damaged(bases[k % len(bases)], draw, bases).data)
            yield path, draw.choice((0, 1, 16, 33, 1024, 1025)) if k % 10 == 0 else 16, draw.choice(MODES)

    def inputs(self, found, ways):
        """Files for tools/fuzz_c.c: each font with what is asked after it, of a size, a mode and a kind of pixels, in so many ways.

        From way 16 on the mode has an unknown bit."""
        draw, paths = random.Random(SEED), []
        for k, (font, way) in enumerate(itertools.product(found, ways)):
            said = bytearray(draw.randbytes(24))
            said[4], said[5], said[6], said[7], said[22] = (draw.choice((22, 14, 31, 38)), way % 8 if way < 16 else 251 + way % 5,
                                                            said[6] & ~2 | way // 8 * 2, 13, 1)
            paths.append(self.at("input%d" % k))
            with open(paths[-1], "wb") as file:
                file.write(font + said)
        return paths

    def refuse_each(self, library, font, mode, on):
        """Refuses each request of a strike in turn: the call makes the strike once more. Or all after it too, if `on`: the call
        says so; or check_c.c does, of its own."""
        words = [self.at("check_c"), "strike", font, "16", mode, "61", "61"]
        whole, told = run(words), []
        answers = [(0, whole.stdout, whole.stderr), (1, b"", b"mkstrike: 90 OutOfMemory\n")]
        answers += [(3, b"check_c: %s\n" % it, b"") for it in (b"out of memory", b"no font", b"refused the second time")]
        while True:
            done, was_refused = run_refusing(library, words, len(told) + 1, on)
            answer = (done.returncode, done.stdout, done.stderr)
            if answer not in answers or not was_refused and answer != answers[0]:
                raise Wrong("c/heap.c with request %d refused: status %d, %r"
                            % (len(told) + 1, done.returncode, (done.stderr or done.stdout)[-200:]))
            if not was_refused:
                break
            told.append(done.returncode)
        if told.count(1 if on else 0) < 10 or not on and 1 in told:
            raise Wrong("90 in place of a strike %d times of %d: does the library take its memory another way?"
                        % (told.count(1), len(told)))

    def linked(self, name):
        """A file of those that packaging/link makes."""
        folder = self.at("linked")
        if not os.path.exists(folder):
            os.mkdir(folder)
            run([os.path.join(TOP, "packaging/link"), folder, self.archive])
        return glob.glob(os.path.join(folder, name))[0]

    def picture(self, font, ppem, character):
        """The picture of a character that mkstrike shows, in the mode of the examples."""
        with open(font, "rb") as file:
            words = [self.program, "show", "--ppem", str(ppem), "--char", "%x" % ord(character), *flags(EXAMPLES)]
            return run(words, file.read()).stdout


def archive_of():
    """The path of the archive; if there is none, and rt would have to prove much for one, all is left out."""
    named = os.environ.get("MKSTRIKE_ARCHIVE")
    if named:
        return os.path.abspath(named)
    try:
        prebuilt.library_of_dist()
        return os.path.join(prebuilt.DIST, "libmkstrike_c.a")
    except prebuilt.Fault as fault:
        why = str(fault)
    if not os.path.exists(os.path.join(TOP, "crates/fx_views/out/rlib/stamp")):
        pytest.skip(why)
    with subprocess.Popen(["rt", "lib", "--jobs", "2"], cwd=CRATE, stdout=subprocess.PIPE, stderr=subprocess.STDOUT, text=True,
                          start_new_session=True) as rt:
        try:
            said, _ = rt.communicate(timeout=SECONDS)
        except subprocess.TimeoutExpired:
            os.killpg(rt.pid, signal.SIGTERM)
            pytest.skip("rt lib in crates/mkstrike_c had more to prove than %d seconds allow; %s" % (SECONDS, why))
    if rt.returncode:
        raise Wrong("rt lib failed: %s" % said[-600:])
    return prebuilt.ARCHIVE


@pytest.fixture(name="unbuilt", scope="module")
def library(program, tmp_path_factory):
    """The library, for tests that build all that they need."""
    tool("cc")
    return Library(tmp_path_factory.mktemp("c"), program, archive_of())


@pytest.fixture(name="calls", scope="module")
def calls_of_the_library(unbuilt):
    """The calls of the shared object."""
    return Calls(unbuilt.linked("*.so.*"))


@pytest.fixture(name="lib", scope="module")
def programs(unbuilt):
    """The same with the programs."""
    unbuilt.build()
    return unbuilt


@pytest.mark.parametrize("name", [*REAL, "c++"])
def test_is_there(name):
    """What some of these tests need, and go without."""
    if name in REAL:
        real_font(name)
    else:
        tool(name)


def test_symbols(unbuilt):
    """The archive has these calls, needs these functions, and keeps no data that can be written."""
    tool("nm")
    lines = run(["nm", "-g", unbuilt.archive]).stdout.decode().splitlines()
    defined = {it.split()[2] for it in lines if re.match(r"[0-9a-f]+ [A-Z] ", it)}
    needed = {it.split()[1] for it in lines if re.match(r" +U ", it)}
    if not PROVED <= defined or {it for it in defined - PROVED if not it.startswith("_R")} or needed - NEEDS:
        raise Wrong("the archive defines %s and needs %s" % (sorted(defined), sorted(needed)))
    sections = run(["size", "-A", unbuilt.archive]).stdout.decode().split("\n")
    state = [it for it in sections if re.match(r"\.t?(data|bss)(?!\.rel\.ro)\S* +[1-9]", it)]
    if state:
        raise Wrong("the archive has data that can be written: %s" % state[:3])


def test_reasons(calls):
    """The names of docs/REFUSALS.md by their numbers, and what to do; each is cut to its room, and nothing after it is changed."""
    rows = prebuilt.refusals()
    names, to_do = ({0: "Done", 1: "Missing", **{number: name for number, name, _, _ in rows}},
                    {number: said for number, _, _, said in rows})
    for number in range(400):
        for call, most, due in ((calls.c.mkstrike_reason, 21, names.get(number, "Unknown")),
                                (calls.c.mkstrike_advice, 91, to_do.get(number, ""))):
            assert len(due) < most
            for room in range(most + 1):
                text = ctypes.create_string_buffer(b"\7" * 96, 96)
                assert call(number, text, room) == len(due)
                assert text.raw == (due[:room - 1].encode() + b"\0" if room else b"").ljust(96, b"\7"), (number, due)


def test_strikes(lib):
    """All of real fonts, and each glyph alone. Hinted, two glyphs of DejaVu Sans halt, so that the whole is refused."""
    for font in lib.real:
        for ppem in (9, 16, 33):
            lib.same(font, ppem, HINTED, 0, 0xFFFF, status=None)
            for mode, first, last in ((HINTED, 0x20, 0x17F), (HINTED, 0x251, 0xFFFF), ("", 0, 0xFFFF), ("", 0x10000, 0x1FFFF),
                                      (DROPOUT, 0x20, 0x17F), (HINTED + DROPOUT, 0x20, 0x17F), (HINTED + NEAR, 0x20, 0x17F),
                                      (ASKED, 0x20, 0x17F), (HINTED + ASKED, 0x20, 0x17F), (X11, 0x20, 0x7E),
                                      (HINTED + X11, 0x20, 0x17F), (HINTED + ASKED + CAREFUL, 0x20, 0x17F)):
                lib.same(font, ppem, mode, first, last)


def test_damaged(lib):
    """Damaged fonts: the same strikes, refusals and fields."""
    for path, ppem, mode in lib.each_damaged():
        lib.same(path, ppem, mode, 0x20, 0xFF, status=None)


def test_halts(lib):
    """Programs that halt in the bytes of another: the fields tell apart which was started and in which the instruction is."""
    path = lib.at("halting.ttf")
    for font, code, during, where in fonts.halting():
        with open(path, "wb") as file:
            file.write(font)
        at = 5 if during != where else 2
        due = b"mkstrike: 32 BadOpcode during %s in %s at %d opcode 28\n" % (during.encode(), where.encode(), at)
        done = run([lib.at("check_c"), "strike", path, "16", HINTED, "%x" % code, "%x" % code], status=1)
        if (done.stdout, done.stderr) != (b"", due):
            raise Wrong("a halt: %r, and %r is due" % (done.stderr, due))
        lib.same(path, 16, HINTED, code, code, status=1)
        run([lib.at("check_c"), "many", path, "16", HINTED, "%x" % code, "%x" % code])


def test_many(lib):
    """Many characters in one call: real fonts, the two characters of DejaVu Sans that halt, and damaged fonts."""
    for font in lib.real:
        for ppem, mode in zip((9, 9, 16, 16, 12, 33, 20, 33), MODES):
            for first, last in ((0, 0xFFFF), (0x10000, 0x1F7FF)):
                words = [lib.at("check_c"), "many", font, str(ppem), mode, "%x" % first, "%x" % last]
                status, _, halted = map(int, run(words).stdout.split())
                due = 2 if "DejaVu" in font and HINTED in mode and first == 0 else 0
                if (status, halted) != (0, due):
                    raise Wrong("many characters of %s: status %d, %d refused" % (os.path.basename(font), status, halted))
    for path, ppem, mode in lib.each_damaged():
        run([lib.at("check_c"), "many", path, str(ppem), mode, "20", "ff"])


def test_requests(calls):
    """Of many characters: the size goes before the characters, the characters before the font, and as many as there may be are
    made."""
    font, placed, drawn = fonts.FIXTURE, ctypes.create_string_buffer(65537 * 40), _library._Drawn()
    for count, last, ppem, mode, length, due in (
            (65537, 0x20, 16, 0, len(font), 61), (65537, 0x20, 16, 0, 0, 61), (65537, 0x20, 0, 0, 0, 60),
            (65537, 0x20, 0, 32, 0, 64), (65536, 0x20, 16, 0, 0, 10), (65536, 0x20, 16, 0, len(font), 0),
            (65536, 0x110000, 16, 0, len(font), 61), (0, 0, 16, 0, len(font), 0)):
        chars = array("I", [0x20]) * max(count - 1, 0) + array("I", [last])
        status = calls.c.mkstrike_glyphs(font, length, 0, ppem, mode, chars.buffer_info()[0], count, placed, count, None, 0,
                                         byref(drawn), byref(calls.refused))
        assert status == due and (status or (drawn.glyphs, drawn.missing, drawn.bytes) == (count, 0, 0)), (
            count, last, ppem, mode, length)


def test_outlines(lib, calls):
    """Outlines of glyphs by their numbers: what mkstrike outline writes, composites, glyphs that halt and numbers past the last
    too."""
    for font in lib.real:
        data = prebuilt.read(font)
        for ppem, is_hinted, step in ((16, True, 97), (33, False, 331), (1024, True, 997)):
            for glyph in list(range(0, 2600, step)) + [350, 36, 65534, 65535]:
                words = ["outline", "--ppem", str(ppem), "--glyph", str(glyph)] + ["--unhinted"] * (not is_hinted)
                due = run([lib.program, *words], data, None)
                try:
                    seen = 0, "".join(it + "\n" for it in calls.outline(data, ppem, is_hinted, glyph)), ""
                except Refused as why:
                    seen = 1, "", "mkstrike: %s\n" % why.line
                if seen != (due.returncode, due.stdout.decode(), own_lines(due.stderr).decode()):
                    raise Wrong("the outline of glyph %d of %s at %d that is not the program's"
                                % (glyph, os.path.basename(font), ppem))


def test_fonts(lib, calls):
    """What a font is told to be is what its file says: it has the last glyph, and none past it. The numbers of glyphs fill as much
    as fits."""
    for path in lib.real + [lib.part("")]:
        font, info = prebuilt.read(path), _library._Glyph()
        told, tables = _library.info(font, 0, 16), fonts.tables_of(font)
        upem, count = int.from_bytes(tables["head"][18:20], "big"), int.from_bytes(tables["maxp"][4:6], "big")
        heights = [int.from_bytes(tables["hhea"][at:at + 2], "big", signed=True) for at in (4, 6, 8)]
        near = [(abs(it) * 32 + upem) // (2 * upem) * (1 if it > 0 else -1) for it in (heights[0], -heights[1], heights[2])]
        assert [told.ascent, told.descent, told.line_gap, told.glyphs] == near + [count]
        for glyph in (count - 1, count, 65535, 65536, 0xFFFFFFFF, 65536 + 3):
            status = calls.c.mkstrike_glyph_by_id(font, len(font), 0, 16, 0, glyph, None, 0, byref(info), byref(calls.refused))
            assert status == (0 if glyph < count else 24) and (not status or calls.refused.glyph == min(glyph, 65535))
        for face, size, due in ((0, 0, 60), (1, 16, 25)):
            with pytest.raises(Refused, match="^%d " % due):
                _library.info(font, face, size)
        codes = [k * 37 % 300 for k in range(300)]
        numbers, chars = _library.glyph_ids(font, 0, codes), array("I", codes)
        for code, number in zip(codes, numbers):
            status = calls.c.mkstrike_glyph(font, len(font), 0, 16, 0, code, None, 0, byref(info), None)
            assert (number == 0) == (status == calls.MISSING)
        for room in range(0, 300, 23):
            some = array("H", [7]) * 300
            assert not calls.c.mkstrike_glyph_ids(font, len(font), 0, chars.buffer_info()[0], 300, some.buffer_info()[0], room,
                                                  None)
            assert some == numbers[:room] + array("H", [7]) * (300 - room)
        for data, code, due in ((font, 0x110000, 61), (b"", 0x41, 10)):
            with pytest.raises(Refused, match="^%d " % due):
                _library.glyph_ids(data, 0, [code])
    assert calls.c.mkstrike_version() == int(prebuilt.read(os.path.join(TOP, "VERSION")).decode().strip().split(".")[1])


def test_characters(lib, calls):
    """The faces of files and the characters of fonts, worked out by hand, and those of damaged fonts as the program has them."""
    glyphs = [b"", fonts.simple([[(0, 0, 1), (90, 0, 1), (90, 90, 1)]])]
    whole = [(at, min(at + 0xFFFE, 0x10FFFF), 1) for at in range(0, 0x110000, 0xFFFF)]  # glyphs 1 to 65,535, 18 times
    for cmap, due in (
            (fonts.map_of([(0x41, 1), (0x42, 1), (0x3042, 1)]), [0x41, 0x42, 0x3042]),  # and U+FFFF, whose glyph is 0
            (fonts.map_of([(0x41, 0)]), []),
            (fonts.wide_map_of([(0, 1), (0x10FFFF, 1)]), [0, 0x10FFFF]),
            (charmaps.table((3, 10, charmaps.groups([(0x10FFFF, 0x110001, 1)]))), [0x10FFFF]),
            (charmaps.table((3, 10, charmaps.groups([(0x41, 0x43, 65535)]))), [0x41]),  # the next numbers are no glyphs
            (fonts.map_to_one(9), range(0x10000)),
            (charmaps.table((3, 10, charmaps.groups(whole))), range(0x110000))):
        font = fonts.font_of(glyphs, cmap)
        assert calls.faces(font) == 1 and calls.characters(font) == array("I", due), due
    made = Font([Empty(), Simple([(0, 0, 90, 90)])], {0x41: 1})
    three, none = Collection("", [made] * 3).bytes(), Collection("", [], count=0).bytes()
    assert (calls.faces(three), list(calls.characters(three)), calls.faces(none), calls.faces(b"")) == (3, [0x41], 0, 1)
    for call, font, due in ((calls.characters, none, 25), (calls.characters, b"", 10), *(
            (calls.faces, it, 10) for it in (Collection("", [made], count=2, size=19).bytes(), b"ttcf"))):
        with pytest.raises(Refused, match="^%d " % due):
            call(font)
    for path, _, _ in lib.each_damaged():
        font = prebuilt.read(path)
        due = run([lib.program, "make", "--ppem", "8", "--all", "--unhinted", "--refused", "leave-out"], font, None)
        try:
            calls.faces(font)
            right = len(calls.characters(font)) == due.stdout.count(b"STARTCHAR") + due.stderr.count(b"left out U+")
        except Refused as why:
            right = own_lines(due.stderr).decode() == "mkstrike: %s\n" % why.line
        assert right, "the characters of a damaged font"


def test_names(lib, calls):
    """The names of fonts, worked out by hand: which record goes first, what counts as a text, and damaged tables; and of real
    fonts."""
    english, british, german, unicode, mac = (3, 1, 0x409), (3, 1, 0x809), (3, 1, 0x407), (0, 3, 0), (1, 0, 0)

    def wide(text):
        return text.encode("utf-16-be")

    table = fonts.name_table
    long = "\uffff" * 32767  # the longest string that has whole code units
    for number, made, due in (
            (1, table((*mac, 1, b"m"), (*german, 1, wide("g")), (*unicode, 1, wide("u")), (*english, 1, wide("e")),
                      (*english, 1, wide("f"))), "e"),
            (1, table((*mac, 1, b"m"), (*german, 1, wide("g")), (*unicode, 1, wide("u")), (*unicode, 1, wide("v"))), "u"),
            (1, table((*german, 1, wide("g")), (*british, 1, wide("b")), (*unicode, 1, wide("u"))), "u"),
            (1, table((*german, 1, wide("g")), (*british, 1, wide("b"))), "g"),
            (1, table((*mac, 1, b"m"), (3, 10, 0x407, 1, wide("g")), (3, 0, 0x409, 2, wide("e"))), "g"),
            (1, table((1, 1, 11, 1, b"j"), (2, 1, 0x409, 1, wide("i")), (*mac, 2, b"s"), (*mac, 1, b"m")), "m"),
            (2, table((*english, 1, wide("a")), (*english, 2, wide("b")), (*english, 16, wide("c"))), "b"),
            (16, table((*english, 1, wide("a")), (*english, 2, wide("b")), (*english, 16, wide("c"))), "c"),
            (65535, table((*english, 65535, wide("a"))), "a"),
            (65536 + 1, table((*english, 1, wide("a"))), None),
            (1, table((*english, 1, wide("A\u00e9\u3042\U00010000\U0010ffff\ufffd\0z"))),
             "A\u00e9\u3042\U00010000\U0010ffff\ufffd\0z"),
            (1, table((*english, 1, b"\xd8\x00")), "\ufffd"),
            (1, table((*english, 1, b"\xd8\x00\0a\xdc\x00\xd8\x00\xd8\x01\xdc\x02")), "\ufffda\ufffd\ufffd\U00010402"),
            (1, table((*english, 1, b"\xdb\xff\xdf\xff\xd7\xff\xe0\x00")), "\U0010ffff\ud7ff\ue000"),
            (1, table((*english, 1, wide(long))), long),
            (1, table((*english, 1, b"\0ab"), (*german, 1, wide("g"))), "g"),  # an odd length
            (1, table((*english, 1, b""), (*unicode, 1, wide("u"))), "u"),
            (1, table((*mac, 1, b"\x80"), (*mac, 1, b"\x7f\0 ")), "\x7f\0 "),
            (1, table((*mac, 1, b"m"), (*english, 1, wide("a")))[:-1], "m"),  # the last string is cut
            (1, table((*english, 1, wide("a")), storage=17), "\0"),  # the last byte of the record, and the first of "a"
            (1, table((*english, 1, wide("a")), storage=19), None),
            (1, table((*english, 1, wide("a")), storage=0xFFFF), None),
            (1, table((*english, 1, wide("a")), count=2), None),
            (1, table((*english, 2, wide("a")), (*english, 1, wide("b")), count=1), None),
            (1, table((*english, 1, wide("a")), count=0), None),
            (1, table(), None), (1, b"\0" * 5, None), (1, b"", None), (1, None, None)):
        font = fonts.font_of([b""], fonts.map_of([(0x41, 0)]), **({} if made is None else {"name": made}))
        assert calls.name(font, 0, number) == (None if due is None else due.encode()), (number, due and due[:90])
    for name, number, due in (("DejaVuSans", 1, b"DejaVu Sans"), ("DejaVuSans", 2, b"Book"), ("DejaVuSans", 17, b"Book"),
                              ("LiberationSans-Regular", 1, b"Liberation Sans"), ("LiberationSans-Regular", 17, None)):
        assert REAL[name] not in lib.real or calls.name(prebuilt.read(REAL[name]), 0, number) == due
    with pytest.raises(Refused, match="^25 NoFace"):
        calls.name(font, 1, 1)


def test_null_at_symbols(unbuilt):
    """NULL that reaches the symbols of the shared object, whatever is said of its elements: for each pointer, and for all but the
    font and a name."""
    told = {"mkstrike_reason": 13, "mkstrike_advice": 18}  # of 52, GlyphTooLarge, how long
    numbers = {"number": 52, "ppem": 16, "code": 0x41, "name_len": 1}
    # of those that refuse, a name is missing first
    for given, due, otherwise in (({}, {"mkstrike_faces": 0, "mkstrike_make": 62}, 10),
                                  ({"font": repr(fonts.FIXTURE), "font_len": len(fonts.FIXTURE), "name": "b'a'"},
                                   {"mkstrike_name": 1}, 0)):
        for name, taken in CALLS.items():
            parts = [(it, re.search(r"\w+$", it).group()) for it in taken.split(",") if "*" in taken]
            values = [given[part] if "*" in it and part in given else "None" if "*" in it else
                      "ctypes.c_size_t(%d)" % given.get(part, numbers.get(part, 9 if part.endswith("_len") else 0))
                      for it, part in parts]
            script = "import ctypes, sys; print(ctypes.CDLL(sys.argv[1]).%s(%s))" % (name, ", ".join(values))
            seen = int(run([sys.executable, "-c", script, unbuilt.linked("*.so.*")]).stdout)
            assert not parts or seen == {**told, **due}.get(name, 65 if name.endswith("_prepared") else otherwise), name


def test_inputs(lib):
    """What tools/fuzz_c.c looks at, of parts of real fonts in each mode, of whole ones, with MKSTRIKE_LONG of all that are
    installed, and of damaged ones."""
    parts = [open(lib.part(os.path.basename(it)), "rb").read() for it in lib.real] or [fonts.FIXTURE]
    run([lib.at("caller"), *lib.inputs([fonts.FIXTURE, *parts], range(20))])
    for font in sorted(glob.glob("/usr/share/fonts/**/*.ttf", recursive=True)) if LONG else lib.real:
        with open(font, "rb") as file:
            run([lib.at("caller"), *lib.inputs([file.read()], (1, 13, 4))])
    draw = random.Random(SEED)
    for way in range(16):
        run([lib.at("caller"), *lib.inputs([bytes(Damaged(draw.choice(parts), draw, parts).data) for _ in range(20)], [way])])


def test_threads(lib):
    """Eight threads, and one with a small stack, of a real font or the fixture."""
    font = lib.real[0] if lib.real else lib.part("")
    run([lib.at("check_c"), "threads", font])
    run([lib.at("check_c"), "stack", font, "64"])


def test_stack(unbuilt):
    """The frames of the library, added up: no call takes more stack than is promised."""
    tool("objdump")
    try:
        bounds = stack.bounds(unbuilt.linked("*.a"), sorted(CALLS))
    except stack.Fault as fault:
        raise Wrong("the stack has no bound: %s" % fault)
    most = max(bounds, key=bounds.get)
    if bounds[most] > STACK:
        raise Wrong("%s takes up to %d bytes of stack" % (most, bounds[most]))


def sanitized(words, out):
    """Builds a program with AddressSanitizer, or leaves the rest out."""
    try:
        run(C99 + C + ["-g", "-fsanitize=address,undefined", "-fno-sanitize-recover=all"] + words + ["-o", out])
    except Wrong:
        left_out("AddressSanitizer")


@pytest.mark.parametrize("ppem", [16, 64])
def test_blocks_of_memory(lib, ppem):
    """A strike that a block of memory is enough for is made in each larger block too, and is the same."""
    sources = [os.path.join(HERE, "check_c_memory.c"), BESIDE[0], os.path.join(TOP, "c/arena.c")]
    run([*C99, *C, *sources, lib.archive, "-o", lib.at("memory")])
    for font in lib.real or [lib.part("")]:
        said = run([lib.at("memory"), font, str(ppem), "20", "ff", "40000", "1100000", "7919"], status=None)
        least, tried = map(int, said.stdout.split()) if said.returncode == 0 else (0, 0)
        if not 40000 < least < 1100000 or tried != 134:
            raise Wrong("a strike of %s in blocks of memory: %s" % (os.path.basename(font), said.stdout.decode().strip()))


def test_under_address_sanitizer(lib):
    """Strikes and glyphs in buffers of just the size that is needed."""
    font = lib.part("DejaVuSans.ttf", range(0x20, 0x7F))
    sanitized(["-pthread", os.path.join(HERE, "check_c.c"), *BESIDE, lib.archive], lib.at("check_asan"))
    lib.same(font, 16, HINTED, 0x20, 0x7E, "check_asan")
    run([lib.at("check_asan"), "many", font, "16", HINTED, "20", "7e"])


def test_under_valgrind(lib):
    """The same."""
    tool("valgrind")
    font = lib.part("DejaVuSans.ttf", range(0x20, 0x7F))
    for words in (["strike", font, "16", HINTED, "20", "7e"], ["many", font, "50", "", "20", "7e"],
                  ["many", font, "16", HINTED, "61", "6a"]):
        run(["valgrind", "-q", "--error-exitcode=9", "--leak-check=full", lib.at("check_c"), *words])


@pytest.mark.parametrize("name", ["arena", "heap"])
def test_direct(name, unbuilt):
    """c/arena.c and c/heap.c by calls of their own, again under AddressSanitizer where that is there."""
    sources, out = [os.path.join(HERE, "check_c_%s.c" % name), os.path.join(TOP, "c/%s.c" % name)], unbuilt.at("direct")
    run(C99 + C + sources + ["-o", out])
    run([out])
    sanitized(sources, out)
    run([out], env={**os.environ, "ASAN_OPTIONS": "allocator_may_return_null=1"})


def test_heap_keeps_nothing(unbuilt):
    """c/heap.c keeps no data that can be written, which threads would share, but for what its name says is nothing."""
    tool("nm")
    unbuilt.compile(C99, "c/heap.c", "heap0.o", "-O0")
    assert set(re.findall(r" [bBdDcC] (\w+)", run(["nm", unbuilt.at("heap0.o")]).stdout.decode())) == {"nothing"}


def test_heap(lib):
    """The library with c/heap.c: a strike of more than 16 MiB, and each request of the C library refused in turn."""
    font = lib.part("DejaVuSans.ttf", range(0x20, 0x7F))
    with open(lib.at("large.ttf"), "wb") as file:  # of one glyph of 8,192 by 8,192 pixels, all set
        file.write(Font([Empty(), Simple([(0, 0, 8192, 8192)])], {0x41: 1}, upem=1024).data())
    lib.same(lib.at("large.ttf"), 1024, "", 0x41, 0x41)
    library = lib.at("refuse.so")
    run(["cc", "-O2", "-shared", "-fPIC", "-o", library, os.path.join(HERE, "../program/memory.c")])
    for mode in (HINTED, DROPOUT):
        for on in (0, 1):
            lib.refuse_each(library, font, mode, on)


def test_arm(lib):
    """The archive for 64-bit ARM under qemu-user: the same strikes, refusals and glyphs."""
    archive = os.environ.get("MKSTRIKE_ARM_ARCHIVE") or os.path.join(prebuilt.DIST, prebuilt.ARM_ARCHIVE)
    if not os.path.exists(archive):
        pytest.skip("no %s: tools/make_dist --arm makes it" % prebuilt.shown(archive))
    tool(ARM_CC[0])
    words = [os.path.join(HERE, "check_c.c"), *BESIDE, archive]
    run(ARM_CC + C + ["-std=c99", "-static", "-pthread"] + words + ["-o", lib.at("check_c_arm")])
    program = [tool(ARM_RUN), lib.at("check_c_arm")]
    for font in lib.real:
        for ppem, mode, first, last in ((9, HINTED, 0x20, 0x17F), (16, HINTED, 0, 0x24F), (33, NEAR, 0x20, 0x17F),
                                        (16, HINTED + DROPOUT, 0x20, 0x7E)):
            done = run(program + ["strike", font, str(ppem), mode, "%x" % first, "%x" % last], status=None)
            if (done.returncode, done.stdout, done.stderr) != lib.make(font, ppem, mode, first, last, None):
                raise Wrong("64-bit ARM: another strike of %s at %d" % (os.path.basename(font), ppem))
        run(program + ["many", font, "16", HINTED, "180", "250"])
    for path, ppem, mode in list(lib.each_damaged())[:30]:
        done = run(program + ["strike", path, str(ppem), mode, "20", "7f"], status=None)
        if (done.returncode, done.stdout, done.stderr) != lib.make(path, ppem, mode, 0x20, 0x7F, None):
            raise Wrong("64-bit ARM: another answer to a damaged font")
    font = lib.part("DejaVuSans.ttf", range(0x20, 0x7F))
    run(program + ["threads", font])
    run(ARM_CC + CALLER + ["-static", archive, "-o", lib.at("caller_arm")])
    with open(font, "rb") as file:
        run([tool(ARM_RUN), lib.at("caller_arm"), *lib.inputs([file.read()], range(16))])


def test_examples(lib):
    """The examples give what mkstrike gives, with the font's rule for gaps."""
    font = lib.letters()
    _, text, _ = lib.make(font, 16, EXAMPLES, 0x20, 0x7E)
    text = text.replace(b"FONT mkstrike\n", b"FONT strike\n")
    shows = [it for it in ("show", "show++") if os.path.exists(lib.at(it))]
    for show in shows:
        if run([lib.at(show), font, "16", "20-7e"]).stdout != text:
            raise Wrong("examples/show.c: another strike")
    pictures = {c: lib.picture(font, 16, c) for c in "Aging"}
    if any(run([lib.at("show"), font, "16", "%x" % ord(c)]).stdout != it for c, it in pictures.items()):
        raise Wrong("examples/show.c: another picture")
    if run([lib.at("show"), font, "0", "41"], status=1).stderr != b"refused: 60 BadSize\n":
        raise Wrong("examples/show.c: another refusal")
    for line in ("", "F 16", "F 16x 41", "F 65552 41", "F 16 4z", "F 16 41-", "F 16 42-41", "F 16 0-110000", "F 16 -41",
                 "F 16 100000041",
                 "F 16 41 42"):
        words = [font if it == "F" else it for it in line.split()]
        if not run([lib.at("show"), *words], status=2).stderr.startswith(b"usage: show "):
            raise Wrong("examples/show.c takes %r" % line)
    for name in ("show", "console"):
        said = run([lib.at(name), lib.at("none"), "16", "41"], status=1).stderr.decode()
        if said != "%s: can't read the font %s\n" % (name, lib.at("none")):
            raise Wrong("examples/%s.c says %r of a font that is not there" % (name, said))


def picture_of(bits):
    """The size of a picture in PBM, and its set pixels, by column and row."""
    width, height = map(int, bits.split(b"\n")[1].split())
    body, row = bits.split(b"\n", 2)[2], (width + 7) // 8
    return width, height, {(x, y) for y in range(height) for x in range(width) if body[y * row + x // 8] >> (7 - x % 8) & 1}


@pytest.mark.parametrize("ppem, line", [(16, "Aging glyphs."), (150, "Aj|"), (64, "A" + 40 * "_")])
def test_console(lib, ppem, line):
    """examples/console.c draws the pixels of a strike's glyphs, as far as they are in its frame of 1,024 by 128, and says if the
    line is cut."""
    font = lib.letters()
    strike, column, due = Strike(lib.make(font, ppem, EXAMPLES, 0x20, 0x7E)[1]), 0, set()
    for it in map(strike.get, line):
        due |= {(column + it.left + x, strike.ascent - it.top + y) for y, row in enumerate(it) for x, byte in enumerate(row)
                if byte}
        column += it.advance
    width, height = min(column, 1024), min(strike.ascent + strike.descent, 128)
    done = run([lib.at("console"), font, str(ppem), line])
    if picture_of(done.stdout) != (width, height, {(x, y) for x, y in due if 0 <= x < width and 0 <= y < height}):
        raise Wrong("examples/console.c: other pixels")
    is_cut = (width, height) != (column, strike.ascent + strike.descent)
    if (b"leaves the frame of 1024 x 128 pixels, and is cut" in done.stderr) != is_cut:
        raise Wrong("examples/console.c says of a cut line: %s" % done.stderr.decode())


def test_console_of_large_fonts(lib):
    """A font that fills the buffer of examples/console.c may go on after it, and is refused."""
    font = lib.at("large.ttf")
    shutil.copyfile(lib.letters(), font)
    for size, status, said in ((8388607, 0, b"memory "), (8388608, 1, b"console: the font has more than 8388607 bytes\n")):
        os.truncate(font, size)
        assert run([lib.at("console"), font, "16", "A"], status=status).stderr.startswith(said)


def test_console_in_its_frame(lib):
    """AddressSanitizer sees no pixel outside the frame."""
    font = lib.letters()
    sources = [os.path.join(TOP, it) for it in ("examples/console.c", "c/calls.c", "c/arena.c")]
    sanitized([*sources, lib.archive], lib.at("console_asan"))
    for ppem, line in ((300, "gj|"), (100, "wider than the frame, by far")):
        run([lib.at("console_asan"), font, str(ppem), line])


@pytest.mark.parametrize("more", [[], [0xFFFD]])
def test_console_of_utf_8(lib, more):
    """What examples/console.c takes for characters: each of these has a width of its own, and each byte of what is no UTF-8 is
    U+FFFD, or a box if the font lacks that."""
    square = fonts.simple([[(0, 0, 1), (0, 500, 1), (500, 500, 1), (500, 0, 1)]])
    codes = sorted([0x41, 0x7F, 0x80, 0x7FF, 0x800, 0xFFF, 0x1000, 0xD7FF, 0xE000, 0xFFFF, 0x10000, 0x10FFFF] + more)
    font, widths = lib.at("utf-8.ttf"), {code: k + 10 for k, code in enumerate(codes)}
    with open(font, "wb") as file:  # at 10 pixels an em
        file.write(fonts.font_of([b""] + [square] * len(codes), fonts.wide_map_of([(code, k + 1) for k, code in enumerate(codes)]),
                                 metrics=[(1000, 0)] + [(100 * widths[code], 0) for code in codes]))
    texts = [(chr(code).encode(), widths[code]) for code in codes]
    box = widths.get(0xFFFD, 10 // 2 + 3)
    wrong = ("C1 BF", "C0 80", "E0 9F BF", "F0 8F BF BF", "ED A0 80", "ED BF BF", "F4 90 80 80", "F5 80 80 80", "FF", "80", "C2",
             "E0 A0",
             "F0 90 80")
    texts += [(bytes.fromhex(it), box * len(it.split())) for it in wrong]
    texts += [(b"\xe0\xa0A", 2 * box + 10), (b"A" + "\u0fff".encode() + b"A", 10 + widths[0xFFF] + 10)]
    for text, due in texts:
        width = picture_of(run([lib.at("console"), font, "10", text]).stdout)[0]
        if width != due:
            raise Wrong("examples/console.c draws %s in %d columns, and %d are due" % (text.hex(" "), width, due))


def test_console_of_odd_advances(lib):
    """A program may move an advance below 0: the next character is drawn at the same place."""
    square = [[(0, 0, 1), (0, 500, 1), (500, 500, 1), (500, 0, 1)]]
    back = pushed([5, -640]) + b"\x48"  # SCFS: the second phantom point
    font, glyphs = lib.at("back.ttf"), [b"", fonts.simple(square, back), fonts.simple(square)]
    with open(font, "wb") as file:
        file.write(fonts.font_of(glyphs, fonts.map_of([(0x41, 1), (0x42, 2)]), stack=9))
    strike = Strike(lib.make(font, 16, EXAMPLES, 0x41, 0x42)[1])
    assert [strike.get(it).advance for it in "AB"] == [-10, 16]
    width, _, drawn = picture_of(run([lib.at("console"), font, "16", "AB"]).stdout)
    if width != 16 or {x for x, _ in drawn} != set(range(8)):
        raise Wrong("examples/console.c draws %d columns" % width)


# A font with one unit a pixel at 16: from each character to the width of a bar three pixels high, whose advance is a pixel more.
# Bar 9 ends 20 pixels before its origin by its program, and bar 10 begins two pixels before it. U+0042 is missing.
BARS = {0x41: 1, 0x80: 2, 0x7FF: 3, 0x800: 4, 0xFFFD: 5, 0x10000: 6, 0xFFFF: 7, 0x10FFFF: 8, 0x43: 9, 0x44: 10}
BACK = bytes.fromhex("01 B9 0005 FB00 38")  # SVTCA[1], PUSHW 5 -1280, SHPIX: point 5 of a glyph of four is where it ends


def bars(ascender, descender):
    """That font, with these heights."""
    glyphs = [fonts.simple([[(x, 0, 1), (x, 3, 1), (x + k, 3, 1), (x + k, 0, 1)]], BACK if k == 9 else b"")
              for k, x in zip(range(1, 11), [0] * 9 + [-2])]
    font = fonts.font_of([b"", *glyphs], fonts.wide_map_of(BARS.items()), upem=16, stack=9,
                         metrics=[(0, 0)] + [(k + 1, 0) for k in range(1, 10)] + [(11, -2)])
    return fonts.with_tables(font, hhea=fonts.hhea_of(ascender, descender, 11))


def line_of(widths, ascent, rows):
    """The picture of a line of bars by their widths, and of boxes where that is 0."""
    box = {(x, y) for x in range(1, 10) for y in range(12) if x in (1, 9) or y in (0, 11)}
    column, found = 0, set()
    for width in widths:
        left = -2 if width == 10 else 0
        pixels = {(left + x, y) for x in range(width) for y in range(3)} if width else box
        found |= {(column + x, ascent - 1 - y) for x, y in pixels} if column < 1024 else set()
        column += {0: 11, 9: 0}.get(width, width + 1)
    column = min(column, 1024)
    lines = [sum(1 << 1023 - x for x, at in found if at == y and 0 <= x < 1024) for y in range(rows)]
    return b"P4\n%d %d\n" % (column, rows) + b"".join(it.to_bytes(128, "big")[:(column + 7) // 8] for it in lines)


# A text, the bars that are due, and the heights of the font.
LINES = [
    ("A\x80\u07ff\u0800\uffff\U00010000\U0010ffff", [1, 2, 3, 4, 7, 6, 8], 12, -4), ("AB\ufffdA", [1, 0, 5, 1], 12, -4),
    (b"\x80A\xc1A\xe0A\xf0A\xf5A", [5, 1] * 5, 12, -4), (b"\xc2\xc0A\xf4", [5, 5, 1, 5], 12, -4),
    (b"\xf5\x80\x80A", [5, 5, 5, 1], 12, -4),
    (b"\xbfA\xc2AA\xe0\xa0AA\xf0\x90\x80AA", [5, 1, 5, 1, 1, 5, 5, 1, 1, 5, 5, 5, 1, 1], 12, -4), ("ACA", [1, 9, 1], 12, -4),
    ("DD", [10, 10], 12, -4), ("A", [1], 2, -1), ("A", [1], 12, 9), ("A", [1], 1, 3), ("AA", [1, 1], 100, -60), ("A", [1], 127, -1),
    ("A", [1], 140, 0), ("A" * 600, [1] * 600, 12, -4), ("\U0010ffff" * 113 + "DAAAA", [8] * 113 + [10, 1, 1, 1, 1], 12, -4),
    ("", [], 12, -4), ("A" * 512 + "D", [1] * 512, 12, -4), ("C" * 1023 + "AD", [9] * 1023 + [1], 12, -4)]


@pytest.mark.parametrize("number", range(len(LINES)))
def test_lines_of_console(number, lib):
    """Each form of UTF-8 and bytes that are none, what is missing, advances below 0, and what lies outside the frame."""
    (text, widths, ascender, descender), path = LINES[number], lib.at("bars.ttf")
    with open(path, "wb") as file:
        file.write(bars(ascender, descender))
    done = run([lib.at("console"), path, "16", text])
    assert done.stdout == line_of(widths, ascender, min(max(ascender - descender, 0), 128))
    is_cut = ascender - descender > 128 or done.stdout.startswith(b"P4\n1024 ") or len(text) > 1024
    cut = b"console: the line leaves the frame of 1024 x 128 pixels, and is cut\n" if is_cut else b""
    assert re.fullmatch(cut + rb"memory [1-9]\d{2,5} bytes\n", done.stderr)


@pytest.mark.parametrize("name", ["show", "console"])
def test_words_of_examples(name, lib):
    """Without their words the examples end with 2, and with 1 without the font or after a refusal."""
    font = lib.part("DejaVuSans.ttf", range(0x20, 0x7F))
    for words in ([], [font, "16"], [font, "16", "41", "x"]):
        assert run([lib.at(name), *words], status=2).stdout == b""
    assert run([lib.at(name), lib.at("no font"), "16", "41"], status=1).stdout == b""
    for ppem in ("0", "1025"):
        done = run([lib.at(name), font, ppem, "41"], status=1)
        assert (done.stdout, done.stderr) == (b"", b"refused: 60 BadSize\n")


def test_numbers_of_show(lib):
    """The box and the advance of a picture, the counts of a strike, and ranges that are none."""
    path, shown, told = lib.at("bars.ttf"), b"##########\n" * 3, b"box 10 3 -2 0 advance 11\n"
    with open(path, "wb") as file:
        file.write(bars(12, -4))
    for word, due in (("44", (shown, told)), ("43", (b"#########\n" * 3, b"box 9 3 0 0 advance -10\n"))):
        done = run([lib.at("show"), path, "16", word])
        assert (done.stdout, done.stderr) == due
    for word, counts in (("41-ffff", b"glyphs 8 missing 65463\n"), ("41-41", b"glyphs 1 missing 0\n"),
                         ("10ffff-10ffff", b"glyphs 1 missing 0\n")):
        assert run([lib.at("show"), path, "16", word]).stderr == counts
    for word in ("44-43", "44-110000", "44-", "-44"):
        assert run([lib.at("show"), path, "16", word], status=2).stderr.startswith(b"usage: show ")
    for size, word, said in (("16", "42", b"1 Missing"), ("0", "41-42", b"60 BadSize"), ("65535", "41-42", b"60 BadSize")):
        assert run([lib.at("show"), path, size, word], status=1).stderr == b"refused: %s\n" % said
    assert run([lib.at("show"), path, "65536", "41-42"], status=2).stderr.startswith(b"usage: show ")


def rows_only(out):
    """The rows of a text of pictures."""
    return b"".join(it + b"\n" for it in out.split(b"\n") if re.fullmatch(rb"[#.]+", it))


def test_commands_of_examples(unbuilt):
    """Each example, built and run in a checkout by the command that it shows."""
    font, folder = unbuilt.letters(), unbuilt.at("checkout")
    pictured = b"".join(unbuilt.picture(font, 16, c) for c in "Aging")
    for name in ("include", "examples", "c"):
        shutil.copytree(os.path.join(TOP, name), os.path.join(folder, name))
    os.makedirs(os.path.join(folder, "dist"))
    shutil.copyfile(unbuilt.archive, os.path.join(folder, "dist/libmkstrike_c.a"))
    for line in ("cc -O2 -fPIC -Iinclude -c c/calls.c c/heap.c", "cp dist/libmkstrike_c.a libmkstrike.a",
                 "ar rs libmkstrike.a calls.o heap.o"):
        run(line.split(), cwd=folder)
    run([os.path.join(TOP, "packaging/link"), folder, unbuilt.archive])
    soname, = (os.path.basename(it) for it in glob.glob(os.path.join(folder, "*.so.*")))
    needed = re.findall(rb"NEEDED +(\S+)", run(["objdump", "-p", os.path.join(folder, soname)]).stdout)
    if needed != [b"libc.so.6"]:
        raise Wrong("the shared object needs %s" % needed)
    shown = {it.split()[-1]
             for it in run(["nm", "-D", "--defined-only", os.path.join(folder, soname)]).stdout.decode().splitlines()}
    if shown != set(CALLS):
        raise Wrong("the shared object shows %s" % sorted(shown ^ set(CALLS)))
    env = {**os.environ, "GOCACHE": unbuilt.at("go")}
    printed, absent = compile_lines.tried(folder, font, env, True)
    for name, text in printed.items():
        if name.startswith("glyphs") and rows_only(text) != pictured:
            raise Wrong("examples/%s: other pictures" % name)
        status, said = compile_lines.alone(name, folder, env)
        if status != (1 if name.endswith(".go") else 2) or not said.startswith("usage: "):  # `go run` has its own status
            raise Wrong("examples/%s says %r to no arguments, with status %d" % (name, said[:80], status))
    script = [sys.executable, os.path.join(folder, "examples/glyphs.py"), os.path.join(folder, soname), font, "1025", "A"]
    if run(script, status=1).stderr != b"refused: 60 BadSize\n":
        raise Wrong("examples/glyphs.py: another refusal")
    for name in sorted(absent):
        tool(name)


def test_boxes(lib):
    """examples/console.c draws a box in place of a character that is refused, and the others as they are."""
    real_font("DejaVuSans")
    done = run([lib.at("console"), REAL["DejaVuSans"], "16", "ab\u0250c"])
    others = run([lib.at("console"), REAL["DejaVuSans"], "16", "abc"])
    if b"refused: 30 StackUnder U+0250\n" not in done.stderr or b"refused" in others.stderr:
        raise Wrong("examples/console.c: another refusal: %r" % done.stderr)
    wide, narrow = (int(it.stdout.split(b"\n")[1].split()[0]) for it in (done, others))
    if wide != narrow + 16 // 2 + 3:
        raise Wrong("examples/console.c: a line of %d columns, and %d without the refused character" % (wide, narrow))


def test_bare(unbuilt):
    """A program without a C library, on x86-64 Linux."""
    if (os.uname().sysname, os.uname().machine) != ("Linux", "x86_64"):
        pytest.skip("not x86-64 Linux")
    font = unbuilt.part("DejaVuSans.ttf", range(0x20, 0x7F))
    bare = ["cc", "-std=gnu99", "-O2", "-Wall", "-Wextra", "-Werror", "-ffreestanding", "-fno-stack-protector", "-nostdlib",
            "-static",
            "-DMKSTRIKE_BARE", '-DFONT="%s"' % font] + C[4:]
    run(bare + [os.path.join(HERE, "check_c_bare.c"), BESIDE[0], os.path.join(TOP, "c/arena.c"), unbuilt.archive, "-lgcc", "-o",
                unbuilt.at("bare")])
    if run([unbuilt.at("bare")]).stdout != unbuilt.make(font, 16, HINTED, 0x20, 0x7E)[1]:
        raise Wrong("another strike without a C library")
