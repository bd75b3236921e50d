"""Refuses each request for memory of the program in turn, and looks at each answer.

For each of some requests (make hinted and not, show, outline, dump, trace, faces) the N-th call for memory is refused, for N from 1
until a run meets no refusal; then again with all calls from the N-th on refused. Each time the answer must be status 1, the line
`mkstrike: 90 OutOfMemory`, perhaps after lines of refused characters, and a beginning of the text, perhaps none; or all that it is
without a refusal. That answer must be the one that is due of the request. What the program can do without it does without: a strike
whose buffer of lines is refused is made all the same.
"""
import os
import re

import made
import pytest
import test_refused
from due import Due, listed, own_lines, refused, usage
from instructions import POP, Code
from making import fonts
from needs import compiled, real_font
from runs import memory_file, run_refusing

WANT = b"mkstrike: 90 OutOfMemory\n"


class Request:
    """Words, or None for words on the first line; an input; and what is due without a refusal of memory.

    Of a real font the output is not known beforehand: then `due` is a status and a pattern of the line of errors."""

    def __init__(self, name, words, data, due):
        self.name, self.words, self.data, self.due = name, words, data, due

    def wrong_whole(self, answer):
        """What is wrong with an answer (status, output, errors) of a run without refusals."""
        if isinstance(self.due, Due):
            return self.due.wrong(answer)
        status, line = self.due
        if (answer[0], bool(re.fullmatch(line, answer[2]))) == (status, True):
            return None
        return "status %d and the line %r, and %d and %r are due" % (answer[0], answer[2], status, line)


def requests_in_spite():
    """Strikes that are made in spite of characters that are refused."""
    return [Request("in spite of refused characters", *it) for it in test_refused.some_refused(range(0x20, 0x2A))]


def requests_of_the_fixture():
    """Strikes, pictures and listings of a small font, and requests that are refused."""
    font, data = made.fixture(), fonts.FIXTURE
    text = data.hex().encode()
    three, line = (0x20, 0x41, 0x42), b"make --hex --ppem 16 --chars 20,41-42 --name F1 --unhinted\n"
    return [
        Request("stored request", None, line + text, font.make(three, 16, False, "F1")),
        Request("fixture", line.decode().strip(), text, font.make(three, 16, False, "F1")),
        Request("fixture, hinted", "make --ppem 16 --chars 20,41-42", data, font.make(three, 16)),
        Request("fixture, properties", "make --ppem 16 --chars 20,41-42 --property A=1 --property B=x", data,
                font.make(three, 16, properties=["A 1", 'B "x"'])),
        Request("fixture, X11 and drop-out", "make --ppem 16 --chars 20,41-42 --x11 --dropout", data,
                font.make(three, 16, x11=True, closed=True)),
        Request("fixture, a longer list", "make --ppem 255 --chars 0-ff,20-42,41,42 --unhinted", data,
                font.make(range(256), 255, False)),
        Request("fixture, show", "show --ppem 16 --char 41 --unhinted", data, font.show(0x41, 16, False)),
        Request("fixture, show, hinted", None, b"show --ppem 16 --char 41\n" + data, font.show(0x41, 16)),
        Request("fixture, an outline, hinted", "outline --ppem 16 --char 42", data, font.outline(3, 16)),
        Request("fixture, listing of a glyph", "dump --of 2", data, listed([])),
        Request("fixture, faces", "faces", data, listed(["0\t-\tRegular"])),
        Request("usage", "make --ppem 16 --unhinted", data, usage()),
        Request("fixture cut", "make --ppem 16 --chars 41 --unhinted", data[:330], refused("18 GlyphShort 2")),
    ]


def requests_of_a_made_font():
    """Strikes of a font with programs, tables for them, and composites of components that come again."""
    code, body = Code().push(5).do(POP), Code().push(640)
    glyphs = [made.Empty(), made.square(500, code), made.grid(30, 6, 100, 57, code), made.comb(75, code)]
    glyphs += [made.Composite([(1 + k % 3, 9 * k, 5), (1 + (k + 1) % 3, 300, 40 * k)], code) for k in range(3)]
    glyphs.append(made.Composite([(4, 0, 0), (5, 10, 10), (3, 7, 7)]))
    fpgm, prep = Code().define(3, body), Code().call(3, body)
    font = made.Font(glyphs, {0x41 + k: 1 + k for k in range(7)}, fpgm=fpgm, prep=prep, cvt=bytes(90), storage=70,
                     functions=70, twilight=70, stack=300)
    codes, data = range(0x41, 0x41 + 8), font.data()
    found = [Request("made font, %s" % words, words, data, font.make(codes, ppem, hinted)) for words, ppem, hinted in (
        ("make --ppem 16 --chars 41-48", 16, True), ("make --ppem 200 --chars 41-48 --unhinted", 200, False))]
    listing = listed(["0000 B0 PUSHB 3", "0002 2B CALL"])
    prep = ["prep begins", "prep 0000 B0 PUSHB 3 | 3", "prep 0002 2B CALL |", "fpgm 0003 B8 PUSHW 640 | 640",
            "fpgm 0006 2D ENDF | 640"]
    # Glyph 7 has the components 4, 5 and 3, and no program; 4 has the components 1 and 2, and 5 has 2 and 3.
    trace = [line for g, k, whole in ((1, 1, 4), (2, 2, 4), (4, 1, 7), (2, 1, 5), (3, 2, 5), (5, 2, 7), (3, 3, 7))
             for line in ("glyph %d begins, component %d of glyph %d" % (g, k, whole), "glyph %d 0000 B0 PUSHB 5 | 5" % g,
                          "glyph %d 0002 21 POP |" % g)]
    return found + [Request("made font, a listing", "dump --of prep", data, listing),
                    Request("made font, a trace of prep", "trace --ppem 16 --of prep", data, listed(prep)),
                    Request("made font, a trace", "trace --ppem 16 --glyph 7", data, listed(trace))]


def requests_of_a_real_font(name):
    """Requests of a part of a real font. Their steps are not known beforehand."""
    font = fonts.part_of(real_font(name), [0x20, 0x41, 0x67, 0xE9, 0x25, 0x1E80])
    counts = rb"mkstrike: glyphs %d missing 0 strays \d+ steps [1-9]\d*\n"
    unhinted = b"mkstrike: glyphs 5 missing 0 strays 0 steps 0\n"
    return [Request("part of %s" % name, words, font, (0, line)) for words, line in (
        ("make --ppem 16 --chars 20,41,67,e9,1e80 --unhinted", unhinted), ("make --ppem 16 --chars 20,41,67,e9,1e80", counts % 5),
        ("make --ppem 100 --chars e9,25", counts % 2), ("make --ppem 8 --chars e9,25 --dropout --x11", counts % 2),
        ("show --ppem 8 --char e9 --dropout", b""), ("show --ppem 32 --char e9", b""), ("show --ppem 32 --char e9 --unhinted", b""),
        ("outline --ppem 32 --char e9", b""), ("outline --ppem 8 --glyph 2 --unhinted", b""), ("dump --of fpgm", b""),
        ("dump --of prep", b""), ("dump --of 3", b""), ("trace --ppem 16 --glyph 3", b""), ("trace --ppem 16 --char e9", b""),
        ("trace --ppem 16 --of prep", b""))]


def requests_of_dejavu():
    """Those of DejaVu Sans."""
    return requests_of_a_real_font("DejaVuSans")


def requests_of_liberation():
    """Those of Liberation Sans."""
    return requests_of_a_real_font("LiberationSans-Regular")


class Runner:
    """Runs the program under the library that refuses."""

    def __init__(self, program, library):
        self.program, self.library = program, library

    def run(self, request, at, on, size=0):
        """Returns status, output and errors (without lines for people) of a request, and whether a request for memory was refused:
        see `run_refusing`."""
        with memory_file(request.data) as given:
            done, was_refused = run_refusing(self.library, [self.program, *(request.words or "").split()], at, on, size,
                                             stdin=given)
        return (done.returncode, done.stdout, own_lines(done.stderr)), was_refused


def beginnings(lines):
    """The first lines for each number of them, but for the last, which tells how the run ended."""
    parts = lines.splitlines(keepends=True)
    return {b"".join(parts[:k]) for k in range(max(1, len(parts)))}


def wrong(answer, whole):
    """What is wrong with the answer, where the one without refusals is `whole`."""
    if answer == whole:
        return None
    status, out, err = answer
    if status != 1:
        return "status %d" % status
    if not err.endswith(WANT) or err[:-len(WANT)] not in beginnings(whole[2]):
        return "the line %r" % err
    return None if whole[1].startswith(out) else "output that is no beginning of the text"


def refuse_each(runner, request, whole):
    """Refuses each request for memory in turn, alone and with all after it. Tells what is wrong, or that none was seen."""
    met = 0
    for on in (False, True):
        for at in range(1, 1000000):
            answer, was_refused = runner.run(request, at, on)
            fault = wrong(answer, whole)
            if fault:
                yield "request %d%s refused: %s" % (at, " and all after it" if on else "", fault)
            if not was_refused:
                break
            met += 1
    if met == 0:
        yield "no request was seen: does the program take its memory another way?"


@pytest.fixture(name="runner", scope="module")
def runner_of(program, tmp_path_factory):
    """Runs the program under the library that refuses."""
    path = tmp_path_factory.mktemp("memory") / "memory.so"
    return Runner(program, compiled(os.path.join(os.path.dirname(__file__), "memory.c"), path, "-shared", "-fPIC"))


@pytest.mark.parametrize("requests", [requests_of_the_fixture, requests_of_a_made_font, requests_in_spite, requests_of_dejavu,
                                      requests_of_liberation])
def test_each_request_is_refused(requests, runner):
    """Each request for memory, of each request."""
    told = []
    for request in requests():
        whole, _ = runner.run(request, 0, False)
        fault = request.wrong_whole(whole)
        told += ["%s, %s: %s" % (request.name, request.words, it) for it in (["without refusals: %s" % fault] if fault else [])
                 + list(
            refuse_each(runner, request, whole))]
    assert not told, "\n".join(told)


def test_the_lines_are_refused(runner):
    """A strike of 4,096 characters keeps its lines in a buffer that grows, and asks for nothing else as large; it is made without
    too."""
    font, codes = made.Font([made.Empty(), made.square(900)], 1), range(4096)
    request = Request("4,096 characters", "make --ppem 12 --chars 0-fff", font.data(), font.make(codes, 12))
    answer, was_refused = runner.run(request, 0, False, 1 << 19)
    assert was_refused and request.wrong_whole(answer) is None
