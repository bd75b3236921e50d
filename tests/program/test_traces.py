"""Traces of programs: how they are asked for and end, and each line beside that of the suite's reference."""
import os
import subprocess

import due
import pytest
from cases import cases
from making import fonts
from needs import REAL, real_font
from prebuilt import TOP
from reference import fontfile as reference
from reference.trace import Traces
from runs import Run

LINE = [[(0, 0, 1), (64, 0, 1), (64, 64, 1)]]
A, B = 0x41, 0x42
POP = bytes.fromhex("21")
FPGM_HALTS, PREP_HALTS = ("30 StackUnder during %s in %s at 0 opcode 21" % (name, name) for name in ("fpgm", "prep"))


def font(program=b"", fpgm=b"", prep=b"", more=()):
    """A font whose glyph 1, the letter A, has this program; other glyphs follow it."""
    glyphs = [b"", fonts.simple(LINE, program), *more]
    chars = [(A, 1)] + [(B, 2)] * bool(more)
    return fonts.font_of(glyphs, fonts.map_of(chars), functions=2, stack=16, fpgm=fpgm, prep=prep)


def halts():
    """The lines until a halt, and then the refusal."""
    begun = b"glyph 1 begins\nglyph 1 0000 B0 PUSHB 1 | 1\n"
    yield Run("a halt", "trace --ppem 16 --char 41", font(bytes.fromhex("B0 01 60")),
              due.refused("30 StackUnder during glyph 1 in glyph 1 at 2 opcode 60", begun))
    data = font(bytes.fromhex("B0 01 21"), prep=POP)
    yield Run("a halt in prep", "trace --ppem 16 --of prep", data, due.refused(PREP_HALTS, b"prep begins\n"))
    for words in ("--char 41", "--glyph 1", "--of 1"):
        yield Run("a halt before the glyph by %s" % words, "trace --ppem 16 " + words, data, due.refused(PREP_HALTS))


def order():
    """`fpgm`, then `prep`, then the glyph, or that there is none: the order of `show` and `outline`. `fpgm` has a trace of its
    own."""
    fpgm, lines = bytes.fromhex("B0 01 21"), ["fpgm begins", "fpgm 0000 B0 PUSHB 1 | 1", "fpgm 0002 21 POP |"]
    yield Run("a halt after fpgm", "trace --ppem 16 --of fpgm", font(fpgm=fpgm, prep=POP), due.listed(lines))
    yield Run("a halt after no fpgm", "trace --ppem 16 --of fpgm", font(prep=POP), due.listed([]))
    yield Run("no fpgm", "trace --ppem 16 --of fpgm", font(prep=fpgm), due.listed([]))
    yield Run("no prep", "trace --ppem 16 --of prep", font(fpgm=fpgm), due.listed([]))
    yield Run("a halt of fpgm", "trace --ppem 16 --of fpgm", font(fpgm=POP, prep=POP), due.refused(FPGM_HALTS, b"fpgm begins\n"))
    for prep in (b"", POP, fpgm):
        yield Run("a halt before prep", "trace --ppem 16 --of prep", font(fpgm=POP, prep=prep), due.refused(FPGM_HALTS))
    for asked in ("--char 43", "--char 41", "--glyph 9"):
        for tables, text in (({"prep": POP}, PREP_HALTS), ({"fpgm": POP}, FPGM_HALTS), ({"fpgm": POP, "prep": POP}, FPGM_HALTS)):
            for command in ("trace", "show", "outline"):
                yield Run("%s %s of a font whose %s halts" % (command, asked, " and ".join(tables)),
                          "%s --ppem 16 %s" % (command, asked), font(**tables), due.refused(text))


def refused():
    """What is wrong before a program runs, and a character that the font lacks."""
    data = font(bytes.fromhex("B0 01 21"))
    for words, answer in (("--ppem 0 --char 41", due.refused("60 BadSize")),
                          ("--ppem 16 --char 110000", due.refused("61 BadChars")),
                          ("--ppem 16 --glyph 2", due.refused("24 BadGlyphNumber 2")), ("--ppem 16", due.usage()),
                          ("--ppem 16 --char 41 --of prep", due.usage()), ("--ppem 16 --char 41 --glyph 1", due.usage()),
                          ("--ppem 16 --of cvt", due.usage()), ("--ppem 16 --char 41 --unhinted", due.usage()),
                          ("--ppem 16 --char 43", due.Due(due.DONE, b"mkstrike: missing\n"))):
        yield Run("trace " + words, "trace " + words, data, answer)


test_traces = cases(halts, order, refused)


# ---- against the suite's reference, which runs each program by itself

LONG = 260000  # lines of a font's long traces that are compared: those of one program that never ends


def differences(program, data, ppem, glyphs):
    """What the program tells otherwise than the reference, of `fpgm`, `prep` and these glyphs of a font at a size."""
    traces, room = Traces(reference.Font(data), ppem), LONG
    for of in ("fpgm", "prep", *glyphs):
        words = ["--of", of] if isinstance(of, str) else ["--glyph", str(of)]
        ran = subprocess.run([program, "trace", "--ppem", str(ppem), *words], input=data, capture_output=True, check=False)
        seen = ran.stdout.decode().split("\n")[:-1]
        if len(seen) > room:
            continue
        room -= len(seen) if len(seen) > 1000 else 0
        lines = traces.trace(of)
        told, fault = ran.stderr.decode().split("\n")[0], traces.told(of)
        if seen != lines or (fault not in told if fault else ran.returncode):
            k = next((k for k, (one, other) in enumerate(zip(seen, lines)) if one != other), min(len(seen), len(lines)))
            yield "%s, line %d of %d and %d: %r, and %r is due; %r, and %r is due" % (of, k + 1, len(seen), len(lines),
                                                                                      seen[k:k + 1], lines[k:k + 1],
                                                                                  told, fault)


# The suite's fonts of instructions, and of how many glyphs each is looked at: a font has each instruction with each flag, in many
# states.
FONTS = {"arithmetic": 1, "asked-off": 1, "asked-on": 1, "calls": 1, "composites": 1, "cut-in": 3, "definitions": 1, "deltas": 3,
         "flow": 1, "halts": 1, "inherited": 1, "instctrl-default-state": 1, "instctrl-no-programs": 1, "iup": 3, "iup-special": 1,
         "limits": 1, "mdrp": 5, "metrics": 1, "mirp": 7, "points": 4, "prep-base": 1, "prep-cut-in": 1, "prep-flip": 1,
         "prep-points": 1, "prep-round": 1, "prep-vectors": 1, "prep-width": 1, "rounding": 5, "small-stack": 1, "stack": 1,
         "state": 1, "vectors": 2, **{"fpgm-%d" % k: 1 for k in range(10)},
         **{"prep-%d" % k: 1 for k in range(10)}}


@pytest.mark.parametrize("name", FONTS)
def test_fonts_of_the_suite(name, program):
    """Each line is that of the reference, and so is the halt at its end."""
    with open(os.path.join(TOP, "suite/fonts", name + ".ttf"), "rb") as file:
        data = file.read()
    wrong = list(differences(program, data, 16, range(0, reference.Font(data).glyphs, FONTS[name])))
    assert not wrong, "\n".join(wrong[:9])


@pytest.mark.parametrize("name", REAL)
def test_real_fonts(name, program):
    """Glyphs of real fonts, which call functions and have components; MKSTRIKE_LONG takes all."""
    data = real_font(name)
    glyphs = range(reference.Font(data).glyphs) if os.environ.get("MKSTRIKE_LONG") else range(0, 900, 23)
    wrong = [it for ppem in (12, 16) for it in differences(program, data, ppem, glyphs)]
    assert not wrong, "\n".join(wrong[:9])
