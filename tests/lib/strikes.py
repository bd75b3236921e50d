"""Runs that make strikes of made fonts, for the cases of tests/program."""
import due
from made import Empty, Font, list_of, square
from runs import Run

A, B, C = 0x41, 0x42, 0x43
MODES = ((True, "hinted"), (False, "unhinted"))


def words(ppem, codes, hinted=True):
    """The words of a strike of these code points."""
    return "make --ppem %d --chars %s%s" % (ppem, list_of(codes), "" if hinted else " --unhinted")


def strike(name, font, ppem, codes=(A,), hinted=True, data=None, **more):
    """A strike of a font."""
    return Run(name, words(ppem, codes, hinted), data or font.data(), font.make(codes, ppem, hinted), **more)


def both(name, font, ppem, codes=(A,), data=None, **more):
    """The strike of a font, hinted and not."""
    data = data or font.data()
    for hinted, mode in MODES:
        yield strike("%s, %s" % (name, mode), font, ppem, codes, hinted, data, **more)


def refusal(name, font, text, ppem=16, hinted=True):
    """A strike of A that is refused."""
    return Run(name, words(ppem, (A,), hinted), font.data(), due.refused(text))


def both_refused(name, font, text, ppem=16):
    """The same, hinted and not."""
    for hinted, mode in MODES:
        yield refusal("%s, %s" % (name, mode), font, text, ppem, hinted)


def one(glyph, **more):
    """A font that has this glyph for A, after an empty one and a square."""
    return Font([Empty(), square(100), glyph], {A: 2}, **more)
