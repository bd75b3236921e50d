"""What the command `strike` prints: what it wrote, and what a user should know of it."""
from __future__ import annotations

import sys

from .charsets import OF_TEXT, ranges
from .jobs import Job
from .refused import Missing, Refused, code_name, shown
from .values import ASK_OF_TEXT

TYPE_CHECKING = False  # as in glyph.py
if TYPE_CHECKING:
    from collections.abc import Callable, Mapping, Sequence

    from .merge import Told
    from .strike import Strike

SHOWN = 12  # refused characters that are named on lines of their own
NO_GLYPH = "--chars takes sets by name and hexadecimal numbers, --text FILE a text's characters; --all takes what the font has"
IN_ORDER = "the preview is drawn character by character, from left to right: programs that shape text draw this script otherwise"
# What Python says, and how the command says it.
SAID = ((OF_TEXT, ASK_OF_TEXT), ("hinted=False", "--unhinted"), ("symbol=True, or --symbol,", "--symbol"),
        ("a string names a set, or has hexadecimal numbers: " + ASK_OF_TEXT, NO_GLYPH),
        ("the font has none of the characters; ", ""))


class Said:
    """What is said of a strike: its files; lines of what was written, or the text of a preview; lines for its font, each once for
    all sizes; lines of its own."""

    def __init__(self, paths: Sequence[str] = (), printed: Sequence[str] = (), name: str = "", of_font: Sequence[str] = (),
                 own: Sequence[str] = ()) -> None:
        self.paths, self.printed, self.name, self.of_font, self.own = paths, printed, name, of_font, own


class Report:
    """Prints the lines of a run: to standard output what was written, or to standard error if that has a strike; to standard error
    the rest."""

    def __init__(self, job: Job, clear: Callable[[], None]) -> None:
        self.job, self.clear = job, clear
        self.told: set[tuple[str, str]] = set()  # the lines of missing characters: sizes of a font have the same

    def complain(self, line: str) -> None:
        """Prints what went wrong, or is to be known."""
        self.clear()
        for old, new in SAID:
            line = line.replace(old, new)
        print("strike: " + shown(line), file=sys.stderr)

    def tell(self, said: Said) -> None:
        """Says what is in a strike, and what else there is to know."""
        self.clear()
        for line in said.printed:
            print(line, file=sys.stderr if said.paths == ["-"] else sys.stdout)
        for line in said.of_font:
            if (said.name, line) not in self.told:
                self.told.add((said.name, line))
                self.complain("%s: %s" % (said.name, line))
        for line in said.own:
            self.complain(line)


def failure(what: str, why: Exception) -> list[str]:
    """Lines that say why there is nothing."""
    said = why.line if isinstance(why, Refused) else str(why)
    if isinstance(why, Missing):
        said = "%d missing: %s" % (len(why.chars), ranges(map(ord, why.chars)))
    if isinstance(why, OSError) and why.strerror:
        said = why.strerror + (": %s" % why.filename if why.filename not in (None, what) else "")
    return ["%s: %s" % (what, said)] + ([why.to_do()] if isinstance(why, Refused) and why.advice else [])


def said_of(job: Job, strike: Strike, told: list[Told], stem: str, paths: list[str], text: str, warned: list[str]) -> Said:
    """What is said of a strike in files, or of a text if there are no paths."""
    printed = [] if paths else [text]
    if paths and not job.options.quiet and job.options.output != "-":
        names = " ".join("standard output" if it == "-" else it for it in paths)
        printed = [shown("%s: %d glyphs" % (names, len(strike))), *(shown("  %s: %d" % (it.name, it.count)) for it in told)]
    name = stem[:-len("-%d" % strike.size)] if stem.endswith("-%d" % strike.size) else stem
    of_font = _missing(job, strike, told) + list(strike.notes) + [IN_ORDER] * any(map(_is_shaped, job.preview or ""))
    own = ["%s: %s" % (stem, line) for line in of_strike(strike, job.options.clip) + warned]
    return Said(paths, printed, name, of_font, own)


def _missing(job: Job, strike: Strike, told: list[Told]) -> list[str]:
    """Lines that name the characters that are missing: those of a font's own by its name."""
    own = {char for it in told for char in it.missing}
    lines = ["%d missing of %s: %s" % (len(it.missing), it.name, ranges(map(ord, it.missing))) for it in told if it.missing]
    left = [it for it in strike.missing if it not in own and (job.preview is None or it in job.preview)]
    return lines + (["%d missing: %s" % (len(left), ranges(map(ord, left)))] if left else [])


def of_strike(strike: Strike, is_clipped: bool) -> list[str]:
    """What became of characters of a strike, one line each."""
    lines = _each("unhinted", strike.unhinted) + _each("refused", strike.refused)
    far_out: dict[str, list[int]] = {}
    for char, far in strike.outside.items():
        sides = ["%d %s" % (count, side) for count, side in zip(far, far._fields) if count]
        far_out.setdefault(", ".join(sides), []).append(ord(char))
    how = "clipped, outside the cell" if is_clipped else "outside the cell"
    return lines + ["%s by %s: %s" % (how, far, ranges(codes)) for far, codes in sorted(far_out.items())]


def _each(what: str, refused: Mapping[str, Refused]) -> list[str]:
    """A line for each of the first characters that were refused, and one for the others."""
    found = list(refused.items())
    lines = ["%s: %s: %s" % (what, code_name(ord(char)), why.line) for char, why in found[:SHOWN]]
    more = [ord(char) for char, _ in found[SHOWN:]]
    return lines + (["%s: %d more: %s" % (what, len(more), ranges(more))] if more else [])


def _is_shaped(char: str) -> bool:
    """Whether a character belongs to a script that runs from the right, or whose signs join."""
    import unicodedata
    return unicodedata.bidirectional(char) in ("R", "AL") or unicodedata.category(char) in ("Mn", "Mc")
