"""The options of the command `strike`: one table that says for each what it is for. The parser refuses the rest by it."""
from __future__ import annotations

import argparse
from collections.abc import Iterable, Sequence

from . import formats
from .layout import ENDS, SIDES, WAYS
from .refused import shown
from .sets import SETS

TYPE_CHECKING = False  # as in glyph.py
if TYPE_CHECKING:
    from typing import Any, NoReturn

ABOUT = """\
Makes bitmap strikes of TrueType fonts. For each font and size it writes one
file a format, NAME-SIZE.bdf and so on, and a line that says what is in it.
Characters that the font lacks, or that are refused, are named and left out."""
USAGE = "strike [OPTION].. FONT..\n       strike [OPTION].. --font FONT [OPTION OF IT].. --font FONT .. -o FILE"
FONTS = """\
TrueType or OpenType fonts, collections, WOFF, WOFF2, by file or by name ("DejaVu Sans:bold"); also strikes in BDF; - is standard
input"""
CHARS = """\
a list that commas join: sets by name (all, %s; cp1252, iso8859-2 and such), hexadecimal numbers and ranges (20-7e, U+20AC; the
letter A is 41), ranges with other numbers (f000-f2e0=e000), lists of bdf2psf by name or path (Lat15, ./my.set), strikes
(other.bdf); latin-1 if no option says which, and all of a BDF"""
DROPOUT = """\
how thin strokes stay whole: as the font asks (font, the default), by left pixels (left), by nearer ones (near), or not (off)"""
KINDS = ("font", "left", "near", "off")  # of drop-out control
FONT, BDF = "font", "BDF"  # kinds of input
FILES = tuple(formats.FORMATS)
TERMINAL, PICTURE = "--preview on the terminal", "--preview with -o"  # outputs beside the formats
SHEET, LIST, FACES, DIFF = "--sheet", "--list", "--faces", "--diff"  # outputs that are no strikes
MODES = {SHEET: 1, LIST: 1, FACES: 1, DIFF: 2}  # how many fonts each is of
DRAWN = (*FILES, TERMINAL, PICTURE)
EVERY, LETTERS = (*DRAWN, SHEET, LIST, DIFF), (*FILES, SHEET, DIFF)
WITH_PROPERTIES = ("bdf", "pcf", "otb")
IN_BYTES = ("c", "raw", "py")  # formats whose bytes can be in more than one layout


class Option:
    """An option: its names, and what it is for. `inputs` and `outputs` are those for which it has a meaning; `needs` are options of
    which one must be given too, or for which outputs don't matter (`unless`); `is_of_font` says that it may stand after each
    --font."""

    def __init__(self, names: str, text: str, *, inputs: Sequence[str] = (FONT, BDF), outputs: Sequence[str] = DRAWN,
                 needs: Sequence[str] = (), unless: str = "", is_of_font: bool = False, advice: str = "", **more: Any) -> None:
        self.names, self.inputs, self.outputs, self.needs = names.split(), inputs, outputs, needs
        self.text, self.unless, self.is_of_font, self.advice, self.more = text, unless, is_of_font, advice, more
        self.dest: str = more.get("dest") or self.names[0].lstrip("-").replace("-", "_")

    def refuse(self, kinds: Iterable[tuple[str, str]], outputs: Sequence[str], given: Sequence[str]) -> None:
        """Raises an error if the option has no meaning for an input, given as its kind and its path, for all outputs, or without
        another option."""
        name = self.names[0]
        for kind, path in kinds:
            if kind not in self.inputs:
                raise ValueError("%s says how a font is drawn, and %s is a strike that is drawn already: leave it out" %
                                 (name, shown(path)))
        if self.needs and not set(self.needs) & set(given):
            raise ValueError("%s is for %s" % (name, " and ".join("--" + it for it in self.needs)))
        if not set(self.outputs) & set(outputs) and self.unless not in given:
            files = [it for it in self.outputs if it in FILES]
            found = ["--format " + ",".join(files)] if 0 < len(files) < len(FILES) else ["files"] if files else []
            found += [it for it in self.outputs if it not in FILES and (not found or it not in MODES)]
            raise ValueError("%s is for %s, not for %s%s" % (name, " and ".join(found), " and ".join(outputs), self.advice))


# By groups, each with its heading.
TABLE = {
    "characters": (
        Option("--chars --set", CHARS % ", ".join(SETS), outputs=LETTERS, unless="fit", is_of_font=True, metavar="LIST"),
        Option("--all", "every character of the font", outputs=LETTERS, unless="fit", is_of_font=True, const="all", dest="chars"),
        Option("--text", "the characters that a text in UTF-8 uses; - is standard input",
               outputs=LETTERS, unless="fit", is_of_font=True, metavar="FILE"),
        Option("--glyph", "glyphs of the font by name or number, and the characters that get them, as A.alt=e000,1234=e001",
               inputs=(FONT,), is_of_font=True,
               metavar="GLYPH=CHAR,.."),
        Option("--symbol", "a font of symbols: U+0020 to U+00FF are its characters from U+F020 on", inputs=(FONT,), is_of_font=True,
               const=True)),
    "sizes and cells": (
        Option("--size --ppem", "sizes in pixels per em, and ranges of them, as 12,16-20 (16), or points at a resolution, as "
                                "12pt@96", inputs=(FONT,),
               outputs=(*DRAWN, LIST, DIFF), is_of_font=True, metavar="N,.."),
        Option("--height", "the largest size at which a line has at most N rows",
               inputs=(FONT,), is_of_font=True, type=int, metavar="N"),
        Option("--cap-height", "the largest size at which a capital H has at most N rows",
               inputs=(FONT,), is_of_font=True, type=int, metavar="N"),
        Option("--fit", "the largest size at which no glyph leaves a cell of W x H pixels, and these cells; box drawing joins; "
                        "with --clip the "
               "largest at which a line fits", inputs=(FONT,), metavar="WxH"),
        Option("--cell", "one advance for all, in cells of W x H pixels; glyphs that leave the cell are named", metavar="WxH"),
        Option("--ascent", "the rows of a cell above the baseline", needs=("cell", "fit"), type=int, metavar="N"),
        Option("--clip", "glyphs lose the pixels outside the cell", needs=("cell", "fit"), action="store_true"),
        Option("--wide", "two cells for the characters to which a terminal gives two, as Chinese ones", needs=("cell", "fit"),
               outputs=tuple(it for it in DRAWN if it not in ("psf", "raw")), action="store_true"),
        Option("--join", "box drawing and blocks are drawn out to the edges of the cell, as --fit does", needs=("cell", "fit"),
               action="store_true")),
    "several fonts in one strike": (
        Option("--font",
               "a font of the strike: the options after it are for it alone, those before the first for all; one without "
               "characters of its own gives what those before it lack", metavar="FONT"),
        Option("--shift-y", "after a --font: lift its glyphs by N rows", is_of_font=True, type=int, metavar="N")),
    "how a font is drawn": (
        Option("--unhinted", "do not run the font's own programs", inputs=(FONT,), outputs=EVERY, is_of_font=True, const=True),
        Option("--dropout", DROPOUT, inputs=(FONT,), outputs=EVERY, is_of_font=True, choices=KINDS, metavar="[font|left|near|off]"),
        Option("--face", "the font of a collection, from 0", inputs=(FONT,), outputs=EVERY, is_of_font=True, type=int, metavar="N"),
        Option("--axes", "the instance of a variable font, as wght=700",
               inputs=(FONT,), outputs=EVERY, is_of_font=True, metavar="TAG=N,.."),
        Option("--careful", "for fonts from strangers: characters that take too much work are refused",
               inputs=(FONT,), outputs=EVERY, is_of_font=True, const=True),
        Option("--refused", "characters that are refused are left out (leave-out, the default), drawn unhinted, or refuse the "
                            "strike",
               inputs=(FONT,), outputs=(*DRAWN, DIFF), is_of_font=True, choices=("leave-out", "unhinted", "refuse"),
               metavar="WHAT")),
    "files": (
        Option("-o", "the one file to write, whose ending says the format; %s in it is the size; - is standard output",
               outputs=(*FILES, PICTURE, SHEET, DIFF),
               dest="output", metavar="FILE"),
        Option("--out", "where the files go (.)", outputs=(*FILES, SHEET), metavar="FOLDER"),
        Option("--format", "any of %s (bdf)" % ", ".join(FILES), outputs=(*FILES, PICTURE), metavar="NAME,.."),
        Option("--order", "the cells of a character set of one byte, as cp437, in its order", outputs=("raw",), metavar="SET"),
        Option("--bytes", "how the pixels of a cell become bytes: by rows (rows, the default), by columns (columns), or eight "
                          "rows at a time, a byte a column "
               "(pages)", outputs=IN_BYTES, choices=WAYS, metavar="WAY"),
        Option("--bits", "where the first pixel of a byte is, the leftmost or the topmost: in the highest bit (msb, the default "
                         "of rows) or in the lowest "
               "(lsb, that of columns and pages)", outputs=IN_BYTES, choices=ENDS, metavar="END"),
        Option("--align", "the bits that a row or a column leaves over come after its pixels (left, the default) or before them "
                          "(right)",
               outputs=("c", "raw"), choices=SIDES, metavar="SIDE"),
        Option("--attribute", "the attribute of the arrays in C, such as PROGMEM", outputs=("c",), metavar="WORD"),
        Option("--dense", "number the characters without gaps from the first on, so that no entry is empty",
               outputs=("gfx",), action="store_true"),
        Option("--padding", "clear pixels on each side of a glyph in the picture", outputs=("fnt",), type=int, metavar="N"),
        Option("--preview", "print a text on the terminal, or write a picture of it with -o FILE.png, and no strike",
               outputs=(TERMINAL, PICTURE, SHEET),
               metavar="TEXT"),
        Option("--name", "the name in the files, and of the files, if it can be one; else that of the font's file", outputs=FILES),
        Option("--x11", "add the properties that X11 and fontconfig look for, and without --name the font's long name",
               outputs=(*WITH_PROPERTIES, "psf"), action="store_true"),
        Option("--property", "add a property", outputs=WITH_PROPERTIES, action="append", metavar="KEY=VALUE"),
        Option("--depfile", "write a rule for Make or Ninja: the files that are written depend on those that are read",
               outputs=(*FILES, PICTURE), metavar="FILE"),
        Option("--jobs", "how many processors make strikes (all); what is written is the same", type=int, metavar="N"),
        Option("--scale", "the side of a pixel's square in pictures", outputs=(*formats.PICTURES, PICTURE, SHEET, DIFF),
               advice="; twice the size is --size",
               type=int, metavar="N"),
        Option("--columns", "glyphs in a row of a picture", outputs=formats.PICTURES, type=int, metavar="N")),
    "what else it does": (
        Option("--sheet", "one picture of a text at sizes, as 8-24: each with its cell and the letters that fall apart, with "
                          "drop-out control and without; "
               "the text is that of --preview", inputs=(FONT,), outputs=(SHEET,), metavar="N,.."),
        Option("--list", "print what is in the font: characters, glyph numbers and names, and with --size their metrics",
               outputs=(LIST,),
               action="store_true"),
        Option("--faces", "print which fonts a collection has, by their numbers and names", inputs=(FONT,), outputs=(FACES,),
               action="store_true"),
        Option("--json", "the list or the faces as JSON", outputs=(LIST, FACES), action="store_true"),
        Option("--diff", "compare two strikes, an old one and a new one: the characters that differ, drawn beside each other, "
                         "with -o in a picture; "
               "the status is 1 if any does", outputs=(DIFF,), action="store_true")),
    "what goes wrong": (
        Option("--require", "a character that is missing refuses the strike", action="store_true"),
        Option("--strict", "a character that is missing or refused refuses the strike", action="store_true"),
        Option("--quiet", "print only what went wrong", outputs=(*FILES, PICTURE, SHEET, DIFF), action="store_true")),
}
OPTIONS = [it for options in TABLE.values() for it in options]
SUMS = ("chars", "text", "glyph")  # options that add up


FIRST = ("size", "chars", "text", "format", "output", "out", "fit", "cell", "font", "preview")
MOST_USED = "most used"
EXAMPLES = """\
examples:
  strike --size 12,16 --chars ascii --format bdf,png "DejaVu Sans Mono"
  strike --fit 8x16 --chars latin-1,box -o console.psf FONT
  strike --size 24 --chars 30-3a --format c --bytes pages FONT
  strike --sheet 8-24 -o sizes.png FONT

The man page strike.1 and docs/COOKBOOK.md have more."""


class Help(argparse.RawDescriptionHelpFormatter):
    """The help, in lines of 80 characters on each terminal."""

    def __init__(self, prog: str) -> None:
        super().__init__(prog, max_help_position=22, width=80)


class Version(argparse.Action):
    """Prints the release, and ends."""

    def __call__(self, parser: argparse.ArgumentParser, *_: object) -> None:
        from . import __version__  # pylint: disable=no-name-in-module
        print("strike of mkstrike " + __version__)
        parser.exit()


class Once(argparse.Action):
    """An option with a value, which is given once."""

    def __call__(self, parser: argparse.ArgumentParser, namespace: argparse.Namespace, value: Any,
                 option: str | None = None) -> None:
        if getattr(namespace, self.dest, None) is not None:
            parser.error("%s is given twice" % option)
        setattr(namespace, self.dest, value)


class OfFont(argparse.Action):
    """An option of the font before it, or of all: `groups` has the options of all, then those of each --font."""

    def __call__(self, parser: argparse.ArgumentParser, namespace: argparse.Namespace, value: Any,
                 option: str | None = None) -> None:
        groups: list[dict[str, Any]] = namespace.groups
        if self.dest == "font":
            groups.append({"font": value})
            return
        value = self.const if self.nargs == 0 else value
        if self.dest in groups[-1] and self.dest not in SUMS:
            parser.error("%s is given twice" % option)
        groups[-1][self.dest] = [*groups[-1].get(self.dest, []), value] if self.dest in SUMS else value


class Parser(argparse.ArgumentParser):
    """The arguments. A wrong one is shown as a terminal may have it, with what to do."""

    def error(self, message: str) -> NoReturn:
        unknown = message.partition("unrecognized arguments: ")[2].split()
        if unknown:
            from .peers import meant
            message = "; ".join(filter(None, [message, meant(unknown[0], self._option_string_actions)]))
        super().error(shown(message).replace("\\x0a", "\n"))


def parser() -> argparse.ArgumentParser:
    """The arguments of the command."""
    p = Parser(prog="strike", usage=USAGE, description=ABOUT, epilog=EXAMPLES, formatter_class=Help, add_help=False)
    p.add_argument_group("fonts").add_argument("fonts", nargs="*", metavar="FONT", help=FONTS)
    first = {MOST_USED: tuple(next(it for it in OPTIONS if it.dest == name and it.names != ["--all"]) for name in FIRST)}
    for heading, options in {**first, **TABLE}.items():
        group = p.add_argument_group(heading)
        for it in options if heading == MOST_USED else (it for it in options if it not in first[MOST_USED]):
            more: dict[str, Any] = {"action": Once, **it.more, "help": it.text.replace("%", "%%"), "dest": it.dest}
            if it.is_of_font or it.dest == "font":
                more.update(action=OfFont, default=argparse.SUPPRESS, **({"nargs": 0} if "const" in more else {}))
            group.add_argument(*it.names, **more)
    p.add_argument("--dropout-near", action=OfFont, nargs=0, dest="dropout", const="near", default=argparse.SUPPRESS,
                   help=argparse.SUPPRESS)
    p.add_argument("--dropout-font", action=OfFont, nargs=0, dest="dropout", const="font", default=argparse.SUPPRESS,
                   help=argparse.SUPPRESS)
    group = p.add_argument_group("help")
    group.add_argument("-h", "--help", action="help", help="print this")
    group.add_argument("--version", action=Version, nargs=0, help="print the release")
    p.set_defaults(groups=[{}])
    return p


def joined(words: Sequence[str]) -> list[str]:
    """The arguments, with the value of --dropout after =: left, unless the next argument says otherwise."""
    made: list[str] = []
    for word in words:
        if made and made[-1] == "--dropout":
            made[-1] += "=" + (word if word in KINDS else "left")
            if word in KINDS:
                continue
        made.append(word)
    return [it + "=left" if it == "--dropout" else it for it in made]


def check(options: argparse.Namespace, inputs: Sequence[tuple[str, str]], outputs: Sequence[str]) -> None:
    """Refuses the options that have no meaning for what is given: `inputs` are the kind and the path of each font, in its order."""
    given = [it.dest for it in OPTIONS if getattr(options, it.dest, None) not in (None, False)]
    given += [dest for group in options.groups for dest in group]
    is_joined = len(options.groups) > 1 or options.diff
    for option in OPTIONS:
        # an option for all fonts of one strike, or for two that are compared, is for those for which it has a meaning
        common = [it for it in inputs if it[0] in option.inputs] or inputs if is_joined else inputs
        if option.dest == "shift_y" and option.dest in options.groups[0]:
            raise ValueError("--shift-y lifts the glyphs of one font among others: give it after its --font")
        if option.dest in (options.groups[0] if option.is_of_font else given):
            option.refuse(common, outputs, given)
        for (kind, path), own in zip(inputs, options.groups[1:]):
            if option.is_of_font and option.dest in own:
                option.refuse([(kind, path)], outputs, given)
