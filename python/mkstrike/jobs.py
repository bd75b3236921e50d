"""What the arguments of `strike` ask for: which fonts make which strikes, in which formats and files."""
from __future__ import annotations

import argparse
import os
import re
import sys

from . import formats, options as table, sources
from .charsets import mapped, ranges
from .font import LOOK, Font, symbols
from .merge import Part, Told, fitting, joined
from .refused import Missing, shown
from .spread import processors
from .strike import Strike
from .values import (axes_of, cell_of, characters_of, check_name, glyphs_of, is_empty_file, is_text, points_of, properties_of,
                     sizes_of)

TYPE_CHECKING = False  # as in glyph.py
if TYPE_CHECKING:
    from typing import Any

PLACEHOLDERS = "\ufffd?"  # what stands in a preview for a character that the font lacks: the first that it has
TAB = 8  # columns of a preview
IS_NAME = r"\w[\w.+-]*"  # a name that files can have


class Asked:
    """What is asked of one font: its options, and those of all."""

    def __init__(self, path: str, own: dict[str, Any], common: dict[str, Any]) -> None:
        both = {**common, **own}
        self.path, self.is_bdf = path, path.lower().endswith(".bdf")
        self.sizes = sizes_of(both["size"]) if "size" in both and not self.is_bdf else []
        self.points = points_of(both.get("size", ""))
        self.rows = {it: both[it] for it in ("height", "cap_height") if it in both and not self.is_bdf}
        if len(self.rows) + bool(self.sizes) > 1:
            raise ValueError("--size, --height and --cap-height say the size: give one of them")
        self.face, self.axes, self.careful = both.get("face", 0), axes_of(both.get("axes", "")), both.get("careful", False)
        self.chars, self.text = characters_of(own)
        self.shift = own.get("shift_y", 0)
        self.given: dict[int, int] | None = None  # its characters, once they are known
        self.how: dict[str, Any] = {} if self.is_bdf else {
            "hinted": not both.get("unhinted"), "dropout": both.get("dropout", "font"), "refused": both.get("refused", "leave-out"),
            "symbol": both.get("symbol", False), "glyphs": glyphs_of(",".join(both.get("glyph", [])))}

    def opened(self, read: list[str]) -> Font | Strike:
        """The font, or a strike that is there already. Adds to what is read."""
        if self.is_bdf:
            return Strike.open(self.path)
        if self.path == "-":
            return Font(sources.read(sys.stdin.buffer)[0], face=self.face, axes=self.axes, careful=self.careful)
        source, face = sources.located(self.path, self.face)
        read.append(str(source))
        return Font(source, face=face, axes=self.axes, careful=self.careful)

    def part(self, source: Font | Strike, size: int) -> Part:
        """The part that it has in a strike of several."""
        part = Part(source, None if self.is_bdf else size, self.chars, {"text": self.text, "shift_y": self.shift, **self.how})
        part.name = self.name(source)
        return part

    def size(self, source: Font | Strike, size: int) -> int:
        """The size at which it is made: the one that is given, or the one that gives the rows that are asked for."""
        return source.size_for(**self.rows, hinted=self.how["hinted"],
                               dropout=self.how["dropout"]) if self.rows and isinstance(source, Font) else size

    def said(self, source: Font | Strike, size: int) -> list[str]:
        """Lines that say how a size came about."""
        lines = ["%d pixels per em: %s" % (size, self.points[size])] if size in self.points else []
        if not isinstance(source, Font):
            return []
        for name, rows in self.rows.items():
            found = [source.rows_at(it, name, hinted=self.how["hinted"], dropout=self.how["dropout"]) for it in (size, size + 1)]
            what = "a line has %d rows" if name == "height" else "a capital H has %d rows"
            lines.append("%d pixels per em: %s" % (size, what %
                         found[0]) + (", and %d at %d" % (found[1], size + 1) if found[0] != rows else ""))
        return lines

    def name(self, source: Font | Strike) -> str:
        """A name that tells the font from others."""
        words = [os.path.splitext(os.path.basename(self.path))[0] if isinstance(source, Strike) else source.name]
        return "-".join(words + ["face%d" % self.face] * bool(self.face) + ["%s%g" % it for it in self.axes.items()])

    def stem(self, source: Font | Strike) -> str:
        """The name of its files without the size: that of the font, and how it is drawn."""
        return "-".join([self.name(source)] + ["unhinted"] * (self.how.get("hinted") is False)
                        + [it for it in [self.how.get("dropout", "font")] if it != "font"])


class Job:
    """What the arguments ask for. `groups` has the fonts of each strike: one of each, or all of them after --font."""

    def __init__(self, given: argparse.Namespace) -> None:
        self.options, common = given, given.groups[0]
        self.is_joined = len(given.groups) > 1
        paths = [it["font"] for it in given.groups[1:]] if self.is_joined else given.fonts
        if self.is_joined and given.fonts or not paths:
            raise ValueError("fonts of one strike come after --font each: %s is not" % shown(given.fonts[0]) if paths
                             else "give a FONT")
        self.refuse_mistaken(paths)
        asked = [Asked(path, {key: it for key, it in own.items() if key != "font"}, common)
                 for path, own in zip(paths, given.groups[1:] or [{}] * len(paths))]
        self.written: set[str] = set()
        self.known: set[tuple[int, int] | None] = set()  # files that were read
        self.looked_at = 0  # of the paths that were read
        self.groups = [asked] if self.is_joined else [[it] for it in asked]
        self.outputs = self.checked_outputs()
        table.check(given, [(table.BDF if it.is_bdf else table.FONT, it.path) for it in asked], self.outputs)
        self.mode = self.outputs[0] if self.outputs[0] in table.MODES else None
        self.preview = None if given.preview is None else given.preview.expandtabs(TAB)
        self.chars, self.text = characters_of(common)
        self.text += self.preview or "" if self.mode is None else ""
        self.texts = [it for group in given.groups for it in group.get("text", [])]
        if (self.texts + paths).count("-") > 1:
            raise ValueError("standard input is the font or the text, not both")
        lists = [item.strip() for chars in (self.chars, *(it.chars for it in asked)) for item in chars.split(",")]
        self.read = [it for it in (*paths, *self.texts, *lists) if it and os.path.exists(it)]
        self.jobs = self.checked_jobs(paths)
        self.fit, self.cell = cell_of(given.fit, "--fit"), cell_of(given.cell, "--cell")
        self.properties = properties_of(given.property or [])
        self.check_together()

    def checked_jobs(self, paths: list[str]) -> int:
        """How many processes may make strikes; one if a font can be read but once, as from a pipe."""
        given = self.options.jobs
        if given is not None and given < 1:
            raise ValueError("--jobs is 1 or more")
        is_read_once = any(it == "-" or os.path.exists(it) and not os.path.isfile(it) for it in paths)
        return 1 if is_read_once else given or processors()

    # ---- what goes together

    def refuse_mistaken(self, paths: list[str]) -> None:
        """Refuses words that stand for a font and are none: a file to write, a size, a cell, a text."""
        for path in paths:
            is_there, ending = os.path.exists(path) or path == "-", os.path.splitext(path)[1].lower()
            if not is_there and ending in formats.OF_ENDING:
                raise ValueError("there is no %s to read; to write it: -o %s" % (shown(path), shown(path)))
            if not is_there and re.fullmatch(r"[0-9]+(-[0-9]+)?", path):
                raise ValueError("there is no font %s; a size is --size %s, and characters are --chars 20-7e" % (path, path))
            if not is_there and re.fullmatch(r"[0-9]+x[0-9]+", path):
                raise ValueError("there is no font %s; a cell is --cell %s or --fit %s" % (path, path, path))
            if not is_there and path in ("make", "show", "help"):
                raise ValueError("strike has no commands, as '%s': strike FONT makes strikes, and mkstrike %s is another program" %
                                 (path, path))
            if any("text" in it for it in self.options.groups) and path != "-" and is_text(path):
                raise ValueError("%s is a text, and is taken for a font: give each text after its own --text" % shown(path))

    def checked_outputs(self) -> list[str]:
        """The formats of the files, or what else is written."""
        o = self.options
        modes = [name for name, is_given in ((table.SHEET, o.sheet is not None),
                                             (table.LIST, o.list), (table.FACES, o.faces), (table.DIFF, o.diff)) if is_given]
        if len(modes) > 1:
            raise ValueError("%s do two things: give one of them" % " and ".join(modes))
        if modes:
            return modes
        if o.preview is not None and o.output is None:
            return [table.TERMINAL]
        found: list[str] = o.format.split(",") if o.format else [formats.by_ending(o.output) if o.output and o.output != "-"
                                                                 else "bdf"]
        for name in found:
            if name not in formats.FORMATS:
                raise ValueError("--format %s: there are %s" % (shown(name), ", ".join(formats.FORMATS)))
        self.formats = found
        if o.preview is not None and not set(found) <= set(formats.PICTURES):
            raise ValueError("--preview is printed, or with -o a picture in PNG or PBM")
        return [table.PICTURE] if o.preview is not None else found

    def check_together(self) -> None:
        """Refuses options that say two things."""
        o, asked = self.options, [it for group in self.groups for it in group]
        if self.mode is not None:
            return self.check_mode(asked)
        if self.fit and (self.cell or any(it.sizes or it.rows for it in asked)):
            ways = ["--size" for it in asked if it.sizes] + ["--" + row.replace("_", "-") for it in asked for row in it.rows]
            raise ValueError("--fit finds the size and makes the cells: leave %s out" % ("--cell" if self.cell else ways[0]))
        if o.output and o.out:
            raise ValueError("-o FILE is one file, --out FOLDER a folder for many: give one of them")
        if o.out and os.path.splitext(o.out)[1].lower() in formats.OF_ENDING and not os.path.isdir(o.out):
            raise ValueError("--out takes a folder: -o %s writes one file" % o.out)
        if any(it is not None and it < 1 for it in (o.scale, o.columns)):
            raise ValueError("--scale and --columns are 1 or more")
        if o.name is not None:
            check_name(o.name)
        if o.depfile and self.output == "-":
            raise ValueError("--depfile is for files, not for standard output: give -o FILE or --out FOLDER")
        if o.output and not (self.is_of_one or "%s" in o.output and len(self.groups) == 1 and len(self.outputs) == 1):
            raise ValueError("-o FILE is one file: give one font, one format, and %s in its name for several sizes, or --out "
                             "FOLDER for many; fonts of one strike come after --font each")
        if len({it.path for it in asked} if o.name is None else {self.groups[0][0].path}) < len(self.groups):
            raise ValueError("files of different fonts would have one name: give them one by one, or --font each for one strike")

    def check_mode(self, asked: list[Asked]) -> None:
        """Refuses what goes with files alone."""
        count = table.MODES[str(self.mode)]
        if self.is_joined or len(asked) != count:
            raise ValueError("%s takes %s" % (self.mode, "one FONT" if count ==
                             1 else "two strikes, or fonts: the old one and the new one"))
        if self.mode == table.LIST and not asked[0].sizes and {"unhinted", "dropout"} & set(self.options.groups[0]):
            raise ValueError("--unhinted and --dropout are for a list with metrics: give --size")
        if any(len(it.sizes) > 1 for it in asked):
            raise ValueError("%s takes one --size" % self.mode)
        self.sheet = sizes_of(self.options.sheet, "--sheet") if self.mode == table.SHEET else []
        if self.options.scale is not None and (self.options.scale < 1 or self.mode == table.DIFF and self.options.output is None):
            raise ValueError("--scale is 1 or more, for a picture: -o FILE.png")

    @property
    def is_of_one(self) -> bool:
        """Whether one strike in one format is asked for."""
        return len(self.groups) == 1 and len(self.outputs) == 1 and len(self.sizes(self.groups[0])[0]) == 1

    @property
    def output(self) -> str | None:
        """The one file to write, if there is one: standard output, if it is an empty file and one strike is asked for."""
        given: str | None = self.options.output
        if given is None and self.options.out is None and self.preview is None and self.is_of_one and is_empty_file(sys.stdout):
            return "-"
        return given

    @property
    def is_written(self) -> bool:
        """Whether there are files; else a text is previewed on standard output."""
        return self.outputs != [table.TERMINAL]

    def refuse_to_lose(self, paths: list[str]) -> None:
        """Refuses to write over what was read, and over what another strike of this run is in."""
        self.known.update(map(_file_of, self.read[self.looked_at:]))
        self.looked_at = len(self.read)
        for path in paths:
            if (_file_of(path) or ()) in self.known:
                raise ValueError("%s is read here, and would be replaced: give another folder by --out" % path)
            if path in self.written:
                raise ValueError("%s would be replaced by a second strike: give another folder by --out, or --name" % path)
        self.written.update(paths)

    # ---- strikes

    def sizes(self, group: list[Asked]) -> list[tuple[int, ...]]:
        """The sizes of the fonts of a strike, for each font as many as there are strikes."""
        count = max(1, *(len(it.sizes) for it in group))
        for it in group:
            if it.sizes and len(it.sizes) not in (1, count):
                raise ValueError("%s has %d sizes, and another font of the strike %d: give one, or as many" %
                                 (shown(it.path), len(it.sizes), count))
        return [tuple(it.sizes * (count if len(it.sizes) == 1 else 1) or [16] * count) for it in group]

    def wanted(self, group: list[Asked], fonts: list[Font | Strike]) -> tuple[str, str]:
        """The characters for all fonts of a strike: latin-1 if a font needs them and none are given. Those that stand for others in
        a preview are among them."""
        chars, text = self.chars, self.text
        if not (chars or text) and not (group[0].is_bdf or group[0].chars or group[0].text or group[0].how.get("glyphs")):
            chars = "latin-1"
        if self.preview is not None:
            text += "".join(it for it in PLACEHOLDERS if any(_has(font, it) for font in fonts))
        return chars, text

    def made(self, group: list[Asked], fonts: list[Font | Strike], at: int) -> tuple[Strike, list[Told]]:
        """A strike of fonts at their sizes, or the largest that fit, and what is told of each font if they are joined."""
        chars, text = self.wanted(group, fonts)
        o, sizes = self.options, [asked.size(font, it[at]) for asked, font, it in zip(group, fonts, self.sizes(group))]
        if self.fit:
            parts = [asked.part(font, LOOK) for asked, font in zip(group, fonts)]
            sizes = [fitting(parts, *self.fit, chars, text, o.ascent, o.clip, o.wide)] * len(fonts)
        told: list[Told] = []
        if self.is_joined:
            strike, told = self.joined(group, fonts, sizes, chars, text)
        else:
            strike = self.alone(group[0], fonts[0], sizes[0], chars, text)
        self.refuse(strike)
        strike.notes += tuple(line for asked, font, size in zip(group, fonts, sizes) for line in asked.said(font, size))
        strike.notes += self.uneven(strike, fonts[0])
        if self.fit or self.cell:
            strike = strike.cell(*(self.fit or self.cell or ()), ascent=o.ascent, clip=o.clip, join=bool(o.join or self.fit),
                                 wide=o.wide)
        if o.x11 or self.properties:
            strike = strike.with_properties(self.properties, x11=o.x11)
        return strike, told

    def joined(self, group: list[Asked], fonts: list[Font | Strike], sizes: list[int], chars: str,
               text: str) -> tuple[Strike, list[Told]]:
        """The strike of fonts that are joined."""
        name, first = self.options.name, fonts[0]
        parts = [asked.part(font, size) for asked, font, size in zip(group, fonts, sizes)]
        strike, told = joined(parts, chars, text, name or group[0].name(first))
        strike.names = first.names if name is None else None
        return strike, told

    def alone(self, asked: Asked, font: Font | Strike, size: int, chars: str, text: str) -> Strike:
        """The strike of one font, or of a strike that is there already."""
        name = self.options.name
        if isinstance(font, Strike):
            strike = font.subset(chars, text=text) if chars or text else font
            strike = strike.named(name) if name is not None else strike
        else:
            how = {key: it for key, it in asked.how.items() if key != "symbol"}
            if asked.given is None:  # the same for all sizes
                asked.given = symbols(mapped(chars, text, font.characters), asked.how["symbol"])
            strike = font._strike_of(size, asked.given, name=name or asked.name(font), **how)
            strike.names = font.names if name is None else None
        return strike

    def uneven(self, strike: Strike, font: Font | Strike) -> tuple[str, ...]:
        """A line that names the characters whose advances make X11 take a monospaced font for a proportional one."""
        if not self.with_spacing or self.cell or self.fit or isinstance(font, Strike) or not font.names.is_monospace:
            return ()
        entries = strike.parsed().entries
        widths = [it.dwidth for it in entries.values()]
        usual = max(set(widths), key=widths.count, default=0)
        other = [code for code, it in entries.items() if it.dwidth != usual]
        if not other or "SPACING" in self.properties:
            return ()
        return ("SPACING is P, since the advance of %s is not that of the others: --unhinted or --cell can make all equal, "
                "--property SPACING=C says what you know" % ranges(other, 8),)

    @property
    def with_spacing(self) -> bool:
        """Whether files have the properties of X11."""
        return bool(self.options.x11) or bool({"pcf", "otb"} & set(self.outputs))

    def drawn(self, strike: Strike) -> str:
        """The text of a preview as a strike can draw it: another character stands for one that is not there, if the strike has
        that."""
        stand_in = next((it for it in PLACEHOLDERS if it in strike), "")
        return "".join(it if it in strike or it in "\r\n" else stand_in for it in self.preview or "")

    def refuse(self, strike: Strike) -> None:
        """Refuses a strike that lacks a character, if that is asked for."""
        if self.options.strict and strike.refused:
            raise next(iter(strike.refused.values()))
        if self.options.strict or self.options.require:
            lacks = tuple(it for it in strike.missing if self.preview is None or it in self.preview)
            if lacks:
                raise Missing(lacks[0], lacks)


def _has(font: Font | Strike, char: str) -> bool:
    return char in font if isinstance(font, Strike) else bool(font.glyph_ids(text=char))


def _file_of(path: str) -> tuple[int, int] | None:
    """What tells a file from others, if there is one."""
    try:
        found = os.stat(path)
    except (OSError, ValueError):
        return None
    return found.st_dev, found.st_ino
