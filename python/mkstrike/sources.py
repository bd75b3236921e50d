"""The bytes of a font: from a path, from bytes, from a file or from fontTools; WOFF is unpacked, and fontTools makes variable fonts
plain."""
from __future__ import annotations

import io
import os
from collections.abc import Mapping

from . import tables
from .refused import NotInstalled, kind_of, shown

TYPE_CHECKING = False  # as in glyph.py
if TYPE_CHECKING:
    from typing import IO, Any, Callable, TypeVar, Union

    from fontTools.ttLib import TTFont

    Source = Union[str, "os.PathLike[str]", bytes, bytearray, memoryview, IO[bytes], TTFont]
    Made = TypeVar("Made")
FAR = 0.25 / 1000  # of an em that a converted outline may be away
FINEST, ROUNDED = 8192, 0.71  # units of an em on the finer grid, at most; how far rounding both coordinates of a point moves it
MOST = 1 << 26  # bytes of a file, read or unpacked, as many as the program takes
STYLES = ("bold", "italic", "oblique", "light", "medium", "regular", "black", "thin", "condensed")
TOO_LARGE = "%s has more than {:,} bytes: none of that size is read".format(MOST)


def limited(data: bytes, what: str) -> bytes:
    """The bytes of a file, if they are not too many."""
    if len(data) > MOST:
        raise ValueError(TOO_LARGE % shown(what))
    return data


def read_file(path: str | os.PathLike[str]) -> bytes:
    """The bytes of a file."""
    with open(path, "rb") as file:
        return _read_all(file, os.fspath(path))


def _read_all(file: IO[bytes], what: str) -> bytes:
    """The bytes of an open file, which may give them in parts; never many more than are allowed."""
    parts, left = [], MOST + 1
    while left > 0:
        part = file.read(left)
        if not isinstance(part, (bytes, bytearray)):
            raise TypeError("source: %s gives %s, not bytes: open it with 'rb'" % (shown(what), type(part).__name__))
        if not part:
            break
        parts.append(bytes(part))
        left -= len(part)
    return limited(b"".join(parts), what)


def located(source: Source, face: int) -> tuple[Source, int]:
    """The source itself, or if it is the name of an installed font and no file, where fontconfig has it: a path and the font's
    number."""
    if not isinstance(source, str) or os.sep in source or os.path.exists(source):
        return source, face
    import errno
    import shutil
    import subprocess
    program, said = shutil.which("fc-match"), ""
    if program:
        words = [program, "-f", "%{index}\n%{file}\n%{family}", "--", source]
        said = subprocess.run(words, stdin=subprocess.DEVNULL, capture_output=True).stdout.decode(errors="surrogateescape")
    index, path, families = (said + "\n\n").split("\n")[:3]
    if source.partition(":")[0].strip().lower() not in families.lower().split(","):  # fontconfig always finds some font
        raise FileNotFoundError(errno.ENOENT,
                                "there is no such file, and no installed font of this name " + _how_to_name(source, bool(program)),
                                source)
    return path, face or int(index) & 0xFFFF


def _how_to_name(name: str, is_known: bool) -> str:
    """How fonts are found by name, for one that was not."""
    if not is_known:
        return "can be looked up: fontconfig is not installed (Debian: fontconfig)"
    family, _, style = name.rpartition(" ")
    is_style = style.lower() in STYLES and family
    return "(a style comes after a colon: '%s:%s')" % (shown(family), style.lower()) if is_style else "(fc-list shows them)"


def read(source: Source) -> tuple[bytes, str]:
    """The bytes of a font's file, and a name for it."""
    if isinstance(source, (bytes, bytearray, memoryview)):
        return limited(bytes(source), "the font"), "font"
    if isinstance(source, (str, os.PathLike)):
        return read_file(source), os.path.splitext(os.path.basename(os.fspath(source)))[0]
    if hasattr(source, "getGlyphOrder"):
        out = io.BytesIO()
        getattr(source, "save")(out)
        return limited(out.getvalue(), "the font"), "font"
    if isinstance(source, io.TextIOBase) or not hasattr(source, "read"):
        raise TypeError("source is a path, bytes, a file that is open for bytes ('rb'), or a TTFont of fontTools, not %s" %
                        type(source).__name__)
    name = getattr(source, "name", "font")
    stem = os.path.splitext(os.path.basename(name))[0] if isinstance(name, str) else "font"
    return _read_all(source, "the file %s" % stem), stem


def unpacked(data: bytes) -> bytes:
    """The bytes of a font's file, out of WOFF if they are in that."""
    if data[:4] not in (b"wOFF", b"wOF2"):
        return data
    from . import woff
    return woff.unpacked(data)


def plain(data: bytes, face: int, axes: Mapping[str, float] | None) -> tuple[bytes, int, bool]:
    """The bytes as the library reads them, which font of them is meant, and whether its outlines were converted."""
    data = unpacked(data)
    is_converted = tables.is_cff(data, face)
    if not axes and not is_converted or face and data[:4] != b"ttcf":  # the library refuses the face
        return data, face, False

    def made() -> bytes:
        out = io.BytesIO()
        font = opened(data, face, "fonts with CFF outlines need" if is_converted else "axes need")
        font = _instance(font, axes) if axes else font
        (_converted(font) if is_converted else font).save(out, reorderTables=None)
        return out.getvalue()

    return limited(by_fonttools(made, data), "the font"), 0, is_converted


def by_fonttools(call: Callable[[], Made], data: bytes) -> Made:
    """What fontTools makes of a font's bytes. What it raises on a damaged font has no common kind."""
    try:
        return call()
    except NotInstalled:
        raise
    except BadAxes as fault:
        raise ValueError(str(fault)) from None
    except Exception as fault:
        kind = None if data[:4] == tables.CFF else kind_of(data[:16])
        raise ValueError("fontTools can't read the font: %s%s" % (reason_of(fault), "; " + kind if kind else "")) from fault


def reason_of(fault: BaseException) -> str:
    """What a fault says, in a line that can be printed; many of damaged fonts say nothing but their kind."""
    said = shown(" ".join(str(fault).split()))[:200]
    return "%s: %s" % (type(fault).__name__, said) if said and isinstance(fault, KeyError) else said or type(fault).__name__


class BadAxes(ValueError):
    """The places of axes that were asked for are not there."""


def opened(data: bytes, face: int, what: str) -> TTFont:
    """The font for fontTools, which leaves its tables as they are."""
    try:
        from fontTools.ttLib import TTFont
    except ImportError as fault:
        raise NotInstalled(what + " fontTools (Debian: python3-fonttools; pip install fonttools)") from fault
    return TTFont(io.BytesIO(data), fontNumber=face, lazy=True, recalcBBoxes=False, recalcTimestamp=False)


def _instance(font: TTFont, axes: Mapping[str, float]) -> TTFont:
    """A variable font at a place of its axes; an axis that is not named is at its default."""
    from fontTools.varLib import instancer
    if "fvar" not in font:
        raise BadAxes("the font has no axes")
    known = {it.axisTag: it for it in font["fvar"].axes}
    for tag, value in axes.items():
        if tag not in known:
            raise BadAxes("the font has no axis %r: it has %s" % (tag, ", ".join(known)))
        if not known[tag].minValue <= value <= known[tag].maxValue:
            raise BadAxes("the axis %s goes from %g to %g, not to %g" % (tag, known[tag].minValue, known[tag].maxValue, value))
    places = {tag: axes.get(tag, axis.defaultValue) for tag, axis in known.items()}
    return instancer.instantiateVariableFont(font, places, inplace=True)


def _converted(font: TTFont) -> TTFont:
    """A font with CFF outlines as one with TrueType outlines, at most FAR of an em away: lines and parabolas, on a finer grid, so
    that the rounded points are near enough too. It has no programs."""
    from fontTools.ttLib import newTable
    finer, order = max(FINEST // font["head"].unitsPerEm, 1), font.getGlyphOrder()
    made = _parabolas(font, finer)
    glyf, maxp, loca = newTable("glyf"), newTable("maxp"), newTable("loca")
    glyf.glyphs, glyf.glyphOrder = made, order
    maxp.tableVersion, maxp.numGlyphs, maxp.maxZones = 0x00010000, len(order), 1
    for name in ("maxTwilightPoints", "maxStorage", "maxFunctionDefs", "maxInstructionDefs", "maxStackElements",
                 "maxSizeOfInstructions",
                 "maxComponentElements", "maxComponentDepth", "maxPoints", "maxContours", "maxCompositePoints",
                 "maxCompositeContours"):
        setattr(maxp, name, 0)
    head, hhea, hmtx = font["head"], font["hhea"], font["hmtx"]
    hmtx.metrics = {name: (advance * finer, getattr(made[name], "xMin", 0)) for name, (advance, _) in hmtx.metrics.items()}
    hhea.ascent, hhea.descent, hhea.lineGap = hhea.ascent * finer, hhea.descent * finer, hhea.lineGap * finer
    head.unitsPerEm, head.glyphDataFormat = head.unitsPerEm * finer, 0
    for tag in {"CFF ", "CFF2", "VORG"} & set(font.keys()):
        del font[tag]
    font["glyf"], font["maxp"], font["loca"], font.sfntVersion = glyf, maxp, loca, "\0\1\0\0"
    return font


def _parabolas(font: TTFont, finer: int) -> dict[str, Any]:
    """The glyphs of a font by their names, with outlines of lines and parabolas."""
    from fontTools.pens.cu2quPen import Cu2QuPen
    from fontTools.pens.transformPen import TransformPen
    from fontTools.pens.ttGlyphPen import TTGlyphPen
    near, glyphs, made = FAR * font["head"].unitsPerEm * finer - ROUNDED, font.getGlyphSet(), {}
    for name in font.getGlyphOrder():
        pen = TTGlyphPen(None)
        glyphs[name].draw(TransformPen(Cu2QuPen(pen, near, reverse_direction=True), (finer, 0, 0, finer, 0, 0)))
        made[name] = pen.glyph()
        made[name].recalcBounds(None)
    return made
