"""What is in a font: its glyphs by their numbers, with their names and characters."""
from __future__ import annotations

from collections import namedtuple
from collections.abc import Iterator

from .refused import Refused, code_name, shown
from .tables import numbers, table

TYPE_CHECKING = False  # as in glyph.py
if TYPE_CHECKING:
    from typing import Any, NamedTuple, Union

    from .font import Font
    from .glyph import Glyph
    from .names import Names
    from .strike import Strike
    from .striker import Striker

    class Listed(NamedTuple):
        """A glyph: its character, or None if it has none; its number, None of a strike; its name, nothing if it has none; and its
        picture at a size, if one was given: its refusal if it was refused."""
        char: str | None
        number: int | None
        name: str
        glyph: Union[Glyph, Refused, None]
else:
    Listed = namedtuple("Listed", "char number name glyph")

METRICS = ("advance", "width", "height", "left", "bottom")
# The names of the glyphs that `post` has by number (OpenType, post, version 1.0).
STANDARD = """\
.notdef .null nonmarkingreturn space exclam quotedbl numbersign dollar percent ampersand quotesingle parenleft
parenright asterisk plus comma hyphen period slash zero one two three four five six seven eight nine colon semicolon
less equal greater question at A B C D E F G H I J K L M N O P Q R S T U V W X Y Z bracketleft backslash bracketright
asciicircum underscore grave a b c d e f g h i j k l m n o p q r s t u v w x y z braceleft bar braceright asciitilde
Adieresis Aring Ccedilla Eacute Ntilde Odieresis Udieresis aacute agrave acircumflex adieresis atilde aring ccedilla
eacute egrave ecircumflex edieresis iacute igrave icircumflex idieresis ntilde oacute ograve ocircumflex odieresis
otilde uacute ugrave ucircumflex udieresis dagger degree cent sterling section bullet paragraph germandbls registered
copyright trademark acute dieresis notequal AE Oslash infinity plusminus lessequal greaterequal yen mu partialdiff
summation product pi integral ordfeminine ordmasculine Omega ae oslash questiondown exclamdown logicalnot radical florin
approxequal Delta guillemotleft guillemotright ellipsis nonbreakingspace Agrave Atilde Otilde OE oe endash emdash
quotedblleft quotedblright quoteleft quoteright divide lozenge ydieresis Ydieresis fraction currency guilsinglleft
guilsinglright fi fl daggerdbl periodcentered quotesinglbase quotedblbase perthousand Acircumflex Ecircumflex Aacute
Edieresis Egrave Iacute Icircumflex Idieresis Igrave Oacute Ocircumflex apple Ograve Uacute Ucircumflex Ugrave dotlessi
circumflex tilde macron breve dotaccent ring cedilla hungarumlaut ogonek caron Lslash lslash Scaron scaron Zcaron zcaron
brokenbar Eth eth Yacute yacute Thorn thorn minus multiply onesuperior twosuperior threesuperior onehalf onequarter
threequarters franc Gbreve gbreve Idotaccent Scedilla scedilla Cacute cacute Ccaron ccaron dcroat""".split()


def names_of_glyphs(data: bytes, face: int, count: int) -> list[str]:
    """The names of a font's glyphs by their numbers; nothing where the table `post` has none."""
    post = table(data, face, b"post")
    (version,) = numbers(">I", post, 0) or (0,)
    if version == 0x10000:
        return (STANDARD + [""] * count)[:count]
    (has,) = numbers(">H", post, 32) or (0,)
    places = numbers(">%dH" % min(has, count), post, 34) if version == 0x20000 else None
    known = STANDARD + list(_strings(post, 34 + 2 * has)) if places else []
    return [known[it] if it < len(known) else "" for it in places or ()] + [""] * (count - len(places or ()))


def _strings(data: bytes, at: int) -> Iterator[str]:
    """Names of a table one after the other, each after a byte that says how long it is."""
    while at < len(data):
        end = at + 1 + data[at]
        yield data[at + 1:end].decode("latin-1")
        at = end


def of_font(font: Font, at: Striker | None) -> list[Listed]:
    """The glyphs of a font: those of its characters, then those without one."""
    names = font.glyph_names()
    ids = font.glyph_ids("all")
    rest = sorted(set(range(len(names))) - set(ids.values()))
    return [Listed(char, number, names[number], _drawn(at, number)) for char,
            number in [*ids.items(), *((None, it) for it in rest)]]


def of_strike(strike: Strike) -> list[Listed]:
    """The glyphs of a strike."""
    entries = strike.parsed().entries
    return [Listed(char, None, entries[ord(char)].name, glyph) for char, glyph in strike.items()]


def _drawn(at: Striker | None, number: int) -> Glyph | Refused | None:
    if at is None:
        return None
    try:
        return at.glyph(number)
    except Refused as why:
        return why


def table_of(found: list[Listed]) -> list[str]:
    """Lines with a column for each: character, number, name, and the numbers of the picture."""
    rows = [["character", "glyph", "name", *METRICS]]
    for it in found:
        char = "-" if it.char is None else code_name(ord(it.char)) + \
                                                     (" " + it.char if it.char.isprintable() and not it.char.isspace() else "")
        metrics = [it.glyph.line] if isinstance(it.glyph, Refused) else [] if it.glyph is None else [
                                                str(getattr(it.glyph, name)) for name in METRICS]
        rows.append([char, "-" if it.number is None else str(it.number), shown(it.name) or "-", *metrics])
    count = max(map(len, rows[1:]), default=3)
    rows[0] = rows[0][:count]
    wide = [max(len(row[k]) for row in rows if len(row) > k + 1 or k < 3) for k in range(3)] + [8] * len(METRICS)
    return ["  ".join(it.ljust(width) for it, width in zip(row, wide)).rstrip() for row in rows]


def table_of_faces(found: list[Names]) -> list[str]:
    """Lines with a column for each: the number of a font of a file, its family, and its style."""
    rows = [("face", "family", "style"), *((str(face), it.family, it.style) for face, it in enumerate(found))]
    wide = [max(len(row[k]) for row in rows) for k in range(3)]
    return ["  ".join(it.ljust(width) for it, width in zip(row, wide)).rstrip() for row in rows]


def as_data(found: list[Listed]) -> list[dict[str, Any]]:
    """The same as JSON has it."""
    made = []
    for it in found:
        item: dict[str, Any] = {"code": None if it.char is None else ord(
            it.char), "char": it.char, "glyph": it.number, "name": it.name or None}
        if isinstance(it.glyph, Refused):
            item["refused"] = it.glyph.line
        elif it.glyph is not None:
            item.update((name, getattr(it.glyph, name)) for name in METRICS)
        made.append(item)
    return made
