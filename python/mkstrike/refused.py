"""Why there is no strike, or no glyph."""
from __future__ import annotations

import os
from functools import lru_cache

NOT_TRUETYPE, TOO_MUCH_WORK = 10, 53


def code_name(code: int) -> str:
    """A code point as people write it: `U+0041`."""
    return "U+%04X" % code


def shown(text: str) -> str:
    """A text of a font or a file as a terminal may have it: what is no printable character is escaped, so that it can't command
    it."""
    return text if text.isprintable() else "".join(it if it.isprintable() else _escaped(ord(it)) for it in text)


def _escaped(code: int) -> str:
    """A character that is not printed; one of U+DC80 to U+DCFF stands for a byte that is not UTF-8."""
    code = code - 0xDC00 if 0xDC80 <= code <= 0xDCFF else code
    return "\\x%02x" % code if code < 256 else "\\u%04x" % code


class Refused(Exception):
    """A refusal of the library: its number, its name, and where the cause is (docs/REFUSALS.md lists them all).

    `str()` has two lines: `line`, which is what the program prints, and what to do. A field that a refusal does not have is None:

    - `table`: the tag of the table that is missing or short
    - `glyph`: the number of the glyph at fault
    - `during`: a program of the font halted; the one that was started: "fpgm", "prep" or a glyph's number
    - `program`, `address`, `opcode`: the program whose bytes hold the instruction, where it is in them, and the instruction
    - `property`: which property is bad, counted from 1
    - `char`: the character that was refused, if it is one character's refusal
    """

    def __init__(self, number: int, name: str, *, table: str | None = None, glyph: int | None = None,
                 during: int | str | None = None,
                 program: int | str | None = None, address: int | None = None, opcode: int | None = None,
                 property: int | None = None,
                 char: str | None = None, start: bytes | None = None) -> None:
        """`start` has the first bytes of the font's file: they tell what else it is."""
        super().__init__(number, name)
        self.number, self.name, self._start = number, name, start
        self.table, self.glyph, self.during, self.program = table, glyph, during, program
        self.address, self.opcode, self.property, self.char = address, opcode, property, char

    @property
    def fields(self) -> dict[str, int | str]:
        """The fields that this refusal has."""
        names = ("table", "glyph", "during", "program", "address", "opcode", "property", "char")
        return {name: getattr(self, name) for name in names if getattr(self, name) is not None}

    @property
    def is_of_character(self) -> bool:
        """Whether other characters of the same font may be made."""
        if self.during is not None:
            return isinstance(self.during, int)
        return self.glyph is not None or self.number == TOO_MUCH_WORK

    @property
    def advice(self) -> str:
        """What to do, in the words of docs/REFUSALS.md: by the first bytes, if the file is of another kind."""
        kind = kind_of(self._start) if self.number == NOT_TRUETYPE and self._start is not None else None
        if kind is not None:
            return kind
        from . import _library
        return _library.advice(self.number)

    @property
    def line(self) -> str:
        """The line that the program prints."""
        words = ["%d %s" % (self.number, self.name)]
        if self.during is not None and self.address is not None and self.opcode is not None:
            words.append("during %s in %s at %d opcode %02X" %
                         (_program(self.during), _program(self.program), self.address, self.opcode))
        words += [str(it) for it in (self.table, self.glyph, self.property) if it is not None]
        return " ".join(words)

    def to_do(self, unhinted: str = "hinted=False") -> str:
        """What to do, and after a halt also how no program of the font runs."""
        halted = self.during is not None and self.advice
        return "with %s no program of the font runs; to fix the font, %s" % (unhinted, self.advice) if halted else self.advice

    def __str__(self) -> str:
        whose = code_name(ord(self.char)) + ": " if self.char is not None else ""
        return "\n".join([self.line] + [whose + it for it in [self.to_do()] if it])

    def __reduce__(self) -> tuple[object, ...]:
        return _again, (self.number, self.name, self._start, self.fields)


class Missing(KeyError):
    """The font, or the strike, does not have the character. `chars` are all that a strike lacks."""

    def __init__(self, char: str, chars: tuple[str, ...] = ()) -> None:
        super().__init__(char, *([chars] if chars else []))
        self.char, self.chars = char, chars

    def __str__(self) -> str:
        if self.chars:
            from .charsets import ranges
            return "there is no " + ranges(map(ord, self.chars))
        return "there is no %s" % (code_name(ord(self.char)) if len(self.char) == 1 else repr(self.char))


class NotInstalled(RuntimeError):
    """A program or a module that is needed is not installed; the message names it and its Debian package."""


class NotMade(RuntimeError):
    """A program that is needed, as bdftopcf, made nothing of a strike; the message has its last line."""


def kind_of(start: bytes) -> str | None:
    """What a file is by its first bytes, if it is no TrueType font that can be read, and what to do."""
    return next((said for first, said in _kinds() if (start.startswith(first) if first else not start)), None)


@lru_cache(maxsize=None)
def _kinds() -> list[tuple[bytes, str]]:
    """The table of docs/REFUSALS.md of files of another kind: what they are and what to do, by their first bytes.

    The document is installed beside this module, or is that of a checkout."""
    here = os.path.dirname(os.path.abspath(__file__))
    beside, above = os.path.join(here, "REFUSALS.md"), os.path.join(here, "../../docs/REFUSALS.md")
    kinds: list[tuple[bytes, str]] = []
    path = next((it for it in (beside, above) if os.path.exists(it)), os.devnull)
    with open(path, encoding="utf-8") as file:
        for line in file:
            cells = [it.strip() for it in line.split("|")]
            if len(cells) == 6 and (cells[1] == "none" or cells[1].startswith("`")):
                first = bytes.fromhex(cells[1].strip("`")) if cells[1] != "none" else b""
                kinds.append((first, "the file %s: %s" % (cells[3].replace("`", ""), cells[4].replace("`", ""))))
    return kinds


def _program(it: int | str | None) -> str:
    """A program of the font, as the program prints it."""
    return "glyph %d" % it if isinstance(it, int) else str(it)


def _again(number: int, name: str, start: bytes | None, fields: dict[str, object]) -> Refused:
    """A refusal that was pickled."""
    return Refused(number, name, start=start, **fields)  # type: ignore[arg-type]
