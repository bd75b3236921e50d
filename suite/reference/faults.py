"""What the reference refuses: a font, a glyph, a request, or a program that halts."""


class Refused(Exception):
    """A refusal, by its name."""

    def __init__(self, name, **fields):
        Exception.__init__(self, name)
        self.name, self.fields = name, fields


class Halt(Exception):
    """A row's fault, by its name; the loop adds where it was."""
