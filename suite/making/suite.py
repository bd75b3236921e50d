"""The list of cases while it is made, and the file of cases."""
import json

APPLE = "Apple TrueType Reference Manual, "
OPENTYPE = "OpenType specification, "


class Case:
    """A case: a request about a font, what it is about, and the decision if no text says the answer."""

    def __init__(self, name, group, font, request, about, own, within):
        self.name, self.group, self.font, self.request = name, group, font, request
        self.about, self.own, self.within = about, own, within

    def line(self, expected):
        """Its line of cases.jsonl."""
        entry = {"id": self.name, "group": self.group, "font": self.font.file, **self.request, "about": self.about}
        if self.own:
            entry["own"] = self.own
        if self.within:
            entry["within"] = self.within
        return json.dumps({**entry, "expect": expected}, separators=(",", ":"))


class Suite:
    """All cases and fonts. A group's generator calls `font` and `case`."""

    def __init__(self):
        self.cases, self.fonts, self.group = [], {}, None

    def font(self, maker):
        """Takes a font into the suite."""
        assert maker.name not in self.fonts, maker.name
        self.fonts[maker.name] = maker
        return maker

    def case(self, name, font, about, glyph=None, char=None, ppem=16, hinted=True, dropout=False, own=None, within=None, bits=True,
             face=None):
        """Adds a case of a glyph's number or a character.

        `own` is the decision if no text says the answer; with `within` only so many 1/64 pixels are open."""
        named = {**({} if face is None else {"face": face}), **({"char": char} if glyph is None else {"glyph": glyph})}
        request = {"ppem": ppem, **named, "hinted": hinted, "dropout": dropout,
                   "want": ["outline", "bits"] if bits else ["outline"]}
        self.cases.append(Case("%s/%s" % (self.group, name), self.group, font, request, about, own, within))
