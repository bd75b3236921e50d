"""Bitmap strikes of TrueType fonts, hinted by the fonts' own programs; which pixels are set is proved.

    import mkstrike
    font = mkstrike.Font("DejaVuSans.ttf")
    strike = font.strike(16, "latin-1")
    strike.save("terminal.bdf")
    print(strike["g"])

`Font` opens a font, `Strike` is what it makes, `Striker` is a font at a size, `Glyph` is one picture. Refusals are `Refused`. The
strikes come from the C library of mkstrike; docs/PYTHON.md of the repository shows what else there is. """
from __future__ import annotations

from .charsets import character_sets, characters
from .font import Font
from .glyph import Glyph
from .merge import merge
from .names import faces
from .refused import Missing, NotInstalled, NotMade, Refused
from .strike import Strike
from .striker import Striker

__all__ = ["Font", "Glyph", "Missing", "NotInstalled", "NotMade", "Refused", "Strike", "Striker", "character_sets", "characters",
           "faces", "merge"]


def __getattr__(name: str) -> str:
    """The release, `__version__`, read only if somebody asks: of the folder that pip or a package made beside this one, or of the
    checkout."""
    if name != "__version__":
        raise AttributeError("module %r has no attribute %r" % (__name__, name))
    import os
    first, end, beside = "mkstrike-", ".dist-info", os.path.dirname(os.path.dirname(os.path.abspath(__file__)))
    for it in os.listdir(beside):
        if it.startswith(first) and it.endswith(end):
            return it[len(first):-len(end)]
    if os.path.exists(os.path.join(beside, "pyproject.toml")):
        with open(os.path.join(beside, "../VERSION"), encoding="utf-8") as file:
            return file.read().strip()
    from importlib import metadata  # which takes longer than all else
    return metadata.version("mkstrike")
