"""Formats that other programs make of a strike: bdf2psf, bdftopcf, fonttosfnt."""
from __future__ import annotations

import os
import re
import shutil
import subprocess
import tempfile
import warnings
from typing import TYPE_CHECKING

from .charsets import ranges
from .refused import NotInstalled, NotMade

if TYPE_CHECKING:
    from .strike import Strike

MOST = 512  # glyphs of a font of the console


def psf(strike: Strike) -> bytes:
    """A font for the Linux console. All advances have to be equal (`Strike.cell`); characters that bdf2psf leaves out are a
    warning."""
    if len({it.advance for it in strike.values()}) != 1:
        raise ValueError("a font of the console has one advance for all glyphs: make a cell first (cell, --cell)")
    if len(strike) > MOST:
        raise ValueError("a font of the console has at most %d glyphs, not %d: give fewer characters, as --chars Lat15" %
                         (MOST, len(strike)))
    size = 256 if len(strike) <= 256 else MOST
    listed = "".join("U+%04X\n" % ord(it) for it in strike).encode()
    return _made("bdf2psf", "bdf2psf", strike, ["--fb", "in.bdf", os.devnull, "in.set", str(size), "out"], {"in.set": listed})


def pcf(strike: Strike) -> bytes:
    """A font for the X server."""
    return _made("bdftopcf", "xfonts-utils", strike, ["-o", "out", "in.bdf"])


def otb(strike: Strike) -> bytes:
    """An OpenType font with bitmaps alone."""
    return _made("fonttosfnt", "xfonts-utils", strike, ["-o", "out", "in.bdf"])


def _made(program: str, package: str, strike: Strike, words: list[str], files: dict[str, bytes] | None = None) -> bytes:
    """What a program writes to `out` for a strike with the properties of X11, in a folder of its own."""
    path = shutil.which(program)
    if path is None:
        raise NotInstalled("%s is not installed (Debian: %s)" % (program, package))
    if not len(strike):
        raise ValueError("%s makes no font of a strike without a glyph" % program)
    text = strike.with_properties(strike.properties, x11=True).text
    with tempfile.TemporaryDirectory() as folder:
        for name, data in {"in.bdf": text, **(files or {})}.items():
            with open(os.path.join(folder, name), "wb") as file:
                file.write(data)
        ran = subprocess.run([path, *words], cwd=folder, stdin=subprocess.DEVNULL, capture_output=True,
                             env={**os.environ, "LC_ALL": "C"})
        said = (ran.stdout + ran.stderr).decode(errors="replace").strip()
        try:
            if ran.returncode:
                raise OSError("status %d" % ran.returncode)
            with open(os.path.join(folder, "out"), "rb") as file:
                data = file.read()
        except OSError as fault:
            raise NotMade("%s made nothing: %s" % (program, said.split("\n")[-1] or fault)) from None
    for line in _warnings(said):
        warnings.warn("%s: %s" % (program, line), stacklevel=4)
    return data


def _warnings(said: str) -> list[str]:
    """What a program said, each line once, and the characters that bdf2psf left out in one."""
    lines = list(dict.fromkeys(line for line in said.split("\n") if line and "Negative repeat count" not in line))
    found = [re.fullmatch(r"WARNING: U\+([0-9A-F]+): no glyph defined", line) for line in lines]
    left_out = [int(it.group(1), 16) for it in found if it]
    kept = [line for line, it in zip(lines, found) if not it]
    return kept + (["left out, since they leave the cell: " + ranges(left_out)] if left_out else [])
