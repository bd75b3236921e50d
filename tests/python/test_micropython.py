"""Modules of MicroPython: imported, and drawn by their functions as font_to_py's document says."""
import ast
import importlib.util
import warnings

import pytest
from shared import MONO, SANS, needs_font, pixels

import mkstrike

# What a reader of font_to_py's modules calls.
FUNCTIONS = {"height", "baseline", "max_width", "hmap", "reverse", "monospaced", "min_ch", "max_ch", "get_ch"}


def imported(folder, strike, **options):
    """The module of a strike, and the warnings of writing it."""
    with warnings.catch_warnings(record=True) as warned:
        warnings.simplefilter("always")
        strike.save(folder / "font.py", **options)
    spec = importlib.util.spec_from_file_location("font", folder / "font.py")
    module = importlib.util.module_from_spec(spec)
    spec.loader.exec_module(module)
    return module, [str(it.message) for it in warned]


def drawn(module, char):
    """The pixels of a character, counted from the left end of the module's glyph and from the baseline: a row after the other if
    hmap(), else a column after the other; the first pixel is the highest bit of a row's byte and the lowest of a column's, and the
    other way if reverse()."""
    data, height, width = module.get_ch(char)
    assert isinstance(data, memoryview) and height == module.height()
    first, second = (width, height) if module.hmap() else (height, width)
    size = (first + 7) // 8
    assert len(data) == size * second
    found = set()
    for line in range(second):
        for at in range(first):
            shift = 7 - at % 8 if module.hmap() != module.reverse() else at % 8
            if data[line * size + at // 8] >> shift & 1:
                x, y = (at, line) if module.hmap() else (line, at)
                found.add((x, module.baseline() - 1 - y))
    return found, width


@needs_font(SANS, MONO)
@pytest.mark.parametrize("options, hmap, reverse", [({}, True, False), ({"bytes": "rows", "bits": "lsb"}, True, True),
                                                    ({"bytes": "columns"}, False, False),
                                                    ({"bytes": "columns", "bits": "lsb"}, False, False),
                                                    ({"bytes": "columns", "bits": "msb"}, False, True)])
@pytest.mark.parametrize("path, size, chars", [(SANS, 20, "latin-1,20ac,1f600"), (MONO, 16, "ascii"), (MONO, 12, "41"),
                                               (SANS, 9, "20,42,44,46-48")])
def test_drawn(tmp_path, path, size, chars, options, hmap, reverse):
    """Every character is its glyph; what begins left of the pen or ends right of the advance is moved, and told."""
    strike = mkstrike.Font(path).strike(size, chars)
    module, warned = imported(tmp_path, strike, **options)
    assert (module.hmap(), module.reverse()) == (hmap, reverse)
    wider = []
    for char, glyph in strike.items():
        found, width = drawn(module, char)
        left = min(glyph.left, 0)
        assert found == {(x - left, y) for x, y in pixels(glyph)}, char
        assert width == max(glyph.advance, glyph.left + glyph.width) - left
        wider += [char] if width > glyph.advance else []
    assert ["U+%04X" % ord(it) for it in wider[:1]] == [it.split(": ")[1].split(",")[0].split("-")[0] for it in warned]
    codes = list(map(ord, strike))
    assert (module.min_ch(), module.max_ch()) == (codes[0], codes[-1])
    assert module.max_width() == max(drawn(module, it)[1] for it in strike)
    assert module.monospaced() == (path == MONO) and module.height() >= strike.height and module.baseline() >= strike.ascent


@needs_font(SANS)
@pytest.mark.parametrize("chars, shown", [("ascii", "?"), ("41-5a", "A"), ("20,2603", " ")])
def test_other_characters(tmp_path, chars, shown):
    """For a character that is not there the module has the question mark, else its first glyph."""
    module, _ = imported(tmp_path, mkstrike.Font(SANS).strike(16, chars))
    due = bytes(module.get_ch(shown)[0]), module.get_ch(shown)[2]
    for char in ("\x1f", "\x7f", "é", "\uffff", "\U0001f600"):
        data, _, width = module.get_ch(char)
        assert (bytes(data), width) == due, char


@needs_font(SANS)
def test_text(tmp_path):
    """The module defines the functions of the interface, and uses nothing that MicroPython lacks: no import, no call but of bytes
    in a view."""
    imported(tmp_path, mkstrike.Font(SANS).strike(16, "ascii"))
    tree = ast.parse((tmp_path / "font.py").read_text())
    defined = {it.name for it in tree.body if isinstance(it, ast.FunctionDef)}
    assert {it for it in defined if not it.startswith("_")} == FUNCTIONS
    called = {it.func.id for it in ast.walk(tree) if isinstance(it, ast.Call)}
    assert called == {"memoryview", "ord", "range", "_number"}
    assert not [it for it in ast.walk(tree) if isinstance(it, (ast.Import, ast.ImportFrom, ast.JoinedStr, ast.NamedExpr))]
    assert max(map(len, (tmp_path / "font.py").read_text().splitlines())) <= 132


@needs_font(SANS)
def test_limits(tmp_path):
    """What a module can't have is said; a hostile name stays in its comment."""
    strike = mkstrike.Font(SANS).strike(16, "41")
    for given, options, match in ((strike, {"bytes": "pages"}, "by rows or by columns, not by pages"),
                                  (strike, {"bytes": "x"}, "^bytes is rows or columns or pages"),
                                  (strike.subset("42"), {}, "the strike has no glyph")):
        with pytest.raises(ValueError, match=match):
            given.save(tmp_path / "font.py", **options)
    assert not list(tmp_path.iterdir())
    strike.parsed().name = "a\nraise SystemExit\r\\'''\u2028"
    module, _ = imported(tmp_path, strike)
    assert (tmp_path / "font.py").read_text().splitlines()[0].startswith(
        "# 1 glyphs of a_raise SystemExit__'''_ at ") and drawn(module, "A")[0] == pixels(strike["A"])
