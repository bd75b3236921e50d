"""Threads, memory, and time."""
import concurrent.futures
import os
import subprocess
import sys
import time

from shared import LIBERATION, SANS, Counted, needs_font

import mkstrike
from mkstrike import bdf


@needs_font(SANS, LIBERATION)
def test_threads():
    """Strikes and glyphs from eight threads, on the same fonts, are those of one."""
    fonts = [mkstrike.Font(it) for it in (SANS, LIBERATION)]

    def made(k):
        font = fonts[k % 2]
        return font.strike(10 + k % 7, "latin-1", dropout=k %
                           3 == 0).text, font.glyph(10 + k % 7, "g"), font.strike(16, "180-250").refused.keys()

    alone = [made(k) for k in range(42)]
    with concurrent.futures.ThreadPoolExecutor(8) as pool:
        assert list(pool.map(made, range(42))) == alone


def resident():
    """The bytes of memory that the process holds."""
    with open("/proc/self/statm", encoding="ascii") as file:
        return int(file.read().split()[1]) * os.sysconf("SC_PAGESIZE")


@needs_font(SANS)
def test_no_leak():
    """10,000 glyphs, and 200 strikes, with refusals among them, take no memory that stays."""
    font, chars = mkstrike.Font(SANS), "Ag%é W"

    def some(count):
        for k in range(count):
            font.glyph(9 + k % 9, chars[k % len(chars)], hinted=k % 20 == 0)
            if k % 50 == 0:
                assert len(font.strike(9 + k % 9, "41-5a,19c", hinted=k % 500 == 0)) == (26 if k % 500 == 0 else 27)
                try:
                    font.glyph(16, "Ɯ")
                except mkstrike.Refused:
                    pass

    some(1000)
    before = resident()
    some(10000)
    assert resident() - before < 1 << 20


@needs_font(SANS)
def test_calls(monkeypatch):
    """A strike is one call of the C library, beside two for the font's names, once, and its text is read once; with refused
    characters it is made again, and each of these has a call that tells why."""
    calls, read, parse = Counted(monkeypatch).calls, [], bdf.parse
    monkeypatch.setattr(bdf, "parse", lambda *words: read.append(1) or parse(*words))
    font = mkstrike.Font(SANS)
    assert font.names.family == "DejaVu Sans" and calls == ["name"] * 2
    del calls[:]
    start = time.process_time()
    strike = font.strike(16, "latin-1")
    assert not strike.missing and len(strike) == 191 and sum(it.width for it in strike.values()) and strike.box and strike.name
    print("a strike of 191 characters, read: %.1f ms of the processor" % (1000 * (time.process_time() - start)))
    assert calls == ["make"] and len(read) == 1
    del calls[:]
    strike = font.strike(16, "180-250")
    assert len(strike.refused) == 2
    assert calls == ["make", "reason", "prepare", "glyphs_prepared", *["glyph_prepared", "reason"] * 2, "make"]
    del calls[:]
    font.glyph(16, "g")
    font.glyph_ids(range(0x20000))
    assert calls == ["glyph_prepared", "glyph_ids", "glyph_ids"]
    del calls[:]
    start = time.process_time()
    count = len([it.tobytes() for it in font.at(16).glyphs("all").values()])
    print("all %d glyphs as bytes: %.0f ms of the processor" % (count, 1000 * (time.process_time() - start)))
    assert calls == ["characters", "glyphs_prepared"]
    del calls[:]
    assert len(font.characters()) == len(font.at(16)) == count + 2 and not calls
    start = time.process_time()
    for _ in range(1000):
        font.glyph(16, "g")
    print("a glyph: %.1f microseconds of the processor" % (1000 * (time.process_time() - start)))
    assert calls == ["glyph_prepared"] * 1000


def test_import():
    """Importing takes less than 30 ms of processor time, and none of the large modules."""
    code = "import sys, time; t = time.process_time(); import mkstrike; print(time.process_time() - t, *sys.modules)"
    spent = []
    for _ in range(7):
        ran = subprocess.run([sys.executable, "-c", code], capture_output=True, text=True, check=True).stdout.split()
        spent.append(float(ran[0]))
    print("import mkstrike: %.1f ms" % (1000 * min(spent)))
    assert min(spent) < 0.03
    assert not {"fontTools", "PIL", "numpy", "typing", "argparse", "subprocess"} & set(ran[1:])


@needs_font(SANS)
def test_start_of_the_command(tmp_path):
    """A small strike in BDF imports none of the modules that other formats and fonts need."""
    code = "import sys; before = set(sys.modules); from mkstrike.command import main; main(%r); print(*set(sys.modules) - before)"
    heavy = {"fontTools", "PIL", "typing", "difflib", "subprocess", "tempfile", "unicodedata", "importlib.metadata",
             "mkstrike.carray", "mkstrike.peers", "mkstrike.frames"}
    words = [SANS, "--chars", "ascii", "--quiet", "-o", str(tmp_path / "a.bdf")]
    ran = subprocess.run([sys.executable, "-c", code % (words,)], capture_output=True, text=True, check=True)
    assert not heavy & set(ran.stdout.split()) and (tmp_path / "a.bdf").stat().st_size > 1000


@needs_font(SANS)
def test_memory_of_the_command(tmp_path):
    """One font is in memory at a time: sixty fonts take no more than two, give or take 4 MB."""
    code = "import re, sys; from mkstrike.command import main; main(sys.argv[1:]); " \
        "print(re.search(r'VmHWM:\\s+(\\d+) kB', open('/proc/self/status').read()).group(1))"
    most = []
    for count in (2, 60):
        paths = [tmp_path / ("font%d.ttf" % k) for k in range(count)]
        for it in paths:
            if not it.is_symlink():
                os.symlink(SANS, it)
        words = [sys.executable, "-c", code, *paths, "--chars", "ascii", "--size", "9", "--jobs", "1", "--out", tmp_path / "made"]
        most.append(int(subprocess.run([*words, "--quiet"], capture_output=True, check=True).stdout))
    print("strike takes %d KB for two fonts, %d KB for sixty" % tuple(most))
    assert len(list((tmp_path / "made").iterdir())) == 60 and most[1] - most[0] < 4000
