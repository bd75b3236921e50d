"""What the tests share: the program to compare with, fonts, and the repository's own makers of fonts."""
import contextlib
import io
import os
import re
import shutil
import subprocess
import sys

import pytest

import mkstrike
from mkstrike import _library, command

TOP = os.environ.get("MKSTRIKE_TOP") or os.path.dirname(os.path.dirname(os.path.dirname(os.path.realpath(__file__))))
PROGRAM = os.environ.get("MKSTRIKE_PROGRAM") or os.path.join(TOP, "dist/mkstrike")
FOLDER = "/usr/share/fonts/truetype/"
SANS = FOLDER + "dejavu/DejaVuSans.ttf"
MONO = FOLDER + "dejavu/DejaVuSansMono.ttf"
LIBERATION = FOLDER + "liberation/LiberationMono-Regular.ttf"
sys.path += [os.path.join(TOP, it) for it in ("tests/lib", "tests/program", "suite", "tools")]
from debian import lacking_font  # noqa: E402


def needs_font(*paths):
    """A mark that leaves a test out if a font is not installed."""
    missing = [lacking_font(os.path.relpath(it, FOLDER)) for it in paths if not os.path.exists(it)]
    return pytest.mark.skipif(bool(missing), reason=", ".join(missing))


def font_at(path):
    """A font; the test is left out if it is not installed."""
    if not os.path.exists(path):
        pytest.skip(lacking_font(os.path.relpath(path, FOLDER)))
    return mkstrike.Font(path)


def needs(module, package):
    """A mark that leaves a test out if a module is not installed."""
    try:
        __import__(module)
        return pytest.mark.skipif(False, reason="")
    except ImportError:
        return pytest.mark.skipif(True, reason="%s is not installed (Debian: %s)" % (module, package))


needs_fonttools = needs("fontTools", "python3-fonttools")
needs_pillow = needs("PIL", "python3-pil")
needs_fontconfig = pytest.mark.skipif(not shutil.which("fc-list"), reason="fontconfig is not installed (Debian: fontconfig)")


def program(words, font):
    """Runs the program on a font's bytes: its status, its output and its first line on standard error."""
    ran = subprocess.run([PROGRAM, *words], input=font, capture_output=True, timeout=600, env={})
    return ran.returncode, ran.stdout, ran.stderr.decode().split("\n")[0]


def flags(hinted=True, dropout="font"):
    """The flags of the program for a mode; the defaults are those of the package."""
    kinds = {None: [], False: [], "off": [], True: ["--dropout"], "left": ["--dropout"], "near": ["--dropout=near"],
             "font": ["--dropout=font"]}
    return ([] if hinted else ["--unhinted"]) + kinds[dropout]


def text_of(words, font, dropout="font"):
    """The strike that the program makes, with the drop-out control that is the package's default."""
    status, out, said = program(["make", *words, *flags(dropout=dropout)], font)
    assert status == 0, said
    return out


def font_bytes(path):
    """The bytes of a font."""
    with open(path, "rb") as file:
        return file.read()


def words_of(run):
    """The options of a request of the repository's cases, or None if it is no plain strike."""
    words = run.words.split() if isinstance(run.words, str) else list(run.words)
    found = re.fullmatch(r"make --ppem (\d+) --chars ([0-9a-f,-]+)((?: --unhinted| --dropout(?:=near|=font)?)*)", " ".join(words))
    named = [name for name in ("near", "font") if "--dropout=" + name in words]
    return found and (int(found.group(1)), found.group(2), "--unhinted" not in words, named[0] if named else "left"
                      if "--dropout" in words else None)


class Counted:
    """The library, whose calls are counted: their names, in order."""

    def __init__(self, monkeypatch):
        self.library, self.calls = _library._c(), []
        monkeypatch.setattr(_library, "_c", lambda: self)

    def __getattr__(self, name):
        self.calls.append(name.replace("mkstrike_", ""))
        return getattr(self.library, name)


def strike_by_command(folder, *words, status=0, data=b""):
    """Runs the command `strike` in a folder. Returns what it prints on both outputs."""
    ran = subprocess.run([sys.executable, "-m", "mkstrike", *map(str, words)], cwd=folder, input=data, capture_output=True,
                         timeout=600)
    assert ran.returncode == status, ran.stderr.decode()
    return ran.stdout.decode(), ran.stderr.decode()


def run_in_process(words, folder, data=b""):
    """Runs the command in a folder, in this process. Returns the status, and what it prints on both outputs."""
    outputs = [io.TextIOWrapper(io.BytesIO(), encoding="utf-8") for _ in range(2)]
    before = os.getcwd(), sys.stdin
    os.chdir(folder)
    sys.stdin = io.TextIOWrapper(io.BytesIO(data))
    try:
        with contextlib.redirect_stdout(outputs[0]), contextlib.redirect_stderr(outputs[1]):
            try:
                status = command.main([str(it) for it in words])
            except SystemExit as end:
                status = end.code
    finally:
        os.chdir(before[0])
        sys.stdin = before[1]
    for it in outputs:
        it.flush()
    return status, outputs[0].buffer.getvalue(), outputs[1].buffer.getvalue().decode()


def pixels(glyph):
    """The set pixels of a glyph, from its origin."""
    return {(glyph.left + x, glyph.top - 1 - y) for y, row in enumerate(glyph) for x, it in enumerate(row) if it}
