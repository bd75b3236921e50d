"""Type hints, by mypy: of the package, and of a program that uses it."""
import os
import shutil
import subprocess

import pytest
from shared import TOP

USER = '''\
from mkstrike import Font, Glyph, Strike, Striker, characters, merge

font: Font = Font("DejaVu Sans")
strike: Strike = font.strike(16, "latin-1", text="abc", dropout="near", x11=True, properties={"FOUNDRY": "misc", "CAP_HEIGHT": 12})
at: Striker = font.at(16, hinted=False, dropout=True)
glyph: Glyph = at["g"]
width, height = at.measure("Hello")
lines: str = at.blocks("Hello", missing="?")
size: int = font.fit(8, 16, ["ascii", 0x20AC, "é"], dropout="font")
codes: list[int] = characters(range(32, 127)) + font.characters()
few: Strike = merge([strike.subset("all").replace({"a": glyph}), strike.cell(8, 16)])
family: str = font.names.family
pixels: bytes = few["a"].tobytes()
many: dict[str, Glyph] = at.glyphs("all")
'''
WRONG = [('font.strike(16, dropout="middle")', "Literal"), ('font.at("16")', '"str"'), ("font.at(16).glyph('g')", '"str"'),
         ("strike.replace({'a': 'b'})", "Glyph"), ("font.names.fmaily", "fmaily")]


def mypy(folder, *words):
    """What mypy says, and its status."""
    if not shutil.which("mypy"):
        pytest.skip("mypy is not installed (Debian: mypy)")
    ran = subprocess.run(["mypy", "--strict", "--ignore-missing-imports", "--no-error-summary", "--python-version", "3.9",
                          "--cache-dir",
                          folder.parent / "mypy", *words],
                         cwd=folder, env={**os.environ, "MYPYPATH": os.path.join(TOP, "python")}, capture_output=True, text=True)
    return ran.returncode, ran.stdout + ran.stderr


def test_package(tmp_path):
    """The package has no error."""
    assert mypy(tmp_path, os.path.join(TOP, "python/mkstrike")) == (0, "")


def test_program(tmp_path):
    """A program that uses the package has no error, and its mistakes are found, each in its line."""
    (tmp_path / "user.py").write_text(USER)
    assert mypy(tmp_path, "user.py") == (0, "")
    (tmp_path / "user.py").write_text(USER + "\n".join(code for code, _ in WRONG) + "\n")
    status, out = mypy(tmp_path, "user.py")
    first = USER.count("\n") + 1
    assert status == 1 and [int(line.split(":")[1]) for line in out.splitlines()
                            if "error" in line] == list(range(first, first + len(WRONG))), out
    for line, (_, said) in zip([it for it in out.splitlines() if "error" in it], WRONG):
        assert said in line
