"""The npm package, installed in an empty folder: the command as people type it, the example of its README, its types and its
size."""
import os
import re
import resource
import shutil
import subprocess
import tarfile

import engine
import front
import prebuilt
import pytest
from engine import SAMPLE, put, run
from making import fonts
from making.assembler import pushed
from needs import real_font, tool
from prebuilt import TOP

PACKAGING = os.path.join(TOP, "packaging")
MOST_PACKED = 360  # KiB of the package
MAKE = ["make", "--ppem", "16", "--chars", "20-7e", SAMPLE, "-o", "new.bdf"]


def full_disk(it):
    """Outputs that take nothing are told, and a disk that takes no more leaves no new file."""
    before = it.files()
    with open("/dev/full", "wb") as full:
        answers = it.run(MAKE[:-1] + ["/dev/full"]), it.run(MAKE[:-2], stdout=full)
    it.equal("full outputs", [(status, said.split("\n")[0]) for status, _, said in answers],
             [(1, "mkstrike: 70 WriteFailed 0")] * 2)
    it.run(MAKE, preexec_fn=lambda: resource.setrlimit(resource.RLIMIT_FSIZE, (4096, 4096)))
    it.equal("the files after a full disk", it.files(), before)


def taken_name(it):
    """A name of a new file that a link has taken: what the link leads to stays. Random bytes are 0 here."""
    shutil.copy(SAMPLE, it.path("mine.ttf"))
    put(it.folder, "zeros.cjs",
        b"require('crypto').randomFillSync = (bytes) => bytes.fill(0); require('module').syncBuiltinESMExports();\n")
    os.symlink("mine.ttf", it.path(".mkstrike-" + 16 * "0"))
    it.run(MAKE, env={**os.environ, "NODE_OPTIONS": "--require ./zeros.cjs"})
    it.check("a font behind a link", "" if it.read("mine.ttf") == prebuilt.read(SAMPLE) else "it is written over")


def late_fault(it):
    """A disk that is full only when the file is flushed or closed: the older file stays, and no other."""
    put(it.folder, "old.bdf", b"old")
    before = it.files()
    for call in ("fsyncSync", "closeSync"):
        fails = "() => { throw Object.assign(new Error('full'), { code: 'EDQUOT' }); }"
        code = "require('node:fs').%s = %s;\nrequire('node:module').syncBuiltinESMExports();\n" % (call, fails)
        script = put(it.folder, "full.cjs", code.encode())
        status = it.run(MAKE[:-1] + ["old.bdf"], env={**os.environ, "NODE_OPTIONS": "--require=" + script})[0]
        os.remove(script)
        it.equal("a fault of %s" % call, (status, it.read("old.bdf") == b"old", it.files()), (1, True, before))


def setuid(it):
    """The new file is never setuid or setgid, whatever the older one was."""
    os.chmod(put(it.folder, "old.bdf", b"old"), 0o6755)
    it.run(MAKE[:-1] + ["old.bdf"])
    it.equal("the mode of a new file", os.stat(it.path("old.bdf")).st_mode & 0o7777, 0o755)


# What the command must do as the program does, most of it by the checks of tests/front.
CHECKS = (front.outputs_by_name, front.outputs_that_are_there, front.fonts_by_name, full_disk, late_fault, setuid, taken_name)
# Faults of web/program.js: the check that must find each, a text, and what takes its place.
FAULTS = [(full_disk, "system.unlinkSync(path(name))", "0"), (taken_name, "O_EXCL: 0o200, ", ""),
          (front.outputs_that_are_there, "system.fchmodSync(files[file], mode)", "0")]


@pytest.fixture(name="installed", scope="module")
def installed_package(tmp_path_factory):
    """The folder in which the package is installed."""
    engine.node()
    top = tmp_path_factory.mktemp("installed")
    run([os.path.join(PACKAGING, "npm-pack"), "1.2+made", str(top), engine.modules()], env={**os.environ, "SOURCE_DATE_EPOCH": "0"})
    path = top / "mkstrike-1.2+made.tgz"
    assert path.stat().st_size <= MOST_PACKED << 10, "the package has %d bytes" % path.stat().st_size
    if shutil.which("npm"):
        run(["npm", "install", "--offline", "--no-audit", "--no-fund", "--cache", str(top / "cache"), str(path)], cwd=top)
    else:
        with tarfile.open(path) as tar:
            tar.extractall(top / "node_modules")
        os.rename(top / "node_modules/package", top / "node_modules/mkstrike")
    return top


def command(package, folder):
    """The path of a script that runs the command of a package, as the system runs a program."""
    path = put(folder, "mkstrike",
               b"#!/bin/sh\nexec '%s' '%s' \"$@\"\n" % (engine.node().encode(), os.fsencode(package / "bin/mkstrike.js")))
    os.chmod(path, 0o755)
    return path


def wrong_with(package, tmp_path, check):
    """What a check of tests/front finds wrong with the command of a package."""
    if check in front.NEED_FONT:
        real_font("DejaVuSans")
    folder = tmp_path / "front"
    folder.mkdir()
    it = front.Check(command(package, tmp_path), str(folder), TOP)
    check(it)
    return it.wrong


@pytest.mark.parametrize("check", CHECKS)
def test_command(check, installed, tmp_path):
    """Fonts and outputs by name."""
    wrong = wrong_with(installed / "node_modules/mkstrike", tmp_path, check)
    assert not wrong, "\n".join(wrong)


@pytest.mark.parametrize("fault", FAULTS, ids=["unlink", "O_EXCL", "fchmod"])
def test_planted(fault, installed, tmp_path):
    """A fault of web/program.js is found."""
    check, old, new = fault
    shutil.copytree(installed / "node_modules/mkstrike", tmp_path / "package")
    script = tmp_path / "package/program.js"
    text = script.read_text(encoding="utf-8")
    assert text.count(old) == 1
    script.write_text(text.replace(old, new), encoding="utf-8")
    assert wrong_with(tmp_path / "package", tmp_path, check)


def readme_example(first="readFileSync"):
    """The example of the package's README, for Node, that begins with this import."""
    text = prebuilt.read(os.path.join(PACKAGING, "npm/README.md")).decode()
    return re.sub("^    ", "", re.search(r"^    import \{ %s.*?(?=^$)" % first, text, re.M | re.S).group(0), flags=re.M)


def test_example(installed):
    """The example of the package's README gives a strike that is the program's, and glyphs."""
    shutil.copy(SAMPLE, installed / "font.ttf")
    end = "if (glyphs.length !== 2 || refused || !pixels.length) throw new Error('glyphs');\nprocess.stdout.write(output);\n"
    put(installed, "example.mjs", (readme_example() + end).encode())
    seen = run([engine.node(), "example.mjs"], cwd=installed).stdout
    assert seen == engine.program(["make", "--ppem", "16", "--chars", "20-7e", "--x11"], SAMPLE).stdout


def slow_font():
    """A font whose glyph of U+0041 takes many seconds: 970 times 255 times SHZ over 65,535 twilight points."""
    shz = b"\xb0\x00\x2c" + pushed([0] * 255) + b"\x36" * 255 + b"\x2d"
    glyph = fonts.simple([[(0, 0, 1), (0, 90, 1), (90, 90, 1)]], pushed([0]) + b"\x16" + pushed([970, 0]) + b"\x2a")
    return fonts.font_of([b"", glyph], fonts.map_of([(0x41, 1)]), upem=255, fpgm=shz, stack=300, functions=1, twilight=65535)


def test_worker(installed):
    """The README's worker gives what `run` gives, and ends a run whose time is up."""
    put(installed, "within.mjs", readme_example("Worker").encode())
    put(installed, "slow.ttf", slow_font())
    put(installed, "ask.mjs", b"""import { readFileSync } from 'node:fs';
import { runWithin } from './within.mjs';
const ask = (milliseconds, font) => runWithin(milliseconds, ['make', '--ppem', '16', '--chars', '41'], readFileSync(font));
const made = await ask(60000, process.argv[2]), begun = performance.now(), none = await ask(500, 'slow.ttf');
if (none !== undefined || performance.now() - begun > 10000) throw new Error('the slow run was not ended');
process.stdout.write(made.output);
""")
    seen = run([engine.node(), "ask.mjs", SAMPLE], cwd=installed, timeout=120).stdout
    assert seen == engine.program(["make", "--ppem", "16", "--chars", "41"], SAMPLE).stdout


def test_types(installed):
    """The example meets the package's types."""
    tool("tsc")
    text = re.sub(r"^import \{ readFileSync.*\n", "declare function readFileSync(path: string): Uint8Array;\n", readme_example(),
                  flags=re.M)
    put(installed, "example.ts",
        (text + "if (!refused) console.log(glyphs[0].width, pixels.length, status + 1, output.length, lines.trim());\n").encode())
    done = subprocess.run(
        "tsc --strict --noEmit --target es2022 --module es2022 --moduleResolution node --lib es2022,dom example.ts".split(),
        cwd=installed, capture_output=True, text=True, check=False)
    assert done.returncode == 0, done.stdout[-300:]
