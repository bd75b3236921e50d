"""The modules in Node give what the program gives: strikes, glyphs, outlines, counts and refusals of the library's, and runs of the
program's.

web/module.c is tried by itself too, and modules with a planted fault of tools/web_memory32.py are no modules, or fail there."""
import glob
import json
import os
import re
import shlex
import shutil
import subprocess
import types

import engine
import prebuilt
import pytest
import sample_font
import web_module
from engine import HERE, HINTED, MODES, SANS, SEED, installed_fonts, put
from making import fonts
from prebuilt import TOP, sha256

KINDS = {"uint32_t": "u32", "int32_t": "i32", "uint64_t": "u64", "size_t": "u64"}
SIZES = (9, 12, 16, 24, 33)
LETTERS = "--chars 20-7e,a0-ff,2010-2030"
OF_FONT = ["make %s %s" % (LETTERS, it) for it in (
    "", "--unhinted", "--dropout", "--dropout=near", "--dropout=font", "--x11", "--missing", "--refused leave-out",
    "--refused unhinted --x11", "--x11 --property 'FOO=bar \"x\"' --property SPACING=C --property N=-007",
    "--x11 --name=-a-b-c-d-e-f-g-h-i-j-k-l-m-n")] + [
    "show --char 67", "show --char 20", "show --char e123 --dropout=font", "show --glyph 36 --dropout=near", "outline --char 67",
    "outline --char e123", "outline --glyph 36 --unhinted", "trace --char 67", "trace --of prep", "trace --glyph 3"]
OF_PROGRAMS = ["dump --of fpgm", "dump --of prep", "dump --of 36"]
OF_SMALL = ["make --chars 0-ff,3a9-3ff,4e00-4e10 " + it
            for it in ("", "--refused unhinted --x11", "--refused leave-out --dropout=font")] + [
    "outline --glyph 1", "show --char 41", "trace --char 41"]
OF_DAMAGED = ["make --chars 20-7f " + it
              for it in ("", "--refused unhinted", "--refused leave-out", "--dropout=font")] + ["trace --of fpgm"]
FACES = ("0", "1", "2", "9", "4294967295", "4294967296")
# Command lines at size 16, of which most are wrong.
LINES = ["make " + it for it in (
    "--chars zz", "--chars 41,", "--chars= ", "--chars 42-41", "--chars 110000", "--chars 0-10ffff", "--chars 0-ffff,41",
    "--chars 000000041", "--chars d800-d801", "", "--chars 41 --ppem 12", "--chars 41 --name=", "--chars 41 --face 1",
    "--chars 41 --face x", "--chars 41 --dropout=x", "--chars 41 --refused", "--chars 41 --refused foo", "--chars 41 --property A",
    "--chars 41 --property =1", "--chars 41 --property a=1", "--chars zz --property a=1", "--chars 41 --x11 --x11",
    "--chars 41 --hex", "--chars 41 --property A=1 --property A=2", "--chars all",
    "--chars=41 --property=A=1 --property=B=\"1\" --property=C=2147483648 --property=D=-2147483648 --property=E=", "--char 41",
    "--set latin1", "--chars 19b-19d,250 --refused unhinted", "--chars 0-ffff --refused unhinted", "--chars 41 --name 'a\"b' --x11",
    "--chars 41 ''", "--chars fffd,20,41 --x11", "--chars 41 --property ENDPROPERTIES=1", "--chars 41 /nowhere/font.ttf",
    "--chars 41 a b", "--chars 41 -o")] + [
    "show --char 41,42", "show --char 110000", "show", "show --glyph 99999", "show --char 41 --glyph 36", "outline --glyph 65535",
    "trace --char 41 x", "dump --of 99999", "dump --of maxp", "explain make --chars zz", "frob", "mak --chars 41"]
SIZED = ["make --ppem %s --chars 41" % it for it in ("0", "1025", "x", "016", "+16", "65536", "1024", "1")]
PLAIN = ["help", "help make", "help frob", "--version", "-h", "", "explain", "explain make --ppem 12px --chars 20-7e font.ttf"]
# Faults for tools/web_memory32.py: a text, and what takes its place.
FAULTS = [('CUT, WIDEN, WIDEN_SIGNED = b"\\xa7", b"\\xad", b"\\xac"', 'CUT, WIDEN, WIDEN_SIGNED = b"\\xa7", b"\\xad", b"\\xad"'),
          ("else (2, 0)), cut=(0,))", "else (2, 0)))"),
          ("else (2, 0)), cut=(0,))", "else (2, 0)), cut=(0 if code in LOADS else 1,))"),
          ("(0, 1, 2) if kind == MEMORY_COPY else (0, 2)", "(0, 1) if kind == MEMORY_COPY else (0, 2)"),
          ("(0, 1, 2) if kind == MEMORY_COPY else (0, 2)", "(0, 1, 2) if kind == MEMORY_COPY else (0, 1)"),
          ("else (1, 1, (0,))))", "else (1, 1, ())))"), ("return WIDEN if code", "return b'' if code"),
          ("bytes([count, flags & 1])", "bytes([count, flags])"), ("self.stack[at + it]", "self.stack[at + it - 1]"),
          ("[len(self.made)] * given", "[len(self.made) - 1] * given")]


def test_layouts():
    """The structs and numbers of web/mkstrike.js are those of the header."""
    header, script = (prebuilt.read(os.path.join(TOP, it)).decode() for it in ("include/mkstrike.h", "web/mkstrike.js"))
    plain = re.sub(r"/\*.*?\*/", "", header, flags=re.S)
    due = {name: [(it, KINDS.get(kind, kind.replace("struct ", ""))) for kind, it in fields]
           for name, fields in prebuilt.structs_of_header(header)}
    table = re.search(r"STRUCTS = \{\n(.*?)\n\};", script, re.S).group(1)
    assert {name: re.findall(r"(\w+): '(\w+)'", body) for name, body in re.findall(r"(\w+): \{(.*?)\},", table, re.S)} == due
    numbers = dict(re.findall(r"#define MKSTRIKE_(\w+) UINT32_C\((\w+)\)", plain) + re.findall(r"MKSTRIKE_(\w+) = (\d+)", plain))
    own = dict(re.findall(r"\b([A-Z_]+) = (0x[0-9a-f]+|\d+)", script))
    assert {"HINTED", "DROPOUT", "NONE", "FPGM", "PREP", "MISSING"} <= set(own)
    assert not [name for name, value in own.items() if name in numbers and int(numbers[name], 0) != int(value, 0)]


# ---- web/module.c, and the memory of 32 bits

def needs_kit():
    """Leaves a test out if the kit, which compiles web/module.c, is not there."""
    if not shutil.which("rt"):
        pytest.skip("no Rattle kit")


def beside(folder, module):
    """Tries a module of web/module.c alone; returns whether it does what it must."""
    path = put(folder, "beside.wasm", module)
    done = subprocess.run([engine.node(), os.path.join(HERE, "beside.mjs"), path, str(SEED)], capture_output=True, text=True,
                          check=False)
    return done.returncode == 0, (done.stdout + done.stderr)[-300:]


def test_beside(tmp_path):
    """The functions of web/module.c, called directly."""
    needs_kit()
    is_right, said = beside(tmp_path, web_module.beside_alone())
    assert is_right, said


def test_planted(tmp_path):
    """A module with a planted fault is no module, or does not do what it must."""
    needs_kit()
    path = os.path.join(TOP, "tools/web_memory32.py")
    text, wide = prebuilt.read(path).decode(), web_module.beside_alone(lambda module: module)
    for old, new in FAULTS:
        assert text.count(old) == 1, old
        lower = types.ModuleType("planted")
        exec(compile(text.replace(old, new), path, "exec"), vars(lower))  # pylint: disable=exec-used
        try:
            module = vars(lower)["with_memory32"](wide)
        except (prebuilt.Fault, IndexError, KeyError):
            continue
        assert not beside(tmp_path, module)[0], "not seen: %s, in place of %s" % (new.strip() or "nothing", old.strip())


# ---- the library's module

def codes_of(chars):
    """The characters of a list of the program's form."""
    return [code for low, _, high in (it.partition("-") for it in chars.split(","))
            for code in range(int(low, 16), int(high or low, 16) + 1)]


def requests(folder):
    """Requests for strikes: font, size, mode, and characters as a list of the program's form."""
    made = [(path, SIZES[k % 5], MODES[k % 8], "20-24f,2010-2030,2500-259f") for k, path in enumerate(installed_fonts())]
    made += [(path, (16, 0, 1, 1024, 1025)[k // 10 % 5] if k % 10 == 0 else 16, MODES[k // 3 % 8], "20-5f")
             for k, path in enumerate(engine.damaged(folder))]
    made.append((put(folder, "none.ttf", b""), 16, 1, "41"))
    made += [(put(folder, "halting%d.ttf" % k, font), 16, 1, "%x" % code) for k, (font, code, *_) in enumerate(fonts.halting())]
    made += [(SANS, 16, mode, "0-ffff") for mode in MODES if os.path.exists(SANS)]
    # few glyphs of many characters; and a strike and glyphs of more than 4 MiB, for which their calls need room a second time
    return made + [(put(folder, "few.ttf", fonts.FIXTURE), 1024, HINTED, "0-ffff"),
                   (put(folder, "many.ttf", engine.squares(5000)), 100, 0, "4e00-6187")]


def due_of_strike(request):
    """The answer that is due: hashes of the strike and of its first glyph's outline, and counts; or the refusal's line."""
    text, line, status = engine.answer(*request)
    if status:
        return line
    first = re.search(rb"^ENCODING (\d+)$", text, re.M)
    counts = re.fullmatch(r"glyphs (\d+) missing (\d+) strays (\d+) steps (\d+)", line).groups()
    return " ".join([sha256(text), *counts, sha256(engine.outline(*request[:3], int(first.group(1))) if first else b"")])


def test_library(tmp_path):
    """Strikes, glyphs and refusals of the library's module."""
    asked = requests(tmp_path)
    lines = [{"font": font, "ppem": ppem, "mode": mode, "name": "strike", "chars": codes_of(chars)}
             for font, ppem, mode, chars in asked]
    answers = engine.compare(os.path.join(engine.modules(), prebuilt.MODULES[0]), lines, asked, due_of_strike)
    assert len([it for it in answers if len(it.split()[0]) < 64]) > 20, "so few refusals are no test of them"


def test_no_font(tmp_path):
    """Without a font, or after one that there is no memory for, a call says so; another font may follow."""
    script = put(tmp_path, "ask.mjs", b"""import { readFileSync } from 'node:fs';
const { Mkstrike } = await import(process.argv[2]);
const made = await Mkstrike.open(readFileSync(process.argv[3])), said = [];
const attempt = (work) => { try { work(); said.push('done'); } catch (fault) { said.push(fault.message); } };
attempt(() => made.heights(16));
attempt(() => made.setFont({ length: 2 ** 40 }));
for (const call of [() => made.heights(16), () => made.glyphs(16, 1, [65]), () => made.faces(), () => made.name(4)]) attempt(call);
attempt(() => made.setFont(readFileSync(process.argv[4])));
attempt(() => made.heights(16));
console.log(JSON.stringify(said));
""")
    module = os.path.join(engine.modules(), prebuilt.MODULES[0])
    words = [engine.node(), script, os.path.join(TOP, "web/mkstrike.js"), module, engine.SAMPLE]
    none = "there is no font: setFont was not called, or ran out of memory"
    assert json.loads(engine.run(words).stdout) == [none, "out of memory", none, none, none, none, "done", "done"]


# ---- the program's module

def command_lines(folder):
    """Command lines for the program: of each the font, which is the standard input, and the words."""
    large, small = installed_fonts(), sorted(glob.glob(os.path.join(TOP, "suite/fonts/*.ttf")))
    runs = [(k, font, line) for paths, lines in ((large, OF_FONT), (small, OF_SMALL)) for k, font in enumerate(paths)
            for line in lines]
    runs += [(k, font, OF_DAMAGED[k % len(OF_DAMAGED)]) for k, font in enumerate(engine.damaged(folder))]
    for k, font, line in runs:
        verb, *rest = shlex.split(line)
        yield font, [verb, "--ppem", str(SIZES[k % len(SIZES)]), *rest]
    yield from ((font, shlex.split(line)) for font in large + small for line in OF_PROGRAMS)
    two = put(folder, "two.ttc", engine.collection_of([fonts.FIXTURE, sample_font.sample()]))
    yield from ((two, ["make", "--ppem", "12", "--chars", "20-7e", "--face", it]) for it in FACES)
    for line in LINES + SIZED + PLAIN:
        words = shlex.split(line)
        yield SANS if os.path.exists(SANS) else small[0], (
            words[:1] + ["--ppem", "16"] * (line in LINES and words[0] in ("make", "show", "outline", "trace")) + words[1:])


def test_no_files(tmp_path):
    """In memory there are no files: a font and an output by their names are refused."""
    script = put(tmp_path, "ask.mjs", b"""import { readFileSync } from 'node:fs';
const { runInMemory } = await import(process.argv[2]);
const module = new WebAssembly.Module(readFileSync(process.argv[3])), font = readFileSync(process.argv[4]);
for (const more of [['a.ttf'], ['-o', 'a.bdf']]) {
  const { status, output, lines } = runInMemory(module, ['make', '--ppem', '16', '--chars', '41', ...more], font);
  console.log(status, output.length, lines.split('\\n').find((it) => it.includes("'")));
}
""")
    module = os.path.join(engine.modules(), prebuilt.MODULES[1])
    words = [engine.node(), script, os.path.join(TOP, "web/program.js"), module, engine.SAMPLE]
    assert engine.run(words).stdout.decode() == ("1 0 mkstrike: can't open the font 'a.ttf': there is no such file\n"
                                                 "1 0 mkstrike: can't write 'a.bdf': no file can be made in its folder\n")


def due_of_run(request):
    """Status, output and lines of the program."""
    font, words = request
    done = engine.program(words, font)
    return [done.returncode, sha256(done.stdout), done.stderr.decode()]


def test_program(tmp_path):
    """Bytes, statuses and lines of the program's module."""
    asked = list(command_lines(tmp_path))
    lines = [{"font": font, "words": words} for font, words in asked]
    answers = engine.compare(os.path.join(engine.modules(), prebuilt.MODULES[1]), lines, asked, due_of_run)
    assert len([it for it in answers if it[0]]) > 100, "so few refusals are no test of them"
