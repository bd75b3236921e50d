"""What the tests of the page and of its modules share: fonts, what the program makes of them, and what Node answers."""
import functools
import json
import os
import random
import struct
import subprocess
import tempfile
import zlib

import prebuilt
import pytest
import sample_font
import web_page
from damage import Damaged
from making import fonts
from making.collection import Collection
from needs import FOLDER, REAL, left_out, tool
from prebuilt import TOP
from program import find_program

HERE = os.path.dirname(os.path.realpath(__file__))
WEB = os.path.join(TOP, "web")
SAMPLE = web_page.SAMPLE
SANS = REAL["DejaVuSans"]
HINTED, DROPOUT, DROPOUT_NEAR, DROPOUT_FONT = 1, 2, 4, 8
DROPOUTS = {0: "off", DROPOUT: "left", DROPOUT_NEAR: "near", DROPOUT_FONT: "font"}
MODES = [hinted | dropout for dropout in DROPOUTS for hinted in (HINTED, 0)]
AT_FIRST = HINTED | DROPOUT_FONT  # the mode that the page begins with
DAMAGED, SEED = 100, 69
# Fonts with Latin letters, by their folders: what else a machine has must not change what is tested.
FAMILIES = {
    "dejavu": "DejaVuSans DejaVuSans-Bold DejaVuSansMono DejaVuSansMono-Bold DejaVuSerif DejaVuSerif-Bold DejaVuSans-ExtraLight "
              "DejaVuSansMono-Oblique "
              "DejaVuSansCondensed DejaVuSerif-Italic DejaVuSerifCondensed-BoldItalic",
    "liberation": "LiberationMono-Regular LiberationMono-BoldItalic LiberationSans-Regular LiberationSans-Bold "
                  "LiberationSans-Italic "
                  "LiberationSerif-Regular LiberationSerif-BoldItalic LiberationSansNarrow-Regular",
    "freefont": "FreeMono FreeMonoBoldOblique FreeSans FreeSansBold FreeSerif FreeSerifItalic",
    "noto": "NotoSans-Regular NotoSans-BoldItalic NotoSerif-Regular",
}
SQUARE = fonts.simple([[(0, 0, 1), (0, 500, 1), (500, 500, 1), (500, 0, 1)]])

the_program = functools.cache(find_program)


@functools.cache
def modules():
    """The folder of the modules and the page: the one that MKSTRIKE_MODULES names, else dist/, if it is of these sources."""
    named = os.environ.get("MKSTRIKE_MODULES")
    faults = [] if named else web_page.faults(prebuilt.read_manifest())
    return os.path.abspath(named or prebuilt.DIST) if not faults else pytest.skip("; ".join(faults))


def run(words, **how):
    """Runs a command, which must end well."""
    done = subprocess.run(words, capture_output=True, check=False, **how)
    assert done.returncode == 0, "%s: status %d: %s" % (words[:4], done.returncode,
                                                        (done.stdout + done.stderr)[-600:].decode("latin-1"))
    return done


# ---- fonts

def put(folder, name, data):
    """The path of a new file with these bytes."""
    path = os.path.join(folder, name)
    with open(path, "wb") as file:
        file.write(data)
    return path


def spread(all_of_them, count):
    """As many of a list as that, from all parts of it."""
    return all_of_them if len(all_of_them) <= count else [all_of_them[k * len(all_of_them) // count] for k in range(count)]


@functools.cache
def installed_fonts():
    """The paths of the fonts of FAMILIES that are installed."""
    found = [FOLDER + "%s/%s.ttf" % (family, name) for family, names in FAMILIES.items() for name in names.split()]
    return [it for it in found if os.path.exists(it)] or left_out("DejaVuSans")


def damaged(folder):
    """The paths of damaged fonts, one after the other."""
    draw, bases = random.Random(SEED), [fonts.FIXTURE, sample_font.sample()]
    bases += [fonts.part_of(prebuilt.read(SANS), range(0x20, 0x60))] if os.path.exists(SANS) else []
    for k in range(DAMAGED):
        yield put(folder, "damaged%d.ttf" % k, Damaged(bases[k % len(bases)], draw, bases).data)


def squares(count):
    """A font of as many characters from 4E00 on, each of 50 squares, which take time."""
    glyph = fonts.simple(
        [[(90 * x, 180 * y, 1), (90 * x, 180 * y + 120, 1), (90 * x + 60, 180 * y + 120, 1), (90 * x + 60, 180 * y, 1)]
         for x in range(10) for y in range(5)])
    return fonts.font_of([b""] + [glyph] * count, fonts.map_of((0x4E00 + k, 1 + k) for k in range(count)))


class Face:
    """A font of a collection: its tables, by tag."""

    def __init__(self, font):
        self.all_tables = functools.partial(fonts.tables_of, font)


def collection_of(files):
    """A collection of fonts."""
    return Collection("made", list(map(Face, files))).bytes()


def woff_of(font, last=None, length=None):
    """A font as WOFF. The last table may have other bytes than its own, or say that it has another length."""
    count, = struct.unpack_from(">H", font, 4)
    directory, tables, at = b"", b"", 44 + 20 * count
    for k in range(count):
        tag, checksum, offset, size = struct.unpack_from(">4sLLL", font, 12 + 16 * k)
        table = font[offset:offset + size] if last is None or k < count - 1 else last
        packed = min(table, zlib.compress(table, 9), key=len)
        size = size if length is None or k < count - 1 else length
        directory += struct.pack(">4sLLLL", tag, at + len(tables), len(packed), size, checksum)
        tables += packed + bytes(-len(packed) % 4)
    return struct.pack(">4s4sLHHLHHLLLLL", b"wOFF", font[:4], at + len(tables), count, 0, len(font), 1, 0, 0, 0, 0, 0,
                       0) + directory + tables


# ---- the program

def program(words, font):
    """What the program does with words and a font on its standard input."""
    with open(font, "rb") as file:
        return subprocess.run([the_program(), *words], stdin=file, capture_output=True, timeout=60, check=False)


def flags(mode):
    """The flags of mkstrike for a mode."""
    return ([] if mode & HINTED else ["--unhinted"]) + (["--dropout=" + DROPOUTS[mode & ~HINTED]] if mode & ~HINTED else [])


def answer(font, ppem, mode, chars, name="strike", face=None, refused="stop"):
    """What the program gives: its text, the first line of what it says, without its name, and its status."""
    words = ["make", "--ppem", str(ppem), "--chars", chars, "--name", name, *flags(mode)] + (["--face", face] if face else [])
    words += ["--refused", refused] if refused != "stop" else []
    done = program(words, font)
    return done.stdout, done.stderr.decode().split("\n")[0].partition(": ")[2], done.returncode


def outline(font, ppem, mode, code):
    """The outline of a character, as the program writes it."""
    return program(["outline", "--ppem", str(ppem), "--char", "%x" % code] + flags(mode & HINTED), font).stdout


# ---- Node

@functools.cache
def node():
    """The path of a Node that can run the modules. One of 18 or later must, so that no fault in them leaves their tests out."""
    path, probe = tool("node"), "import('%s/mkstrike.js').then((it) => process.exit(it.canRun() ? 0 : 1))" % WEB
    version = subprocess.run([path, "-p", "parseInt(process.versions.node)"], capture_output=True, check=True).stdout
    if int(version) < 18:
        pytest.skip("Node is older than 18")
    assert subprocess.run([path, "-e", probe], check=False).returncode == 0, "the modules don't run in Node"
    return path


def ask(module, requests, due):
    """What a module answers to requests in Node, in pairs with what is due, which is found meanwhile."""
    with tempfile.TemporaryFile("w+") as asked, tempfile.TemporaryFile("w+") as told:
        asked.writelines(json.dumps(it) + "\n" for it in requests)
        asked.seek(0)
        with subprocess.Popen([node(), os.path.join(HERE, "asked.mjs"), module], stdin=asked, stdout=told) as done:
            due = list(due)
        told.seek(0)
        seen = list(map(json.loads, told))
    assert done.returncode == 0 and len(seen) == len(due), "%d of %d answers" % (len(seen), len(due))
    return list(zip(seen, due))


def compare(module, asked, requests, due):
    """Asks a module; each answer must be what `due` gives for the request. Returns the answers."""
    answers = ask(module, asked, map(due, requests))
    wrong = ["%s: %r, and %r is due" % (request, seen, it) for request, (seen, it) in zip(requests, answers) if seen != it]
    assert not wrong, "%d of %d are not the program's, as %s" % (len(wrong), len(answers), wrong[0])
    return [it for it, _ in answers]
