"""What the documents show is what their commands print and draw, and each planted fault is found."""
import glob
import os
import re
import shutil
import sys
import time
from unittest import mock

import documents
import png
import prebuilt
import pytest
from debian import PACKAGES
from documents import DOCUMENTS, PICTURES, Document, blocks_of_man, blocks_of_markdown
from prebuilt import TOP

STRIKE = (r"printf 'STARTFONT 2.1\nFONT a\nSIZE 1 72 72\nFONTBOUNDINGBOX 2 1 0 0\nCHARS 1\nSTARTCHAR a\nENCODING 65\nDWIDTH 2 0\n"
          r"BBX 2 1 0 0\nBITMAP\n80\nENDCHAR\nENDFONT\n' > a.bdf")
GOOD = """# Made

    echo one; echo two; echo three

<!-- output -->

    one
    ..
    three

<!-- status 3; files README.md -->

    cat README.md | head -n 1
    exit 3

<!-- output -->

    # Made

<!-- needs tool-that-is-not-there -->

    tool-that-is-not-there > made.txt

<!-- output -->

    what nobody compares

What needs it is left out too.

    cat made.txt

<!-- not run: part of a program -->

    int main(void)

<!-- picture
%s
picture --text A --scale 1 a.bdf > made.png
-->
![A](docs/pictures/made.png)
""" % STRIKE
# Each planted fault: what is replaced in GOOD, by what, and a word of the line that must tell of it. The last is in the picture
# that is kept.
PLANTED = [
    ("\n    three\n", "\n    four\n", "README.md:7: stale"),
    ("    # Made\n", "    # Mad\n", "stale: line 1 is shown as `# Mad`"),
    ("status 3; ", "", "status 3 in place of 0"),
    ("exit 3", "exit 4", "status 4 in place of 3"),
    ("n80", "nC0", "not the picture"),
    ("> made.png", "> other.png", "made.png"),
    ("<!-- picture\n%s\npicture --text A --scale 1 a.bdf > made.png\n-->\n" % STRIKE, "", "a picture without the commands"),
    ("    echo one; echo two; echo three\n", "", "an output without commands"),
    ("    cat made.txt\n", "    cat mad.txt\n", "status 1 in place of 0"),
    ("", "", "not the picture"),
]


@pytest.fixture(name="tools", scope="module")
def tools_on_the_path(program, tmp_path_factory):
    """A folder with what the commands call."""
    folder = str(tmp_path_factory.mktemp("tools"))
    documents.make_tools(folder, program)
    documents.add_python(folder)
    return folder


@pytest.mark.parametrize("path", DOCUMENTS)
def test_document(path, tools):
    """Runs all blocks of a document."""
    looked = Document(TOP, path, tools, False)
    looked.look()
    assert not looked.wrong, "\n".join(looked.wrong)
    assert looked.ran or looked.left, "no block of commands"
    if looked.left:
        pytest.skip("%d blocks of commands, the others ran: %s" % (len(looked.left), looked.left[0]))


def test_strike_is_there(tmp_path):
    """The commands that call `strike` can run."""
    why = documents.add_python(str(tmp_path))
    if why:
        pytest.skip(why)


def test_each_tool_has_a_package():
    """Each tool that a test or a document needs is in the table of Debian's packages, so that nobody is sent to one that is not
    there."""
    named = set()
    for path in DOCUMENTS:
        with open(os.path.join(TOP, path), encoding="utf-8") as file:
            for block in (blocks_of_man if path.endswith(".1") else blocks_of_markdown)(file.read()):
                named |= set(block.marks.get("needs", "").split())
    for path in glob.glob(os.path.join(glob.escape(TOP), "tests/*/*.py")):
        with open(path, encoding="utf-8") as file:
            named |= set(re.findall(r'\b(?:tool|told|left_out)\("([\w.+-]+)"', file.read()))
    assert named and not named - set(PACKAGES)


def test_each_picture_is_shown():
    """No picture is kept that no document shows."""
    shown = set()
    for path in (*DOCUMENTS, "docs/WEB.md"):
        with open(os.path.join(TOP, path), encoding="utf-8") as file:
            for block in (blocks_of_man if path.endswith(".1") else blocks_of_markdown)(file.read()):
                if block.is_picture:
                    shown.add(os.path.normpath(os.path.join(os.path.dirname(path), block.lines[0])))
    assert not documents.pictures_not_shown(TOP, shown)


def wrong_in(top, text, is_other=False):
    """What is found wrong in a document of this text, which shows a picture; it may be kept with another pixel."""
    tools, pictures, picture = top / "tools", top / PICTURES, [[0] * 10 for _ in range(9)]
    tools.mkdir()
    pictures.mkdir(parents=True)
    documents.make_tools(str(tools), "/bin/true")
    picture[4][5 if is_other else 4] = 1
    (pictures / "made.png").write_bytes(png.png_of(picture))
    return looked_at(top, text).wrong


def looked_at(top, text, path="README.md", write=False):
    """A document of this text after a look at it. For its programs in Python any Python will do."""
    (top / path).write_text(text, encoding="utf-8")
    (top / "tools").mkdir(exist_ok=True)
    for name in ("strike", "strike-python"):
        (top / "tools" / name).write_text('#!/bin/sh\nexec python3 "$@"\n')
        (top / "tools" / name).chmod(0o755)
    looked = Document(str(top), path, str(top / "tools"), write)
    looked.look()
    assert not os.path.exists(looked.folder)
    return looked


def test_nothing_planted(tmp_path):
    """Nothing is found in the made document."""
    assert not wrong_in(tmp_path, GOOD)


@pytest.mark.parametrize("number", range(len(PLANTED)))
def test_planted(number, tmp_path):
    """A planted fault is found."""
    old, new, word = PLANTED[number]
    assert GOOD.count(old) == 1 or not old
    wrong = wrong_in(tmp_path, GOOD.replace(old, new) if old else GOOD, not old)
    assert any(word in it for it in wrong), "`%s` for `%s`: found %s" % (new, old, wrong or "nothing")


def test_counts_of_planted(tmp_path):
    """Three blocks of the made document run, and two are left out: a tool is not there, and so what it makes is not."""
    assert not wrong_in(tmp_path, GOOD)
    looked = looked_at(tmp_path, GOOD)
    absent, made = looked.left
    assert looked.ran == 3 and looked.shown == {"docs/pictures/made.png"} and made == "README.md:30: made.txt was left out"
    assert absent == "README.md:22: %s" % documents.lacking("tool-that-is-not-there")


# Documents that run in an empty repository, and what is wrong with each.
TEXTS = [
    ("    false | true\n", ["x.md:1: status 1 in place of 0: nothing"]),
    ("    echo a; echo b >&2; echo c; false\n", ["x.md:1: status 1 in place of 0: c"]),
    ("    false\n    true\n", ["x.md:1: status 1 in place of 0: nothing"]),
    ("    echo a; echo b >&2; echo c\n\n<!-- output -->\n    a\n    b\n    c\n", []),
    ("    true\n\n<!-- output -->\n    a\n", ["x.md:4: stale: line 1 is shown as `a` and printed as `None`"]),
    ("    echo a; echo b\n\n<!-- output -->\n    a\n", ["x.md:4: stale: line 2 is shown as `None` and printed as `b`"]),
    ("    echo a; echo b\n\n<!-- output -->\n    b\n    ..\n", ["x.md:4: stale: line 1 is shown as `b` and printed as `a`"]),
    ("<!-- printed echo a; echo b -->\n\n    a\n    b\n", []),
    ("<!-- printed echo a; echo b -->\n\n    a\n    c\n", ["x.md:3: stale: line 2 is shown as `c` and printed as `b`"]),
    ("<!-- files bin x.md -->\n    ls\n<!-- output -->\n    bin\n    x.md\n<!-- files x.md -->\n    ls bin\n"
     "<!-- output -->\n    strike\n    strike-python\n", []),
    ("    echo $LC_ALL ${MAKEFLAGS-no} ${MFLAGS-no} $PYTHONUNBUFFERED; cd; pwd >pwd; ls\n<!-- output -->\n"
     "    C.UTF-8 no no 1\n    pwd\n", []),
    ("<!-- python -->\n    x = 1\n    print(x)\n<!-- python -->\n    print(x + 1)\n<!-- output -->\n    2\n"
     "<!-- python -->\n    print(x + 2)\n<!-- output -->\n    3\n", []),
    ("<!-- needs bash sh -->\n    false\n", ["x.md:2: status 1 in place of 0: nothing"]),
    ("<!-- needs bash no-tool sh -->\n    false > made.txt\nw\n    cat made.txt\nw\n    cat b\n",
     ["x.md:6: status 1 in place of 0: cat: b: No such file or directory"]),
    ("    cat /usr/share/fonts/truetype/none/none.ttf -o made.txt\nw\n    cat made.txt\n", []),
    ("<!-- picture cat /usr/share/fonts/truetype/none/none.ttf > b.png -->\n![A](docs/b.png)\n", []),
    ("<!-- not made: by hand -->\n![A](none.png)\n", ["x.md:2: there is no none.png"]),
    ("<!-- not made: by hand -->\n![A](x.md)\n", []),
    ("<!-- picture echo a > b.png -->\n![A](docs/b.png)\n", ["x.md:2: docs/b.png: it is not a PNG file"]),
    ("<!-- output -->\n    a\n", ["x.md:2: an output without commands before it"]),
    ("    sleep 9\n", ["x.md:1: the commands take over 1 s"]),
]


@pytest.mark.parametrize("number", range(len(TEXTS)))
def test_written_planted(number, tmp_path, monkeypatch):
    """What is wrong with a document is told with its line; it stays as it is."""
    text, due = TEXTS[number]
    for name, value in (("MAKEFLAGS", "-j"), ("MFLAGS", "-j"), ("LC_ALL", "C")):
        monkeypatch.setenv(name, value)
    monkeypatch.setattr(documents, "LONGEST", 1 if "sleep" in text else 60)
    looked = looked_at(tmp_path, text, "x.md")
    assert looked.wrong == due and (tmp_path / "x.md").read_text() == text
    assert bool(looked.left) == ("no-tool" in text or "none.ttf" in text)


MAN = r""".SH EXAMPLES
.EX
echo \(aq.x \(dqy\(dq \ez\(aq; echo a\-b
.EE
.PP
.\" output
.EX
\&.x \(dqy\(dq \ez
a\-b
.EE
.\" output
text
.EX
true
.EE
"""


def test_blocks_planted_anew(tmp_path):
    """Outputs are written anew, also longer and shorter ones, and pictures; what is right is not touched."""
    old = GOOD.replace("    # Made\n", "    a\n\n    b\n").replace("    ..\n    three\n", "    two\n")
    wrong_in(tmp_path, GOOD, True)
    looked = looked_at(tmp_path, old, write=True)
    assert not looked.wrong and (tmp_path / "README.md").read_text() == GOOD.replace("    ..\n", "    two\n")
    assert not looked_at(tmp_path, GOOD).wrong
    shutil.rmtree(tmp_path / PICTURES)
    assert not looked_at(tmp_path, GOOD, write=True).wrong and not looked_at(tmp_path, GOOD).wrong
    for shown in ("stale\n", "stale\n" * 3):
        due = MAN.replace("\\&.x \\(dqy\\(dq \\ez\na\\-b\n", shown)
        assert due != MAN and not looked_at(tmp_path, due, "a.1", True).wrong and (tmp_path / "a.1").read_text() == MAN
    empty = "    echo; echo a\n\n<!-- output -->\n\n    b\n\nend\n"
    looked_at(tmp_path, empty, "x.md", True)
    assert (tmp_path / "x.md").read_text() == empty.replace("    b\n", "\n    a\n")
    path = tmp_path / PICTURES / "made.png"
    path.chmod(0o444), (tmp_path / "README.md").chmod(0o444)
    before = os.stat(path), os.stat(tmp_path / "README.md")
    document = Document(str(tmp_path), "README.md", str(tmp_path / "tools"), True)
    document.look()
    assert [it.st_mtime_ns for it in before] == [os.stat(it).st_mtime_ns for it in (path, tmp_path / "README.md")]


MARKDOWN = """    a

      b
text
<!-- output -->

    c
    d

e
    f
<!-- not run: x; y -->
    g
<!-- status 3; files A
B -->

    h
<!-- picture
p; q
-->
![P](one.png)
![Q](two.png)
<!-- not made: w -->
![R](three.png)
<!-- output -->
![S](four.png)
<!-- output -->
words
    i
![T](five.png)
    j
"""
# The line of each block, its marks, its lines, and those from its first to its end in the text, counted from 0.
BLOCKS = [
    (1, {}, ["a", "", "  b"], 0, 3), (7, {"output": ""}, ["c", "d"], 6, 8), (11, {}, ["f"], 10, 11),
    (13, {"not": "run: x; y"}, ["g"], 12, 13), (17, {"status": "3", "files": "A\nB"}, ["h"], 16, 17),
    (21, {"picture": "p; q"}, ["one.png"], 20, 21), (22, {"picture": ""}, ["two.png"], 21, 22),
    (24, {"not": "made: w"}, ["three.png"], 23, 24), (26, {"picture": ""}, ["four.png"], 25, 26), (29, {}, ["i"], 28, 29),
    (30, {"picture": ""}, ["five.png"], 29, 30), (31, {}, ["j"], 30, 31),
]
BLOCKS_OF_MAN = [(3, {}, ["echo '.x \"y\" \\z'; echo a-b"], 2, 3), (8, {"output": ""}, ['.x "y" \\z', "a-b"], 7, 9),
                 (14, {}, ["true"], 13, 14)]


def test_blocks_planted():
    """The blocks of a text, each with the marks that are right before it and with its place."""
    for found, due in ((blocks_of_markdown(MARKDOWN), BLOCKS), (blocks_of_man(MAN), BLOCKS_OF_MAN),
                       (blocks_of_man(MAN[MAN.index(".EX"):]), [(line - 1, marks, lines, first - 1, end - 1)
                                                                for line, marks, lines, first, end in BLOCKS_OF_MAN])):
        assert [(it.line, it.marks, it.lines, it.first, it.end) for it in found] == due
    kinds = {"picture a; b": (True, False, False), "output": (False, True, False), "printed a; b": (False, True, False),
             "not run: a; b": (False, False, True), "not made: a; b": (True, False, True), "status 1; python": (False,) * 3}
    for marks, due in kinds.items():
        it = documents.Block(1, marks, [], 0, 0)
        assert (it.is_picture, it.is_output, it.is_left) == due and len(it.marks) == (2 if marks.startswith("status") else 1)


def test_planted_tools(tmp_path):
    """What is put on the path: the tools, and `strike` and its Python with the package and a library that is linked there."""
    documents.make_tools(str(tmp_path), "/it")
    due = {"mkstrike": "/it", "show-bdf": TOP + "/bin/show-bdf", "picture": TOP + "/tools/picture"}
    assert {it: os.readlink(tmp_path / it) for it in os.listdir(tmp_path)} == due
    package, linked, given = tmp_path / "python/mkstrike", mock.Mock(), mock.Mock(return_value=sys.executable)
    linked.side_effect = lambda words: (package / "libmkstrike.so.1").write_text("linked")
    with mock.patch.multiple(prebuilt, library_of_dist=mock.Mock(), command=linked):
        with mock.patch.object(documents, "python_with", given):
            assert documents.add_python(str(tmp_path)) is None
    linked.assert_called_once_with([TOP + "/packaging/link", str(package), TOP + "/dist/libmkstrike_c.a"])
    given.assert_called_once_with(("fontTools", "PIL"))
    names = set(os.listdir(package))
    assert {"libmkstrike.so", "REFUSALS.md", "__main__.py"} <= names and "libmkstrike.so.1" not in names
    for name, words in (("strike", "-m mkstrike "), ("strike-python", "")):
        text = '#!/bin/sh\nPYTHONPATH=%s/python exec %s %s"$@"\n' % (tmp_path, sys.executable, words)
        assert (tmp_path / name).read_text() == text and os.access(tmp_path / name, os.X_OK)
    with mock.patch.object(documents, "python_with", lambda _: None):
        assert documents.add_python("") == "no Python here has fontTools and Pillow (Debian: python3-fonttools, python3-pil)"
    absent = mock.Mock(side_effect=prebuilt.Fault("why"))
    with mock.patch.object(prebuilt, "library_of_dist", absent), mock.patch.object(documents, "python_with", given):
        assert documents.add_python(str(tmp_path / "new")) == "why"


def test_planted_display(tmp_path, monkeypatch):
    """Commands that need an X server have one as long as they run, and are left out if there is none."""
    text = "<!-- display -->\n    echo $DISPLAY\n<!-- output -->\n    :7\n"
    server = tmp_path / "bin/Xvfb"
    server.parent.mkdir()
    for path in filter(os.path.exists, map(shutil.which, "sh bash nice stdbuf python3 sleep".split())):
        os.symlink(path, server.parent / os.path.basename(path))
    monkeypatch.setenv("PATH", str(server.parent))
    assert looked_at(tmp_path, text, "x.md").left == ["x.md:2: %s" % documents.lacking("Xvfb")]
    server.write_text("#!/bin/sh\necho $$ $* > %s/begun\necho 7\nexec sleep 20\n" % tmp_path)
    server.chmod(0o755)
    start, looked = time.monotonic(), looked_at(tmp_path, text, "x.md")
    number, words = (tmp_path / "begun").read_text().split(" ", 1)
    assert (looked.wrong, looked.left, looked.ran, words) == ([], [], 1, "-displayfd 1 -noreset\n")
    assert not os.path.exists("/proc/" + number) and time.monotonic() - start < 15


def test_planted_fonts(tmp_path, monkeypatch):
    """A block that names a font runs if the font is there, and only then."""
    path, there = "/usr/share/fonts/truetype/a/b.ttf", os.path.exists
    monkeypatch.setattr(os.path, "exists", lambda it: it == path or there(it))
    looked = looked_at(tmp_path, "    echo %s\nw\n    echo %s\n" % (path, path.replace("b.ttf", "c.ttf")), "x.md")
    assert (looked.ran, looked.left) == (1, ["x.md:3: no c.ttf"])


def test_planted_picture_that_is_not_shown(tmp_path):
    """Pictures that no document shows are named."""
    (tmp_path / PICTURES).mkdir(parents=True)
    for name in "cab":
        (tmp_path / PICTURES / name).write_text("")
    assert documents.pictures_not_shown(str(tmp_path), {PICTURES + "/b"}) == [
        "%s/%s: no document shows it" % (PICTURES, name) for name in "ac"]


def test_lines_of_planted_man():
    """How a man page writes a line that is shown."""
    for line, due in (("a-b", r"a\-b"), ("'a' \"b\"", r"\&\(aqa\(aq \(dqb\(dq"), (r"\n", r"\en"), (".a", r"\&.a"), ("a.", "a.")):
        due = due.replace(r"\&\(aq", r"\(aq")
        assert documents.roff(line) == due and documents.plain(due) == line


# Lines that are shown, lines that were printed, and whether these are shown so.
SHOWN = [
    ("a ..", "a", True), ("a ..", "a b c", True), (".. c", "c", True), (".. c", "a c", True), ("a .. c", "a c", True),
    ("a .. c", "a b c d", False), ("a .. c", "b c", False), ("a .. b ..", "a x b", True), ("a .. b ..", "a x", False),
    ("a", "a b", False), ("a b", "a b", True), ("a b", "b a", False), ("..", "", True), ("", "a", False)]


@pytest.mark.parametrize("number", range(len(SHOWN)))
def test_planted_dots(number):
    """A line of two dots stands for any number of lines, also for none."""
    shown, printed, due = SHOWN[number]
    assert documents.is_shown(shown.split(), printed.split()) == due
