"""tools/mutate on planted sources whose mutants, and what becomes of each, are known; and its list of equal mutants."""
import importlib.util
import os
from importlib.machinery import SourceFileLoader

import pytest
from needs import left_out, tool
from prebuilt import TOP
from program import python_with

LOADER = SourceFileLoader("mutate", os.path.join(TOP, "tools/mutate"))
mutate = importlib.util.module_from_spec(importlib.util.spec_from_loader("mutate", LOADER))
mutate.__spec__.loader.exec_module(mutate)

PYTHON = """def sign(number):
    if number < 0:
        return -1
    return 1


def can_run():
    return True
"""
TESTS = """import made
import pytest


def test_negative():
    assert made.sign(-1) == -1


def test_positive():
    if not made.can_run():
        pytest.skip("too old")
    assert made.sign(1) == 1


def test_without_a_tool():
    pytest.skip("no tool")
"""
# What becomes of each mutant of these. No test has 0; a test that is left out is no kill.
JUDGED = {
    "if number [< -> <=] 0:": "survived", "if number < [0 -> 1]:": "survived", "if [number < 0 -> True]:": "killed",
    "if [number < 0 -> False]:": "killed", "return [-1 -> None]": "killed", "return -[1 -> 2]": "killed",
    "return -[1 -> 0]": "killed", "return [1 -> None]": "killed", "return [1 -> 2]": "killed", "return [1 -> 0]": "killed",
    "return [True -> None]": "left out", "return [True -> False]": "left out"}
C = "int same(int a) { return a + 0; }\n"
CHECK = "int same(int);\nint main(void) { return same(7) != 7; }\n"
SCRIPT = """if (a === 1) { b += f(0x0a, 'x'); } else return;
for (let k = 0; k < n; k++) g.h(!k); // 7 < 8
"""
# Sources, and the edits that are due: what is replaced, and by what.
EDITS = [
    ("a.js", SCRIPT, ["a === 1 -> true", "a === 1 -> false", "=== -> !==", "1 -> 2", "1 -> 0", "+= -> -=", "0x0a -> 0xB",
                      "0x0a -> 0x9", "b += f(0x0a, 'x'); -> ;", "0 -> 1", "< -> <=", "++ -> --", "! -> "]),
    ("a.c", "int f(char *s) { *s = 1; while (*s && s[0] != 'a') s++; return *s; }\n", [
        "*s = 1; -> ;", "1 -> 2", "1 -> 0", "*s && s[0] != 'a' -> 1", "*s && s[0] != 'a' -> 0", "&& -> ||", "0 -> 1", "!= -> ==",
        "++ -> --", "*s -> 0"]),
    ("a.py", "x = [f(a, b, *c) for a in d[e:] if not a is None and 7 % a]\nprint('%d' % x)\n", [
        "x = [f(a, b, *c) for a in d[e:] if not a is None and 7 % a] -> pass", "a, b -> b, a", "e -> e + 1",
        "not a is None and 7 % a -> True", "not -> ", "is -> is not", "and -> or", "7 -> 8", "7 -> 6", "% -> //",
        "print('%d' % x) -> pass"]),
]


def planted(folder, files):
    """A repository of a few files. Without pytest nothing can be judged."""
    if not python_with(["pytest"]):
        left_out("pytest")
    for name, text in {"python/a.txt": "", **files}.items():
        (folder / name).parent.mkdir(parents=True, exist_ok=True)
        (folder / name).write_text(text)
    return str(folder)


def judged(top, folder, group):
    """What becomes of each mutant of a group of files: its name, without the file, and how."""
    copy = mutate.Copy(top, str(folder), "/a program")
    return {it.name.partition(": ")[2]: copy.judge(it, group, 60)[0] for it in mutate.mutants(top, group[0])}


def test_python(tmp_path):
    """Mutants in Python are killed, survive, or leave tests out; the checkout stays as it is."""
    top = planted(tmp_path / "top", {"planted/made.py": PYTHON, "planted/test_made.py": TESTS})
    assert judged(top, tmp_path / "work", (["planted/made.py"], ["pytest planted"])) == JUDGED
    assert (tmp_path / "top/planted/made.py").read_text() == PYTHON


def test_order(tmp_path):
    """The tests that call a function come before the others, and end with the seconds; those that were left out are none."""
    top = planted(tmp_path / "top", {"planted/made.py": PYTHON, "planted/test_made.py": TESTS})
    copy = mutate.Copy(top, str(tmp_path / "work"), "/a program")
    known, path = copy.unchanged("pytest planted", ["planted/made.py"]), copy.at("planted/made.py")
    names = ["planted/test_made.py::test_" + it for it in ("positive", "negative")]
    assert known.tests(path, 8, 60)[0] == names and known.tests(path, 8, 0)[0] == names[:1]


def test_tools(tmp_path):
    """A tool's status judges too; one that fails as it is ends all. A mutant in C is equal if the compiled object is the same."""
    tool("cc")
    top = planted(tmp_path / "top", {"planted/same.c": C, "planted/check.c": CHECK})
    command = "sh -c 'cc planted/*.c -o out/check && out/check'"
    assert judged(top, tmp_path / "work", (["planted/same.c"], [command])) == {
        "int same(int a) { return [a + 0 -> 0]; }": "killed", "int same(int a) { return a [+ -> -] 0; }": "equal",
        "int same(int a) { return a + [0 -> 1]; }": "killed"}
    with pytest.raises(SystemExit, match="^mutate: false fails as it is"):
        judged(top, tmp_path / "other", (["planted/same.c"], ["false"]))
    with pytest.raises(SystemExit, match="^mutate: mkdir made fails without the mutant too"):
        judged(top, tmp_path / "again", (["planted/same.c"], ["mkdir made"]))


@pytest.mark.parametrize("number", range(len(EDITS)))
def test_edits(number):
    """The edits of a source are these, and each mutant has a name of its own."""
    path, text, due = EDITS[number]
    found = list(mutate.mutants_of(path, text.encode()))
    assert sorted("%s -> %s" % (text[it.start:it.end].strip(), it.new.decode()) for it in found) == sorted(due)
    assert len({it.name for it in found}) == len(found)


def test_equal_ones():
    """Each mutant that is listed as equal is one, and has a reason."""
    names = {it.name for groups in mutate.PARTS.values() for patterns, _ in groups for it in mutate.mutants(TOP, patterns)}
    assert mutate.equal_ones() <= names
    with open(os.path.join(TOP, "tools/mutating/equal.txt"), encoding="utf-8") as file:
        lines = file.read().splitlines()
    assert all(line[:1] in " #" or after.startswith("    ") for line, after in zip(lines, lines[1:] + [""]))
