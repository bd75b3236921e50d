"""What the bench prints and runs, worked out by hand; no program is measured."""
import contextlib
import importlib.util
import io
import os
import sys
from importlib.machinery import SourceFileLoader
from types import SimpleNamespace
from unittest import mock

import pytest
from prebuilt import TOP


def module(name):
    """A program of the bench as a module."""
    loader = SourceFileLoader("bench_" + name, os.path.join(TOP, "bench", name))
    made = importlib.util.module_from_spec(importlib.util.spec_from_loader(loader.name, loader))
    with mock.patch.object(sys, "dont_write_bytecode", True):
        loader.exec_module(made)
    return made


RUN, DESK = module("run"), module("desk")
KINDS = ("Instructions", "Processor time", "Memory")


def bench(beside="kept"):
    """A bench in the folder /f that builds nothing."""
    with mock.patch.object(RUN.subprocess, "run", return_value=SimpleNamespace(stdout="-lfreetype -la")) as ran:
        made = RUN.Bench(SimpleNamespace(program="/p", beside=beside, times=2, dropout="near"), "/f")
    assert [(it[0][0], it[1]) for it in ran.call_args_list[1:]] == [
        (["cc", "-O2", "-o", "/f/" + name, os.path.join(TOP, "bench", name + ".c"), *more], {"check": True})
        for name, more in (("measure", ["-static"]), ("yardstick", ["-lfreetype", "-la"]))]
    return made


def test_ours():
    """The words for mkstrike."""
    for mode, more in (("hinted", []), ("unhinted", ["--unhinted"])):
        assert bench().ours(9, "20-7e", mode, "--x") == ["/p", "make", "--ppem", "9", "--chars", "20-7e", "--x", *more]
    assert bench().dropout == "--dropout=near"


@pytest.mark.parametrize("case", [
    ("kept", "hinted", ["/f/yardstick", "9", "20-7e,41", "hinted", "kept"]),
    ("twice", "unhinted", ["/f/yardstick", "9", "20-7e,41", "unhinted", "twice"]),
    ("otf2bdf", "hinted", ["otf2bdf", "-p", "9", "-r", "72", "-l", "32_126 65", "a.ttf"]),
    ("otf2bdf", "unhinted", ["otf2bdf", "-p", "9", "-r", "72", "-l", "32_126 65", "-n", "a.ttf"])])
def test_theirs(case):
    """The words for the other program; otf2bdf has decimal numbers."""
    beside, mode, due = case
    assert bench(beside).theirs(9, "20-7e,41", mode, "a.ttf") == due


@pytest.mark.parametrize("case", [
    ((), "20-7e,41"), (("7E",), "20-7d,41"), (("20",), "21-7e,41"), (("30",), "20-2f,31-7e,41"), (("41",), "20-40,42-7e"),
    (("21", "23"), "20-20,22-22,24-7e,41")])
def test_refused(case):
    """What mkstrike refuses is left out of the list, for both programs."""
    left_out, due = case
    said = "".join("mkstrike: left out U+%s\n" % it for it in left_out) + "mkstrike: glyphs 95 missing 0\n"
    with mock.patch.object(RUN.subprocess, "run", return_value=SimpleNamespace(stderr=said)) as ran:
        chars, count = bench().without_refused(os.devnull, "20-7e,41", 9, "hinted")
    assert count == 95 and ran.call_args[0][0][-2:] == ["--refused", "leave-out"]
    assert ran.call_args[1]["text"] and ran.call_args[1]["check"]
    ends = [(it.split("-") * 2)[:2] for it in chars.split(",")], [(it.split("-") * 2)[:2] for it in due.split(",")]
    assert ends[0] == ends[1]


def test_table():
    """A ratio is mkstrike's by the other's; the least and the greatest are named."""
    def costs(ours, theirs):
        return {"Memory": ours}, {"Memory": theirs}

    rows = {"A": ({("hinted", 8, False): costs(3.0, 12), ("hinted", 16, False): costs(30, 20), ("hinted", 8, True): costs(1, 1)},
                  5370), "B": ({("hinted", 8, False): costs(9.96, 19.92)}, 95)}
    with contextlib.redirect_stdout(io.StringIO()) as out:
        RUN.table(rows, [("hinted", 8), ("hinted", 16)], "A title", "Memory", False)
        RUN.table({}, [("hinted", 8)], "Nothing", "Memory", False)
    assert out.getvalue() == ("**A title**\n\n| Font, glyphs | hinted, 8 | hinted, 16 |\n|---|---|---|\n"
                              "| A, 5,370 | 0.25 (3.0) | 1.50 (30) |\n| B, 95 | 0.50 (10.0) | - |\n"
                              "\nFrom 0.25 (A, hinted, 8) to 1.50 (A, hinted, 16).\n\n"
                              "**Nothing**\n\n| Font, glyphs | hinted, 8 |\n|---|---|\n")


def test_first_line():
    """What a pattern finds in what a command prints, or that it is unknown."""
    words = [sys.executable, "-c", "print('one 2.5'); print('two')"]
    assert RUN.first_line(words) == "one 2.5" and RUN.first_line(words, r"t(w.)") == "wo"
    assert RUN.first_line(words, "x(y)") == RUN.first_line(["/none"]) == "unknown"


def test_about():
    """The line above the tables names the day, the machine, the versions, and the program by its checksum, here that of "abc"."""
    def opened(path, *_, **__):
        return io.StringIO("processor : 0\nmodel name\t: A chip\n") if path == "/proc/cpuinfo" else io.BytesIO(b"abc")

    with mock.patch.object(RUN, "open", opened, create=True), mock.patch.object(
            RUN, "first_line", lambda words, *_: words[-1][-9:]):
        found = RUN.about("/p")
    assert found[4:5] + found[7:8] + found[10:11] + found[13:14] == "-- :" and found[16:] == (
        " UTC, A chip, FreeType freetype6, otf2bdf otf2bdf, valgrind valgrind; mkstrike of sha256 ba7816bf8f01 in a checkout at "
        "--dirty.")


def test_chosen(tmp_path):
    """The fonts of the desk lie as far apart as their names, each name once."""
    for name in ("b/c.ttf", "a/a.ttf", "a/d.ttf", "b/d.ttf", "a/b.ttf", "b/e.otf"):
        (tmp_path / name).parent.mkdir(exist_ok=True)
        (tmp_path / name).write_bytes(b"")
    found = [[os.path.relpath(it, tmp_path) for it in DESK.chosen(str(tmp_path), count)] for count in (2, 4, 9)]
    every = ["a/a.ttf", "a/b.ttf", "a/d.ttf", "b/c.ttf"]
    assert found == [["a/a.ttf", "a/d.ttf"], every, every]


def test_commands():
    """Each font at each size, by one strike and by xargs; on one processor and on three."""
    found = DESK.commands(SimpleNamespace(sizes="9 12", chars="41", jobs=3), ["/a/b.ttf", "/c.ttf"], "/f")
    assert list(found) == ["`strike --jobs 1`", "`mkstrike make` under `xargs -P 1`", "FreeType under `xargs -P 1`",
                           "`strike --jobs 3`", "`mkstrike make` under `xargs -P 3`", "FreeType under `xargs -P 3`"]
    strike, ours, theirs = list(found.values())[3:]
    assert strike == ([sys.executable, "-m", "mkstrike", "--size", "9,12", "--chars", "41", "/a/b.ttf", "/c.ttf", "--jobs", "3"],
                      "")
    lines = "9\n/a/b.ttf\nb-9.bdf\n12\n/a/b.ttf\nb-12.bdf\n9\n/c.ttf\nc-9.bdf\n12\n/c.ttf\nc-12.bdf\n"
    assert ours[1] == theirs[1] == lines
    assert ours[0][:-1] == theirs[0][:-1] == ["xargs", "-d", "\n", "-n", "3", "-P", "3", "sh", "-c"]
    assert ours[0][-1] == 'exec %s make --dropout=font --ppem "$0" --chars 41 "$1" -o "$2"' % os.path.join(TOP, "dist/mkstrike")
    assert theirs[0][-1] == 'exec /f/yardstick "$0" 41 hinted kept < "$1" > "$2"'


def test_cost(tmp_path):
    """What a command costs with what it starts, in an empty folder: its time is there, and the files that it wrote are counted."""
    (tmp_path / "made").mkdir()
    (tmp_path / "made/old").write_text("", encoding="utf-8")
    busy = "import time\nt = time.process_time()\nwhile time.process_time() < t + 0.2: pass"
    words = ["sh", "-c", "cat > b; > c; %s -c '%s'" % (sys.executable, busy)]
    used, elapsed, memory, files = DESK.cost(words, "text", str(tmp_path / "made"))
    assert 0.2 <= used <= elapsed + 1 and elapsed >= 0.2 and 2 < memory < 100 and files == 2
    assert (tmp_path / "made/b").read_text(encoding="utf-8") == "text"


def test_cost_of_bench(tmp_path):
    """What a command costs is read from callgrind's log and from what `measure` prints; a command that fails costs nothing."""
    made, calls = bench(), []
    made.folder = str(tmp_path)
    (tmp_path / "valgrind").write_text("==1== Collected : 2500000\n", encoding="utf-8")

    def ran(words, **how):
        calls.append(words)
        if words[0] == "valgrind":
            how["stderr"].write(b"1 2 3 4 5 6\n7 8 9 10 11 12 13")
        assert words[0] == "valgrind" or how["text"] and how["capture_output"] and how["check"]
        return SimpleNamespace(returncode=status if words[0] == "valgrind" else 0, stdout="0 111 2500 4096 7\n")

    with mock.patch.object(RUN.subprocess, "run", ran), contextlib.redirect_stderr(io.StringIO()) as err:
        for status, words, due in ((0, ["a", "b"], True), (8, ["otf2bdf"], True), (8, ["a"], False), (1, ["otf2bdf"], False)):
            assert made.cost(words, os.devnull) == ({"Instructions": 2.5, "Processor time": 2.5, "Memory": 4.096} if due else None)
    assert calls[0][0] == "valgrind" and calls[0][-2:] == ["a", "b"]
    assert calls[1] == [str(tmp_path / "measure"), "2", os.devnull, "/dev/null", str(tmp_path / "errors"), "a", "b"]
    assert err.getvalue() == "".join("bench: status %d: 1 2 3 4 5 6 7 8 9 10 11 12\n" % it for it in (8, 1))


def test_row():
    """Ours and FreeType's at each size, without drop-out control and with it; what fails is left out."""
    made = bench()
    with mock.patch.object(made, "without_refused", lambda font, chars, ppem, mode: (chars + ",x", 7)), mock.patch.object(
            made, "cost", lambda words, font: None if "12" in words and "--dropout=near" in words else (words[0], font)):
        found, glyphs = made.row("a.ttf", "20", [9, 12], ["hinted"])
    ours, theirs = ("/p", "a.ttf"), ("/f/yardstick", "a.ttf")
    assert glyphs == 7 and found == {("hinted", 9, False): (ours, theirs), ("hinted", 9, True): (ours, theirs),
                                     ("hinted", 12, False): (ours, theirs)}


def printed(made, *words):
    """What a program of the bench returns and prints on both outputs."""
    with contextlib.redirect_stdout(io.StringIO()) as out, contextlib.redirect_stderr(io.StringIO()) as err, mock.patch.object(
            sys, "argv", ["it", *words]):
        return made.main(), out.getvalue(), err.getvalue()


def test_run():
    """The tables of the fonts that are asked for; a font and a program that are missing are named."""
    asked = []

    def row(self, *words):
        asked.append((self.beside, self.dropout, self.times, *words))
        return {(mode, size, more): ({it: 1.0 for it in KINDS}, {it: 4 - 2 * more for it in KINDS})
                for mode in words[3] for size in words[2] for more in (False, True)}, 1234

    with mock.patch.object(RUN.subprocess, "run"), mock.patch.object(RUN.Bench, "row", row), mock.patch.object(
            RUN, "about", lambda program: "of " + program), mock.patch.object(RUN.shutil, "which", lambda it: it != "otf2bdf"):
        with mock.patch.object(RUN, "FONTS", [("A", "/dev/null", "fonts-a", "20"), ("B", "/none", "fonts-b", "21")]):
            status, out, err = printed(RUN, "--program", sys.executable, "--sizes", "8 16", "--modes", "hinted", "--times", "5")
            assert printed(RUN, "--program", sys.executable, "--fonts", "B")[1:][1].startswith("bench: /none is missing")
        other = printed(RUN, "--program", sys.executable, "--font", "/dev/null", "--chars", "41", "--beside", "twice",
                        "--dropout", "near")
        assert printed(RUN, "--program", sys.executable, "--beside", "otf2bdf") == (1, "", "bench: there is no otf2bdf\n")
        assert printed(RUN, "--program", "/none") == (1, "", "bench: there is no /none\n")
    assert asked == [("kept", "--dropout=left", 5, "/dev/null", "20", [8, 16], ["hinted"]),
                     ("twice", "--dropout=near", 3, "/dev/null", "41", [8, 16, 64, 128], ["hinted", "unhinted"])]
    assert (status, err) == (0, "bench: A\nbench: /none is missing (Debian: fonts-b) and left out\n")
    assert out.startswith("of %s\n\n**Instructions, mkstrike to FreeType; in parentheses mkstrike's, in millions**\n\n"
                          "| Font, glyphs | hinted, 8 | hinted, 16 |\n|---|---|---|\n| A, 1,234 | 0.25 (1.0) | 0.25 (1.0) |\n"
                          % sys.executable)
    assert [line for line in out.split("\n") if line.startswith("**")][1:] == [
        "**%s to FreeType; in parentheses mkstrike's, in %s**" % it for it in (
            ("Instructions, mkstrike with `--dropout=left`", "millions"), ("Processor time, mkstrike", "ms"),
            ("Memory, mkstrike", "MB"))]
    assert out.count("0.50 (1.0)") == 2 and "mkstrike with `--dropout=near` to FreeType in two passes" in other[1]


def test_desk(tmp_path):
    """The best of several runs of each command, in turn."""
    (tmp_path / "a.ttf").write_bytes(bytes(2500000))
    seen, number = [], iter(range(1, 100))

    def cost(words, data, folder):
        seen.append((words[0], data.count("\n"), os.path.basename(folder)))
        return 10.0 - next(number), float(len(seen)), 12.0, 2

    with mock.patch.object(DESK.subprocess, "run", return_value=SimpleNamespace(stdout="-lfreetype")) as ran, mock.patch.object(
            DESK, "cost", cost), mock.patch.object(DESK, "ENVIRONMENT", {}) as environment:
        status, out, err = printed(DESK, "--from", str(tmp_path), "--sizes", "9 12", "--jobs", "1", "--times", "2")
    assert (status, err) == (0, "") and seen == [(sys.executable, 0, "made"), ("xargs", 6, "made"), ("xargs", 6, "made")] * 2
    assert out == ("1 fonts, 2 MB, at 9, 12 pixels, characters 20-17f\n\n"
                   "| Command | Processor time, s | Elapsed, s | Largest process, MB | Files |\n|---|---|---|---|---|\n"
                   "| `strike --jobs 1` | 6.0 | 1.0 | 12 | 2 |\n| `mkstrike make` under `xargs -P 1` | 5.0 | 2.0 | 12 | 2 |\n"
                   "| FreeType under `xargs -P 1` | 4.0 | 3.0 | 12 | 2 |\n")
    assert [it[0][0][0] for it in ran.call_args_list] == ["pkg-config", "cc", "sh"]
    assert ran.call_args_list[1][0][0][-1] == "-lfreetype" and all(it[1]["check"] for it in ran.call_args_list)
    assert environment["PYTHONPATH"] == os.path.join(TOP, "python") and set(environment) == {
        "PYTHONPATH", "MKSTRIKE_LIBRARY", "PYTHONPYCACHEPREFIX"}
