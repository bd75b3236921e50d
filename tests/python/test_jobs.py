"""Several processors: what they make, and in which order, is what one makes; what ends the command ends them all."""
import os
import shutil
import signal
import subprocess
import sys
import time

import pytest
from shared import LIBERATION, MONO, SANS, needs_font, run_in_process

from mkstrike import command, jobs, options, spread

pytestmark = needs_font(SANS, MONO, LIBERATION)


def files(folder):
    """The files of a folder: from their names to their bytes."""
    return {it.name: it.read_bytes() for it in folder.iterdir()}


@pytest.fixture(name="at_once")
def others_at_once(monkeypatch):
    """Other processes are started after the first strike."""
    monkeypatch.setattr(spread, "SOON", -1)
    return lambda: monkeypatch.setattr(spread, "SOON", 1e9)


def both(folder, at_once, *words):
    """What three processes make and say, which is what one does: status, both outputs, and the files."""
    found = []
    for name, count in (("three", 3), ("one", 1)):
        (folder / name).mkdir()
        status, out, err = run_in_process([*words, "--jobs", count, "--out", "."], folder / name)
        found.append((status, out, err, files(folder / name)))
        at_once()
    assert found[0] == found[1]
    return found[0]


def test_the_same(tmp_path, at_once):
    """Fonts that are made, one that is none, one that is missing, sizes that are refused, and characters that are missing."""
    (tmp_path / "bad.ttf").write_bytes(b"OTTO" + bytes(100))
    words = [SANS, "../bad.ttf", MONO, "../none.ttf", LIBERATION, "--size", "9,2000,12-15", "--chars", "ascii,19c,4e00",
             "--format", "bdf,c"]
    status, out, err, found = both(tmp_path, at_once, *words)
    assert status == 1 and len(found) == 3 * 5 * 2
    assert [it.split(":")[0] for it in out.decode().split("\n")[:-1]] == [
        "./%s-%d.bdf ./%s-%d.h" % (name, size, name, size) for name in ("DejaVuSans", "DejaVuSansMono", "LiberationMono-Regular")
        for size in (9, 12, 13, 14, 15)]
    assert err.count("1 missing: U+4E00") == 2 and err.count("2 missing: U+019C, U+4E00") == 1 and err.count("none.ttf: ") == 1
    assert err.count("bad.ttf at ") == 6 and err.count("at 2000 pixels: 60 BadSize") == 4


def test_of_one_name(tmp_path, at_once):
    """Fonts of one name in two folders: the strikes of the second would replace those of the first."""
    for name, font in (("a", SANS), ("b", MONO)):
        (tmp_path / name).mkdir()
        os.symlink(font, tmp_path / name / "it.ttf")
    status, out, err, found = both(tmp_path, at_once, "../a/it.ttf", "../b/it.ttf", "--size", "9-12", "--chars", "41")
    assert status == 1 and len(found) == out.count(b"glyphs") == err.count("would be replaced by a second strike") == 4
    assert b"\nSTARTCHAR" in found["it-9.bdf"]


def test_joined(tmp_path, at_once):
    """One strike of two fonts at several sizes."""
    status, out, _, found = both(tmp_path, at_once, "--size", "9-12", "--chars", "ascii,2603", "--font", LIBERATION, "--font", SANS)
    assert status == 0 and len(found) == 4 and out.count(b"  DejaVuSans: 1\n") == 4


def test_number(tmp_path):
    """--jobs is 1 or more, all processors by default, and one if a font can be read but once."""
    def count(*words):
        return jobs.Job(options.parser().parse_intermixed_args(words)).jobs

    assert count(SANS) == len(os.sched_getaffinity(0)) and count(SANS, "--jobs", "3") == 3
    os.mkfifo(tmp_path / "pipe")
    assert count("-", "--jobs", "3") == count(SANS, str(tmp_path / "pipe")) == 1
    status, _, err = run_in_process([SANS, "--jobs", "0"], tmp_path)
    assert status == 2 and err.endswith("--jobs is 1 or more\n")


def test_little_work(tmp_path):
    """What takes no time starts no process."""
    code = "import sys; from mkstrike.command import main; main(%r); print(*sys.modules, file=sys.stderr)"
    words = [MONO, "--size", "9,12", "--chars", "41", "--quiet"]
    ran = subprocess.run([sys.executable, "-c", code % (words,)], cwd=tmp_path, capture_output=True, text=True, check=True)
    assert not {"multiprocessing", "concurrent", "threading"} & set(ran.stderr.split()) and len(files(tmp_path)) == 2


def test_pieces():
    """The pieces have all tasks in order, those of one font at most, and are small at the end."""
    tasks = [(group, at) for group in range(9) for at in range(6)]
    found = list(spread._pieces(tasks, 2))
    assert [it for piece in found for it in piece] == tasks
    assert all(len({group for group, _ in piece}) == 1 for piece in found)
    assert [len(it) for it in found[:4]] == [6, 6, 5, 1] and [len(it) for it in found[-6:]] == [1] * 6


def test_few_in_memory():
    """Only so many pieces are made before the first is asked for."""
    class Pool:
        begun, ended = 0, 0

        def submit(self, call, tasks):
            self.begun += 1
            assert self.begun - self.ended <= 4
            self.tasks = tasks
            return self

        def result(self):
            self.ended += 1
            return [self.ended]

    assert list(spread._ahead(Pool(), [[0]] * 9, 3)) == list(range(1, 10))


def test_a_process_that_is_ended(at_once):
    """A process that makes strikes and is killed is an error with a way out."""
    def make(task):
        if task[0]:
            os.kill(os.getpid(), signal.SIGKILL)

    with pytest.raises(ChildProcessError, match="try --jobs 1"):
        list(spread.results([(0, 0), (1, 0), (2, 0)], make, lambda made: lambda: None, 2))


def children(process):
    """The processes that another one started."""
    with open("/proc/%d/task/%d/children" % (process.pid, process.pid), encoding="ascii") as file:
        return [int(it) for it in file.read().split()]


@pytest.mark.parametrize("number, status", [(signal.SIGINT, 130), (signal.SIGKILL, -signal.SIGKILL)])
def test_interrupt(tmp_path, number, status):
    """An interrupt ends all processes and leaves no part of a file; they also end with a command that is killed."""
    words = [sys.executable, "-m", "mkstrike", SANS, MONO, "--size", "8-200", "--chars", "all", "--jobs", "3"]
    with subprocess.Popen(words, cwd=tmp_path, stdout=subprocess.PIPE, stderr=subprocess.PIPE, text=True) as process:
        process.stdout.readline()
        until = time.monotonic() + 200
        while len(children(process)) < 3 and time.monotonic() < until:
            time.sleep(0.01)
        others = children(process)
        os.kill(process.pid, number)
        out, err = process.communicate(timeout=200)
    assert len(others) == 3 and process.returncode == status, err
    while any(map(is_alive, others)) and time.monotonic() < until:
        time.sleep(0.01)
    assert not any(map(is_alive, others))
    if number == signal.SIGINT:
        assert err.endswith("\nstrike: interrupted\n") and "-200.bdf" not in out
        assert all(it.endswith(b"ENDFONT\n") for it in files(tmp_path).values())


def is_alive(process):
    """Whether a process is there and has not ended."""
    try:
        with open("/proc/%d/stat" % process, encoding="ascii") as file:
            return file.read().rpartition(")")[2].split()[0] != "Z"
    except FileNotFoundError:
        return False


def test_bar(monkeypatch, capsys):
    """A bar comes after a second, on a terminal alone: how many fonts are done, or sizes of one, and how many are refused."""
    monkeypatch.setattr(sys.stderr, "isatty", lambda: True, raising=False)
    bar = command.Bar([2, 1, 3], False)
    bar.count("one-8", True)
    assert capsys.readouterr().err == ""
    bar.start -= 2
    bar.count("one-9", True)
    assert capsys.readouterr().err == "\r[##########....................] 1 of 3 fonts: one-9"
    bar.count("two-8", False)
    assert capsys.readouterr().err == "\r[###############...............] 2 of 3 fonts, 1 refused: two-8"
    width = len("[###############...............] 2 of 3 fonts, 1 refused: two-8")
    bar.count("3", True)
    assert capsys.readouterr().err == "\r" + "[####################..........] 2 of 3 fonts, 1 refused: 3".ljust(width)
    bar.clear()
    assert capsys.readouterr().err == "\r" + " " * (width - 4) + "\r"
    one = command.Bar([4], False)
    one.start -= 2
    one.count("one-8", True)
    assert capsys.readouterr().err == "\r[#######.......................] 1 of 4 sizes: one-8"
    quiet = command.Bar([4], True)
    quiet.start -= 2
    quiet.count("one", True)
    monkeypatch.setattr(sys.stderr, "isatty", lambda: False, raising=False)
    piped = command.Bar([4], False)
    piped.start -= 2
    piped.count("one", True)
    assert capsys.readouterr().err == ""


def test_depfile(tmp_path):
    """--depfile writes a rule that Make reads: all files that are written depend on all that are read, whatever their names are."""
    os.symlink(SANS, tmp_path / "a font$#:1.ttf")
    (tmp_path / "text.txt").write_text("abc", encoding="utf-8")
    words = ["a font$#:1.ttf", "--text", "text.txt", "--size", "9,12", "--format", "bdf,c"]
    status, _, err = run_in_process([*words, "--depfile", "it.d"], tmp_path)
    assert (status, err) == (0, "")
    made = ["a font$#:1-%d.%s" % (size, form) for size in (9, 12) for form in ("bdf", "h")]
    assert (tmp_path / "it.d").read_text(encoding="utf-8") == "%s: %s\n" % tuple(
        " ".join(it.replace("$", "$$").replace("#", "\\#").replace(":", "\\:").replace(" ", "\\ ") for it in names)
        for names in (["./" + it for it in made], ["a font$#:1.ttf", "text.txt"]))
    assert set(made) < set(files(tmp_path))


@pytest.mark.parametrize("words, status, said", [
    (["-o", "-", "--depfile", "it.d"], 2, "--depfile is for files, not for standard output: give -o FILE or --out FOLDER"),
    (["--preview", "A", "--depfile", "it.d"], 2, "--depfile is for files and --preview with -o"),
    (["--depfile", "text.txt"], 1, "strike: text.txt: text.txt is read here, and would be replaced"),
    (["--depfile", "none/it.d"], 1, "strike: none/it.d: there is no folder for it"),
    (["--depfile", "./DejaVuSansMono-16.bdf"], 1, "would be replaced by a second strike"),
    (["none.ttf", "--depfile", "it.d"], 1, "none.ttf")])
def test_no_depfile(tmp_path, words, status, said):
    """No rule if something fails, and none over a file that is read or written."""
    (tmp_path / "text.txt").write_text("A", encoding="utf-8")
    found, _, err = run_in_process([MONO, *([] if "--preview" in words else ["--text", "text.txt"]), *words], tmp_path)
    assert found == status and said in err, err
    assert "it.d" not in files(tmp_path) and (tmp_path / "text.txt").read_text(encoding="utf-8") == "A"


@pytest.mark.skipif(not shutil.which("make"), reason="make is not installed (Debian: make)")
def test_make(tmp_path):
    """A target is made again if its text changes, and only then."""
    (tmp_path / "text.txt").write_text("A", encoding="utf-8")
    (tmp_path / "Makefile").write_text("it.h:\n\t%s -m mkstrike %s --text text.txt -o it.h --depfile it.d\n-include it.d\n" %
                                       (sys.executable, MONO), encoding="utf-8")
    for text, count in (("A", 1), (None, 0), ("AB", 2)):
        if text:
            (tmp_path / "text.txt").write_text(text, encoding="utf-8")
            os.utime(tmp_path / "text.txt", (time.time() + count, time.time() + count))
        out = subprocess.run(["make"], cwd=tmp_path, capture_output=True, text=True, check=True).stdout
        assert out.count("%d glyphs" % count) == (count > 0), out
