"""tools/run_checks tells of made checks as they end, and leaves nothing behind; and the stand-in for pytest does what pytest
does."""
import collections
import contextlib
import glob
import importlib.util
import io
import os
import re
import shlex
import signal
import subprocess
import sys
import tempfile
import time
from importlib.machinery import SourceFileLoader

import pytest
from prebuilt import TOP

TOOL = os.path.join(TOP, "tools/run_checks")
run_checks = importlib.util.module_from_spec(importlib.util.spec_from_loader("run_checks", SourceFileLoader("run_checks", TOOL)))
run_checks.__spec__.loader.exec_module(run_checks)


def told(commands):
    """What is told of made commands, and the status."""
    checks, said = [run_checks.Check(it, "/a program", False) for it in commands], io.StringIO()
    with contextlib.redirect_stdout(said):
        run_checks.run(checks, 2)
        status = run_checks.count(checks, 0)
    return said.getvalue(), status


# Made checks, and what is told of each: one passes, one leaves out a part, one all, some fail, one is killed.
MADE = [("test PROGRAM = '/a program'", "passed    test"), ("echo made: left out: a filter", "left out: a filter"),
        ("sh -c 'echo made: left out: no node; exit 3'", "left out: no node"),
        ("sh -c 'echo why it failed; exit 1'", "  why it failed"),
        ("sh -c 'kill -9 $$'", "status -9: sh -c"), ("/no/tool", "status 127: /no/tool")]
# What a check of pytest prints, its status, and what is told of it.
PRINTED = [
    (["SKIPPED [20] a.py:1: no cc (Debian: gcc)", "SKIPPED [8] b.py:2: no cc (Debian: gcc)", "2 passed, 28 skipped in 0.5s"], 0,
     ["passed   ", "  2 of 30 ", "28 left out: no cc (Debian: gcc)"]),
    (["SKIPPED [1] a.py:1: no go (Debian: golang-go)", "1 skipped in 2s"], 0,
     ["left out ", "  0 of 1 ", "1 left out: no go (Debian: golang-go)"]),
    (["E   UserWarning: bdf2psf: left out: they leave the cell", "made: left out: x", "1 failed, 4 passed, 1 error in 2s"], 1,
     ["FAILED ", "  4 of 6 "]),
    (["7 passed, 3 deselected in 0.1s"], 0, ["passed   ", "  7 of 7 "]), (["7 passed in 0.1s"], 1, ["FAILED ", "  7 of 8 "]),
    (["no tests ran in 0.1s"], 5, ["FAILED ", "  0 of 1 "]), (["7 passed", "killed"], -9, ["FAILED ", "  0 of 1 "])]


def test_told():
    """Each is told, and counted."""
    text, status = told([it for it, _ in MADE])
    missing = [word for _, word in MADE + [("", "2 tests passed, 3 failed ("), ("", ", 1 left out (all of sh -c")]
               if word not in text]
    assert not missing and status == 1, text


def test_not_told():
    """What only looks as if something was left out is not told."""
    text, _ = told(["printf 'left %s U+0041: 33\\nx: 3 left %s, y\\n a: left %s: z\\n' out out out"])
    assert text.count("left out") == 1 and "0 left out, in" in text


@pytest.mark.parametrize("printed", PRINTED)
def test_counts_of_pytest(printed):
    """The tests of a check of pytest are counted. What a failed one prints is no reason for what was left out."""
    (lines, status, due), said = printed, io.StringIO()
    check = run_checks.Check("pytest tests/made", None, False)
    check.process = subprocess.Popen(["true"])
    check.process.wait()
    check.said.write("\n".join(lines) + "\n")
    with contextlib.redirect_stdout(said):
        check.end(status, 0.0, None)
    first, *more = said.getvalue().split("\n")
    assert all(it in first for it in due[:2]) and ["          " + it
                                                   for it in due[2:]] == [it for it in more if re.match(r" +(\d+ )?left out", it)]


def test_status():
    """The status is 0 if all pass, and 1 if all is left out."""
    assert told(["true"])[1] == 0 and told(["sh -c 'exit 3'"])[1] == 1


def test_side_by_side():
    """A check that waits until the next one is reaped, and so told, is told after it."""
    with tempfile.TemporaryDirectory() as folder:
        made = shlex.quote(os.path.join(folder, "made"))
        waits = "until [ -e %s ] && [ ! -e /proc/$(cat %s) ]; do sleep 0.05; done" % (made, made)
        makes = "sleep 0.1; echo $$ > %s.new; mv %s.new %s" % (made, made, made)
        text, status = told([shlex.join(["timeout", "20", "sh", "-c", waits]), shlex.join(["sh", "-c", makes])])
    assert status == 0 and text.index("sleep 0.1") < text.index("until")


def test_one_after_the_other(tmp_path):
    """With one job a check begins when the one before it has ended."""
    made = shlex.join(["sh", "-c", "echo a >> made; sleep 0.2; echo b >> made"]).replace("made", str(tmp_path / "made"))
    with contextlib.redirect_stdout(io.StringIO()):
        run_checks.run([run_checks.Check(made, None, False) for _ in range(2)], 1)
    assert (tmp_path / "made").read_text().split() == ["a", "b", "a", "b"]


def test_log(tmp_path):
    """The log has the begin and the end of each check, what it took of processors, how it ended, and its name."""
    start, said = time.monotonic(), io.StringIO()
    made = ["sleep 0.3", "sh -c 'i=0; while [ $i -lt 99999 ]; do i=$((i+1)); done; echo x; exit 3'"]
    with contextlib.redirect_stdout(said):
        run_checks.run([run_checks.Check(it, None, False) for it in made], 1, str(tmp_path / "log"))
    now, rows = time.monotonic(), [it.split(" ", 5) for it in (tmp_path / "log").read_text().splitlines()]
    assert [(it[3:]) for it in rows] == [["check", "passed", "sleep 0.3"], ["check", "left-out", made[1]]]
    (begun, ended, little), (next_begun, last, much) = (map(float, it[:3]) for it in rows)
    assert start - 0.1 < begun and begun + 0.2 < ended and ended - 0.1 < next_begun < last < now + 0.1
    assert little < 0.2 and 0 < much < now - start + 0.2
    told = [re.fullmatch(r"(.{8})  (.{40,}?) +(\d of \d) +([\d.]+) s, +([\d.]+) s of processors", it)
            for it in said.getvalue().splitlines()]
    assert [it.group(1, 3) for it in told] == [("passed  ", "1 of 1"), ("left out", "0 of 1")]
    assert abs(float(told[0].group(4)) - (ended - begun)) < 0.21 and float(told[1].group(5)) == much


def test_cut():
    """Of more than sixty lines the first forty and the last twenty are shown."""
    lines = [str(k) for k in range(62)]
    assert run_checks.cut(lines[:60]) == lines[:60]
    assert run_checks.cut(lines[:61]) == lines[:40] + [".. 1 more lines .."] + lines[41:61]
    assert run_checks.cut(lines) == lines[:40] + [".. 2 more lines .."] + lines[42:]


def test_last_line():
    """The last line counts, names what failed and what was left out whole, and has the seconds."""
    Made = collections.namedtuple("Made", "name result counts")
    checks = [Made("a", run_checks.PASSED, (5, 0, 2)), Made("b", run_checks.FAILED, (1, 2, 0)),
              Made("c", run_checks.LEFT_OUT, (0, 0, 4)), Made("d", run_checks.FAILED, (0, 1, 0))]
    for some, seconds, due in (
            (checks, 7.4, (1, "6 tests passed, 3 failed (b, d), 6 left out (all of c), in 7 s")),
            (checks[:1], 7.6, (0, "5 tests passed, 0 failed, 2 left out, in 8 s")),
            (checks[2:3], 0, (1, "0 tests passed, 0 failed, 4 left out (all of c), in 0 s"))):
        with contextlib.redirect_stdout(io.StringIO()) as said:
            assert (run_checks.count(some, seconds), said.getvalue()) == (due[0], "run_checks: %s\n" % due[1])


def test_names():
    """A check is named by its command without what is the same each time; it gets the program, and --stale if it is said."""
    rows = [("tools/damage --count 9 --program PROGRAM --jobs 1", "tools/damage", "tools/damage --count 9 --program /it --jobs 1"),
            ("suite/run --every --with x", "suite/run --every", "suite/run --every --with x"),
            ("tools/check_dist --sources STALE", "tools/check_dist --sources", "tools/check_dist --sources --stale")]
    for command, name, words in rows:
        it = run_checks.Check(command, "/it", True)
        assert (it.name, it.words, it.environment["MKSTRIKE_PROGRAM"]) == (name, words.split(), "/it")
    assert run_checks.Check(rows[2][0], "/it", False).words == ["tools/check_dist", "--sources"]
    it = run_checks.Check("pytest tests/a --ignore=tests/a/b -k 'not c'", None, False)
    of_pytest = [*run_checks.pytest()[0], *run_checks.HOW]
    assert it.name == "tests/a" and it.words == of_pytest + ["tests/a", "--ignore=tests/a/b", "-k", "not c"]


def asked_of(monkeypatch, *words, ignored=()):
    """What main() asks for by these words: the programs and checks to run, how, and the signals that it takes."""
    asked, taken = [], []
    monkeypatch.setattr(run_checks, "CHECKS", {"sources": ["a"], "program": ["b PROGRAM", "c STALE"], "built": ["d"]})
    monkeypatch.setattr(run_checks, "find_program", lambda it: asked.append(it) or "/found")
    monkeypatch.setattr(run_checks, "run", lambda checks, *how: asked.append([it.words for it in checks]) or asked.extend(how))
    monkeypatch.setattr(run_checks, "count", lambda checks, seconds: (len(checks), seconds < 9))
    monkeypatch.setattr(signal, "signal", lambda number, does: taken.append(number) if does == run_checks.stop else taken.append(0))
    monkeypatch.setattr(signal, "getsignal", lambda it: signal.SIG_IGN if it in ignored else signal.SIG_DFL)
    monkeypatch.setattr(sys, "argv", ["run_checks", *words])
    return run_checks.main(), asked, taken


def test_words(monkeypatch):
    """The groups that are named, or that of the program; the program is looked for unless only sources are checked."""
    jobs, endings = len(os.sched_getaffinity(0)), [signal.SIGINT, signal.SIGTERM, signal.SIGHUP]
    assert asked_of(monkeypatch) == ((2, True), [None, [["b", "/found"], ["c"]], jobs, None], endings)
    assert asked_of(monkeypatch, "sources") == ((1, True), [[["a"]], jobs, None], endings)
    words = ["--program", "/it", "--jobs", "3", "--stale", "--log", "/log", "sources", "program", "built"]
    due = (4, True), ["/it", [["a"], ["b", "/found"], ["c", "--stale"], ["d"]], 3, "/log"], endings[:1]
    assert asked_of(monkeypatch, *words, ignored=endings) == due
    for number in ("0", "-1", "1"):
        assert asked_of(monkeypatch, "--jobs", number, "sources")[1] == [[["a"]], 1, None]
    with contextlib.redirect_stdout(io.StringIO()) as said:
        assert asked_of(monkeypatch, "--list")[:2] == (None, [])
    assert said.getvalue() == "sources: a\nprogram: b PROGRAM\nprogram: c STALE\nbuilt: d\n"
    with contextlib.redirect_stderr(io.StringIO()) as said, pytest.raises(SystemExit) as ended:
        asked_of(monkeypatch, "sources", "none")
    assert ended.value.code == 2 and said.getvalue().endswith("none is no group: sources, program, built\n")


def test_signals(monkeypatch):
    """Signals are held back and let through; the first ends this process with its number, and the others do nothing."""
    run_checks.hold()
    held = signal.pthread_sigmask(signal.SIG_BLOCK, [])
    run_checks.let_through()
    assert held >= set(run_checks.ENDINGS) and not signal.pthread_sigmask(signal.SIG_BLOCK, []) & set(run_checks.ENDINGS)
    taken = {}
    monkeypatch.setattr(signal, "signal", taken.__setitem__)
    with pytest.raises(SystemExit) as ended:
        run_checks.stop(signal.SIGHUP, None)
    assert ended.value.code == 129 and {it: does(it, None) for it, does in taken.items()} == dict.fromkeys(run_checks.ENDINGS)


def heard():
    """An interrupt is not ignored, as it is in the background of a script."""
    signal.signal(signal.SIGINT, signal.SIG_DFL)


def test_patience(monkeypatch):
    """A check that goes on after an interrupt is waited for so long, and one that ends is not."""
    for patience, way, least, most in ((0.4, "trap '' INT; echo; sleep 9", 0.3, 5),
                                       (8, "trap 'exit 1' INT; echo; while :; do sleep 0.1; done", 0, 5)):
        monkeypatch.setattr(run_checks, "PATIENCE", patience)
        how = {"stdout": subprocess.PIPE, "start_new_session": True, "preexec_fn": heard}
        with subprocess.Popen(["sh", "-c", way], **how) as process:
            process.stdout.readline()
            start = time.monotonic()
            run_checks.interrupt([process])
            assert least <= time.monotonic() - start < most
            if process.poll() is None:
                os.killpg(process.pid, signal.SIGKILL)


def test_interrupt():
    """An interrupt lets a check clean up, and ends what it started in a session of its own."""
    with tempfile.TemporaryDirectory() as folder:
        begun = os.path.join(folder, "begun")
        child = os.fork()
        if not child:
            made = "trap 'rm %s; exit 1' INT; setsid sleep 1000 & echo $! > %s.new; mv %s.new %s; wait"
            for it in (signal.SIGTERM, signal.SIGINT):  # which a script's background ignores
                signal.signal(it, run_checks.stop)
            try:
                run_checks.run([run_checks.Check(shlex.join(["sh", "-c", made.replace("%s", shlex.quote(begun))]), None, False)], 1)
            except SystemExit as ended:
                os._exit(ended.code)
        while not os.path.exists(begun):
            time.sleep(0.02)
        with open(begun, encoding="ascii") as file:
            started = file.read().strip()
        os.kill(child, signal.SIGTERM)
        status = os.waitstatus_to_exitcode(os.waitpid(child, 0)[1])
        assert status == 128 + signal.SIGTERM and not os.path.exists(begun) and not os.path.exists("/proc/" + started)


STAND_IN = os.path.join(TOP, "tests/lib/without_pytest")
MADE_TESTS = '''
import pytest

@pytest.fixture(name="two", scope="module")
def two_of():
    return 2

@pytest.mark.parametrize("number", [1, 2, 3])
def test_number(number, two, tmp_path):
    assert number == two and tmp_path.is_dir()

def test_left_out():
    pytest.skip("no go")

def test_failed():
    pytest.fail("why", pytrace=False)

@pytest.mark.parametrize("raised", ["7 wrong", "17 wrong", None])
def test_raised(raised):
    with pytest.raises(ValueError, match="^7 "):
        if raised:
            raise ValueError(raised)
'''


@pytest.mark.parametrize("words", [[], ["-k", "number and not 1"], ["-k", "2"], ["-k", "out"], ["-k", "nothing"]],
                         ids=["all", "not", "two", "out", "nothing"])
def test_stand_in(words, tmp_path):
    """The stand-in counts made tests as pytest does, with the same status."""
    (tmp_path / "test_made.py").write_text(MADE_TESTS)
    answers = []
    for words_of_it, more in (run_checks.pytest(), ([sys.executable, "-m", "pytest"], {"PYTHONPATH": STAND_IN})):
        ran = subprocess.run([*words_of_it, *run_checks.HOW, str(tmp_path), *words], env={**os.environ, **more}, cwd=tmp_path,
                             capture_output=True, text=True)
        found = dict(map(reversed, re.findall(r"(\d+) (passed|failed|skipped)", ran.stdout.split("\n")[-2])))
        answers.append((ran.returncode, found, "no go" in ran.stdout))
    assert answers[0] == answers[1]


def test_stand_in_is_enough():
    """The tests that the stand-in may run name nothing of pytest that it lacks. tests/python needs pytest itself."""
    named = set()
    for path in glob.glob(os.path.join(TOP, "tests/**/*.py"), recursive=True):
        if not path.startswith((os.path.join(TOP, "tests/python/"), STAND_IN)):
            with open(path, encoding="utf-8") as file:
                named |= set(re.findall(r"(?:^| |@|\()pytest\.((?:mark\.)?\w+)\(", file.read(), re.M))
    with open(os.path.join(STAND_IN, "pytest.py"), encoding="utf-8") as file:
        had = set(re.findall(r"^(?:    )?def (\w+)", file.read(), re.M))
    assert named and not {it for it in named if it.removeprefix("mark.") not in had}
