"""The gate's script, the Makefile, the commands of tools/run_checks and tools/check_dist, each tried on something wrong.

The script runs in a folder of its own with a false `rt` and false tools, which note how they were called."""
import contextlib
import glob
import importlib.util
import io
import os
import re
import shlex
import shutil
import signal
import subprocess
import sys
import time
from importlib.machinery import SourceFileLoader
from unittest import mock

import prebuilt
import pytest
import web_page
from needs import tool
from prebuilt import TOP
from test_run_checks import run_checks

BUILT = "crates/mkstrike/out/mkstrike"
# A false tool: it notes its name and words, and does what WAY says for these.
FALSE = """#!/bin/sh
echo "${0##*/} $*" >> "$NOTES"
case "${0##*/} $*" in
WAYS
esac
"""

# `rt` says two lines, and goes on when the gate has kept them.
RT = 'echo one; echo two; until grep -qs two "$TMPDIR"/*/said; do sleep 0.01; done'


def gate_in(folder, ways, without=""):
    """The gate's script in a folder with false tools, and its environment.

    `ways` says what a call does, by a pattern of its name and words; a file `without` cannot be run."""
    ways = {"gate_time lanes": "echo 2", **ways, "rt ci": "%s; %s" % (RT, ways.get("rt ci", "exit 0"))}
    cases = ["%s) %s ;;\n" % (pattern.replace(" ", "\\ "), way) for pattern, way in ways.items()]
    text = FALSE.replace("WAYS\n", "".join(cases))
    for name in ("tools/run_checks", "tools/check_dist", "tools/gate_time", "bin/rt", "dist/mkstrike"):
        path = folder / name
        path.parent.mkdir(exist_ok=True)
        path.write_text(text)
        path.chmod(0o755 if name != without else 0o644)
    (folder / ".ci").mkdir(exist_ok=True)
    shutil.copy(os.path.join(TOP, ".ci/run"), folder / ".ci")
    env = {**os.environ, "PATH": "%s:/usr/bin:/bin" % (folder / "bin"), "NOTES": str(folder / "notes"),
           "TMPDIR": str(folder / "kept")}
    env.pop("RT_JOBS", None)  # the gate that runs this test has it
    (folder / "kept").mkdir(exist_ok=True)
    return [str(folder / ".ci/run")], env


def as_from_a_terminal():
    """No signal is ignored, as under nohup, or held back."""
    for it in run_checks.ENDINGS:
        signal.signal(it, signal.SIG_DFL)
    run_checks.let_through()


def gate(folder, ways, *words, without=""):
    """The status of the gate, the last lines of what it says, and the calls of the tools, in their order and without the log.

    That of `gate_time watch` is left out: the end of the gate may come before it notes anything."""
    command, env = gate_in(folder, ways, without)
    ran = subprocess.run(command + list(words), env=env, stdin=subprocess.DEVNULL, capture_output=True, text=True, timeout=60,
                         preexec_fn=as_from_a_terminal, check=False)
    notes = (folder / "notes").read_text() if (folder / "notes").exists() else ""
    calls = re.sub(r" (--log )?/\S+/log", "", notes).splitlines()
    return ran.returncode, ran.stdout.splitlines()[-2:], [it for it in calls if it != "gate_time watch"]


# All that the gate calls, sorted, if dist/ is of these sources.
CALLS = ["check_dist --sources", "gate_time lanes", "gate_time table", "rt ci", "run_checks --program %s built" % BUILT,
         "run_checks --program dist/mkstrike program long", "run_checks sources"]


def test_gate_that_passes(tmp_path):
    """All passes: each group is called once, and the last lines are those of `rt ci`."""
    status, last, calls = gate(tmp_path, {})
    assert (status, last, sorted(calls)) == (0, ["one", "two"], CALLS)


@pytest.mark.parametrize("call", ["rt ci", "run_checks *sources", "run_checks *program long", "run_checks *built",
                                  "gate_time table*"])
def test_gate_that_fails(call, tmp_path):
    """One call fails, or is killed: the status is 1, and all others are made."""
    for number, way in enumerate(("exit 1", "kill -9 $$", "kill -15 $$", "exit 77")):
        folder = tmp_path / str(number)
        folder.mkdir()
        status, _, calls = gate(folder, {call: way})
        assert (way, status, sorted(calls)) == (way, 1, CALLS)


def test_gate_without_kit(tmp_path):
    """Without `rt` the status is 1."""
    assert gate(tmp_path, {}, without="bin/rt")[0] == 1


OTHER = {"check_dist *": "exit 1"}


@pytest.mark.parametrize("case", [(OTHER, "", 0), ({}, "dist/mkstrike", 0), ({**OTHER, "run_checks *long": "exit 1"}, "", 1)])
def test_gate_of_other_sources(case, tmp_path):
    """If dist/ is of other sources, or not there, the checks come after `rt ci`, on the program that was built."""
    ways, without, due = case
    status, _, calls = gate(tmp_path, ways, without=without)
    after = ["run_checks --program %s %s" % (BUILT, groups) for groups in ("program long", "built")]
    assert (status, [it for it in calls if it == "rt ci" or "--program" in it]) == (due, ["rt ci", *after])


def test_words_of_the_gate(tmp_path):
    """--stale goes on to each group, and other words are refused."""
    status, _, calls = gate(tmp_path, {}, "--stale")
    assert status == 0 and sorted(calls) == sorted(it.replace("run_checks", "run_checks --stale") for it in CALLS)
    other = tmp_path / "other"
    other.mkdir()
    assert gate(other, {}, "--fast") == (2, [], []) and gate(other, {}, "--stale", "x") == (2, [], [])


@pytest.mark.parametrize("ended", [(signal.SIGTERM, 143), (signal.SIGINT, 130), (signal.SIGHUP, 143)])
def test_end_of_the_gate(ended, tmp_path):
    """A signal ends the gate and what it started."""
    number, due = ended
    command, env = gate_in(tmp_path, {"run_checks*sources": "echo $$ > \"$NOTES.pid\"; exec sleep 100"})
    path = tmp_path / "notes.pid"
    quiet = {"stdout": subprocess.DEVNULL, "stderr": subprocess.DEVNULL}
    with subprocess.Popen(command, env=env, preexec_fn=as_from_a_terminal, **quiet) as process:
        while not path.exists() or not path.read_text():
            time.sleep(0.02)
        process.send_signal(number)
        assert process.wait(30) == due
    assert not os.path.exists("/proc/" + path.read_text().strip())
    assert not os.listdir(env["TMPDIR"])


# ---- the Makefile

TARGETS = {
    "test": ["tools/run_checks --stale sources program"], "test-long": ["tools/run_checks long"], "gate": [".ci/run"],
    "dist": ["tools/make_dist"], "packages": ["packaging/build"], "planted": ["tools/try_planted"],
    "mutants": ["tools/mutate --sample 300 python suite reference judges c examples bench web"],
    "all": ["cd crates/mkstrike && rt all check --jobs $(../../tools/gate_time lanes)",
            "cd crates/mkstrike && rt run <stdin >/dev/null"],
}


# without what `make test` hands on to a make that it starts
OWN = {name: it for name, it in os.environ.items() if not name.startswith(("MAKE", "MFLAGS"))}


def test_targets():
    """Each target runs these commands, and ends with their status."""
    tool("make")
    with open(os.path.join(TOP, "Makefile"), encoding="utf-8") as file:
        assert set(re.findall(r"^(\S+):", file.read(), re.M)) - {".PHONY"} == set(TARGETS)
    for name, due in TARGETS.items():
        done = subprocess.run(["make", "-n", name], cwd=TOP, env=OWN, capture_output=True, text=True, check=True)
        assert done.stdout.splitlines() == due
    without_kit = {**os.environ, "PATH": "/usr/bin:/bin"}
    assert subprocess.run(["make", "all"], cwd=TOP, env=without_kit, capture_output=True, check=False).returncode == 2


# ---- the commands of run_checks

# The commands that are no tests of pytest, word by word.
TOOLS = {
    "sources": ["tools/check_dist --sources STALE", "tools/third_party --check"],
    "program": ["suite/run --every --with suite/adapters/mkstrike --show 20 --jobs 1", "suite/make --check --reference",
                "suite/wrong_readings.py --cover", "suite/check_runner"],
    "long": ["tools/fuzz_c --seconds 40", "tools/damage --count 10000 --program PROGRAM --jobs 1",
             "tools/mutate suite bench --sample 20 --most 20 --at-least 60"],
    "built": ["tools/check_dist --program PROGRAM STALE"],
}


def test_commands_of_tools():
    """The gate calls each tool with these words: one more, as `--only`, would make it look at less."""
    found = {group: [it for it in commands if not it.startswith("pytest ")] for group, commands in run_checks.CHECKS.items()}
    assert found == TOOLS


def test_commands_of_pytest():
    """Each file of tests is in a command of the gate, whole: what one command leaves out another one takes."""
    found, parts = set(), {}
    for words in (shlex.split(it)[1:] for commands in run_checks.CHECKS.values() for it in commands if it.startswith("pytest ")):
        path, *more = words
        files = {path} if path.endswith(".py") else set(map(os.path.relpath, glob.glob(os.path.join(path, "test_*.py"))))
        ignored = {it.partition("=")[2] for it in more if it.startswith("--ignore=")}
        rest = [it for it in more if not it.startswith("--ignore=")]
        assert ignored <= files and rest in ([], ["-k", "planted"], ["-k", "not planted"]), words
        for file in files - ignored:
            parts.setdefault(file, []).append(" ".join(rest[1:]))
        found |= files
    assert found == set(glob.glob("tests/*/test_*.py")) == set(parts)
    assert {tuple(sorted(it)) for it in parts.values()} == {("",), ("not planted", "planted")}, parts


# ---- tools/check_dist

LOADER = SourceFileLoader("check_dist", os.path.join(TOP, "tools/check_dist"))
check_dist = importlib.util.module_from_spec(importlib.util.spec_from_loader("check_dist", LOADER))
check_dist.__spec__.loader.exec_module(check_dist)
NAMES = ("mkstrike", "libmkstrike_c.a", prebuilt.ARM_ARCHIVE, *prebuilt.MODULES)


@pytest.fixture(name="made")
def made_dist(tmp_path):
    """A dist/ of made files whose manifest says that they are of these sources."""
    hashes = [prebuilt.sha256(name.encode()) for name in NAMES]
    sources = prebuilt.hash_of_sources("mkstrike"), prebuilt.hash_of_sources("mkstrike_c")
    manifest = prebuilt.Manifest(sources[0], "kit", hashes[0], sources[1], hashes[1], hashes[2], "0" * 64, hashes[3], hashes[4])
    for name in (*NAMES, "mkstrike.html"):
        (tmp_path / name).write_bytes(name.encode())
    (tmp_path / "mkstrike").chmod(0o755)
    (tmp_path / "manifest").write_bytes(prebuilt.manifest_of(manifest))
    return tmp_path, manifest


def looked_at(folder, *words, page=()):
    """What tools/check_dist says that is wrong with a dist/, or None, and what it prints, if these are the faults of the page."""
    changed = ((prebuilt, "DIST", str(folder)), (prebuilt, "kit", lambda: "kit"), (web_page, "faults", lambda _: list(page)),
               (sys, "argv", ["check_dist", *(words or ["--sources"])]))
    with contextlib.ExitStack() as stack:
        for it in changed:
            stack.enter_context(mock.patch.object(*it))
        said = stack.enter_context(contextlib.redirect_stdout(io.StringIO()))
        try:
            return check_dist.main() or None, said.getvalue()
        except prebuilt.Fault as fault:
            return str(fault), said.getvalue()


def fault_of(*words):
    """What is wrong, or None."""
    return looked_at(*words)[0]


@pytest.mark.parametrize("name", NAMES)
def test_file_of_dist(name, made):
    """A file of dist/ that is another one, longer, of another kind, or not there."""
    folder, path = made[0], made[0] / name
    assert fault_of(folder) is None
    for data in (name.encode() + b"x", name.encode()[:-1], name.encode()[:-1] + b"?"):
        path.write_bytes(data)
        assert fault_of(folder) == "dist/%s is not the file that dist/manifest names by its hash" % name
    path.write_bytes(bytes(prebuilt.MOST))
    assert fault_of(folder) == "dist/%s has 1000000 bytes: it has to be under 1000000" % name
    path.write_bytes(name.encode())
    path.chmod(0o644 if name == "mkstrike" else 0o755)
    assert fault_of(folder) == "dist/%s is %sexecutable" % (name, "not " if name == "mkstrike" else "")
    os.rename(path, folder.parent / "kept")
    assert fault_of(folder) == "dist/%s: No such file or directory" % name
    os.symlink(folder.parent / "kept", path)
    assert fault_of(folder) == "dist/%s is not a plain file" % name


def test_other_files_of_dist(made):
    """A file that has no place there; a page that is not there; a manifest with other lines."""
    folder, manifest = made
    (folder / "new").write_bytes(b"")
    assert fault_of(folder) == "dist/new has no place there"
    os.remove(folder / "new")
    os.rename(folder / "mkstrike.html", folder.parent / "page")
    assert fault_of(folder) == "dist/mkstrike.html: No such file or directory"
    os.rename(folder.parent / "page", folder / "mkstrike.html")
    for field, wrong in (("kit", ""), ("program", None), ("sources", "0" * 63), ("module", None)):
        (folder / "manifest").write_bytes(prebuilt.manifest_of(manifest._replace(**{field: wrong})))
        assert fault_of(folder) == "dist/manifest does not have the lines sources kit mkstrike library-sources libmkstrike_c.a"


@pytest.mark.parametrize("name", NAMES)
def test_build(name, made, tmp_path_factory):
    """Each file is compared with the build, byte for byte; but not with --sources."""
    built, folder = tmp_path_factory.mktemp("built"), made[0]
    for it in NAMES:
        (built / it).write_bytes(it.encode())
    options = zip(("--program", "--archive", "--arm", "--modules"), [*(built / it for it in NAMES[:3]), built])
    words, size = [str(it) for pair in options for it in pair], len(name)
    assert fault_of(folder, *words) is None
    (built / name).write_bytes(name.encode() + b"x")
    due = "dist/%s (%d bytes) and %s (%d bytes) are of the same sources, and differ first at byte %d" % (
        name, size, built / name, size + 1, size + 1)
    assert fault_of(folder, *words) == fault_of(folder, *words, "--stale") == due and fault_of(folder, *words, "--sources") is None
    (built / name).write_bytes(name.encode()[:2] + b"?" + name.encode()[3:])
    assert fault_of(folder, *words).endswith("differ first at byte 3")


def test_said(made):
    """What is said of a dist/ that was not built here, and of a page of other sources."""
    how = "of these sources by its manifest, and was not built here"
    said = "check_dist: dist/mkstrike is %s; dist/libmkstrike_c.a is %s" % (how, how)
    assert looked_at(made[0], "--sources") == (None, said + "\n")
    assert looked_at(made[0], "--sources", page=["a fault", "another"]) == ("a fault; another", "")
    assert looked_at(made[0], "--sources", "--stale", page=["a fault", "another"]) == (None, said + "; a fault; another\n")


@pytest.mark.parametrize("field", ["sources", "library_sources"])
def test_other_sources(field, made):
    """Other sources are a fault, unless --stale."""
    folder, name = made[0], "mkstrike" if field == "sources" else "libmkstrike_c.a"
    (folder / "manifest").write_bytes(prebuilt.manifest_of(made[1]._replace(**{field: "0" * 64})))
    assert fault_of(folder) == "dist/%s is of other sources: tools/make_dist makes it anew" % name
    assert fault_of(folder, "--sources", "--stale") is None


def test_said_of_builds(made, tmp_path_factory):
    """What is said of files that were built here, of another kit, and of a dist/ without modules, or of none."""
    folder, built = made[0], tmp_path_factory.mktemp("built")
    for it in NAMES:
        (built / it).write_bytes(it.encode())
    sizes = [("mkstrike", 8), ("libmkstrike_c.a", 15), (prebuilt.ARM_ARCHIVE, 23), ("mkstrike.wasm", 13), ("program.wasm", 12)]
    same = ["dist/%s is the proved build of these sources, byte for byte (%d bytes)" % it for it in sizes]
    kept = "dist/libmkstrike_c.a is of these sources by its manifest, and was not built here"
    options = zip(("--archive", "--arm", "--modules"), [built / NAMES[1], built / NAMES[2], built])
    program, more = ["--program", str(built / "mkstrike")], [str(it) for pair in options for it in pair]
    assert looked_at(folder, *program) == (None, "check_dist: %s; %s\n" % (same[0], kept))
    assert looked_at(folder, *program, *more) == (None, "check_dist: %s\n" % "; ".join(same))
    for name in ("mkstrike.html", *prebuilt.MODULES):
        os.remove(folder / name)
    without = made[1]._replace(kit="another", module_sources=None, module=None, program_module=None)
    (folder / "manifest").write_bytes(prebuilt.manifest_of(without))
    assert looked_at(folder, *program) == (None, "check_dist: %s; %s; %s; %s\n" % (
        same[0], kept, "there is no dist/mkstrike.wasm: tools/make_dist --web makes it",
        "dist/ was made with the kit another, and this one is kit"))
    assert looked_at(folder / "none") == (None, "check_dist: there is no dist/, so there is nothing to check\n")


def test_files_for_others(made, monkeypatch):
    """Other tools get the program and the library if they are of these sources, each for itself."""
    folder, manifest = made
    gets = {"mkstrike": prebuilt.program_of_dist, "libmkstrike_c.a": prebuilt.library_of_dist}
    monkeypatch.setattr(prebuilt, "DIST", str(folder))
    for field, name in (("sources", "mkstrike"), ("library_sources", "libmkstrike_c.a")):
        (folder / "manifest").write_bytes(prebuilt.manifest_of(manifest._replace(**{field: "0" * 64})))
        for other, get in gets.items():
            if other != name:
                assert get() == other.encode()
            else:
                with pytest.raises(prebuilt.Fault) as found:
                    get()
                due = "dist/%s is of other sources: make it anew by tools/make_dist, or name the file" % name
                assert str(found.value) == due
    (folder / "libmkstrike_c.a").write_bytes(b"another")
    with pytest.raises(prebuilt.Fault, match="^dist/libmkstrike_c.a is not the file"):
        prebuilt.program_of_dist()
    monkeypatch.setattr(prebuilt, "DIST", str(folder / "none"))
    with pytest.raises(prebuilt.Fault, match="^there is no dist/: make it by tools/make_dist, or name the file$"):
        prebuilt.program_of_dist()
