"""Tries each check of the gate on something that is wrong, on which it must end with status 1.

A check that finds faults but ends with 0, or compares too little, passes everything from then on, and nobody sees it. TRIALS has
for each check at least one thing that is wrong: a program that turns a digit of a row, loses the last byte, ends with status 1,
sleeps or tells another number; or a copy of this repository in which one thing is other. A trial also says a word that must be in
what the check prints, so that it has ended for that fault and no other. Each check that the gate names (tools/run_checks --list)
must have a trial, and each that has one must be in the gate. A trial runs the part of a check that finds its fault, since some
checks take minutes.
"""
import contextlib
import os
import re
import shlex
import shutil
import subprocess
import tempfile

import pytest
from needs import dist, left_out
from prebuilt import TOP
from test_run_checks import run_checks

LONGEST = 400  # seconds that a trial may take
COPIED = ("tools", "tests", "packaging", "suite", "bin", "dist")  # what a copy of the repository has as files, not as links
MODES = {"--check", "--sources", "--cover", "--every", "--reference"}  # words that make another check of a tool

# A program that runs another one, and changes what it gives: PROGRAM and the line CHANGE are put in.
WRAPPER = """#!/usr/bin/python3 -IS
import re, subprocess, sys, time
ran = subprocess.run([PROGRAM, *sys.argv[1:]], capture_output=True)
status, out, told = ran.returncode, ran.stdout, ran.stderr
CHANGE
sys.stdout.buffer.write(out)
sys.stdout.flush()
sys.stderr.buffer.write(told)
sys.exit(status)
"""
PROGRAMS = {
    "a digit of a row": r"""out = re.sub(rb"(?<=BITMAP\n)[0-9A-F]", lambda it: b"%X" % (int(it.group(), 16) ^ 1), out, count=1)
out = out.replace(b"#", b".", 1)""",
    "the last byte lost": "out = out[:-1]",
    "status 1": "status = 1",
    "sleeps": "time.sleep(600)",
    "another number": r"""told = re.sub(rb"\d(?=\n$)", lambda it: b"%d" % (int(it.group()) ^ 1), told)""",
}
# A loop without a label, and room that nobody listed: faults of the first rule of rules.py, and of one of forms.py.
LOOP = "//! Loops.\n\n/// A loop.\nfn endless() {\n    // It goes on.\n    loop {}\n}\n"
ROOM = "//! Room.\n\n/// Room.\nfn room() -> Vec<u8> {\n    vec![0; 9]\n}\n"
NEW = "crates/fx_fixed/src/made_for_a_trial.rt"
# A right case in a group whose readings do not touch it: glyph 2 of the font for scan conversion is a square of one pixel.
UNCOVERED = """{"id":"tables/uncovered","group":"tables","font":"scan.ttf","ppem":16,"glyph":2,"hinted":false,"dropout":false,\
"want":["outline"],"expect":{"advance":640,"outline":[[[0,0,1],[0,64,1],[64,64,1],[64,0,1]]]}}\n"""


# What a check, or a trial, needs to look at anything: without it the trial is left out.
NEEDS = {"tests/c": "cc", "tests/program/test_work.py": "valgrind", "tests/python": "pytest",
         "tests/web -k 'not planted'": "chromium", "tests/web -k planted": "node",
         "tests/program/test_memory.py": "cc", "tests/packages": "dpkg-deb",
         "a stand-in that skips nothing": "pytest", "tools/mutate": "pytest"}
# Checks that look at dist/, and at nothing if it is of other sources.
OF_DIST = {"tools/check_dist", "tests/c", "tests/python", "tests/web", "tools/fuzz_c", "tests/packages"}


class Trial:
    """A check, what is wrong, a word of what it must print, its command, and what is changed in a copy of the repository.

    In a command PROGRAM is the right program and WRONG the wrong one. A change is a path, what is replaced there, and by
    what; where nothing is replaced the text is put at the end, or is a new file."""

    def __init__(self, check, wrong, word, command, *changes):
        self.check, self.wrong, self.word, self.command, self.changes = check, wrong, word, command, changes


FAILED = r"[1-9]\d* failed"
TRIALS = [
    Trial("tests/house", "a fault of the first rule", FAILED, "pytest tests/house/test_rules.py -k loops_labelled",
          (NEW, "", LOOP)),
    Trial("tests/house", "bits of the mode exchanged", r"MKSTRIKE_DROPOUT_NEAR is 8",
          "pytest tests/house/test_rules.py -k 'header and not planted'",
          ("include/mkstrike.h", "NEAR UINT32_C(0x004)", "NEAR UINT32_C(0x008)")),
    Trial("tests/house", "a rule that finds nothing", FAILED, "pytest tests/house/test_rules.py -k 'planted and loops'",
          ("tests/house/rules.py", "        if not label:", "        if False:")),
    Trial("tests/house", "room that nobody listed", r"1 failed", "pytest tests/house/test_forms.py -k sources", (NEW, "", ROOM)),
    Trial("tests/house", "a rule of forms that finds nothing", FAILED, "pytest tests/house/test_forms.py",
          ("tests/house/forms.py", "(OutOfMemory|AllocError|AllocFailed)", "(Nothing)")),
    Trial("tests/house", "a failure is not told", FAILED, "pytest tests/house/test_run_checks.py -k told",
          ("tools/run_checks", "FAILED if failed else PASSED", "PASSED")),
    Trial("tests/house", "what was left out is not counted", FAILED, "pytest tests/house/test_run_checks.py -k counts",
          ("tools/run_checks", "found[\"error\"], 1 if status else 0), found[\"skipped\"]",
           "found[\"error\"], 1 if status else 0), 0")),
    Trial("tests/house", "a stand-in that skips nothing", FAILED, "pytest tests/house/test_run_checks.py -k 'stand_in and out'",
          ("tests/lib/without_pytest/pytest.py", 'how, said = "skipped", ', 'how, said = "passed", ')),
    Trial("tests/house/test_documents.py -k 'not planted'", "a digit of a row", FAILED,
          "pytest tests/house/test_documents.py -k show"),
    Trial("tests/house/test_documents.py -k 'not planted'", "status 1", FAILED, "pytest tests/house/test_documents.py -k show"),
    Trial("tests/house/test_documents.py -k planted", "outputs are not compared", FAILED,
          "pytest tests/house/test_documents.py -k planted[1]",
          ("tests/house/documents.py", "        return shown == printed", "        return True")),
    Trial("tools/check_dist --sources", "another byte", r"is not the file that dist/manifest names", "tools/check_dist --sources",
          ("dist/mkstrike", "", "x")),
    Trial("tools/check_dist", "another program", r"are of the same sources, and differ", "tools/check_dist --program WRONG"),
    Trial("tests/program", "a digit of a row", FAILED, "pytest tests/program/test_input.py -k names"),
    Trial("tests/program", "the last byte lost", FAILED, "pytest tests/program/test_input.py -k names"),
    Trial("tests/program", "status 1", FAILED, "pytest tests/program/test_input.py -k names"),
    Trial("tests/program", "another number", FAILED, "pytest tests/program/test_input.py -k names"),
    Trial("tests/program", "sleeps", r"no end within 3 seconds",
          "env MKSTRIKE_PATIENCE=3 pytest tests/program/test_time.py -k programs_that_run_once"),
    Trial("suite/make --check --reference", "an answer of cases.jsonl", r"differs: cases.jsonl",
          "suite/make --check --reference --only stack", ("suite/cases.jsonl", '"id":"stack/dup-0",', '"id":"stack/dup-00",')),
    Trial("suite/wrong_readings.py --cover", "a case that falls under no reading", r"1 fall under no reading",
          "suite/wrong_readings.py --cover --only tables", ("suite/cases.jsonl", "", UNCOVERED)),
    Trial("suite/wrong_readings.py --cover", "a reference that breaks down counts", r"although the reference broke down",
          "suite/wrong_readings.py --cover --only tables",
          ("suite/wrong_readings.py", "        return False", "        return True")),
    Trial("suite/check_runner", "paths off by one pass", r"[1-9]\d* wrong", "suite/check_runner --only 'paths off'",
          ("suite/paths.py", "NEAR = 1 ", "NEAR = 2 ")),
    Trial("suite/check_runner", "a glyph passes for a refusal", r"[1-9]\d* wrong", "suite/check_runner --only judged",
          ("suite/compare.py", '        return "not refused: %s" % expected["name"]', "        return None")),
    Trial("tools/third_party --check", "another notice", r"not as the kit has it", "tools/third_party --check",
          ("THIRD-PARTY.md", "Danny Guo", "Danny")),
    Trial("suite/run --every", "a digit of a row", r"[1-9]\d* wrong",
          "suite/run --every --only scan/box-0 --with suite/adapters/mkstrike"),
    Trial("tests/front -k 'not planted'", "status 1", FAILED, "pytest tests/front -k 'fonts_by and not planted'"),
    Trial("tests/front -k planted", "failures are not kept", FAILED, "pytest tests/front -k planted[17]",
          ("tests/front/front.py", 'self.wrong += ["%s: %s" % (what, wrong)] if wrong else []', "self.wrong += []")),
    Trial("tests/program/test_memory.py", "a program that does nothing", FAILED,
          "env MKSTRIKE_PROGRAM=/bin/true pytest tests/program/test_memory.py"),
    Trial("tests/program/test_work.py", "a program that does nothing", FAILED,
          "env MKSTRIKE_PROGRAM=/bin/true pytest tests/program/test_work.py -k memory"),
    Trial("tests/program/test_work.py", "another cost", r"and 1000000 are due", "pytest tests/program/test_work.py -k costs[9]",
          ("tests/program/counted_work.txt", re.compile(rb"\d+(?= \d+ branches)"), "1000000")),
    Trial("tests/c", "a digit of a row", FAILED, "pytest tests/c -k bare"),
    Trial("tests/c", "NULL with its count", FAILED, "pytest tests/c -k null",
          ("c/calls.c", "it != NULL ? it##_len : 0", "it##_len")),
    Trial("tests/c", "an arena without large pieces", FAILED, "pytest tests/c -k direct[arena]",
          ("c/arena.c", "SIZES = 40", "SIZES = 24")),
    Trial("tests/python", "another method", r"1 failed", "pytest tests/python -k what_a_strike_says",
          ("python/mkstrike/glyph.py", "return self.bottom + self.height", "return self.bottom")),
    Trial("tests/packages", "another file each time", FAILED, "pytest tests/packages -k again",
          ("packaging/build", "deb mkstrike amd64 dist/mkstrike\n",
           "date +%N >\"$tree/now\"\ndeb mkstrike amd64 dist/mkstrike\ncd \"$made\"\nsha256sum -- *\nmv -- * \"$to\"\nexit\n")),
    Trial("tests/web -k 'not planted'", "another caption", FAILED, "env MKSTRIKE_MODULES=dist pytest tests/web -k controls",
          ("dist/mkstrike.html", "pixels differ", "pixels vary")),
    Trial("tests/web -k planted", "a fault that is none", FAILED,
          "env MKSTRIKE_MODULES=dist pytest tests/web -k 'planted and unlink'",
          ("tests/web/test_npm.py", '"system.unlinkSync(path(name))", "0")', '"0o1, O_RDWR", "0o1, O_RDWR")')),
    Trial("tools/fuzz_c", "a call that is not made", r"never calls mkstrike_version", "tools/fuzz_c --runs 1",
          ("tools/fuzz_c.c", "mkstrike_version()", "MKSTRIKE_VERSION")),
    Trial("tools/fuzz_c", "a fault of the library", r"a fault", "tools/fuzz_c --runs 400",
          ("tools/fuzz_c.c", 'sprintf(heights, "\\nFONT_ASCENT %d', 'sprintf(heights, "\\nFONT_ASCENT 0%d')),
    Trial("tools/damage", "status 1", r"broken: [1-9]", "tools/damage --count 20 --program WRONG --keep KEEP"),
    Trial("tools/mutate", "examples that pass everything", r"1 survived; score 0 %",
          "tools/mutate suite --at-least 60 --only 'answer.get(\"refusal\", {}), dict) -> False'",
          ("suite/judged.py", "for it in tried if it[1] != it[2]]", "for it in tried if False]")),
    Trial("tests/house/test_checks.py", "a check that passes everything", r"it ends with status 0",
          "pytest tests/house/test_checks.py -k 'trial and a_rule_that_finds_nothing'",
          ("tests/house/test_rules.py", "    assert lines[:1] == ", "    assert True or lines[:1] == ")),
    Trial("tests/house/test_checks.py", "a check without a trial", r"tools/damage has no trial",
          "pytest tests/house/test_checks.py -k has_a_trial",
          ("tests/house/test_checks.py", 'Trial("tools/damage", ' + '"status', 'Trial("tools/damages", "status')),
]


def name_of(command):
    """The name of a check of the gate: its command without arguments, but for the words that make another check of a tool."""
    words = run_checks.Check(command, "/a program", False).name.split()
    return " ".join(words[:1] + [it for it in words[1:] if it in MODES or words[0].startswith("tests/")])


def test_each_check_has_a_trial():
    """Each check of the gate has one, and the gate runs each that has."""
    gate = {name_of(it) for commands in run_checks.CHECKS.values() for it in commands}
    tried_here = {it.check for it in TRIALS}
    wrong = ["%s has no trial" % it for it in sorted(gate - tried_here)] + ["the gate does not run %s" % it
                                                                            for it in sorted(tried_here - gate)]
    assert not wrong, "\n".join(wrong)


# ---- what is wrong

def folders_of(path):
    """The folders on the way to a path, from the top, which is an empty text."""
    parts = path.split("/")[:-1]
    return ["/".join(parts[:end]) for end in range(len(parts) + 1)]


def copied(folder, changes):
    """A copy of the repository in a folder, with changes: links to what stays as it is, but for what finds itself by its path."""
    opened = sorted({it for path, _, _ in changes for it in folders_of(path)})
    for part in opened:
        os.makedirs(os.path.join(folder, part), exist_ok=True)
        for name in os.listdir(os.path.join(TOP, part)):
            path = os.path.join(part, name)
            source, target = os.path.join(TOP, path), os.path.join(folder, path)
            if path in opened or name in (".git", "out"):
                continue
            if path.split("/")[0] not in COPIED:
                os.symlink(source, target)
            elif os.path.isdir(source):
                shutil.copytree(source, target)
            else:
                shutil.copy(source, target)
    for path, old, new in changes:
        change(os.path.join(TOP, path), os.path.join(folder, path), old, new)


def change(source, target, old, new):
    """Writes a file anew in which a text, or what fits a pattern, is replaced. Where that is empty the new text is put at the
    end."""
    data = b""
    if os.path.exists(source):
        with open(source, "rb") as file:
            data = file.read()
    pattern = old if isinstance(old, re.Pattern) else re.compile(re.escape(old.encode()))
    if old and len(pattern.findall(data)) != 1:
        raise LookupError("%s has no `%s`, or has it several times" % (os.path.relpath(source, TOP), old))
    if os.path.lexists(target):
        os.remove(target)  # it may be a link to the right one
    with open(target, "wb") as file:
        file.write(pattern.sub(lambda _: new.encode(), data) if old else data + new.encode())
    if data:
        shutil.copymode(source, target)


def wrong_one(trial, folder, program):
    """The path of the wrong program."""
    path, text = (os.path.join(folder, "wrong"),
                  WRAPPER.replace("PROGRAM", repr(program)).replace("CHANGE", PROGRAMS.get(trial.wrong, "pass")))
    with open(path, "w", encoding="utf-8") as file:
        file.write(text)
    os.chmod(path, 0o755)
    return path


# ---- trying

def text_of(words, folder, env):
    """Runs a check. Returns its status, or None if it does not end, and what it said; nothing of it is left."""
    with tempfile.TemporaryFile() as said:
        process = subprocess.Popen(words, cwd=folder, env=env, stdin=subprocess.DEVNULL, stdout=said, stderr=said,
                                   start_new_session=True)
        try:
            status = process.wait(LONGEST)
        except subprocess.TimeoutExpired:
            status = None
        finally:
            with contextlib.suppress(ProcessLookupError):
                os.killpg(process.pid, 9)
            process.wait()
        said.seek(0)
        return status, said.read().decode(errors="replace")


def look_for(what, trial):
    """Leaves a trial out if the check lacks what it needs to look at anything."""
    if not shutil.which(what):
        left_out(what)
    if trial.check.split()[0] in OF_DIST:
        dist()


@pytest.mark.parametrize("trial", TRIALS, ids=["%s, %s" % (it.check, it.wrong.replace(" ", "_")) for it in TRIALS])
def test_trial(trial, program, tmp_path):
    """A check finds what is wrong."""
    look_for(NEEDS.get(trial.wrong, NEEDS.get(trial.check, "sh")), trial)
    top = tmp_path / "top"
    top.mkdir()
    if trial.changes:
        copied(str(top), trial.changes)
    wrong, (pytest_words, more) = wrong_one(trial, str(tmp_path), program), run_checks.pytest()
    given = {"PROGRAM": [program], "WRONG": [wrong], "KEEP": [str(tmp_path / "kept")], "pytest": [*pytest_words, *run_checks.HOW]}
    words = [it for word in shlex.split(trial.command) for it in given.get(word, [word])]
    more = {name: it.replace(TOP, str(top)) if trial.changes else it for name, it in more.items()}  # the stand-in of the copy
    env = {**os.environ, **more, "MKSTRIKE_PROGRAM": program if trial.changes else wrong, "PYTHONDONTWRITEBYTECODE": "1"}
    status, text = text_of(words, top if trial.changes else TOP, env)
    assert status is not None, "it has not ended after %d s" % LONGEST
    if status == run_checks.ALL_LEFT_OUT:
        pytest.skip(text.strip().rpartition(": left out: ")[2])
    assert status, "it ends with status 0: %s" % text[-300:]
    assert re.search(trial.word, text), "it does not say `%s`: %s" % (trial.word, text[-600:])
