"""Tries mutants in a copy of the repository: each by the tests that look at its file, those that call its function first."""
import collections
import contextlib
import glob
import json
import os
import re
import shlex
import shutil
import signal
import subprocess
import tempfile
import time

from program import python_with

HERE = os.path.dirname(os.path.realpath(__file__))
QUIET = ["-x", "-q", "--tb=line", "-p", "no:cacheprovider", "-p", "sitecustomize"]
# Compiles a source in C for a system and for firmware, and one in JavaScript.
COMPILERS = {".c": "for it in M MKSTRIKE_BARE; do cc -std=c99 -O2 -Iinclude -Ic -D$it -c out/made.c -o out/$it.o || exit 1; done",
             ".mjs": "node --check out/made.mjs"}
KILLED, SURVIVED, LESS, EQUAL, NO_PROGRAM = "killed", "survived", "left out", "equal", "no program"


class Command:
    """A command that passes as it is: its seconds; and of pytest the seconds of each test, and which tests call a function."""

    def __init__(self, words, seconds, folder):
        self.words, self.seconds, self.times, self.callers = words, seconds, {}, collections.defaultdict(set)
        self.is_sure = False  # whether it was seen to pass again after a kill
        for name in glob.glob(os.path.join(folder, "*.json")):
            with open(name, encoding="utf-8") as file:
                seen, times = json.load(file)
            self.times.update(times)
            for test, path, line in ((test, *it) for test, calls in seen for it in calls):
                self.callers[path, line].add(test)

    def tests(self, path, line, most):
        """The tests for a line, and their seconds, which end at `most`: those that call its function, those of its file, then the
        others, quick ones first."""
        of_file = {at: tests for (of, at), tests in self.callers.items() if of == path}
        own, near = of_file.get(max((at for at in of_file if at <= line), default=0), set()), set().union(*of_file.values())
        found, total = [], 0
        for test in sorted(self.times, key=lambda it: (it not in own, it not in near, self.times[it])):
            if found and total + self.times[test] > most:
                break
            found, total = found + [test], total + self.times[test]
        return found, total + max(self.times.values(), default=self.seconds)


class Copy:
    """A copy of the repository, in which mutants are tried by commands."""

    def __init__(self, top, folder, program):
        self.top, self.known, python = os.path.join(os.path.realpath(folder), "top"), {}, python_with(["pytest"])
        # what a link leads to is copied, since it must not be written
        shutil.copytree(top, self.top, ignore=shutil.ignore_patterns(".git", "out", "__pycache__"))
        shutil.copy(os.path.join(HERE, "seen.py"), self.at("python/sitecustomize.py"))
        self.named = {"pytest": [python, "-m", "pytest", *QUIET], "python3": [python]}
        self.env = {name: it for name, it in os.environ.items() if not name.startswith(("PYTHON", "MKSTRIKE", "PYTEST"))}
        self.env.update(
            PATH=os.path.dirname(python) + ":" + os.environ["PATH"], PYTHONPATH=self.at("python"), PYTHONDONTWRITEBYTECODE="1",
            TMPDIR=os.path.join(os.path.dirname(self.top), "kept"), MKSTRIKE_PROGRAM=program, MKSTRIKE_MODULES=self.at("dist"))
        os.makedirs(self.env["TMPDIR"])  # outside: what tests leave there is no part of the repository
        os.mkdir(self.at("out"))

    def at(self, path):
        return os.path.join(self.top, path)

    def get(self, path):
        with open(self.at(path), "rb") as file:
            return file.read()

    def put(self, path, data):
        with open(self.at(path), "wb") as file:
            file.write(data)

    def run(self, words, limit=60, **more):
        """Runs a command; returns its status, or None if it takes longer, and what it said. Nothing of it is left."""
        words, env = [it for word in words for it in self.named.get(word, [word])], {**self.env, **more}
        with tempfile.TemporaryFile() as said:
            how = {"stdin": subprocess.DEVNULL, "stdout": said, "stderr": said, "start_new_session": True}
            process = subprocess.Popen(words, cwd=self.top, env=env, **how)
            try:
                status = process.wait(limit)
            except subprocess.TimeoutExpired:
                status = None
            finally:
                with contextlib.suppress(ProcessLookupError):
                    os.killpg(process.pid, signal.SIGKILL)
                process.wait()
            said.seek(0)
            return status, said.read().decode(errors="replace")

    def unchanged(self, command, patterns):
        """Runs a command for these files on the sources as they are, once."""
        if command not in self.known:
            words, start, folder = shlex.split(command), time.monotonic(), tempfile.mkdtemp(dir=self.top)
            paths = [path for it in patterns for path in glob.glob(self.at(it))]
            status, said = self.run(words, 3600, MUTATE_SEEN=folder, MUTATE_FILES=":".join(paths))
            if status:
                raise SystemExit("mutate: %s fails as it is: %s" % (command, said[-900:]))
            self.known[command] = Command(words, time.monotonic() - start, folder)
            print("%-10s %5.1f s  %s" % ("unchanged", self.known[command].seconds, command), flush=True)
        return self.known[command]

    def try_by(self, known, mutant, most):
        """What a command makes of a mutant. A run that leaves out more tests than the unchanged one is no kill and no pass."""
        tests, seconds = known.tests(self.at(mutant.path), mutant.line, most)
        self.put("out/tests", "\n".join(tests).encode())
        limit = 20 + 3 * seconds
        status, said = self.run(known.words, limit, MUTATE_TESTS=self.at("out/tests"))
        if status in (0, 3, 5):  # 3 is of a tool that left out all, 5 of pytest without a test
            passed = sum(map(int, re.findall(r"(\d+) passed", said.rstrip().split("\n")[-1])))
            return (LESS if status or passed < len(tests) else SURVIVED), ""
        found = re.search(r"^(?:FAILED|ERROR) (\S+)", said, re.M)
        return KILLED, "past %d s" % limit if status is None else found.group(1) if found else " ".join(known.words)

    def made(self, path, data):
        """What a compiler makes of a source, or the source itself; None if it is no program."""
        kind = os.path.splitext(path)[1].replace(".js", ".mjs")
        if kind in COMPILERS:
            self.put("out/made" + kind, data)
            is_made = self.run(["sh", "-c", COMPILERS[kind]])[0] == 0
            return None if not is_made else data if kind == ".mjs" else [self.get("out/M.o"), self.get("out/MKSTRIKE_BARE.o")]
        try:
            return compile(data, path, "exec") and data
        except SyntaxError:
            return None

    def judge(self, mutant, group, most):
        """What becomes of a mutant of a group of files, and what found it."""
        data = self.get(mutant.path)
        changed, found = data[:mutant.start] + mutant.new + data[mutant.end:], {SURVIVED}
        made = self.made(mutant.path, changed)
        if made in (None, self.made(mutant.path, data)):
            return (NO_PROGRAM if made is None else EQUAL), ""
        for command in group[1]:
            known = self.unchanged(command, group[0])
            self.put(mutant.path, changed)
            how, by = self.try_by(known, mutant, most)
            self.put(mutant.path, data)
            if how == KILLED and not known.is_sure and self.try_by(known, mutant, most)[0] != SURVIVED:
                raise SystemExit("mutate: %s fails without the mutant too" % command)
            if how == KILLED:
                known.is_sure = True
                return how, by
            found.add(how)
        return min(found), ""
