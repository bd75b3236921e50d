"""A small stand-in for pytest, where that is not installed: what these tests use of fixtures, parametrize, skip, raises and -k, and
no more.

    PYTHONPATH=tests/lib/without_pytest python3 -m pytest tests/program -k face

tools/run_checks does so, so that the gate needs no package of Python.
"""
import configparser
import contextlib
import functools
import glob
import importlib.util
import inspect
import os
import pathlib
import re
import sys
import tempfile
import time
import traceback
import types

TOP = pathlib.Path(__file__).resolve().parents[3]


class Outcome(BaseException):
    """How a test ended before its end: left out, or failed with a text."""


class Skipped(Outcome):
    """Left out."""


def skip(reason):
    """Leaves a test out."""
    raise Skipped(reason)


def fail(reason, pytrace=True):
    """Fails a test; `pytrace` is for the real pytest."""
    del pytrace
    raise Outcome(reason)


@contextlib.contextmanager
def raises(expected, match=""):
    """Expects an exception of a type, with a text that a pattern finds. It is the `value` of what is given."""
    given = types.SimpleNamespace(value=None)
    try:
        yield given
    except expected as raised:
        given.value = raised
        if not re.search(match, str(raised)):
            fail("%r is not in %r" % (match, str(raised)))
    else:
        fail("%s was not raised" % expected.__name__)


def fixture(function=None, name=None, scope="function"):
    """Marks a function as a fixture."""
    def mark_it(made):
        made.fixture = name or made.__name__, scope
        return made
    return mark_it(function) if function else mark_it


class mark:
    """The marks of tests."""

    @staticmethod
    def parametrize(names, values, ids=None):
        """A test for each value of an argument, or of several whose names have commas between."""
        names, values = re.split(", *", names), list(values)
        given = [dict(zip(names, it if len(names) > 1 else [it])) for it in values]

        def add(function):
            function.given = list(zip(given, ids or [getattr(it, "__name__", str(it)) for it in values]))
            return function
        return add


class Folders:
    """The fixture tmp_path_factory."""

    def __init__(self, top):
        self.top = pathlib.Path(top)

    def mktemp(self, name):
        """A new folder."""
        return pathlib.Path(tempfile.mkdtemp(prefix=name, dir=self.top))


class Patches:
    """The fixture monkeypatch: what it sets is as before when the test ends."""

    def __init__(self):
        self.before = []

    def setattr(self, owner, name, value):
        """Sets an attribute."""
        self.before.append(functools.partial(setattr, owner, name, getattr(owner, name)))
        setattr(owner, name, value)

    def setenv(self, name, value):
        """Sets a variable of the environment."""
        had = name in os.environ
        self.before.append(functools.partial(os.environ.__setitem__, name, os.environ[name]) if had else
                           functools.partial(os.environ.pop, name))
        os.environ[name] = value

    def undo(self):
        """Takes all back, the last first."""
        while self.before:
            self.before.pop()()


class Tests:
    """The tests of files, and the fixtures that they share."""

    def __init__(self, top):
        self.fixtures, self.made, self.folders, self.patches = {}, {}, Folders(top), Patches()

    def load(self, path):
        """Imports a file, and takes its fixtures."""
        sys.path.insert(0, os.path.dirname(path))
        name = os.path.basename(path)[:-3]
        if name == "conftest":
            spec = importlib.util.spec_from_file_location("conftest_%d" % len(self.fixtures), path)
            module = importlib.util.module_from_spec(spec)
            spec.loader.exec_module(module)
        else:
            module = importlib.import_module(name)
        for it in vars(module).values():
            if inspect.isfunction(it) and hasattr(it, "fixture"):
                self.fixtures[it.fixture[0]] = it
        return module

    def value(self, name, module):
        """What a fixture gives."""
        if name == "tmp_path_factory":
            return self.folders
        if name == "tmp_path":
            return self.folders.mktemp("test")
        if name == "monkeypatch":
            return self.patches
        function = self.fixtures[name]
        key = name, {"session": None, "module": module}.get(function.fixture[1], object())
        if key not in self.made:
            try:
                self.made[key] = self.call(function, module)
            except Skipped as left:
                self.made[key] = left
        if isinstance(self.made[key], Skipped):
            raise self.made[key]
        return self.made[key]

    def call(self, function, module, **given):
        """Calls a function with its fixtures."""
        names = [it for it in inspect.signature(function).parameters if it not in given]
        return function(**given, **{it: self.value(it, module) for it in names})

    def of(self, path):
        """The tests of a file: their names, and what runs them."""
        if os.path.exists(os.path.join(os.path.dirname(path), "conftest.py")):  # with hooks, which only pytest itself calls
            yield os.path.relpath(path), functools.partial(skip, "no pytest (Debian: python3-pytest)")
            return
        module = self.load(path)
        for name, function in [it for it in vars(module).items() if it[0].startswith("test_") and callable(it[1])]:
            where = "%s::%s" % (os.path.relpath(path), name)
            if not hasattr(function, "given"):
                yield where, functools.partial(self.call, function, path)
                continue
            for given, text in function.given:
                yield "%s[%s]" % (where, text), functools.partial(self.call, function, path, **given)


def is_wanted(name, expression):
    """Whether a test's name fits an expression of -k."""
    def truth(word):
        return word.group() if word.group() in ("and", "or", "not") else str(word.group().lower() in name.lower())
    return not expression or eval(re.sub(r"[\w.\[\]-]+", truth, expression))  # pylint: disable=eval-used


def files_of(paths, ignored):
    """The files of tests below paths."""
    found = []
    for path in paths:
        found += sorted(glob.glob(os.path.join(path, "**/test_*.py"), recursive=True)) if os.path.isdir(path) else [path]
    return [it for it in map(os.path.abspath, found) if it not in map(os.path.abspath, ignored)]


def main(words):
    """Runs the tests that the words of a command line name."""
    expression = next((words[k + 1] for k, it in enumerate(words) if it == "-k"), "")
    paths = [it for k, it in enumerate(words) if not it.startswith("-") and words[k - 1:k] not in (["-k"], ["-p"])]
    ini, start, counts = configparser.ConfigParser(), time.monotonic(), {"failed": 0, "passed": 0, "skipped": 0}
    ini.read(TOP / "setup.cfg")
    sys.path[:0] = [str(TOP / it) for it in ini["tool:pytest"]["pythonpath"].split()]
    with tempfile.TemporaryDirectory() as folder:
        tests = Tests(folder)
        tests.load(str(TOP / "tests/conftest.py"))
        for path in files_of(paths or [str(TOP / "tests")], [it.partition("=")[2] for it in words if it.startswith("--ignore=")]):
            for name, run in [it for it in tests.of(path) if is_wanted(it[0], expression)]:
                how, said = "passed", ""
                try:
                    run()
                except Skipped as left:
                    how, said = "skipped", "SKIPPED [1] %s: %s" % (name.split("::")[0], left)
                except Outcome as failed:
                    how, said = "failed", "FAILED %s\n%s" % (name, failed)
                except (Exception, SystemExit):  # pylint: disable=broad-except
                    how, said = "failed", "FAILED %s\n%s" % (name, traceback.format_exc())
                tests.patches.undo()
                counts[how] += 1
                print(said + "\n" if said else "", end="", flush=True)
    told = ", ".join("%d %s" % (number, how) for how, number in counts.items() if number)
    print("%s in %.2fs" % (told or "no tests ran", time.monotonic() - start))
    return 1 if counts["failed"] else 0 if any(counts.values()) else 5


if __name__ == "__main__":
    import pytest  # the module that the tests import, not this one
    sys.exit(pytest.main(sys.argv[1:]))
