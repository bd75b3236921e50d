"""Sees which test of pytest calls which function of some files, also in programs that a test starts; runs named tests in order.

A copy is sitecustomize, which each Python imports that has its folder on PYTHONPATH, and a plugin of pytest. MUTATE_FILES names the
files, MUTATE_SEEN the folder where a process leaves what it saw, and MUTATE_TESTS a file with the names of the tests to run."""
import atexit
import functools
import json
import os
import sys
import threading

FILES, TO, TESTS = os.environ.get("MUTATE_FILES", "").split(":"), os.environ.get("MUTATE_SEEN"), os.environ.get("MUTATE_TESTS")
SEEN, TIMES, PASSED = {}, {}, []
NOW = SEEN[os.environ.get("PYTEST_CURRENT_TEST", "").rpartition(" (")[0]] = set()
real = functools.cache(os.path.realpath)


def see_call(frame, _event, _arg):
    if real(frame.f_code.co_filename) in FILES:
        NOW.add((real(frame.f_code.co_filename), frame.f_code.co_firstlineno))


def leave():
    sys.settrace(None)
    with open(os.path.join(TO, "%d.json" % os.getpid()), "w", encoding="utf-8") as out:
        json.dump([[(test, sorted(calls)) for test, calls in SEEN.items()], {it: TIMES[it] for it in PASSED}], out)


if TO:
    sys.settrace(see_call)
    threading.settrace(see_call)
    atexit.register(leave)


def pytest_runtest_logstart(nodeid):
    global NOW
    NOW = SEEN.setdefault(nodeid, set())


def pytest_runtest_logreport(report):
    TIMES[report.nodeid] = TIMES.get(report.nodeid, 0) + report.duration
    PASSED.extend([report.nodeid] * (report.when == "call" and report.passed))


def pytest_collection_modifyitems(items):
    if TESTS:
        with open(TESTS, encoding="utf-8") as file:
            place = {name: k for k, name in enumerate(file.read().split("\n"))}
        items[:] = sorted((it for it in items if it.nodeid in place), key=lambda it: place[it.nodeid])
