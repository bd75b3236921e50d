"""Finds what the checks run: the program, and Python with some modules."""
import os
import subprocess
import sys

import prebuilt
from prebuilt import TOP

__all__ = ["TOP", "find_program", "python_with"]


def find_program(named=None):
    """The path of the program named, here or by MKSTRIKE_PROGRAM; else of dist/mkstrike if it is of these sources; else of the one
    that was built."""
    named = named or os.environ.get("MKSTRIKE_PROGRAM")
    place, advice = named or prebuilt.BUILT, ""
    if not named:
        try:
            prebuilt.program_of_dist()
            return os.path.join(prebuilt.DIST, "mkstrike")
        except prebuilt.Fault as fault:
            advice = ". `make` builds it, or MKSTRIKE_PROGRAM names one; %s" % fault
    if not os.access(place, os.X_OK):
        raise SystemExit("no program: %s%s" % (prebuilt.shown(place), advice))
    return os.path.abspath(place)


def python_with(modules):
    """The first Python here that has these modules: the one that runs, or Debian's; or None."""
    code = "import importlib.util, sys; sys.exit(any(importlib.util.find_spec(it) is None for it in sys.argv[1:]))"
    env = {name: it for name, it in os.environ.items() if name != "PYTHONPATH"}
    for python in dict.fromkeys([sys.executable, "/usr/bin/python3"]):
        if os.access(python, os.X_OK) and not subprocess.run([python, "-c", code, *modules], env=env, check=False).returncode:
            return python
    return None
